/* The header in a program of its own, and twice, as C99, C11 and C++17: each macro and each call is used. Exits 1 where a
 * call does not answer as the README's circuit must, or the two forms of the version are not the same.
 */
#include "chudravik.h"

#include "chudravik.h"

#include <stdio.h>
#include <string.h>

static const char text[] = "aag 3 0 2 1 1\n2 4\n4 2 1\n6\n6 4 2\n";

static uint16_t table[CHUDRAVIK_MOST_TABLE_WORDS];
static uint8_t cubes[CHUDRAVIK_MOST_CUBE_BYTES];
static uint8_t written[CHUDRAVIK_MOST_WRITTEN];
static uint8_t state[CHUDRAVIK_RECORD_BYTES(CHUDRAVIK_MOST_LATCHES)];
static uint8_t switches[CHUDRAVIK_RECORD_BYTES(CHUDRAVIK_MOST_INPUTS)];
static uint8_t lamps[CHUDRAVIK_RECORD_BYTES(CHUDRAVIK_MOST_LAMPS)];
static uint8_t next[CHUDRAVIK_RECORD_BYTES(CHUDRAVIK_MOST_LATCHES)];

static int version_agrees(void)
{
    char due[16];
    snprintf(due, sizeof due, "%d.%d.%d", CHUDRAVIK_VERSION / 10000, CHUDRAVIK_VERSION / 100 % 100,
             CHUDRAVIK_VERSION % 100);
    return strcmp(due, CHUDRAVIK_VERSION_STRING) == 0;
}

static int reads(chudravik_counts *counts)
{
    chudravik_read_answer read =
        chudravik_read((const uint8_t *)text, sizeof text - 1, table, CHUDRAVIK_MOST_TABLE_WORDS);
    *counts = read.counts;
    return read.number == CHUDRAVIK_ACCEPTED && counts->inputs == 0 && counts->latches == 2 && counts->lamps == 1 &&
           counts->gates == 1 && counts->bads == 0 && counts->constraints == 0;
}

static int reads_any(chudravik_counts counts)
{
    static uint16_t renumbered[CHUDRAVIK_MOST_LIST_WORDS], same[CHUDRAVIK_MOST_TABLE_WORDS];
    chudravik_read_any_answer read = chudravik_read_any((const uint8_t *)text, sizeof text - 1, same,
                                                        CHUDRAVIK_MOST_TABLE_WORDS, renumbered, CHUDRAVIK_MOST_LIST_WORDS);
    return read.number == CHUDRAVIK_ACCEPTED && read.counts.gates == counts.gates && read.variables == 3 &&
           renumbered[3] == 3 && memcmp(same, table, sizeof table) == 0 && CHUDRAVIK_DEFINITION == 20 &&
           CHUDRAVIK_UNDEFINED == 21 && CHUDRAVIK_LOOP == 22;
}

/* The text is a beginners' board; one whose lamp is the constant is none. */
static int begins(chudravik_counts counts)
{
    static const char outside[] = "aag 0 0 0 1 0\n1\n";
    static uint16_t same[CHUDRAVIK_MOST_TABLE_WORDS];
    chudravik_read_answer read =
        chudravik_read_beginners((const uint8_t *)text, sizeof text - 1, same, CHUDRAVIK_MOST_TABLE_WORDS);
    chudravik_read_answer other =
        chudravik_read_beginners((const uint8_t *)outside, sizeof outside - 1, same, CHUDRAVIK_MOST_TABLE_WORDS);
    chudravik_chain_answer chain = chudravik_chain_beginners(counts, table, CHUDRAVIK_MOST_TABLE_WORDS, cubes,
                                                             CHUDRAVIK_BEGINNERS_CUBE_BYTES);
    chudravik_chain_answer small = chudravik_chain_beginners(counts, table, CHUDRAVIK_MOST_TABLE_WORDS, cubes,
                                                             CHUDRAVIK_BEGINNERS_CUBE_BYTES - 1);
    return read.number == CHUDRAVIK_ACCEPTED && read.counts.gates == counts.gates &&
           memcmp(same, table, sizeof table) == 0 && other.number == CHUDRAVIK_BEGINNERS &&
           chain.number == CHUDRAVIK_ACCEPTED && chain.cubes == 2 && small.number == CHUDRAVIK_CUBE_BUFFER;
}

static int writes_back(chudravik_counts counts)
{
    size_t words = CHUDRAVIK_TABLE_WORDS(counts);
    chudravik_write_answer write = chudravik_write(counts, table, words, written, sizeof written);
    return write.number == CHUDRAVIK_ACCEPTED && write.bytes == sizeof text - 1 &&
           memcmp(written, text, write.bytes) == 0;
}

/* The table has its operands larger first; a byte less, and the last difference is cut off. */
static int crosses(chudravik_counts counts)
{
    static const uint8_t due[] = {'a', 'i', 'g', ' ', '3', ' ', '0', ' ', '2', ' ', '1', ' ', '1', '\n',
                                  '4', '\n', '2', ' ', '1', '\n', '6', '\n', 2, 2};
    static uint8_t binary[CHUDRAVIK_MOST_BINARY];
    static uint16_t same[CHUDRAVIK_MOST_TABLE_WORDS];
    chudravik_write_answer write =
        chudravik_write_binary(counts, table, CHUDRAVIK_MOST_TABLE_WORDS, binary, sizeof binary);
    chudravik_read_answer read = chudravik_read_binary(binary, write.bytes, same, CHUDRAVIK_MOST_TABLE_WORDS);
    chudravik_read_answer cut = chudravik_read_binary(due, sizeof due - 1, same, CHUDRAVIK_MOST_TABLE_WORDS);
    return write.number == CHUDRAVIK_ACCEPTED && write.bytes == sizeof due && memcmp(binary, due, sizeof due) == 0 &&
           read.number == CHUDRAVIK_ACCEPTED && memcmp(same, table, sizeof table) == 0 && cut.number == CHUDRAVIK_DIFFERENCE;
}

static int ticks(chudravik_counts counts)
{
    state[0] = CHUDRAVIK_LOW << 6 | CHUDRAVIK_HIGH << 4;
    return chudravik_tick(counts, table, CHUDRAVIK_MOST_TABLE_WORDS, state, sizeof state, switches, sizeof switches,
                          next, sizeof next, lamps, sizeof lamps) == CHUDRAVIK_ACCEPTED &&
           CHUDRAVIK_FIELD(next, 0) == CHUDRAVIK_HIGH && CHUDRAVIK_FIELD(next, 1) == CHUDRAVIK_LOW &&
           CHUDRAVIK_FIELD(lamps, 0) == CHUDRAVIK_LOW;
}

static int chains(chudravik_counts counts)
{
    chudravik_chain_answer chain = chudravik_chain(counts, table, CHUDRAVIK_MOST_TABLE_WORDS, CHUDRAVIK_MOST_INTERVAL,
                                                   cubes, sizeof cubes);
    return chain.number == CHUDRAVIK_ACCEPTED && chain.cubes == 2 && chain.back == 0 &&
           CHUDRAVIK_CUBE_BYTES(counts.latches) == 1 && CHUDRAVIK_MARK(cubes) == CHUDRAVIK_PLAIN &&
           CHUDRAVIK_LATCH(cubes, 0) == CHUDRAVIK_LOW && CHUDRAVIK_LATCH(cubes, 1) == CHUDRAVIK_HIGH;
}

/* With w = 1 cube 1 is due for widening, and both latches have changed. */
static int widens(chudravik_counts counts)
{
    uint8_t two[2];
    chudravik_chain_answer chain = chudravik_chain(counts, table, CHUDRAVIK_MOST_TABLE_WORDS, 1, two, sizeof two);
    return chain.number == CHUDRAVIK_ACCEPTED && chain.cubes == 2 && chain.back == 1 &&
           CHUDRAVIK_MARK(two + 1) == CHUDRAVIK_WIDENED && CHUDRAVIK_LATCH(two + 1, 1) == CHUDRAVIK_UNKNOWN;
}

/* The chain; then back to its last cube, which the next state is not inside. */
static int judges(chudravik_counts counts)
{
    chudravik_judge_answer judge = chudravik_judge(counts, table, CHUDRAVIK_MOST_TABLE_WORDS, cubes, sizeof cubes, 2, 0,
                                                   lamps, sizeof lamps, state, sizeof state);
    chudravik_judge_answer other = chudravik_judge(counts, table, CHUDRAVIK_MOST_TABLE_WORDS, cubes, sizeof cubes, 2, 1,
                                                   lamps, sizeof lamps, state, sizeof state);
    return judge.number == CHUDRAVIK_ACCEPTED && judge.settled == 0 && CHUDRAVIK_FIELD(lamps, 0) == CHUDRAVIK_LOW &&
           CHUDRAVIK_FIELD(state, 1) == CHUDRAVIK_UNKNOWN && other.number == CHUDRAVIK_NOT_A_CHAIN;
}

/* The chain's two cubes, the other way round; then the first alone, whose next state is the second. */
static int covers(chudravik_counts counts)
{
    const uint8_t swapped[2] = {cubes[1], cubes[0]};
    chudravik_cover_answer cover =
        chudravik_cover(counts, table, CHUDRAVIK_MOST_TABLE_WORDS, swapped, sizeof swapped, 2, lamps, sizeof lamps);
    chudravik_cover_answer left = chudravik_cover(counts, table, CHUDRAVIK_MOST_TABLE_WORDS, cubes, sizeof cubes, 1, lamps,
                                                  sizeof lamps);
    chudravik_cover_answer none = chudravik_cover(counts, table, CHUDRAVIK_MOST_TABLE_WORDS, cubes, sizeof cubes, 0, lamps,
                                                  sizeof lamps);
    return cover.number == CHUDRAVIK_ACCEPTED && cover.cube == 0 && CHUDRAVIK_FIELD(lamps, 0) == CHUDRAVIK_LOW &&
           left.number == CHUDRAVIK_NEXT_NOT_COVERED && left.cube == 0 && none.number == CHUDRAVIK_START_NOT_COVERED;
}

/* Both latches are 0: the gate's first operand, latch 1, is enough. There is one lamp, and with nothing known it is open. */
static int explains(chudravik_counts counts)
{
    const uint8_t dark = CHUDRAVIK_LOW << 6 | CHUDRAVIK_LOW << 4, open = 0;
    uint8_t why = 0xFF;
    return chudravik_why(counts, table, CHUDRAVIK_MOST_TABLE_WORDS, &dark, 1, 0, &why, 1) == CHUDRAVIK_ACCEPTED &&
           CHUDRAVIK_FIELD(&why, 0) == CHUDRAVIK_UNKNOWN && CHUDRAVIK_FIELD(&why, 1) == CHUDRAVIK_LOW &&
           chudravik_why(counts, table, CHUDRAVIK_MOST_TABLE_WORDS, &dark, 1, 1, &why, 1) == CHUDRAVIK_NO_SUCH_LAMP &&
           chudravik_why(counts, table, CHUDRAVIK_MOST_TABLE_WORDS, &open, 1, 0, &why, 1) == CHUDRAVIK_LAMP_UNKNOWN &&
           CHUDRAVIK_WHY_STACK > CHUDRAVIK_MOST_STACK;
}

/* A latch that toggles, without a lamp: a bad state where it is 1, assumed never to be. It is 1 after a tick, so the chain ends
 * with one cube, and the bad state never is. Assumed to be 1 it has no cube. */
static int ends(void)
{
    static const char assumed[] = "aag 1 0 1 0 0 1 1\n2 3\n2\n3\n";
    uint8_t verdict[CHUDRAVIK_MOST_VERDICT_BYTES], settled[1];
    uint16_t words[4];
    chudravik_read_answer read = chudravik_read((const uint8_t *)assumed, sizeof assumed - 1, words, 4);
    chudravik_chain_answer chain = chudravik_chain(read.counts, words, 4, 0, cubes, sizeof cubes);
    chudravik_judge_answer judge = chudravik_judge(read.counts, words, 4, cubes, sizeof cubes, chain.cubes, chain.back,
                                                   verdict, sizeof verdict, settled, sizeof settled);
    words[3] = 2;
    chudravik_chain_answer none = chudravik_chain(read.counts, words, 4, 0, cubes, sizeof cubes);
    chudravik_counts many = read.counts;
    many.bads = CHUDRAVIK_MOST_BADS + 1;
    chudravik_chain_answer refused = chudravik_chain(many, words, 4, 0, cubes, sizeof cubes);
    many.bads = 0;
    many.constraints = CHUDRAVIK_MOST_CONSTRAINTS;
    chudravik_chain_answer lampless = chudravik_chain(many, words, 4, 0, cubes, sizeof cubes);
    return read.number == CHUDRAVIK_ACCEPTED && read.counts.bads == 1 && read.counts.constraints == 1 &&
           CHUDRAVIK_TABLE_WORDS(read.counts) == 4 && chain.number == CHUDRAVIK_ACCEPTED && chain.cubes == 1 &&
           chain.back == 1 && judge.number == CHUDRAVIK_ACCEPTED && CHUDRAVIK_FIELD(verdict, 0) == CHUDRAVIK_LOW &&
           judge.settled == 0 && none.number == CHUDRAVIK_ACCEPTED && none.cubes == 0 && none.back == 0 &&
           refused.number == CHUDRAVIK_COUNTS && lampless.number == CHUDRAVIK_NO_LAMPS;
}

static int merges(void)
{
    const uint8_t one = CHUDRAVIK_LOW << 6 | CHUDRAVIK_HIGH << 4, other = CHUDRAVIK_LOW << 6 | CHUDRAVIK_LOW << 4;
    uint8_t merged = 0xFF;
    return chudravik_merge(2, &one, 1, &other, 1, &merged, 1) == CHUDRAVIK_ACCEPTED && merged == CHUDRAVIK_LOW << 6 &&
           chudravik_merge(CHUDRAVIK_MOST_FIELDS + 1, &one, 1, &other, 1, &merged, 1) == CHUDRAVIK_COUNTS;
}

int main(void)
{
    chudravik_counts counts;
    if (!version_agrees() || !reads(&counts) || !reads_any(counts) || !begins(counts) || !writes_back(counts) ||
        !crosses(counts) || !ticks(counts) || !chains(counts) || !widens(counts) || !judges(counts) || !covers(counts) ||
        !explains(counts) || !ends() || !merges()) {
        fputs("header: not as it must be\n", stderr);
        return 1;
    }
    return 0;
}

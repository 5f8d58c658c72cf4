/* When "open" can be trusted too: on boards without switches and constraints, with start values and without widening,
 * every state of a small board is tried against the stored cubes, and every verdict, of lamps and of bad states, against
 * the ticks until the board repeats itself. What holds then must fail now and then where the board has a switch, a latch
 * without a start value, or w is 1: otherwise these boards would show nothing.
 *
 *   exact BOARDS SEED
 */
#include <stdio.h>
#include <stdlib.h>
#include <string.h>

#include "chance.h"
#include "chudravik.h"

enum { MOST_LATCHES = 8, MOST_LAMPS = 4, MOST_GATES = 16, STATES = 1 << MOST_LATCHES, CUBE_BYTES = 65536 };

struct board {
    chudravik_counts counts;
    uint16_t table[2 * MOST_LATCHES + MOST_LAMPS + 2 * MOST_GATES];
};

/* What really happens on a board without switches from one start: the states until one comes again, and their lamps. */
struct course {
    size_t length;
    size_t back;
    unsigned state[STATES];
    unsigned lamps[STATES];
};

static uint64_t board_number;

static void fail(const char *what)
{
    printf("exact: board %llu: %s\n", (unsigned long long)board_number, what);
    exit(1);
}

/* Lamps, and behind them bad states: both are judged alike. */
static size_t watched(const struct board *board)
{
    return board->counts.lamps + board->counts.bads;
}

static void draw_board(struct board *board, size_t switches, bool started)
{
    chudravik_counts *counts = &board->counts;
    *counts = (chudravik_counts){.inputs = switches};
    counts->latches = between(started ? 0 : 1, MOST_LATCHES);
    counts->lamps = between(1, MOST_LAMPS);
    counts->bads = chance(30) ? below(counts->lamps + 1) : 0;
    counts->lamps -= counts->bads;
    counts->gates = below(MOST_GATES + 1);
    size_t leaves = 1 + switches + counts->latches;
    size_t variables = leaves + counts->gates;
    uint16_t *word = board->table;
    for (size_t i = 0; i < counts->latches; i++) {
        *word++ = (uint16_t)below(2 * variables);
        *word++ = (uint16_t)below(2);
    }
    if (!started)
        board->table[1] = CHUDRAVIK_NO_START;
    for (size_t i = 0; i < watched(board); i++)
        *word++ = (uint16_t)below(2 * variables);
    for (size_t i = 0; i < counts->gates; i++) {
        *word++ = (uint16_t)below(2 * (leaves + i));
        *word++ = (uint16_t)below(2 * (leaves + i));
    }
}

static unsigned literal(const bool *value, uint16_t x)
{
    return (unsigned)value[x / 2] ^ (x & 1u);
}

/* One tick, with every switch off. */
static unsigned tick(const struct board *board, unsigned state, unsigned *lamps)
{
    const chudravik_counts *counts = &board->counts;
    bool value[1 + 1 + MOST_LATCHES + MOST_GATES] = {false};
    size_t v = 1 + counts->inputs;
    for (size_t i = 0; i < counts->latches; i++)
        value[v++] = state >> i & 1;
    const uint16_t *lamp = board->table + 2 * counts->latches;
    const uint16_t *gate = lamp + watched(board);
    for (size_t i = 0; i < counts->gates; i++)
        value[v++] = literal(value, gate[2 * i]) & literal(value, gate[2 * i + 1]);
    *lamps = 0;
    for (size_t i = 0; i < watched(board); i++)
        *lamps |= literal(value, lamp[i]) << i;
    unsigned next = 0;
    for (size_t i = 0; i < counts->latches; i++)
        next |= literal(value, board->table[2 * i]) << i;
    return next;
}

static void follow(const struct board *board, struct course *course)
{
    size_t seen[STATES];
    unsigned state = 0;
    for (size_t i = 0; i < STATES; i++)
        seen[i] = STATES;
    for (size_t i = 0; i < board->counts.latches; i++)
        state |= (unsigned)(board->table[2 * i + 1] & 1) << i;
    course->length = 0;
    while (seen[state] == STATES) {
        seen[state] = course->length;
        course->state[course->length] = state;
        state = tick(board, state, &course->lamps[course->length]);
        course->length++;
    }
    course->back = seen[state];
}

/* Field of latch i in a stored cube. */
static unsigned latch_in(const uint8_t *cube, size_t i)
{
    return CHUDRAVIK_LATCH(cube, i);
}

static bool lies_in(const uint8_t *cube, size_t latches, unsigned state)
{
    for (size_t i = 0; i < latches; i++) {
        unsigned field = latch_in(cube, i);
        if (field != CHUDRAVIK_UNKNOWN && field != (state >> i & 1 ? CHUDRAVIK_HIGH : CHUDRAVIK_LOW))
            return false;
    }
    return true;
}

struct answers {
    chudravik_chain_answer chain;
    uint8_t verdict[1];
    uint8_t settled[2];
};

static uint8_t cubes[CUBE_BYTES];

static struct answers ask(const struct board *board, size_t w)
{
    struct answers answers;
    size_t words = sizeof board->table / sizeof *board->table;
    answers.chain = chudravik_chain(board->counts, board->table, words, w, cubes, sizeof cubes);
    if (answers.chain.number != 0)
        fail("chain refuses");
    chudravik_judge_answer judged =
        chudravik_judge(board->counts, board->table, words, cubes, sizeof cubes, answers.chain.cubes, answers.chain.back,
                        answers.verdict, sizeof answers.verdict, answers.settled, sizeof answers.settled);
    if (judged.number != 0)
        fail("judge refuses a chain's own cubes");
    return answers;
}

/* Whether a lamp is open though it is lit at every tick of the course or dark at every one. */
static bool open_for_nothing(const struct board *board, const struct course *course, const struct answers *answers)
{
    for (size_t i = 0; i < watched(board); i++) {
        size_t lit = 0;
        for (size_t t = 0; t < course->length; t++)
            lit += course->lamps[t] >> i & 1;
        if (CHUDRAVIK_FIELD(answers->verdict, i) == CHUDRAVIK_UNKNOWN && (lit == 0 || lit == course->length))
            return true;
    }
    return false;
}

static void look_exactly(const struct board *board, const struct course *course, const struct answers *answers)
{
    size_t latches = board->counts.latches, record = CHUDRAVIK_CUBE_BYTES(latches);
    bool occurs[STATES] = {false};
    if (answers->chain.cubes != course->length || answers->chain.back != course->back)
        fail("n or j is not where the states come again");
    for (size_t t = 0; t < course->length; t++)
        occurs[course->state[t]] = true;
    for (size_t k = 0; k < course->length; k++)
        for (unsigned state = 0; state < 1u << latches; state++)
            if (lies_in(cubes + k * record, latches, state) != (state == course->state[k]))
                fail("a cube is not the one state of its tick");
    for (unsigned state = 0; state < 1u << latches; state++) {
        bool stored = false;
        for (size_t k = 0; k < course->length; k++)
            stored = stored || lies_in(cubes + k * record, latches, state);
        if (stored != occurs[state])
            fail("a state occurs and is not stored, or is stored and does not occur");
    }
    for (size_t i = 0; i < watched(board); i++) {
        size_t lit = 0;
        for (size_t t = 0; t < course->length; t++)
            lit += course->lamps[t] >> i & 1;
        unsigned due = lit == 0 ? CHUDRAVIK_LOW : lit == course->length ? CHUDRAVIK_HIGH : CHUDRAVIK_UNKNOWN;
        if (CHUDRAVIK_FIELD(answers->verdict, i) != due)
            fail("open is not: lit at some tick and dark at another");
    }
}

int main(int arguments, char **argument)
{
    if (arguments != 3) {
        fputs("exact BOARDS SEED\n", stderr);
        return 2;
    }
    uint64_t boards = strtoull(argument[1], NULL, 10), seed = strtoull(argument[2], NULL, 10);
    size_t longest = 0;
    uint64_t open = 0, states = 0, blurred[3] = {0, 0, 0};
    for (board_number = 0; board_number < boards; board_number++) {
        struct board board;
        struct course course;
        throw_dice(seed, board_number);
        draw_board(&board, 0, true);
        follow(&board, &course);
        struct answers answers = ask(&board, 0);
        look_exactly(&board, &course, &answers);
        states += course.length;
        if (course.length > longest)
            longest = course.length;
        for (size_t i = 0; i < watched(&board); i++)
            open += CHUDRAVIK_FIELD(answers.verdict, i) == CHUDRAVIK_UNKNOWN;
        answers = ask(&board, 1);
        blurred[0] += open_for_nothing(&board, &course, &answers);
        for (size_t kind = 1; kind < 3; kind++) {
            draw_board(&board, kind == 1, kind == 1);
            follow(&board, &course);
            answers = ask(&board, 0);
            blurred[kind] += open_for_nothing(&board, &course, &answers);
        }
    }
    printf("%llu boards of %llu states in all, the longest of %zu; %llu open lamps, each lit and dark\n", (unsigned long long)boards,
           (unsigned long long)states, longest, (unsigned long long)open);
    printf("open for nothing: %llu widened, %llu with a switch, %llu without a start value\n", (unsigned long long)blurred[0],
           (unsigned long long)blurred[1], (unsigned long long)blurred[2]);
    for (size_t kind = 0; kind < 3; kind++)
        if (blurred[kind] * 1000 < boards) {
            puts("exact: too few of these boards to show anything");
            return 1;
        }
    return 0;
}

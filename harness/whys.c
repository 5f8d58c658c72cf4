/* What `./report --why LAMP` has to print, by the simulator's own recursion: the text on standard input.
 *
 *   whys LAMP */
#include "cube.h"
#include "simulator.h"

#include <inttypes.h>
#include <stdbool.h>
#include <stdio.h>
#include <stdlib.h>
#include <string.h>

/* "takes w = 16 and a cube buffer of 65,536 bytes" */
enum { INTERVAL = 16, CUBE_BYTES = 65536, LONGEST_RECORD = CHUDRAVIK_RECORD_BYTES(CHUDRAVIK_MOST_LATCHES) };

static uint8_t text[60001], cubes[CUBE_BYTES];
static uint16_t table[CHUDRAVIK_MOST_TABLE_WORDS];

static int refuse(uint32_t number)
{
    printf("refused %" PRIu32 "\n", number);
    return 0;
}

/* Of a stored cube: the one place that takes its record for a state. */
static void explain(chudravik_counts counts, size_t k, size_t lamp, uint8_t *why)
{
    uint8_t state[LONGEST_RECORD];
    state_of_cube(cubes + k * CHUDRAVIK_CUBE_BYTES(counts.latches), counts.latches, state);
    memset(why, 0, LONGEST_RECORD);
    if (simulate_why(counts, table, CHUDRAVIK_MOST_TABLE_WORDS, state, sizeof state, lamp, why, LONGEST_RECORD) !=
        CHUDRAVIK_ACCEPTED) {
        fputs("whys: the simulator does not tell why\n", stderr);
        exit(2);
    }
}

static void say_line(size_t from, size_t last, const uint8_t *why, size_t latches)
{
    const char *before = ": ";
    if (from == last)
        printf("cube %zu", from);
    else
        printf("cubes %zu to %zu", from, last);
    for (size_t i = 0; i < latches; i++) {
        unsigned field = CHUDRAVIK_FIELD(why, i);
        if (field == CHUDRAVIK_UNKNOWN)
            continue;
        printf("%slatch %zu = %d", before, i, field == CHUDRAVIK_HIGH);
        before = ", ";
    }
    puts(before[0] == ':' ? ": no latch: the gates alone" : "");
}

int main(int count, char **words)
{
    if (count != 2)
        return 2;
    size_t lamp = strtoul(words[1], NULL, 10), bytes = fread(text, 1, sizeof text, stdin);
    chudravik_read_answer read = simulate_read(text, bytes, table, CHUDRAVIK_MOST_TABLE_WORDS);
    if (read.number != CHUDRAVIK_ACCEPTED)
        return refuse(read.number);
    chudravik_chain_answer chain =
        simulate_chain(read.counts, table, CHUDRAVIK_MOST_TABLE_WORDS, INTERVAL, cubes, sizeof cubes);
    if (chain.number != CHUDRAVIK_ACCEPTED)
        return refuse(chain.number);
    if (lamp >= read.counts.lamps)
        return refuse(23);
    uint8_t verdict[CHUDRAVIK_MOST_VERDICT_BYTES], settled[LONGEST_RECORD];
    simulate_judge(read.counts, table, CHUDRAVIK_MOST_TABLE_WORDS, cubes, sizeof cubes, chain.cubes, chain.back, verdict,
                   sizeof verdict, settled, sizeof settled);
    unsigned field = CHUDRAVIK_FIELD(verdict, lamp);
    printf("lamp %zu %s\n", lamp,
           field == CHUDRAVIK_UNKNOWN ? "open" : field == CHUDRAVIK_LOW ? "never" : "always");
    if (field == CHUDRAVIK_UNKNOWN)
        return 0;
    for (size_t from = 0, last; from < chain.cubes; from = last + 1) {
        uint8_t why[LONGEST_RECORD], next[LONGEST_RECORD];
        explain(read.counts, from, lamp, why);
        for (last = from; last + 1 < chain.cubes; last++) {
            explain(read.counts, last + 1, lamp, next);
            if (memcmp(why, next, sizeof why) != 0)
                break;
        }
        say_line(from, last, why, read.counts.latches);
    }
    return 0;
}

/* The benchmark of chudravik_read_any: texts at the ceilings whose gates stand in the order of their depth, in reverse and
 * in no order, and a chain of all gates in reverse; each read by the library and by plain C (plain.h), in one process and by
 * turns. Both must leave the same.
 *
 *   bench_any [ROUNDS]
 */
#define _POSIX_C_SOURCE 200809L

#include "chance.h"
#include "plain.h"

#include <stdio.h>
#include <stdlib.h>
#include <string.h>
#include <time.h>

enum { INPUTS = 256, LATCHES = 512, LAMPS = 64, GATES = 3327, LEAVES = INPUTS + LATCHES, LINES = LEAVES + GATES, CALLS = 8 };

static uint8_t text[CHUDRAVIK_MOST_TEXT + 32];
static size_t bytes;

#define PUT(...) (bytes += (size_t)snprintf((char *)text + bytes, sizeof text - bytes, __VA_ARGS__))

enum { BY_DEPTH, REVERSED, RANDOM, CHAIN_REVERSED, ORDERS };

static const char *const NAMES[ORDERS] = {"by depth", "reversed", "random", "chain, reversed"};

/* Gate i reads gates before it in `place`'s order; the line of gate i stands at place[i]. */
static void make_text(int order)
{
    static size_t place[GATES], own[GATES], left[GATES], right[GATES];
    throw_dice(7, 7);
    bytes = 0;
    PUT("aag %d %d %d %d %d\n", LINES, INPUTS, LATCHES, LAMPS, GATES);
    for (size_t i = 0; i < INPUTS; i++)
        PUT("%zu\n", 2 + 2 * i);
    for (size_t i = 0; i < LATCHES; i++)
        PUT("%zu %zu\n", 2 + 2 * (INPUTS + i), 2 + 2 * below(LINES));
    for (size_t i = 0; i < LAMPS; i++)
        PUT("%zu\n", 2 + 2 * (LINES - 1 - i));
    for (size_t i = 0; i < GATES; i++)
        place[i] = order == BY_DEPTH || order == RANDOM ? i : GATES - 1 - i;
    if (order == RANDOM)
        for (size_t i = GATES; i > 1; i--) {
            size_t j = below(i), kept = place[i - 1];
            place[i - 1] = place[j];
            place[j] = kept;
        }
    for (size_t i = 0; i < GATES; i++) {
        size_t layer = i / 100 * 100, a = below(LEAVES + layer), b = below(LEAVES + layer);
        size_t l = order == CHAIN_REVERSED && i > 0 ? LEAVES + i - 1 : a;
        own[place[i]] = 2 + 2 * (LEAVES + i);
        left[place[i]] = 2 + 2 * l + below(2);
        right[place[i]] = 2 + 2 * b;
    }
    for (size_t at = 0; at < GATES; at++)
        PUT("%zu %zu %zu\n", own[at], left[at], right[at]);
}

typedef chudravik_read_any_answer reader(const uint8_t *, size_t, uint16_t *, size_t, uint16_t *, size_t);

static uint16_t table[2][CHUDRAVIK_MOST_TABLE_WORDS], list[2][CHUDRAVIK_MOST_LIST_WORDS];

static double time_of(reader *read, int side)
{
    struct timespec from, to;
    clock_gettime(CLOCK_MONOTONIC, &from);
    for (int i = 0; i < CALLS; i++)
        if (read(text, bytes, table[side], CHUDRAVIK_MOST_TABLE_WORDS, list[side], CHUDRAVIK_MOST_LIST_WORDS).number != 0) {
            fputs("bench_any: a text was refused\n", stderr);
            exit(1);
        }
    clock_gettime(CLOCK_MONOTONIC, &to);
    return ((double)(to.tv_sec - from.tv_sec) * 1e9 + (double)(to.tv_nsec - from.tv_nsec)) / CALLS;
}

int main(int argc, char **argv)
{
    int rounds = argc > 1 ? atoi(argv[1]) : 60;
    printf("%-18s %14s %14s %7s\n", "read_any", "library, ns", "plain C, ns", "ratio");
    for (int order = 0; order < ORDERS; order++) {
        double best[2] = {1e18, 1e18};
        make_text(order);
        for (int i = 0; i < rounds; i++) {
            double a = time_of(chudravik_read_any, 0), b = time_of(plain_read_any, 1);
            best[0] = a < best[0] ? a : best[0];
            best[1] = b < best[1] ? b : best[1];
        }
        if (memcmp(table[0], table[1], sizeof table[0]) != 0 || memcmp(list[0], list[1], sizeof list[0]) != 0) {
            fputs("bench_any: the two sides differ\n", stderr);
            return 1;
        }
        printf("%-18s %14.0f %14.0f %7.2f\n", NAMES[order], best[0], best[1], best[0] / best[1]);
    }
    return 0;
}

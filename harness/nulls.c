/* Null pointers with length 0: each call on several circuits, with every set of its buffers taken away and handed as
 * null. The simulator is handed an empty buffer in their place (twice.h), and both must agree. Fails too if a call was
 * never accepted with a null pointer: the circuit without counts needs no table, and a judge or a cover of no cube needs no
 * cubes. A chain, a beginners' chain and a why need a lamp or a bad state, so they need each of their buffers, and the
 * shortest record of a merge has a byte.
 */
#include "twice.h"

#include <stdio.h>
#include <stdlib.h>
#include <string.h>

/* Of a buffer that a call fills: a byte more than the longest result here. */
enum { RESULT_BYTES = 33 };

typedef struct {
    const char *text;
    const char *binary;
    chudravik_counts counts;
    uint16_t table[12];
    uint8_t state;
    uint8_t switches;
    uint8_t cubes[2]; /* a closed chain, back to cube 0 */
    size_t n;
} sample;

/* No counts; a switch behind a gate that is never lit; two latches that swap; a bad state under a constraint that is 0 at the
 * start, whose chain has no cube. */
static const sample samples[] = {
    {.text = "aag 0 0 0 0 0\n", .binary = "aig 0 0 0 0 0\n", .cubes = {0x40}, .n = 1},
    {.text = "aag 2 1 0 1 1\n2\n4\n4 2 3\n",
     .binary = "aig 2 1 0 1 1\n4\n\1\1",
     .counts = {1, 0, 1, 1, 0, 0},
     .table = {4, 2, 3},
     .switches = 0x80,
     .cubes = {0x40},
     .n = 1},
    {.text = "aag 3 0 2 1 1\n2 4\n4 2 1\n6\n6 4 2\n",
     .binary = "aig 3 0 2 1 1\n4\n2 1\n6\n\2\2",
     .counts = {0, 2, 1, 1, 0, 0},
     .table = {4, 0, 2, 1, 6, 4, 2},
     .state = 0x60,
     .cubes = {0x58, 0x64},
     .n = 2},
    {.text = "aag 1 0 1 0 0 1 1\n2 2\n3\n2\n",
     .binary = "aig 1 0 1 0 0 1 1\n2\n3\n2\n",
     .counts = {0, 1, 0, 0, 1, 1},
     .table = {2, 0, 3, 2},
     .state = 0x40},
};

enum { SAMPLES = sizeof samples / sizeof samples[0] };

static const enum role buffers_of[CALLS][6] = {
    [READ] = {TEXT, TABLE, ROLES},
    [READ_ANY] = {TEXT, TABLE, LIST, ROLES},
    [READ_BINARY] = {TEXT, TABLE, ROLES},
    [READ_BEGINNERS] = {TEXT, TABLE, ROLES},
    [WRITE] = {TABLE, TEXT, ROLES},
    [WRITE_BINARY] = {TABLE, TEXT, ROLES},
    [TICK] = {TABLE, STATE, SWITCHES, NEXT, LAMPS, ROLES},
    [CHAIN] = {TABLE, CUBES, ROLES},
    [CHAIN_BEGINNERS] = {TABLE, CUBES, ROLES},
    [JUDGE] = {TABLE, CUBES, VERDICT, SETTLED, ROLES},
    [COVER] = {TABLE, CUBES, VERDICT, ROLES},
    [WHY] = {TABLE, STATE, REASON, ROLES},
    [MERGE] = {ONE, OTHER, MERGED, ROLES},
};

static size_t count_buffers(enum call call)
{
    size_t count = 0;
    while (buffers_of[call][count] != ROLES)
        count++;
    return count;
}

static bool is_given(enum call call, enum role role)
{
    bool reads = call == READ || call == READ_ANY || call == READ_BINARY || call == READ_BEGINNERS;
    return role == STATE || role == SWITCHES || role == ONE || role == OTHER || (role == TEXT && reads) || (role == TABLE && !reads) ||
           (role == CUBES && call != CHAIN && call != CHAIN_BEGINNERS);
}

static const char *text_of(const sample *s, enum call call)
{
    return call == READ_BINARY ? s->binary : s->text;
}

static const void *given_content(const sample *s, enum call call, enum role role)
{
    switch (role) {
    case TEXT:
        return text_of(s, call);
    case TABLE:
        return s->table;
    case STATE:
    case ONE:
        return &s->state;
    case CUBES:
        return s->cubes;
    default:
        return &s->switches;
    }
}

static size_t given_bytes(const sample *s, enum call call, enum role role)
{
    switch (role) {
    case TEXT:
        return strlen(text_of(s, call));
    case TABLE:
        return 2 * CHUDRAVIK_TABLE_WORDS(s->counts);
    case CUBES:
        return s->n;
    default:
        return 1;
    }
}

static size_t result_bytes(const sample *s, enum call call, enum role role)
{
    if (role == TABLE || role == LIST)
        return sizeof s->table;
    return call == CHAIN_BEGINNERS ? CHUDRAVIK_BEGINNERS_CUBE_BYTES : RESULT_BYTES;
}

static void lend_whole(twice *t, const sample *s, enum role role)
{
    bool given = is_given(t->call, role);
    size_t bytes = given ? given_bytes(s, t->call, role) : result_bytes(s, t->call, role);
    if (given)
        memcpy(twice_content(t, role), given_content(s, t->call, role), bytes);
    else
        memset(twice_content(t, role), 0xA5, bytes);
    twice_lend(t, role, given, bytes, LAID_BEHIND);
}

static void lend_buffers(twice *t, const sample *s, unsigned taken_away)
{
    for (size_t i = 0; buffers_of[t->call][i] != ROLES; i++) {
        enum role role = buffers_of[t->call][i];
        if (taken_away >> i & 1)
            twice_lend(t, role, is_given(t->call, role), 0, LAID_NULL);
        else
            lend_whole(t, s, role);
    }
}

static void must_agree(twice *t)
{
    if (twice_make(t))
        return;
    fprintf(stderr, "nulls: %s\n", t->difference);
    twice_show(t);
    exit(1);
}

static void try_sets(twice *t, enum call call)
{
    size_t made = 0, accepted = 0;
    for (size_t i = 0; i < SAMPLES; i++)
        for (unsigned taken_away = 1; taken_away < 1u << count_buffers(call); taken_away++, made++) {
            twice_begin(t, call, samples[i].counts,
                        (numbers){.w = 1, .n = samples[i].n, .fields = samples[i].counts.latches});
            lend_buffers(t, &samples[i], taken_away);
            must_agree(t);
            accepted += t->library.number == CHUDRAVIK_ACCEPTED;
        }
    printf("%s: %zu calls with null pointers, %zu accepted\n", call_names[call], made, accepted);
    if (accepted == 0 && (call < CHAIN || call == JUDGE || call == COVER)) {
        fprintf(stderr, "nulls: %s was never accepted\n", call_names[call]);
        exit(1);
    }
}

int main(void)
{
    static twice t;
    twice_take_memory(&t);
    for (size_t call = 0; call < CALLS; call++)
        try_sets(&t, (enum call)call);
    return 0;
}

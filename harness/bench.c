/* The benchmark: each call of the library beside the same call in plain C (plain.h), in one process and by turns.
 *
 *   bench [ROUNDS]
 *
 * First both sides answer the same requests, accepted and refused; a difference ends it with status 1. Then it prints,
 * for each call and each of three circuits, the best time of ROUNDS rounds on each side, the ratio library / plain, and
 * by what both grow from one circuit to the next. The circuits come from a fixed seed: every run measures the same.
 * plain.c is to be compiled with -O3, as the library is, and for any x86-64. */
#define _POSIX_C_SOURCE 200809L

#include "chudravik.h"
#include "cube.h"
#include "plain.h"

#include <stdbool.h>
#include <stdio.h>
#include <stdlib.h>
#include <string.h>
#include <time.h>

enum { INTERVAL = 16, SENT_CUBES = 512, DEFAULT_ROUNDS = 60, MOST_ROUNDS = 10000, POISON = 0xA5 };

static const double LEAST_NANOSECONDS = 4e6; /* of one round */

/* ---- circuits ---- */

/* A random circuit with a binary counter at its front, and behind it a row of latches that takes in a 1 from its front:
 * the one is widened away early in a run, the other gives a cube for each of its latches. */
typedef struct {
    const char *name;
    chudravik_counts counts;
    size_t counter;
    size_t row;
} plan;

static const plan PLANS[] = {
    {"small", {1, 4, 2, 14, 0, 0}, 4, 0},
    {"middle", {20, 100, 16, 500, 0, 0}, 5, 70},
    {"largest", {256, 512, 64, 3327, 0, 0}, 6, 300},
};

enum { CIRCUITS = sizeof PLANS / sizeof PLANS[0] };

/* What the calls are given: a circuit in words, as text and in the binary form, a state and a switch setting, w and the lengths, for a judge the
 * circuit's chain, for a cover 512 cubes, and for a why a state in which all latches are known, and a lamp. */
typedef struct {
    chudravik_counts counts;
    uint16_t table[CHUDRAVIK_MOST_TABLE_WORDS];
    size_t table_words;
    uint8_t text[CHUDRAVIK_MOST_TEXT + 1];
    size_t text_bytes;
    size_t text_room;
    uint8_t binary[CHUDRAVIK_MOST_TEXT + 1];
    size_t binary_bytes;
    size_t binary_room;
    uint8_t state[CHUDRAVIK_RECORD_BYTES(CHUDRAVIK_MOST_LATCHES)];
    size_t state_bytes;
    uint8_t switches[CHUDRAVIK_RECORD_BYTES(CHUDRAVIK_MOST_INPUTS)];
    size_t switches_bytes;
    size_t w;
    size_t cubes_bytes;
    size_t verdict_bytes;
    size_t settled_bytes;
    uint8_t chained[CHUDRAVIK_MOST_CUBE_BYTES];
    size_t chained_bytes;
    size_t chained_cubes;
    size_t chained_back;
    uint8_t sent[SENT_CUBES * CHUDRAVIK_CUBE_BYTES(CHUDRAVIK_MOST_LATCHES)];
    size_t sent_bytes;
    size_t sent_cubes;
    uint8_t known[CHUDRAVIK_RECORD_BYTES(CHUDRAVIK_MOST_LATCHES)];
    size_t known_bytes;
    size_t lamp;
} request;

static uint64_t seed = 0x2545F4914F6CDD1D;

static size_t random_below(size_t bound)
{
    seed ^= seed << 13;
    seed ^= seed >> 7;
    seed ^= seed << 17;
    return (size_t)((seed >> 16) % bound);
}

static uint16_t inverse(uint16_t literal)
{
    return literal ^ 1;
}

/* The words of a circuit under construction, gate after gate. */
typedef struct {
    uint16_t *latches;
    uint16_t *lamps;
    uint16_t *gates;
    size_t first_latch;
    size_t first_gate;
    size_t gate_count;
} builder;

static uint16_t latch_literal(const builder *b, size_t i)
{
    return (uint16_t)(2 * (b->first_latch + i));
}

static uint16_t add_gate(builder *b, uint16_t left, uint16_t right)
{
    size_t i = b->gate_count++;
    b->gates[2 * i] = left;
    b->gates[2 * i + 1] = right;
    return (uint16_t)(2 * (b->first_gate + i));
}

static void set_latch(builder *b, size_t i, uint16_t next, uint16_t reset)
{
    b->latches[2 * i] = next;
    b->latches[2 * i + 1] = reset;
}

/* Each latch is inverted when all before it are 1. */
static void add_counter(builder *b, size_t latches)
{
    uint16_t carry = 1;
    for (size_t i = 0; i < latches; i++) {
        uint16_t own = latch_literal(b, i);
        uint16_t both = add_gate(b, own, carry);
        uint16_t neither = add_gate(b, inverse(own), inverse(carry));
        set_latch(b, i, add_gate(b, inverse(both), inverse(neither)), 0);
        carry = both;
    }
}

static void add_row(builder *b, size_t first, size_t latches)
{
    for (size_t i = first; i < first + latches; i++) {
        set_latch(b, i, i == first ? 1 : latch_literal(b, i - 1), 0);
    }
}

static void add_random_gates(builder *b, size_t gates)
{
    while (b->gate_count < gates) {
        size_t own = 2 * (b->first_gate + b->gate_count);
        add_gate(b, (uint16_t)random_below(own), (uint16_t)random_below(own));
    }
}

static void make_table(const plan *p, uint16_t *table)
{
    const chudravik_counts *c = &p->counts;
    builder b = {table, table + 2 * c->latches, table + 2 * c->latches + c->lamps, 1 + c->inputs,
                 1 + c->inputs + c->latches, 0};
    size_t literals = 2 * (1 + c->inputs + c->latches + c->gates);
    add_counter(&b, p->counter);
    add_row(&b, p->counter, p->row);
    add_random_gates(&b, c->gates);
    for (size_t i = p->counter + p->row; i < c->latches; i++) {
        set_latch(&b, i, (uint16_t)random_below(literals), (uint16_t)random_below(2));
    }
    for (size_t i = 0; i < c->lamps; i++) {
        b.lamps[i] = (uint16_t)random_below(literals);
    }
}

/* Beginners' boards: a counter again, and gates of chance, with no constant and no gate fed twice by one variable. */
static const plan BOARDS[] = {
    {"small", {1, 4, 2, 14, 0, 0}, 4, 0},
    {"largest", {4, 8, 8, 32, 0, 0}, 8, 0},
};

enum { BOARD_COUNT = sizeof BOARDS / sizeof BOARDS[0] };

static void make_board(const plan *p, uint16_t *table)
{
    const chudravik_counts *c = &p->counts;
    builder b = {table, table + 2 * c->latches, table + 2 * c->latches + c->lamps, 1 + c->inputs,
                 1 + c->inputs + c->latches, 0};
    uint16_t carry = latch_literal(&b, 0);
    set_latch(&b, 0, inverse(carry), 0);
    for (size_t i = 1; i < c->latches; i++) {
        uint16_t own = latch_literal(&b, i), both = add_gate(&b, own, carry);
        uint16_t neither = add_gate(&b, inverse(own), inverse(carry));
        set_latch(&b, i, add_gate(&b, inverse(both), inverse(neither)), 0);
        carry = both;
    }
    while (b.gate_count < c->gates) {
        size_t below = b.first_gate + b.gate_count - 1, left = random_below(2 * below);
        size_t right = (left / 2 + 1 + random_below(below - 1)) % below;
        add_gate(&b, (uint16_t)(2 + left), (uint16_t)(2 + 2 * right));
    }
    for (size_t i = 0; i < c->lamps; i++) {
        b.lamps[i] = (uint16_t)(2 + random_below(2 * (c->inputs + c->latches + c->gates)));
    }
}

static void make_record(uint8_t *record, size_t fields)
{
    memset(record, 0, CHUDRAVIK_RECORD_BYTES(fields));
    for (size_t i = 0; i < fields; i++) {
        record[i / 4] |= (uint8_t)(random_below(3) << (6 - 2 * (i % 4)));
    }
}

static void make_chain(request *r)
{
    chudravik_chain_answer chain =
        chudravik_chain(r->counts, r->table, r->table_words, r->w, r->chained, sizeof r->chained);
    r->chained_bytes = chain.cubes * CHUDRAVIK_CUBE_BYTES(r->counts.latches);
    r->chained_cubes = chain.cubes;
    r->chained_back = chain.back;
}

/* The cubes of the circuit's chain, each as often as the next, in an order of chance. */
static void make_cover(request *r)
{
    size_t bytes = CHUDRAVIK_CUBE_BYTES(r->counts.latches);
    for (size_t k = 0; k < SENT_CUBES; k++) {
        size_t other = random_below(k + 1);
        memmove(r->sent + k * bytes, r->sent + other * bytes, bytes);
        memcpy(r->sent + other * bytes, r->chained + k % r->chained_cubes * bytes, bytes);
    }
    r->sent_cubes = SENT_CUBES;
    r->sent_bytes = SENT_CUBES * bytes;
}

static size_t latches_in(const uint8_t *record, size_t latches)
{
    size_t count = 0;
    for (size_t i = 0; i < latches; i++) {
        count += CHUDRAVIK_FIELD(record, i) != CHUDRAVIK_UNKNOWN;
    }
    return count;
}

/* Of the lamps that are known the one that most latches force. What is drawn here moves no circuit behind. */
static void make_question(request *r)
{
    uint8_t why[CHUDRAVIK_RECORD_BYTES(CHUDRAVIK_MOST_LATCHES)];
    uint64_t kept = seed;
    size_t most = 0;
    for (size_t i = 0; i < r->counts.latches; i++) {
        r->known[i / 4] |= (uint8_t)((1 + random_below(2)) << (6 - 2 * (i % 4)));
    }
    seed = kept;
    r->known_bytes = sizeof r->known;
    for (size_t i = 0; i < r->counts.lamps; i++) {
        uint32_t number = chudravik_why(r->counts, r->table, r->table_words, r->known, r->known_bytes, i, why, sizeof why);
        if (number == CHUDRAVIK_ACCEPTED && latches_in(why, r->counts.latches) >= most) {
            r->lamp = i;
            most = latches_in(why, r->counts.latches);
        }
    }
}

static void make_request(const plan *p, request *r, void table_maker(const plan *, uint16_t *))
{
    memset(r, 0, sizeof *r);
    r->counts = p->counts;
    table_maker(p, r->table);
    make_record(r->state, p->counts.latches);
    make_record(r->switches, p->counts.inputs);
    r->table_words = CHUDRAVIK_MOST_TABLE_WORDS;
    r->text_room = CHUDRAVIK_MOST_WRITTEN;
    r->state_bytes = sizeof r->state;
    r->switches_bytes = sizeof r->switches;
    r->w = INTERVAL;
    r->cubes_bytes = CHUDRAVIK_MOST_CUBE_BYTES;
    r->verdict_bytes = CHUDRAVIK_MOST_VERDICT_BYTES;
    r->settled_bytes = CHUDRAVIK_RECORD_BYTES(CHUDRAVIK_MOST_LATCHES);
    r->binary_room = CHUDRAVIK_MOST_BINARY;
    r->binary_bytes =
        chudravik_write_binary(r->counts, r->table, r->table_words, r->binary, r->binary_room).bytes;
    r->text_bytes = chudravik_write(r->counts, r->table, r->table_words, r->text, r->text_room).bytes;
    make_chain(r);
    make_cover(r);
    make_question(r);
}

/* The ceilings, with each gate the inverse of the one before it: lamp 0 has all of them below it. */
static void make_deepest(const request *largest, request *r)
{
    *r = *largest;
    size_t first_gate = 2 * (1 + r->counts.inputs + r->counts.latches);
    uint16_t *lamps = r->table + 2 * r->counts.latches, *gates = lamps + r->counts.lamps;
    for (size_t i = 0; i < r->counts.gates; i++) {
        gates[2 * i] = (uint16_t)((i == 0 ? 2 * (1 + r->counts.inputs) : first_gate + 2 * (i - 1)) + 1);
        gates[2 * i + 1] = 1;
    }
    lamps[0] = (uint16_t)(first_gate + 2 * (r->counts.gates - 1));
    r->lamp = 0;
}

/* ---- the two sides ---- */

/* What the calls are lent. One byte more than any call accepts stands behind the cubes, for the refusal of it. */
typedef struct {
    uint16_t table[CHUDRAVIK_MOST_TABLE_WORDS];
    uint8_t text[CHUDRAVIK_MOST_WRITTEN];
    uint8_t binary[CHUDRAVIK_MOST_BINARY];
    uint8_t next[CHUDRAVIK_RECORD_BYTES(CHUDRAVIK_MOST_LATCHES)];
    uint8_t lamps[CHUDRAVIK_MOST_VERDICT_BYTES];
    uint8_t cubes[CHUDRAVIK_MOST_CUBE_BYTES + 1];
    uint8_t verdict[CHUDRAVIK_MOST_VERDICT_BYTES];
    uint8_t settled[CHUDRAVIK_RECORD_BYTES(CHUDRAVIK_MOST_LATCHES)];
} buffers;

/* What a call answers, in the order of its struct. */
typedef struct {
    size_t numbers[7];
} answer;

typedef answer call(const request *, buffers *);

static answer of_read(chudravik_read_answer a)
{
    return (answer){{a.number, a.counts.inputs, a.counts.latches, a.counts.lamps, a.counts.gates, a.counts.bads,
                     a.counts.constraints}};
}

static answer of_write(chudravik_write_answer a)
{
    return (answer){{a.number, a.bytes}};
}

static answer of_tick(uint32_t number)
{
    return (answer){{number}};
}

static answer of_chain(chudravik_chain_answer a)
{
    return (answer){{a.number, a.cubes, a.back}};
}

static answer of_judge(chudravik_judge_answer a)
{
    return (answer){{a.number, a.settled}};
}

static answer of_cover(chudravik_cover_answer a)
{
    return (answer){{a.number, a.cube}};
}

#define READ(side, r, b) of_read(side##_read(r->text, r->text_bytes, b->table, r->table_words))
#define READ_BEGINNERS(side, r, b) of_read(side##_read_beginners(r->text, r->text_bytes, b->table, r->table_words))
#define CHAIN_BEGINNERS(side, r, b)                                                                             \
    of_chain(side##_chain_beginners(r->counts, r->table, r->table_words, b->cubes, r->cubes_bytes))
#define WRITE(side, r, b) of_write(side##_write(r->counts, r->table, r->table_words, b->text, r->text_room))
#define READ_BINARY(side, r, b) of_read(side##_read_binary(r->binary, r->binary_bytes, b->table, r->table_words))
#define WRITE_BINARY(side, r, b)                                                                                \
    of_write(side##_write_binary(r->counts, r->table, r->table_words, b->binary, r->binary_room))
#define TICK(side, r, b)                                                                                        \
    of_tick(side##_tick(r->counts, r->table, r->table_words, r->state, r->state_bytes, r->switches,             \
                        r->switches_bytes, b->next, r->settled_bytes, b->lamps, r->verdict_bytes))
#define CHAIN(side, r, b) of_chain(side##_chain(r->counts, r->table, r->table_words, r->w, b->cubes, r->cubes_bytes))
#define JUDGE(side, r, b)                                                                                       \
    of_judge(side##_judge(r->counts, r->table, r->table_words, r->chained, r->chained_bytes, r->chained_cubes,  \
                          r->chained_back, b->verdict, r->verdict_bytes, b->settled, r->settled_bytes))
#define COVER(side, r, b)                                                                                       \
    of_cover(side##_cover(r->counts, r->table, r->table_words, r->sent, r->sent_bytes, r->sent_cubes,           \
                          b->verdict, r->verdict_bytes))
#define WHY(side, r, b)                                                                                         \
    of_tick(side##_why(r->counts, r->table, r->table_words, r->known, r->known_bytes, r->lamp, b->settled,      \
                       r->settled_bytes))
#define MERGE(side, r, b)                                                                                       \
    of_tick(side##_merge(r->counts.latches, r->state, r->state_bytes, r->known, r->known_bytes, b->settled,     \
                         r->settled_bytes))
#define SIDE(name, CALL, side)                                                                                  \
    static answer name(const request *r, buffers *b)                                                            \
    {                                                                                                           \
        return CALL(side, r, b);                                                                                \
    }

SIDE(library_read, READ, chudravik)
SIDE(library_write, WRITE, chudravik)
SIDE(library_read_binary, READ_BINARY, chudravik)
SIDE(library_write_binary, WRITE_BINARY, chudravik)
SIDE(library_tick, TICK, chudravik)
SIDE(library_chain, CHAIN, chudravik)
SIDE(library_judge, JUDGE, chudravik)
SIDE(library_cover, COVER, chudravik)
SIDE(library_why, WHY, chudravik)
SIDE(library_merge, MERGE, chudravik)
SIDE(library_read_beginners, READ_BEGINNERS, chudravik)
SIDE(library_chain_beginners, CHAIN_BEGINNERS, chudravik)
SIDE(c_read, READ, plain)
SIDE(c_read_beginners, READ_BEGINNERS, plain)
SIDE(c_chain_beginners, CHAIN_BEGINNERS, plain)
SIDE(c_write, WRITE, plain)
SIDE(c_read_binary, READ_BINARY, plain)
SIDE(c_write_binary, WRITE_BINARY, plain)
SIDE(c_tick, TICK, plain)
SIDE(c_chain, CHAIN, plain)
SIDE(c_judge, JUDGE, plain)
SIDE(c_cover, COVER, plain)
SIDE(c_why, WHY, plain)
SIDE(c_merge, MERGE, plain)

/* Both calls of a run: the chain, and the judge of what it left. */
#define RUN(name, side)                                                                                         \
    static answer name(const request *r, buffers *b)                                                            \
    {                                                                                                           \
        chudravik_chain_answer chain =                                                                          \
            side##_chain(r->counts, r->table, r->table_words, r->w, b->cubes, r->cubes_bytes);                  \
        chudravik_judge_answer judge =                                                                          \
            side##_judge(r->counts, r->table, r->table_words, b->cubes, r->cubes_bytes, chain.cubes, chain.back, \
                         b->verdict, r->verdict_bytes, b->settled, r->settled_bytes);                           \
        return (answer){{judge.number, chain.cubes, chain.back, judge.settled}};                                \
    }

RUN(library_run, chudravik)
RUN(c_run, plain)

typedef struct {
    const char *name;
    call *library;
    call *plain;
} pair;

static const pair READING = {"read", library_read, c_read};
static const pair READING_OFFICE = {"read13", library_read, c_read};
static const pair WRITING = {"write", library_write, c_write};
static const pair READING_BINARY = {"read b", library_read_binary, c_read_binary};
static const pair WRITING_BINARY = {"writeb", library_write_binary, c_write_binary};
static const pair TICKING = {"tick", library_tick, c_tick};
static const pair CHAINING = {"chain", library_chain, c_chain};
static const pair CHAINING_ASSUMED = {"chain8", library_chain, c_chain};
static const pair JUDGING = {"judge", library_judge, c_judge};
static const pair RUNNING = {"both", library_run, c_run};
static const pair COVERING = {"cover", library_cover, c_cover};
static const pair ASKING = {"why", library_why, c_why};
static const pair MERGING = {"merge", library_merge, c_merge};
static const pair READING_BOARD = {"readbg", library_read_beginners, c_read_beginners};
static const pair CHAINING_BOARD = {"chainb", library_chain_beginners, c_chain_beginners};

/* ---- equal answers ---- */

static buffers library_lent;
static buffers plain_lent;

/* The answer that both sides give, with equal bytes in all that they are lent. */
static answer expect(const pair *p, const request *r, uint32_t number)
{
    memset(&library_lent, POISON, sizeof library_lent);
    memset(&plain_lent, POISON, sizeof plain_lent);
    answer library = p->library(r, &library_lent);
    answer plain = p->plain(r, &plain_lent);
    if (memcmp(&library, &plain, sizeof library) != 0) {
        fprintf(stderr, "%s: library %zu, plain %zu, or what stands beside it\n", p->name, library.numbers[0],
                plain.numbers[0]);
        exit(1);
    }
    if (memcmp(&library_lent, &plain_lent, sizeof library_lent) != 0) {
        fprintf(stderr, "%s: other bytes after number %zu\n", p->name, library.numbers[0]);
        exit(1);
    }
    if (library.numbers[0] != number) {
        fprintf(stderr, "%s: number %zu, due %u\n", p->name, library.numbers[0], (unsigned)number);
        exit(1);
    }
    return library;
}

static void expect_text(request *r, const char *text, uint32_t number)
{
    r->text_bytes = strlen(text);
    memcpy(r->text, text, r->text_bytes);
    expect(&READING, r, number);
}

static void check_texts(const request *sound)
{
    static request r;
    r = *sound;
    r.text_bytes = CHUDRAVIK_MOST_TEXT + 1;
    expect(&READING, &r, CHUDRAVIK_TEXT_TOO_LONG);
    r = *sound;
    r.table_words = 0;
    expect(&READING, &r, CHUDRAVIK_TOO_SHORT);
    r = *sound;
    expect_text(&r, "aag 0 0 0 0\n", CHUDRAVIK_FIRST_LINE);
    expect_text(&r, "aag 0 0 0 0 0 0 0 0 0 0\n", CHUDRAVIK_FIRST_LINE);
    expect_text(&r, "aag 257 257 0 0 0\n", CHUDRAVIK_COUNTS);
    expect_text(&r, "aag 0 0 0 0 0 65\n", CHUDRAVIK_COUNTS);
    expect_text(&r, "aag 0 0 0 0 0 0 65\n", CHUDRAVIK_COUNTS);
    expect_text(&r, "aag 0 0 0 0 0 0 0 1\n", CHUDRAVIK_COUNTS);
    expect_text(&r, "aag 0 0 0 0 0 0 0 0 1\n", CHUDRAVIK_COUNTS);
    expect_text(&r, "aag 0 0 0 0 0 1 1 0 0\n1\n", CHUDRAVIK_BODY_LINE);
    expect_text(&r, "aag 0 0 0 0 0 1 1 0 0\n1\n2\n", CHUDRAVIK_LITERAL_TOO_LARGE);
    expect_text(&r, "aag 0 0 0 0 0 1 1 0 0\n1\n0\n", CHUDRAVIK_ACCEPTED);
    expect_text(&r, "aag 1 1 0 0 0\n", CHUDRAVIK_BODY_LINE);
    expect_text(&r, "aag 1 1 0 0 0\n02\n", CHUDRAVIK_BODY_LINE);
    expect_text(&r, "aag 1 1 0 0 0\n4\n", CHUDRAVIK_OWN_LITERAL);
    expect_text(&r, "aag 2 1 0 0 1\n2\n4 6 2\n", CHUDRAVIK_LITERAL_TOO_LARGE);
    expect_text(&r, "aag 2 1 0 0 1\n2\n4 4 2\n", CHUDRAVIK_OPERAND_NOT_BELOW);
    expect_text(&r, "aag 1 0 1 0 0\n2 2 3\n", CHUDRAVIK_RESET);
    expect_text(&r, "aag 1 0 1 0 0\n2 2 2\n", CHUDRAVIK_ACCEPTED);
    expect_text(&r, "aag 1 0 1 0 0\r\n2 2\r\n", CHUDRAVIK_ACCEPTED);
    expect_text(&r, "aag 1 0 1 0 0\r\n2 2\n", CHUDRAVIK_BODY_LINE);
    expect_text(&r, "aag 0 0 0 0 0\ncc\n", CHUDRAVIK_TRAILING);
    expect_text(&r, "aag 0 0 0 0 0\nc\n", CHUDRAVIK_ACCEPTED);
    expect_text(&r, "aag 0 0 0 0 0\nc", CHUDRAVIK_TRAILING); /* the newline still stands behind it */
}

static void expect_binary(request *r, const char *bytes, size_t count, uint32_t number)
{
    r->binary_bytes = count;
    memcpy(r->binary, bytes, count);
    expect(&READING_BINARY, r, number);
}

#define EXPECT_BINARY(r, bytes, number) expect_binary(r, bytes, sizeof bytes - 1, number)

static void check_binaries(const request *sound)
{
    static request r;
    r = *sound;
    r.binary_bytes = CHUDRAVIK_MOST_TEXT + 1;
    expect(&READING_BINARY, &r, CHUDRAVIK_TEXT_TOO_LONG);
    r = *sound;
    r.table_words = 0;
    expect(&READING_BINARY, &r, CHUDRAVIK_TOO_SHORT);
    r = *sound;
    r.binary_room = r.binary_bytes - 1;
    expect(&WRITING_BINARY, &r, CHUDRAVIK_TOO_SHORT);
    r = *sound;
    EXPECT_BINARY(&r, "aag 0 0 0 0 0\n", CHUDRAVIK_FIRST_LINE);
    EXPECT_BINARY(&r, "aig 0 0 0 0 0\r\n", CHUDRAVIK_FIRST_LINE);
    EXPECT_BINARY(&r, "aig 2 1 0 0 0\n", CHUDRAVIK_COUNTS);
    EXPECT_BINARY(&r, "aig 0 0 0 0 0 0 65\n", CHUDRAVIK_COUNTS);
    EXPECT_BINARY(&r, "aig 0 0 0 0 0 1 1\n1\n0\n", CHUDRAVIK_ACCEPTED);
    EXPECT_BINARY(&r, "aig 1 0 1 0 0\n2 2 2\n", CHUDRAVIK_BODY_LINE);
    EXPECT_BINARY(&r, "aig 1 0 1 0 0\n4\n", CHUDRAVIK_LITERAL_TOO_LARGE);
    EXPECT_BINARY(&r, "aig 1 0 1 0 0\n2 3\n", CHUDRAVIK_RESET);
    EXPECT_BINARY(&r, "aig 1 0 1 0 0\n2 2\n", CHUDRAVIK_ACCEPTED);
    EXPECT_BINARY(&r, "aig 2 1 0 0 1\n\2", CHUDRAVIK_DIFFERENCE);
    EXPECT_BINARY(&r, "aig 2 1 0 0 1\n\2\200\0", CHUDRAVIK_DIFFERENCE);
    EXPECT_BINARY(&r, "aig 2 1 0 0 1\n\0\2", CHUDRAVIK_OPERAND_NOT_BELOW);
    EXPECT_BINARY(&r, "aig 2 1 0 0 1\n\2\3", CHUDRAVIK_OPERAND_NOT_BELOW);
    EXPECT_BINARY(&r, "aig 2 1 0 0 1\n\2\2x", CHUDRAVIK_TRAILING);
    EXPECT_BINARY(&r, "aig 2 1 0 0 1\n\2\2c\n", CHUDRAVIK_ACCEPTED);
}

/* The refusals of every call that is given a circuit. */
static void check_circuits(const request *sound)
{
    static const pair *const GIVEN[] = {&WRITING, &WRITING_BINARY, &TICKING, &CHAINING,
                                         &JUDGING, &COVERING,       &ASKING};
    static request r;
    for (size_t i = 0; i < sizeof GIVEN / sizeof GIVEN[0]; i++) {
        r = *sound;
        r.counts.gates = SIZE_MAX;
        expect(GIVEN[i], &r, CHUDRAVIK_COUNTS);
        r = *sound;
        r.table_words = CHUDRAVIK_TABLE_WORDS(r.counts) - 1;
        expect(GIVEN[i], &r, CHUDRAVIK_TOO_SHORT);
        r = *sound;
        r.table[1] = CHUDRAVIK_NO_START + 1;
        expect(GIVEN[i], &r, CHUDRAVIK_TABLE);
        r = *sound;
        r.counts.bads = SIZE_MAX;
        expect(GIVEN[i], &r, CHUDRAVIK_COUNTS);
        r = *sound;
        r.counts.constraints = CHUDRAVIK_MOST_CONSTRAINTS + 1;
        expect(GIVEN[i], &r, CHUDRAVIK_COUNTS);
    }
    r = *sound;
    r.counts.lamps = 0;
    r.table_words = 0;
    expect(&CHAINING, &r, CHUDRAVIK_NO_LAMPS);
    expect(&JUDGING, &r, CHUDRAVIK_NO_LAMPS);
}

static void check_lengths(const request *sound)
{
    static request r;
    r = *sound;
    r.text_room = r.text_bytes - 1;
    expect(&WRITING, &r, CHUDRAVIK_TOO_SHORT);
    r = *sound;
    r.state_bytes = 0;
    expect(&TICKING, &r, CHUDRAVIK_TOO_SHORT);
    r = *sound;
    r.settled_bytes = 0;
    expect(&TICKING, &r, CHUDRAVIK_TOO_SHORT);
    expect(&JUDGING, &r, CHUDRAVIK_TOO_SHORT);
    r.cubes_bytes = 0;
    expect(&CHAINING, &r, CHUDRAVIK_CUBE_BUFFER);
    r.cubes_bytes = CHUDRAVIK_MOST_CUBE_BYTES + 1;
    expect(&CHAINING, &r, CHUDRAVIK_CUBE_BUFFER);
    r.w = CHUDRAVIK_MOST_INTERVAL + 1;
    expect(&CHAINING, &r, CHUDRAVIK_INTERVAL);
    r = *sound;
    r.cubes_bytes = 3 * CHUDRAVIK_CUBE_BYTES(r.counts.latches);
    expect(&CHAINING, &r, CHUDRAVIK_NO_ROOM);
}

static void check_chains(const request *sound)
{
    static request r;
    r = *sound;
    r.chained_cubes++;
    expect(&JUDGING, &r, CHUDRAVIK_TOO_SHORT);
    r = *sound;
    r.chained[r.chained_bytes - 1] |= 0x03;
    expect(&JUDGING, &r, CHUDRAVIK_RECORD);
    r = *sound;
    r.chained[0] &= 0x3F; /* the mark 00 */
    expect(&JUDGING, &r, CHUDRAVIK_RECORD);
    r = *sound;
    r.verdict_bytes = 0;
    expect(&JUDGING, &r, CHUDRAVIK_TOO_SHORT);
    r.chained_back = r.chained_cubes;
    expect(&JUDGING, &r, CHUDRAVIK_NOT_A_CHAIN);
    r = *sound;
    r.chained_cubes--; /* the last but one does not go back to where the last does */
    expect(&JUDGING, &r, CHUDRAVIK_NOT_A_CHAIN);
    r = *sound;
    cube_of_nothing(r.counts.latches, CHUDRAVIK_PLAIN, r.chained); /* covers the start, and is not it */
    expect(&JUDGING, &r, CHUDRAVIK_NOT_A_CHAIN);
}

static void check_records(const request *sound)
{
    static request r;
    r = *sound;
    r.state[0] |= 0xC0;
    expect(&TICKING, &r, CHUDRAVIK_RECORD);
    r = *sound;
    r.switches[0] |= 0x01; /* a leftover bit of one switch */
    expect(&TICKING, &r, CHUDRAVIK_RECORD);
}

static void check_covers(const request *sound)
{
    static request r;
    r = *sound;
    r.sent_cubes++;
    expect(&COVERING, &r, CHUDRAVIK_TOO_SHORT);
    r = *sound;
    r.sent[r.sent_bytes - 1] |= 0x03;
    expect(&COVERING, &r, CHUDRAVIK_RECORD);
    r = *sound;
    r.sent[0] |= 0xC0; /* the mark 11 */
    expect(&COVERING, &r, CHUDRAVIK_RECORD);
    r = *sound;
    r.sent_cubes = 0;
    expect(&COVERING, &r, CHUDRAVIK_START_NOT_COVERED);
    r = *sound;
    r.sent_cubes = 1; /* the start alone: the counter in front goes on */
    r.verdict_bytes = 0;
    for (size_t i = 0; i < r.counts.latches; i++)
        put_latch(r.sent, i, r.table[2 * i + 1] == 0 ? CHUDRAVIK_LOW : CHUDRAVIK_HIGH);
    expect(&COVERING, &r, CHUDRAVIK_NEXT_NOT_COVERED);
    cube_of_nothing(r.counts.latches, CHUDRAVIK_WIDENED, r.sent); /* all states */
    expect(&COVERING, &r, CHUDRAVIK_TOO_SHORT);
}

static void check_questions(const request *sound)
{
    static request r;
    r = *sound;
    r.known_bytes = 0;
    expect(&ASKING, &r, CHUDRAVIK_TOO_SHORT);
    r = *sound;
    r.known[0] |= 0xC0;
    expect(&ASKING, &r, CHUDRAVIK_RECORD);
    r = *sound;
    r.settled_bytes = 0;
    expect(&ASKING, &r, CHUDRAVIK_TOO_SHORT);
    r.table[2 * r.counts.latches + r.lamp] = 2; /* a switch */
    expect(&ASKING, &r, CHUDRAVIK_LAMP_UNKNOWN);
    r.lamp = r.counts.lamps;
    expect(&ASKING, &r, CHUDRAVIK_NO_SUCH_LAMP);
}

static void check_merges(const request *sound)
{
    static request r;
    r = *sound;
    r.state_bytes = 0;
    expect(&MERGING, &r, CHUDRAVIK_TOO_SHORT);
    r = *sound;
    r.known_bytes = 0;
    expect(&MERGING, &r, CHUDRAVIK_TOO_SHORT);
    r = *sound;
    r.settled_bytes = 0;
    expect(&MERGING, &r, CHUDRAVIK_TOO_SHORT);
    r.known[0] |= 0xC0;
    expect(&MERGING, &r, CHUDRAVIK_RECORD);
    r = *sound;
    r.counts.latches = CHUDRAVIK_MOST_FIELDS + 1;
    expect(&MERGING, &r, CHUDRAVIK_COUNTS);
}

static void check_boards(const request *sound)
{
    static request r;
    r = *sound;
    r.table_words = 0;
    expect(&READING_BOARD, &r, CHUDRAVIK_TOO_SHORT);
    expect(&CHAINING_BOARD, &r, CHUDRAVIK_TOO_SHORT);
    r = *sound;
    r.cubes_bytes = CHUDRAVIK_BEGINNERS_CUBE_BYTES;
    expect(&CHAINING_BOARD, &r, CHUDRAVIK_ACCEPTED);
    r.cubes_bytes--;
    expect(&CHAINING_BOARD, &r, CHUDRAVIK_CUBE_BUFFER);
    r.cubes_bytes = CHUDRAVIK_MOST_CUBE_BYTES + 1;
    expect(&CHAINING_BOARD, &r, CHUDRAVIK_CUBE_BUFFER);
    r.table[0] = 1;
    expect(&CHAINING_BOARD, &r, CHUDRAVIK_BEGINNERS);
    r.counts.lamps = 0;
    expect(&CHAINING_BOARD, &r, CHUDRAVIK_NO_LAMPS);
    r = *sound;
    r.text_bytes = chudravik_write(r.counts, r.table, r.table_words, r.text, r.text_room).bytes;
    expect(&READING_BOARD, &r, CHUDRAVIK_ACCEPTED);
    r.table[0] = 1;
    r.text_bytes = chudravik_write(r.counts, r.table, r.table_words, r.text, r.text_room).bytes;
    expect(&READING_BOARD, &r, CHUDRAVIK_BEGINNERS);
}

/* Chains and covers that have ended: constraint 0 is the constant 0. */
static void check_ends(const request *assumed)
{
    static request r;
    r = *assumed;
    r.table[2 * r.counts.latches + r.counts.lamps] = 0;
    expect(&RUNNING, &r, CHUDRAVIK_ACCEPTED);
    expect(&JUDGING, &r, CHUDRAVIK_ACCEPTED); /* any cubes */
    r.chained_back = r.chained_cubes;
    expect(&JUDGING, &r, CHUDRAVIK_ACCEPTED);
    r.chained_back++;
    expect(&JUDGING, &r, CHUDRAVIK_NOT_A_CHAIN);
    r.chained_back = r.chained_cubes = 0;
    expect(&JUDGING, &r, CHUDRAVIK_ACCEPTED);
    r.sent_cubes = 0;
    expect(&COVERING, &r, CHUDRAVIK_ACCEPTED);
    r = *assumed;
    r.chained_back = r.chained_cubes;
    expect(&JUDGING, &r, CHUDRAVIK_NOT_A_CHAIN);
}

/* ---- times ---- */

static double now(void)
{
    struct timespec t;
    clock_gettime(CLOCK_PROCESS_CPUTIME_ID, &t); /* others on the machine are not counted */
    return 1e9 * (double)t.tv_sec + (double)t.tv_nsec;
}

static double nanoseconds(call *f, const request *r, buffers *b, size_t repeats)
{
    double start = now();
    for (size_t i = 0; i < repeats; i++) {
        f(r, b);
    }
    return now() - start;
}

/* How often a call has to be repeated for a round that the clock can measure. */
static size_t repeats_for(call *f, const request *r, buffers *b)
{
    size_t repeats = 1;
    while (nanoseconds(f, r, b, repeats) < LEAST_NANOSECONDS) {
        repeats *= 2;
    }
    return repeats;
}

typedef struct {
    double library;
    double plain;
} times;

static double lower(double a, double b)
{
    return a < b ? a : b;
}

static times measure(const pair *p, const request *r, size_t rounds)
{
    times best = {1e300, 1e300};
    size_t repeats = repeats_for(p->library, r, &library_lent);
    for (size_t i = 0; i < rounds; i++) {
        best.library = lower(best.library, nanoseconds(p->library, r, &library_lent, repeats));
        best.plain = lower(best.plain, nanoseconds(p->plain, r, &plain_lent, repeats));
    }
    return (times){best.library / (double)repeats, best.plain / (double)repeats};
}

/* ---- the report ---- */

static request requests[CIRCUITS], deepest, boards[BOARD_COUNT];

/* The same under constraints, each of which is that a switch is on: it is X, so that the chain stores the same cubes, and makes
 * one pass more over the gates for each. */
enum { ASSUMED = 8 };
static request assumed[CIRCUITS];

static void assume(const request *plain, request *r)
{
    size_t front = 2 * plain->counts.latches + plain->counts.lamps;
    *r = *plain;
    r->counts.constraints = ASSUMED;
    memcpy(r->table + front + ASSUMED, plain->table + front, 2 * plain->counts.gates * sizeof *r->table);
    for (size_t i = 0; i < ASSUMED; i++)
        r->table[front + i] = (uint16_t)(2 * (1 + i % plain->counts.inputs));
}

/* The same with bytes 13 and 10 at the end of each line; the largest is then over what is read. */
static request saved[CIRCUITS];
enum { SAVED = CIRCUITS - 1 };

static void save_at_the_office(const request *plain, request *office)
{
    *office = *plain;
    office->text_bytes = 0;
    for (size_t i = 0; i < plain->text_bytes; i++) {
        if (plain->text[i] == '\n')
            office->text[office->text_bytes++] = '\r';
        office->text[office->text_bytes++] = plain->text[i];
    }
}
static answer runs[CIRCUITS];

/* What a call goes over, by which its growth can be judged. */
static double bytes_of_text(size_t i)
{
    return (double)requests[i].text_bytes;
}

static double bytes_of_binary(size_t i)
{
    return (double)requests[i].binary_bytes;
}

static double words_of_table(size_t i)
{
    const chudravik_counts *c = &requests[i].counts;
    return (double)CHUDRAVIK_TABLE_WORDS(*c);
}

static double bytes_of_record(size_t i)
{
    return (double)CHUDRAVIK_RECORD_BYTES(requests[i].counts.latches);
}

static double words_times_cubes(size_t i)
{
    return words_of_table(i) * (double)runs[i].numbers[1];
}

static double words_times_sent(size_t i)
{
    return words_of_table(i) * (double)requests[i].sent_cubes;
}

static void print_circuit(size_t i)
{
    const chudravik_counts *c = &requests[i].counts;
    const size_t *run = runs[i].numbers;
    printf("%-8s I %zu, L %zu, O %zu, A %zu; text of %zu bytes, binary of %zu; with w = %d: n %zu, j %zu, s %zu\n",
           PLANS[i].name, c->inputs, c->latches, c->lamps, c->gates, requests[i].text_bytes, requests[i].binary_bytes,
           INTERVAL, run[1], run[2], run[3]);
}

static void check_all(void)
{
    for (size_t i = 0; i < CIRCUITS; i++) {
        make_request(&PLANS[i], &requests[i], make_table);
        expect(&READING, &requests[i], CHUDRAVIK_ACCEPTED);
        expect(&WRITING, &requests[i], CHUDRAVIK_ACCEPTED);
        expect(&READING_BINARY, &requests[i], CHUDRAVIK_ACCEPTED);
        expect(&WRITING_BINARY, &requests[i], CHUDRAVIK_ACCEPTED);
        expect(&TICKING, &requests[i], CHUDRAVIK_ACCEPTED);
        expect(&CHAINING, &requests[i], CHUDRAVIK_ACCEPTED);
        expect(&JUDGING, &requests[i], CHUDRAVIK_ACCEPTED);
        runs[i] = expect(&RUNNING, &requests[i], CHUDRAVIK_ACCEPTED);
        expect(&COVERING, &requests[i], CHUDRAVIK_ACCEPTED);
        expect(&ASKING, &requests[i], CHUDRAVIK_ACCEPTED);
        expect(&MERGING, &requests[i], CHUDRAVIK_ACCEPTED);
        print_circuit(i);
    }
    make_deepest(&requests[CIRCUITS - 1], &deepest);
    expect(&ASKING, &deepest, CHUDRAVIK_ACCEPTED);
    for (size_t i = 0; i < BOARD_COUNT; i++) {
        make_request(&BOARDS[i], &boards[i], make_board);
        expect(&READING_BOARD, &boards[i], CHUDRAVIK_ACCEPTED);
        printf("a %s beginners' board of %zu latches: %zu cubes\n", BOARDS[i].name, BOARDS[i].counts.latches,
               expect(&CHAINING_BOARD, &boards[i], CHUDRAVIK_ACCEPTED).numbers[1]);
        expect(&CHAINING, &boards[i], CHUDRAVIK_ACCEPTED);
    }
    expect(&READING_BOARD, &requests[CIRCUITS - 1], CHUDRAVIK_BEGINNERS);
    expect(&CHAINING_BOARD, &requests[CIRCUITS - 1], CHUDRAVIK_BEGINNERS);
    for (size_t i = 0; i < SAVED; i++) {
        save_at_the_office(&requests[i], &saved[i]);
        expect(&READING, &saved[i], CHUDRAVIK_ACCEPTED);
    }
    check_texts(&requests[0]);
    check_binaries(&requests[0]);
    check_circuits(&requests[0]);
    check_lengths(&requests[0]);
    check_records(&requests[0]);
    check_chains(&requests[0]);
    check_covers(&requests[0]);
    check_questions(&requests[0]);
    check_merges(&requests[0]);
    check_boards(&boards[0]);
    for (size_t i = 0; i < CIRCUITS; i++) {
        assume(&requests[i], &assumed[i]);
        expect(&CHAINING_ASSUMED, &assumed[i], CHUDRAVIK_ACCEPTED);
        expect(&JUDGING, &assumed[i], CHUDRAVIK_ACCEPTED);
        expect(&WRITING, &assumed[i], CHUDRAVIK_ACCEPTED);
        expect(&WRITING_BINARY, &assumed[i], CHUDRAVIK_ACCEPTED);
        check_ends(&assumed[i]);
    }
    printf("equal answers and bytes from both sides\n\n");
}

/* Keeps the library's times where they are asked for. */
static void report(const pair *p, const request *given, size_t count, double (*work)(size_t), const char *of,
                   size_t rounds, double *kept)
{
    times before = {0, 0};
    for (size_t i = 0; i < count; i++) {
        times t = measure(p, &given[i], rounds);
        if (kept != NULL) {
            kept[i] = t.library;
        }
        printf("%-6s %-8s %12.1f %12.1f %7.3f", p->name, PLANS[i].name, t.library, t.plain, t.library / t.plain);
        if (i > 0) {
            printf("   x%-8.1f x%-8.1f x%.1f %s", t.library / before.library, t.plain / before.plain,
                   work(i) / work(i - 1), of);
        }
        printf("\n");
        fflush(stdout);
        before = t;
    }
}

static void report_one(const pair *p, const request *given, const char *name, size_t rounds)
{
    times t = measure(p, given, rounds);
    printf("%-6s %-8s %12.1f %12.1f %7.3f\n", p->name, name, t.library, t.plain, t.library / t.plain);
    fflush(stdout);
}

static size_t rounds_from(int argc, char **argv)
{
    if (argc < 2) {
        return DEFAULT_ROUNDS;
    }
    char *end;
    unsigned long rounds = strtoul(argv[1], &end, 10);
    if (argc > 2 || *end != '\0' || rounds < 1 || rounds > MOST_ROUNDS) {
        fprintf(stderr, "usage: bench [ROUNDS], 1 to %d\n", MOST_ROUNDS);
        exit(2);
    }
    return rounds;
}

int main(int argc, char **argv)
{
    size_t rounds = rounds_from(argc, argv);
    check_all();
    printf("best of %zu rounds, in nanoseconds; growth from the circuit above\n", rounds);
    printf("call   circuit       library        plain   ratio   library   plain     of what it goes over\n");
    report(&READING, requests, CIRCUITS, bytes_of_text, "bytes of text", rounds, NULL);
    report(&READING_OFFICE, saved, SAVED, bytes_of_text, "bytes of text", rounds, NULL);
    report(&WRITING, requests, CIRCUITS, bytes_of_text, "bytes of text", rounds, NULL);
    report(&READING_BINARY, requests, CIRCUITS, bytes_of_binary, "bytes of binary text", rounds, NULL);
    report(&WRITING_BINARY, requests, CIRCUITS, bytes_of_binary, "bytes of binary text", rounds, NULL);
    report(&TICKING, requests, CIRCUITS, words_of_table, "words of table", rounds, NULL);
    double judge[CIRCUITS], both[CIRCUITS], chain[CIRCUITS], under[CIRCUITS];
    report(&CHAINING, requests, CIRCUITS, words_times_cubes, "words x cubes", rounds, chain);
    report(&CHAINING_ASSUMED, assumed, CIRCUITS, words_times_cubes, "words x cubes", rounds, under);
    report(&JUDGING, requests, CIRCUITS, words_times_cubes, "words x cubes", rounds, judge);
    report(&RUNNING, requests, CIRCUITS, words_times_cubes, "words x cubes", rounds, both);
    report(&COVERING, requests, CIRCUITS, words_times_sent, "words x 512 cubes", rounds, NULL);
    report(&ASKING, requests, CIRCUITS, words_of_table, "words of table", rounds, NULL);
    report_one(&ASKING, &deepest, "deepest", rounds);
    report(&MERGING, requests, CIRCUITS, bytes_of_record, "bytes of record", rounds, NULL);
    for (size_t i = 0; i < BOARD_COUNT; i++) {
        report_one(&READING_BOARD, &boards[i], BOARDS[i].name, rounds);
        report_one(&CHAINING_BOARD, &boards[i], BOARDS[i].name, rounds);
    }
    printf("\nwith a lamp added, the judge alone for both calls:");
    for (size_t i = 0; i < CIRCUITS; i++) {
        printf(" %s %.2f", PLANS[i].name, judge[i] / both[i]);
    }
    printf("\nthe chain under %d constraints, for the chain without:", ASSUMED);
    for (size_t i = 0; i < CIRCUITS; i++) {
        printf(" %s %.2f", PLANS[i].name, under[i] / chain[i]);
    }
    printf("\n");
    return 0;
}

/* Random and damaged calls of every kind, each made twice: to the library and to the simulator (twice.h). A buffer of no
 * bytes is now and then a null pointer.
 *
 * differential CALLS [SEED [FIRST]]
 *
 * Call number k of a seed does not depend on the calls before it: `differential 1 SEED k` makes it again.
 */
#define _DEFAULT_SOURCE
#include "chance.h"
#include "cube.h"
#include "twice.h"

#include <errno.h>
#include <inttypes.h>
#include <signal.h>
#include <stdarg.h>
#include <stdio.h>
#include <stdlib.h>
#include <string.h>
#include <unistd.h>

enum {
    INPUTS_CEILING = 256,
    LATCHES_CEILING = 512,
    LAMPS_CEILING = 64,
    GATES_CEILING = 3327,
    BADS_CEILING = 64,
    CONSTRAINTS_CEILING = 64,
    WORDS_CEILING = 2 * LATCHES_CEILING + LAMPS_CEILING + BADS_CEILING + CONSTRAINTS_CEILING + 2 * GATES_CEILING,
    TEXT_CEILING = 60000,
    WRITTEN_CEILING = 59061,
    BINARY_CEILING = 19176,
    NO_START = 2,
    CUBES_CEILING = 65536,
    LONGEST_TEXT = 70000 /* that is made here, so that 1 is met too */
};

/* ---- chance ---- */

static size_t one_of(const size_t *choices, size_t count)
{
    return choices[below(count)];
}

#define ONE_OF(...) one_of((const size_t[]){__VA_ARGS__}, sizeof((const size_t[]){__VA_ARGS__}) / sizeof(size_t))

static size_t least_of(size_t one, size_t other)
{
    return one < other ? one : other;
}

/* ---- the call in hand, and how it fails ---- */

static twice hand;
static uint64_t seed, number_in_hand;

static void fail(const char *form, ...)
{
    va_list rest;
    va_start(rest, form);
    fprintf(stderr, "differential: seed %" PRIu64 ", call number %" PRIu64 ": ", seed, number_in_hand);
    vfprintf(stderr, form, rest);
    fputc('\n', stderr);
    va_end(rest);
    twice_show(&hand);
    fprintf(stderr, "  again: differential 1 %" PRIu64 " %" PRIu64 "\n", seed, number_in_hand);
    exit(1);
}

/* The program ends here, so that what is not safe in a handler does no harm that lasts. */
static void touched(int signal_number, siginfo_t *info, void *context)
{
    (void)context;
    enum role role = twice_near(&hand, info->si_addr);
    if (role != ROLES)
        fail("signal %d: memory beyond a buffer was touched: %s", signal_number, role_names[role]);
    fail("signal %d, far from every buffer", signal_number);
}

static void watch_signals(void)
{
    static uint8_t stack[1 << 16];
    stack_t own_stack = {.ss_sp = stack, .ss_size = sizeof stack};
    struct sigaction action = {.sa_sigaction = touched, .sa_flags = SA_SIGINFO | SA_ONSTACK};
    if (sigaltstack(&own_stack, NULL) != 0 || sigaction(SIGSEGV, &action, NULL) != 0 ||
        sigaction(SIGBUS, &action, NULL) != 0 || sigaction(SIGILL, &action, NULL) != 0) {
        perror("differential");
        exit(2);
    }
}

/* ---- buffers ---- */

static void lend(enum role role, bool given, size_t bytes)
{
    twice_lend(&hand, role, given, bytes, (enum laid)below(bytes == 0 ? LAID_WAYS : LAID_NULL));
}

static void fill_noise(uint8_t *bytes, size_t count)
{
    uint64_t word = 0;
    for (size_t i = 0; i < count; i++) {
        if (i % 8 == 0)
            word = draw();
        bytes[i] = (uint8_t)(word >> (i % 8 * 8));
    }
}

static void lend_given(enum role role, const void *content, size_t bytes)
{
    if (bytes != 0)
        memcpy(twice_content(&hand, role), content, bytes);
    lend(role, true, bytes);
}

/* What a call fills holds noise first, so that a byte it should not have written is seen. */
static void lend_noise(enum role role, size_t bytes)
{
    fill_noise(twice_content(&hand, role), bytes);
    lend(role, false, bytes);
}

static size_t bytes_of(enum role role)
{
    return hand.lent[role].bytes;
}

static void make_call(void)
{
    if (!twice_make(&hand))
        fail("%s", hand.difference);
}

/* ---- circuits ---- */

typedef struct {
    chudravik_counts counts;
    uint16_t next[LATCHES_CEILING];
    uint16_t reset[LATCHES_CEILING];
    uint16_t lamp[LAMPS_CEILING];
    uint16_t bad[BADS_CEILING];
    uint16_t constraint[CONSTRAINTS_CEILING];
    uint16_t operand[GATES_CEILING][2];
} circuit;

static size_t variables(const circuit *c)
{
    return c->counts.inputs + c->counts.latches + c->counts.gates;
}

static size_t top_literal(const circuit *c)
{
    return 2 * variables(c) + 1;
}

static size_t switch_literal(size_t i)
{
    return 2 * (1 + i);
}

static size_t latch_literal(const circuit *c, size_t i)
{
    return 2 * (1 + c->counts.inputs + i);
}

static size_t gate_literal(const circuit *c, size_t i)
{
    return 2 * (1 + c->counts.inputs + c->counts.latches + i);
}

/* Often a late one, so that gates stand on gates and depth comes about. */
static uint16_t literal_below(size_t bound)
{
    if (chance(4))
        return (uint16_t)below(2);
    if (chance(35))
        return (uint16_t)(bound - 1 - below(least_of(bound, 12)));
    return (uint16_t)below(bound);
}

static size_t perhaps_inverted(size_t literal)
{
    return literal ^ below(2);
}

static size_t add_gate(circuit *c, size_t left, size_t right)
{
    if (c->counts.gates == GATES_CEILING)
        return 0;
    size_t place = c->counts.gates++;
    bool swapped = chance(50);
    c->operand[place][swapped] = (uint16_t)left;
    c->operand[place][!swapped] = (uint16_t)right;
    return gate_literal(c, place);
}

static size_t add_either(circuit *c, size_t one, size_t other)
{
    return add_gate(c, one ^ 1, other ^ 1) ^ 1;
}

static size_t add_unlike(circuit *c, size_t one, size_t other)
{
    size_t only_one = add_gate(c, one, other ^ 1);
    return add_either(c, only_one, add_gate(c, one ^ 1, other));
}

static void add_random_gates(circuit *c, size_t count)
{
    for (size_t i = 0; i < count && c->counts.gates < GATES_CEILING; i++) {
        size_t own = gate_literal(c, c->counts.gates);
        size_t left = literal_below(own);
        add_gate(c, left, literal_below(own));
    }
}

static void set_resets(circuit *c)
{
    bool mixed = chance(60);
    for (size_t i = 0; i < c->counts.latches; i++)
        c->reset[i] = (uint16_t)(mixed ? below(3) : 0);
}

static void set_random_lamps(circuit *c)
{
    for (size_t i = 0; i < c->counts.lamps; i++)
        c->lamp[i] = literal_below(top_literal(c) + 1);
}

/* Every count at its ceiling, every literal with as many digits as there are, every reset shown; and the gates in one
 * chain, or not, or with operands so far apart that each difference takes two bytes. */
static void make_widest_circuit(circuit *c)
{
    bool chained = chance(35), apart = !chained && chance(50);
    c->counts = (chudravik_counts){.inputs = INPUTS_CEILING,
                                   .latches = LATCHES_CEILING,
                                   .lamps = LAMPS_CEILING,
                                   .bads = BADS_CEILING,
                                   .constraints = CONSTRAINTS_CEILING};
    while (c->counts.gates < GATES_CEILING) {
        size_t own = gate_literal(c, c->counts.gates);
        size_t left = chained ? own - 1 - below(2) : apart ? between(1128, own - 128) : between(1000, own - 1);
        add_gate(c, left, between(1000, apart ? left - 128 : own - 1));
    }
    for (size_t i = 0; i < LATCHES_CEILING; i++) {
        c->next[i] = (uint16_t)between(1000, top_literal(c));
        c->reset[i] = NO_START;
    }
    for (size_t i = 0; i < LAMPS_CEILING; i++)
        c->lamp[i] = (uint16_t)between(1000, top_literal(c));
    for (size_t i = 0; i < BADS_CEILING; i++)
        c->bad[i] = (uint16_t)between(1000, top_literal(c));
    for (size_t i = 0; i < CONSTRAINTS_CEILING; i++)
        c->constraint[i] = (uint16_t)between(1000, top_literal(c));
}

static void make_random_circuit(circuit *c, chudravik_counts counts)
{
    c->counts = counts;
    c->counts.gates = 0;
    add_random_gates(c, counts.gates);
    for (size_t i = 0; i < counts.latches; i++)
        c->next[i] = literal_below(top_literal(c) + 1);
    set_resets(c);
    set_random_lamps(c);
}

static size_t random_count(size_t most)
{
    return chance(12) ? 0 : chance(6) ? most : between(0, most);
}

static chudravik_counts random_counts(size_t inputs, size_t latches, size_t lamps, size_t gates)
{
    chudravik_counts counts = {0};
    counts.inputs = random_count(inputs);
    counts.latches = random_count(latches);
    counts.lamps = random_count(lamps);
    counts.gates = random_count(gates);
    return counts;
}

static chudravik_counts random_size(void)
{
    size_t roll = below(1000);
    if (roll < 3)
        return (chudravik_counts){INPUTS_CEILING, LATCHES_CEILING, LAMPS_CEILING, GATES_CEILING, 0, 0};
    if (roll < 24)
        return random_counts(INPUTS_CEILING, LATCHES_CEILING, LAMPS_CEILING, GATES_CEILING);
    if (roll < 100)
        return random_counts(40, 100, 20, 400);
    return roll < 550 ? random_counts(8, 12, 8, 40) : random_counts(2, 4, 3, 5);
}

/* ---- clockworks: circuits that count, shift and settle ---- */

/* Some of the latches, in the order in which they stand in a block. */
typedef struct {
    const size_t *latch;
    size_t size;
} places;

static size_t literal_at(const circuit *c, places p, size_t i)
{
    return latch_literal(c, p.latch[i]);
}

/* What keeps a block going: mostly nothing but the constant, else a switch or some latch. */
static size_t drive(const circuit *c)
{
    if (c->counts.inputs > 0 && chance(10))
        return switch_literal(below(c->counts.inputs));
    return chance(10) ? latch_literal(c, below(c->counts.latches)) : 1;
}

static void add_counter(circuit *c, places p)
{
    size_t carry = drive(c);
    for (size_t i = 0; i < p.size; i++) {
        c->next[p.latch[i]] = (uint16_t)add_unlike(c, literal_at(c, p, i), carry);
        carry = add_gate(c, carry, literal_at(c, p, i));
    }
}

static size_t add_match(circuit *c, places p, size_t number)
{
    size_t match = 1;
    for (size_t i = 0; i < p.size; i++)
        match = add_gate(c, match, literal_at(c, p, i) ^ (number >> i % 64 & 1 ? 0 : 1));
    return match;
}

/* A counter that starts again from 0 after some number, or stays there. */
static void add_capped_counter(circuit *c, places p)
{
    bool stays = chance(40);
    size_t match = add_match(c, p, draw());
    size_t carry = stays ? match ^ 1 : 1;
    for (size_t i = 0; i < p.size; i++) {
        size_t counted = add_unlike(c, literal_at(c, p, i), carry);
        carry = add_gate(c, carry, literal_at(c, p, i));
        c->next[p.latch[i]] = (uint16_t)(stays ? counted : add_gate(c, counted, match ^ 1));
    }
}

static void add_shift(circuit *c, places p, size_t into)
{
    c->next[p.latch[0]] = (uint16_t)into;
    for (size_t i = 1; i < p.size; i++)
        c->next[p.latch[i]] = (uint16_t)literal_at(c, p, i - 1);
}

static void add_ring(circuit *c, places p)
{
    add_shift(c, p, perhaps_inverted(literal_at(c, p, p.size - 1)));
}

static void add_delay(circuit *c, places p)
{
    add_shift(c, p, perhaps_inverted(drive(c)));
}

static void add_tapped_ring(circuit *c, places p)
{
    size_t tap = literal_at(c, p, below(p.size));
    add_shift(c, p, perhaps_inverted(add_unlike(c, literal_at(c, p, p.size - 1), tap)));
}

/* Next literals that look at these latches only: what is known stays known, and the way may be long. */
static void add_closed_block(circuit *c, places p)
{
    size_t signal[40];
    for (size_t i = 0; i < 40; i++) {
        size_t one = i < 4 ? literal_at(c, p, below(p.size)) : signal[below(i)];
        size_t other = perhaps_inverted(literal_at(c, p, below(p.size)));
        signal[i] = chance(50) ? add_unlike(c, one, other) : add_gate(c, perhaps_inverted(one), other);
    }
    for (size_t i = 0; i < p.size; i++)
        c->next[p.latch[i]] = (uint16_t)perhaps_inverted(signal[below(40)]);
}

static size_t some_switch(const circuit *c)
{
    return c->counts.inputs > 0 ? switch_literal(below(c->counts.inputs)) : 1;
}

/* Latches that are unknown or known by what others are: cubes that overlap. */
static void add_veiled_block(circuit *c, places p)
{
    size_t veil = some_switch(c);
    for (size_t i = 0; i < p.size; i++) {
        size_t other = perhaps_inverted(latch_literal(c, below(c->counts.latches)));
        c->next[p.latch[i]] = (uint16_t)perhaps_inverted(add_gate(c, perhaps_inverted(veil), other));
    }
}

/* One X that goes down a line: what comes then is subsumed by many cubes, and the search must give the first. */
static void add_pulse(circuit *c, places p)
{
    add_shift(c, p, 0);
    c->reset[p.latch[0]] = 1;
    if (p.size > 1)
        c->next[p.latch[1]] = (uint16_t)add_gate(c, some_switch(c), literal_at(c, p, 0));
}

static void add_loose_block(circuit *c, places p)
{
    add_random_gates(c, below(12));
    for (size_t i = 0; i < p.size; i++)
        c->next[p.latch[i]] = literal_below(gate_literal(c, c->counts.gates));
}

typedef void block_maker(circuit *c, places p);

typedef struct {
    block_maker *make;
    size_t usual, longest; /* sizes */
} block_kind;

static const block_kind block_kinds[] = {
    {add_counter, 9, 16},      {add_capped_counter, 9, 14}, {add_ring, 11, 400},
    {add_delay, 9, 300},       {add_tapped_ring, 11, 20},   {add_closed_block, 12, 20},
    {add_veiled_block, 6, 40}, {add_pulse, 8, 100},         {add_loose_block, 5, 100},
};

enum { BLOCK_KINDS = sizeof block_kinds / sizeof block_kinds[0], MOST_BLOCKS = 4 };

static void set_places(size_t *place, size_t count)
{
    bool mixed = chance(50);
    for (size_t i = 0; i < count; i++) {
        size_t other = mixed ? below(i + 1) : i;
        if (other != i)
            place[i] = place[other];
        place[other] = i;
    }
}

static void make_clockwork(circuit *c)
{
    const block_kind *kind[MOST_BLOCKS];
    size_t size[MOST_BLOCKS], place[LATCHES_CEILING], blocks = between(1, between(1, MOST_BLOCKS)), first = 0;
    c->counts = (chudravik_counts){.inputs = below(4)};
    c->counts.lamps = random_count(8);
    for (size_t i = 0; i < blocks; i++) {
        kind[i] = &block_kinds[below(BLOCK_KINDS)];
        size[i] = between(1, chance(8) ? kind[i]->longest : kind[i]->usual);
        size[i] = least_of(size[i], LATCHES_CEILING - c->counts.latches);
        c->counts.latches += size[i];
    }
    set_places(place, c->counts.latches);
    set_resets(c);
    for (size_t i = 0; i < blocks; first += size[i++])
        if (size[i] > 0)
            kind[i]->make(c, (places){place + first, size[i]});
    add_random_gates(c, below(10));
    set_random_lamps(c);
}

/* ---- bad states and constraints ---- */

/* A literal's value: -1, 0 and 1 for 0, X and 1. */
static int value_of(const signed char *value, size_t literal)
{
    return literal % 2 ? -value[literal / 2] : value[literal / 2];
}

/* Of each variable in the start, all switches X. */
static void set_start_values(const circuit *c, signed char *value)
{
    size_t first = 1 + c->counts.inputs;
    memset(value, 0, 1 + variables(c));
    value[0] = -1;
    for (size_t i = 0; i < c->counts.latches; i++)
        value[first + i] = (signed char)(c->reset[i] == 0 ? -1 : c->reset[i] == 1);
    for (size_t i = 0; i < c->counts.gates; i++) {
        int left = value_of(value, c->operand[i][0]), right = value_of(value, c->operand[i][1]);
        value[first + c->counts.latches + i] = (signed char)(left < right ? left : right);
    }
}

/* "Assume the two switches are never both on", or a literal that mostly is not 0 at the start, so that a run goes on and may
 * end later. */
static void add_constraint(circuit *c, unsigned blocked_percent)
{
    static signed char value[4096];
    size_t literal;
    if (c->counts.constraints == CONSTRAINTS_CEILING)
        return;
    if (c->counts.inputs >= 2 && chance(15))
        literal = add_gate(c, switch_literal(0), switch_literal(1)) ^ 1;
    else if (c->counts.latches > 0 && chance(50))
        literal = latch_literal(c, below(c->counts.latches)) ^ below(2);
    else
        literal = literal_below(top_literal(c) + 1);
    set_start_values(c, value);
    if (value_of(value, literal) < 0 && !chance(blocked_percent))
        literal ^= 1;
    c->constraint[c->counts.constraints++] = (uint16_t)literal;
}

/* One constraint, and it is 0 in the start: a latch that does not start so, or the constant. */
static void block_start(circuit *c)
{
    size_t latch = below(c->counts.latches);
    bool known = c->counts.latches > 0 && c->reset[latch] != NO_START;
    c->counts.constraints = 1;
    c->constraint[0] = (uint16_t)(known ? latch_literal(c, latch) + c->reset[latch] : 0);
}

static void set_random_bads(circuit *c)
{
    for (size_t i = 0; i < c->counts.bads; i++)
        c->bad[i] = literal_below(top_literal(c) + 1);
}

/* Half of the circuits have neither, as pupils draw them. */
static void add_assumptions(circuit *c)
{
    if (chance(50))
        return;
    for (size_t count = chance(60) ? chance(4) ? CONSTRAINTS_CEILING : between(1, 3) : 0; count > 0; count--)
        add_constraint(c, 8);
    c->counts.bads = chance(60) ? chance(4) ? BADS_CEILING : between(1, 9) : 0;
    set_random_bads(c);
}

static void make_circuit(circuit *c, unsigned clockwork_percent)
{
    if (chance(clockwork_percent))
        make_clockwork(c);
    else if (chance(2)) {
        make_widest_circuit(c);
        return;
    } else
        make_random_circuit(c, random_size());
    add_assumptions(c);
}

/* ---- tables and counts ---- */

static size_t words_of(chudravik_counts counts)
{
    return 2 * counts.latches + counts.lamps + counts.bads + counts.constraints + 2 * counts.gates;
}

/* Lamps, and behind them bad states: what has a verdict. */
static size_t watched(chudravik_counts counts)
{
    return counts.lamps + counts.bads;
}

static void lay_words(const circuit *c, uint16_t *word)
{
    for (size_t i = 0; i < c->counts.latches; i++) {
        *word++ = c->next[i];
        *word++ = c->reset[i];
    }
    memcpy(word, c->lamp, c->counts.lamps * sizeof *word);
    memcpy(word += c->counts.lamps, c->bad, c->counts.bads * sizeof *word);
    memcpy(word += c->counts.bads, c->constraint, c->counts.constraints * sizeof *word);
    memcpy(word + c->counts.constraints, c->operand, 2 * c->counts.gates * sizeof *word);
}

/* Percent of chance that any one part of the call in hand is damaged. Most calls have none, some nearly all, so that
 * the order of refusals shows. */
static unsigned trouble;

/* How many parts are left alone first, so that what is judged late is met as often as what is judged early. */
static size_t calm;

static void set_trouble(void)
{
    size_t roll = below(100);
    trouble = roll < 40 ? 0 : roll < 55 ? 8 : roll < 75 ? 20 : roll < 90 ? 45 : 85;
    calm = chance(50) ? below(8) : 0;
}

static bool troubled(void)
{
    if (calm > 0) {
        calm--;
        return false;
    }
    return chance(trouble);
}

/* A length for something that needs so much: enough, or in trouble mostly not. */
static size_t length_for(size_t need)
{
    if (troubled())
        return ONE_OF(need == 0 ? 0 : need - 1, need == 0 ? 0 : need - 1, 0, need / 2, below(need + 1), need);
    size_t beyond = below(300);
    return ONE_OF(need, need, need, need + 1, need + beyond % 9, need + beyond);
}

static uint16_t edge_literal(const circuit *c, size_t own)
{
    size_t top = top_literal(c);
    return (uint16_t)ONE_OF(0, 1, own - 1, own, own + 1, own + 2, top - 1, top, top + 1, top + 2, 8190, 8191, 8192,
                            32768, 65535, below(65536));
}

/* Among them, in a text, the own literals of the latches beside this one. */
static uint16_t edge_reset(size_t own)
{
    return (uint16_t)ONE_OF(0, 1, NO_START, 3, 3, own - 2, own + 1, own + 2, 256, 257, 8191, 32768, 65535, below(65536));
}

static void damage_latch(circuit *c, size_t i)
{
    size_t parts = between(1, 3);
    if (parts & 1)
        c->next[i] = edge_literal(c, latch_literal(c, i));
    if (parts & 2)
        c->reset[i] = edge_reset(latch_literal(c, i));
}

static void damage_lamp(circuit *c, size_t i)
{
    c->lamp[i] = edge_literal(c, 2);
}

static void damage_bad_or_constraint(circuit *c)
{
    if (c->counts.bads > 0 && (c->counts.constraints == 0 || chance(50)))
        c->bad[below(c->counts.bads)] = edge_literal(c, 2);
    else if (c->counts.constraints > 0)
        c->constraint[below(c->counts.constraints)] = edge_literal(c, 2);
}

static void damage_gate(circuit *c, size_t i)
{
    size_t parts = between(1, 3);
    for (size_t side = 0; side < 2; side++)
        if (parts >> side & 1)
            c->operand[i][side] = edge_literal(c, gate_literal(c, i));
}

/* Words of one line to an edge, so that the circuit breaks 6, 7 or 8, or two of them, or only just none. */
static void damage_circuit(circuit *c)
{
    size_t roll = below(6);
    if (roll < 2 && c->counts.latches > 0)
        damage_latch(c, below(c->counts.latches));
    else if (roll < 4 && c->counts.gates > 0)
        damage_gate(c, below(c->counts.gates));
    else if (roll < 5 && c->counts.lamps > 0)
        damage_lamp(c, below(c->counts.lamps));
    else
        damage_bad_or_constraint(c);
}

static size_t table_length_for(const circuit *c)
{
    return chance(3) ? WORDS_CEILING + below(2) : length_for(words_of(c->counts));
}

static void lend_table(circuit *c)
{
    uint16_t word[WORDS_CEILING + 300];
    size_t length = table_length_for(c);
    fill_noise((uint8_t *)word, 2 * length);
    if (troubled())
        damage_circuit(c);
    lay_words(c, word);
    lend_given(TABLE, word, 2 * length);
}

static size_t edge_count(size_t count, size_t ceiling)
{
    const size_t half = (size_t)1 << 63;
    return ONE_OF(0, count - 1, count + 1, count + 2, ceiling, ceiling + 1, 4095, 4096, count + 65536,
                  count + ((size_t)1 << 32), (size_t)1 << 32, UINT32_MAX, half, half + count, half - 1, SIZE_MAX,
                  SIZE_MAX - 1, draw());
}

/* Two counts whose sum, or whose words in the table, wrap round to what would pass. */
static void wrap_counts(chudravik_counts *counts)
{
    const size_t half = (size_t)1 << 63;
    switch (below(6)) {
    case 0:
        counts->inputs = 0 - counts->latches - counts->gates + below(3);
        break;
    case 1:
        counts->gates = 0 - counts->latches + below(3);
        break;
    case 2:
        counts->latches += half;
        counts->gates += chance(50) ? half : 0;
        break;
    case 3:
        counts->lamps = 0 - 2 * counts->latches - 2 * counts->gates + below(3);
        break;
    case 4:
        counts->bads = 0 - counts->lamps + below(3);
        break;
    default:
        counts->constraints = 0 - counts->lamps - counts->bads - 2 * counts->latches - 2 * counts->gates + below(3);
    }
}

static chudravik_counts handed_counts(const circuit *c)
{
    chudravik_counts counts = c->counts;
    if (!troubled())
        return counts;
    switch (below(7)) {
    case 0:
        counts.inputs = edge_count(counts.inputs, INPUTS_CEILING);
        break;
    case 1:
        counts.latches = edge_count(counts.latches, LATCHES_CEILING);
        break;
    case 2:
        counts.lamps = edge_count(counts.lamps, LAMPS_CEILING);
        break;
    case 3:
        counts.gates = edge_count(counts.gates, GATES_CEILING);
        break;
    case 4:
        counts.bads = edge_count(counts.bads, BADS_CEILING);
        break;
    case 5:
        counts.constraints = edge_count(counts.constraints, CONSTRAINTS_CEILING);
        break;
    default:
        wrap_counts(&counts);
    }
    return counts;
}

/* ---- texts ---- */

typedef struct {
    uint8_t byte[LONGEST_TEXT];
    size_t count;
} text;

/* What would go over the longest text is not done. */
static void splice(text *t, size_t at, size_t dropped, const void *put, size_t count)
{
    if (t->count - dropped + count > LONGEST_TEXT)
        return;
    memmove(t->byte + at + count, t->byte + at + dropped, t->count - at - dropped);
    memcpy(t->byte + at, put, count);
    t->count = t->count - dropped + count;
}

static void append(text *t, const void *bytes, size_t count)
{
    splice(t, t->count, 0, bytes, count);
}

static void append_number(text *t, size_t number, char behind)
{
    char digits[24];
    size_t first = sizeof digits;
    digits[--first] = behind;
    do
        digits[--first] = (char)('0' + number % 10);
    while ((number /= 10) != 0);
    append(t, digits + first, sizeof digits - first);
}

/* M I L O A B C J F. */
enum { FEWEST_NUMBERS = 5, MOST_NUMBERS = 9 };

/* The numbers up to the last one that is not 0, at least five, and some of the noughts behind them. */
static void append_numbers(text *t, const size_t *number, size_t noughts)
{
    size_t count = MOST_NUMBERS;
    while (count > FEWEST_NUMBERS && number[count - 1] == 0)
        count--;
    count = least_of(count + noughts, MOST_NUMBERS);
    append(t, "aag ", 4);
    for (size_t i = 0; i < count; i++)
        append_number(t, number[i], i + 1 < count ? ' ' : '\n');
}

static void append_first_line(text *t, size_t m, chudravik_counts counts, size_t noughts)
{
    const size_t number[MOST_NUMBERS] = {m, counts.inputs, counts.latches, counts.lamps, counts.gates, counts.bads,
                                         counts.constraints};
    append_numbers(t, number, noughts);
}

/* Noughts of a first line that is not written by the library. */
static size_t some_noughts(void)
{
    return chance(70) ? 0 : between(1, 4);
}

static void append_latch(text *t, const circuit *c, size_t i, bool reset_shown)
{
    append_number(t, latch_literal(c, i), ' ');
    append_number(t, c->next[i], reset_shown ? ' ' : '\n');
    if (reset_shown)
        append_number(t, c->reset[i] == NO_START ? latch_literal(c, i) : c->reset[i], '\n');
}

/* The lines of one literal. */
static void append_shown(text *t, const circuit *c)
{
    for (size_t i = 0; i < c->counts.lamps; i++)
        append_number(t, c->lamp[i], '\n');
    for (size_t i = 0; i < c->counts.bads; i++)
        append_number(t, c->bad[i], '\n');
    for (size_t i = 0; i < c->counts.constraints; i++)
        append_number(t, c->constraint[i], '\n');
}

static void append_body(text *t, const circuit *c, unsigned zero_resets_percent)
{
    for (size_t i = 0; i < c->counts.inputs; i++)
        append_number(t, switch_literal(i), '\n');
    for (size_t i = 0; i < c->counts.latches; i++)
        append_latch(t, c, i, c->reset[i] != 0 || chance(zero_resets_percent));
    append_shown(t, c);
    for (size_t i = 0; i < c->counts.gates; i++) {
        append_number(t, gate_literal(c, i), ' ');
        append_number(t, c->operand[i][0], ' ');
        append_number(t, c->operand[i][1], '\n');
    }
}

static void append_circuit(text *t, const circuit *c, unsigned zero_resets_percent, size_t noughts)
{
    append_first_line(t, variables(c), c->counts, noughts);
    append_body(t, c, zero_resets_percent);
}

/* ---- binary texts ---- */

static void append_byte(text *t, size_t byte)
{
    uint8_t one = (uint8_t)byte;
    append(t, &one, 1);
}

static void append_difference(text *t, size_t difference)
{
    if (difference >= 128)
        append_byte(t, 128 + difference % 128);
    append_byte(t, difference < 128 ? difference : difference / 128 % 128);
}

/* One that should not be: a needless zero group, three bytes, or none at all behind it. */
static void append_bad_difference(text *t, size_t difference)
{
    static const uint8_t third[] = {0x00, 0x01, 0x7F, 0x80};
    append_byte(t, 128 + difference % 128);
    if (chance(40)) {
        append_byte(t, 0);
        return;
    }
    append_byte(t, 128 + difference / 128 % 128);
    append_byte(t, third[below(sizeof third)]);
}

/* Differences at their edges, some of them still good; or one that cannot be, alone or behind another fault. */
static void append_edge_gate(text *t, size_t own)
{
    size_t first = ONE_OF(0, 1, own, own + 1, own - 1, 127, 128, 16383, below(own)), operand = own - least_of(first, own);
    size_t second = ONE_OF(0, operand, operand + 1, operand + 2, 127, 128, 16383, below(operand + 1));
    bool first_bad = chance(25), second_bad = !first_bad && chance(30);
    if (first_bad)
        append_bad_difference(t, first);
    else
        append_difference(t, first);
    if (second_bad)
        append_bad_difference(t, second);
    else
        append_difference(t, second);
}

/* One gate, where there is such a number, at its edges. */
static void append_binary(text *t, const circuit *c, unsigned zero_resets_percent, size_t noughts, size_t edge)
{
    append_first_line(t, variables(c), c->counts, noughts);
    t->byte[t->count == 0 ? 0 : 1] = 'i';
    for (size_t i = 0; i < c->counts.latches; i++) {
        bool reset_shown = c->reset[i] != 0 || chance(zero_resets_percent);
        append_number(t, c->next[i], reset_shown ? ' ' : '\n');
        if (reset_shown)
            append_number(t, c->reset[i] == NO_START ? latch_literal(c, i) : c->reset[i], '\n');
    }
    append_shown(t, c);
    for (size_t i = 0; i < c->counts.gates; i++) {
        size_t left = c->operand[i][0], right = c->operand[i][1], larger = left > right ? left : right;
        if (i == edge) {
            append_edge_gate(t, gate_literal(c, i));
            continue;
        }
        append_difference(t, (gate_literal(c, i) - larger) % 16384);
        append_difference(t, larger - least_of(left, right));
    }
}

/* ---- texts: damaged ---- */

/* Anywhere, with the first line and the end more often than they would be in a long text. */
static size_t some_place(const text *t)
{
    if (chance(20))
        return below(least_of(t->count, 24));
    return chance(15) ? t->count - 1 - below(least_of(t->count, 12)) : below(t->count);
}

static uint8_t some_byte(uint8_t was)
{
    static const char usual[] = "0123456789 \n\t\r+-.ac:/";
    if (chance(15))
        return (uint8_t)below(256);
    return chance(20) ? (uint8_t)(was + 2 * below(2) - 1) : (uint8_t)usual[below(sizeof usual - 1)];
}

static size_t line_start(const text *t, size_t at)
{
    while (at > 0 && t->byte[at - 1] != '\n')
        at--;
    return at;
}

static size_t line_behind(const text *t, size_t at)
{
    while (at < t->count && t->byte[at] != '\n')
        at++;
    return at < t->count ? at + 1 : at;
}

static bool is_digit(const text *t, size_t at)
{
    return at < t->count && t->byte[at] >= '0' && t->byte[at] <= '9';
}

static size_t number_start(const text *t, size_t at)
{
    while (at < t->count && !is_digit(t, at))
        at++;
    while (at > 0 && is_digit(t, at - 1))
        at--;
    return at;
}

static size_t number_from(const text *t, size_t at)
{
    size_t number = 0;
    for (; is_digit(t, at) && number < 100000; at++)
        number = 10 * number + (size_t)(t->byte[at] - '0');
    return number;
}

static size_t digits_from(const text *t, size_t at)
{
    size_t count = 0;
    while (is_digit(t, at + count))
        count++;
    return count;
}

static void set_number(text *t, size_t at, size_t number)
{
    char digits[24];
    int count = snprintf(digits, sizeof digits, "%zu", number);
    splice(t, at, digits_from(t, at), digits, (size_t)count);
}

static void number_to_edge(text *t, const circuit *c)
{
    size_t at = number_start(t, some_place(t)), top = top_literal(c);
    size_t own = number_from(t, line_start(t, at)), was = number_from(t, at);
    if (chance(8))
        splice(t, at, 0, "0", 1);
    else if (chance(12)) /* the same in 16 bits */
        set_number(t, at, was + 65536);
    else
        set_number(t, at,
                   ONE_OF(0, 1, 2, 3, own, own + 1, own - 1, was + 1, was - 1, was ^ 1, top - 1, top, top + 1, top + 2,
                          8190, 8191, 8192, 9999, 10000, 65535, 65536, 99999, 100000));
}

/* The first line anew, with one of its numbers at an edge; M goes along with it, or does not. */
static void damage_first_line(text *t, const circuit *c)
{
    static const size_t ceiling[MOST_NUMBERS] = {
        4095, INPUTS_CEILING, LATCHES_CEILING, LAMPS_CEILING, GATES_CEILING, BADS_CEILING, CONSTRAINTS_CEILING, 0, 0};
    const chudravik_counts *counts = &c->counts;
    size_t number[MOST_NUMBERS] = {variables(c), counts->inputs, counts->latches, counts->lamps, counts->gates,
                                   counts->bads, counts->constraints};
    size_t which = chance(45) ? between(1, FEWEST_NUMBERS - 1) : between(FEWEST_NUMBERS, MOST_NUMBERS - 1), was = number[which];
    number[which] = ONE_OF(0, was + 1, was - (was > 0), ceiling[which], ceiling[which] + 1, ceiling[which] + 1, 4095, 4096,
                           9999, 65536, 99999, 100000, was + 65536);
    number[0] = number[1] + number[2] + number[4];
    if (chance(which < FEWEST_NUMBERS ? 40 : 10))
        number[0] = ONE_OF(0, variables(c), number[0] + 1, number[0] + 65536, 4096, 99999);
    static text first;
    first.count = 0;
    append_numbers(&first, number, some_noughts());
    splice(t, 0, line_behind(t, 0), first.byte, first.count);
}

static void move_line(text *t)
{
    size_t at = some_place(t), start = line_start(t, at), behind = line_behind(t, at);
    uint8_t line[64];
    size_t count = least_of(behind - start, sizeof line);
    memcpy(line, t->byte + start, count);
    switch (below(3)) {
    case 0: /* dropped */
        splice(t, start, behind - start, "", 0);
        break;
    case 1: /* repeated */
        splice(t, behind, 0, line, count);
        break;
    default: /* behind the line that follows */
        splice(t, line_behind(t, behind), 0, line, count);
        splice(t, start, behind - start, "", 0);
    }
}

static void append_tail(text *t)
{
    static const char *const tails[] = {"c",     "c",    "c",     "c\n",  "c \n",   "cc\n",     "C\n",
                                        "\n",    " ",    " \n",   "0\n",  "0",      " c\n",     "c\r\n",
                                        "c\n\n", "c\nc", "\nc\n", "cx\n", "c\r",    "c\n1",     "cc",
                                        "c\t\n", "\nc",  "2 3\n", "6\n",  "i0 a\n", "c\naag 1", "c\n\xff"};
    const char *tail = tails[below(sizeof tails / sizeof tails[0])];
    append(t, tail, strlen(tail));
}

static void damage_byte(text *t)
{
    size_t at = some_place(t);
    uint8_t other = some_byte(t->byte[at]);
    switch (below(4)) {
    case 0:
        t->byte[at] = other;
        break;
    case 1:
        splice(t, at, 1, "", 0);
        break;
    case 2:
        splice(t, at, 0, &other, 1);
        break;
    default:
        other = t->byte[at];
        splice(t, at, 0, &other, 1);
    }
}

/* The ending of one line made the other one, or cut in two. */
static void turn_ending(text *t)
{
    size_t behind = line_behind(t, some_place(t));
    if (behind == 0 || t->byte[behind - 1] != '\n')
        return;
    bool office = behind > 1 && t->byte[behind - 2] == '\r';
    if (chance(10))
        splice(t, behind - 1, 1, "\r", 1);
    else if (office)
        splice(t, behind - 2, 1, "", 0);
    else
        splice(t, behind - 1, 0, "\r", 1);
}

static void damage(text *t, const circuit *c)
{
    size_t roll = t->count == 0 ? 99 : below(100);
    if (roll < 10)
        turn_ending(t);
    else if (roll < 28)
        damage_byte(t);
    else if (roll < 56)
        number_to_edge(t, c);
    else if (roll < 67)
        damage_first_line(t, c);
    else if (roll < 76)
        move_line(t);
    else if (roll < 84)
        t->count = chance(30) ? t->count - 1 : some_place(t);
    else
        append_tail(t);
}

/* ---- texts: made ---- */

/* Each byte 10 as the bytes 13 and 10, as far as there is room. */
static void save_at_the_office(text *t)
{
    static text plain;
    plain = *t;
    t->count = 0;
    for (size_t i = 0; i < plain.count && t->count + 2 <= LONGEST_TEXT; i++) {
        if (plain.byte[i] == '\n')
            append(t, "\r", 1);
        append(t, &plain.byte[i], 1);
    }
}

static void append_comment(text *t, size_t count)
{
    append(t, "c\n", 2);
    size_t room = LONGEST_TEXT - t->count;
    fill_noise(t->byte + t->count, least_of(count, room));
    t->count += least_of(count, room);
}

/* To just below, at and just above the ceiling, by a comment or by what is none. */
static void lengthen(text *t)
{
    size_t length = ONE_OF(TEXT_CEILING - 1, TEXT_CEILING, TEXT_CEILING + 1, LONGEST_TEXT);
    if (chance(70))
        append(t, "c\n", 2);
    if (t->count < length) {
        memset(t->byte + t->count, '\n', length - t->count);
        t->count = length;
    }
}

static void make_noise_text(text *t)
{
    static const char alphabet[] = "aag 0123456789\nc";
    t->count = 0;
    if (chance(60))
        append(t, "aag ", 4);
    size_t count = below(40);
    for (size_t i = 0; i < count; i++) {
        uint8_t byte = (uint8_t)(chance(90) ? (size_t)alphabet[below(sizeof alphabet - 1)] : below(256));
        append(t, &byte, 1);
    }
}

static void make_text(text *t, circuit *c)
{
    t->count = 0;
    if (chance(1))
        return;
    if (chance(3)) {
        make_noise_text(t);
        return;
    }
    for (size_t times = chance(20) ? between(1, 3) : 0; times > 0; times--)
        damage_circuit(c);
    unsigned zero_resets_percent = (unsigned)ONE_OF(0, 30, 100);
    append_circuit(t, c, zero_resets_percent, some_noughts());
    if (chance(15))
        append_comment(t, below(40));
    else if (chance(6))
        append_tail(t);
    if (chance(3))
        lengthen(t);
    if (chance(30))
        save_at_the_office(t);
    for (size_t times = chance(50) ? between(1, 3) : 0; times > 0; times--)
        damage(t, c);
}

/* The line endings and numbers that other damages change stand in front of the gates, whose bytes may be any. */
static void make_binary(text *t, circuit *c)
{
    t->count = 0;
    if (chance(1))
        return;
    if (chance(2)) {
        make_noise_text(t);
        return;
    }
    if (chance(15))
        damage_circuit(c);
    unsigned zero_resets_percent = (unsigned)ONE_OF(0, 30, 100);
    size_t noughts = some_noughts();
    append_binary(t, c, zero_resets_percent, noughts, chance(25) ? below(c->counts.gates) : SIZE_MAX);
    if (chance(15))
        append_comment(t, below(40));
    else if (chance(6))
        append_tail(t);
    if (chance(3))
        lengthen(t);
    for (size_t times = chance(40) ? between(1, 3) : 0; times > 0; times--)
        damage(t, c);
    if (t->count > 1 && chance(95))
        t->byte[1] = 'i';
    if (chance(6) && t->count > 0)
        t->count -= between(1, least_of(t->count, 6));
}

/* ---- records ---- */

static size_t record_bytes(size_t fields)
{
    return fields == 0 ? 1 : (fields + 3) / 4;
}

/* Of a stored cube: its mark, and then the latches. */
static size_t cube_bytes(size_t latches)
{
    return record_bytes(1 + latches);
}

static unsigned pair_at(const uint8_t *record, size_t i)
{
    return record[i / 4] >> (6 - i % 4 * 2) & 3u;
}

static void set_pair(uint8_t *record, size_t i, size_t pair)
{
    unsigned shift = (unsigned)(6 - i % 4 * 2);
    record[i / 4] = (uint8_t)((record[i / 4] & ~(3u << shift)) | (unsigned)pair << shift);
}

static bool has_unknown(const uint8_t *record, size_t fields)
{
    for (size_t i = 0; i < fields; i++)
        if (pair_at(record, i) == 0)
            return true;
    return false;
}

/* One pair anywhere in the bytes of the record: 11, or what would be good if it were a field. */
static void damage_record(uint8_t *record, size_t fields)
{
    size_t place = below(4 * record_bytes(fields));
    set_pair(record, place, chance(50) ? 3 : between(1, 2));
}

/* The mark of 00 or 11 that no cube has, or damage as of any record. */
static void damage_cube(uint8_t *cube, size_t latches)
{
    if (chance(40))
        set_pair(cube, 0, chance(50) ? 0 : 3);
    else
        damage_record(cube, 1 + latches);
}

static size_t some_mark(void)
{
    return between(1, 2);
}

/* Behind the record noise, for it is ignored. */
static void lend_record(enum role role, size_t fields)
{
    uint8_t record[LATCHES_CEILING];
    unsigned unknown_percent = (unsigned)ONE_OF(0, 0, 10, 50, 100);
    fill_noise(record, sizeof record);
    memset(record, 0, record_bytes(fields));
    for (size_t i = 0; i < fields; i++)
        set_pair(record, i, chance(unknown_percent) ? 0 : between(1, 2));
    if (troubled())
        damage_record(record, fields);
    lend_given(role, record, least_of(length_for(record_bytes(fields)), sizeof record));
}

/* ---- what was met ---- */

/* The numbers as they are, but 10 by what was too short. */
enum { MOST_NUMBER = 26, TEN_TABLE, TEN_GIVEN, TEN_RESULT, OUTCOMES };

static uint64_t met[CALLS][OUTCOMES];

static bool can_give(enum call call, size_t outcome)
{
    switch (call) {
    case READ:
        return outcome <= 9 || outcome == TEN_TABLE;
    case READ_ANY:
        return (outcome <= 9 && outcome != 5 && outcome != 7) || (outcome >= 20 && outcome <= 22) ||
               outcome == TEN_TABLE || outcome == TEN_RESULT;
    case READ_BINARY:
        return (outcome <= 9 && outcome != 5) || outcome == 26 || outcome == TEN_TABLE;
    case READ_BEGINNERS:
        return outcome <= 9 || outcome == TEN_TABLE || outcome == 25;
    case CHAIN_BEGINNERS:
        return outcome == 0 || outcome == 3 || outcome == 11 || outcome == 13 || outcome == 16 || outcome == 25 ||
               outcome == TEN_TABLE;
    case WRITE:
    case WRITE_BINARY:
        return outcome == 0 || outcome == 3 || outcome == 11 || outcome == TEN_TABLE || outcome == TEN_RESULT;
    case TICK:
        return outcome == 0 || outcome == 3 || outcome == 11 || outcome == 14 || outcome >= TEN_TABLE;
    case CHAIN:
        return outcome == 0 || outcome == 3 || (outcome >= 11 && outcome <= 13) || outcome == 15 ||
               outcome == 16 || outcome == TEN_TABLE;
    case WHY:
        return outcome == 0 || outcome == 3 || outcome == 11 || outcome == 14 || outcome == 23 || outcome == 24 ||
               outcome >= TEN_TABLE;
    case MERGE:
        return outcome == 0 || outcome == 3 || outcome == 14 || outcome == TEN_GIVEN || outcome == TEN_RESULT;
    case JUDGE:
        return outcome == 0 || outcome == 3 || outcome == 11 || outcome == 14 || outcome == 16 || outcome == 19 ||
               outcome >= TEN_TABLE;
    default:
        return outcome == 0 || outcome == 3 || outcome == 11 || outcome == 14 ||
               (outcome >= 16 && outcome <= 18) || outcome >= TEN_TABLE;
    }
}

static void note(enum call call, uint32_t number, size_t ten)
{
    size_t outcome = number == 10 ? ten : number;
    if (number > MOST_NUMBER || !can_give(call, outcome))
        fail("%s gave %" PRIu32 ", which it cannot give", call_names[call], number);
    met[call][outcome]++;
}

/* Things worth meeting that no number shows. */
enum sight {
    LONG_CLOSED,
    LONG_NO_ROOM,
    CLOSED_FULL,
    CLOSED_LATER,
    CLOSED_WIDENED,
    CLOSED_PLAIN_AGAIN,
    NO_ROOM_BY_MARKS,
    UNKNOWN_START,
    JUDGED_OWN,
    JUDGED_WITH_LAMP,
    JUDGED_UNROLLED,
    JUDGED_BLURRED,
    JUDGED_LONG,
    SOME_SETTLED,
    SOME_NEVER,
    SOME_ALWAYS,
    NO_CHAIN_FIELD,
    NO_CHAIN_SHORT,
    NO_CHAIN_BACK,
    NO_CHAIN_START,
    MARK_00,
    MARK_11,
    MARKS_TURNED,
    LARGEST_CIRCUIT,
    LONGEST_WRITTEN,
    BOOLEAN_TICK,
    TERNARY_TICK,
    READ_BACK,
    COVER_OF_A_CHAIN,
    COVER_OF_OTHERS,
    COVER_LONG,
    COVER_NEVER,
    COVER_LEFT_LATER,
    OFFICE_READ,
    WHY_NO_LATCH,
    WHY_ONE_LATCH,
    WHY_MANY,
    WHY_FORGETS,
    WHY_DEEP,
    WHY_LIT,
    WHY_DARK,
    BINARY_BACK,
    BINARY_LONGEST,
    MERGE_ALIKE,
    MERGE_NOTHING,
    MERGE_LONGEST,
    BOARD_LARGEST,
    BOARD_LONG,
    BOARD_UNKNOWN,
    BOARD_TEN_THOUGH_LARGE,
    BUFFER_19682,
    BUFFER_19683,
    BUFFER_65536,
    BUFFER_65537,
    OUTSIDE_INPUTS,
    OUTSIDE_LATCHES,
    OUTSIDE_LAMPS,
    OUTSIDE_GATES,
    OUTSIDE_NEXT,
    OUTSIDE_LAMP,
    OUTSIDE_OPERAND,
    OUTSIDE_TWICE,
    OUTSIDE_INVERTED,
    OUTSIDE_BADS,
    OUTSIDE_CONSTRAINTS,
    OUTSIDE_BADS_ALONE,
    FIVE_NUMBERS,
    SIX_NUMBERS,
    SEVEN_NUMBERS,
    EIGHT_NUMBERS,
    NINE_NUMBERS,
    MANY_BADS,
    MANY_CONSTRAINTS,
    SOME_JUSTICE,
    SOME_FAIRNESS,
    WRITTEN_SIX,
    WRITTEN_SEVEN,
    WRITTEN_NO_BADS,
    BINARY_WITH_BOTH,
    ANY_WITH_BOTH,
    ANY_UNDEFINED,
    ENDED_AT_ONCE,
    ENDED_AFTER_ONE,
    ENDED_LATER,
    ENDED_FULL,
    ENDED_AT_WIDENING,
    CLOSED_UNDER_CONSTRAINTS,
    CHAINED_WITHOUT_LAMPS,
    CONSTRAINTS_ALONE,
    JUDGED_ENDED,
    JUDGED_NONE,
    JUDGED_FREE_START,
    JUDGED_NEEDLESS,
    NO_CHAIN_ENDED,
    NO_CHAIN_NONE,
    BAD_NEVER,
    BAD_ALWAYS,
    COVER_NONE,
    COVER_NONE_REFUSED,
    COVER_NEEDLESS,
    COVER_BAD_NEVER,
    WHY_NO_BAD,
    SIGHTS
};

static const char *const sight_names[SIGHTS] = {
    "chains closed with 100 cubes or more",
    "chains refused with 15 after 100 cubes or more",
    "chains closed with no room left",
    "chains closed back to a later cube than cube 0",
    "chains closed after widening",
    "chains closed with a plain cube behind a widened one",
    "chains refused with 15 that have a cube less of room by their marks",
    "chains closed from a latch without a start value",
    "chains judged as they were made",
    "chains judged with lamps or gates added behind them",
    "chains judged with a round more than they were made with",
    "chains judged that were blurred by hand",
    "chains judged with 50 cubes or more",
    "chains judged with settled latches",
    "chains judged with a lamp that never lights",
    "chains judged with a lamp that is always lit",
    "chains refused with 19 after a change of one field",
    "chains refused with 19 that were cut short",
    "chains refused with 19 for another j",
    "chains refused with 19 for another start",
    "cubes refused with 14 for a mark of 00 alone",
    "cubes refused with 14 for a mark of 11 alone",
    "cubes accepted with other marks, alike",
    "accepted calls with every count at its ceiling",
    "texts of 59,061 bytes written",
    "ticks without X",
    "ticks with X",
    "texts written and read back alike",
    "covers accepted that a chain's cubes were made to",
    "covers accepted that another method made",
    "covers accepted with 50 cubes or more",
    "covers accepted with a lamp that never lights",
    "covers refused with 18 for a later cube than cube 0",
    "texts read whose lines end in bytes 13 and 10",
    "lamps explained by no latch",
    "lamps explained by one latch",
    "lamps explained by ten latches or more",
    "lamps explained by fewer latches than were known",
    "lamps explained through 1,000 gates or more",
    "lamps explained that are lit",
    "lamps explained that are dark",
    "tables written in the binary form and read back with their operands ordered",
    "binary texts of 19,176 bytes written",
    "merges of a record with itself",
    "merges that leave nothing known of what both know",
    "merges of 512 fields",
    "beginners' boards accepted with 4, 8, 8 and 32",
    "beginners' boards with 100 cubes or more",
    "beginners' boards with X in their cubes",
    "texts refused with 10 that are outside the beginners' rules",
    "beginners' chains refused for 19,682 bytes",
    "beginners' chains in 19,683 bytes",
    "beginners' chains in 65,536 bytes",
    "beginners' chains refused for 65,537 bytes",
    "boards refused with 25 for 5 switches",
    "boards refused with 25 for 9 latches",
    "boards refused with 25 for 9 lamps",
    "boards refused with 25 for 33 gates",
    "boards refused with 25 for a constant next literal",
    "boards refused with 25 for a constant lamp",
    "boards refused with 25 for a constant operand",
    "boards refused with 25 for an operand twice",
    "boards refused with 25 for a variable and its inverse",
    "boards refused with 25 for a bad state",
    "boards refused with 25 for a constraint",
    "boards refused with 25 for a bad state where there is no lamp",
    "texts read with five numbers in their first line",
    "texts read with six numbers in their first line",
    "texts read with seven numbers in their first line",
    "texts read with eight numbers in their first line",
    "texts read with nine numbers in their first line",
    "texts refused with 3 for B alone",
    "texts refused with 3 for C alone",
    "texts refused with 3 for J alone",
    "texts refused with 3 for F alone",
    "texts written with B and without C",
    "texts written with B and C",
    "texts written with a B that is 0",
    "binary texts read with bad states and constraints",
    "texts in any order read with bad states and constraints",
    "texts in any order refused with 21 for a bad state or a constraint",
    "chains that ended with no cube",
    "chains that ended after one cube",
    "chains that ended after three cubes or more",
    "chains that ended with no room left",
    "chains that ended where a cube was due for widening",
    "chains closed though there are constraints",
    "chains without a lamp, for bad states",
    "boards refused with 16 that have constraints",
    "ended chains judged",
    "chains of no cube judged",
    "chains judged that do not begin with the resets",
    "chains judged that would be none without their constraints",
    "chains refused with 19 for j = n",
    "chains refused with 19 for n = 0",
    "chains judged with a bad state that never is",
    "chains judged with a bad state that always is",
    "covers of no cube accepted",
    "covers of no cube refused with 17 though there are constraints",
    "covers accepted that would be none without their constraints",
    "covers accepted with a bad state that never is",
    "bad states' numbers refused with 23",
};

static uint64_t seen[SIGHTS];
static size_t most_cubes;

static void see(enum sight sight, bool it_is)
{
    seen[sight] += it_is;
}

static void see_size(uint32_t number, chudravik_counts counts)
{
    see(LARGEST_CIRCUIT, number == 0 && counts.inputs == INPUTS_CEILING && counts.latches == LATCHES_CEILING &&
                             counts.lamps == LAMPS_CEILING && counts.gates == GATES_CEILING &&
                             counts.bads == BADS_CEILING && counts.constraints == CONSTRAINTS_CEILING);
}

/* ---- the calls ---- */

/* What a call is handed as a count may be beyond all memory; then buffers go by the circuit itself. */
static size_t fields_for(size_t handed, size_t true_count, size_t ceiling)
{
    return handed <= ceiling ? handed : true_count;
}

static void must_read_as(const uint8_t *written, size_t bytes, chudravik_counts counts, const uint16_t *table)
{
    uint16_t word[WORDS_CEILING];
    chudravik_read_answer again = chudravik_read(written, bytes, word, words_of(counts));
    if (again.number != 0)
        fail("what the library wrote it refuses to read, with %" PRIu32, again.number);
    if (memcmp(&again.counts, &counts, sizeof counts) != 0)
        fail("what the library wrote it reads with other counts");
    if (words_of(counts) != 0 && memcmp(word, table, words_of(counts) * sizeof *word) != 0)
        fail("what the library wrote it reads as other words");
    see(READ_BACK, true);
}

static void must_write_and_read_alike(chudravik_counts counts, const uint16_t *table)
{
    uint8_t written[WRITTEN_CEILING];
    chudravik_write_answer answer = chudravik_write(counts, table, words_of(counts), written, sizeof written);
    if (answer.number != 0)
        fail("what the library read it refuses to write, with %" PRIu32, answer.number);
    must_read_as(written, answer.bytes, counts, table);
}

static void order_operands(chudravik_counts counts, const uint16_t *table, uint16_t *ordered)
{
    uint16_t *gate = ordered + words_of(counts) - 2 * counts.gates;
    memcpy(ordered, table, words_of(counts) * sizeof *ordered);
    for (size_t i = 0; i < counts.gates; i++, gate += 2)
        if (gate[0] < gate[1]) {
            uint16_t smaller = gate[0];
            gate[0] = gate[1];
            gate[1] = smaller;
        }
}

/* Bad states and constraints as lamps, so that a tick shows them too, where there are no more of all than lamps may be: the
 * table is the same. */
static chudravik_counts all_as_lamps(chudravik_counts counts)
{
    size_t all = counts.lamps + counts.bads + counts.constraints;
    if (all <= LAMPS_CEILING) {
        counts.lamps = all;
        counts.bads = counts.constraints = 0;
    }
    return counts;
}

/* Some state under some switches gives the same in both tables. */
static void must_behave_alike(chudravik_counts true_counts, const uint16_t *table, const uint16_t *other)
{
    chudravik_counts counts = all_as_lamps(true_counts);
    uint8_t state[LATCHES_CEILING] = {0}, switches[INPUTS_CEILING] = {0}, next[2][LATCHES_CEILING], lamps[2][LAMPS_CEILING];
    for (size_t i = 0; i < counts.latches; i++)
        set_pair(state, i, below(3));
    for (size_t i = 0; i < counts.inputs; i++)
        set_pair(switches, i, below(3));
    for (size_t which = 0; which < 2; which++)
        if (chudravik_tick(counts, which == 0 ? table : other, words_of(counts), state, sizeof state, switches,
                           sizeof switches, next[which], LATCHES_CEILING, lamps[which], LAMPS_CEILING) != 0)
            fail("a table that was read or written is refused by the tick");
    if (memcmp(next[0], next[1], record_bytes(counts.latches)) != 0 ||
        memcmp(lamps[0], lamps[1], record_bytes(counts.lamps)) != 0)
        fail("with its operands ordered the table behaves otherwise");
}

/* The binary text of a table reads back with its operands ordered, is written again the same, and as text it is the text of
 * the ordered table. */
static void must_cross(chudravik_counts counts, const uint16_t *table)
{
    static uint16_t word[WORDS_CEILING], ordered[WORDS_CEILING];
    static uint8_t binary[BINARY_CEILING], again[BINARY_CEILING], written[2][WRITTEN_CEILING];
    chudravik_write_answer made = chudravik_write_binary(counts, table, words_of(counts), binary, sizeof binary);
    if (made.number != 0)
        fail("a sound table is not written in the binary form: %" PRIu32, made.number);
    chudravik_read_answer read = chudravik_read_binary(binary, made.bytes, word, words_of(counts));
    order_operands(counts, table, ordered);
    if (read.number != 0 || memcmp(&read.counts, &counts, sizeof counts) != 0 ||
        (words_of(counts) != 0 && memcmp(word, ordered, words_of(counts) * sizeof *word) != 0))
        fail("the binary text is not read as the table with its operands ordered: %" PRIu32, read.number);
    chudravik_write_answer second = chudravik_write_binary(counts, word, words_of(counts), again, sizeof again);
    if (second.number != 0 || second.bytes != made.bytes || memcmp(again, binary, made.bytes) != 0)
        fail("with its operands ordered the table has another binary text");
    chudravik_write_answer as_text = chudravik_write(counts, word, words_of(counts), written[0], WRITTEN_CEILING);
    chudravik_write_answer due = chudravik_write(counts, ordered, words_of(counts), written[1], WRITTEN_CEILING);
    if (as_text.number != 0 || as_text.bytes != due.bytes || memcmp(written[0], written[1], due.bytes) != 0)
        fail("the binary text gives another text");
    must_behave_alike(counts, table, word);
    see(BINARY_BACK, true);
}

/* The numbers of a text's first line, as far as they are some. */
static size_t first_numbers(const text *t, size_t *number)
{
    size_t at = 3, count = 0;
    while (count < MOST_NUMBERS && t->byte[at] == ' ' && is_digit(t, at + 1)) {
        number[count++] = number_from(t, at + 1);
        at += 1 + digits_from(t, at + 1);
    }
    return count;
}

/* Of a text that is refused with 3: which of the last four numbers alone is the reason. */
static void see_refused_counts(const text *t)
{
    size_t n[MOST_NUMBERS] = {0};
    first_numbers(t, n);
    bool fits = n[1] <= INPUTS_CEILING && n[2] <= LATCHES_CEILING && n[3] <= LAMPS_CEILING && n[4] <= GATES_CEILING &&
                n[0] == n[1] + n[2] + n[4];
    bool b = n[5] > BADS_CEILING, many = n[6] > CONSTRAINTS_CEILING, j = n[7] != 0, f = n[8] != 0;
    see(MANY_BADS, fits && b && !many && !j && !f);
    see(MANY_CONSTRAINTS, fits && !b && many && !j && !f);
    see(SOME_JUSTICE, fits && !b && !many && j && !f);
    see(SOME_FAIRNESS, fits && !b && !many && !j && f);
}

static void see_first_line(uint32_t number, const text *t)
{
    size_t n[MOST_NUMBERS];
    if (number == 0)
        see((enum sight)(FIVE_NUMBERS + first_numbers(t, n) - FEWEST_NUMBERS), true);
    if (number == 3)
        see_refused_counts(t);
}

static bool has_both(uint32_t number, chudravik_counts counts)
{
    return number == 0 && counts.bads > 0 && counts.constraints > 0;
}

static void try_read(circuit *c)
{
    static text t;
    make_circuit(c, 15);
    twice_begin(&hand, READ, c->counts, (numbers){0});
    make_text(&t, c);
    lend_given(TEXT, t.byte, t.count);
    lend_noise(TABLE, 2 * table_length_for(c));
    make_call();
    note(READ, hand.library.number, TEN_TABLE);
    see_size(hand.library.number, hand.library.counts);
    see_first_line(hand.library.number, &t);
    see(OFFICE_READ, hand.library.number == 0 && t.byte[line_behind(&t, 0) - 2] == '\r');
    if (hand.library.number != 0)
        return;
    must_write_and_read_alike(hand.library.counts, library_table(&hand));
    must_cross(hand.library.counts, library_table(&hand));
}

static void try_read_binary(circuit *c)
{
    static text t;
    make_circuit(c, 15);
    twice_begin(&hand, READ_BINARY, c->counts, (numbers){0});
    make_binary(&t, c);
    lend_given(TEXT, t.byte, t.count);
    lend_noise(TABLE, 2 * table_length_for(c));
    make_call();
    note(READ_BINARY, hand.library.number, TEN_TABLE);
    see_size(hand.library.number, hand.library.counts);
    see(BINARY_WITH_BOTH, has_both(hand.library.number, hand.library.counts));
    if (hand.library.number == 0)
        must_cross(hand.library.counts, library_table(&hand));
}

/* An operand that is not below its gate, so that there may be a loop. */
static void turn_back(circuit *c)
{
    size_t i = below(c->counts.gates);
    if (c->counts.gates > 0)
        c->operand[i][below(2)] = (uint16_t)between(gate_literal(c, i), top_literal(c));
}

/* M above the count of variables, so that some are not defined, and a literal of one of those; answers whether it is a bad
 * state's or a constraint's. */
static bool leave_gap(text *t, circuit *c)
{
    bool behind_lamps = false;
    static text first;
    size_t gap = between(1, 5), literal = top_literal(c) + between(1, 2 * gap);
    if (c->counts.bads > 0 && chance(40)) {
        c->bad[below(c->counts.bads)] = (uint16_t)literal;
        behind_lamps = true;
    } else if (c->counts.constraints > 0 && chance(60)) {
        c->constraint[below(c->counts.constraints)] = (uint16_t)literal;
        behind_lamps = true;
    } else if (c->counts.lamps > 0)
        c->lamp[below(c->counts.lamps)] = (uint16_t)literal;
    t->count = first.count = 0;
    append_circuit(t, c, 0, 0);
    append_first_line(&first, variables(c) + gap, c->counts, some_noughts());
    splice(t, 0, line_behind(t, 0), first.byte, first.count);
    return behind_lamps;
}

/* Texts that are for read, with a loop or a gap now and then; drawings.c has the other orders. */
static void try_read_any(circuit *c)
{
    static text t;
    make_circuit(c, 15);
    twice_begin(&hand, READ_ANY, c->counts, (numbers){0});
    bool behind_lamps = false;
    if (chance(8))
        turn_back(c);
    if (chance(14))
        behind_lamps = leave_gap(&t, c);
    else
        make_text(&t, c);
    lend_given(TEXT, t.byte, t.count);
    lend_noise(TABLE, 2 * table_length_for(c));
    lend_noise(LIST, 2 * length_for(1 + variables(c) + below(8)));
    make_call();
    note(READ_ANY, hand.library.number, table_words(&hand) < words_of(c->counts) ? TEN_TABLE : TEN_RESULT);
    see_size(hand.library.number, hand.library.counts);
    see(ANY_WITH_BOTH, has_both(hand.library.number, hand.library.counts));
    see(ANY_UNDEFINED, hand.library.number == 21 && behind_lamps);
}

static size_t text_length_for(const circuit *c)
{
    static text t;
    t.count = 0;
    append_circuit(&t, c, 0, 0);
    return chance(4) ? WRITTEN_CEILING - below(2) : length_for(t.count);
}

static void try_write(circuit *c)
{
    make_circuit(c, 15);
    chudravik_counts counts = handed_counts(c);
    twice_begin(&hand, WRITE, counts, (numbers){0});
    lend_table(c);
    lend_noise(TEXT, text_length_for(c));
    make_call();
    note(WRITE, hand.library.number, table_words(&hand) < words_of(counts) ? TEN_TABLE : TEN_RESULT);
    see_size(hand.library.number, counts);
    see(LONGEST_WRITTEN, hand.library.bytes == WRITTEN_CEILING);
    see(WRITTEN_SIX, hand.library.number == 0 && counts.bads > 0 && counts.constraints == 0);
    see(WRITTEN_SEVEN, has_both(hand.library.number, counts));
    see(WRITTEN_NO_BADS, hand.library.number == 0 && counts.bads == 0 && counts.constraints > 0);
    if (hand.library.number == 0)
        must_read_as(of_library(&hand, TEXT), hand.library.bytes, counts, library_table(&hand));
}

static size_t binary_length_for(const circuit *c)
{
    static text t;
    t.count = 0;
    append_binary(&t, c, 0, 0, SIZE_MAX);
    return chance(4) ? BINARY_CEILING - below(2) : length_for(t.count);
}

static void try_write_binary(circuit *c)
{
    if (chance(4)) /* so that the longest is met */
        make_widest_circuit(c);
    else
        make_circuit(c, 15);
    chudravik_counts counts = handed_counts(c);
    twice_begin(&hand, WRITE_BINARY, counts, (numbers){0});
    lend_table(c);
    lend_noise(TEXT, binary_length_for(c));
    make_call();
    note(WRITE_BINARY, hand.library.number, table_words(&hand) < words_of(counts) ? TEN_TABLE : TEN_RESULT);
    see_size(hand.library.number, counts);
    see(BINARY_LONGEST, hand.library.bytes == BINARY_CEILING);
    if (hand.library.number == 0)
        must_cross(counts, library_table(&hand));
}

static size_t ten_of_tick(chudravik_counts counts)
{
    if (table_words(&hand) < words_of(counts))
        return TEN_TABLE;
    bool state_short = bytes_of(STATE) < record_bytes(counts.latches);
    return state_short || bytes_of(SWITCHES) < record_bytes(counts.inputs) ? TEN_GIVEN : TEN_RESULT;
}

/* With none in the given records there is none in the results: the tick is then the Boolean one. */
static void look_for_unknown(chudravik_counts counts)
{
    bool ternary = has_unknown(of_library(&hand, STATE), counts.latches) ||
                   has_unknown(of_library(&hand, SWITCHES), counts.inputs);
    bool out =
        has_unknown(of_library(&hand, NEXT), counts.latches) || has_unknown(of_library(&hand, LAMPS), counts.lamps);
    if (out && !ternary)
        fail("a tick without X gave X");
    see(ternary ? TERNARY_TICK : BOOLEAN_TICK, true);
}

static void try_tick(circuit *c)
{
    make_circuit(c, 15);
    chudravik_counts counts = handed_counts(c);
    size_t inputs = fields_for(counts.inputs, c->counts.inputs, INPUTS_CEILING);
    size_t latches = fields_for(counts.latches, c->counts.latches, LATCHES_CEILING);
    size_t lamps = fields_for(counts.lamps, c->counts.lamps, LAMPS_CEILING);
    twice_begin(&hand, TICK, counts, (numbers){0});
    lend_table(c);
    lend_record(STATE, latches);
    lend_record(SWITCHES, inputs);
    lend_noise(NEXT, length_for(record_bytes(latches)));
    lend_noise(LAMPS, length_for(record_bytes(lamps)));
    make_call();
    note(TICK, hand.library.number, ten_of_tick(counts));
    see_size(hand.library.number, counts);
    if (hand.library.number == 0)
        look_for_unknown(counts);
}

static size_t interval(void)
{
    if (troubled())
        return ONE_OF(1000, 1001, 1002, 65536, (size_t)1 << 32, ((size_t)1 << 32) + 1, (size_t)1 << 63, SIZE_MAX,
                      draw());
    size_t any = below(1001);
    return ONE_OF(0, 0, 0, 0, 1, 2, 3, 16, 4 + any % 37, 40 + any % 261, 999, 1000, any);
}

/* How many cubes the chain would store, or fill all room with. */
static size_t cubes_wanted(const circuit *c, size_t w)
{
    static uint16_t word[WORDS_CEILING];
    static uint8_t cubes[CUBES_CEILING];
    lay_words(c, word);
    return simulate_chain(c->counts, word, WORDS_CEILING, w, cubes, sizeof cubes).cubes;
}

static size_t cubes_length(const circuit *c, size_t w, size_t record)
{
    if (troubled())
        return ONE_OF(0, record - 1, record / 2, record, CUBES_CEILING, CUBES_CEILING + 1, CUBES_CEILING + record,
                      LONGEST_BUFFER);
    size_t slack = chance(50) ? 0 : below(record);
    size_t roll = below(100);
    size_t cubes = roll < 5 ? 1 : roll < 20 ? between(1, 12) : roll < 45 ? between(1, 150) : between(1, 1500);
    if (roll >= 92)
        return CUBES_CEILING - below(2);
    if (roll >= 80) {
        size_t exact = record * cubes_wanted(c, w);
        return least_of(ONE_OF(exact - 1, exact, exact, exact + 1, exact + record), CUBES_CEILING);
    }
    return least_of(record * cubes + slack, CUBES_CEILING);
}

static bool has_pair(const uint8_t *record, size_t fields, unsigned pair)
{
    for (size_t i = 0; i < fields; i++)
        if (pair_at(record, i) == pair)
            return true;
    return false;
}

/* Of a chain that has ended; none can without constraints, nor behind cube w: from there on each cube contains the one before,
 * and a constraint that is 0 in the larger is 0 in the smaller. */
static void see_end(chudravik_counts counts, size_t w, const answer *chain)
{
    if (counts.constraints == 0)
        fail("a chain without constraints has ended");
    if (w != 0 && chain->cubes > w)
        fail("a chain has ended behind cube w");
    see(ENDED_AT_ONCE, chain->cubes == 0);
    see(ENDED_AFTER_ONE, chain->cubes == 1);
    see(ENDED_LATER, chain->cubes >= 3);
    see(ENDED_FULL, chain->cubes == bytes_of(CUBES) / cube_bytes(counts.latches));
    see(ENDED_AT_WIDENING, w != 0 && chain->cubes == w);
}

static void see_chain(chudravik_counts counts, size_t w, const answer *chain)
{
    bool closed = chain->number == 0 && chain->back < chain->cubes;
    see(CONSTRAINTS_ALONE, chain->number == 16 && counts.constraints > 0);
    see(CHAINED_WITHOUT_LAMPS, chain->number == 0 && counts.lamps == 0);
    see(LONG_CLOSED, closed && chain->cubes >= 100);
    see(LONG_NO_ROOM, chain->number == 15 && chain->cubes >= 100);
    see(NO_ROOM_BY_MARKS, chain->number == 15 && bytes_of(CUBES) / record_bytes(counts.latches) > chain->cubes);
    if (chain->cubes > most_cubes)
        most_cubes = chain->cubes;
    if (chain->number == 0 && !closed)
        see_end(counts, w, chain);
    if (!closed)
        return;
    see(CLOSED_UNDER_CONSTRAINTS, counts.constraints > 0);
    see(CLOSED_FULL, chain->cubes == bytes_of(CUBES) / cube_bytes(counts.latches));
    see(CLOSED_LATER, chain->back > 0);
    see(CLOSED_WIDENED, w != 0 && chain->cubes > w);
    see(CLOSED_PLAIN_AGAIN, w > 1 && chain->cubes > w + 1);
    see(UNKNOWN_START, has_pair(of_library(&hand, CUBES), 1 + counts.latches, 0));
}

/* "A cube counts as widened if its number was due for widening; cube 0 is plain." */
static void must_be_marked(chudravik_counts counts, size_t w, const answer *chain)
{
    for (size_t k = 0; k < chain->cubes; k++) {
        unsigned mark = pair_at(of_library(&hand, CUBES) + k * cube_bytes(counts.latches), 0);
        if (mark != (k > 0 && w > 0 && k % w == 0 ? 2 : 1))
            fail("cube %zu of a chain with w %zu has the mark %u", k, w, mark);
    }
}

/* Each widening holds a latch more, for where none differs b is a and the chain is closed; and once all are held the next
 * cube is subsumed. */
static void must_close_in_time(chudravik_counts counts, size_t w, const answer *chain)
{
    if (w == 0 || (chain->number != 0 && chain->number != 15))
        return;
    if (chain->cubes > w * counts.latches + 1 || (chain->number == 15 && chain->cubes == w * counts.latches + 1))
        fail("with w %zu a chain of %zu latches did not close within w x L + 1 cubes", w, counts.latches);
}

/* What the library chained it judges, with the table that made it and with other lamps and bad states. */
static void must_be_judged(chudravik_counts counts, const answer *chain)
{
    static uint16_t word[WORDS_CEILING];
    uint8_t verdict[LAMPS_CEILING], settled[LATCHES_CEILING];
    memcpy(word, library_table(&hand), words_of(counts) * sizeof *word);
    for (size_t lamps = 0; lamps < 2; lamps++) {
        uint32_t number = chudravik_judge(counts, word, words_of(counts), of_library(&hand, CUBES), bytes_of(CUBES),
                                          chain->cubes, chain->back, verdict, sizeof verdict, settled, sizeof settled)
                              .number;
        if (number != 0)
            fail("what the library chained it refuses to judge, with %" PRIu32, number);
        for (size_t i = 0; i < watched(counts); i++)
            word[2 * counts.latches + i] = (uint16_t)below(2 * (1 + counts.inputs + counts.latches + counts.gates));
    }
}

/* A lamp or a bad state where there is neither, save in a few: those meet 16, whatever else is wrong, and the others come to
 * their work. */
static void mostly_give_lamp(circuit *c)
{
    if (watched(c->counts) > 0 || chance(c->counts.constraints > 0 ? 60 : 25))
        return;
    if (chance(50))
        c->counts.bads = 1;
    else
        c->counts.lamps = 1;
    set_random_lamps(c);
    set_random_bads(c);
}

static void try_chain(circuit *c)
{
    make_circuit(c, 70);
    mostly_give_lamp(c);
    chudravik_counts counts = handed_counts(c);
    size_t latches = fields_for(counts.latches, c->counts.latches, LATCHES_CEILING);
    size_t w = c->counts.constraints > 0 && chance(25) ? between(1, 3) : interval();
    twice_begin(&hand, CHAIN, counts, (numbers){.w = w});
    lend_table(c);
    lend_noise(CUBES, cubes_length(c, w, cube_bytes(latches)));
    make_call();
    note(CHAIN, hand.library.number, TEN_TABLE);
    see_size(hand.library.number, counts);
    see_chain(counts, w, &hand.library);
    must_close_in_time(counts, w, &hand.library);
    must_be_marked(counts, w, &hand.library);
    if (hand.library.number == 0)
        must_be_judged(counts, &hand.library);
}

/* ---- given cubes ---- */

/* Cubes for a circuit, one record behind the other, and how many, with marks of either kind. The library must take whatever
 * they are. */
typedef struct {
    size_t latches, record, count, most;
    uint8_t byte[CUBES_CEILING];
} cover;

static uint8_t *cube_at(cover *sent, size_t k)
{
    return sent->byte + k * sent->record;
}

static void add_cube(cover *sent, const uint8_t *cube)
{
    if (sent->count < sent->most)
        memmove(cube_at(sent, sent->count++), cube, sent->record);
}

/* The cubes of a chain, by the simulator, closed or not; answers j where it is closed. */
static size_t cover_by_chain(cover *sent, const circuit *c)
{
    static uint16_t word[WORDS_CEILING];
    lay_words(c, word);
    chudravik_chain_answer chain = simulate_chain(c->counts, word, WORDS_CEILING, ONE_OF(0, 0, 1, 2, 3, 16), sent->byte,
                                                  least_of(sent->most, between(1, 400)) * sent->record);
    sent->count = chain.cubes;
    return chain.back;
}

/* Both values of one latch, and nothing known of the others. */
static void cover_by_latch(cover *sent, const circuit *c)
{
    uint8_t cube[LATCHES_CEILING];
    size_t latch = c->counts.latches == 0 ? 0 : below(c->counts.latches);
    for (unsigned pair = 1; pair <= 2; pair++) {
        cube_of_nothing(c->counts.latches, some_mark(), cube);
        if (c->counts.latches != 0)
            put_latch(cube, latch, pair);
        add_cube(sent, cube);
    }
}

/* State after state from the resets on, each a cube, under one switch setting; at most so many. */
static void cover_by_states(cover *sent, const circuit *c)
{
    static uint16_t word[WORDS_CEILING];
    uint8_t state[LATCHES_CEILING] = {0}, switches[INPUTS_CEILING] = {0}, lamps[LAMPS_CEILING], cube[LATCHES_CEILING];
    lay_words(c, word);
    for (size_t i = 0; i < c->counts.latches; i++)
        set_pair(state, i, c->reset[i] == 0 ? 1 : 2);
    for (size_t ticks = between(1, 300); ticks > 0; ticks--) {
        cube_of_state(state, c->counts.latches, some_mark(), cube);
        add_cube(sent, cube);
        if (simulate_tick(c->counts, word, WORDS_CEILING, state, sizeof state, switches, sizeof switches, state,
                          sizeof state, lamps, sizeof lamps) != 0)
            return;
    }
}

/* The reset of each latch that keeps to it by itself, and nothing known of the others. */
static void cover_by_keepers(cover *sent, const circuit *c)
{
    uint8_t cube[LATCHES_CEILING];
    cube_of_nothing(c->counts.latches, some_mark(), cube);
    for (size_t i = 0; i < c->counts.latches; i++)
        if (c->next[i] == c->reset[i] || c->next[i] == latch_literal(c, i))
            put_latch(cube, i, c->reset[i] == 0 ? 1 : 2);
    add_cube(sent, cube);
}

static void cover_by_chance(cover *sent)
{
    uint8_t cube[LATCHES_CEILING];
    for (size_t count = below(6); count > 0; count--) {
        cube_of_nothing(sent->latches, some_mark(), cube);
        for (size_t i = 0; i < sent->latches; i++)
            put_latch(cube, i, (unsigned)below(3));
        add_cube(sent, cube);
    }
}

static void shuffle(cover *sent)
{
    uint8_t kept[LATCHES_CEILING];
    for (size_t k = sent->count; k > 1; k--) {
        size_t other = below(k);
        memcpy(kept, cube_at(sent, k - 1), sent->record);
        memmove(cube_at(sent, k - 1), cube_at(sent, other), sent->record);
        memcpy(cube_at(sent, other), kept, sent->record);
    }
}

/* One cube more, taken away, or with a field known or unknown that was not: the cover holds, or only just not. */
static void change_cover(cover *sent)
{
    size_t k = sent->count == 0 ? 0 : below(sent->count);
    uint8_t *cube = cube_at(sent, k);
    switch (below(5)) {
    case 0:
        if (sent->count > 0)
            add_cube(sent, cube);
        break;
    case 1:
        if (sent->count > 0)
            memmove(cube, cube_at(sent, --sent->count), sent->record);
        break;
    case 2:
        if (sent->count > 0 && sent->latches > 0)
            put_latch(cube, below(sent->latches), 0);
        break;
    case 3:
        if (sent->count > 0 && sent->latches > 0)
            put_latch(cube, below(sent->latches), (unsigned)between(1, 2));
        break;
    default:
        cover_by_chance(sent);
    }
}

static void begin_cubes(cover *sent, size_t latches)
{
    sent->latches = latches;
    sent->record = cube_bytes(latches);
    sent->most = least_of(CUBES_CEILING / sent->record, 600);
    sent->count = 0;
    memset(sent->byte, 0, sizeof sent->byte);
}

/* Whether they are the cubes of a chain, perhaps in another order or with changes. */
static bool make_cover(cover *sent, const circuit *c, size_t latches)
{
    size_t roll = below(100);
    begin_cubes(sent, latches);
    if (latches != c->counts.latches || roll < 8)
        cover_by_chance(sent);
    else if (roll < 60)
        cover_by_chain(sent, c);
    else if (roll < 75)
        cover_by_states(sent, c);
    else if (roll < 85)
        cover_by_latch(sent, c);
    else
        cover_by_keepers(sent, c);
    if (chance(50))
        shuffle(sent);
    for (size_t changes = chance(40) ? between(1, 3) : 0; changes > 0; changes--)
        change_cover(sent);
    return roll >= 8 && roll < 60;
}

static size_t count_handed(const cover *sent)
{
    if (!troubled())
        return sent->count;
    return ONE_OF(0, sent->count + 1, sent->count - 1, sent->most + 1, (size_t)1 << 32, SIZE_MAX, SIZE_MAX / sent->record,
                  SIZE_MAX / sent->record + 1, SIZE_MAX / sent->record + 1 + sent->count, (size_t)1 << 63, draw());
}

/* Behind the cubes noise, for it is ignored. */
static void lend_cover(cover *sent)
{
    size_t used = sent->count * sent->record, length = least_of(length_for(used), sizeof sent->byte);
    if (sent->count > 0 && troubled())
        damage_cube(cube_at(sent, below(sent->count)), sent->latches);
    fill_noise(sent->byte + used, sizeof sent->byte - used);
    lend_given(CUBES, sent->byte, length);
}

/* Of a call that gave 10, so the counts are within their ceilings. */
static size_t ten_of_cubes(chudravik_counts counts)
{
    if (table_words(&hand) < words_of(counts))
        return TEN_TABLE;
    return hand.with.n > bytes_of(CUBES) / cube_bytes(counts.latches) ? TEN_GIVEN : TEN_RESULT;
}

/* The given cubes with every mark turned into the other, and how many were none; `none` is one of those. */
static size_t turn_marks(uint8_t *cubes, chudravik_counts counts, unsigned *none)
{
    size_t bad = 0;
    for (size_t k = 0; k < hand.with.n; k++) {
        uint8_t *cube = cubes + k * cube_bytes(counts.latches);
        unsigned mark = pair_at(cube, 0);
        if (mark == 1 || mark == 2) {
            set_pair(cube, 0, 3 - mark);
            continue;
        }
        *none = mark;
        bad++;
        set_pair(cube, 0, some_mark());
    }
    return bad;
}

static answer judge_or_cover(chudravik_counts counts, const uint8_t *cubes, uint8_t *verdict, size_t verdict_bytes,
                             uint8_t *settled, size_t settled_bytes)
{
    if (hand.call == JUDGE) {
        chudravik_judge_answer judge =
            chudravik_judge(counts, library_table(&hand), table_words(&hand), cubes, bytes_of(CUBES), hand.with.n,
                            hand.with.j, verdict, verdict_bytes, settled, settled_bytes);
        return (answer){.number = judge.number, .settled = judge.settled};
    }
    chudravik_cover_answer cover = chudravik_cover(counts, library_table(&hand), table_words(&hand), cubes, bytes_of(CUBES),
                                                   hand.with.n, verdict, verdict_bytes);
    return (answer){.number = cover.number, .cube = cover.cube};
}

/* Marks are not compared: with others the library gives the same. Where some were none and all else is good, 14 goes away. */
static void must_not_compare_marks(chudravik_counts counts)
{
    static uint8_t cubes[LONGEST_BUFFER], verdict[LONGEST_BUFFER], settled[LONGEST_BUFFER];
    const answer *made = &hand.library;
    unsigned none = 0;
    if (made->number == 3 || made->number == 16 || hand.with.n > bytes_of(CUBES) / cube_bytes(counts.latches))
        return;
    memcpy(cubes, of_library(&hand, CUBES), hand.with.n * cube_bytes(counts.latches));
    size_t bad = turn_marks(cubes, counts, &none);
    size_t settled_bytes = hand.call == JUDGE ? bytes_of(SETTLED) : 0;
    answer other = judge_or_cover(counts, cubes, verdict, bytes_of(VERDICT), settled, settled_bytes);
    if (bad > 0 && made->number == 14) {
        see(none == 0 ? MARK_00 : MARK_11, bad == 1 && other.number != 14);
        return;
    }
    if (other.number != made->number || other.settled != made->settled || other.cube != made->cube)
        fail("with other marks the library gives %" PRIu32, other.number);
    if (made->number != 0)
        return;
    if (memcmp(verdict, of_library(&hand, VERDICT), record_bytes(watched(counts))) != 0 ||
        (hand.call == JUDGE && memcmp(settled, of_library(&hand, SETTLED), record_bytes(counts.latches)) != 0))
        fail("with other marks the library has other results");
    see(MARKS_TURNED, true);
}

/* The table in hand without its constraints. */
static chudravik_counts leave_out_constraints(chudravik_counts counts, uint16_t *word)
{
    size_t front = 2 * counts.latches + watched(counts);
    memcpy(word, library_table(&hand), front * sizeof *word);
    memcpy(word + front, library_table(&hand) + front + counts.constraints, 2 * counts.gates * sizeof *word);
    counts.constraints = 0;
    return counts;
}

/* Whether it is the constraints alone that make the given cubes a cover. */
static bool covers_by_constraints(chudravik_counts counts)
{
    static uint16_t word[WORDS_CEILING];
    uint8_t verdict[LAMPS_CEILING];
    chudravik_counts fewer = leave_out_constraints(counts, word);
    return simulate_cover(fewer, word, WORDS_CEILING, of_library(&hand, CUBES), bytes_of(CUBES), hand.with.n, verdict,
                          sizeof verdict)
               .number != 0;
}

static bool has_pair_from(const uint8_t *record, size_t first, size_t fields, unsigned pair)
{
    for (size_t i = first; i < first + fields; i++)
        if (pair_at(record, i) == pair)
            return true;
    return false;
}

static void see_cover(chudravik_counts counts, bool of_chain, const answer *made)
{
    see(COVER_LEFT_LATER, made->number == 18 && made->cube > 0);
    see(COVER_NONE_REFUSED, made->number == 17 && hand.with.n == 0 && counts.constraints > 0);
    if (made->number != 0)
        return;
    see(COVER_NONE, hand.with.n == 0);
    see(COVER_NEEDLESS, hand.with.n > 0 && counts.constraints > 0 && covers_by_constraints(counts));
    see(COVER_BAD_NEVER, has_pair_from(of_library(&hand, VERDICT), counts.lamps, counts.bads, 1));
    see(of_chain ? COVER_OF_A_CHAIN : COVER_OF_OTHERS, true);
    see(COVER_LONG, hand.with.n >= 50);
    see(COVER_NEVER, has_pair(of_library(&hand, VERDICT), counts.lamps, 1));
}

static void try_cover(circuit *c)
{
    static cover sent;
    make_circuit(c, 70);
    if (chance(5))
        block_start(c);
    chudravik_counts counts = handed_counts(c);
    size_t latches = fields_for(counts.latches, c->counts.latches, LATCHES_CEILING);
    size_t lamps = fields_for(counts.lamps, c->counts.lamps, LAMPS_CEILING) +
                   fields_for(counts.bads, c->counts.bads, BADS_CEILING);
    bool of_chain = make_cover(&sent, c, latches);
    twice_begin(&hand, COVER, counts, (numbers){.n = count_handed(&sent)});
    lend_table(c);
    lend_cover(&sent);
    lend_noise(VERDICT, length_for(record_bytes(lamps)));
    make_call();
    note(COVER, hand.library.number, hand.library.number == 10 ? ten_of_cubes(counts) : TEN_TABLE);
    see_size(hand.library.number, counts);
    see_cover(counts, of_chain, &hand.library);
    must_not_compare_marks(counts);
}

/* ---- chains ---- */

/* Kinds of given chain: as it was made; with lamps, or gates and lamps, drawn behind it; with its round gone through once
 * more; with fields forgotten so that it still is a chain; and those that mostly are none: a field changed, cut short,
 * another j, another start, a start in which a constraint is 0 so that it may be any, cubes of chance. */
enum kind {
    OWN,
    WITH_LAMP,
    UNROLLED,
    BLURRED,
    FIELD_CHANGED,
    CUT_SHORT,
    OTHER_BACK,
    OTHER_START,
    FREE_START,
    BY_CHANCE,
    KINDS
};

static void add_lamp(circuit *c)
{
    if (chance(50))
        add_random_gates(c, between(1, 4));
    if (c->counts.lamps < LAMPS_CEILING)
        c->counts.lamps++;
    c->lamp[c->counts.lamps - 1] = literal_below(top_literal(c) + 1);
}

/* The cubes from j on stored once more, so that the way back is a later one. */
static size_t unroll(cover *sent, size_t j)
{
    size_t count = sent->count;
    if (2 * count - j > sent->most)
        return j;
    for (size_t k = j; k < count; k++)
        add_cube(sent, cube_at(sent, k));
    return count;
}

/* Forgets in a cube what a state does not have alike; answers whether there was anything. */
static bool forget(uint8_t *cube, const uint8_t *state, size_t latches)
{
    bool forgot = false;
    for (size_t i = 0; i < latches; i++) {
        unsigned pair = pair_at(cube, 1 + i);
        if (pair == 0 || pair == pair_at(state, i))
            continue;
        put_latch(cube, i, 0);
        forgot = true;
    }
    return forgot;
}

/* Forgets on, from cube to cube, until each next state lies inside what follows. Cube 0 stays the resets: whoever calls this
 * goes back to a later one. */
static void mend(cover *sent, const circuit *c, size_t j)
{
    static uint16_t word[WORDS_CEILING];
    uint8_t state[LATCHES_CEILING], next[LATCHES_CEILING], lamps[LAMPS_CEILING], switches[INPUTS_CEILING] = {0};
    lay_words(c, word);
    for (bool changed = true; changed;) {
        changed = false;
        for (size_t k = 0; k < sent->count; k++) {
            state_of_cube(cube_at(sent, k), sent->latches, state);
            if (simulate_tick(c->counts, word, WORDS_CEILING, state, sizeof state, switches, sizeof switches, next,
                              sizeof next, lamps, sizeof lamps) != 0)
                return;
            if (k + 1 < sent->count || j < sent->count) /* an ended chain goes nowhere */
                changed |= forget(cube_at(sent, k + 1 < sent->count ? k + 1 : j), next, sent->latches);
        }
    }
}

static size_t blur(cover *sent, const circuit *c, size_t j)
{
    size_t back = j > 0 ? j : unroll(sent, j);
    if (back == 0 || sent->latches == 0 || sent->count < 2 || sent->count > 100)
        return back;
    for (size_t times = between(1, 3); times > 0; times--)
        put_latch(cube_at(sent, between(1, sent->count - 1)), below(sent->latches), 0);
    mend(sent, c, back);
    return back;
}

static void change_field(cover *sent, size_t k)
{
    size_t latch = below(sent->latches);
    if (sent->latches > 0)
        put_latch(cube_at(sent, k), latch, (pair_at(cube_at(sent, k), 1 + latch) + (unsigned)between(1, 2)) % 3);
}

/* A chain of the circuit without its constraints, perhaps from its second cube on; then a constraint that is 0 in the start. */
static size_t chain_from_anywhere(cover *sent, circuit *c)
{
    c->counts.constraints = 0;
    size_t j = cover_by_chain(sent, c);
    block_start(c);
    if (j == 0 || sent->count < 2 || chance(30))
        return j;
    memmove(sent->byte, cube_at(sent, 1), --sent->count * sent->record);
    return j - 1;
}

/* Makes the cubes and answers j. */
static size_t make_chain(cover *sent, circuit *c, size_t latches, enum kind kind)
{
    begin_cubes(sent, latches);
    if (latches != c->counts.latches || kind == BY_CHANCE) {
        cover_by_chance(sent);
        return below(sent->count + 2);
    }
    if (kind == FREE_START)
        return chain_from_anywhere(sent, c);
    size_t j = cover_by_chain(sent, c);
    if (sent->count == 0)
        return 0;
    switch (kind) {
    case WITH_LAMP:
        add_lamp(c);
        return j;
    case UNROLLED:
        return unroll(sent, j);
    case BLURRED:
        return blur(sent, c, j);
    case FIELD_CHANGED:
        change_field(sent, below(sent->count));
        return j;
    case CUT_SHORT:
        sent->count -= between(1, least_of(sent->count, 3));
        return j;
    case OTHER_BACK:
        return chance(30) ? sent->count + below(2) : below(sent->count);
    case OTHER_START:
        change_field(sent, 0);
        return j;
    default:
        return j;
    }
}

static size_t back_handed(const cover *sent, size_t j)
{
    if (!troubled())
        return j;
    return ONE_OF(0, j + 1, j - 1, sent->count, sent->count - 1, sent->count + 1, (size_t)1 << 32, j + ((size_t)1 << 32),
                  SIZE_MAX, SIZE_MAX / sent->record + 1 + j, (size_t)1 << 63, draw());
}

/* The settled record is the merge of the cubes from j on, marks left off; of an ended chain it is empty. */
static void must_be_merged(chudravik_counts counts)
{
    if (hand.with.j == hand.with.n) {
        if (hand.library.settled != 0 || has_pair(of_library(&hand, SETTLED), counts.latches, 1) ||
            has_pair(of_library(&hand, SETTLED), counts.latches, 2))
            fail("an ended chain has settled latches");
        return;
    }
    uint8_t merged[LATCHES_CEILING];
    size_t record = record_bytes(counts.latches), cube = cube_bytes(counts.latches);
    const uint8_t *cubes = of_library(&hand, CUBES);
    state_of_cube(cubes + hand.with.j * cube, counts.latches, merged);
    for (size_t k = hand.with.j; k < hand.with.n; k++) {
        uint8_t before[LATCHES_CEILING], state[LATCHES_CEILING];
        memcpy(before, merged, record);
        state_of_cube(cubes + k * cube, counts.latches, state);
        if (chudravik_merge(counts.latches, before, record, state, record, merged, record) != 0)
            fail("the library refuses to merge cube %zu", k);
    }
    if (memcmp(merged, of_library(&hand, SETTLED), record) != 0)
        fail("the settled record is not the merge of the cubes from j on");
}

/* Whether it is the constraints alone that make the given cubes a chain. */
static bool chains_by_constraints(chudravik_counts counts)
{
    static uint16_t word[WORDS_CEILING];
    uint8_t verdict[LAMPS_CEILING], settled[LATCHES_CEILING];
    chudravik_counts fewer = leave_out_constraints(counts, word);
    return simulate_judge(fewer, word, WORDS_CEILING, of_library(&hand, CUBES), bytes_of(CUBES), hand.with.n, hand.with.j,
                          verdict, sizeof verdict, settled, sizeof settled)
               .number != 0;
}

static bool begins_with_resets(chudravik_counts counts)
{
    const uint16_t *word = library_table(&hand);
    for (size_t i = 0; i < counts.latches; i++)
        if (pair_at(of_library(&hand, CUBES), 1 + i) != (word[2 * i + 1] == NO_START ? 0u : 1u + word[2 * i + 1]))
            return false;
    return true;
}

static void see_judge_of_constraints(chudravik_counts counts, const answer *made)
{
    size_t n = hand.with.n, j = hand.with.j;
    see(NO_CHAIN_ENDED, made->number == 19 && j == n && n > 0);
    see(NO_CHAIN_NONE, made->number == 19 && n == 0);
    if (made->number != 0)
        return;
    see(JUDGED_ENDED, j == n && n > 0);
    see(JUDGED_NONE, n == 0);
    see(JUDGED_FREE_START, n > 0 && !begins_with_resets(counts));
    see(JUDGED_NEEDLESS, j < n && counts.constraints > 0 && chains_by_constraints(counts));
    see(BAD_NEVER, has_pair_from(of_library(&hand, VERDICT), counts.lamps, counts.bads, 1));
    see(BAD_ALWAYS, has_pair_from(of_library(&hand, VERDICT), counts.lamps, counts.bads, 2));
}

static void see_judge(chudravik_counts counts, enum kind kind, const answer *made)
{
    see_judge_of_constraints(counts, made);
    static const enum sight judged[KINDS] = {JUDGED_OWN, JUDGED_WITH_LAMP, JUDGED_UNROLLED, JUDGED_BLURRED};
    static const enum sight refused[KINDS] = {[FIELD_CHANGED] = NO_CHAIN_FIELD,
                                              [CUT_SHORT] = NO_CHAIN_SHORT,
                                              [OTHER_BACK] = NO_CHAIN_BACK,
                                              [OTHER_START] = NO_CHAIN_START};
    if (kind >= FIELD_CHANGED && kind <= OTHER_START)
        see(refused[kind], made->number == 19);
    if (made->number != 0)
        return;
    if (kind <= BLURRED)
        see(judged[kind], true);
    see(JUDGED_LONG, hand.with.n >= 50);
    see(SOME_SETTLED, made->settled > 0);
    see(SOME_NEVER, has_pair(of_library(&hand, VERDICT), counts.lamps, 1));
    see(SOME_ALWAYS, has_pair(of_library(&hand, VERDICT), counts.lamps, 2));
}

static void try_judge(circuit *c)
{
    static cover sent;
    make_circuit(c, 70);
    mostly_give_lamp(c);
    chudravik_counts counts = handed_counts(c);
    size_t latches = fields_for(counts.latches, c->counts.latches, LATCHES_CEILING);
    enum kind kind = (enum kind)below(KINDS);
    size_t j = make_chain(&sent, c, latches, kind);
    if ((kind == WITH_LAMP || kind == FREE_START) && counts.latches == c->counts.latches)
        counts = handed_counts(c);
    size_t lamps = fields_for(counts.lamps, c->counts.lamps, LAMPS_CEILING) +
                   fields_for(counts.bads, c->counts.bads, BADS_CEILING);
    size_t n = count_handed(&sent);
    twice_begin(&hand, JUDGE, counts, (numbers){.n = n, .j = back_handed(&sent, j)});
    lend_table(c);
    lend_cover(&sent);
    lend_noise(VERDICT, length_for(record_bytes(lamps)));
    lend_noise(SETTLED, length_for(record_bytes(latches)));
    make_call();
    note(JUDGE, hand.library.number, hand.library.number == 10 ? ten_of_cubes(counts) : TEN_TABLE);
    see_size(hand.library.number, counts);
    see_judge(counts, kind, &hand.library);
    must_not_compare_marks(counts);
    if (hand.library.number == 0)
        must_be_merged(counts);
}

/* ---- why ---- */

/* Gates one on the other: each has the one before it, as it is or inverted, and beside it the constant, a latch, or the same
 * once more, so that it is shared and only marks keep the way short. All stand on one latch or switch, and so does lamp 0. */
static void make_deep_circuit(circuit *c)
{
    size_t gates = chance(30) ? GATES_CEILING : between(1, 2000), kind = below(3);
    unsigned inverted_percent = (unsigned)ONE_OF(0, 50, 100);
    c->counts = (chudravik_counts){.inputs = below(3)};
    c->counts.latches = between(1, 9);
    size_t last = perhaps_inverted(chance(10) ? some_switch(c) : latch_literal(c, below(c->counts.latches)));
    while (c->counts.gates < gates) {
        size_t from = last ^ (chance(inverted_percent) ? 1 : 0);
        size_t beside = kind == 0 ? 1 : kind == 1 ? from : latch_literal(c, below(c->counts.latches));
        last = add_gate(c, from, chance(97) ? beside : 1);
    }
    for (size_t i = 0; i < c->counts.latches; i++)
        c->next[i] = literal_below(top_literal(c) + 1);
    set_resets(c);
    c->counts.lamps = between(1, 3);
    set_random_lamps(c);
    c->lamp[0] = (uint16_t)perhaps_inverted(last);
}

/* A lamp that is lit where all latches are as they stand in some state: one gate for each, on the one before it. */
static void make_wide_circuit(circuit *c)
{
    size_t last = 1;
    c->counts = (chudravik_counts){.inputs = below(3), .lamps = 1};
    c->counts.latches = between(10, 60);
    for (size_t i = 0; i < c->counts.latches; i++) {
        c->next[i] = (uint16_t)latch_literal(c, i);
        c->operand[i][0] = (uint16_t)last;
        c->operand[i][1] = (uint16_t)latch_literal(c, i);
        c->counts.gates++;
        last = gate_literal(c, i);
    }
    set_resets(c);
    c->lamp[0] = (uint16_t)perhaps_inverted(last);
}

/* Each latch as it stands in this state; the constant where it is not known. */
static void fit_to_state(circuit *c, const uint8_t *state)
{
    for (size_t i = 0; i < c->counts.latches; i++) {
        unsigned pair = pair_at(state, i);
        c->operand[i][1] = (uint16_t)(pair == 0 ? 1 : latch_literal(c, i) + (pair == 1));
    }
}

/* Some lamps are the constant, a switch or a latch. */
static void set_plain_lamps(circuit *c)
{
    for (size_t i = 0; i < c->counts.lamps; i++)
        if (chance(10))
            c->lamp[i] = (uint16_t)below(2);
        else if (chance(10))
            c->lamp[i] = (uint16_t)perhaps_inverted(some_switch(c));
        else if (chance(10) && c->counts.latches > 0)
            c->lamp[i] = (uint16_t)perhaps_inverted(latch_literal(c, below(c->counts.latches)));
}

static size_t lamp_handed(const circuit *c)
{
    size_t lamps = c->counts.lamps, lamp = below(lamps);
    if (!troubled())
        return lamp;
    return ONE_OF(lamps, lamps, lamps + 1, lamp + 65536, lamp + ((size_t)1 << 32), (size_t)1 << 63, SIZE_MAX, LAMPS_CEILING,
                  LAMPS_CEILING - 1, draw());
}

static size_t known_fields(const uint8_t *record, size_t fields)
{
    size_t known = 0;
    for (size_t i = 0; i < fields; i++)
        known += pair_at(record, i) != 0;
    return known;
}

/* By the simulator's tick, with all switches X. */
static unsigned lamp_in(chudravik_counts counts, const uint8_t *state, size_t lamp)
{
    uint8_t next[LATCHES_CEILING], lamps[LAMPS_CEILING], switches[INPUTS_CEILING] = {0};
    if (simulate_tick(counts, library_table(&hand), table_words(&hand), state, record_bytes(counts.latches), switches,
                      sizeof switches, next, sizeof next, lamps, sizeof lamps) != 0)
        fail("the simulator refuses a tick of what was explained");
    return pair_at(lamps, lamp);
}

/* From the answer alone the lamp has the same value, and the answer only forgets. */
static void must_explain(chudravik_counts counts, size_t lamp)
{
    const uint8_t *state = of_library(&hand, STATE), *why = of_library(&hand, REASON);
    unsigned value = lamp_in(counts, state, lamp);
    if (value == 0 || lamp_in(counts, why, lamp) != value)
        fail("from the answer alone lamp %zu has another value", lamp);
    for (size_t i = 0; i < counts.latches; i++)
        if (pair_at(why, i) != 0 && pair_at(why, i) != pair_at(state, i))
            fail("latch %zu is known in the answer, and not so in what was given", i);
    size_t known = known_fields(why, counts.latches);
    see(WHY_NO_LATCH, known == 0);
    see(WHY_ONE_LATCH, known == 1);
    see(WHY_MANY, known >= 10);
    see(WHY_FORGETS, known < known_fields(state, counts.latches));
    see(value == 2 ? WHY_LIT : WHY_DARK, true);
}

/* Of a call that gave 10, so the counts are within their ceilings. */
static size_t ten_of_why(chudravik_counts counts)
{
    if (table_words(&hand) < words_of(counts))
        return TEN_TABLE;
    return bytes_of(STATE) < record_bytes(counts.latches) ? TEN_GIVEN : TEN_RESULT;
}

static void try_why(circuit *c)
{
    bool deep = chance(15), wide = !deep && chance(10);
    if (deep)
        make_deep_circuit(c);
    else if (wide)
        make_wide_circuit(c);
    else
        make_circuit(c, 30);
    if (!deep && !wide) {
        mostly_give_lamp(c);
        set_plain_lamps(c);
    }
    size_t lamp = deep && chance(80) ? 0 : lamp_handed(c);
    chudravik_counts counts = handed_counts(c);
    size_t latches = fields_for(counts.latches, c->counts.latches, LATCHES_CEILING);
    twice_begin(&hand, WHY, counts, (numbers){.lamp = lamp});
    lend_record(STATE, latches);
    if (wide && latches == c->counts.latches)
        fit_to_state(c, twice_content(&hand, STATE));
    lend_table(c);
    lend_noise(REASON, length_for(record_bytes(latches)));
    make_call();
    note(WHY, hand.library.number, hand.library.number == 10 ? ten_of_why(counts) : TEN_TABLE);
    see(WHY_NO_BAD, hand.library.number == 23 && lamp < watched(counts));
    see_size(hand.library.number, counts);
    if (hand.library.number != 0)
        return;
    must_explain(counts, lamp);
    see(WHY_DEEP, deep && lamp == 0 && c->counts.gates >= 1000);
}

/* ---- beginners' boards ---- */

enum { BOARD_INPUTS = 4, BOARD_LATCHES = 8, BOARD_LAMPS = 8, BOARD_GATES = 32, LEAST_BOARD_CUBES = 19683 };

/* How a board is outside the beginners' rules, in the order of the sights; a board of chance may be so in any way. */
enum outside { MANY_INPUTS, MANY_LATCHES, MANY_LAMPS, MANY_GATES, NEXT_CONSTANT, LAMP_CONSTANT, OPERAND_CONSTANT, FED_TWICE,
               FED_INVERTED, WITH_BADS, WITH_CONSTRAINTS, WITH_BADS_ALONE, INSIDE, BY_ITS_SIZE };

static size_t board_count(size_t most, bool one_more)
{
    return one_more ? most + 1 : ONE_OF(most, most, 1, 2, below(most + 1));
}

/* The literal of a variable up to this one. */
static size_t literal_up_to(size_t variable)
{
    return 2 + below(2 * variable);
}

static void add_board_gate(circuit *c)
{
    size_t variable = variables(c), left = literal_up_to(variable);
    size_t right = 2 * (1 + (left / 2 + below(variable - 1)) % variable);
    add_gate(c, left, perhaps_inverted(right));
}

/* A counter without a constant: latch 0 is inverted at each tick, and is the carry. */
static void add_board_counter(circuit *c, size_t gates)
{
    size_t carry = latch_literal(c, 0);
    c->next[0] = (uint16_t)(carry ^ 1);
    for (size_t i = 1; i < c->counts.latches && c->counts.gates + 3 <= gates; i++) {
        size_t own = latch_literal(c, i), both = add_gate(c, own, carry);
        c->next[i] = (uint16_t)add_gate(c, both ^ 1, add_gate(c, own ^ 1, carry ^ 1) ^ 1);
        carry = both;
    }
}

/* One literal, or one gate; what the board has none of stays as it is. */
static void put_outside(circuit *c, enum outside outside)
{
    if (outside == NEXT_CONSTANT && c->counts.latches > 0)
        c->next[below(c->counts.latches)] = (uint16_t)below(2);
    if (outside == LAMP_CONSTANT && c->counts.lamps > 0)
        c->lamp[below(c->counts.lamps)] = (uint16_t)below(2);
    if (outside < OPERAND_CONSTANT || outside > FED_INVERTED || c->counts.gates == 0)
        return;
    uint16_t *operand = c->operand[below(c->counts.gates)];
    size_t side = below(2);
    operand[side] = outside == OPERAND_CONSTANT ? (uint16_t)below(2) : operand[!side] ^ (outside == FED_INVERTED);
}

/* Literals that a lamp of the board may have too. */
static void put_behind_lamps(circuit *c, enum outside outside)
{
    if (outside == WITH_BADS_ALONE)
        c->counts.lamps = 0;
    if (outside == WITH_BADS || outside == WITH_BADS_ALONE)
        c->counts.bads = between(1, 2);
    if (outside == WITH_CONSTRAINTS)
        c->counts.constraints = between(1, 2);
    for (size_t i = 0; i < c->counts.bads; i++)
        c->bad[i] = (uint16_t)literal_up_to(variables(c));
    for (size_t i = 0; i < c->counts.constraints; i++)
        c->constraint[i] = (uint16_t)literal_up_to(variables(c));
}

static enum outside make_board(circuit *c)
{
    enum outside outside = chance(55) ? INSIDE : (enum outside)below(INSIDE);
    if (chance(8)) {
        make_circuit(c, 15);
        return BY_ITS_SIZE;
    }
    c->counts = (chudravik_counts){0};
    c->counts.inputs = board_count(BOARD_INPUTS, outside == MANY_INPUTS);
    c->counts.latches = board_count(BOARD_LATCHES, outside == MANY_LATCHES);
    c->counts.lamps = chance(6) ? 0 : board_count(BOARD_LAMPS, outside == MANY_LAMPS);
    size_t gates = board_count(BOARD_GATES, outside == MANY_GATES);
    if (variables(c) < 2)
        c->counts.inputs = 2;
    for (size_t i = 0; i < c->counts.latches; i++)
        c->next[i] = 0;
    if (c->counts.latches > 1 && chance(50))
        add_board_counter(c, gates);
    while (c->counts.gates < gates)
        add_board_gate(c);
    for (size_t i = 0; i < c->counts.latches; i++)
        if (c->next[i] == 0)
            c->next[i] = (uint16_t)literal_up_to(variables(c));
    set_resets(c);
    for (size_t i = 0; i < c->counts.lamps; i++)
        c->lamp[i] = (uint16_t)literal_up_to(variables(c));
    put_outside(c, outside);
    put_behind_lamps(c, outside);
    return outside;
}

static void see_board(uint32_t number, chudravik_counts counts, enum outside outside)
{
    see(BOARD_LARGEST, number == 0 && counts.inputs == BOARD_INPUTS && counts.latches == BOARD_LATCHES &&
                           counts.lamps == BOARD_LAMPS && counts.gates == BOARD_GATES);
    if (outside < INSIDE)
        see((enum sight)(OUTSIDE_INPUTS + outside), number == 25);
}

/* What is accepted here the reader of all circuits accepts alike, and what is refused with 25 it accepts too. */
static void must_be_read(uint32_t number, chudravik_counts counts)
{
    static uint16_t word[LONGEST_BUFFER / 2];
    chudravik_read_answer read = chudravik_read(of_library(&hand, TEXT), bytes_of(TEXT), word, table_words(&hand));
    if (read.number != 0)
        fail("a board that gave %" PRIu32 " is refused by the reader, with %" PRIu32, number, read.number);
    if (number == 0 && (memcmp(&read.counts, &counts, sizeof counts) != 0 ||
                        (words_of(counts) != 0 && memcmp(word, library_table(&hand), 2 * words_of(counts)) != 0)))
        fail("a board is read otherwise than by the reader");
}

static void try_read_beginners(circuit *c)
{
    static text t;
    enum outside outside = make_board(c);
    twice_begin(&hand, READ_BEGINNERS, c->counts, (numbers){0});
    make_text(&t, c);
    lend_given(TEXT, t.byte, t.count);
    lend_noise(TABLE, 2 * table_length_for(c));
    make_call();
    uint32_t number = hand.library.number;
    note(READ_BEGINNERS, number, TEN_TABLE);
    see_board(number, hand.library.counts, outside);
    see(BOARD_TEN_THOUGH_LARGE, number == 10 && outside != INSIDE);
    if (number == 0 || number == 25)
        must_be_read(number, hand.library.counts);
}

static size_t board_cubes_length(void)
{
    if (troubled())
        return ONE_OF(LEAST_BOARD_CUBES - 1, LEAST_BOARD_CUBES - 1, CUBES_CEILING + 1, CUBES_CEILING + 1, 0, 1, 2,
                      below(LEAST_BOARD_CUBES), LONGEST_BUFFER);
    return ONE_OF(LEAST_BOARD_CUBES, LEAST_BOARD_CUBES, CUBES_CEILING, between(LEAST_BOARD_CUBES, CUBES_CEILING));
}

/* It has closed within 3 to the power of latches cubes, and is the chain with w = 0. */
static void must_have_closed(chudravik_counts counts, const answer *made)
{
    static uint8_t cubes[CUBES_CEILING];
    size_t bound = 1, used = made->cubes * cube_bytes(counts.latches);
    for (size_t i = 0; i < counts.latches; i++)
        bound *= 3;
    if (made->cubes > bound)
        fail("a beginners' board of %zu latches has stored %zu cubes", counts.latches, made->cubes);
    chudravik_chain_answer chain =
        chudravik_chain(counts, library_table(&hand), table_words(&hand), 0, cubes, bytes_of(CUBES));
    if (chain.number != 0 || chain.cubes != made->cubes || chain.back != made->back ||
        memcmp(cubes, of_library(&hand, CUBES), used) != 0)
        fail("a beginners' board is chained otherwise than with w = 0");
    see(BOARD_LONG, made->cubes >= 100);
    for (size_t k = 0; k < made->cubes; k++)
        if (has_unknown(cubes + k * cube_bytes(counts.latches), 1 + counts.latches)) {
            see(BOARD_UNKNOWN, true);
            return;
        }
}

static void try_chain_beginners(circuit *c)
{
    enum outside outside = make_board(c);
    chudravik_counts counts = handed_counts(c);
    twice_begin(&hand, CHAIN_BEGINNERS, counts, (numbers){0});
    lend_table(c);
    lend_noise(CUBES, board_cubes_length());
    make_call();
    uint32_t number = hand.library.number;
    note(CHAIN_BEGINNERS, number, TEN_TABLE);
    see_board(number, counts, outside);
    see(BUFFER_19682, number == 13 && bytes_of(CUBES) == LEAST_BOARD_CUBES - 1);
    see(BUFFER_19683, number == 0 && bytes_of(CUBES) == LEAST_BOARD_CUBES);
    see(BUFFER_65536, number == 0 && bytes_of(CUBES) == CUBES_CEILING);
    see(BUFFER_65537, number == 13 && bytes_of(CUBES) == CUBES_CEILING + 1);
    if (number != 0)
        return;
    must_have_closed(counts, &hand.library);
    must_be_marked(counts, 0, &hand.library);
    must_be_judged(counts, &hand.library);
}

/* ---- merge ---- */

static void merge_into(uint8_t *merged, size_t fields, const uint8_t *a, const uint8_t *b)
{
    size_t record = record_bytes(fields);
    uint32_t number = chudravik_merge(fields, a, record, b, record, merged, record);
    if (number != 0)
        fail("a merge of sound records is refused, with %" PRIu32, number);
}

static void make_record(uint8_t *record, size_t fields, unsigned unknown_percent)
{
    memset(record, 0, record_bytes(fields));
    for (size_t i = 0; i < fields; i++)
        set_pair(record, i, chance(unknown_percent) ? 0 : between(1, 2));
}

static bool covers(const uint8_t *cube, const uint8_t *inside, size_t fields)
{
    for (size_t i = 0; i < fields; i++)
        if (pair_at(cube, i) != 0 && pair_at(cube, i) != pair_at(inside, i))
            return false;
    return true;
}

/* The laws, on records as the call leaves them, with some third record. */
static void must_keep_laws(size_t fields)
{
    uint8_t third[LATCHES_CEILING], left[LATCHES_CEILING], right[LATCHES_CEILING], unknown[LATCHES_CEILING] = {0};
    const uint8_t *a = of_library(&hand, ONE), *b = of_library(&hand, OTHER), *ab = of_library(&hand, MERGED);
    size_t record = record_bytes(fields);
    make_record(third, fields, (unsigned)ONE_OF(0, 10, 50));
    merge_into(left, fields, b, a);
    if (memcmp(left, ab, record) != 0)
        fail("order makes a difference to a merge");
    merge_into(left, fields, ab, third);
    merge_into(right, fields, b, third);
    uint8_t grouped[LATCHES_CEILING];
    merge_into(grouped, fields, a, right);
    if (memcmp(left, grouped, record) != 0)
        fail("grouping makes a difference to a merge");
    merge_into(left, fields, ab, a);
    merge_into(right, fields, a, a);
    if (memcmp(left, ab, record) != 0 || memcmp(right, a, record) != 0)
        fail("repetition makes a difference to a merge");
    merge_into(left, fields, unknown, a);
    if (memcmp(left, unknown, record) != 0)
        fail("a record of X alone does not swallow another");
    if (!covers(ab, a, fields) || !covers(ab, b, fields))
        fail("a merge does not cover both");
    for (size_t i = 0; i < fields; i++) /* some cube that covers both */
        set_pair(third, i, pair_at(a, i) == pair_at(b, i) && chance(80) ? pair_at(a, i) : 0);
    if (!covers(third, ab, fields))
        fail("a cube that covers both does not cover their merge");
}

static size_t some_fields(void)
{
    if (troubled())
        return ONE_OF(513, 513, 514, 1024, 65536, 65536 + 4, (size_t)1 << 32, ((size_t)1 << 32) + 4, (size_t)1 << 63, SIZE_MAX,
                      SIZE_MAX - 2, draw());
    return ONE_OF(0, 1, 2, 3, 4, 5, 511, 512, below(20), below(513));
}

/* The other is of chance, or the one with fields changed, or the same. */
static void lend_other(size_t fields)
{
    uint8_t record[LATCHES_CEILING];
    memcpy(record, twice_content(&hand, ONE), record_bytes(fields));
    for (size_t times = chance(30) ? 0 : between(1, 5); times > 0 && fields > 0; times--)
        set_pair(record, below(fields), below(3));
    if (troubled())
        damage_record(record, fields);
    lend_given(OTHER, record, least_of(length_for(record_bytes(fields)), record_bytes(fields)));
}

static void try_merge(void)
{
    size_t handed = some_fields(), fields = fields_for(handed, below(20), LATCHES_CEILING);
    twice_begin(&hand, MERGE, (chudravik_counts){0}, (numbers){.fields = handed});
    lend_record(ONE, fields);
    if (chance(50))
        lend_record(OTHER, fields);
    else
        lend_other(fields);
    lend_noise(MERGED, length_for(record_bytes(fields)));
    make_call();
    bool given_short = bytes_of(ONE) < record_bytes(fields) || bytes_of(OTHER) < record_bytes(fields);
    note(MERGE, hand.library.number, given_short ? TEN_GIVEN : TEN_RESULT);
    if (hand.library.number != 0)
        return;
    must_keep_laws(fields);
    const uint8_t *merged = of_library(&hand, MERGED);
    see(MERGE_ALIKE, memcmp(of_library(&hand, ONE), of_library(&hand, OTHER), record_bytes(fields)) == 0);
    see(MERGE_NOTHING, fields > 0 && known_fields(merged, fields) == 0 && known_fields(of_library(&hand, ONE), fields) > 0);
    see(MERGE_LONGEST, fields == 512);
}

static void try_call(uint64_t number)
{
    static circuit c;
    number_in_hand = number;
    throw_dice(seed, number);
    set_trouble();
    size_t roll = below(162);
    if (roll < 28)
        try_read(&c);
    else if (roll < 38)
        try_read_any(&c);
    else if (roll < 48)
        try_write(&c);
    else if (roll < 58)
        try_tick(&c);
    else if (roll < 72)
        try_chain(&c);
    else if (roll < 88)
        try_judge(&c);
    else if (roll < 100)
        try_cover(&c);
    else if (roll < 110)
        try_why(&c);
    else if (roll < 116)
        try_merge();
    else if (roll < 130)
        try_read_binary(&c);
    else if (roll < 140)
        try_write_binary(&c);
    else if (roll < 150)
        try_read_beginners(&c);
    else
        try_chain_beginners(&c);
}

/* ---- at the end ---- */

/* Sights are rarer than numbers, and no seed should fail by its luck. */
enum { CALLS_ENOUGH = 20000, TIMES_DUE = 20, SIGHTS_DUE = 5 };

/* Those of bad states and constraints are due as often as numbers. */
static uint64_t sights_due(size_t sight)
{
    return sight < OUTSIDE_BADS ? SIGHTS_DUE : TIMES_DUE;
}

static bool is_given(size_t outcome)
{
    for (size_t call = 0; call < CALLS; call++)
        if (can_give((enum call)call, outcome))
            return true;
    return false;
}

static void print_outcome(const char *name, size_t outcome)
{
    if (!is_given(outcome))
        return;
    printf("%-10s", name);
    for (size_t call = 0; call < CALLS; call++)
        if (can_give((enum call)call, outcome))
            printf("%13" PRIu64, met[call][outcome]);
        else
            printf("%13s", "-");
    putchar('\n');
}

static void print_met(void)
{
    printf("%-10s", "number");
    for (size_t call = 0; call < CALLS; call++)
        printf("%13s", call_names[call]);
    putchar('\n');
    for (size_t number = 0; number <= MOST_NUMBER; number++) {
        char name[8];
        snprintf(name, sizeof name, "%zu", number);
        if (number != 10) {
            print_outcome(name, number);
            continue;
        }
        print_outcome("10 table", TEN_TABLE);
        print_outcome("10 given", TEN_GIVEN);
        print_outcome("10 result", TEN_RESULT);
    }
    for (size_t sight = 0; sight < SIGHTS; sight++)
        printf("%10" PRIu64 "  %s\n", seen[sight], sight_names[sight]);
    printf("%10zu  cubes in the longest chain\n", most_cubes);
}

static size_t count_rare(void)
{
    size_t rare = 0;
    for (size_t call = 0; call < CALLS; call++)
        for (size_t outcome = 0; outcome < OUTCOMES; outcome++)
            if (can_give((enum call)call, outcome) && met[call][outcome] < TIMES_DUE) {
                fprintf(stderr, "differential: %s gave outcome %zu too seldom\n", call_names[call], outcome);
                rare++;
            }
    for (size_t sight = 0; sight < SIGHTS; sight++)
        if (seen[sight] < sights_due(sight)) {
            fprintf(stderr, "differential: too seldom: %s\n", sight_names[sight]);
            rare++;
        }
    return rare;
}

static uint64_t number_given(const char *digits)
{
    char *rest;
    errno = 0;
    unsigned long long number = strtoull(digits, &rest, 10);
    if (errno != 0 || *digits < '0' || *digits > '9' || *rest != '\0') {
        fprintf(stderr, "differential: not a number: %s\n", digits);
        exit(2);
    }
    return number;
}

int main(int argc, char **argv)
{
    if (argc < 2 || argc > 4) {
        fputs("usage: differential CALLS [SEED [FIRST]]\n", stderr);
        return 2;
    }
    uint64_t calls = number_given(argv[1]);
    seed = argc > 2 ? number_given(argv[2]) : 20240607;
    uint64_t first = argc > 3 ? number_given(argv[3]) : 0;
    printf("%" PRIu64 " calls, seed %" PRIu64 "\n", calls, seed);
    fflush(stdout);
    watch_signals();
    twice_take_memory(&hand);
    for (uint64_t i = 0; i < calls; i++)
        try_call(first + i);
    print_met();
    if (calls >= CALLS_ENOUGH && count_rare() > 0)
        return 1;
    puts("no difference");
    return 0;
}

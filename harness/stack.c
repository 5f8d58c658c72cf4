/* How much stack each call takes: it must be under the figure of include/chudravik.h, and that below 4 KiB. A call's frames
 * have a fixed size, so that no circuit should matter; measured are the largest circuit that the ceilings allow, the
 * smallest, and on the largest the refusals that come last. A why goes down from gate to gate, and is measured on the
 * deepest circuits. Each call runs on a stack of its own that was filled with a
 * pattern.
 *
 * stack
 */
#define _XOPEN_SOURCE 700
#include "chudravik.h"

#include <stdio.h>
#include <stdlib.h>
#include <string.h>
#include <ucontext.h>

enum { STACK = 1 << 20, PATTERN = 0xA5 };

_Static_assert(CHUDRAVIK_MOST_STACK < 4096, "the classroom reader has 4 KiB of stack");

static uint8_t stack[STACK];
static ucontext_t here, there;

static const chudravik_counts LARGEST = {CHUDRAVIK_MOST_INPUTS, CHUDRAVIK_MOST_LATCHES, CHUDRAVIK_MOST_LAMPS,
                                         CHUDRAVIK_MOST_GATES,  CHUDRAVIK_MOST_BADS,    CHUDRAVIK_MOST_CONSTRAINTS};
static const chudravik_counts LARGEST_BOARD = {4, 8, 8, 32, 0, 0};
static const chudravik_counts SMALLEST = {.lamps = 1};
static chudravik_counts counts;
static uint16_t table[CHUDRAVIK_MOST_TABLE_WORDS];
static uint8_t text[CHUDRAVIK_MOST_TEXT];
static size_t text_bytes;
static uint8_t binary[CHUDRAVIK_MOST_BINARY + 1];
static size_t binary_bytes;
static uint8_t cubes[CHUDRAVIK_MOST_CUBE_BYTES];
static uint8_t latches[CHUDRAVIK_RECORD_BYTES(CHUDRAVIK_MOST_LATCHES)];
static uint8_t switches[CHUDRAVIK_RECORD_BYTES(CHUDRAVIK_MOST_INPUTS)];
static uint8_t lamps[CHUDRAVIK_RECORD_BYTES(CHUDRAVIK_MOST_LAMPS)];
static uint8_t verdict[CHUDRAVIK_MOST_VERDICT_BYTES];
static uint8_t settled[CHUDRAVIK_RECORD_BYTES(CHUDRAVIK_MOST_LATCHES)];
static uint16_t renumbered[CHUDRAVIK_MOST_LIST_WORDS];
static uint32_t number;
static size_t stored, back;

static void call_nothing(void)
{
}

static void call_write(void)
{
    chudravik_write_answer answer = chudravik_write(counts, table, CHUDRAVIK_MOST_TABLE_WORDS, text, sizeof text);
    number = answer.number;
    text_bytes = answer.bytes;
}

static void call_read(void)
{
    number = chudravik_read(text, text_bytes, table, CHUDRAVIK_MOST_TABLE_WORDS).number;
}

static void call_write_binary(void)
{
    chudravik_write_answer answer =
        chudravik_write_binary(counts, table, CHUDRAVIK_MOST_TABLE_WORDS, binary, sizeof binary);
    number = answer.number;
    binary_bytes = answer.bytes;
}

static void call_read_binary(void)
{
    number = chudravik_read_binary(binary, binary_bytes, table, CHUDRAVIK_MOST_TABLE_WORDS).number;
}

static void call_read_any(void)
{
    number = chudravik_read_any(text, text_bytes, table, CHUDRAVIK_MOST_TABLE_WORDS, renumbered, CHUDRAVIK_MOST_LIST_WORDS)
                 .number;
}

static void call_read_beginners(void)
{
    number = chudravik_read_beginners(text, text_bytes, table, CHUDRAVIK_MOST_TABLE_WORDS).number;
}

static void call_chain_beginners(void)
{
    number = chudravik_chain_beginners(counts, table, CHUDRAVIK_MOST_TABLE_WORDS, cubes, sizeof cubes).number;
}

static void call_tick(void)
{
    number = chudravik_tick(counts, table, CHUDRAVIK_MOST_TABLE_WORDS, latches, sizeof latches, switches,
                            sizeof switches, settled, sizeof settled, lamps, sizeof lamps);
}

static void call_chain(void)
{
    chudravik_chain_answer answer = chudravik_chain(counts, table, CHUDRAVIK_MOST_TABLE_WORDS, 16, cubes, sizeof cubes);
    number = answer.number;
    stored = answer.cubes;
    back = answer.back;
}

/* The cubes that the chain left. */
static void call_judge(void)
{
    number = chudravik_judge(counts, table, CHUDRAVIK_MOST_TABLE_WORDS, cubes, sizeof cubes, stored, back, verdict,
                             sizeof verdict, settled, sizeof settled)
                 .number;
}

static void call_cover(void)
{
    number = chudravik_cover(counts, table, CHUDRAVIK_MOST_TABLE_WORDS, cubes, sizeof cubes, stored, verdict, sizeof verdict)
                 .number;
}

static void call_why(void)
{
    number = chudravik_why(counts, table, CHUDRAVIK_MOST_TABLE_WORDS, latches, sizeof latches, 0, settled, sizeof settled);
}

static void call_merge(void)
{
    number = chudravik_merge(counts.latches, latches, sizeof latches, latches, sizeof latches, settled, sizeof settled);
}

/* Where the lamps, bad states and constraints end and the gates begin. */
static size_t gates_at(void)
{
    return 2 * counts.latches + counts.lamps + counts.bads + counts.constraints;
}

/* A shift register with gates on its way: the chain goes through many cubes, and closes. Constraints are that a switch is on,
 * which is X. */
static void make_circuit(void)
{
    size_t first_latch = 2 * (1 + counts.inputs), first_gate = first_latch + 2 * counts.latches;
    for (size_t i = 0; i < counts.latches; i++) {
        table[2 * i] = (uint16_t)(i == 0 ? 2 : first_latch + 2 * (i - 1));
        table[2 * i + 1] = i % 2;
    }
    for (size_t i = 0; i < counts.lamps + counts.bads; i++)
        table[2 * counts.latches + i] = (uint16_t)(first_gate + 2 * (counts.gates - 1 - i));
    for (size_t i = 0; i < counts.constraints; i++)
        table[gates_at() - 1 - i] = 2;
    for (size_t i = 0; i < counts.gates; i++) {
        size_t at = gates_at() + 2 * i;
        table[at] = (uint16_t)(first_gate + 2 * i - 1);
        table[at + 1] = (uint16_t)(first_latch + 2 * (i % counts.latches));
    }
}

/* The deepest: each gate has the one before it, or its inverse, as its first operand or its second, and the constant beside
 * it; the first gate has a latch. */
static void make_deep_circuit(size_t inverted, size_t place)
{
    size_t first_latch = 2 * (1 + counts.inputs), first_gate = first_latch + 2 * counts.latches;
    memset(table, 0, sizeof table);
    for (size_t i = 0; i < counts.gates; i++) {
        size_t at = gates_at() + 2 * i;
        table[at + place] = (uint16_t)((i == 0 ? first_latch : first_gate + 2 * (i - 1)) + inverted);
        table[at + 1 - place] = 1;
    }
    table[2 * counts.latches] = (uint16_t)(first_gate + 2 * (counts.gates - 1) + inverted);
}

static size_t stack_of(void (*call)(void))
{
    memset(stack, PATTERN, sizeof stack);
    if (getcontext(&there) != 0)
        exit(2);
    there.uc_stack.ss_sp = stack;
    there.uc_stack.ss_size = sizeof stack;
    there.uc_link = &here;
    makecontext(&there, call, 0);
    if (swapcontext(&here, &there) != 0)
        exit(2);
    size_t untouched = 0;
    while (untouched < sizeof stack && stack[untouched] == PATTERN)
        untouched++;
    return sizeof stack - untouched;
}

typedef struct {
    const char *name;
    void (*call)(void);
    size_t most;
} named_call;

static const named_call WRITE = {"write", call_write, CHUDRAVIK_MOST_STACK},
                        READ = {"read", call_read, CHUDRAVIK_MOST_STACK},
                        WRITE_BINARY = {"write_binary", call_write_binary, CHUDRAVIK_MOST_STACK},
                        READ_BINARY = {"read_binary", call_read_binary, CHUDRAVIK_MOST_STACK},
                        READ_ANY = {"read_any", call_read_any, CHUDRAVIK_MOST_ANY_STACK},
                        TICK = {"tick", call_tick, CHUDRAVIK_MOST_STACK},
                        CHAIN = {"chain", call_chain, CHUDRAVIK_MOST_STACK},
                        JUDGE = {"judge", call_judge, CHUDRAVIK_MOST_STACK},
                        COVER = {"cover", call_cover, CHUDRAVIK_MOST_STACK},
                        WHY = {"why", call_why, CHUDRAVIK_WHY_STACK},
                        MERGE = {"merge", call_merge, CHUDRAVIK_MOST_STACK},
                        READ_BEGINNERS = {"read_beginners", call_read_beginners, CHUDRAVIK_MOST_STACK},
                        CHAIN_BEGINNERS = {"chain_beginners", call_chain_beginners, CHUDRAVIK_MOST_STACK};
static size_t nothing;

/* Whether the call gives this number, and takes no more stack than it may. */
static int measured(named_call c, const char *what, uint32_t due)
{
    size_t used = stack_of(c.call) - nothing;
    printf("%-12s %s: number %u, %zu bytes of stack\n", c.name, what, (unsigned)number, used);
    return number == due && used <= c.most;
}

/* A write comes first: the text that it leaves is read. */
static int accepted(const char *what)
{
    return measured(WRITE, what, CHUDRAVIK_ACCEPTED) & measured(READ, what, CHUDRAVIK_ACCEPTED) &
           measured(READ_ANY, what, CHUDRAVIK_ACCEPTED) & measured(WRITE_BINARY, what, CHUDRAVIK_ACCEPTED) &
           measured(READ_BINARY, what, CHUDRAVIK_ACCEPTED) &
           measured(TICK, what, CHUDRAVIK_ACCEPTED) & measured(CHAIN, what, CHUDRAVIK_ACCEPTED) &
           measured(JUDGE, what, CHUDRAVIK_ACCEPTED) & measured(COVER, what, CHUDRAVIK_ACCEPTED) &
           measured(WHY, what, counts.latches == 0 ? CHUDRAVIK_ACCEPTED : CHUDRAVIK_LAMP_UNKNOWN) &
           measured(MERGE, what, CHUDRAVIK_ACCEPTED);
}

/* The largest circuit with a constraint that is 0 in every state: its chain has no cube, and any cubes are a chain. */
static int has_ended(void)
{
    static const char what[] = "under a constraint that never holds";
    size_t last = gates_at() - 1;
    uint16_t kept = table[last];
    int passed;
    table[last] = 0;
    passed = measured(JUDGE, what, CHUDRAVIK_ACCEPTED) & measured(COVER, what, CHUDRAVIK_ACCEPTED) &
             measured(CHAIN, what, CHUDRAVIK_ACCEPTED) & measured(JUDGE, what, CHUDRAVIK_ACCEPTED) &
             measured(COVER, what, CHUDRAVIK_ACCEPTED);
    table[last] = kept;
    return passed;
}

static int refused(const char *what)
{
    int passed;
    text[text_bytes++] = '0';
    binary[binary_bytes++] = '0';
    passed = measured(READ, what, CHUDRAVIK_TRAILING) & measured(READ_ANY, what, CHUDRAVIK_TRAILING) &
             measured(READ_BINARY, what, CHUDRAVIK_TRAILING);
    latches[sizeof latches - 1] = 3;
    passed &= measured(TICK, what, CHUDRAVIK_RECORD) & measured(MERGE, what, CHUDRAVIK_RECORD);
    latches[sizeof latches - 1] = 0;
    back = stored;
    passed &= measured(JUDGE, what, CHUDRAVIK_NOT_A_CHAIN);
    passed &= has_ended();
    table[CHUDRAVIK_MOST_TABLE_WORDS - 1] = UINT16_MAX;
    passed &= measured(WRITE, what, CHUDRAVIK_TABLE) & measured(WRITE_BINARY, what, CHUDRAVIK_TABLE) &
              measured(CHAIN, what, CHUDRAVIK_TABLE) &
              measured(COVER, what, CHUDRAVIK_TABLE);
    table[CHUDRAVIK_MOST_TABLE_WORDS - 1] = 0;
    return passed;
}

/* On all of the deepest circuits, dark and lit. */
static int explained(void)
{
    static const char *const what[2][2] = {{"through first operands", "through second operands"},
                                           {"through inverted first operands", "through inverted second operands"}};
    int passed = 1;
    for (size_t inverted = 0; inverted < 2; inverted++)
        for (size_t place = 0; place < 2; place++)
            for (unsigned value = CHUDRAVIK_LOW; value <= CHUDRAVIK_HIGH; value++) {
                make_deep_circuit(inverted, place);
                latches[0] = (uint8_t)(value << 6);
                passed &= measured(WHY, what[inverted][place], CHUDRAVIK_ACCEPTED);
            }
    return passed;
}

/* A board of the beginners, the largest; and with a constant as its last operand. */
static int for_beginners(void)
{
    static const char what[] = "on the largest board";
    int passed;
    counts = LARGEST_BOARD;
    make_circuit();
    passed = measured(WRITE, what, CHUDRAVIK_ACCEPTED) & measured(READ_BEGINNERS, what, CHUDRAVIK_ACCEPTED) &
             measured(CHAIN_BEGINNERS, what, CHUDRAVIK_ACCEPTED);
    table[CHUDRAVIK_TABLE_WORDS(counts) - 1] = 1;
    return passed & measured(WRITE, what, CHUDRAVIK_ACCEPTED) & measured(READ_BEGINNERS, what, CHUDRAVIK_BEGINNERS) &
           measured(CHAIN_BEGINNERS, what, CHUDRAVIK_BEGINNERS);
}

int main(void)
{
    int passed;
    nothing = stack_of(call_nothing);
    counts = SMALLEST;
    passed = accepted("on the smallest circuit");
    counts = LARGEST;
    make_circuit();
    passed &= accepted("on the largest circuit");
    passed &= refused("refused");
    passed &= explained();
    passed &= for_beginners();
    return passed ? 0 : 1;
}

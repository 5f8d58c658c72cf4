/* Answers a list of vectors from the independent simulator: standard input is stdin of crates/replay_texts or
 * crates/replay_tables, and what is written is its stdout, which the program has to write too. The vectors are described
 * in its src/main.rt. Nothing of the library is linked. COUNTS are the six numbers I L O A B C.
 *
 *   read WORDS BYTES TEXT
 *   any TABLEWORDS LISTWORDS BYTES TEXT
 *   readbinary WORDS BYTES TEXT
 *   readbeginners WORDS BYTES TEXT
 *   write COUNTS WORDS w.. BYTES
 *   writebinary COUNTS WORDS w.. BYTES
 *   tick COUNTS WORDS w.. STATE b.. SWITCHES b.. NEXT LAMPS
 *   chain COUNTS WORDS w.. W CUBES
 *   chainbeginners COUNTS WORDS w.. CUBES
 *   judge COUNTS WORDS w.. CUBES b.. N J VERDICT SETTLED
 *   cover COUNTS WORDS w.. CUBES b.. N VERDICT
 *   why COUNTS WORDS w.. STATE b.. LAMP WHY
 *   merge FIELDS A b.. B b.. MERGED
 */
#include "binary.h"
#include "drawing.h"
#include "simulator.h"

#include <stdbool.h>
#include <stdio.h>
#include <stdlib.h>
#include <string.h>

/* What a vector may take; beyond that it is answered by `too large`. A list that is too large has no answer. */
enum { MOST_BYTES = 66000, MOST_WORDS = 8192, MOST_LIST = 1048576 };

/* ---- a line ---- */

/* What is left of a line. Once it was not as it must be it is broken, and each later step answers 0. */
typedef struct {
    const uint8_t *at;
    const uint8_t *end;
    bool broken;
} line_rest;

static int peek(const line_rest *rest)
{
    return rest->broken || rest->at == rest->end ? EOF : *rest->at;
}

/* A space and a number of at least one digit. */
static size_t take_number(line_rest *rest)
{
    size_t value = 0;
    size_t digits = 0;
    if (peek(rest) != ' ') {
        rest->broken = true;
        return 0;
    }
    for (rest->at++; peek(rest) >= '0' && peek(rest) <= '9'; rest->at++, digits++) {
        size_t digit = (size_t)(peek(rest) - '0');
        if (value > (SIZE_MAX - digit) / 10) {
            rest->broken = true;
            return 0;
        }
        value = value * 10 + digit;
    }
    if (digits == 0) {
        rest->broken = true;
    }
    return rest->broken ? 0 : value;
}

static size_t take_number_up_to(line_rest *rest, size_t most)
{
    size_t value = take_number(rest);
    if (value > most) {
        rest->broken = true;
    }
    return value;
}

static bool is_done(const line_rest *rest)
{
    return !rest->broken && rest->at == rest->end;
}

/* A length and that many numbers. Those beyond the room are dropped: the vector is too large then. */
static size_t take_words(line_rest *rest, uint16_t room[MOST_WORDS])
{
    size_t count = take_number(rest);
    for (size_t i = 0; i < count && !rest->broken; i++) {
        size_t word = take_number_up_to(rest, UINT16_MAX);
        if (i < MOST_WORDS) {
            room[i] = (uint16_t)word;
        }
    }
    return count;
}

static size_t take_bytes(line_rest *rest, uint8_t room[MOST_BYTES])
{
    size_t count = take_number(rest);
    for (size_t i = 0; i < count && !rest->broken; i++) {
        size_t byte = take_number_up_to(rest, UINT8_MAX);
        if (i < MOST_BYTES) {
            room[i] = (uint8_t)byte;
        }
    }
    return count;
}

static chudravik_counts take_counts(line_rest *rest)
{
    chudravik_counts counts;
    counts.inputs = take_number(rest);
    counts.latches = take_number(rest);
    counts.lamps = take_number(rest);
    counts.gates = take_number(rest);
    counts.bads = take_number(rest);
    counts.constraints = take_number(rest);
    return counts;
}

static unsigned take_hex_digit(line_rest *rest)
{
    static const char digits[] = "0123456789abcdef";
    int c = peek(rest);
    const char *found = c > 0 ? strchr(digits, c) : NULL;
    if (found == NULL) {
        rest->broken = true;
        return 0;
    }
    rest->at++;
    return (unsigned)(found - digits);
}

/* `/` is byte 10, `\hh` any byte, every other byte itself. */
static uint8_t take_text_byte(line_rest *rest)
{
    uint8_t byte = *rest->at++;
    if (byte == '/') {
        return 10;
    }
    if (byte == '\\') {
        unsigned high = take_hex_digit(rest);
        return (uint8_t)(16 * high + take_hex_digit(rest));
    }
    return byte;
}

/* A space and a text, or nothing; behind the text the room has `x`. */
static void take_text(line_rest *rest, uint8_t room[MOST_BYTES])
{
    memset(room, 'x', MOST_BYTES);
    if (is_done(rest)) {
        return;
    }
    if (peek(rest) != ' ') {
        rest->broken = true;
        return;
    }
    rest->at++;
    for (size_t i = 0; peek(rest) != EOF; i++) {
        uint8_t byte = take_text_byte(rest);
        if (i < MOST_BYTES) {
            room[i] = byte;
        }
    }
}

/* ---- what is lent, and how it is shown ---- */

/* A buffer of its own for each loan, so that a checker of memory sees every step beyond it. */
static void *lend(size_t bytes)
{
    void *buffer = malloc(bytes == 0 ? 1 : bytes);
    if (buffer == NULL) {
        fputs("no memory\n", stderr);
        exit(1);
    }
    memset(buffer, 0xFF, bytes);
    return buffer;
}

static void show_times(size_t times)
{
    if (times > 1) {
        printf("*%zu", times);
    }
}

static void show_bytes(const char *name, const uint8_t *bytes, size_t count)
{
    printf("; %s%s", name, count == 0 ? " -" : "");
    for (size_t i = 0, times; i < count; i += times) {
        for (times = 1; i + times < count && bytes[i + times] == bytes[i]; times++) {
        }
        printf(" %02x", bytes[i]);
        show_times(times);
    }
}

static void show_words(const char *name, const uint16_t *words, size_t count)
{
    printf("; %s%s", name, count == 0 ? " -" : "");
    for (size_t i = 0, times; i < count; i += times) {
        for (times = 1; i + times < count && words[i + times] == words[i]; times++) {
        }
        printf(" %u", words[i]);
        show_times(times);
    }
}

static void show_counts(chudravik_counts counts)
{
    printf(" I %zu L %zu O %zu A %zu B %zu C %zu", counts.inputs, counts.latches, counts.lamps, counts.gates, counts.bads,
           counts.constraints);
}

/* A line that cannot be answered by a call has its answer here. */
static bool is_turned_away(const line_rest *rest, size_t words, size_t longest)
{
    if (!is_done(rest)) {
        puts("not a vector");
        return true;
    }
    if (words > MOST_WORDS || longest > MOST_BYTES) {
        puts("too large");
        return true;
    }
    return false;
}

static size_t longer(size_t a, size_t b)
{
    return a > b ? a : b;
}

/* ---- the vectors ---- */

static uint16_t given_table[MOST_WORDS];

typedef chudravik_read_answer reader(const uint8_t *text, size_t text_bytes, uint16_t *table, size_t table_words);

static void answer_reader(line_rest rest, const char *name, reader *simulate)
{
    static uint8_t text[MOST_BYTES];
    size_t words = take_number(&rest);
    size_t bytes = take_number(&rest);
    take_text(&rest, text);
    if (is_turned_away(&rest, words, bytes)) {
        return;
    }
    uint16_t *table = lend(words * sizeof *table);
    chudravik_read_answer answer = simulate(text, bytes, table, words);
    printf("%s number %u", name, (unsigned)answer.number);
    show_counts(answer.counts);
    show_words("table", table, words);
    putchar('\n');
    free(table);
}

static void answer_any(line_rest rest)
{
    static uint8_t text[MOST_BYTES];
    size_t table_words = take_number(&rest);
    size_t list_words = take_number(&rest);
    size_t bytes = take_number(&rest);
    take_text(&rest, text);
    if (is_turned_away(&rest, longer(table_words, list_words), bytes)) {
        return;
    }
    uint16_t *table = lend(table_words * sizeof *table);
    uint16_t *renumbered = lend(list_words * sizeof *renumbered);
    chudravik_read_any_answer answer = simulate_read_any(text, bytes, table, table_words, renumbered, list_words);
    printf("any number %u", (unsigned)answer.number);
    show_counts(answer.counts);
    printf(" M %zu", answer.variables);
    show_words("table", table, table_words);
    show_words("list", renumbered, list_words);
    putchar('\n');
    free(renumbered);
    free(table);
}

typedef chudravik_write_answer writer(chudravik_counts counts, const uint16_t *table, size_t table_words, uint8_t *text,
                                      size_t text_bytes);

static void answer_write(line_rest rest, const char *name, writer *write)
{
    chudravik_counts counts = take_counts(&rest);
    size_t words = take_words(&rest, given_table);
    size_t bytes = take_number(&rest);
    if (is_turned_away(&rest, words, bytes)) {
        return;
    }
    uint8_t *text = lend(bytes);
    chudravik_write_answer answer = write(counts, given_table, words, text, bytes);
    printf("%s number %u bytes %zu", name, (unsigned)answer.number, answer.bytes);
    show_bytes("text", text, bytes);
    putchar('\n');
    free(text);
}

static void answer_tick(line_rest rest)
{
    static uint8_t state[MOST_BYTES];
    static uint8_t switches[MOST_BYTES];
    chudravik_counts counts = take_counts(&rest);
    size_t words = take_words(&rest, given_table);
    size_t state_bytes = take_bytes(&rest, state);
    size_t switches_bytes = take_bytes(&rest, switches);
    size_t next_bytes = take_number(&rest);
    size_t lamps_bytes = take_number(&rest);
    size_t longest = longer(longer(state_bytes, switches_bytes), longer(next_bytes, lamps_bytes));
    if (is_turned_away(&rest, words, longest)) {
        return;
    }
    uint8_t *next = lend(next_bytes);
    uint8_t *lamps = lend(lamps_bytes);
    uint32_t number = simulate_tick(counts, given_table, words, state, state_bytes, switches, switches_bytes, next,
                                    next_bytes, lamps, lamps_bytes);
    printf("tick number %u", (unsigned)number);
    show_bytes("next", next, next_bytes);
    show_bytes("lamps", lamps, lamps_bytes);
    putchar('\n');
    free(lamps);
    free(next);
}

static void answer_chain(line_rest rest)
{
    chudravik_counts counts = take_counts(&rest);
    size_t words = take_words(&rest, given_table);
    size_t w = take_number(&rest);
    size_t cubes_bytes = take_number(&rest);
    if (is_turned_away(&rest, words, cubes_bytes)) {
        return;
    }
    uint8_t *cubes = lend(cubes_bytes);
    chudravik_chain_answer answer = simulate_chain(counts, given_table, words, w, cubes, cubes_bytes);
    printf("chain number %u n %zu j %zu", (unsigned)answer.number, answer.cubes, answer.back);
    show_bytes("cubes", cubes, cubes_bytes);
    putchar('\n');
    free(cubes);
}

static void answer_chain_beginners(line_rest rest)
{
    chudravik_counts counts = take_counts(&rest);
    size_t words = take_words(&rest, given_table);
    size_t cubes_bytes = take_number(&rest);
    if (is_turned_away(&rest, words, cubes_bytes)) {
        return;
    }
    uint8_t *cubes = lend(cubes_bytes);
    chudravik_chain_answer answer = simulate_chain_beginners(counts, given_table, words, cubes, cubes_bytes);
    printf("chainbeginners number %u n %zu j %zu", (unsigned)answer.number, answer.cubes, answer.back);
    show_bytes("cubes", cubes, cubes_bytes);
    putchar('\n');
    free(cubes);
}

static void answer_judge(line_rest rest)
{
    static uint8_t cubes[MOST_BYTES];
    chudravik_counts counts = take_counts(&rest);
    size_t words = take_words(&rest, given_table);
    size_t cubes_bytes = take_bytes(&rest, cubes);
    size_t n = take_number(&rest);
    size_t j = take_number(&rest);
    size_t verdict_bytes = take_number(&rest);
    size_t settled_bytes = take_number(&rest);
    if (is_turned_away(&rest, words, longer(cubes_bytes, longer(verdict_bytes, settled_bytes)))) {
        return;
    }
    uint8_t *verdict = lend(verdict_bytes);
    uint8_t *settled = lend(settled_bytes);
    chudravik_judge_answer answer = simulate_judge(counts, given_table, words, cubes, cubes_bytes, n, j, verdict,
                                                   verdict_bytes, settled, settled_bytes);
    printf("judge number %u s %zu", (unsigned)answer.number, answer.settled);
    show_bytes("verdict", verdict, verdict_bytes);
    show_bytes("settled", settled, settled_bytes);
    putchar('\n');
    free(settled);
    free(verdict);
}

static void answer_cover(line_rest rest)
{
    static uint8_t cubes[MOST_BYTES];
    chudravik_counts counts = take_counts(&rest);
    size_t words = take_words(&rest, given_table);
    size_t cubes_bytes = take_bytes(&rest, cubes);
    size_t n = take_number(&rest);
    size_t verdict_bytes = take_number(&rest);
    if (is_turned_away(&rest, words, longer(cubes_bytes, verdict_bytes))) {
        return;
    }
    uint8_t *verdict = lend(verdict_bytes);
    chudravik_cover_answer answer =
        simulate_cover(counts, given_table, words, cubes, cubes_bytes, n, verdict, verdict_bytes);
    printf("cover number %u cube %zu", (unsigned)answer.number, answer.cube);
    show_bytes("verdict", verdict, verdict_bytes);
    putchar('\n');
    free(verdict);
}

static void answer_why(line_rest rest)
{
    static uint8_t state[MOST_BYTES];
    chudravik_counts counts = take_counts(&rest);
    size_t words = take_words(&rest, given_table);
    size_t state_bytes = take_bytes(&rest, state);
    size_t lamp = take_number(&rest);
    size_t why_bytes = take_number(&rest);
    if (is_turned_away(&rest, words, longer(state_bytes, why_bytes))) {
        return;
    }
    uint8_t *why = lend(why_bytes);
    uint32_t number = simulate_why(counts, given_table, words, state, state_bytes, lamp, why, why_bytes);
    printf("why number %u", (unsigned)number);
    show_bytes("why", why, why_bytes);
    putchar('\n');
    free(why);
}

static void answer_merge(line_rest rest)
{
    static uint8_t a[MOST_BYTES];
    static uint8_t b[MOST_BYTES];
    size_t fields = take_number(&rest);
    size_t a_bytes = take_bytes(&rest, a);
    size_t b_bytes = take_bytes(&rest, b);
    size_t merged_bytes = take_number(&rest);
    if (is_turned_away(&rest, 0, longer(merged_bytes, longer(a_bytes, b_bytes)))) {
        return;
    }
    uint8_t *merged = lend(merged_bytes);
    uint32_t number = simulate_merge(fields, a, a_bytes, b, b_bytes, merged, merged_bytes);
    printf("merge number %u", (unsigned)number);
    show_bytes("merged", merged, merged_bytes);
    putchar('\n');
    free(merged);
}

/* ---- the list ---- */

static bool skip_name(line_rest *rest, const char *name)
{
    size_t length = strlen(name);
    if ((size_t)(rest->end - rest->at) < length || memcmp(rest->at, name, length) != 0) {
        return false;
    }
    rest->at += length;
    return true;
}

static void answer_line(line_rest rest)
{
    if (peek(&rest) == '#') {
        fwrite(rest.at, 1, (size_t)(rest.end - rest.at), stdout);
        putchar('\n');
    } else if (skip_name(&rest, "readbinary")) {
        answer_reader(rest, "readbinary", simulate_read_binary);
    } else if (skip_name(&rest, "readbeginners")) {
        answer_reader(rest, "readbeginners", simulate_read_beginners);
    } else if (skip_name(&rest, "read")) {
        answer_reader(rest, "read", simulate_read);
    } else if (skip_name(&rest, "any")) {
        answer_any(rest);
    } else if (skip_name(&rest, "writebinary")) {
        answer_write(rest, "writebinary", simulate_write_binary);
    } else if (skip_name(&rest, "write")) {
        answer_write(rest, "write", simulate_write);
    } else if (skip_name(&rest, "tick")) {
        answer_tick(rest);
    } else if (skip_name(&rest, "chainbeginners")) {
        answer_chain_beginners(rest);
    } else if (skip_name(&rest, "chain")) {
        answer_chain(rest);
    } else if (skip_name(&rest, "judge")) {
        answer_judge(rest);
    } else if (skip_name(&rest, "cover")) {
        answer_cover(rest);
    } else if (skip_name(&rest, "why")) {
        answer_why(rest);
    } else if (skip_name(&rest, "merge")) {
        answer_merge(rest);
    } else {
        puts("not a vector");
    }
}

static void answer_list(const uint8_t *list, size_t bytes)
{
    const uint8_t *end = list + bytes;
    while (list < end) {
        const uint8_t *newline = memchr(list, '\n', (size_t)(end - list));
        line_rest rest = {.at = list, .end = newline == NULL ? end : newline, .broken = false};
        answer_line(rest);
        list = newline == NULL ? end : newline + 1;
    }
}

int main(void)
{
    static uint8_t list[MOST_LIST];
    size_t bytes = fread(list, 1, sizeof list, stdin);
    if (ferror(stdin)) {
        fputs("the list cannot be read\n", stderr);
        return 1;
    }
    if (bytes == sizeof list) {
        fputs("the list is too large\n", stderr);
        return 1;
    }
    answer_list(list, bytes);
    return fflush(stdout) == 0 ? 0 : 1;
}

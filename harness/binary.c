/* See binary.h. */
#include "binary.h"

#include "simulator.h"

#include <stdbool.h>
#include <stdio.h>
#include <stdlib.h>
#include <string.h>

enum { LONGEST_LINE = 64, LARGEST_NUMBER = 99999, MOST_BYTES = 60000 };

/* ---- lines ---- */

typedef struct {
    const uint8_t *at, *end;
} rest;

/* The numbers of the next line, at most `most`; 0 where there is no such line. */
static size_t take_line(rest *r, size_t most, size_t *number)
{
    size_t left = (size_t)(r->end - r->at), count = 0, written = 0;
    const uint8_t *newline = left == 0 ? NULL : memchr(r->at, '\n', left);
    size_t length = newline == NULL ? LONGEST_LINE : (size_t)(newline - r->at);
    char line[LONGEST_LINE + 1] = {0}, again[8 * LONGEST_LINE], *next = line;
    if (length >= LONGEST_LINE)
        return 0;
    memcpy(line, r->at, length);
    while (count < most && (count == 0 || *next != '\0')) {
        unsigned long long value = strtoull(next, &next, 10);
        if (value > LARGEST_NUMBER)
            return 0;
        written += (size_t)snprintf(again + written, sizeof again - written, "%s%llu", count == 0 ? "" : " ", value);
        number[count++] = (size_t)value;
    }
    if (written != length || memcmp(again, r->at, length) != 0)
        return 0;
    r->at = newline + 1;
    return count;
}

/* ---- differences ---- */

/* "in groups of seven bits, low group first, the top bit set on all but the last"; false where it is 26: "cut off, longer
 * than two bytes, or with a needless zero group". */
static bool take_difference(rest *r, size_t *difference)
{
    size_t groups = 0;
    uint8_t byte;
    *difference = 0;
    do {
        if (r->at == r->end || groups == 2)
            return false;
        byte = *r->at++;
        *difference += (size_t)(byte % 128) << (7 * groups++);
    } while (byte >= 128);
    return groups == 1 || byte != 0;
}

static size_t put_difference(uint8_t *at, size_t difference)
{
    size_t bytes = 0;
    for (; difference >= 128; difference /= 128)
        at[bytes++] = (uint8_t)(128 + difference % 128);
    at[bytes++] = (uint8_t)difference;
    return bytes;
}

/* ---- read ---- */

static uint32_t read_first_line(rest *r, chudravik_counts *c)
{
    size_t n[9] = {0}; /* M I L O A B C J F; those left out are 0 */
    if (r->end - r->at < 4 || memcmp(r->at, "aig ", 4) != 0)
        return 2;
    r->at += 4;
    if (take_line(r, 9, n) < 5)
        return 2;
    *c = (chudravik_counts){n[1], n[2], n[3], n[4], n[5], n[6]};
    return n[1] > 256 || n[2] > 512 || n[3] > 64 || n[4] > 3327 || n[5] > 64 || n[6] > 64 || n[7] + n[8] > 0 ||
                   n[0] != n[1] + n[2] + n[4]
               ? 3
               : 0;
}

/* Lines of one literal: lamps, then bad states, then constraints. */
static size_t literals(const chudravik_counts *c)
{
    return c->lamps + c->bads + c->constraints;
}

static uint32_t read_lines(rest *r, const chudravik_counts *c, uint16_t *word)
{
    size_t top = 2 * (c->inputs + c->latches + c->gates) + 1, own = 2 * (1 + c->inputs), n[2];
    for (size_t i = 0; i < c->latches; i++, own += 2) {
        size_t count = take_line(r, 2, n), reset = count == 2 ? n[1] : 0;
        if (count == 0)
            return 4;
        if (n[0] > top)
            return 6;
        if (reset > 1 && reset != own)
            return 8;
        *word++ = (uint16_t)n[0];
        *word++ = (uint16_t)(reset == own ? 2 : reset);
    }
    for (size_t i = 0; i < literals(c); i++) {
        if (take_line(r, 1, n) == 0)
            return 4;
        if (n[0] > top)
            return 6;
        *word++ = (uint16_t)n[0];
    }
    return 0;
}

/* "both in gate order, 26 first within a gate" */
static uint32_t read_gates(rest *r, const chudravik_counts *c, uint16_t *word)
{
    size_t own = 2 * (1 + c->inputs + c->latches), first, second;
    for (size_t i = 0; i < c->gates; i++, own += 2) {
        if (!take_difference(r, &first) || !take_difference(r, &second))
            return 26;
        if (first == 0 || first > own || second > own - first)
            return 7;
        *word++ = (uint16_t)(own - first);
        *word++ = (uint16_t)(own - first - second);
    }
    return 0;
}

static bool is_ended(const rest *r)
{
    return r->at == r->end || (r->end - r->at >= 2 && memcmp(r->at, "c\n", 2) == 0);
}

static size_t words(const chudravik_counts *c)
{
    return 2 * c->latches + literals(c) + 2 * c->gates;
}

static uint32_t read_all(rest *r, chudravik_counts *c, uint16_t *word)
{
    uint32_t number = read_first_line(r, c);
    if (number == 0)
        number = read_lines(r, c, word);
    if (number == 0)
        number = read_gates(r, c, word + 2 * c->latches + literals(c));
    return number != 0 ? number : is_ended(r) ? 0 : 9;
}

chudravik_read_answer simulate_read_binary(const uint8_t *binary, size_t binary_bytes, uint16_t *table,
                                           size_t table_words)
{
    uint16_t word[CHUDRAVIK_MOST_TABLE_WORDS];
    chudravik_counts c;
    rest r = {binary, binary + binary_bytes};
    uint32_t number = binary_bytes > MOST_BYTES ? 1 : read_all(&r, &c, word);
    if (number == 0 && table_words < words(&c))
        number = 10;
    if (number != 0)
        return (chudravik_read_answer){.number = number};
    memcpy(table, word, sizeof *word * words(&c));
    return (chudravik_read_answer){0, c};
}

/* ---- written ---- */

/* What is refused is what `write` refuses: 3, 10 for the table, 11. Its text goes nowhere. */
static uint32_t refusal(chudravik_counts counts, const uint16_t *table, size_t table_words)
{
    uint8_t text[MOST_BYTES];
    return simulate_write(counts, table, table_words, text, sizeof text).number;
}

/* The counts as far as there is one that is not 0, the first five always. */
static size_t put_first_line(char *at, size_t room, chudravik_counts c)
{
    size_t number[] = {c.inputs + c.latches + c.gates, c.inputs, c.latches, c.lamps, c.gates, c.bads, c.constraints};
    size_t shown = sizeof number / sizeof *number, bytes = (size_t)snprintf(at, room, "aig");
    while (shown > 5 && number[shown - 1] == 0)
        shown--;
    for (size_t i = 0; i < shown; i++)
        bytes += (size_t)snprintf(at + bytes, room - bytes, " %zu", number[i]);
    at[bytes++] = '\n';
    return bytes;
}

static size_t put_lines(char *at, size_t room, chudravik_counts c, const uint16_t *word)
{
    size_t own = 2 * (1 + c.inputs), bytes = put_first_line(at, room, c);
    for (size_t i = 0; i < c.latches; i++, own += 2, word += 2) {
        bytes += (size_t)snprintf(at + bytes, room - bytes, "%u", word[0]);
        if (word[1] != 0)
            bytes += (size_t)snprintf(at + bytes, room - bytes, " %zu", word[1] == 1 ? 1 : own);
        at[bytes++] = '\n';
    }
    for (size_t i = 0; i < literals(&c); i++)
        bytes += (size_t)snprintf(at + bytes, room - bytes, "%u\n", *word++);
    return bytes;
}

/* "Operands are put larger first before writing." */
static size_t put_gates(uint8_t *at, chudravik_counts c, const uint16_t *word)
{
    size_t own = 2 * (1 + c.inputs + c.latches), bytes = 0;
    for (size_t i = 0; i < c.gates; i++, own += 2, word += 2) {
        size_t larger = word[0] > word[1] ? word[0] : word[1], smaller = word[0] > word[1] ? word[1] : word[0];
        bytes += put_difference(at + bytes, own - larger);
        bytes += put_difference(at + bytes, larger - smaller);
    }
    return bytes;
}

chudravik_write_answer simulate_write_binary(chudravik_counts counts, const uint16_t *table, size_t table_words,
                                             uint8_t *binary, size_t binary_bytes)
{
    uint8_t made[MOST_BYTES];
    uint32_t number = refusal(counts, table, table_words);
    if (number != 0)
        return (chudravik_write_answer){.number = number};
    size_t bytes = put_lines((char *)made, sizeof made, counts, table);
    bytes += put_gates(made + bytes, counts, table + 2 * counts.latches + literals(&counts));
    if (binary_bytes < bytes)
        return (chudravik_write_answer){.number = 10};
    memcpy(binary, made, bytes);
    return (chudravik_write_answer){0, bytes};
}

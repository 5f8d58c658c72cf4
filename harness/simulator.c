/* See simulator.h. Sections are named after those of the document. */
#include "simulator.h"

#include <stdarg.h>
#include <stdbool.h>
#include <stdio.h>
#include <stdlib.h>
#include <string.h>

/* ---- circuit ---- */

enum {
    INPUTS_CEILING = 256,
    LATCHES_CEILING = 512,
    LAMPS_CEILING = 64,
    GATES_CEILING = 3327,
    BADS_CEILING = 64,
    CONSTRAINTS_CEILING = 64,
    WATCHED_CEILING = LAMPS_CEILING + BADS_CEILING,
    VARIABLES_CEILING = 4095,
    TEXT_CEILING = 60000,
    INTERVAL_CEILING = 1000,
    CUBES_CEILING = 65536,
    FIELDS_CEILING = 512
};

typedef struct {
    size_t next;
    size_t reset;
} latch;

typedef struct {
    size_t left;
    size_t right;
} gate;

typedef struct {
    size_t inputs, latches, lamps, gates, bads, constraints;
    latch latch[LATCHES_CEILING];
    size_t lamp[LAMPS_CEILING];
    size_t bad[BADS_CEILING];
    size_t constraint[CONSTRAINTS_CEILING];
    gate gate[GATES_CEILING];
} circuit;

static void *must(void *memory)
{
    if (memory == NULL) {
        fputs("simulator: no memory\n", stderr);
        exit(2);
    }
    return memory;
}

/* Each ceiling by itself, so that no sum of counts is ever taken that could wrap. */
static bool within_ceilings(chudravik_counts counts)
{
    return counts.inputs <= INPUTS_CEILING && counts.latches <= LATCHES_CEILING && counts.lamps <= LAMPS_CEILING &&
           counts.gates <= GATES_CEILING && counts.bads <= BADS_CEILING && counts.constraints <= CONSTRAINTS_CEILING;
}

static void set_counts(circuit *c, chudravik_counts counts)
{
    c->inputs = counts.inputs;
    c->latches = counts.latches;
    c->lamps = counts.lamps;
    c->gates = counts.gates;
    c->bads = counts.bads;
    c->constraints = counts.constraints;
}

static size_t variables(const circuit *c)
{
    return c->inputs + c->latches + c->gates;
}

static size_t top_literal(const circuit *c)
{
    return 2 * variables(c) + 1;
}

static size_t own_of_input(size_t i)
{
    return 2 * (1 + i);
}

static size_t own_of_latch(const circuit *c, size_t i)
{
    return 2 * (1 + c->inputs + i);
}

static size_t own_of_gate(const circuit *c, size_t i)
{
    return 2 * (1 + c->inputs + c->latches + i);
}

static size_t table_length(const circuit *c)
{
    return 2 * c->latches + c->lamps + c->bads + c->constraints + 2 * c->gates;
}

/* Request 1: a latch without a start value repeats its own literal, and is kept in the table as 2. */
enum { NO_START_VALUE = 2, NO_RESET = 3 };

static size_t reset_shown(size_t own, size_t number)
{
    return number <= 1 ? number : number == own ? NO_START_VALUE : NO_RESET;
}

/* Refusals 6 and 8, 6, and 6 and 7, as a line gives them; 0 where there is nothing to refuse. */
static uint32_t judge_latch(const circuit *c, latch l)
{
    return l.next > top_literal(c) ? 6 : l.reset > NO_START_VALUE ? 8 : 0;
}

static uint32_t judge_literal(const circuit *c, size_t literal)
{
    return literal > top_literal(c) ? 6 : 0;
}

static uint32_t judge_gate(const circuit *c, size_t i, gate g)
{
    if (g.left > top_literal(c) || g.right > top_literal(c))
        return 6;
    return g.left >= own_of_gate(c, i) || g.right >= own_of_gate(c, i) ? 7 : 0;
}

static void to_table(const circuit *c, uint16_t *word)
{
    for (size_t i = 0; i < c->latches; i++) {
        *word++ = (uint16_t)c->latch[i].next;
        *word++ = (uint16_t)c->latch[i].reset;
    }
    for (size_t i = 0; i < c->lamps; i++)
        *word++ = (uint16_t)c->lamp[i];
    for (size_t i = 0; i < c->bads; i++)
        *word++ = (uint16_t)c->bad[i];
    for (size_t i = 0; i < c->constraints; i++)
        *word++ = (uint16_t)c->constraint[i];
    for (size_t i = 0; i < c->gates; i++) {
        *word++ = (uint16_t)c->gate[i].left;
        *word++ = (uint16_t)c->gate[i].right;
    }
}

static void from_table(circuit *c, const uint16_t *word)
{
    for (size_t i = 0; i < c->latches; i++, word += 2)
        c->latch[i] = (latch){word[0], word[1]};
    for (size_t i = 0; i < c->lamps; i++)
        c->lamp[i] = *word++;
    for (size_t i = 0; i < c->bads; i++)
        c->bad[i] = *word++;
    for (size_t i = 0; i < c->constraints; i++)
        c->constraint[i] = *word++;
    for (size_t i = 0; i < c->gates; i++, word += 2)
        c->gate[i] = (gate){word[0], word[1]};
}

static bool sound(const circuit *c)
{
    for (size_t i = 0; i < c->latches; i++)
        if (judge_latch(c, c->latch[i]) != 0)
            return false;
    for (size_t i = 0; i < c->lamps; i++)
        if (judge_literal(c, c->lamp[i]) != 0)
            return false;
    for (size_t i = 0; i < c->bads; i++)
        if (judge_literal(c, c->bad[i]) != 0)
            return false;
    for (size_t i = 0; i < c->constraints; i++)
        if (judge_literal(c, c->constraint[i]) != 0)
            return false;
    for (size_t i = 0; i < c->gates; i++)
        if (judge_gate(c, i, c->gate[i]) != 0)
            return false;
    return true;
}

/* The opening that writer and tick share: refusals 3, 10 for the table, 11. */
static uint32_t take_circuit(circuit *c, chudravik_counts counts, const uint16_t *table, size_t table_words)
{
    if (!within_ceilings(counts))
        return 3;
    set_counts(c, counts);
    if (table_words < table_length(c))
        return 10;
    from_table(c, table);
    return sound(c) ? 0 : 11;
}

/* Where lamps are judged, now or later: 16, "O + B is 0", directly after 3. */
static uint32_t take_board(circuit *c, chudravik_counts counts, const uint16_t *table, size_t table_words)
{
    if (within_ceilings(counts) && counts.lamps + counts.bads == 0)
        return 16;
    return take_circuit(c, counts, table, table_words);
}

/* ---- text: read ---- */

enum { NUMBERS_KEPT = 9 };

typedef struct {
    bool formed;  /* numbers with one space between, and an ending behind */
    bool comment; /* `c` and an ending */
    bool office;  /* request 6: the ending is bytes 13 and 10, not byte 10 alone */
    size_t count; /* of numbers; only the first few are kept, no line has more */
    size_t number[NUMBERS_KEPT];
} line;

typedef struct {
    line *line;
    size_t count;
    size_t space;
} lines;

static bool is_number(const uint8_t *token, size_t length)
{
    if (length < 1 || length > 5 || (length > 1 && token[0] == '0'))
        return false;
    for (size_t i = 0; i < length; i++)
        if (token[i] < '0' || token[i] > '9')
            return false;
    return true;
}

static size_t number_of(const uint8_t *token, size_t length)
{
    return length == 0 ? 0 : 10 * number_of(token, length - 1) + (size_t)(token[length - 1] - '0');
}

static size_t until(const uint8_t *bytes, size_t length, uint8_t stop)
{
    const uint8_t *found = length == 0 ? NULL : memchr(bytes, stop, length);
    return found == NULL ? length : (size_t)(found - bytes);
}

static line tokenise(const uint8_t *bytes, size_t length, bool ended)
{
    line made = {.formed = ended, .comment = ended && length == 1 && bytes[0] == 'c'};
    for (size_t at = 0; at <= length; made.count++) {
        size_t token = until(bytes + at, length - at, ' ');
        if (!is_number(bytes + at, token))
            made.formed = false;
        else if (made.count < NUMBERS_KEPT)
            made.number[made.count] = number_of(bytes + at, token);
        at += token + 1;
    }
    return made;
}

static void add_line(lines *all, line one)
{
    if (all->count == all->space) {
        all->space = 2 * all->space + 16;
        all->line = must(realloc(all->line, all->space * sizeof *all->line));
    }
    all->line[all->count++] = one;
}

static lines split(const uint8_t *bytes, size_t length)
{
    lines all = {0};
    while (length > 0) {
        size_t here = until(bytes, length, '\n');
        bool ended = here < length, office = ended && here > 0 && bytes[here - 1] == '\r';
        line one = tokenise(bytes, here - office, ended);
        one.office = office;
        add_line(&all, one);
        bytes += here + ended;
        length -= here + ended;
    }
    return all;
}

/* The text behind its four opening bytes, line after line. */
typedef struct {
    lines all;
    size_t taken;
} reading;

/* "the first line decides, and all lines up to the last body line and the `c` line must agree" */
static bool ends_as_the_first(const reading *r, const line *one)
{
    return one->office == r->all.line[0].office;
}

/* The line due, if it is there and has so many numbers. */
static const line *due_line(reading *r, size_t least, size_t most)
{
    if (r->taken == r->all.count)
        return NULL;
    const line *due = &r->all.line[r->taken++];
    return due->formed && ends_as_the_first(r, due) && due->count >= least && due->count <= most ? due : NULL;
}

static uint32_t read_first_line(reading *r, circuit *c)
{
    const line *first = due_line(r, 5, 9);
    if (first == NULL)
        return 2;
    const size_t *n = first->number; /* M I L O A B C J F; those left out are 0 */
    chudravik_counts counts = {
        .inputs = n[1], .latches = n[2], .lamps = n[3], .gates = n[4], .bads = n[5], .constraints = n[6]};
    if (!within_ceilings(counts) || n[7] != 0 || n[8] != 0)
        return 3;
    set_counts(c, counts);
    return n[0] == variables(c) ? 0 : 3;
}

static uint32_t read_input(reading *r, size_t i)
{
    const line *due = due_line(r, 1, 1);
    if (due == NULL)
        return 4;
    return due->number[0] == own_of_input(i) ? 0 : 5;
}

static uint32_t read_latch(reading *r, circuit *c, size_t i)
{
    const line *due = due_line(r, 2, 3);
    if (due == NULL)
        return 4;
    if (due->number[0] != own_of_latch(c, i))
        return 5;
    c->latch[i] = (latch){due->number[1], due->count == 3 ? reset_shown(due->number[0], due->number[2]) : 0};
    return judge_latch(c, c->latch[i]);
}

/* The line of a lamp, a bad state or a constraint. */
static uint32_t read_literal(reading *r, const circuit *c, size_t *literal)
{
    const line *due = due_line(r, 1, 1);
    if (due == NULL)
        return 4;
    *literal = due->number[0];
    return judge_literal(c, *literal);
}

static uint32_t read_gate(reading *r, circuit *c, size_t i)
{
    const line *due = due_line(r, 3, 3);
    if (due == NULL)
        return 4;
    if (due->number[0] != own_of_gate(c, i))
        return 5;
    c->gate[i] = (gate){due->number[1], due->number[2]};
    return judge_gate(c, i, c->gate[i]);
}

static uint32_t read_body(reading *r, circuit *c)
{
    uint32_t refusal = 0;
    for (size_t i = 0; i < c->inputs && refusal == 0; i++)
        refusal = read_input(r, i);
    for (size_t i = 0; i < c->latches && refusal == 0; i++)
        refusal = read_latch(r, c, i);
    for (size_t i = 0; i < c->lamps && refusal == 0; i++)
        refusal = read_literal(r, c, &c->lamp[i]);
    for (size_t i = 0; i < c->bads && refusal == 0; i++)
        refusal = read_literal(r, c, &c->bad[i]);
    for (size_t i = 0; i < c->constraints && refusal == 0; i++)
        refusal = read_literal(r, c, &c->constraint[i]);
    for (size_t i = 0; i < c->gates && refusal == 0; i++)
        refusal = read_gate(r, c, i);
    return refusal;
}

static uint32_t read_end(const reading *r)
{
    if (r->taken == r->all.count)
        return 0;
    const line *behind = &r->all.line[r->taken];
    return behind->comment && ends_as_the_first(r, behind) ? 0 : 9;
}

static uint32_t read_lines(reading *r, circuit *c)
{
    uint32_t refusal = read_first_line(r, c);
    if (refusal == 0)
        refusal = read_body(r, c);
    return refusal == 0 ? read_end(r) : refusal;
}

static uint32_t read_text(const uint8_t *text, size_t text_bytes, circuit *c)
{
    if (text_bytes > TEXT_CEILING)
        return 1;
    if (text_bytes < 4 || memcmp(text, "aag ", 4) != 0)
        return 2;
    reading r = {.all = split(text + 4, text_bytes - 4)};
    uint32_t refusal = read_lines(&r, c);
    free(r.all.line);
    return refusal;
}

/* Refusals 1 to 10. */
static uint32_t read_for(const uint8_t *text, size_t text_bytes, circuit *c, size_t table_words)
{
    uint32_t refusal = read_text(text, text_bytes, c);
    return refusal == 0 && table_words < table_length(c) ? 10 : refusal;
}

static chudravik_read_answer answer_read(uint32_t refusal, const circuit *c, uint16_t *table)
{
    if (refusal != 0)
        return (chudravik_read_answer){.number = refusal};
    to_table(c, table);
    return (chudravik_read_answer){0, {c->inputs, c->latches, c->lamps, c->gates, c->bads, c->constraints}};
}

chudravik_read_answer simulate_read(const uint8_t *text, size_t text_bytes, uint16_t *table, size_t table_words)
{
    circuit c;
    return answer_read(read_for(text, text_bytes, &c, table_words), &c, table);
}

/* ---- beginners' boards ---- */

static bool constant(size_t literal)
{
    return literal / 2 == 0;
}

/* Request 12: "at most 4 switches, 8 latches, 8 lamps, 32 gates, no constant literal, no gate fed twice by one variable, B and C
 * both 0". */
static bool is_for_beginners(const circuit *c)
{
    bool rules = c->inputs <= 4 && c->latches <= 8 && c->lamps <= 8 && c->gates <= 32;
    rules = rules && c->bads == 0 && c->constraints == 0;
    for (size_t i = 0; i < c->latches; i++)
        rules = rules && !constant(c->latch[i].next);
    for (size_t i = 0; i < c->lamps; i++)
        rules = rules && !constant(c->lamp[i]);
    for (size_t i = 0; i < c->gates; i++) {
        gate g = c->gate[i];
        rules = rules && !constant(g.left) && !constant(g.right) && g.left != g.right && g.left != (g.right ^ 1);
    }
    return rules;
}

chudravik_read_answer simulate_read_beginners(const uint8_t *text, size_t text_bytes, uint16_t *table,
                                              size_t table_words)
{
    circuit c;
    uint32_t refusal = read_for(text, text_bytes, &c, table_words);
    if (refusal == 0 && !is_for_beginners(&c))
        refusal = 25;
    return answer_read(refusal, &c, table);
}

/* ---- text: written ---- */

typedef struct {
    char byte[TEXT_CEILING + 1];
    size_t count;
} written;

static void put(written *out, const char *form, ...)
{
    va_list numbers;
    va_start(numbers, form);
    out->count += (size_t)vsnprintf(out->byte + out->count, sizeof out->byte - out->count, form, numbers);
    va_end(numbers);
}

/* "B and C only up to the last one that is not 0, and never J or F" */
static void put_first_line(written *out, const circuit *c)
{
    put(out, "aag %zu %zu %zu %zu %zu", variables(c), c->inputs, c->latches, c->lamps, c->gates);
    if (c->bads != 0 || c->constraints != 0)
        put(out, " %zu", c->bads);
    if (c->constraints != 0)
        put(out, " %zu", c->constraints);
    put(out, "\n");
}

static void put_circuit(written *out, const circuit *c)
{
    put_first_line(out, c);
    for (size_t i = 0; i < c->inputs; i++)
        put(out, "%zu\n", own_of_input(i));
    for (size_t i = 0; i < c->latches; i++) {
        put(out, "%zu %zu", own_of_latch(c, i), c->latch[i].next);
        if (c->latch[i].reset != 0)
            put(out, " %zu", c->latch[i].reset == NO_START_VALUE ? own_of_latch(c, i) : 1);
        put(out, "\n");
    }
    for (size_t i = 0; i < c->lamps; i++)
        put(out, "%zu\n", c->lamp[i]);
    for (size_t i = 0; i < c->bads; i++)
        put(out, "%zu\n", c->bad[i]);
    for (size_t i = 0; i < c->constraints; i++)
        put(out, "%zu\n", c->constraint[i]);
    for (size_t i = 0; i < c->gates; i++)
        put(out, "%zu %zu %zu\n", own_of_gate(c, i), c->gate[i].left, c->gate[i].right);
}

chudravik_write_answer simulate_write(chudravik_counts counts, const uint16_t *table, size_t table_words, uint8_t *text,
                                      size_t text_bytes)
{
    circuit c;
    uint32_t refusal = take_circuit(&c, counts, table, table_words);
    if (refusal != 0)
        return (chudravik_write_answer){.number = refusal};
    written out;
    out.count = 0;
    put_circuit(&out, &c);
    if (text_bytes < out.count)
        return (chudravik_write_answer){.number = 10};
    memcpy(text, out.byte, out.count);
    return (chudravik_write_answer){0, out.count};
}

/* ---- records ---- */

/* In this order the AND of two values is the lesser, and inverting is the minus sign. */
typedef int8_t value;

enum { KNOWN_0 = -1, UNKNOWN = 0, KNOWN_1 = 1, NOT_ASKED = 2 };

static size_t record_length(size_t fields)
{
    size_t bytes = fields / 4 + (fields % 4 != 0);
    return bytes == 0 ? 1 : bytes;
}

static unsigned pair_at(const uint8_t *record, size_t place)
{
    return record[place / 4] >> (2 * (3 - place % 4)) & 3u;
}

/* Refusal 14 is judged over every place of the record's bytes, the leftover ones too. */
static bool good_record(const uint8_t *record, size_t fields)
{
    for (size_t place = 0; place < 4 * record_length(fields); place++) {
        unsigned pair = pair_at(record, place);
        if (pair == 3 || (place >= fields && pair != 0))
            return false;
    }
    return true;
}

static void unpack(const uint8_t *record, value *field, size_t fields)
{
    for (size_t i = 0; i < fields; i++) {
        unsigned pair = pair_at(record, i);
        field[i] = pair == 1 ? KNOWN_0 : pair == 2 ? KNOWN_1 : UNKNOWN;
    }
}

static void pack(const value *field, size_t fields, uint8_t *record)
{
    memset(record, 0, record_length(fields));
    for (size_t i = 0; i < fields; i++) {
        unsigned pair = field[i] == KNOWN_0 ? 1 : field[i] == KNOWN_1 ? 2 : 0;
        record[i / 4] |= (uint8_t)(pair << (2 * (3 - i % 4)));
    }
}

/* ---- tick ---- */

typedef struct {
    const circuit *circuit;
    const value *state;
    const value *switches;
    value known[1 + VARIABLES_CEILING]; /* of each variable that was asked for already */
} asking;

static value ask(asking *a, size_t literal);

static value work_out(asking *a, size_t variable)
{
    const circuit *c = a->circuit;
    size_t i = variable - 1;
    if (i < c->inputs)
        return a->switches[i];
    i -= c->inputs;
    if (i < c->latches)
        return a->state[i];
    gate g = c->gate[i - c->latches];
    value left = ask(a, g.left);
    value right = ask(a, g.right);
    return left < right ? left : right;
}

static value ask(asking *a, size_t literal)
{
    size_t variable = literal / 2;
    if (a->known[variable] == NOT_ASKED)
        a->known[variable] = work_out(a, variable);
    return literal % 2 == 1 ? (value)-a->known[variable] : a->known[variable];
}

static void begin_asking(asking *a)
{
    memset(a->known, NOT_ASKED, 1 + variables(a->circuit));
    a->known[0] = KNOWN_0;
}

/* What is watched of a circuit: its lamps, and behind them its bad states (request 9). */
static size_t watched_count(const circuit *c)
{
    return c->lamps + c->bads;
}

static void tick(const circuit *c, const value *state, const value *switches, value *next, value *watched)
{
    asking a = {.circuit = c, .state = state, .switches = switches};
    begin_asking(&a);
    for (size_t i = 0; i < c->lamps; i++)
        watched[i] = ask(&a, c->lamp[i]);
    for (size_t i = 0; i < c->bads; i++)
        watched[c->lamps + i] = ask(&a, c->bad[i]);
    for (size_t i = 0; i < c->latches; i++)
        next[i] = ask(&a, c->latch[i].next);
}

/* Request 9: whether some constraint is 0, all switches X. X is not 0. */
static bool blocked(const circuit *c, const value *state)
{
    static const value switches[INPUTS_CEILING];
    asking a = {.circuit = c, .state = state, .switches = switches};
    bool low = false;
    begin_asking(&a);
    for (size_t i = 0; i < c->constraints; i++)
        low = low || ask(&a, c->constraint[i]) == KNOWN_0;
    return low;
}

static void tick_records(const circuit *c, const uint8_t *state, const uint8_t *switches, uint8_t *next, uint8_t *lamps)
{
    value from[LATCHES_CEILING], set[INPUTS_CEILING], to[LATCHES_CEILING], lit[WATCHED_CEILING];
    unpack(state, from, c->latches);
    unpack(switches, set, c->inputs);
    tick(c, from, set, to, lit);
    pack(to, c->latches, next);
    pack(lit, c->lamps, lamps);
}

uint32_t simulate_tick(chudravik_counts counts, const uint16_t *table, size_t table_words, const uint8_t *state,
                       size_t state_bytes, const uint8_t *switches, size_t switches_bytes, uint8_t *next,
                       size_t next_bytes, uint8_t *lamps, size_t lamps_bytes)
{
    circuit c;
    uint32_t refusal = take_circuit(&c, counts, table, table_words);
    if (refusal != 0)
        return refusal;
    if (state_bytes < record_length(c.latches) || switches_bytes < record_length(c.inputs))
        return 10;
    if (!good_record(state, c.latches) || !good_record(switches, c.inputs))
        return 14;
    if (next_bytes < record_length(c.latches) || lamps_bytes < record_length(c.lamps))
        return 10;
    tick_records(&c, state, switches, next, lamps);
    return 0;
}

/* ---- stored cubes ---- */

/* Request 8: "Each stored cube gets one front field of two bits, 01 for plain and 10 for widened, and its latches move up by
 * one field." */
enum { PLAIN = KNOWN_0, WIDENED = KNOWN_1 };

static size_t cube_length(const circuit *c)
{
    return record_length(1 + c->latches);
}

/* "14 also covers a mark of 00 or 11"; 11 is bad in any field. */
static bool good_cube(const circuit *c, const uint8_t *record)
{
    return good_record(record, 1 + c->latches) && pair_at(record, 0) != 0;
}

static void pack_cube(const circuit *c, value mark, const value *field, uint8_t *record)
{
    value marked[1 + LATCHES_CEILING];
    marked[0] = mark;
    memcpy(marked + 1, field, c->latches);
    pack(marked, 1 + c->latches, record);
}

/* The latches of a cube. What its mark says is for people: nothing here asks for it. */
static void unpack_cube(const circuit *c, const uint8_t *record, value *field)
{
    value marked[1 + LATCHES_CEILING];
    unpack(record, marked, 1 + c->latches);
    memcpy(field, marked + 1, c->latches);
}

/* ---- chain ---- */

typedef struct {
    const circuit *circuit;
    value *field; /* cube k has its latches from k times latches on */
    size_t count; /* of cubes */
    size_t space;
    bool held[LATCHES_CEILING];
    bool ended; /* request 9: some constraint is 0 in what would be the next cube */
} chain;

static value *cube(const chain *run, size_t k)
{
    return run->field + k * run->circuit->latches;
}

static void add_cube(chain *run, const value *fields)
{
    size_t latches = run->circuit->latches;
    if (run->count == run->space) {
        run->space = 2 * run->space + 16;
        run->field = must(realloc(run->field, run->space * latches + 1));
    }
    memcpy(cube(run, run->count), fields, latches);
    run->count++;
}

static value start_value(size_t reset)
{
    return reset == 0 ? KNOWN_0 : reset == 1 ? KNOWN_1 : UNKNOWN;
}

static void set_resets(const circuit *c, value *field)
{
    for (size_t i = 0; i < c->latches; i++)
        field[i] = start_value(c->latch[i].reset);
}

static void start(chain *run)
{
    value resets[LATCHES_CEILING];
    set_resets(run->circuit, resets);
    run->ended = blocked(run->circuit, resets);
    if (!run->ended)
        add_cube(run, resets);
}

static bool start_is_blocked(const circuit *c)
{
    value resets[LATCHES_CEILING];
    set_resets(c, resets);
    return blocked(c, resets);
}

/* The next state of a cube, and its lamps and bad states, all switches X. */
static void follow_cube(const chain *run, size_t k, value *next, value *watched)
{
    value switches[INPUTS_CEILING];
    memset(switches, UNKNOWN, sizeof switches);
    tick(run->circuit, cube(run, k), switches, next, watched);
}

/* Step 1, from the last cube. */
static void follow(const chain *run, value *b)
{
    value watched[WATCHED_CEILING];
    follow_cube(run, run->count - 1, b, watched);
    for (size_t i = 0; i < run->circuit->latches; i++)
        if (run->held[i])
            b[i] = UNKNOWN;
}

static bool subsumes(const value *stored, const value *b, size_t fields)
{
    for (size_t i = 0; i < fields; i++)
        if (stored[i] != UNKNOWN && stored[i] != b[i])
            return false;
    return true;
}

/* Step 2: the number of the first cube that subsumes b, or the count of cubes where none does. */
static size_t search(const chain *run, const value *b)
{
    size_t j = 0;
    while (j < run->count && !subsumes(cube(run, j), b, run->circuit->latches))
        j++;
    return j;
}

/* "If w is not 0 and divides k"; "cube 0 is plain". */
static bool due_for_widening(size_t k, size_t w)
{
    return k != 0 && w != 0 && k % w == 0;
}

/* Step 4, where the cube to come is due for it. */
static void widen(chain *run, value *b)
{
    const value *a = cube(run, run->count - 1);
    for (size_t i = 0; i < run->circuit->latches; i++)
        if (a[i] != b[i]) {
            run->held[i] = true;
            b[i] = UNKNOWN;
        }
}

/* The cube that the run goes back to, or the count of cubes where it has ended or there was no room to close. "If some
 * constraint is 0 in cube 0, or in b before the search, the run ends with the n cubes stored so far and returns j = n". */
static size_t run_on(chain *run, size_t w, size_t room)
{
    start(run);
    while (!run->ended) {
        value b[LATCHES_CEILING];
        follow(run, b);
        run->ended = blocked(run->circuit, b);
        size_t j = run->ended ? run->count : search(run, b);
        if (run->ended || j < run->count || run->count == room)
            return j;
        if (due_for_widening(run->count, w))
            widen(run, b);
        add_cube(run, b);
    }
    return 0;
}

static chudravik_chain_answer run_circuit(const circuit *c, size_t w, uint8_t *cubes, size_t room)
{
    chain run = {.circuit = c};
    size_t j = run_on(&run, w, room);
    for (size_t k = 0; k < run.count; k++)
        pack_cube(c, due_for_widening(k, w) ? WIDENED : PLAIN, cube(&run, k), cubes + k * cube_length(c));
    bool full = j == run.count && !run.ended;
    chudravik_chain_answer answer = {.number = full ? 15 : 0, .cubes = run.count, .back = full ? 0 : j};
    free(run.field);
    return answer;
}

static uint32_t judge_run(const circuit *c, size_t w, size_t cubes_bytes)
{
    if (w > INTERVAL_CEILING)
        return 12;
    return cubes_bytes < cube_length(c) || cubes_bytes > CUBES_CEILING ? 13 : 0;
}

chudravik_chain_answer simulate_chain(chudravik_counts counts, const uint16_t *table, size_t table_words, size_t w,
                                      uint8_t *cubes, size_t cubes_bytes)
{
    circuit c;
    uint32_t refusal = take_board(&c, counts, table, table_words);
    if (refusal == 0)
        refusal = judge_run(&c, w, cubes_bytes);
    if (refusal != 0)
        return (chudravik_chain_answer){.number = refusal};
    return run_circuit(&c, w, cubes, cubes_bytes / cube_length(&c));
}

/* "A cube buffer of at least 19,683 and at most 65,536 bytes, whatever L is." */
enum { BEGINNERS_CUBES_LEAST = 19683 };

chudravik_chain_answer simulate_chain_beginners(chudravik_counts counts, const uint16_t *table, size_t table_words,
                                                uint8_t *cubes, size_t cubes_bytes)
{
    circuit c;
    uint32_t refusal = take_board(&c, counts, table, table_words);
    if (refusal == 0 && !is_for_beginners(&c))
        refusal = 25;
    if (refusal == 0 && (cubes_bytes < BEGINNERS_CUBES_LEAST || cubes_bytes > CUBES_CEILING))
        refusal = 13;
    if (refusal != 0)
        return (chudravik_chain_answer){.number = refusal};
    return run_circuit(&c, 0, cubes, cubes_bytes / cube_length(&c));
}

/* ---- given cubes ---- */

/* Refusals 10 and 14 of the n records; the buffer may have any length, and n any size. */
static uint32_t judge_cubes(const circuit *c, const uint8_t *cubes, size_t cubes_bytes, size_t n)
{
    size_t record = cube_length(c);
    if (n > cubes_bytes / record)
        return 10;
    for (size_t k = 0; k < n; k++)
        if (!good_cube(c, cubes + k * record))
            return 14;
    return 0;
}

static chain take_cubes(const circuit *c, const uint8_t *cubes, size_t n)
{
    chain sent = {.circuit = c};
    value field[LATCHES_CEILING];
    for (size_t k = 0; k < n; k++) {
        unpack_cube(c, cubes + k * cube_length(c), field);
        add_cube(&sent, field);
    }
    return sent;
}

/* What two values have in common. */
static value shared(value one, value other)
{
    return one == other ? one : UNKNOWN;
}

/* Lamps, then bad states. "With n = 0 each verdict is never." */
static void judge_watched(const chain *sent, value *verdict)
{
    value b[LATCHES_CEILING], watched[WATCHED_CEILING];
    memset(verdict, KNOWN_0, watched_count(sent->circuit));
    for (size_t k = 0; k < sent->count; k++) {
        follow_cube(sent, k, b, watched);
        for (size_t i = 0; i < watched_count(sent->circuit); i++)
            verdict[i] = k == 0 ? watched[i] : shared(verdict[i], watched[i]);
    }
}

/* ---- judge ---- */

static bool starts_with_resets(const chain *sent)
{
    value resets[LATCHES_CEILING];
    set_resets(sent->circuit, resets);
    return memcmp(resets, cube(sent, 0), sent->circuit->latches) == 0;
}

/* "a start or next state in which a constraint is 0 needs no cover"; there is no cube n to lie inside of. */
static bool goes_on_inside(const chain *sent, size_t k, size_t other)
{
    value b[LATCHES_CEILING], watched[WATCHED_CEILING];
    follow_cube(sent, k, b, watched);
    if (blocked(sent->circuit, b))
        return true;
    return other < sent->count && subsumes(cube(sent, other), b, sent->circuit->latches);
}

/* "j is below n, cube 0 is the resets, the next state of each cube but the last lies inside the following cube, and that
 * of the last inside cube j"; "j = n only where a constraint is 0 in the next state of the last cube, or in the start if n is
 * 0, and the rest of its chain holds" */
static bool is_chain(const chain *sent, size_t j)
{
    if (sent->count == 0)
        return j == 0 && start_is_blocked(sent->circuit);
    if (j > sent->count || !(start_is_blocked(sent->circuit) || starts_with_resets(sent)))
        return false;
    for (size_t k = 0; k + 1 < sent->count; k++)
        if (!goes_on_inside(sent, k, k + 1))
            return false;
    return goes_on_inside(sent, sent->count - 1, j);
}

/* "An ended run settles nothing." */
static void settle(const chain *sent, size_t j, value *settled)
{
    size_t latches = sent->circuit->latches;
    memset(settled, UNKNOWN, latches);
    if (j < sent->count)
        memcpy(settled, cube(sent, j), latches);
    for (size_t k = j + 1; k < sent->count; k++)
        for (size_t i = 0; i < latches; i++)
            settled[i] = shared(settled[i], cube(sent, k)[i]);
}

static size_t known_fields(const value *field, size_t fields)
{
    size_t known = 0;
    for (size_t i = 0; i < fields; i++)
        known += field[i] != UNKNOWN;
    return known;
}

static chudravik_judge_answer judge_chain(const chain *sent, size_t j, uint8_t *verdict, size_t verdict_bytes,
                                          uint8_t *settled, size_t settled_bytes)
{
    const circuit *c = sent->circuit;
    if (!is_chain(sent, j))
        return (chudravik_judge_answer){.number = 19};
    if (verdict_bytes < record_length(watched_count(c)) || settled_bytes < record_length(c->latches))
        return (chudravik_judge_answer){.number = 10};
    value watched[WATCHED_CEILING], kept[LATCHES_CEILING];
    judge_watched(sent, watched);
    pack(watched, watched_count(c), verdict);
    settle(sent, j, kept);
    pack(kept, c->latches, settled);
    return (chudravik_judge_answer){0, known_fields(kept, c->latches)};
}

chudravik_judge_answer simulate_judge(chudravik_counts counts, const uint16_t *table, size_t table_words,
                                      const uint8_t *cubes, size_t cubes_bytes, size_t n, size_t j, uint8_t *verdict,
                                      size_t verdict_bytes, uint8_t *settled, size_t settled_bytes)
{
    circuit c;
    uint32_t refusal = take_board(&c, counts, table, table_words);
    if (refusal == 0)
        refusal = judge_cubes(&c, cubes, cubes_bytes, n);
    if (refusal != 0)
        return (chudravik_judge_answer){.number = refusal};
    chain sent = take_cubes(&c, cubes, n);
    chudravik_judge_answer answer = judge_chain(&sent, j, verdict, verdict_bytes, settled, settled_bytes);
    free(sent.field);
    return answer;
}

/* ---- a sent cover ---- */

static bool lies_inside(const chain *sent, const value *b)
{
    return search(sent, b) < sent->count;
}

static bool is_covered(const chain *sent, const value *b)
{
    return blocked(sent->circuit, b) || lies_inside(sent, b);
}

static bool start_is_covered(const chain *sent)
{
    value resets[LATCHES_CEILING];
    set_resets(sent->circuit, resets);
    return is_covered(sent, resets);
}

/* The first cube whose next state, all switches X, needs cover and is not inside a single cube, or the count of cubes. */
static size_t first_that_leaves(const chain *sent)
{
    value b[LATCHES_CEILING], watched[WATCHED_CEILING];
    size_t k = 0;
    for (; k < sent->count; k++) {
        follow_cube(sent, k, b, watched);
        if (!is_covered(sent, b))
            break;
    }
    return k;
}

static chudravik_cover_answer judge_cover(const chain *sent, uint8_t *verdict, size_t verdict_bytes)
{
    const circuit *c = sent->circuit;
    if (!start_is_covered(sent))
        return (chudravik_cover_answer){.number = 17};
    size_t leaves = first_that_leaves(sent);
    if (leaves < sent->count)
        return (chudravik_cover_answer){18, leaves};
    if (verdict_bytes < record_length(watched_count(c)))
        return (chudravik_cover_answer){.number = 10};
    value watched[WATCHED_CEILING];
    judge_watched(sent, watched);
    pack(watched, watched_count(c), verdict);
    return (chudravik_cover_answer){0};
}

chudravik_cover_answer simulate_cover(chudravik_counts counts, const uint16_t *table, size_t table_words,
                                      const uint8_t *cubes, size_t cubes_bytes, size_t n, uint8_t *verdict,
                                      size_t verdict_bytes)
{
    circuit c;
    uint32_t refusal = take_board(&c, counts, table, table_words);
    if (refusal == 0)
        refusal = judge_cubes(&c, cubes, cubes_bytes, n);
    if (refusal != 0)
        return (chudravik_cover_answer){.number = refusal};
    chain sent = take_cubes(&c, cubes, n);
    chudravik_cover_answer answer = judge_cover(&sent, verdict, verdict_bytes);
    free(sent.field);
    return answer;
}

/* ---- why ---- */

/* The variables that a lamp's value is followed to, from the greatest down: a gate's operands are below it. */
static void follow_down(const circuit *c, asking *a, size_t lamp, bool *reached)
{
    size_t first = 1 + c->inputs + c->latches;
    reached[lamp / 2] = true;
    for (size_t variable = variables(c); variable >= first; variable--) {
        if (!reached[variable])
            continue;
        gate g = c->gate[variable - first];
        if (ask(a, 2 * variable) == KNOWN_1)
            reached[g.left / 2] = reached[g.right / 2] = true;
        else
            reached[(ask(a, g.left) == KNOWN_0 ? g.left : g.right) / 2] = true;
    }
}

/* Whether the lamp is known; if so only the latches reached are left known. */
static bool explain(const circuit *c, size_t lamp, value *state)
{
    static const value switches[INPUTS_CEILING];
    bool reached[1 + VARIABLES_CEILING] = {false};
    asking a = {.circuit = c, .state = state, .switches = switches};
    begin_asking(&a);
    if (ask(&a, lamp) == UNKNOWN)
        return false;
    follow_down(c, &a, lamp, reached);
    for (size_t i = 0; i < c->latches; i++)
        if (!reached[1 + c->inputs + i])
            state[i] = UNKNOWN;
    return true;
}

uint32_t simulate_why(chudravik_counts counts, const uint16_t *table, size_t table_words, const uint8_t *state,
                      size_t state_bytes, size_t lamp, uint8_t *why, size_t why_bytes)
{
    circuit c;
    value known[LATCHES_CEILING];
    uint32_t refusal = take_circuit(&c, counts, table, table_words);
    if (refusal != 0)
        return refusal;
    if (state_bytes < record_length(c.latches))
        return 10;
    if (!good_record(state, c.latches))
        return 14;
    if (lamp >= c.lamps)
        return 23;
    unpack(state, known, c.latches);
    if (!explain(&c, c.lamp[lamp], known))
        return 24;
    if (why_bytes < record_length(c.latches))
        return 10;
    pack(known, c.latches, why);
    return 0;
}

/* ---- merge ---- */

uint32_t simulate_merge(size_t fields, const uint8_t *a, size_t a_bytes, const uint8_t *b, size_t b_bytes,
                        uint8_t *merged, size_t merged_bytes)
{
    value one[FIELDS_CEILING], other[FIELDS_CEILING];
    if (fields > FIELDS_CEILING)
        return 3;
    if (a_bytes < record_length(fields) || b_bytes < record_length(fields))
        return 10;
    if (!good_record(a, fields) || !good_record(b, fields))
        return 14;
    if (merged_bytes < record_length(fields))
        return 10;
    unpack(a, one, fields);
    unpack(b, other, fields);
    for (size_t i = 0; i < fields; i++)
        one[i] = shared(one[i], other[i]);
    pack(one, fields, merged);
    return 0;
}

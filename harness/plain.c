/* The calls in plain C (plain.h). Numbers in brackets are sections of docs/SPECIFICATION.md. */
#include "plain.h"

#include <stdbool.h>
#include <string.h>

enum {
    VALUE_BYTES = (CHUDRAVIK_MOST_VARIABLES + 1) / 4, /* "a working table of 4,096 values", packed as a record */
    MOST_CUBE = CHUDRAVIK_CUBE_BYTES(CHUDRAVIK_MOST_LATCHES),
    MOST_VERDICT = CHUDRAVIK_MOST_VERDICT_BYTES
};

/* ---- values and records ---- */

/* "0 with anything is 0, 1 with 1 is 1, the rest X" */
static const uint8_t AND[3][3] = {{0, 1, 0}, {1, 1, 1}, {0, 1, 2}};

/* A literal's value, by its last bit and its variable's value: "Inverting swaps 0 and 1 and keeps X." */
static const uint8_t LITERAL[2][3] = {{0, 1, 2}, {0, 2, 1}};

/* "the count of its known fields, or 255 where some pair is 11" */
#define BAD 255
#define BAD_4 BAD, BAD, BAD, BAD
#define BAD_16 BAD_4, BAD_4, BAD_4, BAD_4
#define BAD_64 BAD_16, BAD_16, BAD_16, BAD_16
#define KNOWN_4(n) (n), (n) + 1, (n) + 1, BAD
#define KNOWN_16(n) KNOWN_4(n), KNOWN_4((n) + 1), KNOWN_4((n) + 1), BAD_4
#define KNOWN_64(n) KNOWN_16(n), KNOWN_16((n) + 1), KNOWN_16((n) + 1), BAD_16
static const uint8_t KNOWN[256] = {KNOWN_64(0), KNOWN_64(1), KNOWN_64(1), BAD_64};

static size_t record_length(size_t fields)
{
    return CHUDRAVIK_RECORD_BYTES(fields);
}

/* A record's byte with the field at this place, 0 to 3, replaced. */
static uint8_t put_field(uint8_t byte, size_t place, uint8_t value)
{
    unsigned shift = (unsigned)(6 - 2 * place);
    return (uint8_t)((byte & ~(3u << shift)) | (unsigned)value << shift);
}

static uint8_t byte_of(uint8_t a, uint8_t b, uint8_t c, uint8_t d)
{
    return (uint8_t)(a << 6 | b << 4 | c << 2 | d);
}

/* "a pair 11, or a leftover bit set, in a given record" */
static bool sound(const uint8_t *record, size_t fields)
{
    size_t length = record_length(fields);
    for (size_t k = 0; k < length; k++) {
        if (KNOWN[record[k]] == BAD) {
            return false;
        }
    }
    unsigned leftover = 2 * (unsigned)(4 * length - fields);
    return (record[length - 1] & ((1u << leftover) - 1)) == 0;
}

static size_t known_fields(const uint8_t *record, size_t fields)
{
    size_t count = 0;
    for (size_t k = 0; k < record_length(fields); k++) {
        count += KNOWN[record[k]];
    }
    return count;
}

/* Keeps what is known alike in both. */
static void agree(uint8_t *restrict record, const uint8_t *restrict other, size_t length)
{
    for (size_t k = 0; k < length; k++) {
        record[k] &= other[k];
    }
}

/* ---- the table ---- */

static bool counts_kept(const chudravik_counts *counts)
{
    return counts->inputs <= CHUDRAVIK_MOST_INPUTS && counts->latches <= CHUDRAVIK_MOST_LATCHES &&
           counts->lamps <= CHUDRAVIK_MOST_LAMPS && counts->gates <= CHUDRAVIK_MOST_GATES &&
           counts->bads <= CHUDRAVIK_MOST_BADS && counts->constraints <= CHUDRAVIK_MOST_CONSTRAINTS;
}

static size_t variables_of(const chudravik_counts *counts)
{
    return counts->inputs + counts->latches + counts->gates;
}

static size_t table_length(const chudravik_counts *counts)
{
    return CHUDRAVIK_TABLE_WORDS(*counts);
}

/* "bad-state and constraint literals stand between lamps and gates, in that order" */
static size_t literals_of(const chudravik_counts *counts)
{
    return counts->lamps + counts->bads + counts->constraints;
}

/* Lamps and bad states: what has a verdict. */
static size_t watched_of(const chudravik_counts *counts)
{
    return counts->lamps + counts->bads;
}

static const uint16_t *lamps_of(const chudravik_counts *counts, const uint16_t *table)
{
    return table + 2 * counts->latches;
}

static const uint16_t *gates_of(const chudravik_counts *counts, const uint16_t *table)
{
    return lamps_of(counts, table) + literals_of(counts);
}

/* Rules 6, 7 and 8. */
static bool rules_kept(const chudravik_counts *counts, const uint16_t *table)
{
    size_t most = 2 * variables_of(counts) + 1;
    for (size_t i = 0; i < counts->latches; i++) {
        if (table[2 * i] > most || table[2 * i + 1] > CHUDRAVIK_NO_START) {
            return false;
        }
    }
    const uint16_t *lamps = lamps_of(counts, table);
    for (size_t i = 0; i < literals_of(counts); i++) {
        if (lamps[i] > most) {
            return false;
        }
    }
    const uint16_t *gates = gates_of(counts, table);
    size_t own = 2 * (1 + counts->inputs + counts->latches);
    for (size_t i = 0; i < counts->gates; i++, own += 2) {
        if (gates[2 * i] >= own || gates[2 * i + 1] >= own) {
            return false;
        }
    }
    return true;
}

/* "3, 10 for the table, 11" */
static uint32_t circuit_refusal(const chudravik_counts *counts, const uint16_t *table, size_t table_words)
{
    if (!counts_kept(counts)) {
        return CHUDRAVIK_COUNTS;
    }
    if (table_words < table_length(counts)) {
        return CHUDRAVIK_TOO_SHORT;
    }
    if (!rules_kept(counts, table)) {
        return CHUDRAVIK_TABLE;
    }
    return CHUDRAVIK_ACCEPTED;
}

/* "16 now means O + B is 0", directly after 3 in both calls of the run and in the cover. */
static uint32_t board_refusal(const chudravik_counts *counts, const uint16_t *table, size_t table_words)
{
    if (counts_kept(counts) && watched_of(counts) == 0) {
        return CHUDRAVIK_NO_LAMPS;
    }
    return circuit_refusal(counts, table, table_words);
}

/* ---- one pass over the gates ---- */

static uint8_t literal(const uint8_t *values, uint16_t x)
{
    return LITERAL[x % 2][(uint8_t)(values[x / 8] << (x & 6)) >> 6];
}

static void put_variable(uint8_t *values, size_t v, uint8_t value)
{
    values[v / 4] = put_field(values[v / 4], v % 4, value);
}

static uint8_t gate(const uint16_t *gates, size_t i, const uint8_t *values)
{
    return AND[literal(values, gates[2 * i])][literal(values, gates[2 * i + 1])];
}

/* "Gates are taken in order", the first of them variable `first`: four at a turn where a byte is theirs alone. */
static void pass(const uint16_t *restrict gates, size_t first, size_t count, uint8_t *restrict values)
{
    size_t i = 0;
    for (; i < count && (first + i) % 4 != 0; i++) {
        put_variable(values, first + i, gate(gates, i, values));
    }
    for (; i + 4 <= count; i += 4) {
        uint8_t *byte = &values[(first + i) / 4];
        unsigned done = (unsigned)gate(gates, i, values) << 6;
        *byte = (uint8_t)done;
        done |= (unsigned)gate(gates, i + 1, values) << 4;
        *byte = (uint8_t)done;
        done |= (unsigned)gate(gates, i + 2, values) << 2;
        *byte = (uint8_t)done;
        done |= gate(gates, i + 3, values);
        *byte = (uint8_t)done;
    }
    for (; i < count; i++) {
        put_variable(values, first + i, gate(gates, i, values));
    }
}

/* The fields of a record from field `front` on, as the values of the variables from `first` on. */
static void load(const uint8_t *restrict record, size_t front, size_t first, size_t count, uint8_t *restrict values)
{
    for (size_t i = 0; i < count; i++) {
        put_variable(values, first + i, CHUDRAVIK_FIELD(record, front + i));
    }
}

static void settle_from(const chudravik_counts *counts, const uint16_t *table, const uint8_t *record, size_t front,
                        uint8_t *values)
{
    size_t first = 1 + counts->inputs;
    load(record, front, first, counts->latches, values);
    pass(gates_of(counts, table), first + counts->latches, counts->gates, values);
}

static void settle_state(const chudravik_counts *counts, const uint16_t *table, const uint8_t *state, uint8_t *values)
{
    settle_from(counts, table, state, 0, values);
}

/* The latches of a stored cube stand behind its mark. */
static void settle_cube(const chudravik_counts *counts, const uint16_t *table, const uint8_t *cube, uint8_t *values)
{
    settle_from(counts, table, cube, 1, values);
}

/* The record of `count` literals' values, one literal every `step` words. */
static void store(const uint8_t *restrict values, const uint16_t *restrict literals, size_t step, size_t count,
                  uint8_t *restrict out)
{
    size_t whole = count / 4;
    for (size_t k = 0; k < whole; k++, literals += 4 * step) {
        out[k] = byte_of(literal(values, literals[0]), literal(values, literals[step]),
                         literal(values, literals[2 * step]), literal(values, literals[3 * step]));
    }
    size_t rest = count % 4;
    if (rest != 0 || count == 0) {
        uint8_t a = rest > 0 ? literal(values, literals[0]) : CHUDRAVIK_UNKNOWN;
        uint8_t b = rest > 1 ? literal(values, literals[step]) : CHUDRAVIK_UNKNOWN;
        uint8_t c = rest > 2 ? literal(values, literals[2 * step]) : CHUDRAVIK_UNKNOWN;
        out[whole] = byte_of(a, b, c, CHUDRAVIK_UNKNOWN);
    }
}

static void store_next(const chudravik_counts *counts, const uint16_t *table, const uint8_t *values, uint8_t *out)
{
    store(values, table, 2, counts->latches, out);
}

static void store_lamps(const chudravik_counts *counts, const uint16_t *table, const uint8_t *values, uint8_t *out)
{
    store(values, lamps_of(counts, table), 1, counts->lamps, out);
}

static void store_watched(const chudravik_counts *counts, const uint16_t *table, const uint8_t *values, uint8_t *out)
{
    store(values, lamps_of(counts, table), 1, watched_of(counts), out);
}

/* Whether some constraint is 0 in a cube; looked at only where there are constraints. */
static bool blocked(const chudravik_counts *counts, const uint16_t *table, const uint8_t *cube, uint8_t *values)
{
    const uint16_t *constraints = lamps_of(counts, table) + watched_of(counts);
    if (counts->constraints == 0) {
        return false;
    }
    settle_cube(counts, table, cube, values);
    for (size_t i = 0; i < counts->constraints; i++) {
        if (literal(values, constraints[i]) == CHUDRAVIK_LOW) {
            return true;
        }
    }
    return false;
}

/* ---- the tick ---- */

uint32_t plain_tick(chudravik_counts counts, const uint16_t *table, size_t table_words, const uint8_t *state,
                    size_t state_bytes, const uint8_t *switches, size_t switches_bytes, uint8_t *next,
                    size_t next_bytes, uint8_t *lamps, size_t lamps_bytes)
{
    uint32_t number = circuit_refusal(&counts, table, table_words);
    if (number != CHUDRAVIK_ACCEPTED) {
        return number;
    }
    if (state_bytes < record_length(counts.latches) || switches_bytes < record_length(counts.inputs)) {
        return CHUDRAVIK_TOO_SHORT;
    }
    if (!sound(state, counts.latches) || !sound(switches, counts.inputs)) {
        return CHUDRAVIK_RECORD;
    }
    if (next_bytes < record_length(counts.latches) || lamps_bytes < record_length(counts.lamps)) {
        return CHUDRAVIK_TOO_SHORT;
    }
    uint8_t values[VALUE_BYTES] = {CHUDRAVIK_LOW << 6}; /* "entry 0 the constant" */
    load(switches, 0, 1, counts.inputs, values);
    settle_state(&counts, table, state, values);
    store_next(&counts, table, values, next);
    store_lamps(&counts, table, values, lamps);
    return CHUDRAVIK_ACCEPTED;
}

/* ---- stored cubes ---- */

/* The mark of what is only searched for: it has both bits, so that a stored cube of either mark subsumes it. */
enum { ANY_MARK = 3 };

static size_t cube_length(size_t latches)
{
    return CHUDRAVIK_CUBE_BYTES(latches);
}

/* "14 also covers a mark of 00 or 11" */
static bool sound_cube(const uint8_t *cube, size_t latches)
{
    return sound(cube, 1 + latches) && CHUDRAVIK_MARK(cube) != CHUDRAVIK_UNKNOWN;
}

static void put_mark(uint8_t *cube, uint8_t mark)
{
    cube[0] = put_field(cube[0], 0, mark);
}

/* "Cube 0 is the resets." */
static void store_start(const uint16_t *table, size_t latches, uint8_t mark, uint8_t *cube)
{
    memset(cube, 0, cube_length(latches));
    for (size_t i = 0; i < latches; i++) {
        uint16_t reset = table[2 * i + 1];
        uint8_t field = reset == 0 ? CHUDRAVIK_LOW : reset == 1 ? CHUDRAVIK_HIGH : CHUDRAVIK_UNKNOWN;
        cube[(1 + i) / 4] |= (uint8_t)(field << (6 - 2 * ((1 + i) % 4)));
    }
    put_mark(cube, mark);
}

/* The next state as a cube: three latches share their byte with the mark. */
static void store_next_cube(const chudravik_counts *counts, const uint16_t *table, const uint8_t *values, uint8_t *out)
{
    size_t latches = counts->latches;
    uint8_t a = latches > 0 ? literal(values, table[0]) : CHUDRAVIK_UNKNOWN;
    uint8_t b = latches > 1 ? literal(values, table[2]) : CHUDRAVIK_UNKNOWN;
    uint8_t c = latches > 2 ? literal(values, table[4]) : CHUDRAVIK_UNKNOWN;
    out[0] = byte_of(ANY_MARK, a, b, c);
    if (latches > 3) {
        store(values, table + 6, 2, latches - 3, out + 1);
    }
}

/* ---- the chain ---- */

/* "how many cubes are stored, which latches are held unknown": a held latch has the pair 11. */
typedef struct {
    size_t count;
    uint8_t held[MOST_CUBE];
} progress;

/* "b is the next state of a, with held latches set to X." */
static void reach(const chudravik_counts *counts, const uint16_t *table, const uint8_t *a, const uint8_t *held,
                  uint8_t *values, uint8_t *b)
{
    settle_cube(counts, table, a, values);
    store_next_cube(counts, table, values, b);
    for (size_t i = 0; i < cube_length(counts->latches); i++) {
        b[i] &= (uint8_t)~held[i];
    }
}

/* "the first stored cube that subsumes b, meaning that every known field in it is known alike in b": n if none does. */
static size_t search(const uint8_t *cubes, size_t length, size_t n, const uint8_t *b)
{
    for (size_t k = 0; k < n; k++, cubes += length) {
        size_t i = 0;
        while (i < length && (cubes[i] & b[i]) == cubes[i]) {
            i++;
        }
        if (i == length) {
            return k;
        }
    }
    return n;
}

/* Holds every latch whose value in a and b differs, and never the mark. */
static void widen(uint8_t *restrict held, const uint8_t *restrict a, const uint8_t *restrict b, size_t length)
{
    for (size_t i = 0; i < length; i++) {
        uint8_t differing = a[i] ^ b[i];
        held[i] |= (uint8_t)(3 * ((differing | differing >> 1) & 0x55));
    }
    put_mark(held, 0);
}

/* Stores b as the next cube, behind a; "If w is not 0 and divides k" it is widened first. */
static void advance(progress *run, const uint8_t *restrict a, const uint8_t *restrict b, size_t length, size_t w,
                    uint8_t *restrict cube)
{
    bool due = w != 0 && run->count % w == 0;
    if (due) {
        widen(run->held, a, b, length);
    }
    for (size_t i = 0; i < length; i++) {
        cube[i] = (uint8_t)(b[i] & ~run->held[i]);
    }
    put_mark(cube, due ? CHUDRAVIK_WIDENED : CHUDRAVIK_PLAIN);
    run->count++;
}

/* Stores cubes until one falls inside cube *back, a constraint is 0 in the next and *back is their count, or there is no room;
 * answers whether it is closed or has ended. */
static bool follow(const chudravik_counts *counts, const uint16_t *table, size_t w, uint8_t *cubes, size_t room,
                   size_t *count, size_t *back)
{
    size_t length = cube_length(counts->latches);
    uint8_t values[VALUE_BYTES] = {CHUDRAVIK_LOW << 6};
    uint8_t b[MOST_CUBE];
    progress run = {.count = 1};
    store_start(table, counts->latches, CHUDRAVIK_PLAIN, b);
    if (blocked(counts, table, b, values)) {
        *count = *back = 0;
        return true;
    }
    memcpy(cubes, b, length);
    for (;;) {
        uint8_t *end = cubes + run.count * length;
        reach(counts, table, end - length, run.held, values, b);
        *count = *back = run.count;
        if (blocked(counts, table, b, values)) {
            return true;
        }
        *back = search(cubes, length, run.count, b);
        if (*back < run.count) {
            return true;
        }
        if (run.count == room) {
            return false;
        }
        advance(&run, end - length, b, length, w, end);
    }
}

static uint32_t chain_refusal(const chudravik_counts *counts, const uint16_t *table, size_t table_words, size_t w,
                              size_t cubes_bytes)
{
    uint32_t number = board_refusal(counts, table, table_words);
    if (number != CHUDRAVIK_ACCEPTED) {
        return number;
    }
    if (w > CHUDRAVIK_MOST_INTERVAL) {
        return CHUDRAVIK_INTERVAL;
    }
    if (cubes_bytes < cube_length(counts->latches) || cubes_bytes > CHUDRAVIK_MOST_CUBE_BYTES) {
        return CHUDRAVIK_CUBE_BUFFER;
    }
    return CHUDRAVIK_ACCEPTED;
}

chudravik_chain_answer plain_chain(chudravik_counts counts, const uint16_t *table, size_t table_words, size_t w,
                                   uint8_t *cubes, size_t cubes_bytes)
{
    uint32_t number = chain_refusal(&counts, table, table_words, w, cubes_bytes);
    if (number != CHUDRAVIK_ACCEPTED) {
        return (chudravik_chain_answer){number, 0, 0};
    }
    size_t n, j;
    if (!follow(&counts, table, w, cubes, cubes_bytes / cube_length(counts.latches), &n, &j)) {
        return (chudravik_chain_answer){CHUDRAVIK_NO_ROOM, n, 0};
    }
    return (chudravik_chain_answer){CHUDRAVIK_ACCEPTED, n, j};
}

/* ---- beginners' boards ---- */

enum { BOARD_INPUTS = 4, BOARD_LATCHES = 8, BOARD_LAMPS = 8, BOARD_GATES = 32 };
enum { BOARD_WORDS = 2 * BOARD_LATCHES + BOARD_LAMPS + 2 * BOARD_GATES };

static bool small_board(const chudravik_counts *counts)
{
    return counts->inputs <= BOARD_INPUTS && counts->latches <= BOARD_LATCHES && counts->lamps <= BOARD_LAMPS &&
           counts->gates <= BOARD_GATES && counts->bads == 0 && counts->constraints == 0;
}

static bool well_fed(const chudravik_counts *counts, const uint16_t *table)
{
    for (size_t i = 0; i < counts->latches; i++) {
        if (table[2 * i] < 2) {
            return false;
        }
    }
    const uint16_t *lamps = lamps_of(counts, table);
    for (size_t i = 0; i < counts->lamps; i++) {
        if (lamps[i] < 2) {
            return false;
        }
    }
    const uint16_t *gates = gates_of(counts, table);
    for (size_t i = 0; i < counts->gates; i++) {
        uint16_t left = gates[2 * i], right = gates[2 * i + 1];
        if (left < 2 || right < 2 || left / 2 == right / 2) {
            return false;
        }
    }
    return true;
}

/* "3, 16, 10 for the table, 11, 25, 13"; it does not widen, and always closes. */
chudravik_chain_answer plain_chain_beginners(chudravik_counts counts, const uint16_t *table, size_t table_words,
                                             uint8_t *cubes, size_t cubes_bytes)
{
    uint32_t number = board_refusal(&counts, table, table_words);
    if (number == CHUDRAVIK_ACCEPTED && !(small_board(&counts) && well_fed(&counts, table))) {
        number = CHUDRAVIK_BEGINNERS;
    } else if (number == CHUDRAVIK_ACCEPTED &&
               (cubes_bytes < CHUDRAVIK_BEGINNERS_CUBE_BYTES || cubes_bytes > CHUDRAVIK_MOST_CUBE_BYTES)) {
        number = CHUDRAVIK_CUBE_BUFFER;
    }
    if (number != CHUDRAVIK_ACCEPTED) {
        return (chudravik_chain_answer){number, 0, 0};
    }
    size_t n, j;
    follow(&counts, table, 0, cubes, cubes_bytes / cube_length(counts.latches), &n, &j);
    return (chudravik_chain_answer){CHUDRAVIK_ACCEPTED, n, j};
}

/* ---- given cubes ---- */

/* "3, 16, 10 for the table, 11, 10 for n records, 14" */
static uint32_t given_refusal(const chudravik_counts *counts, const uint16_t *table, size_t table_words,
                              const uint8_t *cubes, size_t cubes_bytes, size_t n)
{
    uint32_t number = board_refusal(counts, table, table_words);
    if (number != CHUDRAVIK_ACCEPTED) {
        return number;
    }
    size_t length = cube_length(counts->latches);
    if (n > cubes_bytes / length) {
        return CHUDRAVIK_TOO_SHORT;
    }
    for (size_t k = 0; k < n; k++) {
        if (!sound_cube(cubes + k * length, counts->latches)) {
            return CHUDRAVIK_RECORD;
        }
    }
    return CHUDRAVIK_ACCEPTED;
}

/* "per lamp 01 (never) if 0 in all n cubes, 10 (always) if 1 in all, else 00 (open)", "Bad states get verdicts after the
 * lamps": those of one cube more. */
static void judge_watched(const chudravik_counts *counts, const uint16_t *table, const uint8_t *values, bool first,
                          uint8_t *verdict)
{
    uint8_t watched[MOST_VERDICT];
    if (first) {
        store_watched(counts, table, values, verdict);
    } else {
        store_watched(counts, table, values, watched);
        agree(verdict, watched, record_length(watched_of(counts)));
    }
}

/* "With n = 0 each verdict is never." */
static void all_never(size_t fields, uint8_t *verdict)
{
    memset(verdict, 0, record_length(fields));
    for (size_t i = 0; i < fields; i++) {
        verdict[i / 4] = put_field(verdict[i / 4], i % 4, CHUDRAVIK_LOW);
    }
}

/* ---- judging a chain ---- */

/* "per latch the known value shared by cubes j to n - 1, else 00", "marks left off"; "An ended run settles nothing" */
static void settle_latches(const uint8_t *cubes, size_t latches, size_t n, size_t j, uint8_t *settled)
{
    size_t length = cube_length(latches);
    uint8_t merged[MOST_CUBE + 1] = {0};
    if (j < n) {
        memcpy(merged, cubes + j * length, length);
    }
    for (size_t k = j + 1; k < n; k++) {
        agree(merged, cubes + k * length, length);
    }
    for (size_t i = 0; i < record_length(latches); i++) {
        settled[i] = (uint8_t)(merged[i] << 2 | merged[i + 1] >> 6);
    }
}

/* "the next state of each cube but the last lies inside the following cube, and that of the last inside cube j", which no cube
 * is where j = n; or a constraint is 0 in it. Where it does lamps and bad states are judged. One pass a cube gives its next
 * state, lamps and bad states; another is made only where a next state lies outside. */
static bool closed(const chudravik_counts *counts, const uint16_t *table, const uint8_t *cubes, size_t n, size_t j,
                   uint8_t *verdict)
{
    size_t length = cube_length(counts->latches);
    uint8_t values[VALUE_BYTES] = {CHUDRAVIK_LOW << 6};
    uint8_t next[MOST_CUBE];
    for (size_t k = 0; k < n; k++) {
        settle_cube(counts, table, cubes + k * length, values);
        store_next_cube(counts, table, values, next);
        judge_watched(counts, table, values, k == 0, verdict);
        size_t following = k + 1 < n ? k + 1 : j;
        bool inside = following < n && search(cubes + following * length, length, 1, next) == 0;
        if (!inside && !blocked(counts, table, next, values)) {
            return false;
        }
    }
    return true;
}

/* "in judge, cube 0 then need not be the resets" */
static bool starts(const chudravik_counts *counts, const uint16_t *table, const uint8_t *cubes, size_t n)
{
    uint8_t values[VALUE_BYTES] = {CHUDRAVIK_LOW << 6};
    uint8_t start[MOST_CUBE];
    store_start(table, counts->latches, n == 0 ? ANY_MARK : CHUDRAVIK_MARK(cubes), start);
    return (n > 0 && memcmp(cubes, start, cube_length(counts->latches)) == 0) || blocked(counts, table, start, values);
}

chudravik_judge_answer plain_judge(chudravik_counts counts, const uint16_t *table, size_t table_words,
                                   const uint8_t *cubes, size_t cubes_bytes, size_t n, size_t j, uint8_t *verdict,
                                   size_t verdict_bytes, uint8_t *settled, size_t settled_bytes)
{
    uint32_t number = given_refusal(&counts, table, table_words, cubes, cubes_bytes, n);
    if (number != CHUDRAVIK_ACCEPTED) {
        return (chudravik_judge_answer){number, 0};
    }
    uint8_t watched[MOST_VERDICT];
    if (n == 0) {
        all_never(watched_of(&counts), watched);
    }
    if (j > n || !starts(&counts, table, cubes, n) || !closed(&counts, table, cubes, n, j, watched)) {
        return (chudravik_judge_answer){CHUDRAVIK_NOT_A_CHAIN, 0};
    }
    if (verdict_bytes < record_length(watched_of(&counts)) || settled_bytes < record_length(counts.latches)) {
        return (chudravik_judge_answer){CHUDRAVIK_TOO_SHORT, 0};
    }
    memcpy(verdict, watched, record_length(watched_of(&counts)));
    settle_latches(cubes, counts.latches, n, j, settled);
    return (chudravik_judge_answer){CHUDRAVIK_ACCEPTED, known_fields(settled, counts.latches)};
}

/* ---- the cover ---- */

/* "the number of the first cube whose next state is not inside a single cube", unless a constraint is 0 in it: n if there is
 * none, and then all lamps and bad states are judged. One pass a cube gives its next state, lamps and bad states. */
static size_t first_uncovered(const chudravik_counts *counts, const uint16_t *table, const uint8_t *cubes, size_t n,
                              uint8_t *verdict)
{
    size_t length = cube_length(counts->latches);
    uint8_t values[VALUE_BYTES] = {CHUDRAVIK_LOW << 6};
    uint8_t next[MOST_CUBE];
    for (size_t k = 0; k < n; k++) {
        settle_cube(counts, table, cubes + k * length, values);
        store_next_cube(counts, table, values, next);
        judge_watched(counts, table, values, k == 0, verdict);
        if (search(cubes, length, n, next) == n && !blocked(counts, table, next, values)) {
            return k;
        }
    }
    return n;
}

chudravik_cover_answer plain_cover(chudravik_counts counts, const uint16_t *table, size_t table_words,
                                   const uint8_t *cubes, size_t cubes_bytes, size_t n, uint8_t *verdict,
                                   size_t verdict_bytes)
{
    uint32_t number = given_refusal(&counts, table, table_words, cubes, cubes_bytes, n);
    if (number != CHUDRAVIK_ACCEPTED) {
        return (chudravik_cover_answer){number, 0};
    }
    uint8_t values[VALUE_BYTES] = {CHUDRAVIK_LOW << 6};
    uint8_t start[MOST_CUBE];
    store_start(table, counts.latches, ANY_MARK, start);
    if (search(cubes, cube_length(counts.latches), n, start) == n && !blocked(&counts, table, start, values)) {
        return (chudravik_cover_answer){CHUDRAVIK_START_NOT_COVERED, 0};
    }
    uint8_t watched[MOST_VERDICT];
    if (n == 0) {
        all_never(watched_of(&counts), watched);
    }
    size_t cube = first_uncovered(&counts, table, cubes, n, watched);
    if (cube < n) {
        return (chudravik_cover_answer){CHUDRAVIK_NEXT_NOT_COVERED, cube};
    }
    if (verdict_bytes < record_length(watched_of(&counts))) {
        return (chudravik_cover_answer){CHUDRAVIK_TOO_SHORT, 0};
    }
    memcpy(verdict, watched, record_length(watched_of(&counts)));
    return (chudravik_cover_answer){CHUDRAVIK_ACCEPTED, 0};
}

/* ---- why ---- */

/* What is asked of, and the variables that were. */
typedef struct {
    const uint16_t *gates;
    size_t first_gate;
    const uint8_t *values;
    bool marks[CHUDRAVIK_MOST_VARIABLES + 1];
} question;

static void why_one(question *q, uint16_t x);

/* "For a gate at 0 the first operand is followed if it is 0, otherwise the second." "An inverted literal turns the question
 * round" */
static void why_zero(question *q, uint16_t x)
{
    if (x % 2 != 0) {
        why_one(q, (uint16_t)(x - 1));
        return;
    }
    size_t v = x / 2;
    if (q->marks[v]) {
        return;
    }
    q->marks[v] = true;
    if (v >= q->first_gate) {
        const uint16_t *gate = q->gates + 2 * (v - q->first_gate);
        why_zero(q, literal(q->values, gate[0]) == CHUDRAVIK_LOW ? gate[0] : gate[1]);
    }
}

/* "For a gate at 1 both operands are followed." */
static void why_one(question *q, uint16_t x)
{
    if (x % 2 != 0) {
        why_zero(q, (uint16_t)(x - 1));
        return;
    }
    size_t v = x / 2;
    if (q->marks[v]) {
        return;
    }
    q->marks[v] = true;
    if (v >= q->first_gate) {
        const uint16_t *gate = q->gates + 2 * (v - q->first_gate);
        why_one(q, gate[0]);
        why_one(q, gate[1]);
    }
}

uint32_t plain_why(chudravik_counts counts, const uint16_t *table, size_t table_words, const uint8_t *state,
                   size_t state_bytes, size_t lamp, uint8_t *why, size_t why_bytes)
{
    uint32_t number = circuit_refusal(&counts, table, table_words);
    if (number != CHUDRAVIK_ACCEPTED) {
        return number;
    }
    if (state_bytes < record_length(counts.latches)) {
        return CHUDRAVIK_TOO_SHORT;
    }
    if (!sound(state, counts.latches)) {
        return CHUDRAVIK_RECORD;
    }
    if (lamp >= counts.lamps) {
        return CHUDRAVIK_NO_SUCH_LAMP;
    }
    uint8_t values[VALUE_BYTES] = {CHUDRAVIK_LOW << 6};
    settle_state(&counts, table, state, values);
    uint16_t x = lamps_of(&counts, table)[lamp];
    uint8_t value = literal(values, x);
    if (value == CHUDRAVIK_UNKNOWN) {
        return CHUDRAVIK_LAMP_UNKNOWN;
    }
    if (why_bytes < record_length(counts.latches)) {
        return CHUDRAVIK_TOO_SHORT;
    }
    question q = {.gates = gates_of(&counts, table), .first_gate = 1 + counts.inputs + counts.latches, .values = values};
    if (value == CHUDRAVIK_HIGH) {
        why_one(&q, x);
    } else {
        why_zero(&q, x);
    }
    memset(why, 0, record_length(counts.latches));
    for (size_t i = 0; i < counts.latches; i++) {
        if (q.marks[1 + counts.inputs + i]) {
            why[i / 4] |= (uint8_t)(CHUDRAVIK_FIELD(state, i) << (6 - 2 * (i % 4)));
        }
    }
    return CHUDRAVIK_ACCEPTED;
}

/* ---- the merge ---- */

uint32_t plain_merge(size_t fields, const uint8_t *a, size_t a_bytes, const uint8_t *b, size_t b_bytes, uint8_t *merged,
                     size_t merged_bytes)
{
    if (fields > CHUDRAVIK_MOST_FIELDS) {
        return CHUDRAVIK_COUNTS;
    }
    size_t length = record_length(fields);
    if (a_bytes < length || b_bytes < length) {
        return CHUDRAVIK_TOO_SHORT;
    }
    if (!sound(a, fields) || !sound(b, fields)) {
        return CHUDRAVIK_RECORD;
    }
    if (merged_bytes < length) {
        return CHUDRAVIK_TOO_SHORT;
    }
    memcpy(merged, a, length);
    agree(merged, b, length);
    return CHUDRAVIK_ACCEPTED;
}

/* ---- the reader ---- */

static bool digit_at(const uint8_t *at, const uint8_t *end)
{
    return at < end && *at >= '0' && *at <= '9';
}

/* "one to five digits and no leading zero except `0` itself"; *at goes behind it. */
static bool read_number(const uint8_t **at, const uint8_t *end, size_t *number)
{
    const uint8_t *p = *at;
    if (!digit_at(p, end)) {
        return false;
    }
    size_t value = *p++ - '0';
    for (; digit_at(p, end); p++) {
        if (value == 0 || value >= 10000) {
            return false;
        }
        value = 10 * value + (*p - '0');
    }
    *number = value;
    *at = p;
    return true;
}

/* What ends the lines of a text: byte 10, or bytes 13 and 10. */
typedef enum { NEWLINE, OFFICE_NEWLINE } ending;

/* How many bytes at a position are the ending, and 0 where there is none. */
static size_t ending_at(const uint8_t *at, const uint8_t *end, ending lines)
{
    if (lines == NEWLINE) {
        return at < end && at[0] == '\n' ? 1 : 0;
    }
    return end - at >= 2 && at[0] == '\r' && at[1] == '\n' ? 2 : 0;
}

/* A line's numbers, at most `most` of them, and how many there are: 0 for an ill-formed line. *at goes behind it. */
static size_t read_line(const uint8_t **at, const uint8_t *end, ending lines, size_t most, size_t *numbers)
{
    for (size_t k = 0; k < most; k++) {
        if (!read_number(at, end, &numbers[k]) || *at == end) {
            return 0;
        }
        size_t length = ending_at(*at, end, lines);
        if (length != 0) {
            *at += length;
            return k + 1;
        }
        uint8_t behind = *(*at)++;
        if (behind != ' ') {
            return 0;
        }
    }
    return 0;
}

/* M I L O A B C J F, those that are left out being 0: "J or F not 0, or B or C over 64, is 3". */
enum { FEWEST_COUNTS = 5, MOST_COUNTS = 9 };

static uint32_t take_counts(const size_t *numbers, chudravik_counts *counts)
{
    *counts = (chudravik_counts){numbers[1], numbers[2], numbers[3], numbers[4], numbers[5], numbers[6]};
    if (!counts_kept(counts) || numbers[7] != 0 || numbers[8] != 0 || numbers[0] != variables_of(counts)) {
        return CHUDRAVIK_COUNTS;
    }
    return CHUDRAVIK_ACCEPTED;
}

/* "The file opens with the four bytes `aag` and a space", then the counts and a newline. */
static uint32_t read_header(const uint8_t **at, const uint8_t *end, ending *lines, chudravik_counts *counts)
{
    size_t numbers[MOST_COUNTS] = {0}, count;
    if (end - *at < 4 || memcmp(*at, "aag ", 4) != 0) {
        return CHUDRAVIK_FIRST_LINE;
    }
    const uint8_t *first = *at + 4;
    *at = first;
    *lines = NEWLINE;
    count = read_line(at, end, *lines, MOST_COUNTS, numbers);
    if (count == 0) { /* "Accept either ending; the first line decides" */
        *at = first;
        *lines = OFFICE_NEWLINE;
        count = read_line(at, end, *lines, MOST_COUNTS, numbers);
    }
    return count < FEWEST_COUNTS ? CHUDRAVIK_FIRST_LINE : take_counts(numbers, counts);
}

static uint32_t judge_input(const uint8_t **at, const uint8_t *end, ending lines, size_t own)
{
    size_t numbers[1];
    if (read_line(at, end, lines, 1, numbers) != 1) {
        return CHUDRAVIK_BODY_LINE;
    }
    return numbers[0] == own ? CHUDRAVIK_ACCEPTED : CHUDRAVIK_OWN_LITERAL;
}

static uint32_t judge_latch(const uint8_t **at, const uint8_t *end, ending lines, size_t own, size_t most)
{
    size_t numbers[3];
    size_t count = read_line(at, end, lines, 3, numbers);
    if (count < 2) {
        return CHUDRAVIK_BODY_LINE;
    }
    if (numbers[0] != own) {
        return CHUDRAVIK_OWN_LITERAL;
    }
    if (numbers[1] > most) {
        return CHUDRAVIK_LITERAL_TOO_LARGE;
    }
    return count == 3 && numbers[2] > 1 && numbers[2] != own ? CHUDRAVIK_RESET : CHUDRAVIK_ACCEPTED;
}

/* The line of a lamp, a bad state or a constraint. */
static uint32_t judge_literal(const uint8_t **at, const uint8_t *end, ending lines, size_t most)
{
    size_t numbers[1];
    if (read_line(at, end, lines, 1, numbers) != 1) {
        return CHUDRAVIK_BODY_LINE;
    }
    return numbers[0] > most ? CHUDRAVIK_LITERAL_TOO_LARGE : CHUDRAVIK_ACCEPTED;
}

static uint32_t judge_gate(const uint8_t **at, const uint8_t *end, ending lines, size_t own, size_t most)
{
    size_t numbers[3];
    if (read_line(at, end, lines, 3, numbers) != 3) {
        return CHUDRAVIK_BODY_LINE;
    }
    if (numbers[0] != own) {
        return CHUDRAVIK_OWN_LITERAL;
    }
    if (numbers[1] > most || numbers[2] > most) {
        return CHUDRAVIK_LITERAL_TOO_LARGE;
    }
    return numbers[1] >= own || numbers[2] >= own ? CHUDRAVIK_OPERAND_NOT_BELOW : CHUDRAVIK_ACCEPTED;
}

/* "the end of the text, or a line that is just `c`, after which everything is skipped" */
static bool ended(const uint8_t *at, const uint8_t *end, ending lines)
{
    return at == end || (at[0] == 'c' && ending_at(at + 1, end, lines) != 0);
}

/* "line by line (4, 5, 6, then 7 or 8), 9" */
static uint32_t judge_body(const uint8_t *at, const uint8_t *end, ending lines, const chudravik_counts *counts)
{
    size_t most = 2 * variables_of(counts) + 1;
    size_t own = 2;
    uint32_t number = CHUDRAVIK_ACCEPTED;
    for (size_t i = 0; i < counts->inputs && number == CHUDRAVIK_ACCEPTED; i++, own += 2) {
        number = judge_input(&at, end, lines, own);
    }
    for (size_t i = 0; i < counts->latches && number == CHUDRAVIK_ACCEPTED; i++, own += 2) {
        number = judge_latch(&at, end, lines, own, most);
    }
    for (size_t i = 0; i < literals_of(counts) && number == CHUDRAVIK_ACCEPTED; i++) {
        number = judge_literal(&at, end, lines, most);
    }
    for (size_t i = 0; i < counts->gates && number == CHUDRAVIK_ACCEPTED; i++, own += 2) {
        number = judge_gate(&at, end, lines, own, most);
    }
    if (number != CHUDRAVIK_ACCEPTED) {
        return number;
    }
    return ended(at, end, lines) ? CHUDRAVIK_ACCEPTED : CHUDRAVIK_TRAILING;
}

/* The words of a body that nothing refuses. */
static void fill(const uint8_t *at, const uint8_t *end, ending lines, const chudravik_counts *counts,
                 uint16_t *restrict table)
{
    size_t numbers[3];
    for (size_t i = 0; i < counts->inputs; i++) {
        read_line(&at, end, lines, 1, numbers);
    }
    for (size_t i = 0; i < counts->latches; i++) {
        size_t count = read_line(&at, end, lines, 3, numbers);
        *table++ = (uint16_t)numbers[1];
        *table++ = count < 3 ? 0 : numbers[2] > 1 ? CHUDRAVIK_NO_START : (uint16_t)numbers[2];
    }
    for (size_t i = 0; i < literals_of(counts); i++) {
        read_line(&at, end, lines, 1, numbers);
        *table++ = (uint16_t)numbers[0];
    }
    for (size_t i = 0; i < counts->gates; i++) {
        read_line(&at, end, lines, 3, numbers);
        *table++ = (uint16_t)numbers[1];
        *table++ = (uint16_t)numbers[2];
    }
}

static chudravik_read_answer read_refused(uint32_t number)
{
    return (chudravik_read_answer){.number = number};
}

chudravik_read_answer plain_read(const uint8_t *text, size_t text_bytes, uint16_t *table, size_t table_words)
{
    if (text_bytes > CHUDRAVIK_MOST_TEXT) {
        return read_refused(CHUDRAVIK_TEXT_TOO_LONG);
    }
    const uint8_t *body = text;
    const uint8_t *end = text + text_bytes;
    chudravik_counts counts;
    ending lines;
    uint32_t number = read_header(&body, end, &lines, &counts);
    if (number == CHUDRAVIK_ACCEPTED) {
        number = judge_body(body, end, lines, &counts);
    }
    if (number != CHUDRAVIK_ACCEPTED) {
        return read_refused(number);
    }
    if (table_words < table_length(&counts)) {
        return read_refused(CHUDRAVIK_TOO_SHORT);
    }
    fill(body, end, lines, &counts, table);
    return (chudravik_read_answer){CHUDRAVIK_ACCEPTED, counts};
}

/* 25 before the first word: the board's words go into a table here first. */
chudravik_read_answer plain_read_beginners(const uint8_t *text, size_t text_bytes, uint16_t *table, size_t table_words)
{
    if (text_bytes > CHUDRAVIK_MOST_TEXT) {
        return read_refused(CHUDRAVIK_TEXT_TOO_LONG);
    }
    const uint8_t *body = text;
    const uint8_t *end = text + text_bytes;
    chudravik_counts counts;
    ending lines;
    uint16_t words[BOARD_WORDS];
    uint32_t number = read_header(&body, end, &lines, &counts);
    if (number == CHUDRAVIK_ACCEPTED) {
        number = judge_body(body, end, lines, &counts);
    }
    if (number != CHUDRAVIK_ACCEPTED) {
        return read_refused(number);
    }
    if (table_words < table_length(&counts)) {
        return read_refused(CHUDRAVIK_TOO_SHORT);
    }
    if (!small_board(&counts)) {
        return read_refused(CHUDRAVIK_BEGINNERS);
    }
    fill(body, end, lines, &counts, words);
    if (!well_fed(&counts, words)) {
        return read_refused(CHUDRAVIK_BEGINNERS);
    }
    fill(body, end, lines, &counts, table);
    return (chudravik_read_answer){CHUDRAVIK_ACCEPTED, counts};
}

/* ---- the writer ---- */

/* No number of a text has more than four digits: 2M + 1 is at most 8,191. */
static size_t digits(size_t n)
{
    return n < 10 ? 1 : n < 100 ? 2 : n < 1000 ? 3 : 4;
}

/* A number and the byte behind it; answers the place behind both. */
static uint8_t *put_number(uint8_t *at, size_t n, uint8_t behind)
{
    size_t length = digits(n);
    for (size_t k = length; k-- > 0; n /= 10) {
        at[k] = (uint8_t)('0' + n % 10);
    }
    at[length] = behind;
    return at + length + 1;
}

/* "Writing gives B and C only up to the last one that is not 0": how many numbers the first line has. */
static size_t counts_shown(const chudravik_counts *counts)
{
    return counts->constraints != 0 ? 7 : counts->bads != 0 ? 6 : 5;
}

static size_t header_length(const chudravik_counts *counts)
{
    size_t shown = counts_shown(counts);
    return 4 + digits(variables_of(counts)) + digits(counts->inputs) + digits(counts->latches) + digits(counts->lamps) +
           digits(counts->gates) + (shown > 5 ? digits(counts->bads) : 0) + (shown > 6 ? digits(counts->constraints) : 0) +
           shown;
}

/* What the text takes: each number, and the byte behind it. */
static size_t text_length(const chudravik_counts *counts, const uint16_t *table)
{
    size_t length = header_length(counts);
    size_t own = 2;
    for (size_t i = 0; i < counts->inputs; i++, own += 2) {
        length += digits(own) + 1;
    }
    for (size_t i = 0; i < counts->latches; i++, own += 2, table += 2) {
        length += digits(own) + digits(table[0]) + 2 + (table[1] == 0 ? 0 : table[1] == 1 ? 2 : digits(own) + 1);
    }
    for (size_t i = 0; i < literals_of(counts); i++, table++) {
        length += digits(table[0]) + 1;
    }
    for (size_t i = 0; i < counts->gates; i++, own += 2, table += 2) {
        length += digits(own) + digits(table[0]) + digits(table[1]) + 3;
    }
    return length;
}

static uint8_t *put_header(uint8_t *at, const chudravik_counts *counts)
{
    memcpy(at, "aag ", 4);
    at = put_number(at + 4, variables_of(counts), ' ');
    at = put_number(at, counts->inputs, ' ');
    at = put_number(at, counts->latches, ' ');
    at = put_number(at, counts->lamps, ' ');
    at = put_number(at, counts->gates, ' ');
    if (counts_shown(counts) > 5) {
        at = put_number(at, counts->bads, ' ');
    }
    if (counts_shown(counts) > 6) {
        at = put_number(at, counts->constraints, ' ');
    }
    at[-1] = '\n';
    return at;
}

/* "one line for each input, latch, lamp and gate, in that order", bad states and constraints behind the lamps */
static void put_body(uint8_t *restrict at, const chudravik_counts *counts, const uint16_t *restrict table)
{
    size_t own = 2;
    for (size_t i = 0; i < counts->inputs; i++, own += 2) {
        at = put_number(at, own, '\n');
    }
    for (size_t i = 0; i < counts->latches; i++, own += 2, table += 2) {
        at = put_number(at, own, ' ');
        if (table[1] == 0) { /* "resets of 0 are left out" */
            at = put_number(at, table[0], '\n');
        } else {
            at = put_number(at, table[0], ' ');
            at = put_number(at, table[1] == 1 ? 1 : own, '\n');
        }
    }
    for (size_t i = 0; i < literals_of(counts); i++, table++) {
        at = put_number(at, table[0], '\n');
    }
    for (size_t i = 0; i < counts->gates; i++, own += 2, table += 2) {
        at = put_number(at, own, ' ');
        at = put_number(at, table[0], ' ');
        at = put_number(at, table[1], '\n');
    }
}

chudravik_write_answer plain_write(chudravik_counts counts, const uint16_t *table, size_t table_words, uint8_t *text,
                                   size_t text_bytes)
{
    uint32_t number = circuit_refusal(&counts, table, table_words);
    if (number != CHUDRAVIK_ACCEPTED) {
        return (chudravik_write_answer){number, 0};
    }
    size_t length = text_length(&counts, table);
    if (text_bytes < length) {
        return (chudravik_write_answer){CHUDRAVIK_TOO_SHORT, 0};
    }
    put_body(put_header(text, &counts), &counts, table);
    return (chudravik_write_answer){CHUDRAVIK_ACCEPTED, length};
}

/* ---- the binary form: read ---- */

static uint32_t read_binary_header(const uint8_t **at, const uint8_t *end, chudravik_counts *counts)
{
    size_t numbers[MOST_COUNTS] = {0};
    if (end - *at < 4 || memcmp(*at, "aig ", 4) != 0) {
        return CHUDRAVIK_FIRST_LINE;
    }
    *at += 4;
    if (read_line(at, end, NEWLINE, MOST_COUNTS, numbers) < FEWEST_COUNTS) {
        return CHUDRAVIK_FIRST_LINE;
    }
    return take_counts(numbers, counts);
}

static uint32_t judge_binary_latch(const uint8_t **at, const uint8_t *end, size_t own, size_t most)
{
    size_t numbers[2];
    size_t count = read_line(at, end, NEWLINE, 2, numbers);
    if (count == 0) {
        return CHUDRAVIK_BODY_LINE;
    }
    if (numbers[0] > most) {
        return CHUDRAVIK_LITERAL_TOO_LARGE;
    }
    return count == 2 && numbers[1] > 1 && numbers[1] != own ? CHUDRAVIK_RESET : CHUDRAVIK_ACCEPTED;
}

/* "each gate as two differences in groups of seven bits, low group first, the top bit set on all but the last"; *at goes
 * behind it. False for "a difference cut off, longer than two bytes, or with a needless zero group". */
static bool read_difference(const uint8_t **at, const uint8_t *end, size_t *difference)
{
    const uint8_t *p = *at;
    if (p == end) {
        return false;
    }
    if (p[0] < 128) {
        *difference = p[0];
        *at = p + 1;
        return true;
    }
    if (end - p < 2 || p[1] == 0 || p[1] >= 128) {
        return false;
    }
    *difference = (size_t)(p[0] - 128) + 128 * (size_t)p[1];
    *at = p + 2;
    return true;
}

/* "26 first within a gate" */
static uint32_t judge_binary_gate(const uint8_t **at, const uint8_t *end, size_t own)
{
    size_t first, second;
    if (!read_difference(at, end, &first) || !read_difference(at, end, &second)) {
        return CHUDRAVIK_DIFFERENCE;
    }
    return first == 0 || first > own || second > own - first ? CHUDRAVIK_OPERAND_NOT_BELOW : CHUDRAVIK_ACCEPTED;
}

static uint32_t judge_binary_body(const uint8_t *at, const uint8_t *end, const chudravik_counts *counts)
{
    size_t most = 2 * variables_of(counts) + 1;
    size_t own = 2 * (1 + counts->inputs);
    uint32_t number = CHUDRAVIK_ACCEPTED;
    for (size_t i = 0; i < counts->latches && number == CHUDRAVIK_ACCEPTED; i++, own += 2) {
        number = judge_binary_latch(&at, end, own, most);
    }
    for (size_t i = 0; i < literals_of(counts) && number == CHUDRAVIK_ACCEPTED; i++) {
        number = judge_literal(&at, end, NEWLINE, most);
    }
    for (size_t i = 0; i < counts->gates && number == CHUDRAVIK_ACCEPTED; i++, own += 2) {
        number = judge_binary_gate(&at, end, own);
    }
    if (number != CHUDRAVIK_ACCEPTED) {
        return number;
    }
    return ended(at, end, NEWLINE) ? CHUDRAVIK_ACCEPTED : CHUDRAVIK_TRAILING;
}

/* The words of a body that nothing refuses. */
static void fill_binary(const uint8_t *at, const uint8_t *end, const chudravik_counts *counts, uint16_t *restrict table)
{
    size_t numbers[2], first = 0, second = 0;
    for (size_t i = 0; i < counts->latches; i++) {
        size_t count = read_line(&at, end, NEWLINE, 2, numbers);
        *table++ = (uint16_t)numbers[0];
        *table++ = count < 2 ? 0 : numbers[1] > 1 ? CHUDRAVIK_NO_START : (uint16_t)numbers[1];
    }
    for (size_t i = 0; i < literals_of(counts); i++) {
        read_line(&at, end, NEWLINE, 1, numbers);
        *table++ = (uint16_t)numbers[0];
    }
    size_t own = 2 * (1 + counts->inputs + counts->latches);
    for (size_t i = 0; i < counts->gates; i++, own += 2) {
        read_difference(&at, end, &first);
        read_difference(&at, end, &second);
        *table++ = (uint16_t)(own - first);
        *table++ = (uint16_t)(own - first - second);
    }
}

chudravik_read_answer plain_read_binary(const uint8_t *binary, size_t binary_bytes, uint16_t *table, size_t table_words)
{
    if (binary_bytes > CHUDRAVIK_MOST_TEXT) {
        return read_refused(CHUDRAVIK_TEXT_TOO_LONG);
    }
    const uint8_t *body = binary;
    const uint8_t *end = binary + binary_bytes;
    chudravik_counts counts;
    uint32_t number = read_binary_header(&body, end, &counts);
    if (number == CHUDRAVIK_ACCEPTED) {
        number = judge_binary_body(body, end, &counts);
    }
    if (number != CHUDRAVIK_ACCEPTED) {
        return read_refused(number);
    }
    if (table_words < table_length(&counts)) {
        return read_refused(CHUDRAVIK_TOO_SHORT);
    }
    fill_binary(body, end, &counts, table);
    return (chudravik_read_answer){CHUDRAVIK_ACCEPTED, counts};
}

/* ---- the binary form: written ---- */

/* "Operands are put larger first before writing." */
static size_t larger_of(const uint16_t *operands)
{
    return operands[0] > operands[1] ? operands[0] : operands[1];
}

static size_t smaller_of(const uint16_t *operands)
{
    return operands[0] > operands[1] ? operands[1] : operands[0];
}

static size_t groups(size_t difference)
{
    return difference < 128 ? 1 : 2;
}

static uint8_t *put_difference(uint8_t *at, size_t difference)
{
    if (difference < 128) {
        at[0] = (uint8_t)difference;
        return at + 1;
    }
    at[0] = (uint8_t)(128 + difference % 128);
    at[1] = (uint8_t)(difference / 128);
    return at + 2;
}

static size_t binary_length(const chudravik_counts *counts, const uint16_t *table)
{
    size_t length = header_length(counts);
    size_t own = 2 * (1 + counts->inputs);
    for (size_t i = 0; i < counts->latches; i++, own += 2, table += 2) {
        length += digits(table[0]) + 1 + (table[1] == 0 ? 0 : table[1] == 1 ? 2 : digits(own) + 1);
    }
    for (size_t i = 0; i < literals_of(counts); i++, table++) {
        length += digits(table[0]) + 1;
    }
    for (size_t i = 0; i < counts->gates; i++, own += 2, table += 2) {
        length += groups(own - larger_of(table)) + groups(larger_of(table) - smaller_of(table));
    }
    return length;
}

static void put_binary_body(uint8_t *restrict at, const chudravik_counts *counts, const uint16_t *restrict table)
{
    size_t own = 2 * (1 + counts->inputs);
    for (size_t i = 0; i < counts->latches; i++, own += 2, table += 2) {
        if (table[1] == 0) {
            at = put_number(at, table[0], '\n');
        } else {
            at = put_number(at, table[0], ' ');
            at = put_number(at, table[1] == 1 ? 1 : own, '\n');
        }
    }
    for (size_t i = 0; i < literals_of(counts); i++, table++) {
        at = put_number(at, table[0], '\n');
    }
    for (size_t i = 0; i < counts->gates; i++, own += 2, table += 2) {
        at = put_difference(at, own - larger_of(table));
        at = put_difference(at, larger_of(table) - smaller_of(table));
    }
}

chudravik_write_answer plain_write_binary(chudravik_counts counts, const uint16_t *table, size_t table_words,
                                          uint8_t *binary, size_t binary_bytes)
{
    uint32_t number = circuit_refusal(&counts, table, table_words);
    if (number != CHUDRAVIK_ACCEPTED) {
        return (chudravik_write_answer){number, 0};
    }
    size_t length = binary_length(&counts, table);
    if (binary_bytes < length) {
        return (chudravik_write_answer){CHUDRAVIK_TOO_SHORT, 0};
    }
    uint8_t *body = put_header(binary, &counts);
    binary[1] = 'i';
    put_binary_body(body, &counts, table);
    return (chudravik_write_answer){CHUDRAVIK_ACCEPTED, length};
}

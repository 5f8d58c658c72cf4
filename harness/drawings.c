/* Texts in any order, each read by the library in guarded buffers and by drawing.h: answers and every lent byte must be
 * equal. A text that is accepted is then followed for some ticks, by its own lines and by the library's table.
 *
 * drawings CALLS SEED [CIRCUIT.aag ..]
 *
 * Drawings are random: definitions in any order, numbers with gaps, gates of any depth, loops of every length up to 40,
 * two damages at a time where one would hide the other. Of each circuit named the variables are permuted and the lines
 * of each kind shuffled, and its own table must behave as the table of that.
 */
#include "chance.h"
#include "drawing.h"
#include "guarded.h"

#include <inttypes.h>
#include <stdio.h>
#include <stdlib.h>
#include <string.h>

enum { LONGEST_TEXT = 70000, WORDS = CHUDRAVIK_MOST_TABLE_WORDS + 8, LIST = CHUDRAVIK_MOST_LIST_WORDS + 8, TICKS = 12, LONGEST_LOOP = 40 };

static uint64_t seed, number_in_hand;
static uint8_t text[LONGEST_TEXT];
static size_t text_bytes;

static void fail(const char *what)
{
    fprintf(stderr, "drawings: seed %" PRIu64 ", call number %" PRIu64 ": %s\n", seed, number_in_hand, what);
    FILE *kept = fopen("target/harness/drawings.failed", "wb");
    if (kept != NULL) {
        fwrite(text, 1, text_bytes, kept);
        fclose(kept);
    }
    exit(1);
}

/* ---- a drawing, and its text ---- */

static drawing made;

static void put(const char *bytes)
{
    while (*bytes != 0 && text_bytes < LONGEST_TEXT)
        text[text_bytes++] = (uint8_t)*bytes++;
}

static void put_numbers(size_t count, const size_t *number, const char *ending)
{
    char one[24];
    for (size_t i = 0; i < count; i++) {
        snprintf(one, sizeof one, "%s%zu", i == 0 ? "" : " ", number[i]);
        put(one);
    }
    put(ending);
}

static const char *some_ending(const char *ending, bool damaged)
{
    return damaged && chance(2) ? (ending[0] == '\n' ? "\r\n" : "\n") : ending;
}

static void write_drawing(const drawing *d, const char *ending, bool damaged)
{
    text_bytes = 0;
    put(damaged && chance(3) ? "aig " : "aag ");
    size_t first[10] = {d->most, d->counts.inputs, d->counts.latches, d->counts.lamps, d->counts.gates, d->counts.bads,
                        d->counts.constraints};
    size_t count = d->counts.constraints > 0 ? 7 : d->counts.bads > 0 ? 6 : 5;
    if (chance(30))
        count = between(count, 9);
    if (damaged && chance(8))
        first[below(9)] = (size_t[]){0, 1, 65, 257, 513, 3328, 4095, 4096, 5000, 99999}[below(10)];
    put_numbers(damaged && chance(2) ? 4 : damaged && chance(1) ? 10 : damaged && chance(4) ? 9 : count, first, ending);
    for (size_t i = 0; i < d->counts.inputs; i++)
        put_numbers(damaged && chance(1) ? 2 : 1, (size_t[]){d->input[i], 2}, some_ending(ending, damaged));
    for (size_t i = 0; i < d->counts.latches; i++) {
        size_t reset = d->reset[i] == 2 ? d->latch[i] : d->reset[i];
        if (damaged && chance(4))
            reset = (size_t[]){2, 3, d->latch[i] + 1, d->latch[i] + 2, 99999}[below(5)];
        put_numbers(damaged && chance(1) ? 1 : d->reset[i] == 0 && chance(50) ? 2 : 3,
                    (size_t[]){d->latch[i], d->next[i], reset}, some_ending(ending, damaged));
    }
    for (size_t i = 0; i < d->counts.lamps; i++)
        put_numbers(1, &d->lamp[i], some_ending(ending, damaged));
    for (size_t i = 0; i < d->counts.bads; i++)
        put_numbers(damaged && chance(1) ? 2 : 1, (size_t[]){d->bad[i], 2}, some_ending(ending, damaged));
    for (size_t i = 0; i < d->counts.constraints; i++)
        put_numbers(damaged && chance(1) ? 2 : 1, (size_t[]){d->constraint[i], 2}, some_ending(ending, damaged));
    for (size_t i = 0; i < d->counts.gates; i++)
        put_numbers(damaged && chance(1) ? 2 : 3, (size_t[]){d->gate[i], d->left[i], d->right[i]},
                    some_ending(ending, damaged));
    if (damaged && chance(10))
        put((const char *[]){"c", "c\n", "c\r\n", "x\n", "\n", "c x\n"}[below(6)]);
    else if (chance(20)) {
        put("c");
        put(ending);
        put("drawn in class, 3rd hour");
    }
    if (damaged && chance(2))
        while (text_bytes <= CHUDRAVIK_MOST_TEXT && text_bytes < LONGEST_TEXT)
            put("c of no use\n");
}

static void shuffle(size_t *item, size_t count)
{
    for (size_t i = count; i > 1; i--) {
        size_t j = below(i), kept = item[i - 1];
        item[i - 1] = item[j];
        item[j] = kept;
    }
}

/* Different variables from 1 to M, in no order. */
static void some_variables(size_t *variable, size_t count, size_t most)
{
    static size_t all[CHUDRAVIK_MOST_VARIABLES];
    for (size_t i = 0; i < most; i++)
        all[i] = i + 1;
    shuffle(all, most);
    memcpy(variable, all, count * sizeof *variable);
}

static size_t variable[CHUDRAVIK_MOST_VARIABLES];

static size_t literal_among(size_t count)
{
    size_t v = chance(3) ? 0 : variable[below(count)];
    return 2 * v + below(2);
}

/* Gates read what stands before them in `variable`; the lines of gates are then put in another order. */
static void make_drawing(drawing *d)
{
    static size_t place[CHUDRAVIK_MOST_GATES];
    bool large = chance(2);
    bool assumed = chance(50);
    chudravik_counts c = {.inputs = large ? 256 : below(8), .latches = large ? 512 : below(8), .lamps = large ? 64 : below(5)};
    c.gates = large ? 3327 - below(2) * below(60) : below(chance(10) ? 300 : 50);
    c.bads = !assumed ? 0 : large ? 64 : below(4);
    c.constraints = !assumed ? 0 : large ? 64 : below(4);
    size_t lines = c.inputs + c.latches + c.gates;
    d->counts = c;
    d->most = lines + (chance(30) ? 0 : below(chance(50) ? 20 : CHUDRAVIK_MOST_VARIABLES + 1 - lines));
    if (d->most > CHUDRAVIK_MOST_VARIABLES)
        d->most = CHUDRAVIK_MOST_VARIABLES;
    some_variables(variable, lines, d->most);
    size_t leaves = c.inputs + c.latches;
    bool chain = chance(30);
    for (size_t i = 0; i < c.inputs; i++)
        d->input[i] = 2 * variable[i];
    for (size_t i = 0; i < c.gates; i++)
        place[i] = i;
    if (chance(60))
        shuffle(place, c.gates);
    else if (chance(50))
        for (size_t i = 0; i < c.gates; i++)
            place[i] = c.gates - 1 - i;
    for (size_t i = 0; i < c.gates; i++) {
        size_t known = leaves + i, at = place[i];
        d->gate[at] = 2 * variable[known];
        d->left[at] = known == 0 ? below(2) : chain && i > 0 ? 2 * variable[known - 1] + below(2) : literal_among(known);
        d->right[at] = known == 0 ? below(2) : literal_among(known);
    }
    for (size_t i = 0; i < c.latches; i++) {
        d->latch[i] = 2 * variable[c.inputs + i];
        d->next[i] = literal_among(lines);
        d->reset[i] = below(3);
    }
    for (size_t i = 0; i < c.lamps; i++)
        d->lamp[i] = lines == 0 ? below(2) : literal_among(lines);
    for (size_t i = 0; i < c.bads; i++)
        d->bad[i] = lines == 0 ? below(2) : literal_among(lines);
    for (size_t i = 0; i < c.constraints; i++)
        d->constraint[i] = lines == 0 ? below(2) : literal_among(lines);
}

/* ---- damage to a drawing ---- */

static size_t *some_own(drawing *d)
{
    size_t lines = d->counts.inputs + d->counts.latches + d->counts.gates;
    if (lines == 0)
        return NULL;
    size_t i = below(lines);
    if (i < d->counts.inputs)
        return &d->input[i];
    i -= d->counts.inputs;
    return i < d->counts.latches ? &d->latch[i] : &d->gate[i - d->counts.latches];
}

static size_t *some_literal(drawing *d)
{
    size_t all = d->counts.latches + d->counts.lamps + d->counts.bads + d->counts.constraints + 2 * d->counts.gates;
    if (all == 0)
        return NULL;
    size_t i = below(all);
    if (i < d->counts.latches)
        return &d->next[i];
    i -= d->counts.latches;
    if (i < d->counts.lamps)
        return &d->lamp[i];
    i -= d->counts.lamps;
    if (i < d->counts.bads)
        return &d->bad[i];
    i -= d->counts.bads;
    if (i < d->counts.constraints)
        return &d->constraint[i];
    i -= d->counts.constraints;
    return i % 2 == 0 ? &d->left[i / 2] : &d->right[i / 2];
}

/* Gate after gate reads the one before, and the first reads the last. */
static void close_loop(drawing *d)
{
    static size_t ring[CHUDRAVIK_MOST_GATES];
    size_t gates = d->counts.gates;
    if (gates == 0)
        return;
    size_t length = between(1, gates < LONGEST_LOOP ? gates : LONGEST_LOOP);
    for (size_t i = 0; i < gates; i++)
        ring[i] = i;
    shuffle(ring, gates);
    for (size_t i = 0; i < length; i++) {
        size_t *operand = chance(50) ? &d->left[ring[i]] : &d->right[ring[i]];
        *operand = d->gate[ring[(i + 1) % length]] + below(2);
    }
}

static void damage(drawing *d)
{
    size_t *own = some_own(d), *other = some_own(d), *literal = some_literal(d);
    switch (below(7)) {
    case 0:
        if (own != NULL && other != NULL && own != other)
            *own = *other;
        break;
    case 1:
        if (own != NULL)
            *own = (size_t[]){0, 1, *own + 1, 2 * d->most + 1, 2 * d->most + 2, 65536, 65538, 99999}[below(8)];
        break;
    case 2:
    case 3:
        if (literal != NULL)
            *literal = below(2 * d->most + 2);
        break;
    case 4:
        if (literal != NULL)
            *literal = 2 * d->most + 1 + below(3);
        break;
    default:
        close_loop(d);
    }
}

/* ---- one text, twice ---- */

/* Besides the numbers: 10 by what is too short, texts accepted with bad states and constraints, and by how many numbers there
 * are in the first line. */
enum { MOST_NUMBER = 22, SHORT_TABLE, SHORT_LIST, WITH_BOTH, FIVE, SIX, SEVEN, EIGHT, NINE, OUTCOMES };

static const char *const outcome_names[OUTCOMES] = {
    [SHORT_TABLE] = "10 for the table", [SHORT_LIST] = "10 for the list", [WITH_BOTH] = "0 with bad states and constraints",
    [FIVE] = "0 with five numbers",     [SIX] = "with six",               [SEVEN] = "with seven",
    [EIGHT] = "with eight",             [NINE] = "with nine"};

static uint64_t met[OUTCOMES];

static guarded guarded_text, guarded_table, guarded_list;

typedef struct {
    uint16_t table[WORDS], list[LIST];
} buffers;

static buffers before, simulated;

/* Where the library's answer is 0 the table is left for the ticks. */
static uint32_t read_twice(size_t words, size_t list, const uint16_t **table)
{
    uint8_t *t = guarded_lay(&guarded_text, text_bytes, (enum guarded_side)below(2));
    uint16_t *w = (uint16_t *)(void *)guarded_lay(&guarded_table, 2 * words, (enum guarded_side)below(2));
    uint16_t *l = (uint16_t *)(void *)guarded_lay(&guarded_list, 2 * list, (enum guarded_side)below(2));
    if (text_bytes != 0)
        memcpy(t, text, text_bytes);
    for (size_t i = 0; i < WORDS; i++)
        before.table[i] = (uint16_t)draw();
    for (size_t i = 0; i < LIST; i++)
        before.list[i] = (uint16_t)draw();
    simulated = before;
    if (words != 0)
        memcpy(w, before.table, 2 * words);
    if (list != 0)
        memcpy(l, before.list, 2 * list);
    if (words == 0 && chance(50))
        w = NULL;
    chudravik_read_any_answer a = chudravik_read_any(text_bytes == 0 && chance(50) ? NULL : t, text_bytes, w, words, l, list);
    chudravik_read_any_answer b = simulate_read_any(text, text_bytes, simulated.table, words, simulated.list, list);
    if (a.number != b.number) {
        char what[80];
        snprintf(what, sizeof what, "number %" PRIu32 ", and the simulator says %" PRIu32, a.number, b.number);
        fail(what);
    }
    if (a.counts.inputs != b.counts.inputs || a.counts.latches != b.counts.latches || a.counts.lamps != b.counts.lamps ||
        a.counts.gates != b.counts.gates || a.counts.bads != b.counts.bads || a.counts.constraints != b.counts.constraints ||
        a.variables != b.variables)
        fail("counts or M differ");
    if (text_bytes != 0 && memcmp(t, text, text_bytes) != 0)
        fail("the text was changed");
    if ((words != 0 && memcmp(w, simulated.table, 2 * words) != 0) || (list != 0 && memcmp(l, simulated.list, 2 * list) != 0))
        fail("the table or the list differs");
    if (!guarded_whole(&guarded_text) || !guarded_whole(&guarded_table) || !guarded_whole(&guarded_list))
        fail("a canary was changed");
    *table = w;
    return a.number;
}

/* ---- ticks ---- */

static void set_field(uint8_t *record, size_t i, bool high)
{
    record[i / 4] |= (uint8_t)((high ? CHUDRAVIK_HIGH : CHUDRAVIK_LOW) << (6 - 2 * (i % 4)));
}

static void to_record(uint8_t *record, const bool *value, size_t count)
{
    memset(record, 0, CHUDRAVIK_RECORD_BYTES(count));
    for (size_t i = 0; i < count; i++)
        set_field(record, i, value[i]);
}

/* A tick shows lamps alone: the table once more with so many of its literals in the lamps' places, from the first named on. */
static void tick_window(chudravik_counts c, const uint16_t *table, size_t from, size_t count, const uint8_t *state,
                        const uint8_t *switches, uint8_t *next, uint8_t *shown)
{
    static uint16_t window[WORDS];
    size_t literals = 2 * c.latches, gates = CHUDRAVIK_TABLE_WORDS(c) - 2 * c.gates;
    memcpy(window, table, 2 * literals);
    memcpy(window + literals, table + literals + from, 2 * count);
    memcpy(window + literals + count, table + gates, 4 * c.gates);
    c.lamps = count;
    c.bads = c.constraints = 0;
    if (chudravik_tick(c, window, WORDS, state, CHUDRAVIK_RECORD_BYTES(c.latches), switches, CHUDRAVIK_RECORD_BYTES(c.inputs),
                       next, CHUDRAVIK_RECORD_BYTES(c.latches), shown, CHUDRAVIK_RECORD_BYTES(count)) != 0)
        fail("the tick refused the table");
}

/* The text by its own lines, and the table by the library's tick: the same lamps, bad states, constraints and states from any
 * allowed start. */
static void follow(const drawing *d, const uint16_t *table)
{
    static bool switches[CHUDRAVIK_MOST_INPUTS], state[CHUDRAVIK_MOST_LATCHES], next[CHUDRAVIK_MOST_LATCHES],
        shown[MOST_SHOWN];
    static uint8_t r[CHUDRAVIK_RECORD_BYTES(CHUDRAVIK_MOST_INPUTS)], s[CHUDRAVIK_RECORD_BYTES(CHUDRAVIK_MOST_LATCHES)],
        n[CHUDRAVIK_RECORD_BYTES(CHUDRAVIK_MOST_LATCHES)], o[CHUDRAVIK_RECORD_BYTES(CHUDRAVIK_MOST_LAMPS)],
        due_next[CHUDRAVIK_RECORD_BYTES(CHUDRAVIK_MOST_LATCHES)], due_shown[CHUDRAVIK_RECORD_BYTES(CHUDRAVIK_MOST_LAMPS)];
    chudravik_counts c = d->counts;
    size_t all = c.lamps + c.bads + c.constraints;
    for (size_t i = 0; i < c.latches; i++) {
        if (table[2 * i + 1] != d->reset[i])
            fail("a reset differs");
        state[i] = d->reset[i] == 2 ? chance(50) : d->reset[i] == 1;
    }
    for (size_t t = 0; t < TICKS; t++) {
        for (size_t i = 0; i < c.inputs; i++)
            switches[i] = chance(50);
        to_record(r, switches, c.inputs);
        to_record(s, state, c.latches);
        tick_drawing(d, switches, state, next, shown);
        to_record(due_next, next, c.latches);
        for (size_t from = 0, count; from == 0 || from < all; from += CHUDRAVIK_MOST_LAMPS) {
            count = all - from < CHUDRAVIK_MOST_LAMPS ? all - from : CHUDRAVIK_MOST_LAMPS;
            tick_window(c, table, from, count, s, r, n, o);
            to_record(due_shown, shown + from, count);
            if (memcmp(n, due_next, CHUDRAVIK_RECORD_BYTES(c.latches)) != 0 ||
                memcmp(o, due_shown, CHUDRAVIK_RECORD_BYTES(count)) != 0)
                fail("the text and the table differ at a tick");
        }
        memcpy(state, next, sizeof state);
    }
}

/* One before each number. */
static size_t spaces_in_first_line(void)
{
    size_t spaces = 0;
    for (size_t i = 0; i < text_bytes && text[i] != '\n'; i++)
        spaces += text[i] == ' ';
    return spaces;
}

static void try_text(size_t short_table, size_t short_list)
{
    static drawing read;
    const uint16_t *table;
    uint32_t own = read_drawing(text, text_bytes, &read);
    size_t words = WORDS, list = LIST;
    if (own == 0 && short_table)
        words = CHUDRAVIK_TABLE_WORDS(read.counts);
    if (own == 0 && short_list)
        list = read.most + 1;
    if (own == 0 && short_table == 2 && words > 0)
        words--;
    if (own == 0 && short_list == 2)
        list--;
    uint32_t number = read_twice(words, list, &table);
    met[number]++;
    if (number == 10)
        met[words < CHUDRAVIK_TABLE_WORDS(read.counts) ? SHORT_TABLE : SHORT_LIST]++;
    if (number == 0) {
        met[WITH_BOTH] += read.counts.bads > 0 && read.counts.constraints > 0;
        met[FIVE + spaces_in_first_line() - 5]++;
    }
    if (number == 0 && words == WORDS)
        follow(&read, table);
}

static void try_drawing(void)
{
    make_drawing(&made);
    bool damaged = chance(30);
    for (size_t kind = below(3); kind > 0; kind--)
        if (chance(60))
            damage(&made);
    write_drawing(&made, chance(30) ? "\r\n" : "\n", damaged);
    if (damaged && chance(10) && text_bytes > 0)
        text[below(text_bytes)] = (uint8_t)draw();
    if (chance(1))
        text_bytes = 0;
    size_t short_table = below(100) < 85 ? 0 : 1 + below(2), short_list = below(100) < 85 ? 0 : 1 + below(2);
    try_text(short_table, short_list);
}

/* ---- loops of every length ---- */

static void try_loop(size_t length, bool cut)
{
    drawing *d = &made;
    memset(&d->counts, 0, sizeof d->counts);
    d->counts.inputs = 1;
    d->counts.gates = length;
    d->most = length + 1;
    some_variables(variable, length + 1, d->most);
    d->input[0] = 2 * variable[0];
    for (size_t i = 0; i < length; i++) {
        d->gate[i] = 2 * variable[i + 1];
        d->left[i] = 2 * variable[1 + (i + 1) % length] + below(2);
        d->right[i] = d->input[0];
    }
    if (cut)
        d->left[length - 1] = d->input[0];
    write_drawing(d, "\n", false);
    const uint16_t *table;
    if (read_twice(WORDS, LIST, &table) != (cut ? 0 : 22))
        fail("a loop of gates, or one that was cut");
}

/* ---- circuits of another tool ---- */

static void shuffled_circuit(const char *name)
{
    static uint16_t plain[CHUDRAVIK_MOST_TABLE_WORDS];
    static size_t to[CHUDRAVIK_MOST_VARIABLES + 1], line[CHUDRAVIK_MOST_GATES];
    FILE *file = fopen(name, "rb");
    if (file == NULL) {
        perror(name);
        exit(2);
    }
    text_bytes = fread(text, 1, LONGEST_TEXT, file);
    fclose(file);
    chudravik_read_answer a = chudravik_read(text, text_bytes, plain, CHUDRAVIK_MOST_TABLE_WORDS);
    const uint16_t *table;
    if (a.number != 0 || read_twice(WORDS, LIST, &table) != 0)
        fail(name);
    drawing *d = &made;
    chudravik_counts c = d->counts = a.counts;
    size_t lines = c.inputs + c.latches + c.gates, at = CHUDRAVIK_TABLE_WORDS(c) - 2 * c.gates;
    d->most = lines + below(30);
    some_variables(to + 1, lines, d->most);
#define MOVED(x) (2 * to[(x) / 2] + (x) % 2)
    to[0] = 0;
    for (size_t i = 0; i < c.inputs; i++)
        d->input[i] = 2 * to[1 + i];
    for (size_t i = 0; i < c.latches; i++) {
        d->latch[i] = 2 * to[1 + c.inputs + i];
        d->next[i] = MOVED(plain[2 * i]);
        d->reset[i] = plain[2 * i + 1];
    }
    for (size_t i = 0; i < c.lamps; i++)
        d->lamp[i] = MOVED(plain[2 * c.latches + i]);
    for (size_t i = 0; i < c.bads; i++)
        d->bad[i] = MOVED(plain[2 * c.latches + c.lamps + i]);
    for (size_t i = 0; i < c.constraints; i++)
        d->constraint[i] = MOVED(plain[2 * c.latches + c.lamps + c.bads + i]);
    for (size_t i = 0; i < c.gates; i++)
        line[i] = i;
    shuffle(line, c.gates);
    for (size_t i = 0; i < c.gates; i++) {
        d->gate[line[i]] = 2 * to[1 + c.inputs + c.latches + i];
        d->left[line[i]] = MOVED(plain[at + 2 * i]);
        d->right[line[i]] = MOVED(plain[at + 2 * i + 1]);
    }
    write_drawing(d, chance(50) ? "\r\n" : "\n", false);
    if (read_twice(WORDS, LIST, &table) != 0)
        fail(name);
    follow(d, table);
    follow(d, plain);
}

int main(int argc, char **argv)
{
    if (argc < 3) {
        fputs("usage: drawings CALLS SEED [CIRCUIT.aag ..]\n", stderr);
        return 2;
    }
    uint64_t calls = strtoull(argv[1], NULL, 10);
    seed = strtoull(argv[2], NULL, 10);
    for (number_in_hand = 0; number_in_hand < calls; number_in_hand++) {
        throw_dice(seed, number_in_hand);
        try_drawing();
    }
    for (size_t length = 1; length <= LONGEST_LOOP; length++) {
        try_loop(length, false);
        try_loop(length, true);
    }
    for (int i = 3; i < argc; i++)
        for (size_t times = 0; times < 20; times++)
            shuffled_circuit(argv[i]);
    int failed = 0;
    static const unsigned can_give[] = {0, 1, 2, 3, 4, 6, 8, 9, 20, 21, 22, SHORT_TABLE, SHORT_LIST,
                                        WITH_BOTH, FIVE, SIX, SEVEN, EIGHT, NINE};
    for (size_t i = 0; i < sizeof can_give / sizeof can_give[0]; i++) {
        unsigned n = can_give[i];
        const char *end = i + 1 < sizeof can_give / sizeof can_give[0] ? "; " : "\n";
        if (outcome_names[n] != NULL)
            printf("%s: %" PRIu64 "%s", outcome_names[n], met[n], end);
        else
            printf("%u: %" PRIu64 "%s", n, met[n], end);
        if (calls >= 4000 && met[n] < 20) {
            fprintf(stderr, "drawings: outcome %u was met too seldom\n", n);
            failed = 1;
        }
    }
    if (met[5] + met[7] != 0) {
        fputs("drawings: 5 or 7 was given\n", stderr);
        failed = 1;
    }
    return failed;
}

/* See encoded.h. */
#include "encoded.h"

#include <string.h>

/* ---- the string ---- */

typedef struct {
    const uint8_t *at;
    const uint8_t *end;
    bool short_words;
    unsigned ways;
} string_rest;

static uint8_t take_byte(string_rest *rest)
{
    return rest->at == rest->end ? 0 : *rest->at++;
}

static size_t take_number(string_rest *rest)
{
    size_t first = take_byte(rest), number = 0;
    if (first < 240)
        return first;
    if (first < 255)
        return 240 + 256 * (first - 240) + take_byte(rest);
    for (unsigned shift = 0; shift < 64; shift += 8)
        number |= (size_t)take_byte(rest) << shift;
    return number;
}

static size_t take_length(string_rest *rest)
{
    size_t length = take_number(rest);
    return length < LONGEST_BUFFER ? length : LONGEST_BUFFER;
}

/* Of a table or of a list. */
static size_t take_words_bytes(string_rest *rest)
{
    size_t words = take_number(rest);
    return words < LONGEST_BUFFER / 2 ? 2 * words : LONGEST_BUFFER;
}

static chudravik_counts take_counts(string_rest *rest)
{
    chudravik_counts counts;
    counts.inputs = take_number(rest);
    counts.latches = take_number(rest);
    counts.lamps = take_number(rest);
    counts.gates = take_number(rest);
    counts.bads = take_number(rest);
    counts.constraints = take_number(rest);
    return counts;
}

/* ---- buffers ---- */

static enum laid way_of(const string_rest *rest, enum role role)
{
    return (enum laid)((rest->ways >> 2 * (role % 4) & 3) % LAID_WAYS);
}

static void give_table(twice *t, string_rest *rest, size_t bytes)
{
    uint16_t *word = (uint16_t *)(void *)twice_content(t, TABLE);
    for (size_t i = 0; i < bytes / 2; i++) {
        unsigned low = take_byte(rest);
        word[i] = (uint16_t)(rest->short_words ? low : low + 256u * take_byte(rest));
    }
    twice_lend(t, TABLE, true, bytes, way_of(rest, TABLE));
}

static void give_bytes(twice *t, string_rest *rest, enum role role, size_t bytes)
{
    for (size_t i = 0; i < bytes; i++)
        twice_content(t, role)[i] = take_byte(rest);
    twice_lend(t, role, true, bytes, way_of(rest, role));
}

/* All that is left of the string, and `x` where it must be longer. */
static void give_text(twice *t, const string_rest *rest, size_t least)
{
    size_t left = (size_t)(rest->end - rest->at), used = left < LONGEST_BUFFER ? left : LONGEST_BUFFER;
    size_t bytes = used < least ? least : used;
    if (used != 0)
        memcpy(twice_content(t, TEXT), rest->at, used);
    memset(twice_content(t, TEXT) + used, 'x', bytes - used);
    twice_lend(t, TEXT, true, bytes, way_of(rest, TEXT));
}

/* What a call fills holds other bytes at each place first. */
static void lend_bytes(twice *t, const string_rest *rest, enum role role, size_t bytes)
{
    for (size_t i = 0; i < bytes; i++)
        twice_content(t, role)[i] = (uint8_t)(167 * i + 91);
    twice_lend(t, role, false, bytes, way_of(rest, role));
}

/* ---- the calls ---- */

static void lay_reader(twice *t, string_rest *rest, enum call call)
{
    twice_begin(t, call, (chudravik_counts){0}, (numbers){0});
    lend_bytes(t, rest, TABLE, take_words_bytes(rest));
    size_t least = take_length(rest);
    give_text(t, rest, least);
}

static void lay_read(twice *t, string_rest *rest)
{
    lay_reader(t, rest, READ);
}

static void lay_read_binary(twice *t, string_rest *rest)
{
    lay_reader(t, rest, READ_BINARY);
}

static void lay_read_beginners(twice *t, string_rest *rest)
{
    lay_reader(t, rest, READ_BEGINNERS);
}

static void lay_read_any(twice *t, string_rest *rest)
{
    twice_begin(t, READ_ANY, (chudravik_counts){0}, (numbers){0});
    lend_bytes(t, rest, TABLE, take_words_bytes(rest));
    lend_bytes(t, rest, LIST, take_words_bytes(rest));
    size_t least = take_length(rest);
    give_text(t, rest, least);
}

static void lay_writer(twice *t, string_rest *rest, enum call call)
{
    twice_begin(t, call, take_counts(rest), (numbers){0});
    size_t table_bytes = take_words_bytes(rest);
    lend_bytes(t, rest, TEXT, take_length(rest));
    give_table(t, rest, table_bytes);
}

static void lay_write(twice *t, string_rest *rest)
{
    lay_writer(t, rest, WRITE);
}

static void lay_write_binary(twice *t, string_rest *rest)
{
    lay_writer(t, rest, WRITE_BINARY);
}

static void lay_tick(twice *t, string_rest *rest)
{
    twice_begin(t, TICK, take_counts(rest), (numbers){0});
    size_t table_bytes = take_words_bytes(rest);
    size_t state_bytes = take_length(rest);
    size_t switches_bytes = take_length(rest);
    lend_bytes(t, rest, NEXT, take_length(rest));
    lend_bytes(t, rest, LAMPS, take_length(rest));
    give_table(t, rest, table_bytes);
    give_bytes(t, rest, STATE, state_bytes);
    give_bytes(t, rest, SWITCHES, switches_bytes);
}

/* The chain; the results of the judge behind it are laid already, and both calls have one table. */
static void lay_run(twice *t, string_rest *rest)
{
    chudravik_counts counts = take_counts(rest);
    size_t table_bytes = take_words_bytes(rest);
    twice_begin(t, CHAIN, counts, (numbers){.w = take_number(rest)});
    lend_bytes(t, rest, CUBES, take_length(rest));
    lend_bytes(t, rest, VERDICT, take_length(rest));
    lend_bytes(t, rest, SETTLED, take_length(rest));
    give_table(t, rest, table_bytes);
}

static void lay_chain_beginners(twice *t, string_rest *rest)
{
    twice_begin(t, CHAIN_BEGINNERS, take_counts(rest), (numbers){0});
    size_t table_bytes = take_words_bytes(rest);
    lend_bytes(t, rest, CUBES, take_length(rest));
    give_table(t, rest, table_bytes);
}

static void lay_judge_of_chain(twice *t, const string_rest *rest)
{
    size_t bytes = t->lent[CUBES].bytes;
    t->call = JUDGE;
    t->with = (numbers){.n = t->library.cubes, .j = t->library.back};
    if (bytes != 0)
        memcpy(twice_content(t, CUBES), t->lent[CUBES].simulated, bytes);
    twice_lend(t, CUBES, true, bytes, way_of(rest, CUBES));
}

static void lay_judge(twice *t, string_rest *rest)
{
    chudravik_counts counts = take_counts(rest);
    size_t table_bytes = take_words_bytes(rest);
    size_t n = take_number(rest);
    twice_begin(t, JUDGE, counts, (numbers){.n = n, .j = take_number(rest)});
    size_t cubes_bytes = take_length(rest);
    lend_bytes(t, rest, VERDICT, take_length(rest));
    lend_bytes(t, rest, SETTLED, take_length(rest));
    give_table(t, rest, table_bytes);
    give_bytes(t, rest, CUBES, cubes_bytes);
}

static void lay_cover(twice *t, string_rest *rest)
{
    chudravik_counts counts = take_counts(rest);
    size_t table_bytes = take_words_bytes(rest);
    twice_begin(t, COVER, counts, (numbers){.n = take_number(rest)});
    size_t cubes_bytes = take_length(rest);
    lend_bytes(t, rest, VERDICT, take_length(rest));
    give_table(t, rest, table_bytes);
    give_bytes(t, rest, CUBES, cubes_bytes);
}

static void lay_why(twice *t, string_rest *rest)
{
    chudravik_counts counts = take_counts(rest);
    size_t table_bytes = take_words_bytes(rest);
    twice_begin(t, WHY, counts, (numbers){.lamp = take_number(rest)});
    size_t state_bytes = take_length(rest);
    lend_bytes(t, rest, REASON, take_length(rest));
    give_table(t, rest, table_bytes);
    give_bytes(t, rest, STATE, state_bytes);
}

static void lay_merge(twice *t, string_rest *rest)
{
    twice_begin(t, MERGE, (chudravik_counts){0}, (numbers){.fields = take_number(rest)});
    size_t one_bytes = take_length(rest);
    size_t other_bytes = take_length(rest);
    lend_bytes(t, rest, MERGED, take_length(rest));
    give_bytes(t, rest, ONE, one_bytes);
    give_bytes(t, rest, OTHER, other_bytes);
}

typedef void layer(twice *t, string_rest *rest);

static layer *layer_of(uint8_t first)
{
    static layer *const older[] = {lay_read, lay_write, lay_tick, lay_run};
    static layer *const newer[] = {lay_read_any,    lay_judge,        lay_why,            lay_merge,
                                   lay_read_binary, lay_write_binary, lay_read_beginners, lay_chain_beginners};
    if (first >> 4 != 0)
        return newer[((first >> 4) - 1) % (sizeof newer / sizeof newer[0])];
    return first & 8 ? lay_cover : older[first & 3];
}

static bool make_often(twice *t, size_t times)
{
    bool same = twice_make(t);
    for (size_t time = 1; time < times && same; time++)
        same = twice_again(t);
    return same;
}

bool encoded_make(twice *t, const uint8_t *string, size_t bytes, size_t times)
{
    string_rest rest = {.at = string, .end = string + bytes};
    uint8_t first = take_byte(&rest);
    rest.short_words = first & 4;
    rest.ways = take_byte(&rest);
    layer_of(first)(t, &rest);
    if (!make_often(t, times))
        return false;
    if (t->call != CHAIN)
        return true;
    lay_judge_of_chain(t, &rest);
    return make_often(t, times);
}

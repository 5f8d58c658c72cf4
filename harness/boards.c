/* Beginners' boards: every one of some small families, and the boards that store the most cubes that we found.
 *
 * boards
 *
 * A family is all boards with so many switches, latches, lamps and gates, each literal from 0 to two beyond the last and each
 * reset from 0 to 3, so that most are refused. Each is written as text and read, and chained in 19,683 bytes, by the library
 * and by the simulator (twice.h). How many are accepted is known by counting, and must be so: with a bad state or a
 * constraint none.
 */
#include "twice.h"

#include <stdio.h>
#include <stdlib.h>
#include <string.h>

static twice t;
static uint16_t words[128];

static void must(bool as_it_must, const char *what)
{
    if (as_it_must)
        return;
    fprintf(stderr, "boards: %s\n", what);
    twice_show(&t);
    exit(1);
}

/* Whatever the words are: what the library writes is a circuit, and these may be none. */
static size_t put_text(chudravik_counts counts, char *text, size_t room)
{
    size_t own = 2, at = 0, word = 0;
    at += (size_t)snprintf(text, room, "aag %zu %zu %zu %zu %zu %zu %zu\n", counts.inputs + counts.latches + counts.gates,
                           counts.inputs, counts.latches, counts.lamps, counts.gates, counts.bads, counts.constraints);
    for (size_t i = 0; i < counts.inputs; i++, own += 2)
        at += (size_t)snprintf(text + at, room - at, "%zu\n", own);
    for (size_t i = 0; i < counts.latches; i++, own += 2, word += 2)
        at += (size_t)snprintf(text + at, room - at, "%zu %u %zu\n", own, words[word],
                               words[word + 1] == CHUDRAVIK_NO_START ? own : words[word + 1]);
    for (size_t i = 0; i < counts.lamps + counts.bads + counts.constraints; i++, word++)
        at += (size_t)snprintf(text + at, room - at, "%u\n", words[word]);
    for (size_t i = 0; i < counts.gates; i++, own += 2, word += 2)
        at += (size_t)snprintf(text + at, room - at, "%zu %u %u\n", own, words[word], words[word + 1]);
    return at;
}

static bool read_board(chudravik_counts counts, size_t length)
{
    twice_begin(&t, READ_BEGINNERS, counts, (numbers){0});
    size_t bytes = put_text(counts, (char *)twice_content(&t, TEXT), LONGEST_BUFFER);
    twice_lend(&t, TEXT, true, bytes, LAID_BEHIND);
    memset(twice_content(&t, TABLE), 0xA5, 2 * length);
    twice_lend(&t, TABLE, false, 2 * length, LAID_BEHIND);
    must(twice_make(&t), t.difference);
    return t.library.number == CHUDRAVIK_ACCEPTED;
}

static bool chain_board(chudravik_counts counts, size_t length)
{
    twice_begin(&t, CHAIN_BEGINNERS, counts, (numbers){0});
    memcpy(twice_content(&t, TABLE), words, 2 * length);
    twice_lend(&t, TABLE, true, 2 * length, LAID_BEHIND);
    memset(twice_content(&t, CUBES), 0xA5, CHUDRAVIK_BEGINNERS_CUBE_BYTES);
    twice_lend(&t, CUBES, false, CHUDRAVIK_BEGINNERS_CUBE_BYTES, LAID_BEHIND);
    must(twice_make(&t), t.difference);
    return t.library.number == CHUDRAVIK_ACCEPTED;
}

/* ---- the families ---- */

static size_t made, accepted, most_cubes;

static size_t power_of_3(size_t latches)
{
    return latches == 0 ? 1 : 3 * power_of_3(latches - 1);
}

static void try_board(chudravik_counts counts, size_t length)
{
    bool read = read_board(counts, length), chained = chain_board(counts, length);
    must(read == chained, "a board is read and not chained, or chained and not read");
    must(t.library.cubes <= power_of_3(counts.latches), "a board has stored more cubes than there are");
    made++;
    accepted += chained;
    if (t.library.cubes > most_cubes)
        most_cubes = t.library.cubes;
}

static void try_all(chudravik_counts counts, size_t length, size_t at)
{
    bool reset = at < 2 * counts.latches && at % 2 == 1;
    size_t most = reset ? 3 : 2 * (counts.inputs + counts.latches + counts.gates) + 3;
    if (at == length) {
        try_board(counts, length);
        return;
    }
    for (size_t word = 0; word <= most; word++) {
        words[at] = (uint16_t)word;
        try_all(counts, length, at + 1);
    }
}

static void try_family(chudravik_counts counts, size_t due)
{
    made = accepted = most_cubes = 0;
    try_all(counts, CHUDRAVIK_TABLE_WORDS(counts), 0);
    printf("all boards with I %zu, L %zu, O %zu, A %zu, B %zu, C %zu: %zu, of them %zu accepted; at most %zu cubes\n",
           counts.inputs, counts.latches, counts.lamps, counts.gates, counts.bads, counts.constraints, made, accepted,
           most_cubes);
    must(accepted == due, "another number of boards is accepted than counted by hand");
}

/* ---- the longest chains that were found ---- */

typedef struct {
    size_t cubes;
    chudravik_counts counts;
    uint16_t table[88];
} found_board;

/* By climbing from boards of chance and from counters, for 1 to 8 latches. */
static const found_board found[] = {
    {3, {1, 1, 1, 1, 0, 0},
     {7, 0, 4, 4, 3}},
    {8, {2, 2, 1, 7, 0, 0},
     {23, 0, 6, 0, 6, 7, 3, 8, 10, 11, 8, 12, 14, 5, 16, 15, 19, 21, 11}},
    {17, {1, 3, 1, 5, 0, 0},
     {18, 1, 8, 1, 4, 1, 4, 4, 2, 6, 11, 3, 8, 14, 13, 7, 17}},
    {36, {1, 4, 1, 7, 0, 0},
     {10, 0, 8, 0, 5, 0, 25, 1, 4, 4, 3, 10, 13, 9, 15, 6, 15, 5, 18, 17, 6, 23, 21}},
    {58, {1, 5, 1, 13, 0, 0},
     {5, 1, 34, 0, 12, 1, 19, 1, 39, 0, 4, 4, 9, 8, 5, 15, 17, 12, 2, 7, 11, 22, 15, 25, 6, 4, 20, 29, 24,
      26, 4, 33, 31, 6, 5, 10, 37}},
    {84, {2, 6, 1, 9, 0, 0},
     {8, 1, 30, 1, 35, 1, 18, 1, 7, 1, 11, 1, 6, 17, 13, 13, 9, 16, 10, 20, 22, 2, 24, 26, 5, 14, 29, 11,
      29, 13, 33}},
    {160, {1, 7, 1, 18, 0, 0},
     {5, 1, 23, 0, 29, 0, 34, 1, 50, 2, 16, 1, 52, 0, 4, 6, 4, 7, 5, 19, 21, 8, 18, 9, 19, 25, 27, 10, 24,
      11, 25, 31, 33, 29, 15, 11, 3, 36, 7, 12, 20, 43, 19, 40, 45, 46, 38, 49, 15, 15, 12}},
    {391, {1, 8, 1, 14, 0, 0},
     {44, 2, 24, 0, 30, 0, 34, 0, 41, 1, 47, 0, 15, 0, 17, 1, 4, 12, 6, 5, 7, 13, 23, 8, 20, 9, 21, 27,
      29, 10, 26, 11, 27, 5, 13, 32, 2, 37, 33, 38, 14, 40, 7, 43, 18}},
};

static void chain_found(const found_board *f)
{
    size_t length = CHUDRAVIK_TABLE_WORDS(f->counts);
    memcpy(words, f->table, 2 * length);
    must(read_board(f->counts, length) && chain_board(f->counts, length), "a board that was found is refused");
    printf("L %zu: %zu cubes stored, of %zu that there are\n", f->counts.latches, t.library.cubes,
           power_of_3(f->counts.latches));
    must(t.library.cubes == f->cubes, "a board that was found stores another number of cubes");
}

int main(void)
{
    twice_take_memory(&t);
    try_family((chudravik_counts){1, 1, 1, 0, 0, 0}, 4 * 3 * 4);
    try_family((chudravik_counts){1, 1, 1, 1, 0, 0}, 6 * 3 * 6 * 8);
    try_family((chudravik_counts){0, 2, 1, 0, 0, 0}, 4 * 3 * 4 * 3 * 4);
    try_family((chudravik_counts){1, 1, 1, 0, 1, 0}, 0);
    try_family((chudravik_counts){1, 1, 1, 0, 0, 1}, 0);
    try_family((chudravik_counts){1, 1, 0, 0, 1, 0}, 0);
    for (size_t i = 0; i < sizeof found / sizeof found[0]; i++)
        chain_found(&found[i]);
    return 0;
}

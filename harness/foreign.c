/* Circuits that other tools have written: foreign FILE.aag..
 *                                         foreign --binary FILE.aag
 *
 * Each file must be read; written back, it must be the same text up to its comment, but for noughts at the end of its first
 * line, which the tool shows where there are bad states or constraints; that text must read to the same
 * counts and words, and so must the file with bytes 13 and 10 at the end of each line, but not with the ending of one
 * line alone changed; and the report program's chain (w = 16, 65,536 bytes) must close or end, and then be judged, or be
 * refused by 15. Beside FILE.aag stands FILE.aig, the same circuit in the binary form by the same tool, which must be
 * read as that table with its operands larger first, and FILE.abc.aig, which a third tool made of it; what is written of
 * either must be the same bytes up to the comment. One line a file
 * goes to standard output, to be compared with the stored ones. Exits 1 on any failure.
 *
 * With --binary the file's circuit goes to standard output in the binary form, for another tool to look at. */
#include <stdio.h>
#include <string.h>

#include "chudravik.h"

enum { REPORT_INTERVAL = 16 };

/* One byte more than is read at most, so that a longer file is seen to be longer. */
static uint8_t text[CHUDRAVIK_MOST_TEXT + 1];
static uint8_t saved[2 * sizeof text];
static uint8_t written[CHUDRAVIK_MOST_WRITTEN];
static uint16_t table[CHUDRAVIK_MOST_TABLE_WORDS];
static uint16_t table_again[CHUDRAVIK_MOST_TABLE_WORDS];
static uint8_t cubes[CHUDRAVIK_MOST_CUBE_BYTES];
static uint8_t verdict[CHUDRAVIK_MOST_VERDICT_BYTES];
static uint8_t settled[CHUDRAVIK_RECORD_BYTES(CHUDRAVIK_MOST_LATCHES)];

static uint8_t binary[CHUDRAVIK_MOST_BINARY];

static int failed(const char *path, const char *what, size_t number)
{
    fprintf(stderr, "foreign: %s: %s (%zu)\n", path, what, number);
    return 0;
}

static int load(const char *path, size_t *text_bytes)
{
    FILE *file = fopen(path, "rb");
    if (file == NULL)
        return failed(path, "cannot be opened", 0);
    *text_bytes = fread(text, 1, sizeof text, file);
    int broken = ferror(file);
    fclose(file);
    return broken ? failed(path, "cannot be loaded", 0) : 1;
}

/* The comment starts with the first line that is just `c`: no line of a circuit is. */
static size_t bytes_before_comment(size_t text_bytes)
{
    size_t line = 0;
    while (line < text_bytes) {
        const uint8_t *end = memchr(text + line, '\n', text_bytes - line);
        size_t next = end == NULL ? text_bytes : (size_t)(end - text) + 1;
        if (next - line == 2 && text[line] == 'c')
            return line;
        line = next;
    }
    return text_bytes;
}

/* How many bytes of noughts the file's first line has behind what was written as its first line: ` 0`, some times. */
static size_t bytes_of_noughts(const uint8_t *made)
{
    size_t at = 0, bytes = 0;
    while (made[at] != '\n' && made[at] == text[at])
        at++;
    while (text[at + bytes] == ' ' && text[at + bytes + 1] == '0')
        bytes += 2;
    return bytes;
}

/* Whether the file begins with what was written, but for these noughts. */
static int begins_with(const uint8_t *made, size_t bytes, size_t noughts)
{
    size_t first = (size_t)((const uint8_t *)memchr(made, '\n', bytes) - made);
    return memcmp(made, text, first) == 0 && memcmp(made + first, text + first + noughts, bytes - first) == 0;
}

/* Written text leaves out a reset of 0, gives the own literal where there is no start value, and has no comment. The tool
 * does the same, so nothing but the comment and the noughts may differ. */
static int same_when_written(const char *path, chudravik_counts counts, size_t text_bytes, size_t *written_bytes)
{
    size_t words = CHUDRAVIK_TABLE_WORDS(counts);
    chudravik_write_answer answer = chudravik_write(counts, table, words, written, sizeof written);
    if (answer.number != CHUDRAVIK_ACCEPTED)
        return failed(path, "refused by the writer", answer.number);
    *written_bytes = answer.bytes;
    size_t noughts = bytes_of_noughts(written);
    if (answer.bytes + noughts != bytes_before_comment(text_bytes))
        return failed(path, "written with another length", answer.bytes);
    return begins_with(written, answer.bytes, noughts) ? 1 : failed(path, "written with other bytes", 0);
}

static int same_counts(chudravik_counts one, chudravik_counts other)
{
    return one.inputs == other.inputs && one.latches == other.latches && one.lamps == other.lamps &&
           one.gates == other.gates && one.bads == other.bads && one.constraints == other.constraints;
}

static int same_when_read_again(const char *path, chudravik_counts counts, size_t written_bytes)
{
    size_t words = CHUDRAVIK_TABLE_WORDS(counts);
    memset(table_again, 0xff, sizeof table_again);
    chudravik_read_answer again = chudravik_read(written, written_bytes, table_again, words);
    if (again.number != CHUDRAVIK_ACCEPTED)
        return failed(path, "refused when read again", again.number);
    if (!same_counts(again.counts, counts))
        return failed(path, "read again with other counts", 0);
    if (memcmp(table, table_again, words * sizeof table[0]) != 0)
        return failed(path, "read again with other words", 0);
    return 1;
}

/* The file as an office computer saves it, but for line number `odd`; the bytes of it. */
static size_t save_at_the_office(size_t text_bytes, int office, size_t odd)
{
    size_t bytes = 0, line = 0;
    for (size_t i = 0; i < text_bytes && bytes + 2 <= sizeof saved; i++) {
        if (text[i] == '\n' && office == (line++ != odd))
            saved[bytes++] = '\r';
        saved[bytes++] = text[i];
    }
    return bytes;
}

static size_t lines_of(size_t bytes)
{
    size_t lines = 0;
    for (size_t i = 0; i < bytes; i++)
        lines += text[i] == '\n';
    return lines;
}

/* 4 for a body line, 9 for the comment's, and where the first line is the odd one the second decides. */
static uint32_t number_due(size_t odd, size_t body_lines)
{
    return (odd == 0 ? 1 : odd) <= body_lines ? CHUDRAVIK_BODY_LINE : CHUDRAVIK_TRAILING;
}

static int one_ending_throughout(const char *path, chudravik_counts counts, size_t text_bytes)
{
    size_t words = CHUDRAVIK_TABLE_WORDS(counts);
    size_t body_lines =
        counts.inputs + counts.latches + counts.lamps + counts.bads + counts.constraints + counts.gates;
    size_t lines = lines_of(bytes_before_comment(text_bytes)) + (bytes_before_comment(text_bytes) < text_bytes);
    chudravik_read_answer answer = chudravik_read(saved, save_at_the_office(text_bytes, 1, SIZE_MAX), table_again, words);
    if (answer.number != CHUDRAVIK_ACCEPTED || !same_counts(answer.counts, counts) ||
        memcmp(table_again, table, words * sizeof *table) != 0)
        return failed(path, "another circuit with bytes 13 and 10", answer.number);
    for (int office = 0; office <= 1; office++)
        for (size_t odd = 0; odd < lines && lines > 1; odd++) {
            size_t bytes = save_at_the_office(text_bytes, office, odd);
            answer = chudravik_read(saved, bytes, table_again, words);
            if (answer.number != number_due(odd, body_lines))
                return failed(path, "another number with the ending of this line changed", odd);
        }
    return 1;
}

/* The name of a file beside this one: what stands behind the last point is another. */
static const char *beside(const char *path, const char *ending)
{
    static char name[4096];
    const char *point = strrchr(path, '.');
    snprintf(name, sizeof name, "%.*s%s", (int)(point == NULL ? 0 : point - path), path, ending);
    return name;
}

/* Loads and reads a binary file, into the table for the second reading; what is written of it is the same again. */
static int same_when_written_binary(const char *path, chudravik_counts *counts)
{
    size_t bytes = 0;
    if (!load(path, &bytes))
        return 0;
    chudravik_read_answer read = chudravik_read_binary(text, bytes, table_again, CHUDRAVIK_MOST_TABLE_WORDS);
    if (read.number != CHUDRAVIK_ACCEPTED)
        return failed(path, "refused by the reader", read.number);
    *counts = read.counts;
    chudravik_write_answer made =
        chudravik_write_binary(*counts, table_again, CHUDRAVIK_MOST_TABLE_WORDS, binary, sizeof binary);
    size_t noughts = made.number == CHUDRAVIK_ACCEPTED ? bytes_of_noughts(binary) : 0, due = made.bytes + noughts;
    if (made.number != CHUDRAVIK_ACCEPTED || due > bytes || !begins_with(binary, made.bytes, noughts))
        return failed(path, "written with other bytes", made.number);
    if (due < bytes && text[due] != 'c')
        return failed(path, "written with another length", made.bytes);
    return 1;
}

/* The table of the text, larger operands first, is the table of its binary twin. */
static int same_twin(const char *path, chudravik_counts counts)
{
    size_t words = CHUDRAVIK_TABLE_WORDS(counts), gates = words - 2 * counts.gates;
    chudravik_counts twin, third;
    if (!same_when_written_binary(beside(path, ".aig"), &twin))
        return 0;
    if (!same_counts(twin, counts))
        return failed(path, "other counts in the binary form", 0);
    for (size_t i = 0; i < words; i++) {
        size_t other = i < gates ? i : gates + ((i - gates) ^ 1);
        uint16_t larger = table[i] > table[other] ? table[i] : table[other];
        uint16_t smaller = table[i] > table[other] ? table[other] : table[i];
        if (table_again[i] != (i < gates || (i - gates) % 2 == 0 ? larger : smaller))
            return failed(path, "another word in the binary form", i);
    }
    if (!same_when_written_binary(beside(path, ".abc.aig"), &third))
        return 0;
    /* That tool makes of bad states lamps, or of lamps bad states where there are constraints. */
    return third.inputs >= counts.inputs && third.constraints == counts.constraints &&
                   third.lamps + third.bads == counts.lamps + counts.bads
               ? 1
               : failed(path, "other lamps in the third form", 0);
}

static int write_binary(const char *path)
{
    size_t text_bytes = 0;
    if (!load(path, &text_bytes))
        return 0;
    chudravik_read_answer read = chudravik_read(text, text_bytes, table, CHUDRAVIK_MOST_TABLE_WORDS);
    if (read.number != CHUDRAVIK_ACCEPTED)
        return failed(path, "refused by the reader", read.number);
    chudravik_write_answer made =
        chudravik_write_binary(read.counts, table, CHUDRAVIK_MOST_TABLE_WORDS, binary, sizeof binary);
    return made.number == CHUDRAVIK_ACCEPTED && fwrite(binary, 1, made.bytes, stdout) == made.bytes;
}

/* Those of the lamps, and behind a word those of the bad states. */
static int print_verdicts(const char *path, chudravik_counts counts)
{
    static const char *const words[] = {"open", "never", "always"};
    for (size_t i = 0; i < counts.lamps + counts.bads; i++) {
        unsigned field = CHUDRAVIK_FIELD(verdict, i);
        if (field >= sizeof words / sizeof words[0])
            return failed(path, "pair 11 in the verdict in this place", i);
        printf("%s %s", i == counts.lamps ? " bad" : "", words[field]);
    }
    putchar('\n');
    return 1;
}

static int report_run(const char *path, chudravik_counts counts)
{
    const char *slash = strrchr(path, '/');
    size_t words = CHUDRAVIK_TABLE_WORDS(counts);
    chudravik_chain_answer chain = chudravik_chain(counts, table, words, REPORT_INTERVAL, cubes, sizeof cubes);
    if (chain.number != CHUDRAVIK_ACCEPTED && chain.number != CHUDRAVIK_NO_ROOM)
        return failed(path, "refused as a chain", chain.number);
    printf("%s inputs %zu latches %zu lamps %zu gates %zu", slash == NULL ? path : slash + 1, counts.inputs,
           counts.latches, counts.lamps, counts.gates);
    if (counts.bads + counts.constraints > 0)
        printf(" bads %zu constraints %zu", counts.bads, counts.constraints);
    if (chain.number == CHUDRAVIK_NO_ROOM) {
        printf(" refused 15 cubes %zu\n", chain.cubes);
        return 1;
    }
    chudravik_judge_answer judge = chudravik_judge(counts, table, words, cubes, sizeof cubes, chain.cubes, chain.back,
                                                   verdict, sizeof verdict, settled, sizeof settled);
    if (judge.number != CHUDRAVIK_ACCEPTED)
        return failed(path, "refused by the judge", judge.number);
    if (chain.back == chain.cubes)
        printf(" cubes %zu ended:", chain.cubes);
    else
        printf(" cubes %zu back %zu settled %zu:", chain.cubes, chain.back, judge.settled);
    return print_verdicts(path, counts);
}

static int examine(const char *path)
{
    size_t text_bytes = 0, written_bytes = 0;
    if (!load(path, &text_bytes))
        return 0;
    chudravik_read_answer answer = chudravik_read(text, text_bytes, table, CHUDRAVIK_MOST_TABLE_WORDS);
    if (answer.number != CHUDRAVIK_ACCEPTED)
        return failed(path, "refused by the reader", answer.number);
    return same_when_written(path, answer.counts, text_bytes, &written_bytes) &&
           same_when_read_again(path, answer.counts, written_bytes) &&
           one_ending_throughout(path, answer.counts, text_bytes) && same_twin(path, answer.counts) &&
           report_run(path, answer.counts);
}

int main(int argc, char **argv)
{
    if (argc < 2) {
        fprintf(stderr, "usage: foreign FILE.aag.. | foreign --binary FILE.aag\n");
        return 1;
    }
    if (argc == 3 && strcmp(argv[1], "--binary") == 0)
        return write_binary(argv[2]) && fflush(stdout) == 0 ? 0 : 1;
    int good = 1;
    for (int i = 1; i < argc; i++)
        good &= examine(argv[i]);
    return good && fflush(stdout) == 0 ? 0 : 1;
}

/* The calls that the fuzzer found, without a fuzzer: each string of the corpus (corpus.h) to the library and to the
 * simulator.
 *
 * found CORPUS LEAST            makes every call; fails where there are fewer than LEAST
 * found --unpack CORPUS FOLDER  a file for each string, for a fuzzer to start from
 * found --pack CORPUS FILE..    the corpus of these strings
 */
#include "corpus.h"
#include "encoded.h"

#include <stdio.h>
#include <stdlib.h>
#include <string.h>

static corpus all;

static void must_agree(twice *t, size_t number)
{
    if (encoded_make(t, all.at[number].string, all.at[number].bytes, 1))
        return;
    fprintf(stderr, "found: string %zu: %s\n", number, t->difference);
    twice_show(t);
    exit(1);
}

static int make_all(const char *path, size_t least)
{
    static twice t;
    corpus_load(&all, path);
    twice_take_memory(&t);
    for (size_t i = 0; i < all.count; i++)
        must_agree(&t, i);
    printf("%zu strings", all.count);
    for (size_t call = 0; call < CALLS; call++)
        printf(", %s %zu (%zu accepted)", call_names[call], t.made[call], t.accepted[call]);
    putchar('\n');
    if (all.count < least) {
        fprintf(stderr, "found: there must be at least %zu strings\n", least);
        return 1;
    }
    return 0;
}

static FILE *must_open(const char *path, const char *mode)
{
    FILE *file = fopen(path, mode);
    if (file == NULL) {
        perror(path);
        exit(2);
    }
    return file;
}

static void must_close(FILE *file, const char *path)
{
    if (ferror(file) || fclose(file) != 0) {
        perror(path);
        exit(2);
    }
}

static int unpack(const char *path, const char *folder)
{
    corpus_load(&all, path);
    for (size_t i = 0; i < all.count; i++) {
        char name[4096];
        snprintf(name, sizeof name, "%s/%04zu", folder, i);
        FILE *file = must_open(name, "wb");
        fwrite(all.at[i].string, 1, all.at[i].bytes, file);
        must_close(file, name);
    }
    return 0;
}

static void append(FILE *to, const char *path)
{
    static uint8_t string[CORPUS_LONGEST + 1];
    FILE *from = must_open(path, "rb");
    size_t bytes = fread(string, 1, sizeof string, from);
    must_close(from, path);
    if (bytes > CORPUS_LONGEST) {
        fprintf(stderr, "found: %s is too long\n", path);
        exit(2);
    }
    fputc((int)(bytes & 255), to);
    fputc((int)(bytes >> 8), to);
    fwrite(string, 1, bytes, to);
}

static int pack(const char *path, char **files)
{
    FILE *to = must_open(path, "wb");
    for (; *files != NULL; files++)
        append(to, *files);
    must_close(to, path);
    return 0;
}

int main(int argc, char **argv)
{
    if (argc == 4 && strcmp(argv[1], "--unpack") == 0)
        return unpack(argv[2], argv[3]);
    if (argc > 3 && strcmp(argv[1], "--pack") == 0)
        return pack(argv[2], argv + 3);
    if (argc == 3)
        return make_all(argv[1], strtoul(argv[2], NULL, 10));
    fputs("usage: found CORPUS LEAST | --unpack CORPUS FOLDER | --pack CORPUS FILE..\n", stderr);
    return 2;
}

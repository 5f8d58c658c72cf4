/* See corpus.h. */
#include "corpus.h"

#include <stdio.h>
#include <stdlib.h>

static uint8_t *load(const char *path, size_t *bytes)
{
    FILE *file = fopen(path, "rb");
    long end = file == NULL || fseek(file, 0, SEEK_END) != 0 ? -1 : ftell(file);
    uint8_t *all = end < 0 ? NULL : malloc((size_t)end + 1);
    if (all == NULL || fseek(file, 0, SEEK_SET) != 0 || fread(all, 1, (size_t)end, file) != (size_t)end) {
        fprintf(stderr, "corpus: %s cannot be loaded\n", path);
        exit(2);
    }
    fclose(file);
    *bytes = (size_t)end;
    return all;
}

static void broken(const char *path)
{
    fprintf(stderr, "corpus: %s is not as it must be\n", path);
    exit(2);
}

/* The strings stay where the file was loaded to, for as long as the program runs. */
void corpus_load(corpus *all, const char *path)
{
    size_t bytes, length;
    const uint8_t *file = load(path, &bytes);
    all->count = 0;
    for (size_t at = 0; at < bytes; at += 2 + length) {
        length = bytes - at < 2 ? 0 : file[at] + (size_t)256 * file[at + 1];
        if (bytes - at < 2 || bytes - at - 2 < length || all->count == CORPUS_MOST)
            broken(path);
        all->at[all->count++] = (corpus_string){file + at + 2, length};
    }
}

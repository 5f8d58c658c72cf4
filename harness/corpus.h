/* The strings that the fuzzer found (encoded.h), in one file: each has its length in front of it, two bytes, the lower
 * first.
 */
#ifndef CORPUS_H
#define CORPUS_H

#include <stddef.h>
#include <stdint.h>

enum { CORPUS_MOST = 4096, CORPUS_LONGEST = 65535 };

typedef struct {
    const uint8_t *string;
    size_t bytes;
} corpus_string;

typedef struct {
    size_t count;
    corpus_string at[CORPUS_MOST];
} corpus;

/* Ends the program where the file is not as it must be. */
void corpus_load(corpus *all, const char *path);

#endif

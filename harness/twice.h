/* A call made twice on equal memory: to the library, in guarded buffers, and to the simulators. Answers and every lent
 * byte must be equal afterwards, given bytes and canaries as they were. A `twice` has all that its calls need, so that
 * threads which have one each share nothing.
 */
#ifndef TWICE_H
#define TWICE_H

#include "binary.h"
#include "drawing.h"
#include "guarded.h"
#include "simulator.h"

enum call { READ, READ_ANY, READ_BINARY, READ_BEGINNERS, WRITE, WRITE_BINARY, TICK, CHAIN, CHAIN_BEGINNERS, JUDGE, COVER, WHY, MERGE, CALLS };

enum role { TEXT, TABLE, LIST, STATE, SWITCHES, NEXT, LAMPS, CUBES, VERDICT, SETTLED, REASON, ONE, OTHER, MERGED, ROLES };

extern const char *const call_names[CALLS];
extern const char *const role_names[ROLES];

enum { LONGEST_BUFFER = 70016 };

/* Where the library's copy lies. Only a buffer of no bytes can be a null pointer; one with bytes is laid as by
 * LAID_BEHIND then. */
enum laid { LAID_BEHIND = GUARD_BEHIND, LAID_BEFORE = GUARD_BEFORE, LAID_NULL, LAID_WAYS };

/* One buffer in its two copies, and as it was before the call. */
typedef struct {
    bool used;
    bool given; /* and so not to be changed */
    bool null;  /* the library is handed a null pointer */
    size_t bytes;
    guarded library;
    uint8_t *simulated;
    uint8_t *before;
} lent;

/* Whatever a call can answer. What one does not answer is 0. */
typedef struct {
    uint32_t number;
    chudravik_counts counts;
    size_t variables;
    size_t bytes;
    size_t cubes;
    size_t back;
    size_t settled;
    size_t cube;
} answer;

/* What a call is handed besides its counts; a merge has no counts. */
typedef struct {
    size_t w;
    size_t n;
    size_t j;
    size_t lamp;
    size_t fields;
} numbers;

typedef struct {
    enum call call;
    chudravik_counts counts;
    numbers with;
    lent lent[ROLES];
    answer library;
    answer simulator;
    char difference[160];
    size_t made[CALLS], accepted[CALLS]; /* by twice_make, since the memory was taken */
} twice;

void twice_take_memory(twice *t);

/* Nothing is lent yet. */
void twice_begin(twice *t, enum call call, chudravik_counts counts, numbers with);

/* What a buffer is to hold before the call is laid here first. */
uint8_t *twice_content(twice *t, enum role role);

/* Lays both copies of so many bytes of that content. */
void twice_lend(twice *t, enum role role, bool given, size_t bytes, enum laid laid);

/* Makes both calls. Where anything differs, or was touched that should not be, it answers false, and `difference` says
 * what. */
bool twice_make(twice *t);

/* Makes the library's call once more, on the buffers as it left them, and compares all but the canaries: what it fills
 * does not depend on what was there. */
bool twice_again(twice *t);

/* The buffer as the library has it; null where it was handed a null pointer. */
uint8_t *of_library(const twice *t, enum role role);

uint16_t *library_table(const twice *t);

size_t table_words(const twice *t);

/* The call and its buffers, on the error stream. */
void twice_show(const twice *t);

/* The buffer that an address lies in or beside, or ROLES. */
enum role twice_near(const twice *t, const void *address);

#endif

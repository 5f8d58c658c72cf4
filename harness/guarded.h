/* Memory for a buffer that must not be left: a page that cannot be touched lies directly behind its last byte, or
 * directly before its first, and canary bytes fill the slack on the other side.
 */
#ifndef GUARDED_H
#define GUARDED_H

#include <stdbool.h>
#include <stddef.h>
#include <stdint.h>

/* Regions of 1, 2, 4 .. pages, so that a small buffer has little slack to look through. */
enum { GUARDED_SIZES = 8 };

typedef struct {
    uint8_t *region[GUARDED_SIZES]; /* mapped at first use, guard pages on either side */
    size_t size;                    /* which of them holds the buffer */
    uint8_t *start;
    size_t bytes;
} guarded;

enum guarded_side { GUARD_BEHIND, GUARD_BEFORE };

/* Lays a buffer of so many bytes out, with its canaries; what it holds is not set. A buffer of no bytes is an address
 * in a page that cannot be touched. */
uint8_t *guarded_lay(guarded *memory, size_t bytes, enum guarded_side side);

/* Whether every canary is as it was laid. */
bool guarded_whole(const guarded *memory);

/* Whether the address lies in a region of this memory or in one of its guard pages. */
bool guarded_near(const guarded *memory, const void *address);

#endif

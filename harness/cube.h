/* The latches of a stored cube as a state record, and a state record as a cube: the mark is all that is between them. */
#ifndef CUBE_H
#define CUBE_H

#include "chudravik.h"

#include <string.h>

static inline void state_of_cube(const uint8_t *cube, size_t latches, uint8_t *state)
{
    memset(state, 0, CHUDRAVIK_RECORD_BYTES(latches));
    for (size_t i = 0; i < latches; i++)
        state[i / 4] |= (uint8_t)(CHUDRAVIK_LATCH(cube, i) << (6 - 2 * (i % 4)));
}

static inline void cube_of_state(const uint8_t *state, size_t latches, unsigned mark, uint8_t *cube)
{
    memset(cube, 0, CHUDRAVIK_CUBE_BYTES(latches));
    cube[0] = (uint8_t)(mark << 6);
    for (size_t i = 0; i < latches; i++)
        cube[(i + 1) / 4] |= (uint8_t)(CHUDRAVIK_FIELD(state, i) << (6 - 2 * ((i + 1) % 4)));
}

/* Every field but the mark is unknown. */
static inline void cube_of_nothing(size_t latches, unsigned mark, uint8_t *cube)
{
    memset(cube, 0, CHUDRAVIK_CUBE_BYTES(latches));
    cube[0] = (uint8_t)(mark << 6);
}

static inline void put_latch(uint8_t *cube, size_t i, unsigned field)
{
    unsigned shift = (unsigned)(6 - 2 * ((i + 1) % 4));
    cube[(i + 1) / 4] = (uint8_t)((cube[(i + 1) / 4] & ~(3u << shift)) | field << shift);
}

#endif

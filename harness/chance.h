/* Chance for the tests: a seed and a number mean the same draws everywhere, and each thread has its own. Draws are never
 * two in one expression whose order C leaves open. */
#ifndef CHANCE_H
#define CHANCE_H

#include <stdbool.h>
#include <stddef.h>
#include <stdint.h>

static _Thread_local uint64_t dice;

static inline uint64_t draw(void)
{
    dice += UINT64_C(0xA3C59AC3D1F2B86B);
    uint64_t mixed = dice;
    mixed = (mixed ^ (mixed >> 31)) * UINT64_C(0x9D6E5F3B17C8A24D);
    mixed = (mixed ^ (mixed >> 29)) * UINT64_C(0xC8B1E6D94F35A70B);
    return mixed ^ (mixed >> 32);
}

/* What is drawn next depends on these two alone, and not on what was drawn before. */
static inline void throw_dice(uint64_t seed, uint64_t number)
{
    dice = seed;
    dice = draw() ^ (number * UINT64_C(0xD1B54F3A96E7C285));
    draw();
}

static inline size_t below(size_t bound)
{
    return bound == 0 ? 0 : (size_t)(draw() % bound);
}

static inline size_t between(size_t least, size_t most)
{
    return least + below(most - least + 1);
}

static inline bool chance(unsigned percent)
{
    return below(100) < percent;
}

#endif

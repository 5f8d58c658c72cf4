/* See guarded.h. */
#define _DEFAULT_SOURCE
#include "guarded.h"

#include <stdio.h>
#include <stdlib.h>
#include <sys/mman.h>
#include <unistd.h>

static size_t page(void)
{
    return (size_t)sysconf(_SC_PAGESIZE);
}

/* More than one page, so that a stride past the buffer does not land in the next mapping. */
static size_t guard_bytes(void)
{
    return 16 * page();
}

static size_t region_bytes(size_t size)
{
    return page() << size;
}

static uint8_t *map_region(size_t size)
{
    size_t whole = region_bytes(size) + 2 * guard_bytes();
    uint8_t *memory = mmap(NULL, whole, PROT_NONE, MAP_PRIVATE | MAP_ANONYMOUS, -1, 0);
    if (memory == MAP_FAILED || mprotect(memory + guard_bytes(), region_bytes(size), PROT_READ | PROT_WRITE) != 0) {
        perror("guarded");
        exit(2);
    }
    return memory + guard_bytes();
}

static size_t size_for(size_t bytes)
{
    size_t size = 0;
    while (region_bytes(size) < bytes)
        if (++size == GUARDED_SIZES) {
            fputs("guarded: no region is that large\n", stderr);
            exit(2);
        }
    return size;
}

/* By place, so that bytes moved from elsewhere in the slack would not pass for canaries. */
static uint8_t canary(size_t place)
{
    return (uint8_t)(place * 167 + (place >> 8) * 59 + 91);
}

static const uint8_t *region_of(const guarded *memory)
{
    return memory->region[memory->size];
}

static void lay_canaries(guarded *memory)
{
    uint8_t *region = memory->region[memory->size];
    size_t first = (size_t)(memory->start - region), behind = first + memory->bytes;
    for (size_t i = 0; i < first; i++)
        region[i] = canary(i);
    for (size_t i = behind; i < region_bytes(memory->size); i++)
        region[i] = canary(i);
}

uint8_t *guarded_lay(guarded *memory, size_t bytes, enum guarded_side side)
{
    size_t size = size_for(bytes);
    if (memory->region[size] == NULL)
        memory->region[size] = map_region(size);
    uint8_t *region = memory->region[size];
    memory->size = size;
    memory->bytes = bytes;
    memory->start = side == GUARD_BEHIND ? region + region_bytes(size) - bytes : region;
    if (bytes != 0)
        lay_canaries(memory);
    else if (side == GUARD_BEFORE)
        memory->start = region - page();
    return memory->start;
}

bool guarded_whole(const guarded *memory)
{
    if (memory->bytes == 0)
        return true;
    const uint8_t *region = region_of(memory);
    size_t first = (size_t)(memory->start - region), behind = first + memory->bytes;
    for (size_t i = 0; i < first; i++)
        if (region[i] != canary(i))
            return false;
    for (size_t i = behind; i < region_bytes(memory->size); i++)
        if (region[i] != canary(i))
            return false;
    return true;
}

bool guarded_near(const guarded *memory, const void *address)
{
    uintptr_t at = (uintptr_t)address;
    for (size_t size = 0; size < GUARDED_SIZES; size++) {
        uintptr_t first = (uintptr_t)memory->region[size];
        if (first != 0 && at >= first - guard_bytes() && at < first + region_bytes(size) + guard_bytes())
            return true;
    }
    return false;
}

/*
 * What the tests of the memory in a buffer share: buffers with guards around them, the calls of
 * their memory, and what the header tells of the room in them.
 */
#ifndef BUFFER_H
#define BUFFER_H

#include "check.h"

enum { MOST = 1 << 16, GUARD = 32, ALIGN = 16 };

static uint8_t space[MOST + 2 * GUARD];

/* The bytes of the space from this distance to a multiple of 16 on, with guards around `size`. */
static inline uint8_t *guarded(size_t distance, size_t size)
{
    uint8_t *buffer = space + GUARD - (uintptr_t)space % ALIGN + distance;
    memset(buffer - ALIGN, 0xCC, ALIGN);
    memset(buffer + size, 0xCC, ALIGN);
    return buffer;
}

static inline void check_guards(const uint8_t *buffer, size_t size)
{
    for (size_t i = 0; i < ALIGN; i++) {
        CHECK(buffer[-1 - (ptrdiff_t)i] == 0xCC && buffer[size + i] == 0xCC);
    }
}

static inline void *take(amihunk_memory memory, size_t size)
{
    return memory.allocate(memory.context, size, ALIGN);
}

static inline void give_back(amihunk_memory memory, void *bytes)
{
    memory.release(memory.context, bytes);
}

static inline void *change(amihunk_memory memory, void *bytes, size_t kept, size_t size)
{
    return memory.resize(memory.context, bytes, kept, size, ALIGN);
}

/* What a block of this length takes of the buffer, as the header tells, but for what is left over.
 */
static inline size_t cost(size_t size)
{
    size_t whole = (size + 8 + 15) / 16 * 16;
    return whole < 32 ? 32 : whole;
}

/* How many bytes are taken at once at most: 32 for each doubling from 4 to the size. */
static inline size_t taken_at_once(size_t size)
{
    size_t doublings = 0;
    while ((size_t)4 << doublings < size) {
        doublings++;
    }
    return 32 * doublings;
}

/* The length of the longest block of a memory of which nothing is taken; 0 if it has none. */
static inline size_t longest(amihunk_memory memory, size_t size)
{
    size_t least = 0;
    while (least < size) {
        size_t middle = size - (size - least) / 2;
        void *bytes = take(memory, middle);
        if (bytes != NULL) {
            give_back(memory, bytes);
            least = middle;
        } else {
            size = middle - 1;
        }
    }
    return least;
}

#endif

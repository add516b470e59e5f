/*
 * A memory of a handle in one buffer. The free blocks are in lists by size, and a map tells which
 * lists have any, so that an allocation looks at the first blocks of two lists at most. A block
 * that is released or resized finds those beside it by their sizes. So no time grows with the
 * number of blocks.
 *
 * The buffer may be declared as an array of any type. It is read and written by memcpy alone, which
 * C allows for every object; through a pointer to a type that is not the array's, it does not.
 */
#include "amihunk.h"

#include <string.h>

/*
 * The room is the part of the buffer that is used. A place is a distance from where it begins, in
 * bytes, and a word is a number there. The room has
 *
 *   the map, with a bit for each list, set if there is a block in it;
 *   the heads, with a word for each list: the place of its first block, or 0;
 *   the blocks, each up to the next;
 *   the end: a word that is like the beginning of a block in use.
 *
 * There are heads up to that of the list for the longest block that fits. A block begins with a
 * word: its size, which is a multiple of UNIT, and two bits. In use, the caller's bytes follow, at
 * an address that is a multiple of UNIT. A free block has no other one beside it, and three more
 * words:
 *
 *   NEXT, the place of the next block in its list, or 0;
 *   FROM, the place of the word that leads here: a head, or NEXT of another block;
 *   at its end, its size.
 */
enum { WORD = sizeof(size_t), NEXT = WORD, FROM = 2 * WORD };
enum { UNIT = 16, LEAST_POWER = 5, LEAST = 1 << LEAST_POWER };
enum { MAP_WORDS = 4, MAP_BITS = 64, LISTS = MAP_WORDS * MAP_BITS, HEADS = MAP_WORDS * WORD };

/* The bits of a block: it is free; the block that ends where it begins is free. */
enum { FREE = 1, AFTER_FREE = 2 };

_Static_assert(sizeof(size_t) == 8 && sizeof(uintptr_t) == 8, "a word of the map has 64 bits");
_Static_assert(LEAST >= 4 * WORD, "the words of a free block do not overlap");

static size_t get(const unsigned char *room, size_t place)
{
    size_t word;
    memcpy(&word, room + place, WORD);
    return word;
}

static void set(unsigned char *room, size_t place, size_t word)
{
    memcpy(room + place, &word, WORD);
}

/* ------------------------------ Lists ------------------------------ */

/* The number of the highest bit that is set. */
static size_t highest_bit(size_t number)
{
    size_t bit = (number >> 32 != 0) * 32;
    bit += (number >> bit >> 16 != 0) * 16;
    bit += (number >> bit >> 8 != 0) * 8;
    bit += (number >> bit >> 4 != 0) * 4;
    bit += (number >> bit >> 2 != 0) * 2;
    return bit + (number >> bit >> 1);
}

/*
 * The list for blocks of a size. From LEAST on there are four from each power of two to the next,
 * so that the longest block of a list is less than a quarter longer than the shortest.
 */
static size_t list_of(size_t size)
{
    size_t power = highest_bit(size);
    return 4 * (power - LEAST_POWER) + (size >> (power - 2)) % 4;
}

_Static_assert(4 * (63 - LEAST_POWER) + 3 < LISTS, "each list has its bit");

static size_t head_of(size_t list)
{
    return HEADS + list * WORD;
}

/* The first list from `list` on in which there is a block; LISTS if there is none. */
static size_t next_list(const unsigned char *room, size_t list)
{
    size_t rest = ~(size_t)0 << list % MAP_BITS;
    for (size_t word = list / MAP_BITS; word < MAP_WORDS; word++) {
        size_t bits = get(room, word * WORD) & rest;
        if (bits != 0) {
            return word * MAP_BITS + highest_bit(bits & (~bits + 1));
        }
        rest = ~(size_t)0;
    }
    return LISTS;
}

/* Tells the map that a list has its first block, or has no more. */
static void flip_in_map(unsigned char *room, size_t list)
{
    size_t word = list / MAP_BITS * WORD;
    set(room, word, get(room, word) ^ (size_t)1 << list % MAP_BITS);
}

/* Puts a block in front of the list for its size. */
static void put_in(unsigned char *room, size_t block, size_t size)
{
    size_t list = list_of(size);
    size_t next = get(room, head_of(list));
    set(room, block + NEXT, next);
    set(room, block + FROM, head_of(list));
    set(room, head_of(list), block);
    if (next != 0) {
        set(room, next + FROM, block + NEXT);
    } else {
        flip_in_map(room, list);
    }
}

/* Takes a block out of the list for its size. */
static void take_out(unsigned char *room, size_t block, size_t size)
{
    size_t list = list_of(size);
    size_t next = get(room, block + NEXT);
    size_t from = get(room, block + FROM);
    set(room, from, next);
    if (next != 0) {
        set(room, next + FROM, from);
    } else if (from == head_of(list)) {
        flip_in_map(room, list);
    }
}

/* ------------------------------ Blocks ------------------------------ */

/* The size of a block for this many bytes; 0 where there is no such number. */
static size_t whole(size_t size)
{
    if (size > SIZE_MAX - WORD - UNIT) {
        return 0;
    }
    size_t needed = (size + WORD + UNIT - 1) / UNIT * UNIT;
    return needed < LEAST ? LEAST : needed;
}

static size_t size_of(const unsigned char *room, size_t block)
{
    return get(room, block) / UNIT * UNIT;
}

/* The size of a block if it is free; else 0. */
static size_t free_size(const unsigned char *room, size_t block)
{
    return (get(room, block) & FREE) != 0 ? size_of(room, block) : 0;
}

/* Makes a free block. The blocks beside it are in use. */
static void make_free(unsigned char *room, size_t block, size_t size)
{
    set(room, block, size | FREE);
    set(room, block + size - WORD, size);
    set(room, block + size, get(room, block + size) | AFTER_FREE);
    put_in(room, block, size);
}

/*
 * Makes a block in use, of `needed` bytes of the `size` that it has, which are in no list. What is
 * left over becomes a free block if it is long enough for one.
 */
static void make_used(unsigned char *room, size_t block, size_t size, size_t needed)
{
    size_t after_free = get(room, block) & AFTER_FREE;
    if (size - needed >= LEAST) {
        make_free(room, block + needed, size - needed);
        size = needed;
    } else {
        set(room, block + size, get(room, block + size) & ~(size_t)AFTER_FREE);
    }
    set(room, block, size | after_free);
}

/*
 * A free block of at least this size, or 0. The first one of the list for the size may be too
 * short, but each one of a later list is long enough.
 */
static size_t find(const unsigned char *room, size_t size)
{
    size_t list = next_list(room, list_of(size));
    if (list == list_of(size)) {
        size_t block = get(room, head_of(list));
        if (size_of(room, block) >= size) {
            return block;
        }
        list = next_list(room, list + 1);
    }
    return list != LISTS ? get(room, head_of(list)) : 0;
}

/* The block whose bytes are at this address. */
static size_t block_of(const unsigned char *room, const void *bytes)
{
    return (size_t)((const unsigned char *)bytes - room) - WORD;
}

/* ------------------------------ The memory ------------------------------ */

static void *allocate(void *context, size_t size, size_t align)
{
    unsigned char *room = context;
    size_t needed = whole(size);
    (void)align;
    if (room == NULL || needed == 0) {
        return NULL;
    }
    size_t block = find(room, needed);
    if (block == 0) {
        return NULL;
    }
    size_t found = size_of(room, block);
    take_out(room, block, found);
    make_used(room, block, found, needed);
    return room + block + WORD;
}

static void release(void *context, void *bytes)
{
    unsigned char *room = context;
    size_t block = block_of(room, bytes);
    size_t size = size_of(room, block);
    size_t after = free_size(room, block + size);
    if (after != 0) {
        take_out(room, block + size, after);
        size += after;
    }
    if ((get(room, block) & AFTER_FREE) != 0) {
        size_t before = get(room, block - WORD);
        block -= before;
        size += before;
        take_out(room, block, before);
    }
    make_free(room, block, size);
}

static void *resize(void *context, void *bytes, size_t kept, size_t size, size_t align)
{
    unsigned char *room = context;
    size_t block = block_of(room, bytes);
    size_t needed = whole(size);
    size_t had = size_of(room, block);
    size_t after = free_size(room, block + had);
    if (needed != 0 && needed <= had + after) {
        if (after != 0) {
            take_out(room, block + had, after);
        }
        make_used(room, block, had + after, needed);
        return bytes;
    }
    void *moved = allocate(room, size, align);
    if (moved != NULL) {
        memcpy(moved, bytes, kept);
        release(room, bytes);
    }
    return moved;
}

amihunk_memory amihunk_in_buffer(void *buffer, size_t size)
{
    amihunk_memory memory = {allocate, resize, release, NULL};
    if (buffer == NULL || size < LEAST) {
        return memory;
    }
    size_t first = head_of(list_of(size) + 1);
    size_t skipped = (UNIT - ((uintptr_t)buffer + first + WORD) % UNIT) % UNIT;
    if (size >= skipped + first + LEAST + WORD) {
        unsigned char *room = (unsigned char *)buffer + skipped;
        size_t blocks = (size - skipped - first - WORD) / UNIT * UNIT;
        memset(room, 0, first);
        set(room, first + blocks, 0);
        make_free(room, first, blocks);
        memory.context = room;
    }
    return memory;
}

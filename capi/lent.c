/*
 * Hunks in memory of the caller: a loader takes the blocks of the places as the rooms of its hunks.
 */
#include "seam.h"

/*
 * The memory of a loader that makes hunks in blocks of the caller: that of its handle, and these
 * blocks, which are never taken back. They are the rooms of the hunks, and the bases follow them.
 */
struct lent {
    amihunk_memory memory;
    size_t count;
    void *blocks[]; /* in ascending order */
};

static bool is_lent(const struct lent *lent, const void *block)
{
    size_t first = 0;
    size_t end = lent->count;
    while (first < end) {
        size_t middle = first + (end - first) / 2;
        if ((uintptr_t)lent->blocks[middle] < (uintptr_t)block) {
            first = middle + 1;
        } else {
            end = middle;
        }
    }
    return first < lent->count && lent->blocks[first] == block;
}

static void *allocate_beside(void *context, size_t size, size_t align)
{
    const amihunk_memory *memory = &((struct lent *)context)->memory;
    return memory->allocate(memory->context, size, align);
}

/* A block that is lent is as long as its hunk, so it is not asked for more. */
static void *resize_beside(void *context, void *block, size_t kept, size_t size, size_t align)
{
    struct lent *lent = context;
    return is_lent(lent, block) ? NULL : resized(&lent->memory, block, kept, size, align);
}

static void release_beside(void *context, void *block)
{
    struct lent *lent = context;
    if (!is_lent(lent, block)) {
        lent->memory.release(lent->memory.context, block);
    }
}

static amihunk_memory beside(struct lent *lent)
{
    return (amihunk_memory){allocate_beside, resize_beside, release_beside, lent};
}

void forget_lent(const amihunk_memory *memory)
{
    if (memory->release == release_beside) {
        struct lent *lent = memory->context;
        lent->memory.release(lent->memory.context, lent);
    }
}

/* Lets a block sink to its place in a heap, in which none is below a lower one. */
static void sink(void **blocks, size_t count, size_t place)
{
    for (size_t below = 2 * place + 1; below < count; below = 2 * place + 1) {
        if (below + 1 < count && (uintptr_t)blocks[below] < (uintptr_t)blocks[below + 1]) {
            below++;
        }
        if ((uintptr_t)blocks[place] >= (uintptr_t)blocks[below]) {
            return;
        }
        void *block = blocks[place];
        blocks[place] = blocks[below];
        blocks[below] = block;
        place = below;
    }
}

static void sort_blocks(void **blocks, size_t count)
{
    for (size_t place = count / 2; place > 0; place--) {
        sink(blocks, count, place - 1);
    }
    for (size_t left = count; left > 1; left--) {
        void *block = blocks[0];
        blocks[0] = blocks[left - 1];
        blocks[left - 1] = block;
        sink(blocks, left - 1, 0);
    }
}

/* The bases after a list of blocks, which has room for as many as there are places. */
static uint32_t *bases_of(struct lent *lent, size_t count)
{
    return (uint32_t *)(lent->blocks + count);
}

/* The list of the blocks of places, and their bases, in a memory; NULL if it has no room. */
static struct lent *lend(const amihunk_memory *memory, const amihunk_place *places, size_t count)
{
    size_t size = sizeof(struct lent) + count * (sizeof(void *) + sizeof(uint32_t));
    struct lent *lent = memory->allocate(memory->context, size, sizeof(void *));
    if (lent == NULL) {
        return NULL;
    }
    lent->memory = *memory;
    lent->count = 0;
    for (size_t hunk = 0; hunk < count; hunk++) {
        if (places[hunk].bytes != NULL) {
            lent->blocks[lent->count++] = places[hunk].bytes;
        }
        bases_of(lent, count)[hunk] = places[hunk].base;
    }
    sort_blocks(lent->blocks, lent->count);
    return lent;
}

/* A memory that has one block, and gives it once. */
static void *give_block(void *context, size_t size, size_t align)
{
    (void)size;
    (void)align;
    void **block = context;
    void *given = *block;
    *block = NULL;
    return given;
}

static void keep_block(void *context, void *block)
{
    (void)context;
    (void)block;
}

/* Makes each block of the places the room of its hunk. */
static uint32_t add_rooms(void **session, const amihunk_place *places, size_t count)
{
    const amihunk_memory *memory = current;
    uint32_t status = amihunk_c_reserve_rooms(session);
    for (size_t hunk = 0; hunk < count && status == AMIHUNK_OK; hunk++) {
        void *block = places[hunk].bytes;
        amihunk_memory room = {give_block, NULL, keep_block, &block};
        current = block != NULL ? &room : memory;
        status = amihunk_c_add_room(session);
        current = memory;
    }
    if (status != AMIHUNK_OK) {
        amihunk_c_forget_rooms(session);
    }
    return status;
}

/* Places the hunks of a header, in rooms of the caller. */
static uint32_t place_into(amihunk_loader *loader, const amihunk_place *places, size_t count,
                           amihunk_answer *answer)
{
    uint32_t status = AMIHUNK_OUT_OF_MEMORY;
    struct lent *lent = lend(&loader->memory, places, count);
    if (lent != NULL) {
        amihunk_memory memory = beside(lent);
        current = &memory;
        status = add_rooms(&loader->session, places, count);
        if (status == AMIHUNK_OK) {
            status = amihunk_c_place(&loader->session, bases_of(lent, count), count, answer);
        }
        current = &loader->memory;
        if (status == AMIHUNK_OK) {
            loader->memory = memory;
            return status;
        }
        forget_lent(&memory);
    }
    if (status == AMIHUNK_OUT_OF_MEMORY) {
        *answer = (amihunk_answer){.status = status};
    }
    return status;
}

amihunk_status amihunk_loader_place_into(amihunk_loader *loader, const amihunk_place *places,
                                         size_t count, amihunk_answer *answer)
{
    amihunk_answer unwanted;
    amihunk_answer *told = answer != NULL ? answer : &unwanted;
    amihunk_table table = {0};
    const amihunk_memory *before = enter(&loader->memory);
    amihunk_c_table(&loader->session, 0, &table);
    if (table.hunks == 0 || table.hunks != count) {
        /* It is out of turn or refused, or there is not one place for each hunk. */
        return leave(before, amihunk_c_place(&loader->session, none, 0, told));
    }
    return leave(before, place_into(loader, places, count, told));
}

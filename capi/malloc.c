/* The heap of the C library as the memory of a handle. */
#include "amihunk.h"

#include <stdalign.h>
#include <stdlib.h>

_Static_assert(alignof(max_align_t) >= 16, "malloc aligns blocks as a memory must");

static void *allocate(void *context, size_t size, size_t align)
{
    (void)context;
    (void)align;
    return malloc(size);
}

static void *resize(void *context, void *block, size_t kept, size_t size, size_t align)
{
    (void)context;
    (void)kept;
    (void)align;
    return realloc(block, size);
}

static void release(void *context, void *block)
{
    (void)context;
    free(block);
}

amihunk_memory amihunk_from_malloc(void)
{
    return (amihunk_memory){allocate, resize, release, NULL};
}

/*
 * The memory in a buffer by itself: how much room buffers of each size have, what is refused, which
 * gap is taken, and what becomes one when it is released. These tests need no handle, and are built
 * with buffer.c in them, so that the sanitizers see what it does.
 */
#include "buffer.h"

/* ------------------------------ Sizes ------------------------------ */

/* The longest block of a buffer is as long as the header tells, and no byte beside it is written.
 */
static void check_size(size_t distance, size_t size)
{
    uint8_t *buffer = guarded(distance, size);
    amihunk_memory memory = amihunk_in_buffer(buffer, size);
    size_t whole = longest(memory, size + 1);
    CHECK(size < 168 || whole >= 24);
    CHECK(whole == 0 || whole + 8 <= size);
    CHECK(size < 168 || size - (whole + 8) <= taken_at_once(size));
    for (int again = 0; whole != 0 && again < 2; again++) {
        uint8_t *bytes = take(memory, whole);
        if (CHECK(bytes >= buffer && bytes + whole <= buffer + size)) {
            CHECK((uintptr_t)bytes % ALIGN == 0);
            memset(bytes, 0xEE, whole);
            CHECK(take(memory, 1) == NULL);
            CHECK(change(memory, bytes, whole, whole + 1) == NULL);
            give_back(memory, bytes);
        }
    }
    check_guards(buffer, size);
}

static void each_buffer_has_the_room_that_is_told(void)
{
    for (size_t size = 0; size <= 4096; size++) {
        for (size_t distance = 0; distance < ALIGN; distance += size <= 400 ? 1 : 5) {
            check_size(distance, size);
        }
    }
    for (size_t size = 8192; size <= MOST; size *= 2) {
        check_size(0, size);
        check_size(9, size - 1);
    }
}

/* Blocks of one length until there is no room: as many as the header tells. */
static void a_buffer_is_used_up(void)
{
    static const size_t sizes[] = {1, 8, 23, 24, 25, 39, 40, 41, 100, 500, 1000, 1016};
    for (size_t i = 0; i < COUNT(sizes); i++) {
        uint8_t *buffer = guarded(3, 5000), *blocks[200];
        amihunk_memory memory = amihunk_in_buffer(buffer, 5000);
        size_t count = 0;
        while (count < COUNT(blocks) && (blocks[count] = take(memory, sizes[i])) != NULL) {
            memset(blocks[count++], 0xEE, sizes[i]);
        }
        CHECK(count * cost(sizes[i]) <= 5000);
        CHECK((count + 1) * cost(sizes[i]) > 5000 - taken_at_once(5000));
        CHECK(take(memory, sizes[i]) == NULL);
        if (CHECK(count > 1)) {
            give_back(memory, blocks[count / 2]);
            CHECK(take(memory, sizes[i]) == blocks[count / 2]);
        }
        check_guards(buffer, 5000);
    }
}

static void what_cannot_be_is_refused(void)
{
    amihunk_memory memory = amihunk_in_buffer(guarded(0, 2000), 2000);
    uint8_t *bytes = take(memory, 50);
    memset(bytes, 7, 50);
    static const size_t sizes[] = {2000, 1 << 20, SIZE_MAX / 2 + 1, SIZE_MAX - 31, SIZE_MAX - 7};
    for (size_t i = 0; i < COUNT(sizes); i++) {
        CHECK(take(memory, sizes[i]) == NULL);
        CHECK(change(memory, bytes, 50, sizes[i]) == NULL);
    }
    CHECK(take(memory, SIZE_MAX) == NULL && change(memory, bytes, 50, SIZE_MAX) == NULL);
    for (size_t i = 0; i < 50; i++) {
        CHECK(bytes[i] == 7);
    }
    CHECK(take(amihunk_in_buffer(NULL, 0), 1) == NULL);
    CHECK(take(amihunk_in_buffer(NULL, 2000), 1) == NULL);
}

/* ------------------------------ Gaps ------------------------------ */

enum { LARGE = 26 << 20, LEAST_POWER = 7, MOST_POWER = 21, GAPS = 4 * (MOST_POWER - LEAST_POWER) };

/* The length of a block that takes a power of two, or a quarter, a half or three quarters more. */
static size_t gap_size(size_t gap)
{
    return ((size_t)(4 + gap % 4) << (LEAST_POWER + gap / 4 - 2)) - 8;
}

/* Takes a block 16 bytes shorter than each gap, and gives it back later: it is in that gap. */
static void fill_gaps(amihunk_memory memory, void *const *gaps, bool rising)
{
    for (size_t i = 0; i < GAPS; i++) {
        size_t gap = rising ? i : GAPS - 1 - i;
        CHECK(take(memory, gap_size(gap) - 16) == gaps[gap]);
    }
    for (size_t gap = 0; gap < GAPS; gap++) {
        give_back(memory, gaps[gap]);
    }
}

/* Of gaps of all sizes, between blocks in use, a block gets the shortest that holds it. */
static void the_shortest_gap_is_taken(void)
{
    void *gaps[GAPS], *between[GAPS];
    void *buffer = some(malloc(LARGE));
    amihunk_memory memory = amihunk_in_buffer(buffer, LARGE);
    size_t whole = longest(memory, LARGE);
    for (size_t gap = 0; gap < GAPS; gap++) {
        gaps[gap] = some(take(memory, gap_size(gap)));
        between[gap] = some(take(memory, 1));
    }
    for (size_t gap = 0; gap < GAPS; gap++) {
        give_back(memory, gaps[gap]);
    }
    fill_gaps(memory, gaps, true);
    fill_gaps(memory, gaps, false);
    for (size_t gap = 0; gap < GAPS; gap++) {
        give_back(memory, between[gap]);
    }
    CHECK(longest(memory, LARGE) == whole);
    free(buffer);
}

/* ------------------------------ Joining ------------------------------ */

/* Four blocks, released in each order: what is free beside another is one with it at once. */
static void blocks_are_joined_in_each_order(void)
{
    amihunk_memory memory = amihunk_in_buffer(guarded(0, 4000), 4000);
    size_t whole = longest(memory, 4000);
    for (size_t order = 0; order < 256; order++) {
        void *blocks[] = {take(memory, 100), take(memory, 700), take(memory, 30), NULL};
        blocks[3] = take(memory, whole - cost(100) - cost(700) - cost(30));
        CHECK(blocks[3] != NULL && take(memory, 1) == NULL);
        size_t left = 0xF;
        for (size_t i = 0; left != 0; i++) {
            size_t next = i < 4 ? order >> 2 * i & 3 : i - 4;
            if ((left >> next & 1) != 0) {
                give_back(memory, blocks[next]);
                left &= ~((size_t)1 << next);
            }
        }
        CHECK(longest(memory, 4000) == whole);
    }
}

/* A block grows where it is into what is free after it, and gives back what it does not need. */
static void blocks_are_resized_in_their_place(void)
{
    amihunk_memory memory = amihunk_in_buffer(guarded(0, 4000), 4000);
    size_t whole = longest(memory, 4000);
    uint8_t *bytes = take(memory, 1);
    for (size_t size = 1; size <= whole; size++) {
        bytes[size - 1] = (uint8_t)size;
        CHECK(change(memory, bytes, size, size < whole ? size + 1 : size) == bytes);
    }
    CHECK(take(memory, 1) == NULL);
    for (size_t size = whole; size != 0; size--) {
        CHECK(bytes[size - 1] == (uint8_t)size);
        CHECK(change(memory, bytes, size, size) == bytes);
        size_t left = whole + 8 - cost(size);
        CHECK(longest(memory, 4000) == (left < 32 ? 0 : left - 8));
    }
    give_back(memory, bytes);
    CHECK(longest(memory, 4000) == whole);
}

int main(void)
{
    static const struct test tests[] = {
        TEST(each_buffer_has_the_room_that_is_told),
        TEST(a_buffer_is_used_up),
        TEST(what_cannot_be_is_refused),
        TEST(the_shortest_gap_is_taken),
        TEST(blocks_are_joined_in_each_order),
        TEST(blocks_are_resized_in_their_place),
    };
    return run_tests(tests, COUNT(tests));
}

/*
 * The memory of a handle: each allocation refused in turn, none for a line, blocks that cannot be
 * resized, and buffers of every size.
 */
#include "runs.h"

/* ------------------------------ Allocations that are refused ------------------------------ */

/* Each allocation refused, alone and with all that follow it. */
static void refuse_each(amihunk_status (*run)(amihunk_memory, size_t), amihunk_status whole)
{
    static const size_t pieces[] = {0, 1, 3, 5};
    for (size_t i = 0; i < COUNT(pieces); i++) {
        struct counted all = {0};
        CHECK(run(counted_memory(&all), pieces[i]) == whole);
        CHECK(all.blocks == 0);
        CHECK(all.asked > 1);
        for (size_t n = 1; n <= all.asked; n++) {
            struct counted alone = {.refused = n};
            CHECK(run(counted_memory(&alone), pieces[i]) == AMIHUNK_OUT_OF_MEMORY);
            CHECK(alone.blocks == 0 && alone.asked >= n);
            struct counted from = {.refused = n, .all = 1};
            CHECK(run(counted_memory(&from), pieces[i]) == AMIHUNK_OUT_OF_MEMORY);
            CHECK(from.blocks == 0 && from.asked >= n);
        }
    }
}

static void each_allocation_of_a_load_is_refused(void)
{
    refuse_each(load, AMIHUNK_OK);
}

static void each_allocation_of_a_link_is_refused(void)
{
    refuse_each(link_two, AMIHUNK_OK);
}

static void each_allocation_of_a_refused_link_is_refused(void)
{
    refuse_each(link_clash, AMIHUNK_DUPLICATE_NAME);
}

static void each_allocation_of_a_link_that_keeps_is_refused(void)
{
    refuse_each(link_kept, AMIHUNK_OK);
    refuse_each(link_missing, AMIHUNK_UNDEFINED_NAME);
}

static void each_allocation_of_a_look_is_refused(void)
{
    refuse_each(look_into_object, AMIHUNK_OK);
    refuse_each(look_into_load, AMIHUNK_OK);
}

static void each_allocation_of_a_load_from_a_file_is_refused(void)
{
    refuse_each(reload, AMIHUNK_OK);
}

static void each_allocation_of_a_load_into_places_is_refused(void)
{
    refuse_each(place, AMIHUNK_OK);
}

static void blocks_that_cannot_be_resized_are_copied(void)
{
    struct counted counted = {0};
    amihunk_memory memory = counted_memory(&counted);
    memory.resize = NULL;
    CHECK(load(memory, 1) == AMIHUNK_OK);
    CHECK(link_two(memory, 1) == AMIHUNK_OK);
    CHECK(link_kept(memory, 1) == AMIHUNK_OK);
    CHECK(link_missing(memory, 1) == AMIHUNK_UNDEFINED_NAME);
    CHECK(place(memory, 1) == AMIHUNK_OK);
    CHECK(look_into_object(memory, 1) == AMIHUNK_OK);
    CHECK(reload(memory, 1) == AMIHUNK_OK);
    CHECK(counted.blocks == 0);
    for (size_t n = 1; n <= 8; n++) {
        counted = (struct counted){.refused = n};
        CHECK(load(memory, 1) == (counted.asked < n ? AMIHUNK_OK : AMIHUNK_OUT_OF_MEMORY));
        CHECK(counted.blocks == 0);
    }
}

/* A line of up to 500 bytes is there without memory; a longer one needs some. */
static void lines_need_little_memory(void)
{
    static char file[3000], line[4000];
    struct counted counted = {0};
    amihunk_loader loader = {0};
    CHECK(amihunk_loader_open(&loader, counted_memory(&counted), bases, 2) == AMIHUNK_OK);
    CHECK(amihunk_loader_feed(&loader, "\0\0\3\xE7", 4, NULL) == AMIHUNK_BAD_FILE);
    for (size_t size = 0; size < sizeof(file); size++) {
        size_t whole = size + strlen("amihunk: : longword 0: wrong first longword\n");
        memset(file, 'x', size);
        file[size] = 0;
        counted.refused = 0;
        counted.all = 0;
        CHECK(amihunk_loader_line(&loader, file, line, sizeof(line)) == whole);
        CHECK(strlen(line) == whole && memcmp(line, "amihunk: ", 9) == 0);
        CHECK(memcmp(line + 9, file, size) == 0);
        CHECK(strcmp(line + 9 + size, ": longword 0: wrong first longword\n") == 0);
        counted.refused = 1;
        counted.all = 1;
        size_t length = amihunk_loader_line(&loader, file, line, sizeof(line));
        CHECK(length == whole || (length == 0 && whole > 500 && line[0] == 0));
        CHECK(strlen(line) == length);
    }
    amihunk_loader_close(&loader);
    CHECK(counted.blocks == 0);
}

/* ------------------------------ Buffers ------------------------------ */

enum { MOST = 4096, LARGE = 8192, GUARD = 32 };

/* A run in each size of buffer up to one that is enough, at each of 16 addresses in turn. */
static void in_each_buffer(amihunk_status (*run)(amihunk_memory, size_t), amihunk_status whole,
                           size_t most)
{
    static uint8_t room[LARGE + 2 * GUARD];
    amihunk_status status = AMIHUNK_OUT_OF_MEMORY;
    for (size_t size = 0; size <= most; size++) {
        uint8_t *buffer = room + GUARD - size % 16;
        memset(room, 0xCC, sizeof(room));
        status = run(amihunk_in_buffer(buffer, size), size % 7);
        CHECK(status == whole || status == AMIHUNK_OUT_OF_MEMORY);
        CHECK(size > 64 || status == AMIHUNK_OUT_OF_MEMORY);
        for (uint8_t *byte = room; byte < room + most + 2 * GUARD; byte++) {
            if ((byte < buffer || byte >= buffer + size) && *byte != 0xCC) {
                CHECK(!"a byte outside the buffer is written");
            }
        }
    }
    CHECK(status == whole);
    CHECK(run(amihunk_in_buffer(NULL, 0), 0) == AMIHUNK_OUT_OF_MEMORY);
    CHECK(run(amihunk_in_buffer(NULL, most), 0) == AMIHUNK_OUT_OF_MEMORY);
}

static void each_buffer_loads_or_is_too_small(void)
{
    in_each_buffer(load, AMIHUNK_OK, MOST);
}

static void each_buffer_links_or_is_too_small(void)
{
    in_each_buffer(link_two, AMIHUNK_OK, MOST);
}

static void each_buffer_refuses_a_name_or_is_too_small(void)
{
    in_each_buffer(link_clash, AMIHUNK_DUPLICATE_NAME, MOST);
}

static void each_buffer_keeps_what_is_linked_or_is_too_small(void)
{
    in_each_buffer(link_kept, AMIHUNK_OK, LARGE);
    in_each_buffer(link_missing, AMIHUNK_UNDEFINED_NAME, LARGE);
}

static void each_buffer_tells_of_a_file_or_is_too_small(void)
{
    in_each_buffer(look_into_object, AMIHUNK_OK, LARGE);
    in_each_buffer(look_into_load, AMIHUNK_OK, MOST);
}

static void each_buffer_loads_a_file_that_was_read_or_is_too_small(void)
{
    in_each_buffer(reload, AMIHUNK_OK, MOST);
    in_each_buffer(place, AMIHUNK_OK, MOST);
}

static void a_buffer_is_used_again(void)
{
    static uint8_t room[LARGE];
    amihunk_memory memory = amihunk_in_buffer(room, sizeof(room));
    for (int i = 0; i < 1000; i++) {
        CHECK(load(memory, (size_t)i % 4) == AMIHUNK_OK);
        CHECK(link_two(memory, (size_t)i % 4) == AMIHUNK_OK);
        CHECK(link_kept(memory, (size_t)i % 4) == AMIHUNK_OK);
        CHECK(link_missing(memory, (size_t)i % 4) == AMIHUNK_UNDEFINED_NAME);
        CHECK(place(memory, (size_t)i % 4) == AMIHUNK_OK);
        CHECK(reload(memory, (size_t)i % 4) == AMIHUNK_OK);
    }
}

int main(void)
{
    static const struct test tests[] = {
        TEST(each_allocation_of_a_load_is_refused),
        TEST(each_allocation_of_a_link_is_refused),
        TEST(each_allocation_of_a_refused_link_is_refused),
        TEST(each_allocation_of_a_link_that_keeps_is_refused),
        TEST(each_allocation_of_a_look_is_refused),
        TEST(each_allocation_of_a_load_from_a_file_is_refused),
        TEST(each_allocation_of_a_load_into_places_is_refused),
        TEST(blocks_that_cannot_be_resized_are_copied),
        TEST(lines_need_little_memory),
        TEST(each_buffer_loads_or_is_too_small),
        TEST(each_buffer_links_or_is_too_small),
        TEST(each_buffer_refuses_a_name_or_is_too_small),
        TEST(each_buffer_keeps_what_is_linked_or_is_too_small),
        TEST(each_buffer_tells_of_a_file_or_is_too_small),
        TEST(each_buffer_loads_a_file_that_was_read_or_is_too_small),
        TEST(a_buffer_is_used_again),
    };
    return run_tests(tests, COUNT(tests));
}

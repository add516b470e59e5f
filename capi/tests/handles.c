/*
 * Handles beside others: over several memories in turn, over one buffer, in calls from a memory, on
 * four threads, on a small stack; and closed at any time.
 */
#include "runs.h"

#include <pthread.h>

/* ------------------------------ Two handles ------------------------------ */

static void two_memories_are_used_in_turn(void)
{
    static uint8_t room[4096];
    struct file file = two_hunks();
    const struct file files[] = {caller(), definer()};
    struct counted first = {0}, second = {0};
    amihunk_loader one = {0}, other = {0}, third = {0};
    amihunk_linker linker = {0};
    CHECK(amihunk_loader_open(&one, counted_memory(&first), bases, 2) == AMIHUNK_OK);
    CHECK(amihunk_loader_open(&other, counted_memory(&second), bases, 2) == AMIHUNK_OK);
    CHECK(amihunk_loader_open(&third, amihunk_in_buffer(room, sizeof(room)), bases, 2) ==
          AMIHUNK_OK);
    CHECK(amihunk_linker_open(&linker, counted_memory(&second), (amihunk_options){0}) ==
          AMIHUNK_OK);
    for (size_t i = 0; i < file.size; i++) {
        CHECK(amihunk_loader_feed(&one, file.bytes + i, 1, NULL) == AMIHUNK_OK);
        CHECK(amihunk_loader_feed(&other, file.bytes + i, 1, NULL) == AMIHUNK_OK);
        CHECK(amihunk_loader_feed(&third, file.bytes + i, 1, NULL) == AMIHUNK_OK);
        if (i < files[0].size) {
            CHECK(amihunk_linker_feed(&linker, files[0].bytes + i, 1, NULL) == AMIHUNK_OK);
        }
    }
    size_t before = second.blocks;
    CHECK(amihunk_loader_finish(&other, NULL) == AMIHUNK_OK);
    amihunk_loader_close(&other);
    CHECK(second.blocks < before && first.blocks != 0);
    CHECK(amihunk_loader_finish(&one, NULL) == AMIHUNK_OK);
    CHECK(amihunk_loader_finish(&third, NULL) == AMIHUNK_OK);
    CHECK(amihunk_linker_end_input(&linker, NULL) == AMIHUNK_OK);
    CHECK(amihunk_linker_feed(&linker, files[1].bytes, files[1].size, NULL) == AMIHUNK_OK);
    amihunk_hunk told;
    if (CHECK(amihunk_loader_get_hunk(&third, 0, &told) == AMIHUNK_OK)) {
        CHECK(told.bytes >= room && told.bytes + told.size <= room + sizeof(room));
        CHECK(memcmp(told.bytes, two_hunks_first, 16) == 0);
    }
    CHECK(amihunk_loader_get_hunk(&one, 1, &told) == AMIHUNK_OK &&
          memcmp(told.bytes, two_hunks_second, 8) == 0);
    amihunk_loader_close(&one);
    CHECK(first.blocks == 0 && second.blocks != 0);
    CHECK(amihunk_linker_end_input(&linker, NULL) == AMIHUNK_OK);
    CHECK(amihunk_linker_finish(&linker, NULL) == AMIHUNK_OK);
    amihunk_loader_close(&third);
    amihunk_linker_close(&linker);
    CHECK(second.blocks == 0);
    free(file.bytes);
    free(files[0].bytes);
    free(files[1].bytes);
}

/* Two loaders and a linker take their memory from one buffer, in turns. */
static void a_buffer_is_shared(void)
{
    static uint8_t room[8192];
    struct file file = two_hunks();
    const struct file files[] = {caller(), definer()};
    struct file expected = caller_and_definer();
    amihunk_memory memory = amihunk_in_buffer(room, sizeof(room));
    amihunk_loader one = {0}, other = {0};
    amihunk_linker linker = {0};
    CHECK(amihunk_loader_open(&one, memory, bases, 2) == AMIHUNK_OK);
    CHECK(amihunk_linker_open(&linker, memory, (amihunk_options){0}) == AMIHUNK_OK);
    CHECK(amihunk_loader_open(&other, memory, bases, 2) == AMIHUNK_OK);
    for (size_t i = 0; i < file.size; i++) {
        CHECK(amihunk_loader_feed(&one, file.bytes + i, 1, NULL) == AMIHUNK_OK);
        CHECK(amihunk_loader_feed(&other, file.bytes + i, 1, NULL) == AMIHUNK_OK);
        if (i < files[0].size) {
            CHECK(amihunk_linker_feed(&linker, files[0].bytes + i, 1, NULL) == AMIHUNK_OK);
        }
    }
    amihunk_loader_close(&one);
    CHECK(amihunk_linker_end_input(&linker, NULL) == AMIHUNK_OK);
    CHECK(amihunk_linker_feed(&linker, files[1].bytes, files[1].size, NULL) == AMIHUNK_OK);
    CHECK(amihunk_linker_end_input(&linker, NULL) == AMIHUNK_OK);
    CHECK(amihunk_linker_finish(&linker, NULL) == AMIHUNK_OK);
    CHECK(amihunk_loader_finish(&other, NULL) == AMIHUNK_OK);
    amihunk_bytes told;
    amihunk_hunk hunk;
    CHECK(amihunk_linker_get_file(&linker, &told) == AMIHUNK_OK);
    CHECK(same(expected, told.bytes, told.size));
    CHECK(amihunk_loader_get_hunk(&other, 0, &hunk) == AMIHUNK_OK);
    CHECK(hunk.size == 16 && memcmp(hunk.bytes, two_hunks_first, 16) == 0);
    amihunk_loader_close(&other);
    amihunk_linker_close(&linker);
    free(expected.bytes);
    free(file.bytes);
    free(files[0].bytes);
    free(files[1].bytes);
}

/* A memory whose every allocation links and loads with other handles, before it takes a block. */
static void *busy_allocate(void *context, size_t size, size_t align)
{
    static uint8_t room[4096];
    CHECK(link_two(amihunk_in_buffer(room, sizeof(room)), 0) == AMIHUNK_OK);
    CHECK(load(amihunk_from_malloc(), 5) == AMIHUNK_OK);
    return counted_allocate(context, size, align);
}

static void a_memory_may_use_other_handles(void)
{
    struct counted counted = {0};
    amihunk_memory memory = counted_memory(&counted);
    memory.allocate = busy_allocate;
    memory.resize = NULL;
    CHECK(load(memory, 1) == AMIHUNK_OK);
    CHECK(link_two(memory, 1) == AMIHUNK_OK);
    CHECK(link_kept(memory, 1) == AMIHUNK_OK);
    CHECK(link_missing(memory, 1) == AMIHUNK_UNDEFINED_NAME);
    CHECK(place(memory, 1) == AMIHUNK_OK);
    CHECK(reload(memory, 1) == AMIHUNK_OK);
    CHECK(counted.blocks == 0 && counted.asked != 0);
}

static void *load_often(void *context)
{
    for (size_t i = 0; i < 500; i++) {
        CHECK(load(counted_memory(context), i % 6) == AMIHUNK_OK);
        CHECK(link_two(counted_memory(context), i % 6) == AMIHUNK_OK);
        CHECK(link_kept(counted_memory(context), i % 6) == AMIHUNK_OK);
        CHECK(link_missing(counted_memory(context), i % 6) == AMIHUNK_UNDEFINED_NAME);
        CHECK(place(counted_memory(context), i % 6) == AMIHUNK_OK);
        CHECK(reload(counted_memory(context), i % 6) == AMIHUNK_OK);
    }
    return NULL;
}

static void threads_have_their_own_memories(void)
{
    struct counted memories[4] = {{0}};
    pthread_t threads[4];
    for (size_t i = 0; i < COUNT(threads); i++) {
        if (!CHECK(pthread_create(&threads[i], NULL, load_often, &memories[i]) == 0)) {
            abort();
        }
    }
    for (size_t i = 0; i < COUNT(threads); i++) {
        CHECK(pthread_join(threads[i], NULL) == 0);
        CHECK(memories[i].blocks == 0 && memories[i].asked != 0);
    }
}

#ifdef __has_feature
#if __has_feature(address_sanitizer)
#define SANITIZED
#endif
#elif defined(__SANITIZE_ADDRESS__)
#define SANITIZED
#endif

/* The stack of a thread that makes every call: 16 KiB for the calls, and 8 KiB for all else. */
#ifdef SANITIZED
enum { STACK = 256 * 1024 }; /* since the code of the tests takes more then */
#else
enum { STACK = 24 * 1024 };
#endif

/* Loads hunks whose bases are in no order; and then with the last hunk over the first. */
static void load_in_no_order(amihunk_memory memory)
{
    enum { BITS = 12, HUNKS = 1 << BITS };
    static uint32_t scattered[HUNKS];
    for (uint32_t i = 0; i < HUNKS; i++) {
        uint32_t backwards = 0;
        for (uint32_t bit = 0; bit < BITS; bit++) {
            backwards |= (i >> bit & 1) << (BITS - 1 - bit);
        }
        scattered[i] = 0x8000 + 8 * backwards;
    }
    struct file file = zero_hunks(HUNKS);
    amihunk_loader loader = {0};
    amihunk_hunk told = {0};
    CHECK(amihunk_loader_open(&loader, memory, scattered, HUNKS) == AMIHUNK_OK);
    CHECK(load_pieces(&loader, file, 1000).status == AMIHUNK_OK);
    CHECK(amihunk_loader_get_hunk(&loader, 1, &told) == AMIHUNK_OK && told.base == 0xC000);
    amihunk_loader_close(&loader);
    scattered[HUNKS - 1] = scattered[0] - 2;
    CHECK(amihunk_loader_open(&loader, memory, scattered, HUNKS) == AMIHUNK_OK);
    amihunk_answer answer = load_pieces(&loader, file, 1000);
    CHECK(answer.status == AMIHUNK_OVERLAP && answer.hunk == 0 && answer.other == HUNKS - 1);
    amihunk_loader_close(&loader);
    free(file.bytes);
}

static void *load_and_link(void *context)
{
    CHECK(load(counted_memory(context), 1) == AMIHUNK_OK);
    CHECK(link_two(counted_memory(context), 1) == AMIHUNK_OK);
    CHECK(link_clash(counted_memory(context), 1) == AMIHUNK_DUPLICATE_NAME);
    CHECK(link_kept(counted_memory(context), 1) == AMIHUNK_OK);
    CHECK(link_missing(counted_memory(context), 1) == AMIHUNK_UNDEFINED_NAME);
    CHECK(place(counted_memory(context), 1) == AMIHUNK_OK);
    CHECK(look_into_object(counted_memory(context), 1) == AMIHUNK_OK);
    CHECK(reload(counted_memory(context), 1) == AMIHUNK_OK);
    load_in_no_order(counted_memory(context));
    return NULL;
}

static void a_small_stack_is_enough(void)
{
    struct counted counted = {0};
    pthread_attr_t attributes;
    pthread_t thread;
    if (!CHECK(pthread_attr_init(&attributes) == 0) ||
        !CHECK(pthread_attr_setstacksize(&attributes, STACK) == 0) ||
        !CHECK(pthread_create(&thread, &attributes, load_and_link, &counted) == 0)) {
        abort();
    }
    CHECK(pthread_join(thread, NULL) == 0);
    CHECK(counted.asked != 0 && counted.blocks == 0);
    pthread_attr_destroy(&attributes);
}

/* ------------------------------ Closing ------------------------------ */

static void a_loader_may_be_closed_after_each_byte(void)
{
    struct file file = two_hunks();
    for (size_t size = 0; size <= file.size; size++) {
        struct counted counted = {0};
        amihunk_loader loader = {0};
        CHECK(amihunk_loader_open(&loader, counted_memory(&counted), bases, 2) == AMIHUNK_OK);
        CHECK(amihunk_loader_feed(&loader, file.bytes, size, NULL) == AMIHUNK_OK);
        CHECK(counted.blocks != 0);
        amihunk_loader_close(&loader);
        CHECK(counted.blocks == 0);
        CHECK(memcmp(&loader, &(amihunk_loader){0}, sizeof(loader)) == 0);
        amihunk_loader_close(&loader);
    }
    free(file.bytes);
}

/* Whether it keeps what is in the files or not. */
static void a_linker_may_be_closed_after_each_byte(void)
{
    const struct file files[] = {caller(), assembled()};
    for (size_t i = 0; i < 2 * (files[1].size + 1); i++) {
        const amihunk_options options = {.keep = i % 2 != 0};
        size_t size = i / 2;
        struct counted counted = {0};
        amihunk_linker linker = {0};
        CHECK(amihunk_linker_open(&linker, counted_memory(&counted), options) == AMIHUNK_OK);
        CHECK(amihunk_linker_feed(&linker, files[0].bytes, files[0].size, NULL) == AMIHUNK_OK);
        CHECK(amihunk_linker_end_input(&linker, NULL) == AMIHUNK_OK);
        CHECK(amihunk_linker_feed(&linker, files[1].bytes, size, NULL) == AMIHUNK_OK);
        CHECK(counted.blocks != 0);
        amihunk_linker_close(&linker);
        CHECK(counted.blocks == 0);
        CHECK(memcmp(&linker, &(amihunk_linker){0}, sizeof(linker)) == 0);
        amihunk_linker_close(&linker);
    }
    free(files[0].bytes);
    free(files[1].bytes);
}

int main(void)
{
    static const struct test tests[] = {
        TEST(two_memories_are_used_in_turn),
        TEST(a_buffer_is_shared),
        TEST(a_memory_may_use_other_handles),
        TEST(threads_have_their_own_memories),
        TEST(a_small_stack_is_enough),
        TEST(a_loader_may_be_closed_after_each_byte),
        TEST(a_linker_may_be_closed_after_each_byte),
    };
    return run_tests(tests, COUNT(tests));
}

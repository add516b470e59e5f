/*
 * Calls out of turn, in each state of a handle: they say so, and change nothing. And what may be
 * NULL.
 */
#include "files.h"
#include "nothing.h"

static const uint32_t bases[] = {0x10000, 0x20000};

static int is_wrong_state(amihunk_status status, const amihunk_answer *answer)
{
    return status == AMIHUNK_WRONG_STATE &&
           same_answer(answer, &(amihunk_answer){.status = AMIHUNK_WRONG_STATE});
}

/* ------------------------------ Loaders ------------------------------ */

static void check_loader_is_not_open_to(amihunk_loader *loader, int open, int feed, int hunks)
{
    amihunk_loader before = *loader;
    amihunk_answer answer = unwritten();
    struct counted counted = {0};
    if (open) {
        CHECK(amihunk_loader_open(loader, counted_memory(&counted), bases, 2) ==
              AMIHUNK_WRONG_STATE);
        CHECK(counted.asked == 0);
    }
    if (feed) {
        struct file file = two_hunks();
        CHECK(is_wrong_state(amihunk_loader_feed(loader, file.bytes, file.size, &answer), &answer));
        answer = unwritten();
        CHECK(is_wrong_state(amihunk_loader_feed(loader, NULL, 0, &answer), &answer));
        answer = unwritten();
        CHECK(is_wrong_state(amihunk_loader_finish(loader, &answer), &answer));
        CHECK(amihunk_loader_finish(loader, NULL) == AMIHUNK_WRONG_STATE);
        free(file.bytes);
    }
    if (hunks) {
        uint8_t byte = 0xCC;
        amihunk_hunk told = {&byte, 1, 1};
        CHECK(amihunk_loader_hunk_count(loader) == 0);
        CHECK(amihunk_loader_get_hunk(loader, 0, &told) == AMIHUNK_WRONG_STATE);
        CHECK(told.bytes == NULL && told.size == 0 && told.base == 0);
        CHECK(amihunk_loader_read(loader, 0, 0, &byte, 1) == 0 && byte == 0xCC);
    }
    CHECK(memcmp(loader, &before, sizeof(before)) == 0);
}

static void a_closed_loader_can_only_be_opened(void)
{
    amihunk_loader loader = {0};
    char line[8] = "#######";
    for (int i = 0; i < 2; i++) {
        check_loader_is_not_open_to(&loader, 0, 1, 1);
        CHECK(amihunk_loader_line(&loader, "x", line, sizeof(line)) == 0 && line[0] == 0);
        amihunk_loader_close(&loader);
    }
}

static void a_loading_loader_has_no_hunks(void)
{
    struct file file = two_hunks();
    amihunk_loader loader = {0};
    CHECK(amihunk_loader_open(&loader, amihunk_from_malloc(), bases, 2) == AMIHUNK_OK);
    for (size_t i = 0; i < file.size; i++) {
        check_loader_is_not_open_to(&loader, 1, 0, 1);
        CHECK(amihunk_loader_line(&loader, "x", NULL, 0) == 0);
        CHECK(amihunk_loader_feed(&loader, file.bytes + i, 1, NULL) == AMIHUNK_OK);
    }
    CHECK(amihunk_loader_finish(&loader, NULL) == AMIHUNK_OK);
    uint8_t bytes[16];
    CHECK(amihunk_loader_read(&loader, 0, 0, bytes, 16) == 16 &&
          memcmp(bytes, two_hunks_first, 16) == 0);
    amihunk_loader_close(&loader);
    free(file.bytes);
}

static void a_loaded_loader_takes_no_bytes(void)
{
    struct file file = two_hunks();
    amihunk_loader loader = {0};
    CHECK(amihunk_loader_open(&loader, amihunk_from_malloc(), bases, 2) == AMIHUNK_OK);
    CHECK(load_pieces(&loader, file, 0).status == AMIHUNK_OK);
    for (int i = 0; i < 2; i++) {
        uint8_t bytes[16];
        check_loader_is_not_open_to(&loader, 1, 1, 0);
        CHECK(amihunk_loader_line(&loader, "x", NULL, 0) == 0);
        CHECK(amihunk_loader_hunk_count(&loader) == 2);
        CHECK(amihunk_loader_read(&loader, 0, 0, bytes, 16) == 16 &&
              memcmp(bytes, two_hunks_first, 16) == 0);
    }
    amihunk_loader_close(&loader);
    free(file.bytes);
}

static void a_refused_loader_has_no_hunks(void)
{
    amihunk_loader loader = {0};
    CHECK(amihunk_loader_open(&loader, amihunk_from_malloc(), bases, 2) == AMIHUNK_OK);
    CHECK(amihunk_loader_finish(&loader, NULL) == AMIHUNK_BAD_FILE);
    check_loader_is_not_open_to(&loader, 1, 0, 1);
    CHECK(amihunk_loader_finish(&loader, NULL) == AMIHUNK_BAD_FILE);
    amihunk_loader_close(&loader);
    CHECK(amihunk_loader_open(&loader, amihunk_from_malloc(), bases, 2) == AMIHUNK_OK);
    amihunk_loader_close(&loader);
}

static void nulls_stand_for_nothing(void)
{
    struct file file = one_hunk();
    amihunk_loader loader = {0};
    CHECK(amihunk_loader_open(&loader, amihunk_from_malloc(), NULL, 0) == AMIHUNK_OK);
    CHECK(amihunk_loader_feed(&loader, NULL, 0, NULL) == AMIHUNK_OK);
    CHECK(amihunk_loader_feed(&loader, file.bytes, file.size, NULL) == AMIHUNK_OK);
    CHECK(amihunk_loader_finish(&loader, NULL) == AMIHUNK_WRONG_COUNT);
    CHECK(amihunk_loader_line(&loader, NULL, NULL, 0) ==
          strlen("amihunk: places: wrong number of addresses\n"));
    amihunk_loader_close(&loader);
    CHECK(amihunk_loader_open(&loader, amihunk_from_malloc(), bases, 1) == AMIHUNK_OK);
    CHECK(load_pieces(&loader, file, 0).status == AMIHUNK_OK);
    CHECK(amihunk_loader_read(&loader, 0, 0, NULL, 0) == 0);
    amihunk_loader_close(&loader);
    free(file.bytes);
}

static void a_loader_may_be_moved(void)
{
    struct file file = two_hunks();
    amihunk_loader loaders[2] = {{0}};
    CHECK(amihunk_loader_open(&loaders[0], amihunk_from_malloc(), bases, 2) == AMIHUNK_OK);
    for (size_t i = 0; i < file.size; i++) {
        CHECK(amihunk_loader_feed(&loaders[i % 2], file.bytes + i, 1, NULL) == AMIHUNK_OK);
        loaders[(i + 1) % 2] = loaders[i % 2];
        memset(&loaders[i % 2], 0, sizeof(loaders[0]));
    }
    amihunk_loader *last = &loaders[file.size % 2];
    CHECK(amihunk_loader_finish(last, NULL) == AMIHUNK_OK);
    CHECK(amihunk_loader_hunk_count(last) == 2);
    amihunk_loader_close(last);
    free(file.bytes);
}

/* ------------------------------ Linkers ------------------------------ */

/* No linker here is opened with `keep`, so that none tells what is kept. */
static void check_linker_is_not_open_to(amihunk_linker *linker, int open, int feed, int finish,
                                        int file)
{
    amihunk_linker before = *linker;
    amihunk_answer answer = unwritten();
    struct counted counted = {0};
    if (open) {
        CHECK(amihunk_linker_open(linker, counted_memory(&counted), (amihunk_options){0}) ==
              AMIHUNK_WRONG_STATE);
        CHECK(counted.asked == 0);
    }
    if (feed) {
        CHECK(is_wrong_state(amihunk_linker_feed(linker, "\0\0\3\xE7", 4, &answer), &answer));
        answer = unwritten();
        CHECK(is_wrong_state(amihunk_linker_feed(linker, NULL, 0, &answer), &answer));
        answer = unwritten();
        CHECK(is_wrong_state(amihunk_linker_end_input(linker, &answer), &answer));
        CHECK(amihunk_linker_end_input(linker, NULL) == AMIHUNK_WRONG_STATE);
    }
    if (finish) {
        answer = unwritten();
        CHECK(is_wrong_state(amihunk_linker_finish(linker, &answer), &answer));
        CHECK(amihunk_linker_finish(linker, NULL) == AMIHUNK_WRONG_STATE);
    }
    if (file) {
        uint8_t byte = 0xCC;
        amihunk_bytes told = {&byte, 1};
        CHECK(amihunk_linker_get_file(linker, &told) == AMIHUNK_WRONG_STATE);
        CHECK(told.bytes == NULL && told.size == 0);
        CHECK(amihunk_linker_read(linker, 0, &byte, 1) == 0 && byte == 0xCC);
    }
    check_keeps_nothing(linker);
    CHECK(memcmp(linker, &before, sizeof(before)) == 0);
}

static void a_closed_linker_can_only_be_opened(void)
{
    amihunk_linker linker = {0};
    char text[8] = "#######";
    for (int i = 0; i < 2; i++) {
        check_linker_is_not_open_to(&linker, 0, 1, 1, 1);
        CHECK(amihunk_linker_line(&linker, "x", text, sizeof(text)) == 0 && text[0] == 0);
        CHECK(amihunk_linker_name(&linker, text, sizeof(text)) == 0 && text[0] == 0);
        amihunk_linker_close(&linker);
    }
}

static void an_object_file_is_ended_before_the_link(void)
{
    struct file file = definer(),
                expected = LONGWORDS(0x3F3, 0, 1, 0, 0, 2, 0x3E9, 2, 0x4E714E71, 0x4E754E71, 0x3F2);
    amihunk_linker linker = {0};
    CHECK(amihunk_linker_open(&linker, amihunk_from_malloc(), (amihunk_options){0}) == AMIHUNK_OK);
    check_linker_is_not_open_to(&linker, 1, 0, 0, 1);
    for (size_t i = 0; i < file.size; i++) {
        CHECK(amihunk_linker_feed(&linker, file.bytes + i, 1, NULL) == AMIHUNK_OK);
        check_linker_is_not_open_to(&linker, 1, 0, 1, 1);
        CHECK(amihunk_linker_line(&linker, "x", NULL, 0) == 0);
    }
    CHECK(amihunk_linker_end_input(&linker, NULL) == AMIHUNK_OK);
    check_linker_is_not_open_to(&linker, 1, 0, 0, 1);
    CHECK(amihunk_linker_finish(&linker, NULL) == AMIHUNK_OK);
    for (int i = 0; i < 2; i++) {
        uint8_t bytes[64];
        check_linker_is_not_open_to(&linker, 1, 1, 1, 0);
        CHECK(amihunk_linker_line(&linker, "x", NULL, 0) == 0);
        CHECK(amihunk_linker_read(&linker, 0, bytes, 64) == expected.size &&
              same(expected, bytes, expected.size));
    }
    CHECK(amihunk_linker_read(&linker, 0, NULL, 0) == 0);
    amihunk_linker_close(&linker);
    free(file.bytes);
    free(expected.bytes);
}

static void a_refused_linker_has_no_file(void)
{
    amihunk_linker linker = {0};
    CHECK(amihunk_linker_open(&linker, amihunk_from_malloc(), (amihunk_options){0}) == AMIHUNK_OK);
    CHECK(amihunk_linker_end_input(&linker, NULL) == AMIHUNK_BAD_FILE);
    check_linker_is_not_open_to(&linker, 1, 0, 0, 1);
    CHECK(amihunk_linker_finish(&linker, NULL) == AMIHUNK_BAD_FILE);
    CHECK(amihunk_linker_feed(&linker, NULL, 0, NULL) == AMIHUNK_BAD_FILE);
    amihunk_linker_close(&linker);
    CHECK(amihunk_linker_open(&linker, amihunk_from_malloc(), (amihunk_options){0}) == AMIHUNK_OK);
    amihunk_linker_close(&linker);
}

static void an_empty_piece_begins_an_object_file(void)
{
    amihunk_linker linker = {0};
    CHECK(amihunk_linker_open(&linker, amihunk_from_malloc(), (amihunk_options){0}) == AMIHUNK_OK);
    CHECK(amihunk_linker_feed(&linker, NULL, 0, NULL) == AMIHUNK_OK);
    check_linker_is_not_open_to(&linker, 1, 0, 1, 1);
    amihunk_linker_close(&linker);
}

int main(void)
{
    static const struct test tests[] = {
        TEST(a_closed_loader_can_only_be_opened),
        TEST(a_loading_loader_has_no_hunks),
        TEST(a_loaded_loader_takes_no_bytes),
        TEST(a_refused_loader_has_no_hunks),
        TEST(nulls_stand_for_nothing),
        TEST(a_loader_may_be_moved),
        TEST(a_closed_linker_can_only_be_opened),
        TEST(an_object_file_is_ended_before_the_link),
        TEST(a_refused_linker_has_no_file),
        TEST(an_empty_piece_begins_an_object_file),
    };
    return run_tests(tests, COUNT(tests));
}

/*
 * Load files whose hunks get their addresses once their sizes are known: the same hunks and the
 * same refusals as with addresses from the start, whatever the pieces.
 */
#include "files.h"

static const uint32_t bases[] = {0x10000, 0x20000};
static const size_t pieces[] = {0, 1, 3, 5};

/* Loads a file by its sizes, up to the first refusal, and finishes. */
static amihunk_answer load_by_sizes(amihunk_loader *loader, struct file file, size_t most,
                                    const uint32_t *at, size_t count)
{
    size_t taken;
    amihunk_answer answer = feed_header(loader, file, most, &taken);
    if (answer.status == AMIHUNK_NEEDS_BASES) {
        CHECK(taken == FRONT + 4 * count);
        CHECK(amihunk_loader_place(loader, at, count, &answer) == answer.status);
        if (answer.status != AMIHUNK_OK) {
            return answer;
        }
        return load_pieces(loader, rest_of(file, taken), most);
    }
    amihunk_answer last = unwritten();
    CHECK(amihunk_loader_finish(loader, &last) == last.status);
    CHECK(answer.status == AMIHUNK_OK || same_answer(&answer, &last));
    return last;
}

/* In any pieces, the file is loaded or refused as by a loader that was opened with these bases. */
static void check_as_opened(struct file file, const uint32_t *at, size_t count)
{
    for (size_t i = 0; i < COUNT(pieces); i++) {
        struct counted counted = {0};
        amihunk_loader opened = {0}, sized = {0};
        CHECK(amihunk_loader_open(&opened, amihunk_from_malloc(), at, count) == AMIHUNK_OK);
        CHECK(amihunk_loader_begin(&sized, counted_memory(&counted)) == AMIHUNK_OK);
        amihunk_answer expected = load_pieces(&opened, file, pieces[i]);
        amihunk_answer answer = load_by_sizes(&sized, file, pieces[i], at, count);
        CHECK(same_answer(&answer, &expected));
        check_same_hunks(&opened, &sized);
        amihunk_loader_close(&opened);
        amihunk_loader_close(&sized);
        CHECK(counted.blocks == 0);
    }
    free(file.bytes);
}

static void files_are_loaded_as_with_bases_from_the_start(void)
{
    check_as_opened(one_hunk(), bases, 1);
    check_as_opened(two_hunks(), bases, 2);
    check_as_opened(caller_and_definer(), bases, 2);
    check_as_opened(relocated_zeros(), bases, 1);
    check_as_opened(with(one_hunk(), 0, 0xC00003F3), bases, 1);
    check_as_opened(LONGWORDS(0x3F3, 0, 2, 0, 1, 0, 1, 0x3E9, 0, 0x3F2, 0x3EB, 1, 0x3F2),
                    (const uint32_t[]){0xFFFFFFFF, 0xFFFFFFFC}, 2);
}

static void files_that_end_anywhere_are_refused_the_same(void)
{
    struct file file = two_hunks();
    for (size_t size = 0; size < file.size; size++) {
        check_as_opened(file_of_bytes(file.bytes, size), bases, 2);
    }
    free(file.bytes);
}

static void other_longwords_are_refused_the_same(void)
{
    static const uint32_t longwords[] = {0,          0x3E7,      0x3F2,     0x10000,
                                         0xC0000001, 0x41000000, UINT32_MAX};
    struct file file = two_hunks();
    for (size_t place = 0; place < file.size / 4; place++) {
        for (size_t i = 0; i < COUNT(longwords); i++) {
            struct file copy = file_of_bytes(file.bytes, file.size);
            check_as_opened(with(copy, place, longwords[i]), bases, 2);
        }
    }
    free(file.bytes);
}

/* ------------------------------ What is told ------------------------------ */

static void check_table(amihunk_loader *loader, size_t hunk, amihunk_table expected)
{
    amihunk_table told = {7, 7, 7};
    CHECK(amihunk_loader_table(loader, hunk, &told) == AMIHUNK_OK);
    CHECK(told.hunks == expected.hunks && told.size == expected.size &&
          told.memory == expected.memory);
}

static void check_no_table(amihunk_loader *loader, size_t hunk, amihunk_status status)
{
    amihunk_table told = {7, 7, 7};
    CHECK(amihunk_loader_table(loader, hunk, &told) == status);
    CHECK(told.hunks == 0 && told.size == 0 && told.memory == 0);
}

static void sizes_and_memory_are_told(void)
{
    struct file file = LONGWORDS(0x3F3, 0, 3, 0, 2, 5, 0x40000000, 0x80FFFFFB, 0x3EB);
    size_t taken;
    for (size_t i = 0; i < COUNT(pieces); i++) {
        amihunk_loader loader = {0};
        CHECK(amihunk_loader_begin(&loader, amihunk_from_malloc()) == AMIHUNK_OK);
        CHECK(feed_header(&loader, file, pieces[i], &taken).status == AMIHUNK_NEEDS_BASES);
        CHECK(taken == FRONT + 4 * 3);
        check_table(&loader, 0, (amihunk_table){3, 5, AMIHUNK_ANY_MEMORY});
        check_table(&loader, 1, (amihunk_table){3, 0, AMIHUNK_CHIP_MEMORY});
        check_table(&loader, 2, (amihunk_table){3, 0xFFFFFB, AMIHUNK_FAST_MEMORY});
        check_no_table(&loader, 3, AMIHUNK_OUT_OF_RANGE);
        check_no_table(&loader, SIZE_MAX, AMIHUNK_OUT_OF_RANGE);
        CHECK(feed_header(&loader, file, 0, &taken).status == AMIHUNK_NEEDS_BASES && taken == 0);
        amihunk_loader_close(&loader);
    }
    free(file.bytes);
}

static void nothing_is_told_before_the_header_is_whole(void)
{
    struct file file = two_hunks();
    amihunk_loader loader = {0};
    amihunk_answer answer = unwritten();
    size_t taken = 0;
    CHECK(amihunk_loader_begin(&loader, amihunk_from_malloc()) == AMIHUNK_OK);
    for (size_t i = 0; i < FRONT + 4 * 2; i++) {
        check_no_table(&loader, 0, AMIHUNK_WRONG_STATE);
        CHECK(amihunk_loader_place(&loader, bases, 2, &answer) == AMIHUNK_WRONG_STATE);
        CHECK(same_answer(&answer, &(amihunk_answer){.status = AMIHUNK_WRONG_STATE}));
        amihunk_loader_feed_header(&loader, file.bytes + i, 1, &taken, NULL);
        CHECK(taken == 1);
    }
    check_table(&loader, 1, (amihunk_table){2, 2, AMIHUNK_CHIP_MEMORY});
    amihunk_loader_close(&loader);
    free(file.bytes);
}

/* ------------------------------ Placing ------------------------------ */

static void other_bases_can_be_tried(void)
{
    static const uint32_t close[] = {0x10000, 0x1000C}, high[] = {0x10000, 0xFFFFFFFC};
    struct file file = two_hunks();
    amihunk_loader loader = {0};
    amihunk_answer answer;
    size_t taken;
    CHECK(amihunk_loader_begin(&loader, amihunk_from_malloc()) == AMIHUNK_OK);
    CHECK(feed_header(&loader, file, 0, &taken).status == AMIHUNK_NEEDS_BASES);
    CHECK(amihunk_loader_place(&loader, NULL, 0, NULL) == AMIHUNK_WRONG_COUNT);
    CHECK(amihunk_loader_place(&loader, bases, 1, &answer) == AMIHUNK_WRONG_COUNT);
    CHECK(amihunk_loader_place(&loader, high, 2, &answer) == AMIHUNK_PAST_END && answer.hunk == 1);
    CHECK(amihunk_loader_place(&loader, close, 2, &answer) == AMIHUNK_OVERLAP);
    CHECK(answer.hunk == 0 && answer.other == 1);
    CHECK(amihunk_loader_line(&loader, "x", NULL, 0) == 0);
    CHECK(amihunk_loader_place(&loader, bases, 2, &answer) == AMIHUNK_OK);
    CHECK(amihunk_loader_place(&loader, bases, 2, &answer) == AMIHUNK_WRONG_STATE);
    CHECK(load_pieces(&loader, rest_of(file, taken), 0).status == AMIHUNK_OK);
    uint8_t bytes[16];
    CHECK(amihunk_loader_read(&loader, 0, 0, bytes, 16) == 16 &&
          memcmp(bytes, two_hunks_first, 16) == 0);
    amihunk_loader_close(&loader);
    free(file.bytes);
}

/* Each allocation refused: a refused place can be made again, and a refused feed cannot. */
static void each_allocation_is_refused(void)
{
    for (size_t i = 0; i < COUNT(pieces); i++) {
        size_t asked = SIZE_MAX;
        for (size_t n = 1; n <= asked; n++) {
            struct file file = two_hunks();
            struct counted counted = {.refused = n};
            amihunk_loader loader = {0};
            amihunk_status status = amihunk_loader_begin(&loader, counted_memory(&counted));
            if (status == AMIHUNK_OK) {
                status = (amihunk_status)load_by_sizes(&loader, file, pieces[i], bases, 2).status;
            } else {
                CHECK(loader.session == NULL);
            }
            CHECK(status == (counted.asked < n ? AMIHUNK_OK : AMIHUNK_OUT_OF_MEMORY));
            if (status == AMIHUNK_OUT_OF_MEMORY &&
                amihunk_loader_place(&loader, bases, 2, NULL) == AMIHUNK_OK) {
                size_t taken = FRONT + 4 * 2;
                CHECK(load_pieces(&loader, rest_of(file, taken), 0).status == AMIHUNK_OK);
            }
            asked = counted.asked < n ? counted.asked : asked;
            amihunk_loader_close(&loader);
            CHECK(counted.blocks == 0);
            free(file.bytes);
        }
    }
}

/* ------------------------------ Calls out of turn ------------------------------ */

static void check_not_sizing(amihunk_loader *loader, amihunk_status status)
{
    amihunk_loader before = *loader;
    amihunk_answer answer = unwritten();
    size_t taken = 7;
    CHECK(amihunk_loader_feed_header(loader, "\0\0\3\xF3", 4, &taken, &answer) == status);
    CHECK(taken == 0 && answer.status == status);
    CHECK(amihunk_loader_place(loader, bases, 2, &answer) == status && answer.status == status);
    check_no_table(loader, 0, AMIHUNK_WRONG_STATE);
    CHECK(memcmp(loader, &before, sizeof(before)) == 0);
}

static void only_a_sizing_loader_takes_a_header(void)
{
    struct file file = two_hunks();
    amihunk_loader loader = {0};
    check_not_sizing(&loader, AMIHUNK_WRONG_STATE);
    CHECK(amihunk_loader_open(&loader, amihunk_from_malloc(), bases, 2) == AMIHUNK_OK);
    check_not_sizing(&loader, AMIHUNK_WRONG_STATE);
    CHECK(amihunk_loader_begin(&loader, amihunk_from_malloc()) == AMIHUNK_WRONG_STATE);
    CHECK(load_pieces(&loader, file, 0).status == AMIHUNK_OK);
    check_not_sizing(&loader, AMIHUNK_WRONG_STATE);
    amihunk_loader_close(&loader);
    CHECK(amihunk_loader_begin(&loader, amihunk_from_malloc()) == AMIHUNK_OK);
    CHECK(amihunk_loader_begin(&loader, amihunk_from_malloc()) == AMIHUNK_WRONG_STATE);
    CHECK(amihunk_loader_open(&loader, amihunk_from_malloc(), bases, 2) == AMIHUNK_WRONG_STATE);
    CHECK(amihunk_loader_feed(&loader, file.bytes, file.size, NULL) == AMIHUNK_WRONG_STATE);
    CHECK(amihunk_loader_hunk_count(&loader) == 0);
    CHECK(amihunk_loader_finish(&loader, NULL) == AMIHUNK_BAD_FILE);
    check_not_sizing(&loader, AMIHUNK_BAD_FILE);
    amihunk_loader_close(&loader);
    free(file.bytes);
}

int main(void)
{
    static const struct test tests[] = {
        TEST(files_are_loaded_as_with_bases_from_the_start),
        TEST(files_that_end_anywhere_are_refused_the_same),
        TEST(other_longwords_are_refused_the_same),
        TEST(sizes_and_memory_are_told),
        TEST(nothing_is_told_before_the_header_is_whole),
        TEST(other_bases_can_be_tried),
        TEST(each_allocation_is_refused),
        TEST(only_a_sizing_loader_takes_a_header),
    };
    return run_tests(tests, COUNT(tests));
}

/* What is at an address: the byte of a hunk, and the symbol at it or before it. */
#include "placed.h"

#include "nothing.h"

/* ------------------------------ Bytes ------------------------------ */

/* A load file of zeros: four hunks of 2, 0, 1 and 3 longwords. */
static struct file four_hunks(void)
{
    return LONGWORDS(0x3F3, 0, 4, 0, 3, 2, 0, 1, 3, 0x3EB, 2, 0x3F2, 0x3E9, 0, 0x3F2, 0x3EB, 1,
                     0x3F2, 0x3EA, 0, 0x3F2);
}

static const uint32_t sizes[] = {2, 0, 1, 3};

/* The empty hunk begins inside the first one. */
static const uint32_t bases[] = {0, 4, 0xFFFFFFFC, 0x10001};

static void check_at(amihunk_loader *loader, uint32_t address, uint64_t hunk, uint32_t offset)
{
    amihunk_point told = {7, 7};
    CHECK(amihunk_loader_find(loader, address, &told) == AMIHUNK_OK);
    CHECK(told.hunk == hunk && told.offset == offset);
}

static void check_none_at(amihunk_loader *loader, uint32_t address, amihunk_status status)
{
    amihunk_loader before = *loader;
    amihunk_point told = {7, 7};
    CHECK(amihunk_loader_find(loader, address, &told) == status);
    CHECK(told.hunk == 0 && told.offset == 0);
    CHECK(memcmp(loader, &before, sizeof(before)) == 0);
}

static void check_four_hunks(amihunk_loader *loader)
{
    check_at(loader, 0, 0, 0);
    check_at(loader, 3, 0, 3);
    check_at(loader, 4, 0, 4);
    check_at(loader, 7, 0, 7);
    check_none_at(loader, 8, AMIHUNK_OUT_OF_RANGE);
    check_none_at(loader, 0x10000, AMIHUNK_OUT_OF_RANGE);
    check_at(loader, 0x10001, 3, 0);
    check_at(loader, 0x1000C, 3, 11);
    check_none_at(loader, 0x1000D, AMIHUNK_OUT_OF_RANGE);
    check_none_at(loader, 0x80000000, AMIHUNK_OUT_OF_RANGE);
    check_none_at(loader, 0xFFFFFFFB, AMIHUNK_OUT_OF_RANGE);
    check_at(loader, 0xFFFFFFFC, 2, 0);
    check_at(loader, 0xFFFFFFFF, 2, 3);
}

static void each_end_of_each_hunk_is_found(void)
{
    struct file file = four_hunks();
    struct rooms rooms;
    amihunk_loader loader = {0};
    amihunk_file read = {0};
    CHECK(amihunk_loader_open(&loader, amihunk_from_malloc(), bases, 4) == AMIHUNK_OK);
    CHECK(load_pieces(&loader, file, 1).status == AMIHUNK_OK);
    check_four_hunks(&loader);
    amihunk_loader_close(&loader);
    CHECK(amihunk_loader_begin(&loader, amihunk_from_malloc()) == AMIHUNK_OK);
    CHECK(load_into_rooms(&loader, file, 3, bases, 4, &rooms).status == AMIHUNK_OK);
    check_four_hunks(&loader);
    amihunk_loader_close(&loader);
    free_rooms(&rooms);
    CHECK(amihunk_file_open(&read, amihunk_from_malloc()) == AMIHUNK_OK);
    CHECK(read_pieces(&read, file, 0).status == AMIHUNK_OK);
    CHECK(amihunk_loader_load(&loader, amihunk_from_malloc(), &read, bases, 4, NULL) == AMIHUNK_OK);
    amihunk_file_close(&read);
    check_four_hunks(&loader);
    amihunk_loader_close(&loader);
    free(file.bytes);
}

static void an_empty_hunk_has_no_byte(void)
{
    static const uint32_t at[] = {0xFFFFFFF0, 0xFFFFFFFF, 1000, 0};
    struct file file = four_hunks();
    amihunk_loader loader = {0};
    CHECK(amihunk_loader_open(&loader, amihunk_from_malloc(), at, 4) == AMIHUNK_OK);
    CHECK(load_pieces(&loader, file, 0).status == AMIHUNK_OK);
    check_none_at(&loader, 0xFFFFFFFF, AMIHUNK_OUT_OF_RANGE);
    check_at(&loader, 0xFFFFFFF7, 0, 7);
    check_none_at(&loader, 0xFFFFFFF8, AMIHUNK_OUT_OF_RANGE);
    check_at(&loader, 0, 3, 0);
    check_at(&loader, 11, 3, 11);
    check_none_at(&loader, 12, AMIHUNK_OUT_OF_RANGE);
    amihunk_loader_close(&loader);
    free(file.bytes);
}

/* Each address near hunks in each order, with and without gaps between them. */
static void every_address_is_that_of_one_hunk_or_of_none(void)
{
    static const size_t orders[][4] = {{0, 1, 2, 3}, {3, 2, 1, 0}, {2, 0, 3, 1}, {1, 3, 0, 2}};
    struct file file = four_hunks();
    for (size_t i = 0; i < COUNT(orders); i++) {
        for (uint32_t gap = 0; gap < 3; gap++) {
            uint32_t at[4], next = -(24 + 3 * gap); /* so that the last byte is that of 2^32 - 1 */
            amihunk_loader loader = {0};
            for (size_t k = 0; k < 4; k++) {
                at[orders[i][k]] = next;
                next += 4 * sizes[orders[i][k]] + gap;
            }
            CHECK(amihunk_loader_open(&loader, amihunk_from_malloc(), at, 4) == AMIHUNK_OK);
            CHECK(load_pieces(&loader, file, 0).status == AMIHUNK_OK);
            for (uint32_t address = 0xFFFFFF80; address != 0x40; address++) {
                size_t hunk = 0;
                while (hunk < 4 && address - at[hunk] >= 4 * sizes[hunk]) {
                    hunk++;
                }
                if (hunk < 4) {
                    check_at(&loader, address, hunk, address - at[hunk]);
                } else {
                    check_none_at(&loader, address, AMIHUNK_OUT_OF_RANGE);
                }
            }
            amihunk_loader_close(&loader);
        }
    }
    free(file.bytes);
}

static void only_a_loaded_loader_has_bytes(void)
{
    struct file file = four_hunks();
    amihunk_loader loader = {0};
    size_t taken;
    check_none_at(&loader, 0, AMIHUNK_WRONG_STATE);
    CHECK(amihunk_loader_open(&loader, amihunk_from_malloc(), bases, 4) == AMIHUNK_OK);
    check_none_at(&loader, 0, AMIHUNK_WRONG_STATE);
    CHECK(amihunk_loader_feed(&loader, file.bytes, file.size, NULL) == AMIHUNK_OK);
    check_none_at(&loader, 0, AMIHUNK_WRONG_STATE);
    CHECK(amihunk_loader_feed(&loader, "x", 1, NULL) == AMIHUNK_OK);
    CHECK(amihunk_loader_finish(&loader, NULL) == AMIHUNK_BAD_FILE);
    check_none_at(&loader, 0, AMIHUNK_WRONG_STATE);
    amihunk_loader_close(&loader);
    check_none_at(&loader, 0, AMIHUNK_WRONG_STATE);
    CHECK(amihunk_loader_begin(&loader, amihunk_from_malloc()) == AMIHUNK_OK);
    check_none_at(&loader, 0, AMIHUNK_WRONG_STATE);
    CHECK(feed_header(&loader, file, 0, &taken).status == AMIHUNK_NEEDS_BASES);
    check_none_at(&loader, 0, AMIHUNK_WRONG_STATE);
    amihunk_loader_close(&loader);
    free(file.bytes);
}

/* ------------------------------ Symbols ------------------------------ */

static void check_before(amihunk_file *file, size_t hunk, uint32_t offset, const char *name,
                         uint32_t value)
{
    amihunk_symbol told = {{NULL, 7}, 7};
    CHECK(amihunk_file_symbol_before(file, 0, hunk, offset, &told) == AMIHUNK_OK);
    CHECK(is_text(told.name, (struct text){name, strlen(name)}) && told.value == value);
}

/* The symbols of the second hunk are in no order; two have the value 6, and two 14. */
static struct file with_symbols(int load)
{
    struct file front = load ? LONGWORDS(0x3F3, 0, 3, 0, 2, 1, 1, 1) : LONGWORDS(0x3E7, 0);
    struct file hunks =
        LONGWORDS(0x3EB, 1, 0x3F2, 0x3EB, 1, 0x3F0, 1, 0x61000000, 14, 1, 0x62000000, 6, 1,
                  0x63000000, 6, 0, 0x3F0, 1, 0x64000000, 0xFFFFFFFF, 1, 0x65000000, 14, 0, 0x3F2,
                  0x3EB, 1, 0x3F0, 1, 0x66000000, 0, 1, 0x67000000, 0, 0, 0x3F2);
    return joined(front, front.size, hunks);
}

static void the_symbol_at_an_offset_or_before_it_is_told(void)
{
    for (int load = 0; load < 2; load++) {
        struct file bytes = with_symbols(load);
        amihunk_file file = {0};
        CHECK(amihunk_file_open(&file, amihunk_from_malloc()) == AMIHUNK_OK);
        CHECK(read_pieces(&file, bytes, 3).status == AMIHUNK_OK);
        check_no_symbol_before(&file, 0, 0, 0, AMIHUNK_OUT_OF_RANGE);
        check_no_symbol_before(&file, 0, 0, UINT32_MAX, AMIHUNK_OUT_OF_RANGE);
        check_no_symbol_before(&file, 0, 1, 0, AMIHUNK_OUT_OF_RANGE);
        check_no_symbol_before(&file, 0, 1, 5, AMIHUNK_OUT_OF_RANGE);
        check_before(&file, 1, 6, "b", 6);
        check_before(&file, 1, 7, "b", 6);
        check_before(&file, 1, 13, "b", 6);
        check_before(&file, 1, 14, "a", 14);
        check_before(&file, 1, 15, "a", 14);
        check_before(&file, 1, 0x80000000, "a", 14);
        check_before(&file, 1, 0xFFFFFFFE, "a", 14);
        check_before(&file, 1, 0xFFFFFFFF, "d", 0xFFFFFFFF);
        check_before(&file, 2, 0, "f", 0);
        check_before(&file, 2, UINT32_MAX, "f", 0);
        check_no_symbol_before(&file, 0, 3, 0, AMIHUNK_OUT_OF_RANGE);
        check_no_symbol_before(&file, 1, 1, 14, AMIHUNK_OUT_OF_RANGE);
        check_no_symbol_before(&file, SIZE_MAX, SIZE_MAX, 14, AMIHUNK_OUT_OF_RANGE);
        amihunk_file_close(&file);
        free(bytes.bytes);
    }
}

/* What stands at an address is named: by the hunk, and by its symbol there or before. */
static void an_address_is_named(void)
{
    static const uint32_t at[] = {0x1000, 0x2000, 0x3000, 0x4000};
    struct file bytes = load_of_all();
    amihunk_file file = {0};
    amihunk_loader loader = {0};
    amihunk_point point = {7, 7};
    CHECK(amihunk_file_open(&file, amihunk_from_malloc()) == AMIHUNK_OK);
    CHECK(read_pieces(&file, bytes, 0).status == AMIHUNK_OK);
    CHECK(amihunk_loader_load(&loader, amihunk_from_malloc(), &file, at, 4, NULL) == AMIHUNK_OK);
    CHECK(amihunk_loader_find(&loader, 0x100B, &point) == AMIHUNK_OK);
    CHECK(point.hunk == 0 && point.offset == 11);
    check_before(&file, point.hunk, point.offset, "sub2", 6);
    CHECK(amihunk_loader_find(&loader, 0x1017, &point) == AMIHUNK_OK);
    check_before(&file, point.hunk, point.offset, "sub", 14);
    CHECK(amihunk_loader_find(&loader, 0x2007, &point) == AMIHUNK_OK && point.hunk == 1);
    check_no_symbol_before(&file, 0, point.hunk, point.offset, AMIHUNK_OUT_OF_RANGE);
    check_none_at(&loader, 0x4000, AMIHUNK_OUT_OF_RANGE);
    amihunk_loader_close(&loader);
    amihunk_file_close(&file);
    free(bytes.bytes);
}

int main(void)
{
    static const struct test tests[] = {
        TEST(each_end_of_each_hunk_is_found),
        TEST(an_empty_hunk_has_no_byte),
        TEST(every_address_is_that_of_one_hunk_or_of_none),
        TEST(only_a_loaded_loader_has_bytes),
        TEST(the_symbol_at_an_offset_or_before_it_is_told),
        TEST(an_address_is_named),
    };
    return run_tests(tests, COUNT(tests));
}

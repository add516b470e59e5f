/*
 * Where two load files first differ: each kind of difference, in both directions, and which of
 * several is the first.
 */
#include "facts.h"

#include <stddef.h>

/* The exports write this. */
_Static_assert(sizeof(amihunk_difference) == 40 && offsetof(amihunk_difference, offset) == 8 &&
                   offsetof(amihunk_difference, first) == 16 &&
                   offsetof(amihunk_difference, second) == 24 &&
                   offsetof(amihunk_difference, kind) == 32,
               "a difference");

/* Types of blocks, and what a size in a header has beside it. */
enum {
    CODE = 0x3E9,
    DATA = 0x3EA,
    BSS = 0x3EB,
    RELOC = 0x3EC,
    SYMBOL = 0x3F0,
    DEBUG = 0x3F1,
    END = 0x3F2,
    SHORT = 0x3FC,
    CHIP = 1 << 30
};
#define FAST (1U << 31)

/* Load files of one hunk and of two: their sizes, and their blocks up to the last end. */
#define ONE(size, ...) LONGWORDS(0x3F3, 0, 1, 0, 0, size, __VA_ARGS__, END)
#define TWO(size, other, ...) LONGWORDS(0x3F3, 0, 2, 0, 1, size, other, __VA_ARGS__, END)

/* Opens a file handle, and reads a file that is freed before it is compared. */
static void read_file(amihunk_file *file, amihunk_memory memory, struct file bytes, size_t piece)
{
    CHECK(amihunk_file_open(file, memory) == AMIHUNK_OK);
    CHECK(read_pieces(file, bytes, piece).status == AMIHUNK_OK);
    memset(bytes.bytes, 0xEE, bytes.size);
    free(bytes.bytes);
}

/* ------------------------------ Comparing ------------------------------ */

static int same_difference(const amihunk_difference *one, const amihunk_difference *other)
{
    return one->hunk == other->hunk && one->offset == other->offset && one->first == other->first &&
           one->second == other->second && one->kind == other->kind;
}

static void check_told(amihunk_file *first, amihunk_file *second, bool with_symbols,
                       amihunk_difference expected)
{
    amihunk_file firsts = *first, seconds = *second;
    amihunk_difference told;
    memset(&told, 0xEE, sizeof(told));
    CHECK(amihunk_file_compare(first, second, with_symbols, &told) == AMIHUNK_OK);
    CHECK(same_difference(&told, &expected));
    CHECK(memcmp(first, &firsts, sizeof(firsts)) == 0);
    CHECK(memcmp(second, &seconds, sizeof(seconds)) == 0);
}

static const amihunk_difference nothing = {.kind = AMIHUNK_SAME};

/* In both directions, and each file with itself. Nothing is allocated. */
static void check_compared(struct file first, struct file second, bool with_symbols,
                           amihunk_difference expected)
{
    struct counted of_first = {0}, of_second = {0};
    amihunk_file one = {0}, other = {0};
    amihunk_difference swapped = expected;
    swapped.first = expected.second;
    swapped.second = expected.first;
    read_file(&one, counted_memory(&of_first), first, 0);
    read_file(&other, counted_memory(&of_second), second, 3);
    size_t asked = of_first.asked + of_second.asked;
    for (int i = 0; i < 2; i++) {
        check_told(&one, &other, with_symbols, expected);
        check_told(&other, &one, with_symbols, swapped);
        check_told(&one, &one, with_symbols, nothing);
        check_told(&other, &other, with_symbols, nothing);
    }
    CHECK(of_first.asked + of_second.asked == asked);
    amihunk_file_close(&one);
    amihunk_file_close(&other);
    CHECK(of_first.blocks == 0 && of_second.blocks == 0);
}

/* Symbols and debug blocks do not matter here. */
static void check_differs(struct file first, struct file second, amihunk_difference expected)
{
    struct file firsts = file_of_bytes(first.bytes, first.size);
    struct file seconds = file_of_bytes(second.bytes, second.size);
    check_compared(first, second, false, expected);
    check_compared(firsts, seconds, true, expected);
}

/* Symbols and debug blocks alone differ. */
static void check_info_differs(struct file first, struct file second, amihunk_difference expected)
{
    struct file firsts = file_of_bytes(first.bytes, first.size);
    struct file seconds = file_of_bytes(second.bytes, second.size);
    check_compared(first, second, false, nothing);
    check_compared(firsts, seconds, true, expected);
}

#define DIFFERS(what, hunk, offset, first, second) \
    (amihunk_difference){hunk, offset, first, second, AMIHUNK_##what##_DIFFERS}

/* ------------------------------ What hunks are ------------------------------ */

static void hunks_are_counted(void)
{
    check_differs(ONE(0, CODE, 0), TWO(0, 0, CODE, 0, END, DATA, 0),
                  DIFFERS(HUNK_COUNT, 0, 0, 1, 2));
    /* Before the kind of the first hunk. */
    check_differs(ONE(1, BSS, 1), TWO(0, 0, CODE, 0, END, DATA, 0),
                  DIFFERS(HUNK_COUNT, 0, 0, 1, 2));
    check_differs(LONGWORDS(0x3F3, 0, 3, 0, 2, 0, 0, 0, BSS, 0, END, BSS, 0, END, BSS, 0, END),
                  TWO(0, 0, BSS, 0, END, BSS, 0), DIFFERS(HUNK_COUNT, 0, 0, 3, 2));
}

static void kinds_are_compared(void)
{
    check_differs(ONE(1, CODE, 1, 7), ONE(1, DATA, 1, 7),
                  DIFFERS(KIND, 0, 0, AMIHUNK_CODE, AMIHUNK_DATA));
    check_differs(TWO(0, 0, CODE, 0, END, BSS, 0), TWO(0, 0, CODE, 0, END, DATA, 0),
                  DIFFERS(KIND, 1, 0, AMIHUNK_BSS, AMIHUNK_DATA));
    /* Before the memory and the size. */
    check_differs(ONE(1, BSS, 1), ONE(FAST | 2, CODE, 0),
                  DIFFERS(KIND, 0, 0, AMIHUNK_BSS, AMIHUNK_CODE));
}

static void memories_are_compared(void)
{
    check_differs(ONE(1, CODE, 1, 7), ONE(CHIP | 1, CODE, 1, 7),
                  DIFFERS(MEMORY, 0, 0, AMIHUNK_ANY_MEMORY, AMIHUNK_CHIP_MEMORY));
    check_differs(TWO(0, FAST, CODE, 0, END, BSS, 0), TWO(0, CHIP, CODE, 0, END, BSS, 0),
                  DIFFERS(MEMORY, 1, 0, AMIHUNK_FAST_MEMORY, AMIHUNK_CHIP_MEMORY));
    /* Before the size and the bytes. */
    check_differs(ONE(FAST | 1, CODE, 1, 7), ONE(2, CODE, 1, 8),
                  DIFFERS(MEMORY, 0, 0, AMIHUNK_FAST_MEMORY, AMIHUNK_ANY_MEMORY));
}

static void sizes_are_compared(void)
{
    check_differs(ONE(1, CODE, 1, 7), ONE(2, CODE, 1, 7), DIFFERS(SIZE, 0, 0, 1, 2));
    check_differs(TWO(0, 0, CODE, 0, END, BSS, 0), TWO(0, 0xFFFFFF, CODE, 0, END, BSS, 0xFFFFFF),
                  DIFFERS(SIZE, 1, 0, 0, 0xFFFFFF));
    /* Before the bytes and the sites. */
    check_differs(ONE(2, CODE, 1, 7), ONE(1, CODE, 1, 8, RELOC, 1, 0, 0, 0),
                  DIFFERS(SIZE, 0, 0, 2, 1));
}

/* ------------------------------ What is in memory ------------------------------ */

static void bytes_are_compared(void)
{
    check_differs(ONE(2, CODE, 2, 0x12345678, 9), ONE(2, CODE, 2, 0xFE345678, 9),
                  DIFFERS(BYTE, 0, 0, 0x12, 0xFE));
    check_differs(ONE(2, CODE, 2, 0x12345678, 9), ONE(2, CODE, 2, 0x1234FF78, 8),
                  DIFFERS(BYTE, 0, 2, 0x56, 0xFF));
    check_differs(ONE(2, CODE, 2, 0x12345678, 9), ONE(2, CODE, 2, 0x12355578, 8),
                  DIFFERS(BYTE, 0, 1, 0x34, 0x35));
    /* The last byte of the last hunk. */
    check_differs(TWO(1, 2, CODE, 1, 7, END, DATA, 2, 1, 255),
                  TWO(1, 2, CODE, 1, 7, END, DATA, 2, 1, 254), DIFFERS(BYTE, 1, 7, 255, 254));
    /* The hunk that comes first. */
    check_differs(TWO(1, 1, CODE, 1, 7, END, DATA, 1, 0x01000000),
                  TWO(1, 1, CODE, 1, 6, END, CODE, 1, 0x02000000), DIFFERS(BYTE, 0, 3, 7, 6));
}

static void zeros_follow_what_is_stored(void)
{
    check_differs(ONE(3, CODE, 1, 7), ONE(3, CODE, 3, 7, 0, 0), nothing);
    check_differs(ONE(3, DATA, 0), ONE(3, DATA, 3, 0, 0, 0), nothing);
    check_differs(ONE(3, CODE, 1, 7), ONE(3, CODE, 3, 7, 0, 1), DIFFERS(BYTE, 0, 11, 0, 1));
    check_differs(ONE(3, DATA, 0), ONE(3, DATA, 2, 0x00020000, 3), DIFFERS(BYTE, 0, 1, 0, 2));
    check_differs(ONE(3, DATA, 1, 0xFF000000), ONE(3, DATA, 0), DIFFERS(BYTE, 0, 0, 0xFF, 0));
}

static void sites_are_compared(void)
{
    /* There is one in one file alone: at the first offset, at an odd one, and at the last. */
    check_differs(ONE(2, CODE, 0, RELOC, 1, 0, 0, 0), ONE(2, CODE, 0),
                  DIFFERS(SITE, 0, 0, 0, AMIHUNK_NO_SITE));
    check_differs(ONE(2, CODE, 2, 1, 2), ONE(2, CODE, 2, 1, 2, RELOC, 1, 0, 3, 0),
                  DIFFERS(SITE, 0, 3, AMIHUNK_NO_SITE, 0));
    check_differs(TWO(1, 2, CODE, 0, END, BSS, 2, RELOC, 1, 1, 4, 0),
                  TWO(1, 2, CODE, 0, END, BSS, 2), DIFFERS(SITE, 1, 4, 1, AMIHUNK_NO_SITE));
    /* They add the bases of different hunks. */
    check_differs(TWO(1, 3, CODE, 0, END, BSS, 3, RELOC, 1, 0, 0, 1, 1, 5, 0),
                  TWO(1, 3, CODE, 0, END, BSS, 3, RELOC, 2, 0, 0, 5, 0), DIFFERS(SITE, 1, 5, 1, 0));
    /* All of them are moved. */
    check_differs(ONE(3, BSS, 3, RELOC, 2, 0, 1, 5, 0), ONE(3, BSS, 3, RELOC, 2, 0, 2, 6, 0),
                  DIFFERS(SITE, 0, 1, 0, AMIHUNK_NO_SITE));
}

static void the_lowest_offset_is_told_and_there_the_byte(void)
{
    check_differs(ONE(2, CODE, 1, 0x07000000, RELOC, 1, 0, 0, 0), ONE(2, CODE, 1, 0x08000000),
                  DIFFERS(BYTE, 0, 0, 7, 8));
    check_differs(ONE(2, CODE, 1, 0x00070000, RELOC, 1, 0, 0, 0), ONE(2, CODE, 1, 0x00080000),
                  DIFFERS(SITE, 0, 0, 0, AMIHUNK_NO_SITE));
    check_differs(ONE(2, CODE, 1, 0x00070000, RELOC, 1, 0, 2, 0), ONE(2, CODE, 1, 0x00080000),
                  DIFFERS(BYTE, 0, 1, 7, 8));
}

static void hunks_of_no_longwords_are_the_same(void)
{
    check_differs(ONE(0, CODE, 0), ONE(0, CODE, 0), nothing);
    check_differs(TWO(0, CHIP, BSS, 0, END, DATA, 0), TWO(0, CHIP, BSS, 0, END, DATA, 0), nothing);
    check_differs(TWO(0, 1, BSS, 0, END, DATA, 0), TWO(0, 1, BSS, 0, END, DATA, 1, 5),
                  DIFFERS(BYTE, 1, 3, 0, 5));
}

static void how_a_file_is_written_makes_no_difference(void)
{
    /* The upper bits of the first longword, a name, and a list of sites that is short, or two. */
    check_differs(ONE(4, CODE, 1, 7, RELOC, 3, 0, 0, 8, 4, 0),
                  LONGWORDS(0xC00003F3, 0, 1, 0, 0, 4, 0x3E8, 1, 0x61000000, CODE, 2, 7, 0, SHORT,
                            0x00020000, 0x00080004, 0, RELOC, 1, 0, 0, 0, END),
                  nothing);
    /* Of symbols and debug blocks each has its own order. */
    check_differs(ONE(0, CODE, 0, SYMBOL, 1, 0x61000000, 1, 1, 0x62000000, 2, 0, DEBUG, 1, 3),
                  ONE(0, CODE, 0, SYMBOL, 2, 0x61000000, 0xFF, 1, 0, DEBUG, 1, 3, SYMBOL, 1,
                      0x62000000, 2, 0),
                  nothing);
}

/* ------------------------------ Symbols and debug blocks ------------------------------ */

static void symbols_are_compared_if_that_is_asked(void)
{
    check_info_differs(ONE(0, CODE, 0, SYMBOL, 1, 0x61000000, 1, 0), ONE(0, CODE, 0),
                       DIFFERS(SYMBOL, 0, 0, 0, 0));
    /* The name, the value, and the number of them. */
    check_info_differs(
        ONE(0, CODE, 0, SYMBOL, 1, 0x61000000, 1, 1, 0x62000000, 2, 0),
        ONE(0, CODE, 0, SYMBOL, 1, 0x61000000, 1, 1, 0x62630000, 2, 1, 0x64000000, 0, 0),
        DIFFERS(SYMBOL, 0, 1, 0, 0));
    check_info_differs(ONE(0, CODE, 0, SYMBOL, 1, 0x61000000, 1, 0),
                       ONE(0, CODE, 0, SYMBOL, 1, 0x61000000, 0x80000001, 0),
                       DIFFERS(SYMBOL, 0, 0, 0, 0));
    check_info_differs(
        TWO(0, 0, CODE, 0, END, DATA, 0, SYMBOL, 1, 0x61000000, 1, 1, 0x61000000, 1, 0),
        TWO(0, 0, CODE, 0, END, DATA, 0, SYMBOL, 1, 0x61000000, 1, 0), DIFFERS(SYMBOL, 1, 1, 0, 0));
    /* The same ones in another order. */
    check_info_differs(ONE(0, CODE, 0, SYMBOL, 1, 0x61000000, 1, 1, 0x62000000, 2, 0),
                       ONE(0, CODE, 0, SYMBOL, 1, 0x62000000, 2, 1, 0x61000000, 1, 0),
                       DIFFERS(SYMBOL, 0, 0, 0, 0));
}

static void debug_blocks_are_compared_if_that_is_asked(void)
{
    check_info_differs(ONE(0, CODE, 0, DEBUG, 0), ONE(0, CODE, 0), DIFFERS(DEBUG, 0, 0, 0, 0));
    check_info_differs(ONE(0, CODE, 0, DEBUG, 1, 5, DEBUG, 2, 6, 7),
                       ONE(0, CODE, 0, DEBUG, 1, 5, DEBUG, 2, 6, 8), DIFFERS(DEBUG, 0, 1, 0, 0));
    check_info_differs(TWO(0, 0, CODE, 0, END, DATA, 0, DEBUG, 1, 5),
                       TWO(0, 0, CODE, 0, END, DATA, 0, DEBUG, 2, 5, 0),
                       DIFFERS(DEBUG, 1, 0, 0, 0));
    /* The symbols of a hunk come first, and then its debug blocks, before the next hunk. */
    check_info_differs(ONE(0, CODE, 0, DEBUG, 1, 5, SYMBOL, 1, 0x61000000, 1, 0),
                       ONE(0, CODE, 0, DEBUG, 1, 6, SYMBOL, 1, 0x61000000, 2, 0),
                       DIFFERS(SYMBOL, 0, 0, 0, 0));
    check_info_differs(TWO(0, 0, CODE, 0, DEBUG, 1, 5, END, DATA, 0, SYMBOL, 1, 0x61000000, 1, 0),
                       TWO(0, 0, CODE, 0, DEBUG, 1, 6, END, DATA, 0), DIFFERS(DEBUG, 0, 0, 0, 0));
}

static void all_else_comes_before_symbols_and_debug_blocks(void)
{
    check_differs(TWO(0, 2, CODE, 0, SYMBOL, 1, 0x61000000, 1, 0, DEBUG, 0, END, DATA, 0),
                  TWO(0, 2, CODE, 0, END, DATA, 2, 0, 1), DIFFERS(BYTE, 1, 7, 0, 1));
    check_differs(TWO(0, 2, CODE, 0, DEBUG, 0, END, DATA, 0),
                  TWO(0, 2, CODE, 0, END, DATA, 0, RELOC, 1, 0, 4, 0),
                  DIFFERS(SITE, 1, 4, AMIHUNK_NO_SITE, 0));
    check_differs(ONE(0, CODE, 0, SYMBOL, 1, 0x61000000, 1, 0), TWO(0, 0, CODE, 0, END, DATA, 0),
                  DIFFERS(HUNK_COUNT, 0, 0, 1, 2));
}

/* ------------------------------ Out of turn ------------------------------ */

static void check_not_compared(amihunk_file *first, amihunk_file *second)
{
    amihunk_file firsts = *first, seconds = *second;
    for (int with_symbols = 0; with_symbols < 2; with_symbols++) {
        amihunk_difference told;
        memset(&told, 0xEE, sizeof(told));
        CHECK(amihunk_file_compare(first, second, with_symbols, &told) == AMIHUNK_WRONG_STATE);
        CHECK(same_difference(&told, &nothing));
    }
    CHECK(memcmp(first, &firsts, sizeof(firsts)) == 0);
    CHECK(memcmp(second, &seconds, sizeof(seconds)) == 0);
}

/* Neither with a load file that was read, in both directions, nor with itself. */
static void check_is_no_load_file(amihunk_file *file)
{
    amihunk_file load = {0};
    read_file(&load, amihunk_from_malloc(), ONE(0, CODE, 0), 0);
    check_not_compared(file, &load);
    check_not_compared(&load, file);
    check_not_compared(file, file);
    check_told(&load, &load, true, nothing);
    amihunk_file_close(&load);
}

static void only_load_files_that_were_read_are_compared(void)
{
    struct counted counted = {0};
    struct file bytes = ONE(0, CODE, 0);
    amihunk_file file = {0}, closed = {0};
    check_is_no_load_file(&file);
    check_not_compared(&file, &closed);
    read_file(&file, counted_memory(&counted), LONGWORDS(0x3E7, 0, CODE, 1, 7, END), 0);
    check_is_no_load_file(&file);
    amihunk_file_close(&file);
    CHECK(amihunk_file_open(&file, counted_memory(&counted)) == AMIHUNK_OK);
    check_is_no_load_file(&file);
    for (size_t i = 0; i < bytes.size; i++) {
        CHECK(amihunk_file_feed(&file, bytes.bytes + i, 1, NULL) == AMIHUNK_OK);
        check_is_no_load_file(&file);
    }
    check_not_compared(&file, &closed);
    CHECK(amihunk_file_finish(&file, NULL) == AMIHUNK_OK);
    check_told(&file, &file, true, nothing);
    amihunk_file_close(&file);
    CHECK(amihunk_file_open(&file, counted_memory(&counted)) == AMIHUNK_OK);
    CHECK(amihunk_file_finish(&file, NULL) == AMIHUNK_BAD_FILE);
    check_is_no_load_file(&file);
    amihunk_file_close(&file);
    CHECK(counted.blocks == 0);
    free(bytes.bytes);
}

/* ------------------------------ Handles ------------------------------ */

static void a_file_that_was_compared_is_as_before(void)
{
    amihunk_file one = {0}, other = {0};
    amihunk_loader loader = {0};
    const uint32_t base = 0x10000;
    uint8_t bytes[4];
    read_file(&one, amihunk_from_malloc(), ONE(1, CODE, 1, 0x4E754E71), 0);
    read_file(&other, amihunk_from_malloc(), ONE(1, CODE, 1, 0x4E754E75), 0);
    check_told(&one, &other, true, DIFFERS(BYTE, 0, 3, 0x71, 0x75));
    amihunk_file_close(&other);
    check_not_compared(&one, &other);
    check_told(&one, &one, true, nothing);
    CHECK(amihunk_loader_load(&loader, amihunk_from_malloc(), &one, &base, 1, NULL) == AMIHUNK_OK);
    CHECK(amihunk_loader_read(&loader, 0, 0, bytes, 4) == 4 &&
          memcmp(bytes, "\x4E\x75\x4E\x71", 4) == 0);
    amihunk_loader_close(&loader);
    amihunk_file_close(&one);
}

/* One memory hands out nothing more once a file is read, and the other one is a buffer. */
static void no_memory_is_needed(void)
{
    static uint64_t buffer[512];
    struct counted counted = {0};
    amihunk_file one = {0}, other = {0};
    read_file(&one, counted_memory(&counted), ONE(2, CODE, 1, 7, SYMBOL, 1, 0x61000000, 1, 0), 0);
    read_file(&other, amihunk_in_buffer(buffer, sizeof(buffer)), ONE(2, CODE, 2, 7, 0), 0);
    counted.refused = counted.asked + 1;
    counted.all = 1;
    check_told(&one, &other, false, nothing);
    check_told(&other, &one, true, DIFFERS(SYMBOL, 0, 0, 0, 0));
    CHECK(counted.asked + 1 == counted.refused);
    amihunk_file_close(&one);
    amihunk_file_close(&other);
    CHECK(counted.blocks == 0);
}

int main(void)
{
    static const struct test tests[] = {
        TEST(hunks_are_counted),
        TEST(kinds_are_compared),
        TEST(memories_are_compared),
        TEST(sizes_are_compared),
        TEST(bytes_are_compared),
        TEST(zeros_follow_what_is_stored),
        TEST(sites_are_compared),
        TEST(the_lowest_offset_is_told_and_there_the_byte),
        TEST(hunks_of_no_longwords_are_the_same),
        TEST(how_a_file_is_written_makes_no_difference),
        TEST(symbols_are_compared_if_that_is_asked),
        TEST(debug_blocks_are_compared_if_that_is_asked),
        TEST(all_else_comes_before_symbols_and_debug_blocks),
        TEST(only_load_files_that_were_read_are_compared),
        TEST(a_file_that_was_compared_is_as_before),
        TEST(no_memory_is_needed),
    };
    return run_tests(tests, COUNT(tests));
}

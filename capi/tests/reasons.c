/*
 * One file for each reason, with its place and number, the longword that brings it, the line that
 * is printed, and the same answer ever after; and the addresses that are rejected. So each number
 * of the header is seen where it belongs.
 */
#include "files.h"

#include <stddef.h>

_Static_assert(sizeof(amihunk_answer) == 56, "the size of an answer");
_Static_assert(offsetof(amihunk_answer, place) == 0, "place");
_Static_assert(offsetof(amihunk_answer, input) == 8, "input");
_Static_assert(offsetof(amihunk_answer, unit) == 16, "unit");
_Static_assert(offsetof(amihunk_answer, hunk) == 24, "hunk");
_Static_assert(offsetof(amihunk_answer, other) == 32, "other");
_Static_assert(offsetof(amihunk_answer, status) == 40, "status");
_Static_assert(offsetof(amihunk_answer, reason) == 44, "reason");
_Static_assert(offsetof(amihunk_answer, number) == 48, "number");
_Static_assert(offsetof(amihunk_loader, session) == 0 && sizeof(void *) == 8,
               "a handle begins with a pointer");
_Static_assert(offsetof(amihunk_linker, session) == 0, "a handle begins with a pointer");

static int same_line(size_t length, const char *line, const char *expected)
{
    return length == strlen(expected) && strcmp(line, expected) == 0;
}

static void check_loader_line(amihunk_loader *loader, const char *expected)
{
    char line[200];
    CHECK(same_line(amihunk_loader_line(loader, "x", line, sizeof(line)), line, expected));
}

static void check_linker_line(amihunk_linker *linker, const char *expected)
{
    char line[200];
    CHECK(same_line(amihunk_linker_line(linker, "x", line, sizeof(line)), line, expected));
}

static amihunk_answer bad_file(uint64_t place, uint32_t reason, uint32_t number)
{
    return (amihunk_answer){
        .place = place, .status = AMIHUNK_BAD_FILE, .reason = reason, .number = number};
}

/*
 * The number of bytes with which a file is refused: all, and its end, or those up to the end of a
 * longword.
 */
static size_t bytes_before(struct file file, const amihunk_answer *expected)
{
    int at_the_end = expected->reason == AMIHUNK_REASON_PARTIAL_LONGWORD ||
                     expected->reason == AMIHUNK_REASON_UNEXPECTED_END;
    return at_the_end ? file.size : 4 * expected->place + 3;
}

/* Refused by the loader as expected, in the call that brings the last byte of the longword. */
static void load_refused(struct file file, amihunk_answer expected, const char *line)
{
    static const uint32_t base = 0x10000;
    struct counted counted = {0};
    amihunk_loader loader = {0};
    CHECK(amihunk_loader_open(&loader, counted_memory(&counted), &base, 1) == AMIHUNK_OK);
    size_t before = bytes_before(file, &expected);
    for (size_t i = 0; i < file.size; i++) {
        amihunk_answer answer = unwritten();
        amihunk_status status = amihunk_loader_feed(&loader, file.bytes + i, 1, &answer);
        CHECK(status == (i < before ? AMIHUNK_OK : AMIHUNK_BAD_FILE));
        CHECK(same_answer(&answer, i < before ? &(amihunk_answer){0} : &expected));
    }
    for (int i = 0; i < 2; i++) {
        amihunk_answer answer = unwritten();
        CHECK(amihunk_loader_finish(&loader, &answer) == AMIHUNK_BAD_FILE);
        CHECK(same_answer(&answer, &expected));
        check_loader_line(&loader, line);
        answer = unwritten();
        CHECK(amihunk_loader_feed(&loader, NULL, 0, &answer) == AMIHUNK_BAD_FILE);
        CHECK(same_answer(&answer, &expected));
    }
    CHECK(amihunk_loader_hunk_count(&loader) == 0);
    amihunk_loader_close(&loader);
    CHECK(counted.blocks == 0);
    free(file.bytes);
}

/* The same by the linker, as the third object file of three. */
static void link_refused(struct file file, amihunk_answer expected, const char *line)
{
    struct counted counted = {0};
    amihunk_linker linker = {0};
    CHECK(amihunk_linker_open(&linker, counted_memory(&counted), (amihunk_options){0}) ==
          AMIHUNK_OK);
    struct file earlier[] = {definer(), table()};
    for (size_t i = 0; i < COUNT(earlier); i++) {
        CHECK(amihunk_linker_feed(&linker, earlier[i].bytes, earlier[i].size, NULL) == AMIHUNK_OK);
        CHECK(amihunk_linker_end_input(&linker, NULL) == AMIHUNK_OK);
        free(earlier[i].bytes);
    }
    expected.input = 2;
    size_t before = bytes_before(file, &expected);
    for (size_t i = 0; i < file.size; i++) {
        amihunk_answer answer = unwritten();
        amihunk_status status = amihunk_linker_feed(&linker, file.bytes + i, 1, &answer);
        CHECK(status == (i < before ? AMIHUNK_OK : AMIHUNK_BAD_FILE));
        CHECK(same_answer(&answer, i < before ? &(amihunk_answer){0} : &expected));
    }
    for (int i = 0; i < 2; i++) {
        amihunk_answer answer = unwritten();
        CHECK(amihunk_linker_end_input(&linker, &answer) == AMIHUNK_BAD_FILE);
        CHECK(same_answer(&answer, &expected));
        check_linker_line(&linker, line);
        answer = unwritten();
        CHECK(amihunk_linker_finish(&linker, &answer) == AMIHUNK_BAD_FILE);
        CHECK(same_answer(&answer, &expected));
        answer = unwritten();
        CHECK(amihunk_linker_feed(&linker, NULL, 0, &answer) == AMIHUNK_BAD_FILE);
        CHECK(same_answer(&answer, &expected));
    }
    CHECK(amihunk_linker_name(&linker, NULL, 0) == 0);
    amihunk_linker_close(&linker);
    CHECK(counted.blocks == 0);
    free(file.bytes);
}

static void partial_longword(void)
{
    for (size_t size = 1; size < 4; size++) {
        load_refused(joined(one_hunk(), 40, file_of_bytes("\0\0\0", size)), bad_file(10, 1, 0),
                     "amihunk: x: longword 10: file ends inside a longword\n");
    }
    load_refused(file_of_bytes("\0\0\3", 3), bad_file(0, AMIHUNK_REASON_PARTIAL_LONGWORD, 0),
                 "amihunk: x: longword 0: file ends inside a longword\n");
    link_refused(file_of_bytes("\0\0\3", 3), bad_file(0, AMIHUNK_REASON_PARTIAL_LONGWORD, 0),
                 "amihunk: x: longword 0: file ends inside a longword\n");
}

static void unexpected_end(void)
{
    load_refused(joined(one_hunk(), 36, file_of_bytes("", 0)), bad_file(9, 2, 0),
                 "amihunk: x: longword 9: file ends too early\n");
    load_refused(file_of_bytes("", 0), bad_file(0, AMIHUNK_REASON_UNEXPECTED_END, 0),
                 "amihunk: x: longword 0: file ends too early\n");
    link_refused(file_of_bytes("", 0), bad_file(0, AMIHUNK_REASON_UNEXPECTED_END, 0),
                 "amihunk: x: longword 0: file ends too early\n");
}

static void wrong_start(void)
{
    load_refused(caller(), bad_file(0, 3, 0), "amihunk: x: longword 0: wrong first longword\n");
    link_refused(one_hunk(), bad_file(0, AMIHUNK_REASON_WRONG_START, 0),
                 "amihunk: x: longword 0: wrong first longword\n");
}

static void unknown_type(void)
{
    load_refused(with(one_hunk(), 6, 0x200003E9), bad_file(6, 4, 536871913),
                 "amihunk: x: longword 6: unknown block type 536871913\n");
    link_refused(with(caller(), 6, 1020), bad_file(6, AMIHUNK_REASON_UNKNOWN_TYPE, 1020),
                 "amihunk: x: longword 6: unknown block type 1020\n");
}

static void misplaced_type(void)
{
    load_refused(with(one_hunk(), 9, 0x3E9), bad_file(9, 5, 1001),
                 "amihunk: x: longword 9: block type 1001 not allowed here\n");
    link_refused(with(caller(), 2, 0x3F3), bad_file(2, AMIHUNK_REASON_MISPLACED_TYPE, 1011),
                 "amihunk: x: longword 2: block type 1011 not allowed here\n");
}

static void unsupported_block(void)
{
    load_refused(with(one_hunk(), 9, 0x3F7), bad_file(9, 6, 1015),
                 "amihunk: x: longword 9: block type 1015 not supported\n");
    load_refused(joined(one_hunk(), 40, LONGWORDS(0x3F5)),
                 bad_file(10, AMIHUNK_REASON_UNSUPPORTED_BLOCK, 1013),
                 "amihunk: x: longword 10: block type 1013 not supported\n");
}

static void unsupported_ext(void)
{
    link_refused(with(definer(), 7, 0x82000001), bad_file(7, 7, 130),
                 "amihunk: x: longword 7: external type 130 not supported\n");
    link_refused(with(definer(), 7, 0x00000001), bad_file(7, AMIHUNK_REASON_UNSUPPORTED_EXT, 0),
                 "amihunk: x: longword 7: external type 0 not supported\n");
}

static void both_memory_bits(void)
{
    load_refused(with(one_hunk(), 5, 0xC0000001), bad_file(5, 8, 0),
                 "amihunk: x: longword 5: both memory bits set\n");
    link_refused(LONGWORDS(0x3E7, 0, 0xC00003EA, 1, 0, 0x3F2),
                 bad_file(2, AMIHUNK_REASON_BOTH_MEMORY_BITS, 0),
                 "amihunk: x: longword 2: both memory bits set\n");
}

static void resident_names(void)
{
    load_refused(with(one_hunk(), 1, 1), bad_file(1, 9, 0),
                 "amihunk: x: longword 1: resident library names not supported\n");
    load_refused(with(one_hunk(), 1, 2), bad_file(1, AMIHUNK_REASON_RESIDENT_NAMES, 0),
                 "amihunk: x: longword 1: resident library names not supported\n");
}

static void hunk_table(void)
{
    load_refused(with(one_hunk(), 2, 0), bad_file(2, 10, 0),
                 "amihunk: x: longword 2: bad hunk table\n");
    load_refused(with(one_hunk(), 2, 0x10000), bad_file(2, 10, 0),
                 "amihunk: x: longword 2: bad hunk table\n");
    load_refused(with(one_hunk(), 3, 1), bad_file(3, 10, 0),
                 "amihunk: x: longword 3: bad hunk table\n");
    load_refused(with(one_hunk(), 4, 1), bad_file(4, AMIHUNK_REASON_HUNK_TABLE, 0),
                 "amihunk: x: longword 4: bad hunk table\n");
}

static void too_large(void)
{
    load_refused(LONGWORDS(0x3F3, 0, 2, 0, 1, 0x00FFFFFF, 2), bad_file(6, 11, 0),
                 "amihunk: x: longword 6: too large\n");
    load_refused(LONGWORDS(0x3F3, 0, 1, 0, 0, 0x01000001), bad_file(5, AMIHUNK_REASON_TOO_LARGE, 0),
                 "amihunk: x: longword 5: too large\n");
}

static void content_too_long(void)
{
    load_refused(with(one_hunk(), 7, 2), bad_file(7, 12, 0),
                 "amihunk: x: longword 7: block longer than its hunk\n");
    load_refused(with(one_hunk(), 7, 0x3FFFFFFF), bad_file(7, AMIHUNK_REASON_CONTENT_TOO_LONG, 0),
                 "amihunk: x: longword 7: block longer than its hunk\n");
}

static void no_such_hunk(void)
{
    load_refused(joined(one_hunk(), 36, LONGWORDS(0x3EC, 1, 1)), bad_file(11, 13, 1),
                 "amihunk: x: longword 11: no hunk 1\n");
    load_refused(joined(one_hunk(), 36, LONGWORDS(0x3EC, 1, 0xFFFFFFFF)),
                 bad_file(11, AMIHUNK_REASON_NO_SUCH_HUNK, 0xFFFFFFFF),
                 "amihunk: x: longword 11: no hunk 4294967295\n");
}

static void site_outside(void)
{
    load_refused(with(relocated_zeros(), 12, 9), bad_file(12, 14, 9),
                 "amihunk: x: longword 12: site 00000009 outside its hunk\n");
    link_refused(LONGWORDS(0x3E7, 0, 0x3E9, 2, 0x4EB90000, 0x00004E75, 0x3EC, 1, 0, 5),
                 bad_file(9, AMIHUNK_REASON_SITE_OUTSIDE, 5),
                 "amihunk: x: longword 9: site 00000005 outside its hunk\n");
    link_refused(LONGWORDS(0x3E7, 0, 0x3EB, 4, 0x3EC, 0xFFFFFFFF, 0, 0), bad_file(7, 14, 0),
                 "amihunk: x: longword 7: site 00000000 outside its hunk\n");
}

static void site_overlap(void)
{
    load_refused(LONGWORDS(0x3F3, 0, 1, 0, 0, 2, 0x3EA, 0, 0x3EC, 2, 0, 0, 3), bad_file(12, 15, 3),
                 "amihunk: x: longword 12: site 00000003 overlaps another\n");
    link_refused(LONGWORDS(0x3E7, 0, 0x3E9, 2, 0x4EB90000, 0x00004E75, 0x3EC, 1, 0, 2, 0, 0x3EF,
                           0x81000001, 0x666F6F00, 1, 4),
                 bad_file(15, AMIHUNK_REASON_SITE_OVERLAP, 4),
                 "amihunk: x: longword 15: site 00000004 overlaps another\n");
}

static void symbol_kind(void)
{
    link_refused(with(assembled(), 21, 0x01000001), bad_file(21, 16, 1),
                 "amihunk: x: longword 21: symbol of kind 1\n");
    load_refused(joined(one_hunk(), 36, LONGWORDS(0x3F0, 0xFF000001)),
                 bad_file(10, AMIHUNK_REASON_SYMBOL_KIND, 255),
                 "amihunk: x: longword 10: symbol of kind 255\n");
}

static void trailing_data(void)
{
    load_refused(joined(one_hunk(), 40, LONGWORDS(0)), bad_file(10, 17, 0),
                 "amihunk: x: longword 10: data after the last hunk\n");
    load_refused(joined(one_hunk(), 40, LONGWORDS(0x3F2)),
                 bad_file(10, AMIHUNK_REASON_TRAILING_DATA, 0),
                 "amihunk: x: longword 10: data after the last hunk\n");
}

/* ------------------------------ Places ------------------------------ */

static void check_places(const uint32_t *sizes, size_t size_count, const uint32_t *bases,
                         size_t base_count, amihunk_answer expected)
{
    amihunk_answer answer = unwritten();
    CHECK(amihunk_check_places(sizes, size_count, bases, base_count, &answer) == expected.status);
    CHECK(same_answer(&answer, &expected));
    CHECK(amihunk_check_places(sizes, size_count, bases, base_count, NULL) == expected.status);
}

#define LIST(...) (const uint32_t[]){__VA_ARGS__}, sizeof((const uint32_t[]){__VA_ARGS__}) / 4

static void places_are_checked(void)
{
    amihunk_answer placed = {0};
    amihunk_answer past_end = {.status = AMIHUNK_PAST_END};
    amihunk_answer wrong_count = {.status = AMIHUNK_WRONG_COUNT};
    check_places(LIST(2), LIST(0xFFFFFFF8), placed);
    check_places(LIST(2), LIST(0xFFFFFFFC), past_end);
    check_places(LIST(0, 0), LIST(0x1000, 0x1000), placed);
    check_places(LIST(2, 1), LIST(0x1000, 0x1008), placed);
    check_places(LIST(2, 1), LIST(0x1000, 0x1007),
                 (amihunk_answer){.status = AMIHUNK_OVERLAP, .hunk = 0, .other = 1});
    check_places(LIST(0, 2), LIST(0x1004, 0x1000), placed);
    check_places(LIST(0), LIST(0xFFFFFFFF), placed);
    check_places(LIST(1, 1, 4), LIST(0x1008, 0x1000, 0x1000),
                 (amihunk_answer){.status = AMIHUNK_OVERLAP, .hunk = 0, .other = 2});
    check_places(LIST(1, 1, 1), LIST(0x1008, 0x1000, 0x1000),
                 (amihunk_answer){.status = AMIHUNK_OVERLAP, .hunk = 1, .other = 2});
    check_places(LIST(1, 1, 1), LIST(0, 0xFFFFFFFF, 0xFFFFFFFE),
                 (amihunk_answer){.status = AMIHUNK_PAST_END, .hunk = 1});
    check_places(LIST(1), NULL, 0, wrong_count);
    check_places(NULL, 0, LIST(1), wrong_count);
    check_places(NULL, 0, NULL, 0, placed);
}

static void load_unplaced(const uint32_t *bases, size_t count, amihunk_answer expected,
                          const char *line)
{
    struct counted counted = {0};
    struct file file = two_hunks();
    amihunk_loader loader = {0};
    CHECK(amihunk_loader_open(&loader, counted_memory(&counted), bases, count) == AMIHUNK_OK);
    for (int i = 0; i < 2; i++) {
        amihunk_answer answer = unwritten();
        CHECK(amihunk_loader_feed(&loader, file.bytes, i == 0 ? file.size : 0, &answer) ==
              (i == 0 ? AMIHUNK_OK : expected.status));
        answer = unwritten();
        CHECK(amihunk_loader_finish(&loader, &answer) == expected.status);
        CHECK(same_answer(&answer, &expected));
        check_loader_line(&loader, line);
    }
    amihunk_loader_close(&loader);
    CHECK(counted.blocks == 0);
    free(file.bytes);
}

static void hunks_that_cannot_be_placed_are_not_loaded(void)
{
    load_unplaced(NULL, 0, (amihunk_answer){.status = 2},
                  "amihunk: places: wrong number of addresses\n");
    load_unplaced(LIST(1), (amihunk_answer){.status = 2},
                  "amihunk: places: wrong number of addresses\n");
    load_unplaced(LIST(0, 16, 32), (amihunk_answer){.status = 2},
                  "amihunk: places: wrong number of addresses\n");
    load_unplaced(LIST(0, 0xFFFFFFF9), (amihunk_answer){.status = 3, .hunk = 1},
                  "amihunk: places: hunk 1 passes the end of memory\n");
    load_unplaced(LIST(0x10007, 0x10000), (amihunk_answer){.status = 4, .hunk = 0, .other = 1},
                  "amihunk: places: hunks 0 and 1 overlap\n");
}

static void a_bad_file_comes_before_bad_places(void)
{
    struct file file = joined(two_hunks(), 4, LONGWORDS(1));
    amihunk_loader loader = {0};
    CHECK(amihunk_loader_open(&loader, amihunk_from_malloc(), NULL, 0) == AMIHUNK_OK);
    amihunk_answer answer = load_pieces(&loader, file, 0);
    CHECK(answer.status == AMIHUNK_BAD_FILE && answer.place == 1);
    amihunk_loader_close(&loader);
    free(file.bytes);
}

/* ------------------------------ Lines ------------------------------ */

static void lines_are_cut_and_measured(void)
{
    static const char expected[] = "amihunk: a file: longword 7: block longer than its hunk\n";
    struct file file = with(one_hunk(), 7, 2);
    static const uint32_t base = 0x10000;
    amihunk_loader loader = {0};
    CHECK(amihunk_loader_open(&loader, amihunk_from_malloc(), &base, 1) == AMIHUNK_OK);
    CHECK(amihunk_loader_line(&loader, "a file", NULL, 0) == 0);
    CHECK(amihunk_loader_feed(&loader, file.bytes, file.size, NULL) == AMIHUNK_BAD_FILE);
    CHECK(amihunk_loader_line(&loader, "a file", NULL, 0) == strlen(expected));
    for (size_t size = 1; size <= sizeof(expected) + 1; size++) {
        char line[sizeof(expected) + 2];
        memset(line, '#', sizeof(line));
        size_t written = size - 1 < strlen(expected) ? size - 1 : strlen(expected);
        CHECK(amihunk_loader_line(&loader, "a file", line, size) == strlen(expected));
        CHECK(memcmp(line, expected, written) == 0 && line[written] == 0);
        for (size_t i = written + 1; i < sizeof(line); i++) {
            CHECK(line[i] == '#');
        }
    }
    char line[80];
    CHECK(same_line(amihunk_loader_line(&loader, NULL, line, sizeof(line)), line,
                    "amihunk: : longword 7: block longer than its hunk\n"));
    amihunk_loader_close(&loader);
    CHECK(amihunk_loader_line(&loader, "a file", line, sizeof(line)) == 0 && line[0] == 0);
    free(file.bytes);
}

int main(void)
{
    static const struct test tests[] = {
        TEST(partial_longword),
        TEST(unexpected_end),
        TEST(wrong_start),
        TEST(unknown_type),
        TEST(misplaced_type),
        TEST(unsupported_block),
        TEST(unsupported_ext),
        TEST(both_memory_bits),
        TEST(resident_names),
        TEST(hunk_table),
        TEST(too_large),
        TEST(content_too_long),
        TEST(no_such_hunk),
        TEST(site_outside),
        TEST(site_overlap),
        TEST(symbol_kind),
        TEST(trailing_data),
        TEST(places_are_checked),
        TEST(hunks_that_cannot_be_placed_are_not_loaded),
        TEST(a_bad_file_comes_before_bad_places),
        TEST(lines_are_cut_and_measured),
    };
    return run_tests(tests, COUNT(tests));
}

/*
 * The calls of a file handle in each of its states, and why files are refused: with the place, the
 * reason, the number and the line, and the same ever after.
 */
#include "nothing.h"

static int is_wrong_state(amihunk_status status, const amihunk_answer *answer)
{
    return status == AMIHUNK_WRONG_STATE &&
           same_answer(answer, &(amihunk_answer){.status = AMIHUNK_WRONG_STATE});
}

/* ------------------------------ States ------------------------------ */

static void check_takes_no_bytes(amihunk_file *file)
{
    amihunk_file before = *file;
    amihunk_answer answer = unwritten();
    CHECK(is_wrong_state(amihunk_file_feed(file, "\0\0\3\xE7", 4, &answer), &answer));
    answer = unwritten();
    CHECK(is_wrong_state(amihunk_file_feed(file, NULL, 0, &answer), &answer));
    CHECK(amihunk_file_feed(file, NULL, 0, NULL) == AMIHUNK_WRONG_STATE);
    answer = unwritten();
    CHECK(is_wrong_state(amihunk_file_finish(file, &answer), &answer));
    CHECK(amihunk_file_finish(file, NULL) == AMIHUNK_WRONG_STATE);
    CHECK(memcmp(file, &before, sizeof(before)) == 0);
}

static void check_is_not_opened(amihunk_file *file)
{
    struct counted counted = {0};
    amihunk_file before = *file;
    CHECK(amihunk_file_open(file, counted_memory(&counted)) == AMIHUNK_WRONG_STATE);
    CHECK(counted.asked == 0 && memcmp(file, &before, sizeof(before)) == 0);
}

/* No line is told, as the file is not refused; and no loader is opened, unless it is read. */
static void check_is_not_refused(amihunk_file *file)
{
    char line[8] = "#######";
    CHECK(amihunk_file_line(file, "x", line, sizeof(line)) == 0 && line[0] == 0);
    CHECK(amihunk_file_line(file, "x", NULL, 0) == 0);
    CHECK(amihunk_file_line(file, NULL, NULL, 0) == 0);
}

static void check_is_not_loaded(amihunk_file *file)
{
    static const uint32_t bases[] = {0, 100, 200, 300};
    struct counted counted = {0};
    amihunk_file before = *file;
    amihunk_loader loader = {0};
    amihunk_answer answer = unwritten();
    CHECK(is_wrong_state(
        amihunk_loader_load(&loader, counted_memory(&counted), file, bases, 4, &answer), &answer));
    CHECK(amihunk_loader_load(&loader, counted_memory(&counted), file, NULL, 0, NULL) ==
          AMIHUNK_WRONG_STATE);
    CHECK(memcmp(&loader, &(amihunk_loader){0}, sizeof(loader)) == 0);
    CHECK(counted.blocks == 0 && memcmp(file, &before, sizeof(before)) == 0);
}

static void a_closed_file_can_only_be_opened(void)
{
    amihunk_file file = {0};
    for (int i = 0; i < 3; i++) {
        check_takes_no_bytes(&file);
        check_tells_nothing(&file);
        check_is_not_refused(&file);
        check_is_not_loaded(&file);
        CHECK(memcmp(&file, &(amihunk_file){0}, sizeof(file)) == 0);
        if (i == 1) {
            CHECK(amihunk_file_open(&file, amihunk_from_malloc()) == AMIHUNK_OK);
        }
        amihunk_file_close(&file);
    }
}

static void nothing_is_told_of_a_file_that_is_reading(void)
{
    struct file files[] = {object_of_all(), load_of_all()};
    for (size_t kind = 0; kind < 2; kind++) {
        struct counted counted = {0};
        amihunk_file file = {0};
        CHECK(amihunk_file_open(&file, counted_memory(&counted)) == AMIHUNK_OK);
        for (size_t i = 0; i <= files[kind].size; i++) {
            check_is_not_opened(&file);
            check_tells_nothing(&file);
            check_is_not_refused(&file);
            check_is_not_loaded(&file);
            CHECK(amihunk_file_feed(&file, NULL, 0, NULL) == AMIHUNK_OK);
            if (i < files[kind].size) {
                amihunk_answer answer = unwritten();
                CHECK(amihunk_file_feed(&file, files[kind].bytes + i, 1, &answer) == AMIHUNK_OK);
                CHECK(same_answer(&answer, &(amihunk_answer){0}));
            }
        }
        CHECK(amihunk_file_finish(&file, NULL) == AMIHUNK_OK);
        check_facts(&file, kind == 0 ? &object_facts : &load_facts);
        amihunk_file_close(&file);
        CHECK(counted.blocks == 0);
        free(files[kind].bytes);
    }
}

static void a_file_that_is_read_takes_no_bytes(void)
{
    struct file files[] = {object_of_all(), load_of_all()};
    for (size_t kind = 0; kind < 2; kind++) {
        amihunk_file file = {0};
        CHECK(amihunk_file_open(&file, amihunk_from_malloc()) == AMIHUNK_OK);
        CHECK(read_pieces(&file, files[kind], 0).status == AMIHUNK_OK);
        for (int i = 0; i < 2; i++) {
            check_is_not_opened(&file);
            check_takes_no_bytes(&file);
            check_is_not_refused(&file);
            if (kind == 0) {
                check_is_not_loaded(&file);
            }
            check_facts(&file, kind == 0 ? &object_facts : &load_facts);
        }
        amihunk_file_close(&file);
        check_tells_nothing(&file);
        free(files[kind].bytes);
    }
}

static void a_file_may_be_closed_and_moved_after_each_byte(void)
{
    struct file bytes = load_of_all();
    for (size_t size = 0; size <= bytes.size + 1; size++) {
        struct counted counted = {0};
        amihunk_file files[2] = {{0}}, *file = &files[0];
        CHECK(amihunk_file_open(file, counted_memory(&counted)) == AMIHUNK_OK);
        for (size_t i = 0; i < size && i < bytes.size; i++) {
            CHECK(amihunk_file_feed(file, bytes.bytes + i, 1, NULL) == AMIHUNK_OK);
            files[(i + 1) % 2] = *file;
            memset(file, 0, sizeof(*file));
            file = &files[(i + 1) % 2];
        }
        if (size > bytes.size) {
            CHECK(amihunk_file_finish(file, NULL) == AMIHUNK_OK);
            check_facts(file, &load_facts);
        }
        CHECK(counted.blocks != 0);
        amihunk_file_close(file);
        CHECK(counted.blocks == 0);
        CHECK(memcmp(file, &(amihunk_file){0}, sizeof(*file)) == 0);
        amihunk_file_close(file);
    }
    free(bytes.bytes);
}

/* ------------------------------ Refusals ------------------------------ */

static void check_line(amihunk_file *file, const char *name, const char *expected)
{
    char line[100];
    memset(line, '#', sizeof(line));
    CHECK(amihunk_file_line(file, name, line, sizeof(line)) == strlen(expected));
    CHECK(strcmp(line, expected) == 0);
}

/* The file is refused in the call that brings the last byte of the longword, or at its end. */
static void check_refused(struct file bytes, uint64_t place, uint32_t reason, uint32_t number,
                          const char *line)
{
    amihunk_answer expected = {
        .place = place, .status = AMIHUNK_BAD_FILE, .reason = reason, .number = number};
    size_t before = reason <= AMIHUNK_REASON_UNEXPECTED_END ? bytes.size : 4 * place + 3;
    struct counted counted = {0};
    amihunk_file file = {0};
    CHECK(amihunk_file_open(&file, counted_memory(&counted)) == AMIHUNK_OK);
    for (size_t i = 0; i < bytes.size; i++) {
        amihunk_answer answer = unwritten();
        amihunk_status status = amihunk_file_feed(&file, bytes.bytes + i, 1, &answer);
        CHECK(status == (i < before ? AMIHUNK_OK : AMIHUNK_BAD_FILE));
        CHECK(same_answer(&answer, i < before ? &(amihunk_answer){0} : &expected));
    }
    for (int i = 0; i < 2; i++) {
        amihunk_answer answer = unwritten();
        CHECK(amihunk_file_finish(&file, &answer) == AMIHUNK_BAD_FILE);
        CHECK(same_answer(&answer, &expected));
        answer = unwritten();
        CHECK(amihunk_file_feed(&file, NULL, 0, &answer) == AMIHUNK_BAD_FILE);
        CHECK(same_answer(&answer, &expected));
        check_line(&file, "a file", line);
        check_is_not_opened(&file);
        check_tells_nothing(&file);
        check_is_not_loaded(&file);
    }
    amihunk_file_close(&file);
    CHECK(counted.blocks == 0);
    free(bytes.bytes);
}

static void files_of_no_kind_are_refused(void)
{
    check_refused(file_of_bytes("", 0), 0, AMIHUNK_REASON_UNEXPECTED_END, 0,
                  "amihunk: a file: longword 0: file ends too early\n");
    check_refused(file_of_bytes("\0\0\3", 3), 0, AMIHUNK_REASON_PARTIAL_LONGWORD, 0,
                  "amihunk: a file: longword 0: file ends inside a longword\n");
    check_refused(LONGWORDS(0x3F2, 0), 0, AMIHUNK_REASON_WRONG_START, 0,
                  "amihunk: a file: longword 0: wrong first longword\n");
    check_refused(LONGWORDS(0x200003F3), 0, AMIHUNK_REASON_WRONG_START, 0,
                  "amihunk: a file: longword 0: wrong first longword\n");
    check_refused(LONGWORDS(0x200003E7), 0, AMIHUNK_REASON_WRONG_START, 0,
                  "amihunk: a file: longword 0: wrong first longword\n");
}

static void load_files_are_refused(void)
{
    struct file file = load_of_all();
    size_t size = file.size;
    check_refused(joined(file, size, LONGWORDS(7)), size / 4, AMIHUNK_REASON_TRAILING_DATA, 0,
                  "amihunk: a file: longword 68: data after the last hunk\n");
    check_refused(joined(load_of_all(), size - 4, LONGWORDS(0x3EF)), size / 4 - 1,
                  AMIHUNK_REASON_MISPLACED_TYPE, 1007,
                  "amihunk: a file: longword 67: block type 1007 not allowed here\n");
    check_refused(joined(load_of_all(), size - 1, file_of_bytes("", 0)), size / 4 - 1,
                  AMIHUNK_REASON_PARTIAL_LONGWORD, 0,
                  "amihunk: a file: longword 67: file ends inside a longword\n");
    check_refused(with(load_of_all(), 13, 7), 13, AMIHUNK_REASON_CONTENT_TOO_LONG, 0,
                  "amihunk: a file: longword 13: block longer than its hunk\n");
    check_refused(with(load_of_all(), 18, 4), 18, AMIHUNK_REASON_NO_SUCH_HUNK, 4,
                  "amihunk: a file: longword 18: no hunk 4\n");
    check_refused(with(load_of_all(), 19, 21), 19, AMIHUNK_REASON_SITE_OUTSIDE, 21,
                  "amihunk: a file: longword 19: site 00000015 outside its hunk\n");
    check_refused(with(load_of_all(), 23, 0x0008000B), 23, AMIHUNK_REASON_SITE_OVERLAP, 11,
                  "amihunk: a file: longword 23: site 0000000b overlaps another\n");
    check_refused(with(load_of_all(), 5, 0xC0000006), 5, AMIHUNK_REASON_BOTH_MEMORY_BITS, 0,
                  "amihunk: a file: longword 5: both memory bits set\n");
}

static void object_files_are_refused(void)
{
    struct file file = object_of_all();
    size_t size = file.size;
    check_refused(joined(file, size, LONGWORDS(0x3FC)), size / 4, AMIHUNK_REASON_UNKNOWN_TYPE, 1020,
                  "amihunk: a file: longword 100: unknown block type 1020\n");
    check_refused(joined(object_of_all(), size - 4, file_of_bytes("", 0)), size / 4 - 1,
                  AMIHUNK_REASON_UNEXPECTED_END, 0,
                  "amihunk: a file: longword 99: file ends too early\n");
    check_refused(with(object_of_all(), 7, 0xC00003E9), 7, AMIHUNK_REASON_BOTH_MEMORY_BITS, 0,
                  "amihunk: a file: longword 7: both memory bits set\n");
    check_refused(with(object_of_all(), 7, 0x3F5), 7, AMIHUNK_REASON_UNSUPPORTED_BLOCK, 1013,
                  "amihunk: a file: longword 7: block type 1013 not supported\n");
    check_refused(with(object_of_all(), 27, 0x82000001), 27, AMIHUNK_REASON_UNSUPPORTED_EXT, 130,
                  "amihunk: a file: longword 27: external type 130 not supported\n");
    check_refused(with(object_of_all(), 21, 29), 21, AMIHUNK_REASON_SITE_OUTSIDE, 29,
                  "amihunk: a file: longword 21: site 0000001d outside its hunk\n");
}

/* ------------------------------ Lines ------------------------------ */

static void lines_are_cut_and_measured(void)
{
    static const char expected[] = "amihunk: x: longword 1: file ends too early\n";
    amihunk_file file = {0};
    CHECK(amihunk_file_open(&file, amihunk_from_malloc()) == AMIHUNK_OK);
    CHECK(amihunk_file_feed(&file, "\0\0\3\xE7", 4, NULL) == AMIHUNK_OK);
    CHECK(amihunk_file_finish(&file, NULL) == AMIHUNK_BAD_FILE);
    for (size_t size = 0; size <= sizeof(expected) + 1; size++) {
        char line[sizeof(expected) + 2];
        memset(line, '#', sizeof(line));
        size_t written = size < sizeof(expected) ? size : sizeof(expected);
        CHECK(amihunk_file_line(&file, "x", line, size) == strlen(expected));
        CHECK(size == 0 || (memcmp(line, expected, written - 1) == 0 && line[written - 1] == 0));
        for (size_t i = written; i < sizeof(line); i++) {
            CHECK(line[i] == '#');
        }
    }
    check_line(&file, NULL, "amihunk: : longword 1: file ends too early\n");
    amihunk_file_close(&file);
}

int main(void)
{
    static const struct test tests[] = {
        TEST(a_closed_file_can_only_be_opened),
        TEST(nothing_is_told_of_a_file_that_is_reading),
        TEST(a_file_that_is_read_takes_no_bytes),
        TEST(a_file_may_be_closed_and_moved_after_each_byte),
        TEST(files_of_no_kind_are_refused),
        TEST(load_files_are_refused),
        TEST(object_files_are_refused),
        TEST(lines_are_cut_and_measured),
    };
    return run_tests(tests, COUNT(tests));
}

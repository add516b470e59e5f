/*
 * Object files linked in memory: the exact longwords of the load file, and why files do not link.
 */
#include "files.h"

static const amihunk_options plain = {0};

/* What get_file and read tell. */
static void check_linked(amihunk_linker *linker, struct file expected)
{
    amihunk_bytes told = {0};
    CHECK(amihunk_linker_get_file(linker, &told) == AMIHUNK_OK);
    CHECK(same(expected, told.bytes, told.size));
    uint8_t *copy = some(malloc(expected.size + 8));
    for (size_t offset = 0; offset <= expected.size + 1; offset++) {
        size_t rest = offset < expected.size ? expected.size - offset : 0;
        for (size_t size = 0; size < 9; size++) {
            size_t count = size < rest ? size : rest;
            memset(copy, 0xCC, 16);
            CHECK(amihunk_linker_read(linker, offset, copy, size) == count);
            CHECK(memcmp(copy, expected.bytes + (rest != 0 ? offset : 0), count) == 0);
            for (size_t i = count; i < 16; i++) {
                CHECK(copy[i] == 0xCC);
            }
        }
    }
    CHECK(amihunk_linker_read(linker, 0, copy, expected.size + 8) == expected.size);
    CHECK(same(expected, copy, expected.size));
    CHECK(amihunk_linker_read(linker, UINT64_MAX, copy, 8) == 0);
    free(copy);
}

/*
 * The files link, with these options and in pieces of each size, to the expected load file, whether
 * what is in them is kept or not.
 */
static void check_link(const struct file *files, size_t count, amihunk_options options,
                       struct file expected)
{
    static const size_t pieces[] = {0, 1, 3, 5};
    for (size_t i = 0; i < 2 * COUNT(pieces); i++) {
        struct counted counted = {0};
        amihunk_linker linker = {0};
        options.keep = i % 2 != 0;
        CHECK(amihunk_linker_open(&linker, counted_memory(&counted), options) == AMIHUNK_OK);
        amihunk_answer answer = link_pieces(&linker, files, count, pieces[i / 2]);
        CHECK(same_answer(&answer, &(amihunk_answer){0}));
        check_linked(&linker, expected);
        amihunk_linker_close(&linker);
        CHECK(counted.blocks == 0);
    }
    free(expected.bytes);
}

static void free_files(const struct file *files, size_t count)
{
    for (size_t i = 0; i < count; i++) {
        free(files[i].bytes);
    }
}

#define LINK(options, expected, ...)                        \
    do {                                                    \
        const struct file files[] = {__VA_ARGS__};          \
        check_link(files, COUNT(files), options, expected); \
        free_files(files, COUNT(files));                    \
    } while (0)

static void a_reference_becomes_a_relocation(void)
{
    LINK(plain, caller_and_definer(), caller(), definer());
}

static void the_order_of_the_inputs_is_that_of_the_hunks(void)
{
    LINK(plain,
         LONGWORDS(0x3F3, 0, 2, 0, 1, 2, 2, 0x3E9, 2, 0x4E714E71, 0x4E754E71, 0x3F2, 0x3E9, 2,
                   0x4EB90000, 0x00044E75, 0x3EC, 1, 0, 2, 0, 0x3F2),
         definer(), caller());
}

static void a_number_is_added_and_leaves_no_relocation(void)
{
    LINK(plain,
         LONGWORDS(0x3F3, 0, 2, 0, 1, 2, 2, 0x3E9, 2, 0x4EB90000, 0x00004E75, 0x3F2, 0x3E9, 2,
                   0x4E714E71, 0x4E754E71, 0x3F2),
         with(caller(), 5, 0x00014E75), with(with(definer(), 7, 0x02000001), 9, 0xFFFFFFFF));
}

static void offsets_wrap(void)
{
    LINK(plain, with(with(caller_and_definer(), 9, 0x4EB9FFFF), 10, 0xFFFE4E75),
         with(with(caller(), 4, 0x4EB9FFFF), 5, 0xFFFF4E75), with(definer(), 9, 0xFFFFFFFF));
}

static void hunks_are_numbered_over_all_units(void)
{
    LINK(plain,
         LONGWORDS(0x3F3, 0, 3, 0, 2, 2, 1, 4, 0x3E9, 2, 0x4E714E71, 0x4E754E71, 0x3F2, 0x3E9, 1, 8,
                   0x3EC, 1, 2, 0, 0, 0x3F2, 0x3EB, 4, 0x3F2),
         definer(), table());
}

static void chip_memory_is_kept(void)
{
    LINK(plain, LONGWORDS(0x3F3, 0, 1, 0, 0, 0x40000001, 0x3EA, 1, 0, 0x3F2),
         LONGWORDS(0x3E7, 0, 0x400003EA, 1, 0, 0x3F2));
}

static void symbols_and_debug_blocks_are_kept_or_stripped(void)
{
    LINK(plain,
         LONGWORDS(0x3F3, 0, 2, 0, 1, 2, 0x40000002, 0x3E9, 2, 0x4EB90000, 0x00004E75, 0x3EC, 1, 1,
                   2, 0, 0x3F0, 1, 0x6C6F6F70, 6, 0, 0x3F1, 1, 0x12345678, 0x3F2, 0x3EB, 2, 0x3F2),
         assembled());
    LINK((amihunk_options){.strip = true},
         LONGWORDS(0x3F3, 0, 2, 0, 1, 2, 0x40000002, 0x3E9, 2, 0x4EB90000, 0x00004E75, 0x3EC, 1, 1,
                   2, 0, 0x3F2, 0x3EB, 2, 0x3F2),
         assembled());
}

static void short_relocations_are_words(void)
{
    LINK((amihunk_options){.short_form = true},
         LONGWORDS(0x3F3, 0, 2, 0, 1, 2, 2, 0x3E9, 2, 0x4EB90000, 0x00044E75, 0x3FC, 0x00010001,
                   0x00020000, 0x3F2, 0x3E9, 2, 0x4E714E71, 0x4E754E71, 0x3F2),
         caller(), definer());
}

/* Of four longwords only the first is not 0, and a relocation covers the bytes 6 to 9. */
static struct file tail(void)
{
    return LONGWORDS(0x3E7, 0, 0x3EA, 4, 1, 0, 0, 0, 0x3EC, 1, 0, 6, 0, 0x3F2);
}

static void trimmed_content_ends_after_the_last_relocation(void)
{
    LINK(plain, LONGWORDS(0x3F3, 0, 1, 0, 0, 4, 0x3EA, 4, 1, 0, 0, 0, 0x3EC, 1, 0, 6, 0, 0x3F2),
         tail());
    LINK((amihunk_options){.trim = true},
         LONGWORDS(0x3F3, 0, 1, 0, 0, 4, 0x3EA, 3, 1, 0, 0, 0x3EC, 1, 0, 6, 0, 0x3F2), tail());
    LINK(((amihunk_options){.short_form = true, .trim = true}),
         LONGWORDS(0x3F3, 0, 1, 0, 0, 4, 0x3EA, 3, 1, 0, 0, 0x3FC, 0x00010000, 0x00060000, 0x3F2),
         tail());
}

static void a_reference_to_nothing_is_dropped(void)
{
    LINK(plain, LONGWORDS(0x3F3, 0, 1, 0, 0, 2, 0x3E9, 2, 0x4EB90000, 0x00004E75, 0x3F2),
         LONGWORDS(0x3E7, 0, 0x3E9, 2, 0x4EB90000, 0x00004E75, 0x3EF, 0x81000001, 0x666F6F00, 0, 0,
                   0x3F2));
}

static void what_is_linked_can_be_loaded(void)
{
    static const uint32_t bases[] = {0x10000, 0x20000};
    const struct file files[] = {caller(), definer()};
    for (unsigned bits = 0; bits < 16; bits++) {
        const amihunk_options options = {.strip = bits & 1,
                                         .short_form = (bits & 2) != 0,
                                         .trim = (bits & 4) != 0,
                                         .keep = (bits & 8) != 0};
        amihunk_linker linker = {0};
        amihunk_loader loader = {0};
        amihunk_bytes file;
        uint8_t bytes[8];
        CHECK(amihunk_linker_open(&linker, amihunk_from_malloc(), options) == AMIHUNK_OK);
        CHECK(link_pieces(&linker, files, COUNT(files), 0).status == AMIHUNK_OK);
        CHECK(amihunk_linker_get_file(&linker, &file) == AMIHUNK_OK);
        CHECK(amihunk_loader_open(&loader, amihunk_from_malloc(), bases, 2) == AMIHUNK_OK);
        CHECK(amihunk_loader_feed(&loader, file.bytes, file.size, NULL) == AMIHUNK_OK);
        amihunk_linker_close(&linker);
        CHECK(amihunk_loader_finish(&loader, NULL) == AMIHUNK_OK);
        CHECK(amihunk_loader_read(&loader, 0, 0, bytes, 8) == 8);
        CHECK(memcmp(bytes, "\x4E\xB9\x00\x02\x00\x04\x4E\x75", 8) == 0);
        CHECK(amihunk_loader_read(&loader, 1, 0, bytes, 8) == 8);
        CHECK(memcmp(bytes, "\x4E\x71\x4E\x71\x4E\x75\x4E\x71", 8) == 0);
        amihunk_loader_close(&loader);
    }
    free_files(files, COUNT(files));
}

/* ------------------------------ Refusals ------------------------------ */

/* The files do not link: the answer, the name, the line, and the same again, kept or not. */
static void check_refused(const struct file *files, size_t count, amihunk_answer expected,
                          const char *name, const char *line)
{
    static const size_t pieces[] = {0, 1, 3, 5};
    for (size_t i = 0; i < 2 * COUNT(pieces); i++) {
        struct counted counted = {0};
        amihunk_linker linker = {0};
        const amihunk_options options = {.keep = i % 2 != 0};
        CHECK(amihunk_linker_open(&linker, counted_memory(&counted), options) == AMIHUNK_OK);
        amihunk_answer answer = link_pieces(&linker, files, count, pieces[i / 2]);
        CHECK(same_answer(&answer, &expected));
        for (int again = 0; again < 2; again++) {
            char text[200];
            CHECK(amihunk_linker_name(&linker, text, sizeof(text)) == strlen(name) &&
                  strcmp(text, name) == 0);
            CHECK(amihunk_linker_line(&linker, "x", text, sizeof(text)) == strlen(line) &&
                  strcmp(text, line) == 0);
            answer = unwritten();
            CHECK(amihunk_linker_finish(&linker, &answer) == expected.status);
            CHECK(same_answer(&answer, &expected));
            answer = unwritten();
            CHECK(amihunk_linker_feed(&linker, "\0\0\3\xE7", 4, &answer) == expected.status);
            CHECK(same_answer(&answer, &expected));
            answer = unwritten();
            CHECK(amihunk_linker_end_input(&linker, &answer) == expected.status);
            CHECK(same_answer(&answer, &expected));
        }
        amihunk_bytes told;
        CHECK(amihunk_linker_get_file(&linker, &told) == AMIHUNK_WRONG_STATE);
        CHECK(told.bytes == NULL && told.size == 0);
        amihunk_linker_close(&linker);
        CHECK(counted.blocks == 0);
    }
}

#define REFUSED(expected, name, line, ...)                        \
    do {                                                          \
        const struct file files[] = {__VA_ARGS__};                \
        check_refused(files, COUNT(files), expected, name, line); \
        free_files(files, COUNT(files));                          \
    } while (0)

static void units_without_hunks_do_not_link(void)
{
    amihunk_answer expected = {.status = AMIHUNK_NO_HUNKS};
    REFUSED(expected, "", "amihunk: link: no hunks\n", LONGWORDS(0x3E7, 0));
    check_refused(NULL, 0, (amihunk_answer){.status = 5}, "", "amihunk: link: no hunks\n");
}

static void too_many_hunks_do_not_link(void)
{
    struct file file = empty_hunks(65536);
    amihunk_linker linker = {0};
    CHECK(amihunk_linker_open(&linker, amihunk_from_malloc(), plain) == AMIHUNK_OK);
    amihunk_answer answer = link_pieces(&linker, &file, 1, 0);
    CHECK(same_answer(&answer, &(amihunk_answer){.status = 6}) &&
          answer.status == AMIHUNK_TOO_MANY_HUNKS);
    char line[80];
    amihunk_linker_line(&linker, "", line, sizeof(line));
    CHECK(strcmp(line, "amihunk: link: more than 65535 hunks\n") == 0);
    amihunk_linker_close(&linker);
    free(file.bytes);
}

static void too_large_hunks_do_not_link(void)
{
    amihunk_answer expected = {.status = 7};
    CHECK(expected.status == AMIHUNK_TOO_LARGE);
    REFUSED(expected, "", "amihunk: link: too large\n", definer(),
            LONGWORDS(0x3E7, 0, 0x3EB, 0x00FFFFFF, 0x3F2));
}

static void a_hunk_that_its_unit_lacks_does_not_link(void)
{
    amihunk_answer expected = {.status = 8, .other = 2};
    CHECK(expected.status == AMIHUNK_NO_SUCH_HUNK);
    REFUSED(expected, "", "amihunk: link: unit 0 hunk 0: no hunk 2 in its unit\n",
            with(table(), 7, 2));
    expected.unit = 2;
    expected.input = 1;
    REFUSED(expected, "", "amihunk: link: unit 2 hunk 0: no hunk 2 in its unit\n", definer(),
            joined(table(), 56, with(table(), 7, 2)));
}

static void a_name_that_is_defined_again_does_not_link(void)
{
    amihunk_answer expected = {.status = 9, .unit = 2, .input = 2};
    CHECK(expected.status == AMIHUNK_DUPLICATE_NAME);
    REFUSED(expected, "foo", "amihunk: link: unit 2 hunk 0: \"foo\" defined again\n", caller(),
            definer(), definer());
    expected.unit = 3;
    expected.input = 1;
    REFUSED(expected, "foo", "amihunk: link: unit 3 hunk 0: \"foo\" defined again\n",
            joined(table(), 56, definer()), joined(caller(), 52, definer()));
}

static void a_name_that_is_not_defined_does_not_link(void)
{
    amihunk_answer expected = {.status = 10};
    CHECK(expected.status == AMIHUNK_UNDEFINED_NAME);
    REFUSED(expected, "foo", "amihunk: link: unit 0 hunk 0: \"foo\" not defined\n", caller());
    REFUSED(expected, "a\"\\\xFF",
            "amihunk: link: unit 0 hunk 0: \"a\\x22\\x5c\\xff\" not defined\n",
            with(caller(), 8, 0x61225CFF));
    REFUSED(expected, "", "amihunk: link: unit 0 hunk 0: \"\" not defined\n",
            with(caller(), 8, 0x00666F6F));
    expected.hunk = 1;
    expected.unit = 1;
    expected.input = 1;
    REFUSED(expected, "foo", "amihunk: link: unit 1 hunk 1: \"foo\" not defined\n", table(),
            joined(LONGWORDS(0x3E7, 0, 0x3EB, 1, 0x3F2), 20,
                   LONGWORDS(0x3E9, 1, 0, 0x3EF, 0x81000001, 0x666F6F00, 1, 0, 0, 0x3F2)));
}

static void names_are_cut_and_measured(void)
{
    const struct file files[] = {LONGWORDS(0x3E7, 0, 0x3E9, 1, 0, 0x3EF, 0x81000003, 0x61626364,
                                           0x65666768, 0x696A0000, 1, 0, 0, 0x3F2)};
    static const char name[] = "abcdefghij";
    amihunk_linker linker = {0};
    CHECK(amihunk_linker_open(&linker, amihunk_from_malloc(), plain) == AMIHUNK_OK);
    CHECK(amihunk_linker_name(&linker, NULL, 0) == 0);
    CHECK(link_pieces(&linker, files, 1, 0).status == AMIHUNK_UNDEFINED_NAME);
    CHECK(amihunk_linker_name(&linker, NULL, 0) == 10);
    for (size_t size = 1; size < 14; size++) {
        char text[16];
        memset(text, '#', sizeof(text));
        size_t written = size - 1 < 10 ? size - 1 : 10;
        CHECK(amihunk_linker_name(&linker, text, size) == 10);
        CHECK(memcmp(text, name, written) == 0 && text[written] == 0);
        for (size_t i = written + 1; i < sizeof(text); i++) {
            CHECK(text[i] == '#');
        }
    }
    amihunk_linker_close(&linker);
    free_files(files, 1);
}

int main(void)
{
    static const struct test tests[] = {
        TEST(a_reference_becomes_a_relocation),
        TEST(the_order_of_the_inputs_is_that_of_the_hunks),
        TEST(a_number_is_added_and_leaves_no_relocation),
        TEST(offsets_wrap),
        TEST(hunks_are_numbered_over_all_units),
        TEST(chip_memory_is_kept),
        TEST(symbols_and_debug_blocks_are_kept_or_stripped),
        TEST(short_relocations_are_words),
        TEST(trimmed_content_ends_after_the_last_relocation),
        TEST(a_reference_to_nothing_is_dropped),
        TEST(what_is_linked_can_be_loaded),
        TEST(units_without_hunks_do_not_link),
        TEST(too_many_hunks_do_not_link),
        TEST(too_large_hunks_do_not_link),
        TEST(a_hunk_that_its_unit_lacks_does_not_link),
        TEST(a_name_that_is_defined_again_does_not_link),
        TEST(a_name_that_is_not_defined_does_not_link),
        TEST(names_are_cut_and_measured),
    };
    return run_tests(tests, COUNT(tests));
}

/*
 * Linkers that keep what is in the object files: they make the same load file, and tell all names
 * that no hunk defines. The map is tested in mapping.c.
 */
#include "files.h"
#include "nothing.h"

static void free_files(const struct file *files, size_t count)
{
    for (size_t i = 0; i < count; i++) {
        free(files[i].bytes);
    }
}

static amihunk_linker opened(amihunk_memory memory, amihunk_options options)
{
    amihunk_linker linker = {0};
    CHECK(amihunk_linker_open(&linker, memory, options) == AMIHUNK_OK);
    return linker;
}

/* ------------------------------ The load file ------------------------------ */

/* The files make the same load file whether what is in them is kept or not. */
static void check_same(const struct file *files, size_t count, amihunk_options options)
{
    static const size_t pieces[] = {0, 1, 3, 5};
    amihunk_linker plain = opened(amihunk_from_malloc(), options);
    amihunk_bytes expected = {0};
    CHECK(link_pieces(&plain, files, count, 0).status == AMIHUNK_OK);
    CHECK(amihunk_linker_get_file(&plain, &expected) == AMIHUNK_OK && expected.size != 0);
    options.keep = true;
    for (size_t i = 0; i < COUNT(pieces); i++) {
        struct counted counted = {0};
        amihunk_linker kept = opened(counted_memory(&counted), options);
        amihunk_bytes told = {0};
        CHECK(link_pieces(&kept, files, count, pieces[i]).status == AMIHUNK_OK);
        CHECK(amihunk_linker_get_file(&kept, &told) == AMIHUNK_OK);
        CHECK(told.size == expected.size && memcmp(told.bytes, expected.bytes, told.size) == 0);
        check_no_undefined(&kept, 0, AMIHUNK_WRONG_STATE);
        CHECK(amihunk_linker_map(&kept, NULL, 0, NULL, 0) != 0);
        amihunk_linker_close(&kept);
        CHECK(counted.blocks == 0);
    }
    amihunk_linker_close(&plain);
}

static void the_load_file_is_the_same_with_every_option(void)
{
    const struct file files[] = {
        assembled(), caller(), joined(table(), 56, definer()),
        LONGWORDS(0x3E7, 0, 0x3EA, 4, 1, 0, 0, 0, 0x3EC, 1, 0, 6, 0, 0x3F2)};
    for (unsigned bits = 0; bits < 8; bits++) {
        const amihunk_options options = {
            .strip = bits & 1, .short_form = (bits & 2) != 0, .trim = (bits & 4) != 0};
        check_same(files, COUNT(files), options);
        check_same(files + 1, 2, options);
        check_same(files, 1, options);
        check_same(files + 3, 1, options);
    }
    free_files(files, COUNT(files));
}

/* ------------------------------ Undefined names ------------------------------ */

struct missing {
    struct text name;
    uint64_t input, unit, hunk, references;
};

enum { MOST_FILES = 4, MOST_NAMES = 12 };

static int is_missing(const amihunk_undefined *told, const struct missing *expected)
{
    return is_text(told->name, expected->name) && told->input == expected->input &&
           told->unit == expected->unit && told->hunk == expected->hunk &&
           told->references == expected->references;
}

/* Calls that answer the same again, or write a text: nothing moves. */
static void call_others(amihunk_linker *linker)
{
    char text[100];
    CHECK(amihunk_linker_feed(linker, "\0\0\3\xE7", 4, NULL) == AMIHUNK_UNDEFINED_NAME);
    CHECK(amihunk_linker_end_input(linker, NULL) == AMIHUNK_UNDEFINED_NAME);
    CHECK(amihunk_linker_finish(linker, NULL) == AMIHUNK_UNDEFINED_NAME);
    CHECK(amihunk_linker_line(linker, "x", text, sizeof(text)) != 0);
    amihunk_linker_name(linker, text, sizeof(text));
    check_no_map(linker);
}

/* The linker tells these names and no others, and they stay where they are. */
static void check_told(amihunk_linker *linker, const struct missing *expected, size_t count)
{
    amihunk_undefined first[MOST_NAMES];
    for (size_t i = 0; i < count; i++) {
        memset(&first[i], 0xEE, sizeof(first[i]));
        CHECK(amihunk_linker_get_undefined(linker, i, &first[i]) == AMIHUNK_OK);
        CHECK(is_missing(&first[i], &expected[i]));
    }
    check_no_undefined(linker, count, AMIHUNK_OUT_OF_RANGE);
    check_no_undefined(linker, count + 1, AMIHUNK_OUT_OF_RANGE);
    check_no_undefined(linker, (size_t)1 << 32, AMIHUNK_OUT_OF_RANGE);
    check_no_undefined(linker, SIZE_MAX, AMIHUNK_OUT_OF_RANGE);
    call_others(linker);
    for (size_t i = count; i-- > 0;) {
        amihunk_undefined again = {0};
        CHECK(amihunk_linker_get_undefined(linker, i, &again) == AMIHUNK_OK);
        CHECK(again.name.bytes == first[i].name.bytes && is_missing(&again, &expected[i]));
    }
}

/* The first name is the one that the answer is about, whose unit is counted over all files. */
static void check_answer(amihunk_linker *linker, amihunk_answer answer, uint64_t unit,
                         const struct missing *first)
{
    char name[100];
    CHECK(same_answer(&answer, &(amihunk_answer){.status = AMIHUNK_UNDEFINED_NAME,
                                                 .input = first->input,
                                                 .unit = unit,
                                                 .hunk = first->hunk}));
    CHECK(amihunk_linker_name(linker, name, sizeof(name)) == first->name.size);
    CHECK(memcmp(name, first->name.bytes, first->name.size) == 0);
}

/* The files lack these names. They are gone before the names are asked for. */
static void check_missing(const struct file *files, size_t count, uint64_t unit,
                          const struct missing *expected, size_t names)
{
    static const size_t pieces[] = {0, 1, 3, 5};
    for (size_t i = 0; i < COUNT(pieces); i++) {
        const amihunk_options options = {
            .strip = i == 0, .short_form = i == 1, .trim = i == 2, .keep = true, .key = {i, ~i}};
        struct counted counted = {0};
        struct file copies[MOST_FILES];
        for (size_t k = 0; k < count; k++) {
            copies[k] = file_of_bytes(files[k].bytes, files[k].size);
        }
        amihunk_linker linker = opened(counted_memory(&counted), options);
        amihunk_answer answer = link_pieces(&linker, copies, count, pieces[i]);
        free_files(copies, count);
        check_answer(&linker, answer, unit, &expected[0]);
        check_told(&linker, expected, names);
        amihunk_linker moved = linker;
        memset(&linker, 0, sizeof(linker));
        check_told(&moved, expected, names);
        amihunk_linker_close(&moved);
        CHECK(counted.blocks == 0);
    }
}

/* `unit` is that of the answer; `names` is an array of what is missing, and the files follow it. */
#define MISSING(unit, names, ...)                                      \
    do {                                                               \
        const struct file files[] = {__VA_ARGS__};                     \
        check_missing(files, COUNT(files), unit, names, COUNT(names)); \
        free_files(files, COUNT(files));                               \
    } while (0)

/* Two units, which define `know` and refer to `a`, `b` and `know`. */
static struct file first_user(void)
{
    return LONGWORDS(0x3E7, 0, 0x3EB, 1, 0x3F2,               /* a hunk of zeros */
                     0x3E9, 3, 0, 0, 0, 0x3EF,                /* and one of code */
                     0x81000001, 0x62000000, 2, 8, 0,         /* "b" is added at 8 and 0 */
                     0x01000001, 0x6B6E6F77, 0,               /* "know" is at 0 */
                     0x81000001, 0x61000000, 1, 4,            /* "a" is added at 4 */
                     0, 0x3F2, 0x3E7, 0,                      /* the second unit */
                     0x3EA, 2, 0, 0, 0x3EF,                   /* data */
                     0x81000001, 0x61000000, 1, 0,            /* "a" is added at 0 */
                     0x81000001, 0x6B6E6F77, 1, 4, 0, 0x3F2); /* "know" is added at 4 */
}

/* A unit of nothing, and one that refers to `c`, `b`, and `a` twice in one hunk. */
static struct file second_user(void)
{
    return LONGWORDS(0x3E7, 0, 0x3E7, 0, 0x3E9, 2, 0, 0, 0x3EF, /* code */
                     0x81000001, 0x63000000, 1, 0,              /* "c" is added at 0 */
                     0x81000001, 0x62000000, 1, 4, 0, 0x3F2,    /* "b" is added at 4 */
                     0x3E9, 3, 0, 0, 0, 0x3EF,                  /* more code */
                     0x81000001, 0x61000000, 1, 8,              /* "a" is added at 8 */
                     0x81000001, 0x6E6F6E65, 0,                 /* "none" is added nowhere */
                     0x81000002, 0x61000000, 0, 2, 4, 0,        /* "a" is added at 4 and 0 */
                     0, 0x3F2);
}

/* Its first hunk defines `b` as a number, and its second one `c` past its end. */
static struct file late_definer(void)
{
    return LONGWORDS(0x3E7, 0, 0x3EA, 0, 0x3EF, 0x02000001, 0x62000000, 0, 0, 0x3F2, 0x3EB, 1,
                     0x3EF, 0x01000001, 0x63000000, 0xFFFFFFFF, 0, 0x3F2);
}

static void each_name_is_told_once_in_the_order_of_the_first_references(void)
{
    static const struct missing one[] = {{TEXT("foo"), 0, 0, 0, 1}};
    static const struct missing several[] = {
        {TEXT("b"), 0, 0, 1, 2}, {TEXT("a"), 0, 0, 1, 4}, {TEXT("c"), 1, 1, 0, 1}};
    static const struct missing turned[] = {
        {TEXT("c"), 0, 1, 0, 1}, {TEXT("b"), 0, 1, 0, 2}, {TEXT("a"), 0, 1, 1, 4}};
    static const struct missing moved[] = {
        {TEXT("b"), 2, 0, 1, 2}, {TEXT("a"), 2, 0, 1, 4}, {TEXT("c"), 3, 1, 0, 1}};
    static const struct missing alone[] = {
        {TEXT("c"), 1, 1, 0, 1}, {TEXT("b"), 1, 1, 0, 1}, {TEXT("a"), 1, 1, 1, 2}};
    MISSING(0, one, caller());
    MISSING(0, several, first_user(), second_user());
    MISSING(1, turned, second_user(), first_user());
    MISSING(3, moved, joined(table(), 56, definer()), caller(), first_user(), second_user());
    MISSING(3, alone, joined(table(), 56, definer()), second_user());
}

/* A definition counts wherever it stands, also after the references. */
static void names_that_are_defined_are_not_told(void)
{
    static const struct missing left[] = {{TEXT("a"), 0, 0, 1, 4}};
    static const struct missing both[] = {{TEXT("foo"), 1, 0, 0, 2}, {TEXT("a"), 2, 1, 1, 2}};
    MISSING(0, left, first_user(), second_user(), late_definer());
    MISSING(0, left, first_user(), late_definer(), second_user());
    MISSING(1, both, late_definer(), caller(), second_user(), caller());
}

/* Names that differ in their last byte alone, and all kinds of bytes. One name is empty. */
static void names_are_of_any_bytes(void)
{
    static const struct missing names[] = {
        {TEXT("a\"\\z"), 0, 0, 0, 2}, {TEXT("\xFF\x80\x7F"), 0, 0, 0, 1},
        {TEXT(""), 0, 0, 0, 2},       {TEXT("\x01\n "), 0, 0, 0, 1},
        {TEXT("abcd"), 0, 0, 0, 1},   {TEXT("abc"), 0, 0, 0, 1},
        {TEXT("abcde"), 0, 0, 0, 1},  {TEXT("abcd\xE9"), 0, 0, 0, 1},
        {TEXT("ABCD"), 0, 0, 0, 1}};
    MISSING(0, names,
            LONGWORDS(0x3E7, 0, 0x3E9, 11, 0, 0, 0, 0, 0, 0, 0, 0, 0, 0, 0, /* code */
                      0x3EF,                         /* and names that are added to it */
                      0x81000001, 0x61225C7A, 1, 0,  /* a"\z */
                      0x81000001, 0xFF807F00, 1, 4,  /* the bytes FF, 80 and 7F */
                      0x81000000, 1, 8,              /* no letters */
                      0x81000001, 0x010A2000, 1, 12, /* 01, a newline and a space */
                      0x81000001, 0x61626364, 1, 16, /* abcd */
                      0x81000001, 0x61626300, 1, 20, /* abc */
                      0x81000002, 0x61626364, 0x65000000, 1, 24, /* abcde */
                      0x81000002, 0x61626364, 0xE9000000, 1, 28, /* abcd, and E9 */
                      0x81000001, 0x41424344, 1, 32,             /* ABCD */
                      0x81000001, 0x00414243, 1, 36,             /* no letters before a 0 */
                      0x81000002, 0x61225C7A, 0, 1, 40,          /* a"\z again */
                      0, 0x3F2));
}

/* ------------------------------ Other states ------------------------------ */

static void a_linker_that_is_not_done_tells_nothing(void)
{
    struct file file = first_user();
    amihunk_linker linker = {0};
    check_keeps_nothing(&linker);
    linker = opened(amihunk_from_malloc(), (amihunk_options){.keep = true});
    check_keeps_nothing(&linker);
    for (size_t i = 0; i < file.size; i++) {
        CHECK(amihunk_linker_feed(&linker, file.bytes + i, 1, NULL) == AMIHUNK_OK);
        check_keeps_nothing(&linker);
    }
    CHECK(amihunk_linker_end_input(&linker, NULL) == AMIHUNK_OK);
    check_keeps_nothing(&linker);
    CHECK(amihunk_linker_finish(&linker, NULL) == AMIHUNK_UNDEFINED_NAME);
    amihunk_undefined told;
    CHECK(amihunk_linker_get_undefined(&linker, 0, &told) == AMIHUNK_OK);
    amihunk_linker_close(&linker);
    check_keeps_nothing(&linker);
    free(file.bytes);
}

/* In each pair of files a name is missing, too, but that is not why they are refused. */
static void a_linker_that_is_refused_for_another_reason_tells_nothing(void)
{
    const struct {
        amihunk_status status;
        struct file files[2];
    } rows[] = {
        {AMIHUNK_BAD_FILE, {caller(), LONGWORDS(0x3E7, 0, 0x3E8)}},
        {AMIHUNK_BAD_FILE, {caller(), LONGWORDS(0x3E9)}},
        {AMIHUNK_NO_HUNKS, {LONGWORDS(0x3E7, 0), LONGWORDS(0x3E7, 0)}}, /* so there is no name */
        {AMIHUNK_TOO_MANY_HUNKS, {caller(), empty_hunks(65535)}},
        {AMIHUNK_TOO_LARGE, {caller(), LONGWORDS(0x3E7, 0, 0x3EB, 0x00FFFFFF, 0x3F2)}},
        {AMIHUNK_NO_SUCH_HUNK, {caller(), with(table(), 7, 2)}},
        {AMIHUNK_DUPLICATE_NAME, {caller(), joined(late_definer(), 72, late_definer())}},
    };
    for (size_t i = 0; i < COUNT(rows); i++) {
        amihunk_linker linker = opened(amihunk_from_malloc(), (amihunk_options){.keep = true});
        for (int again = 0; again < 2; again++) {
            CHECK(link_pieces(&linker, rows[i].files, 2, 0).status == rows[i].status);
            check_keeps_nothing(&linker);
        }
        amihunk_linker_close(&linker);
        free_files(rows[i].files, 2);
    }
}

static void a_linker_that_keeps_nothing_tells_nothing(void)
{
    const struct file files[] = {caller(), definer()};
    for (size_t count = 1; count <= COUNT(files); count++) {
        amihunk_linker linker = opened(amihunk_from_malloc(), (amihunk_options){0});
        CHECK(link_pieces(&linker, files, count, 0).status ==
              (count == 1 ? AMIHUNK_UNDEFINED_NAME : AMIHUNK_OK));
        check_keeps_nothing(&linker);
        amihunk_linker_close(&linker);
    }
    free_files(files, COUNT(files));
}

int main(void)
{
    static const struct test tests[] = {
        TEST(the_load_file_is_the_same_with_every_option),
        TEST(each_name_is_told_once_in_the_order_of_the_first_references),
        TEST(names_that_are_defined_are_not_told),
        TEST(names_are_of_any_bytes),
        TEST(a_linker_that_is_not_done_tells_nothing),
        TEST(a_linker_that_is_refused_for_another_reason_tells_nothing),
        TEST(a_linker_that_keeps_nothing_tells_nothing),
    };
    return run_tests(tests, COUNT(tests));
}

/*
 * The map of a link, against texts that were written by hand from docs/OUTPUT.md: in rooms of every
 * size, under names of any bytes, and without memory for it.
 */
#include "files.h"
#include "nothing.h"

/* Links the files and keeps what is in them. The bytes that were fed are gone when it returns. */
static amihunk_linker linked(amihunk_memory memory, amihunk_options options,
                             const struct file *files, size_t count, size_t piece)
{
    amihunk_linker linker = {0};
    struct file copies[4];
    for (size_t i = 0; i < count; i++) {
        copies[i] = file_of_bytes(files[i].bytes, files[i].size);
    }
    options.keep = true;
    CHECK(amihunk_linker_open(&linker, memory, options) == AMIHUNK_OK);
    CHECK(link_pieces(&linker, copies, count, piece).status == AMIHUNK_OK);
    for (size_t i = 0; i < count; i++) {
        free(copies[i].bytes);
    }
    return linker;
}

/* The map is this text. */
static void check_map(amihunk_linker *linker, const char *const *names, size_t count,
                      const char *expected)
{
    size_t length = strlen(expected);
    char *text = some(malloc(length + 1));
    CHECK(amihunk_linker_map(linker, names, count, NULL, 0) == length);
    CHECK(amihunk_linker_map(linker, names, count, text, length + 1) == length);
    CHECK(memcmp(text, expected, length + 1) == 0);
    free(text);
}

/* As much of it is written as there is room for, and nothing after that. */
static void check_rooms(amihunk_linker *linker, const char *const *names, size_t count,
                        const char *expected)
{
    size_t length = strlen(expected), most = length + 4;
    char *text = some(malloc(most));
    for (size_t size = 0; size <= length + 2; size++) {
        size_t written = size <= length ? size : length + 1;
        memset(text, '#', most);
        CHECK(amihunk_linker_map(linker, names, count, text, size) == length);
        CHECK(written == 0 || (memcmp(text, expected, written - 1) == 0 && text[written - 1] == 0));
        for (size_t i = written; i < most; i++) {
            CHECK(text[i] == '#');
        }
    }
    free(text);
}

/* ------------------------------ Rows ------------------------------ */

/* An object file with hunks of the kinds and memories that are not in assembled(). */
static struct file others(void)
{
    return LONGWORDS(0x3E7, 0,                                  /* a unit of nothing */
                     0x3E7, 2, 0x71225C01, 0xE9000000,          /* q"\ and the bytes 01 and E9 */
                     0x3E8, 1, 0x64FF7F7E,                      /* a name: d, FF, 7F and ~ */
                     0x800003EA, 3, 7, 0, 0,                    /* fast data that ends in zeros */
                     0x3EC, 1, 1, 0, 0,                         /* hunk 1 at 0 */
                     0x3EF, 0x01000001, 0x78207900, 0xFFFFFFFF, /* "x y" is at FFFFFFFF */
                     0x02000001, 0x73697A65, 0x80000000,        /* "size" is a number */
                     0x81000001, 0x666F6F00, 1, 4,              /* "foo" is added at 4 */
                     0x01000000, 8, 0,                          /* a name without letters is at 8 */
                     0x3F0, 1, 0x6C6F6F70, 6, 0,                /* a symbol, which no map has */
                     0x3EF, 0x02000001, 0x7A0A0000, 0, 0,       /* z and a newline are 0 */
                     0x3F1, 1, 0x12345678, 0x3F2,               /* a debug block */
                     0x400003E9, 1, 0x4E754E71, 0x3F2,          /* chip code */
                     0x800003EB, 4096, 0x3F2,                   /* fast zeros */
                     0x3E7, 1, 0x78000000,                      /* the unit "x" */
                     0x3E8, 0, 0x3EA, 0, 0x3F2,                 /* data of nothing */
                     0x800003E9, 0, 0x3F2,                      /* fast code of nothing */
                     0x400003EA, 2, 1, 0, 0x3F2,                /* chip data */
                     0x3EB, 1, 0x3F2);                          /* zeros */
}

/* What the three files are called. One of the names is quoted. */
#define OTHERS "\"a \\x22lib\\x22\\xff\\x0a.o\""
static const char *const names[] = {"main.o", "a \"lib\"\xFF\n.o", "dir/z \"z\".o"};

static const char map[] =
    "hunk 0 code any 2 longwords main.o unit 0 \"test\" hunk 0 \"CODE\"\n"
    "  define \"main\" at 00000000\n"
    "hunk 1 bss chip 2 longwords main.o unit 0 \"test\" hunk 1 \"\"\n"
    "hunk 2 data fast 3 longwords " OTHERS
    " unit 1 \"q\\x22\\x5c\\x01\\xe9\" hunk 0 \"d\\xff\\x7f~\"\n"
    "  define \"x y\" at ffffffff\n"
    "  define \"size\" as 80000000\n"
    "  define \"\" at 00000008\n"
    "  define \"z\\x0a\" as 00000000\n"
    "hunk 3 code chip 1 longwords " OTHERS " unit 1 \"q\\x22\\x5c\\x01\\xe9\" hunk 1 \"\"\n"
    "hunk 4 bss fast 4096 longwords " OTHERS " unit 1 \"q\\x22\\x5c\\x01\\xe9\" hunk 2 \"\"\n"
    "hunk 5 data any 0 longwords " OTHERS " unit 2 \"x\" hunk 0 \"\"\n"
    "hunk 6 code fast 0 longwords " OTHERS " unit 2 \"x\" hunk 1 \"\"\n"
    "hunk 7 data chip 2 longwords " OTHERS " unit 2 \"x\" hunk 2 \"\"\n"
    "hunk 8 bss any 1 longwords " OTHERS " unit 2 \"x\" hunk 3 \"\"\n"
    "hunk 9 code any 2 longwords dir/z \"z\".o unit 0 \"\" hunk 0 \"\"\n"
    "  define \"foo\" at 00000004\n";

static void a_map_tells_where_each_hunk_of_a_load_file_is_from(void)
{
    static const size_t pieces[] = {0, 1, 3, 5};
    const struct file files[] = {assembled(), others(), definer()};
    for (unsigned bits = 0; bits < 8; bits++) {
        for (size_t i = 0; i < COUNT(pieces); i++) {
            struct counted counted = {0};
            const amihunk_options options = {
                .strip = bits & 1, .short_form = (bits & 2) != 0, .trim = (bits & 4) != 0};
            amihunk_linker linker =
                linked(counted_memory(&counted), options, files, COUNT(files), pieces[i]);
            check_map(&linker, names, COUNT(names), map);
            amihunk_linker_close(&linker);
            CHECK(counted.blocks == 0);
        }
    }
    for (size_t i = 0; i < COUNT(files); i++) {
        free(files[i].bytes);
    }
}

static void as_much_is_written_as_there_is_room_for(void)
{
    const struct file files[] = {assembled(), others(), definer()};
    amihunk_linker linker =
        linked(amihunk_from_malloc(), (amihunk_options){0}, files, COUNT(files), 0);
    amihunk_bytes before, after;
    CHECK(amihunk_linker_get_file(&linker, &before) == AMIHUNK_OK);
    struct file copy = file_of_bytes(before.bytes, before.size);
    check_rooms(&linker, names, COUNT(names), map);
    /* The load file stays where it is, and so does what it holds. */
    CHECK(amihunk_linker_get_file(&linker, &after) == AMIHUNK_OK);
    CHECK(after.bytes == before.bytes && same(copy, after.bytes, after.size));
    amihunk_linker moved = linker;
    memset(&linker, 0, sizeof(linker));
    check_map(&moved, names, COUNT(names), map);
    amihunk_linker_close(&moved);
    check_no_map(&moved);
    free(copy.bytes);
    for (size_t i = 0; i < COUNT(files); i++) {
        free(files[i].bytes);
    }
}

/* ------------------------------ Names of the files ------------------------------ */

/* What the map of the caller and the definer is when they are called so. */
static void check_names(amihunk_linker *linker, const char *const *given, size_t count,
                        const char *first, const char *second)
{
    static const char form[] = "hunk 0 code any 2 longwords %s unit 0 \"\" hunk 0 \"\"\n"
                               "hunk 1 code any 2 longwords %s unit 0 \"\" hunk 0 \"\"\n"
                               "  define \"foo\" at 00000004\n";
    size_t size = sizeof(form) + strlen(first) + strlen(second);
    char *expected = some(malloc(size));
    CHECK(snprintf(expected, size, form, first, second) > 0);
    check_map(linker, given, count, expected);
    free(expected);
}

static void a_file_without_a_name_has_an_empty_one(void)
{
    static char all[256], all_quoted[2 + 4 * 255 + 1], long_name[100000];
    static const char *const none[] = {NULL, NULL, NULL}, *const first[] = {"a", NULL},
                             *const second[] = {NULL, "b"}, *const both[] = {"a", "b"},
                             *const more[] = {"a", "b", "c", NULL, ""}, *const empty[] = {"", ""},
                             *const strange[] = {all, "%s"}, *const large[] = {"", long_name};
    const struct file files[] = {caller(), definer()};
    amihunk_linker linker = linked(amihunk_from_malloc(), (amihunk_options){0}, files, 2, 0);
    for (size_t i = 0; i + 1 < sizeof(all); i++) {
        all[i] = (char)(i + 1);
    }
    char *end = all_quoted;
    *end++ = '"';
    for (unsigned byte = 1; byte < 256; byte++) {
        bool is_plain = byte >= ' ' && byte <= '~' && byte != '"' && byte != '\\';
        end += sprintf(end, is_plain ? "%c" : "\\x%02x", byte);
    }
    *end++ = '"';
    memset(long_name, 'x', sizeof(long_name) - 1);
    check_names(&linker, NULL, 0, "", "");
    check_names(&linker, both, 0, "", "");
    check_names(&linker, both, 1, "a", "");
    check_names(&linker, both, 2, "a", "b");
    check_names(&linker, none, 1, "", "");
    check_names(&linker, none, 3, "", "");
    check_names(&linker, first, 2, "a", "");
    check_names(&linker, second, 2, "", "b");
    check_names(&linker, more, 5, "a", "b");
    check_names(&linker, empty, 2, "", "");
    check_names(&linker, strange, 2, all_quoted, "%s");
    check_names(&linker, large, 2, "", long_name);
    amihunk_linker_close(&linker);
    free(files[0].bytes);
    free(files[1].bytes);
}

/* ------------------------------ Memory and size ------------------------------ */

/* Without memory for it a map is empty, and is whole again once there is some. */
static void a_map_without_memory_is_empty(void)
{
    const struct file files[] = {assembled(), others(), definer()};
    char text[sizeof(map)];
    struct counted counted = {0};
    amihunk_linker linker =
        linked(counted_memory(&counted), (amihunk_options){0}, files, COUNT(files), 0);
    size_t blocks = counted.blocks;
    counted.asked = 0;
    check_map(&linker, names, COUNT(names), map);
    /* It was written twice. */
    for (size_t all = 0, asked = counted.asked / 2; all < 2; all++) {
        for (size_t n = 1; n <= asked; n++) {
            counted.asked = 0;
            counted.refused = n;
            counted.all = all != 0;
            CHECK(amihunk_linker_map(&linker, names, COUNT(names), text, sizeof(text)) == 0);
            CHECK(text[0] == 0 && counted.blocks == blocks);
            counted.refused = 0;
            check_map(&linker, names, COUNT(names), map);
            CHECK(counted.blocks == blocks);
        }
    }
    amihunk_linker_close(&linker);
    CHECK(counted.blocks == 0);
    for (size_t i = 0; i < COUNT(files); i++) {
        free(files[i].bytes);
    }
}

enum { HUNKS = 65535, LINES = 120 };

/* As many hunks as there may be, each of which defines a name; and two lines for each of them. */
static struct file most_hunks(char *expected)
{
    enum { EACH = 8 };
    uint32_t *longwords = some(malloc(4 * (2 + (size_t)EACH * HUNKS)));
    longwords[0] = 0x3E7;
    longwords[1] = 0;
    for (uint32_t i = 0; i < HUNKS; i++) {
        uint32_t name = name_of(i);
        const uint32_t hunk[EACH] = {0x3EB, 0, 0x3EF, 0x01000001, name, ~i, 0, 0x3F2};
        const char letters[] = {(char)(name >> 24), (char)(name >> 16), (char)(name >> 8),
                                (char)name, 0};
        memcpy(&longwords[2 + EACH * (size_t)i], hunk, sizeof(hunk));
        expected += snprintf(expected, LINES,
                             "hunk %u bss any 0 longwords x.o unit 0 \"\" hunk %u \"\"\n"
                             "  define \"%s\" at %08x\n",
                             (unsigned)i, (unsigned)i, letters, (unsigned)~i);
    }
    struct file file = file_of(longwords, 2 + (size_t)EACH * HUNKS);
    free(longwords);
    return file;
}

static void a_map_may_have_the_most_hunks_of_a_load_file(void)
{
    static const char *const name[] = {"x.o"};
    char *expected = some(malloc((size_t)LINES * HUNKS));
    struct file file = most_hunks(expected);
    struct counted counted = {0};
    amihunk_linker linker =
        linked(counted_memory(&counted), (amihunk_options){.strip = true}, &file, 1, 4099);
    check_map(&linker, name, 1, expected);
    amihunk_linker_close(&linker);
    CHECK(counted.blocks == 0);
    free(expected);
    free(file.bytes);
}

int main(void)
{
    static const struct test tests[] = {
        TEST(a_map_tells_where_each_hunk_of_a_load_file_is_from),
        TEST(as_much_is_written_as_there_is_room_for),
        TEST(a_file_without_a_name_has_an_empty_one),
        TEST(a_map_without_memory_is_empty),
        TEST(a_map_may_have_the_most_hunks_of_a_load_file),
    };
    return run_tests(tests, COUNT(tests));
}

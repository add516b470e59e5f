/* What is told of files that are read: each thing in them, and nothing else. */
#include "nothing.h"

#include <stddef.h>

/* The exports write these. */
_Static_assert(sizeof(amihunk_contents) == 16 && offsetof(amihunk_contents, kind) == 8, "contents");
_Static_assert(sizeof(amihunk_unit) == 24 && offsetof(amihunk_unit, hunks) == 16, "a unit");
_Static_assert(sizeof(amihunk_file_hunk) == 88 && offsetof(amihunk_file_hunk, stored) == 16 &&
                   offsetof(amihunk_file_hunk, sites) == 32 &&
                   offsetof(amihunk_file_hunk, debug_blocks) == 64 &&
                   offsetof(amihunk_file_hunk, size) == 72 &&
                   offsetof(amihunk_file_hunk, memory) == 80,
               "a hunk");
_Static_assert(sizeof(amihunk_site) == 12 && offsetof(amihunk_site, target) == 8, "a site");
_Static_assert(sizeof(amihunk_symbol) == 24 && offsetof(amihunk_symbol, value) == 16, "a symbol");
_Static_assert(sizeof(amihunk_definition) == 24 && offsetof(amihunk_definition, absolute) == 20,
               "a definition");
_Static_assert(sizeof(amihunk_debug) == 16 && offsetof(amihunk_debug, size) == 8, "a debug block");
_Static_assert(offsetof(amihunk_file, session) == 0, "a handle begins with a pointer");

static const size_t pieces[] = {0, 1, 3, 5};

/* Opens a file handle, and reads a file that is freed before anything is told. */
static void read_file(amihunk_file *file, amihunk_memory memory, struct file bytes, size_t piece)
{
    CHECK(amihunk_file_open(file, memory) == AMIHUNK_OK);
    amihunk_answer answer = read_pieces(file, bytes, piece);
    CHECK(same_answer(&answer, &(amihunk_answer){0}));
    memset(bytes.bytes, 0xEE, bytes.size);
    free(bytes.bytes);
}

static void check_file(struct file (*make)(void), const struct facts *facts)
{
    for (size_t i = 0; i < COUNT(pieces); i++) {
        struct counted counted = {0};
        amihunk_file file = {0};
        read_file(&file, counted_memory(&counted), make(), pieces[i]);
        size_t asked = counted.asked;
        check_facts(&file, facts);
        check_facts(&file, facts);
        CHECK(counted.asked == asked);
        amihunk_file_close(&file);
        CHECK(counted.blocks == 0);
    }
}

static void everything_in_an_object_file_is_told(void)
{
    check_file(object_of_all, &object_facts);
}

static void everything_in_a_load_file_is_told(void)
{
    check_file(load_of_all, &load_facts);
}

static struct file no_units_but_one(void)
{
    return LONGWORDS(0x400003E7, 0);
}

static void a_unit_may_have_no_hunks(void)
{
    static const struct facts facts = {.kind = AMIHUNK_OBJECT_FILE, .units = 1};
    check_file(no_units_but_one, &facts);
}

static struct file other_first_longword(void)
{
    return with(load_of_all(), 0, 0xC00003F3);
}

static void upper_bits_of_the_first_longword_are_ignored(void)
{
    check_file(other_first_longword, &load_facts);
}

/* ------------------------------ Out of range ------------------------------ */

/* What is added to a count: so that it is just out of range, or wraps if it is multiplied. */
static const size_t far[] = {0,         1,         1 << 16,   SIZE_MAX >> 32, SIZE_MAX >> 4,
                             1UL << 32, 1UL << 60, 1UL << 61, 1UL << 62,      1UL << 63};

static void check_nothing_past(amihunk_file *file, size_t unit, size_t hunk,
                               const struct hunk_facts *facts, size_t past)
{
    check_no_site(file, unit, hunk, facts->sites + past, AMIHUNK_OUT_OF_RANGE);
    check_no_symbol(file, unit, hunk, facts->symbols + past, AMIHUNK_OUT_OF_RANGE);
    check_no_definition(file, unit, hunk, facts->definitions + past, AMIHUNK_OUT_OF_RANGE);
    check_no_reference(file, unit, hunk, facts->references + past, AMIHUNK_OUT_OF_RANGE);
    check_no_debug(file, unit, hunk, facts->debugs + past, AMIHUNK_OUT_OF_RANGE);
}

static void check_range(struct file bytes, const struct facts *facts)
{
    amihunk_file file = {0};
    read_file(&file, amihunk_from_malloc(), bytes, 0);
    for (size_t i = 0; i < COUNT(far); i++) {
        check_no_unit(&file, facts->units + far[i], AMIHUNK_OUT_OF_RANGE);
        for (size_t unit = 0; unit < facts->units; unit++) {
            const struct unit_facts *expected = &facts->unit[unit];
            check_no_hunk(&file, unit, expected->hunks + far[i], AMIHUNK_OUT_OF_RANGE);
            for (size_t hunk = 0; hunk < expected->hunks; hunk++) {
                check_nothing_past(&file, unit, hunk, &expected->hunk[hunk], far[i]);
            }
            check_no_hunk(&file, unit, SIZE_MAX, AMIHUNK_OUT_OF_RANGE);
        }
    }
    check_no_unit(&file, SIZE_MAX, AMIHUNK_OUT_OF_RANGE);
    check_facts(&file, facts);
    amihunk_file_close(&file);
}

static void check_last_indexes(struct file bytes, const struct facts *facts)
{
    static const struct hunk_facts none = {0};
    amihunk_file file = {0};
    read_file(&file, amihunk_from_malloc(), bytes, 0);
    for (size_t unit = 0; unit < facts->units; unit++) {
        for (size_t hunk = 0; hunk < facts->unit[unit].hunks; hunk++) {
            check_nothing_past(&file, unit, hunk, &none, SIZE_MAX);
            check_nothing_past(&file, unit, hunk, &none, SIZE_MAX - 1);
        }
    }
    amihunk_file_close(&file);
}

static void nothing_past_the_last_is_told(void)
{
    check_range(object_of_all(), &object_facts);
    check_range(load_of_all(), &load_facts);
    check_last_indexes(object_of_all(), &object_facts);
    check_last_indexes(load_of_all(), &load_facts);
}

/* ------------------------------ Pointers ------------------------------ */

/* The pointers that are told of a hunk with everything in it, and of its unit. */
static size_t pointers_of(amihunk_file *file, const void **pointers)
{
    amihunk_unit unit = {0};
    amihunk_file_hunk hunk = {0};
    amihunk_symbol symbol = {0};
    amihunk_definition definition = {0};
    amihunk_bytes reference = {0};
    amihunk_debug debug = {0};
    CHECK(amihunk_file_get_unit(file, 0, &unit) == AMIHUNK_OK);
    CHECK(amihunk_file_get_hunk(file, 0, 0, &hunk) == AMIHUNK_OK);
    CHECK(amihunk_file_get_symbol(file, 0, 0, 1, &symbol) == AMIHUNK_OK);
    CHECK(amihunk_file_get_definition(file, 0, 0, 1, &definition) == AMIHUNK_OK);
    CHECK(amihunk_file_get_reference(file, 0, 0, 1, &reference) == AMIHUNK_OK);
    CHECK(amihunk_file_get_debug(file, 0, 0, 0, &debug) == AMIHUNK_OK);
    pointers[0] = unit.name.bytes;
    pointers[1] = hunk.name.bytes;
    pointers[2] = hunk.stored.bytes;
    pointers[3] = symbol.name.bytes;
    pointers[4] = definition.name.bytes;
    pointers[5] = reference.bytes;
    pointers[6] = debug.longwords;
    return 7;
}

static void pointers_hold_until_the_file_is_closed(void)
{
    const void *first[7], *again[7];
    amihunk_file file = {0}, other = {0};
    read_file(&file, amihunk_from_malloc(), object_of_all(), 3);
    size_t count = pointers_of(&file, first);
    read_file(&other, amihunk_from_malloc(), load_of_all(), 1);
    amihunk_file_close(&other);
    check_facts(&file, &object_facts);
    amihunk_file moved = file;
    memset(&file, 0, sizeof(file));
    CHECK(pointers_of(&moved, again) == count);
    for (size_t i = 0; i < count; i++) {
        CHECK(first[i] != NULL && first[i] == again[i]);
    }
    CHECK(memcmp(first[0], "first", 5) == 0 && memcmp(first[1], "CODE", 4) == 0);
    CHECK(memcmp(first[2], "\0\0\0\1", 4) == 0 && memcmp(first[3], "a\xFFgain", 6) == 0);
    CHECK(memcmp(first[4], "size", 4) == 0 && memcmp(first[5], "print", 5) == 0);
    CHECK(((const uint32_t *)first[6])[1] == 0x4C494E45);
    amihunk_file_close(&moved);
}

/* A debug block is told as numbers, which stand where such numbers may stand. */
static void longwords_of_debug_blocks_are_aligned(void)
{
    static const struct facts *const facts[] = {&object_facts, &load_facts};
    for (size_t kind = 0; kind < 2; kind++) {
        amihunk_file file = {0};
        read_file(&file, amihunk_from_malloc(), kind == 0 ? object_of_all() : load_of_all(), 0);
        for (size_t i = 0; i < facts[kind]->unit[0].hunk[0].debugs; i++) {
            amihunk_debug debug = {0};
            CHECK(amihunk_file_get_debug(&file, 0, 0, i, &debug) == AMIHUNK_OK);
            CHECK((uintptr_t)debug.longwords % _Alignof(uint32_t) == 0);
        }
        amihunk_file_close(&file);
    }
}

/* ------------------------------ Versions ------------------------------ */

static void the_library_has_the_version_of_the_header(void)
{
    CHECK(amihunk_version() != NULL && strcmp(amihunk_version(), AMIHUNK_VERSION) == 0);
    CHECK(amihunk_version() == amihunk_version());
}

int main(void)
{
    static const struct test tests[] = {
        TEST(everything_in_an_object_file_is_told),
        TEST(everything_in_a_load_file_is_told),
        TEST(a_unit_may_have_no_hunks),
        TEST(upper_bits_of_the_first_longword_are_ignored),
        TEST(nothing_past_the_last_is_told),
        TEST(pointers_hold_until_the_file_is_closed),
        TEST(longwords_of_debug_blocks_are_aligned),
        TEST(the_library_has_the_version_of_the_header),
    };
    return run_tests(tests, COUNT(tests));
}

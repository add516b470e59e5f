/*
 * A file with more of everything than 16 bits can count: 70,000 units, hunks, sites, references,
 * definitions, symbols and debug blocks. Each is told by its number. And so is each of 70,000 names
 * that no hunk defines, after 70,000 object files and 70,000 units.
 */
#include "files.h"
#include "nothing.h"

enum { MANY = 70000 };

/* Room for longwords, and how many there are. */
struct longwords {
    uint32_t *all;
    size_t count;
};

static void add(struct longwords *to, uint32_t longword)
{
    to->all[to->count++] = longword;
}

static int is_name(amihunk_bytes told, uint32_t number)
{
    uint32_t name = name_of(number);
    const uint8_t expected[] = {(uint8_t)(name >> 24), (uint8_t)(name >> 16), (uint8_t)(name >> 8),
                                (uint8_t)name};
    return told.size == 4 && memcmp(told.bytes, expected, 4) == 0;
}

/*
 * The hunk with many of everything: of each two longwords, the base of a hunk is added to the
 * first, and a name to the second. The sites of hunks fall in the file.
 */
static void add_full_hunk(struct longwords *to)
{
    add(to, 0x3E9);
    add(to, 2 * MANY);
    for (uint32_t i = 0; i < 2 * MANY; i++) {
        add(to, i);
    }
    add(to, 0x3EC);
    add(to, MANY);
    add(to, 0xFFFFFFFF);
    for (uint32_t i = MANY; i-- > 0;) {
        add(to, 8 * i);
    }
    add(to, 0);
    add(to, 0x3EF);
    for (uint32_t i = 0; i < MANY; i++) {
        const uint32_t reference[] = {0x81000001, name_of(i), 1, 8 * i + 4};
        const uint32_t definition[] = {i % 3 == 0 ? 0x02000001 : 0x01000001, name_of(i + 1), i};
        for (size_t k = 0; k < COUNT(reference); k++) {
            add(to, reference[k]);
        }
        for (size_t k = 0; k < COUNT(definition); k++) {
            add(to, definition[k]);
        }
    }
    add(to, 0);
    add(to, 0x3F0);
    for (uint32_t i = 0; i < MANY; i++) {
        add(to, 1);
        add(to, name_of(i + 2));
        add(to, 10 * i);
    }
    add(to, 0);
    for (uint32_t i = 0; i < MANY; i++) {
        add(to, 0x3F1);
        add(to, 1);
        add(to, ~i);
    }
    add(to, 0x3F2);
}

/* A unit with the full hunk, many units of nothing, and one of many hunks. */
static struct file many_of_all(void)
{
    struct longwords to = {some(malloc(4 * (32 + (size_t)24 * MANY))), 0};
    add(&to, 0x3E7);
    add(&to, 0);
    add_full_hunk(&to);
    for (uint32_t i = 0; i < MANY; i++) {
        add(&to, 0x3E7);
        add(&to, 1);
        add(&to, name_of(i));
    }
    for (uint32_t i = 0; i < MANY; i++) {
        add(&to, 0x3EB);
        add(&to, i);
        add(&to, 0x3F2);
    }
    struct file file = file_of(to.all, to.count);
    free(to.all);
    return file;
}

/* Counts what is told otherwise, so that one fault does not give many lines. */
static size_t wrong_in_full_hunk(amihunk_file *file)
{
    size_t wrong = 0;
    for (uint32_t i = 0; i < MANY; i++) {
        amihunk_site site = {0}, next = {0};
        amihunk_bytes reference = {0};
        amihunk_definition definition = {0};
        amihunk_symbol symbol = {0};
        amihunk_debug debug = {0};
        wrong += amihunk_file_get_site(file, 0, 0, 2 * (size_t)i, &site) != AMIHUNK_OK ||
                 site.offset != 8 * i || site.kind != AMIHUNK_ADDS_HUNK ||
                 site.target != 0xFFFFFFFF;
        wrong += amihunk_file_get_site(file, 0, 0, 2 * (size_t)i + 1, &next) != AMIHUNK_OK ||
                 next.offset != 8 * i + 4 || next.kind != AMIHUNK_ADDS_NAME || next.target != i;
        wrong += amihunk_file_get_reference(file, 0, 0, i, &reference) != AMIHUNK_OK ||
                 !is_name(reference, i);
        wrong += amihunk_file_get_definition(file, 0, 0, i, &definition) != AMIHUNK_OK ||
                 !is_name(definition.name, i + 1) || definition.value != i ||
                 definition.absolute != (i % 3 == 0);
        wrong += amihunk_file_get_symbol(file, 0, 0, i, &symbol) != AMIHUNK_OK ||
                 !is_name(symbol.name, i + 2) || symbol.value != 10 * i;
        wrong += amihunk_file_get_debug(file, 0, 0, i, &debug) != AMIHUNK_OK || debug.size != 1 ||
                 debug.longwords[0] != ~i;
    }
    return wrong;
}

static size_t wrong_in_other_units(amihunk_file *file)
{
    size_t wrong = 0;
    for (uint32_t i = 0; i < MANY; i++) {
        amihunk_unit unit = {0};
        amihunk_file_hunk hunk = {0};
        wrong += amihunk_file_get_unit(file, i + 1, &unit) != AMIHUNK_OK ||
                 !is_name(unit.name, i) || unit.hunks != (i == MANY - 1 ? MANY : 0);
        wrong += amihunk_file_get_hunk(file, MANY, i, &hunk) != AMIHUNK_OK || hunk.size != i ||
                 hunk.kind != AMIHUNK_BSS || hunk.stored.size != 0 || hunk.sites != 0;
    }
    return wrong;
}

static void more_of_everything_than_16_bits_count_is_told(void)
{
    struct file bytes = many_of_all();
    struct counted counted = {0};
    amihunk_file file = {0};
    CHECK(amihunk_file_open(&file, counted_memory(&counted)) == AMIHUNK_OK);
    CHECK(read_pieces(&file, bytes, 4099).status == AMIHUNK_OK);
    free(bytes.bytes);
    amihunk_contents contents = {0};
    amihunk_file_hunk hunk = {0};
    amihunk_symbol symbol = {0};
    CHECK(amihunk_file_get_contents(&file, &contents) == AMIHUNK_OK && contents.units == MANY + 1);
    CHECK(amihunk_file_get_hunk(&file, 0, 0, &hunk) == AMIHUNK_OK && hunk.size == 2 * MANY);
    CHECK(hunk.sites == 2 * MANY && hunk.references == MANY && hunk.definitions == MANY &&
          hunk.symbols == MANY && hunk.debug_blocks == MANY && hunk.stored.size == 8 * MANY);
    CHECK(wrong_in_full_hunk(&file) == 0);
    CHECK(wrong_in_other_units(&file) == 0);
    CHECK(amihunk_file_symbol_before(&file, 0, 0, 10 * 69999 + 5, &symbol) == AMIHUNK_OK);
    CHECK(is_name(symbol.name, 70001) && symbol.value == 699990);
    check_no_hunk(&file, MANY, MANY, AMIHUNK_OUT_OF_RANGE);
    check_no_unit(&file, MANY + 1, AMIHUNK_OUT_OF_RANGE);
    check_no_site(&file, 0, 0, 2 * MANY, AMIHUNK_OUT_OF_RANGE);
    amihunk_file_close(&file);
    CHECK(counted.blocks == 0);
}

/* ------------------------------ Undefined names ------------------------------ */

/*
 * Many units of nothing, and then one with a hunk of zeros and one of code, to which many names are
 * added. Each has a letter after the four of its number, and so is there once. The first of them is
 * referred to again beside each one.
 */
static struct file many_undefined(void)
{
    struct longwords to = {some(malloc(4 * (16 + (size_t)14 * MANY))), 0};
    for (uint32_t i = 0; i < MANY; i++) {
        add(&to, 0x3E7);
        add(&to, 0);
    }
    const uint32_t unit[] = {0x3E7, 0, 0x3EB, 1, 0x3F2, 0x3E9, 2 * MANY};
    for (size_t i = 0; i < COUNT(unit); i++) {
        add(&to, unit[i]);
    }
    for (uint32_t i = 0; i < 2 * MANY; i++) {
        add(&to, 0);
    }
    add(&to, 0x3EF);
    for (uint32_t i = 0; i < MANY; i++) {
        const uint32_t own[] = {0x81000002, name_of(i), 0x61000000 + (i >> 16 << 24), 1, 8 * i};
        const uint32_t first[] = {0x81000002, name_of(0), 0x61000000, 1, 8 * i + 4};
        for (size_t k = 0; k < COUNT(own); k++) {
            add(&to, own[k]);
        }
        for (size_t k = 0; k < COUNT(first); k++) {
            add(&to, first[k]);
        }
    }
    add(&to, 0);
    add(&to, 0x3F2);
    struct file file = file_of(to.all, to.count);
    free(to.all);
    return file;
}

static size_t wrong_undefined(amihunk_linker *linker)
{
    size_t wrong = 0;
    for (uint32_t i = 0; i < MANY; i++) {
        amihunk_undefined told = {0};
        wrong += amihunk_linker_get_undefined(linker, i, &told) != AMIHUNK_OK ||
                 told.name.size != 5 || !is_name((amihunk_bytes){told.name.bytes, 4}, i) ||
                 told.name.bytes[4] != 'a' + (i >> 16) || told.input != MANY || told.unit != MANY ||
                 told.hunk != 1 || told.references != (i == 0 ? 1 + MANY : 1);
    }
    return wrong;
}

static void more_undefined_names_than_16_bits_count_are_told(void)
{
    struct file nothing = LONGWORDS(0x3E7, 0), bytes = many_undefined();
    struct counted counted = {0};
    amihunk_linker linker = {0};
    CHECK(amihunk_linker_open(&linker, counted_memory(&counted), (amihunk_options){.keep = true}) ==
          AMIHUNK_OK);
    for (size_t i = 0; i < MANY; i++) {
        CHECK(amihunk_linker_feed(&linker, nothing.bytes, nothing.size, NULL) == AMIHUNK_OK &&
              amihunk_linker_end_input(&linker, NULL) == AMIHUNK_OK);
    }
    amihunk_answer answer = link_pieces(&linker, &bytes, 1, 4099);
    CHECK(same_answer(&answer, &(amihunk_answer){.status = AMIHUNK_UNDEFINED_NAME,
                                                 .input = MANY,
                                                 .unit = 2 * MANY,
                                                 .hunk = 1}));
    CHECK(wrong_undefined(&linker) == 0);
    check_no_undefined(&linker, MANY, AMIHUNK_OUT_OF_RANGE);
    amihunk_linker_close(&linker);
    CHECK(counted.blocks == 0);
    free(nothing.bytes);
    free(bytes.bytes);
}

int main(void)
{
    static const struct test tests[] = {
        TEST(more_of_everything_than_16_bits_count_is_told),
        TEST(more_undefined_names_than_16_bits_count_are_told),
    };
    return run_tests(tests, COUNT(tests));
}

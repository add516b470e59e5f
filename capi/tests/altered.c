/*
 * 10,000 files, each made of a load file or an object file by a few changes, and looked into. One
 * that is refused is refused as by a loader or a linker. One that is read is walked by index, each
 * byte that it leads to is read, what is told agrees with itself, and a load file is loaded.
 */
#include "facts.h"
#include "files.h"
#include "mutations.h"

enum { FILES = 10000 };

/* How often each outcome was seen: refused, or read of each kind; and loaded. */
static size_t refused, objects, loads, loaded, walked;

/* A sum of what was read, so that each byte is. */
static uint64_t sum;

static void read_bytes(amihunk_bytes told)
{
    CHECK(told.bytes != NULL);
    for (uint64_t i = 0; i < told.size; i++) {
        sum += told.bytes[i];
    }
}

/* A name has no zero byte. */
static void read_name(amihunk_bytes told)
{
    read_bytes(told);
    CHECK(told.size == 0 || memchr(told.bytes, 0, told.size) == NULL);
}

/* Sites rise, share no byte, lie in the hunk, and lead to what is there. */
static void walk_sites(amihunk_file *file, size_t unit, size_t hunk, const amihunk_file_hunk *of,
                       int load)
{
    uint64_t free_from = 0;
    amihunk_unit told_unit = {0};
    CHECK(amihunk_file_get_unit(file, unit, &told_unit) == AMIHUNK_OK);
    for (size_t i = 0; i < of->sites; i++) {
        amihunk_site told = {0};
        CHECK(amihunk_file_get_site(file, unit, hunk, i, &told) == AMIHUNK_OK);
        CHECK(told.offset >= free_from && told.offset + (uint64_t)4 <= 4 * (uint64_t)of->size);
        free_from = told.offset + (uint64_t)4;
        CHECK(told.kind == AMIHUNK_ADDS_HUNK || (told.kind == AMIHUNK_ADDS_NAME && !load));
        CHECK(told.kind != AMIHUNK_ADDS_NAME || told.target < of->references);
        CHECK(!load || told.target < told_unit.hunks);
    }
    amihunk_site none;
    CHECK(amihunk_file_get_site(file, unit, hunk, of->sites, &none) == AMIHUNK_OUT_OF_RANGE);
}

static void walk_symbols(amihunk_file *file, size_t unit, size_t hunk, const amihunk_file_hunk *of)
{
    uint32_t offset = (uint32_t)dice(40);
    size_t best = SIZE_MAX;
    amihunk_symbol found = {0}, told = {0};
    for (size_t i = 0; i < of->symbols; i++) {
        amihunk_symbol it = {0};
        CHECK(amihunk_file_get_symbol(file, unit, hunk, i, &it) == AMIHUNK_OK);
        read_name(it.name);
        if (it.value <= offset && (best == SIZE_MAX || it.value > found.value)) {
            best = i;
            found = it;
        }
    }
    CHECK(amihunk_file_symbol_before(file, unit, hunk, offset, &told) ==
          (best != SIZE_MAX ? AMIHUNK_OK : AMIHUNK_OUT_OF_RANGE));
    CHECK(told.value == found.value && told.name.bytes == found.name.bytes &&
          told.name.size == found.name.size);
    CHECK(amihunk_file_get_symbol(file, unit, hunk, of->symbols, &told) == AMIHUNK_OUT_OF_RANGE);
}

static void walk_names(amihunk_file *file, size_t unit, size_t hunk, const amihunk_file_hunk *of)
{
    amihunk_definition definition = {0};
    amihunk_bytes reference = {0};
    for (size_t i = 0; i < of->definitions; i++) {
        CHECK(amihunk_file_get_definition(file, unit, hunk, i, &definition) == AMIHUNK_OK);
        CHECK(definition.absolute <= 1);
        read_name(definition.name);
    }
    CHECK(amihunk_file_get_definition(file, unit, hunk, of->definitions, &definition) ==
          AMIHUNK_OUT_OF_RANGE);
    for (size_t i = 0; i < of->references; i++) {
        CHECK(amihunk_file_get_reference(file, unit, hunk, i, &reference) == AMIHUNK_OK);
        read_name(reference);
    }
    CHECK(amihunk_file_get_reference(file, unit, hunk, of->references, &reference) ==
          AMIHUNK_OUT_OF_RANGE);
}

static void walk_debug(amihunk_file *file, size_t unit, size_t hunk, const amihunk_file_hunk *of)
{
    amihunk_debug told = {0};
    for (size_t i = 0; i < of->debug_blocks; i++) {
        CHECK(amihunk_file_get_debug(file, unit, hunk, i, &told) == AMIHUNK_OK);
        CHECK(told.longwords != NULL);
        for (uint64_t k = 0; k < told.size; k++) {
            sum += told.longwords[k];
        }
    }
    CHECK(amihunk_file_get_debug(file, unit, hunk, of->debug_blocks, &told) ==
          AMIHUNK_OUT_OF_RANGE);
}

static void walk_hunk(amihunk_file *file, size_t unit, size_t hunk, int load)
{
    amihunk_file_hunk told = {0};
    CHECK(amihunk_file_get_hunk(file, unit, hunk, &told) == AMIHUNK_OK);
    CHECK(told.kind <= AMIHUNK_BSS && told.memory <= AMIHUNK_FAST_MEMORY);
    CHECK(told.stored.size % 4 == 0 && told.stored.size <= 4 * (uint64_t)told.size);
    CHECK(told.kind != AMIHUNK_BSS || told.stored.size == 0);
    CHECK(load || told.kind == AMIHUNK_BSS || told.stored.size == 4 * (uint64_t)told.size);
    CHECK(!load || (told.name.size == 0 && told.definitions == 0 && told.references == 0));
    read_name(told.name);
    read_bytes(told.stored);
    walk_sites(file, unit, hunk, &told, load);
    walk_symbols(file, unit, hunk, &told);
    walk_names(file, unit, hunk, &told);
    walk_debug(file, unit, hunk, &told);
    walked++;
}

/* Walks all of it, and returns how many hunks the first unit has. */
static uint64_t walk(amihunk_file *file, int load)
{
    uint64_t hunks = 0;
    amihunk_contents contents = {0};
    CHECK(amihunk_file_get_contents(file, &contents) == AMIHUNK_OK);
    CHECK(contents.kind == (load ? AMIHUNK_LOAD_FILE : AMIHUNK_OBJECT_FILE));
    CHECK(contents.units != 0 && (!load || contents.units == 1));
    for (size_t unit = 0; unit < contents.units; unit++) {
        amihunk_unit told = {0};
        CHECK(amihunk_file_get_unit(file, unit, &told) == AMIHUNK_OK);
        read_name(told.name);
        CHECK(!load || told.name.size == 0);
        hunks = unit == 0 ? told.hunks : hunks;
        for (size_t hunk = 0; hunk < told.hunks; hunk++) {
            walk_hunk(file, unit, hunk, load);
        }
    }
    return hunks;
}

/* Whether it has the first longword of a load file. */
static int is_load(struct file bytes)
{
    return bytes.size >= 4 && (bytes.bytes[0] & 0x3F) == 0 && bytes.bytes[1] == 0 &&
           bytes.bytes[2] == 3 && bytes.bytes[3] == 0xF3;
}

/* How a loader or a linker refuses the file: the first offence, apart from places and links. */
static amihunk_answer refusal_elsewhere(struct file bytes)
{
    amihunk_answer answer;
    if (is_load(bytes)) {
        amihunk_loader loader = {0};
        CHECK(amihunk_loader_open(&loader, amihunk_from_malloc(), NULL, 0) == AMIHUNK_OK);
        answer = load_pieces(&loader, bytes, 0);
        amihunk_loader_close(&loader);
    } else {
        amihunk_linker linker = {0};
        CHECK(amihunk_linker_open(&linker, amihunk_from_malloc(), (amihunk_options){0}) ==
              AMIHUNK_OK);
        amihunk_linker_feed(&linker, bytes.bytes, bytes.size, NULL);
        amihunk_linker_end_input(&linker, &answer);
        amihunk_linker_close(&linker);
    }
    return answer.status == AMIHUNK_BAD_FILE ? answer : (amihunk_answer){0};
}

/* Loads a load file from what was read, and from its bytes. */
static void load_both(amihunk_file *file, struct file bytes, uint64_t hunks)
{
    uint32_t bases[8];
    for (uint32_t i = 0; i < COUNT(bases); i++) {
        bases[i] = 0x08000000 * (COUNT(bases) - 1 - i) + (uint32_t)dice(100);
    }
    struct counted counted = {0};
    amihunk_loader loader = {0}, fed = {0};
    amihunk_answer answer = unwritten();
    size_t count = hunks <= COUNT(bases) ? (size_t)hunks : COUNT(bases);
    CHECK(amihunk_loader_load(&loader, counted_memory(&counted), file, bases, count, &answer) ==
          answer.status);
    CHECK(amihunk_loader_open(&fed, amihunk_from_malloc(), bases, count) == AMIHUNK_OK);
    amihunk_answer expected = load_pieces(&fed, bytes, 0);
    CHECK(same_answer(&answer, &expected));
    check_same_hunks(&loader, &fed);
    for (size_t i = 0; i < amihunk_loader_hunk_count(&loader); i++) {
        amihunk_hunk told = {0};
        CHECK(amihunk_loader_get_hunk(&loader, i, &told) == AMIHUNK_OK);
        read_bytes((amihunk_bytes){told.bytes, told.size < 65536 ? told.size : 65536});
    }
    loaded += answer.status == AMIHUNK_OK;
    amihunk_loader_close(&loader);
    amihunk_loader_close(&fed);
    CHECK(counted.blocks == 0);
}

/* Feeds it in pieces of random sizes, empty ones too, whatever is answered. */
static amihunk_answer read_at_random(amihunk_file *file, struct file bytes)
{
    amihunk_answer answer = unwritten();
    size_t most = 2 + dice(40);
    for (size_t start = 0; start < bytes.size;) {
        size_t size = dice(most);
        size = size < bytes.size - start ? size : bytes.size - start;
        amihunk_file_feed(file, bytes.bytes + start, size, NULL);
        start += size;
    }
    CHECK(amihunk_file_finish(file, &answer) == answer.status);
    return answer;
}

static void look_at(struct file bytes)
{
    struct counted counted = {0};
    amihunk_file file = {0};
    CHECK(amihunk_file_open(&file, counted_memory(&counted)) == AMIHUNK_OK);
    amihunk_answer answer = read_at_random(&file, bytes), expected = refusal_elsewhere(bytes);
    CHECK(same_answer(&answer, &expected));
    int load = is_load(bytes);
    if (answer.status == AMIHUNK_OK) {
        uint64_t hunks = walk(&file, load);
        if (load) {
            load_both(&file, bytes, hunks);
        }
        loads += load != 0;
        objects += load == 0;
    } else {
        amihunk_contents told;
        CHECK(amihunk_file_get_contents(&file, &told) == AMIHUNK_WRONG_STATE);
        CHECK(amihunk_file_line(&file, "x", NULL, 0) != 0);
        refused++;
    }
    amihunk_file_close(&file);
    CHECK(counted.blocks == 0);
    free(bytes.bytes);
}

static void altered_files_are_read_or_refused(void)
{
    static struct file (*const kinds[])(void) = {
        one_hunk, relocated_zeros, two_hunks, caller_and_definer, load_of_all,   load_of_all,
        caller,   definer,         table,     assembled,          object_of_all, object_of_all};
    seed = 3;
    for (size_t i = 0; i < FILES; i++) {
        look_at(mutated(kinds[i % COUNT(kinds)]()));
    }
    CHECK(refused + objects + loads == FILES);
    CHECK(refused > 2000 && objects > 500 && loads > 500 && loaded > 400);
    CHECK(walked > objects + loads && sum != 0);
}

int main(void)
{
    static const struct test tests[] = {
        TEST(altered_files_are_read_or_refused),
    };
    return run_tests(tests, COUNT(tests));
}

/*
 * Loaders that are made of files that were read: the same hunks as from the bytes, at any bases,
 * whatever becomes of the file.
 */
#include "files.h"
#include "nothing.h"

static const uint32_t bases[] = {0x10000, 0x20000, 0x30000, 0x40000};

static void read_file(amihunk_file *file, amihunk_memory memory, struct file bytes)
{
    CHECK(amihunk_file_open(file, memory) == AMIHUNK_OK);
    CHECK(read_pieces(file, bytes, 0).status == AMIHUNK_OK);
}

/* ------------------------------ These bytes ------------------------------ */

/* The hunks of load_of_all at the bases above. */
static void check_loaded(amihunk_loader *loader)
{
    static const struct {
        const char *bytes;
        uint64_t size;
    } expected[] = {{"\x20\x7C\x00\x01\x00\x00\x4E\xB9\x00\x01\x00\x00\x00\x00\x03\x00\x00\x00\x00"
                     "\x00\x00\x02\x00\x00",
                     24},
                    {"\x68\x79\x6E\x6B\x00\x03\xFF\xFF", 8},
                    {"\0\0\0\0\0\0\0\0\0\0\0\0", 12},
                    {"", 0}};
    CHECK(amihunk_loader_hunk_count(loader) == 4);
    CHECK(amihunk_loader_line(loader, "x", NULL, 0) == 0);
    for (size_t i = 0; i < 4; i++) {
        uint8_t copy[24];
        amihunk_hunk told = {0};
        CHECK(amihunk_loader_get_hunk(loader, i, &told) == AMIHUNK_OK);
        CHECK(told.base == bases[i] && told.size == expected[i].size && told.bytes != NULL);
        CHECK(told.size == expected[i].size &&
              memcmp(told.bytes, expected[i].bytes, told.size) == 0);
        CHECK(amihunk_loader_read(loader, i, 0, copy, 24) == expected[i].size &&
              memcmp(copy, expected[i].bytes, expected[i].size) == 0);
    }
    amihunk_hunk told;
    CHECK(amihunk_loader_get_hunk(loader, 4, &told) == AMIHUNK_OUT_OF_RANGE);
}

/* The file is closed before the loader is used, or after it, or between two loaders of it. */
static void a_file_may_be_closed_before_its_loader(void)
{
    for (int order = 0; order < 2; order++) {
        struct counted of_file = {0}, of_loader = {0};
        struct file bytes = load_of_all();
        amihunk_file file = {0};
        amihunk_loader loader = {0};
        amihunk_answer answer = unwritten();
        read_file(&file, counted_memory(&of_file), bytes);
        memset(bytes.bytes, 0xEE, bytes.size);
        size_t blocks = of_file.blocks;
        CHECK(amihunk_loader_load(&loader, counted_memory(&of_loader), &file, bases, 4, &answer) ==
              AMIHUNK_OK);
        CHECK(same_answer(&answer, &(amihunk_answer){0}));
        CHECK(of_file.blocks == blocks && of_loader.blocks != 0);
        if (order == 0) {
            amihunk_file_close(&file);
            CHECK(of_file.blocks == 0);
            check_loaded(&loader);
        } else {
            check_loaded(&loader);
            amihunk_loader_close(&loader);
            CHECK(of_loader.blocks == 0);
            check_facts(&file, &load_facts);
        }
        amihunk_file_close(&file);
        amihunk_loader_close(&loader);
        CHECK(of_file.blocks == 0 && of_loader.blocks == 0);
        free(bytes.bytes);
    }
}

/* ------------------------------ The same as from the bytes ------------------------------ */

static void check_as_fed(amihunk_file *file, struct file bytes, const uint32_t *at, size_t count)
{
    struct counted counted = {0};
    amihunk_loader loader = {0}, fed = {0};
    amihunk_answer answer = unwritten();
    amihunk_status status =
        amihunk_loader_load(&loader, counted_memory(&counted), file, at, count, &answer);
    CHECK(status == answer.status);
    CHECK(amihunk_loader_open(&fed, amihunk_from_malloc(), at, count) == AMIHUNK_OK);
    amihunk_answer expected = load_pieces(&fed, bytes, 0);
    CHECK(same_answer(&answer, &expected));
    if (status == AMIHUNK_OK) {
        CHECK(amihunk_loader_hunk_count(&loader) == count);
        check_same_hunks(&loader, &fed);
        CHECK(amihunk_loader_feed(&loader, "", 0, NULL) == AMIHUNK_WRONG_STATE);
        CHECK(amihunk_loader_finish(&loader, NULL) == AMIHUNK_WRONG_STATE);
    } else {
        CHECK(memcmp(&loader, &(amihunk_loader){0}, sizeof(loader)) == 0 && counted.blocks == 0);
    }
    amihunk_loader_close(&loader);
    amihunk_loader_close(&fed);
    CHECK(counted.blocks == 0);
}

static void hunks_are_those_of_a_loader_that_is_fed(void)
{
    static const uint32_t at[][4] = {{0x10000, 0x20000, 0x30000, 0x40000},
                                     {0xFFFFFFE8, 0xFFFFFFE0, 0, 0xFFFFFFFF},
                                     {24, 1, 9, 0},
                                     {0, 24, 32, 44},
                                     {0x80000001, 0x7FFFFFF9, 0x7FFFFFED, 0x80000003},
                                     /* The first hunks of these share a byte, or pass the end. */
                                     {0, 15, 100, 200},
                                     {0, 0xFFFFFFFA, 100, 200},
                                     {0xFFFFFFFD, 0, 100, 200},
                                     {0x10000, 0x10018, 0x10019, 0}};
    static struct file (*const makes[])(void) = {load_of_all, one_hunk, two_hunks, relocated_zeros,
                                                 caller_and_definer};
    for (size_t i = 0; i < COUNT(makes); i++) {
        struct file bytes = makes[i]();
        amihunk_file file = {0};
        read_file(&file, amihunk_from_malloc(), bytes);
        for (size_t k = 0; k < COUNT(at); k++) {
            for (size_t count = 0; count <= 4; count++) {
                check_as_fed(&file, bytes, count != 0 ? at[k] : NULL, count);
            }
        }
        amihunk_file_close(&file);
        free(bytes.bytes);
    }
}

static void check_unplaced(amihunk_file *file, const uint32_t *at, size_t count,
                           amihunk_answer expected)
{
    struct counted counted = {0};
    amihunk_loader loader = {0};
    amihunk_answer answer = unwritten();
    CHECK(amihunk_loader_load(&loader, counted_memory(&counted), file, at, count, &answer) ==
          expected.status);
    CHECK(same_answer(&answer, &expected));
    CHECK(amihunk_loader_load(&loader, counted_memory(&counted), file, at, count, NULL) ==
          expected.status);
    CHECK(counted.blocks == 0);
    CHECK(memcmp(&loader, &(amihunk_loader){0}, sizeof(loader)) == 0);
    CHECK(amihunk_loader_load(&loader, counted_memory(&counted), file, bases, 4, NULL) ==
          AMIHUNK_OK);
    check_loaded(&loader);
    amihunk_loader_close(&loader);
    CHECK(counted.blocks == 0);
}

static void other_bases_can_be_tried(void)
{
    static const uint32_t high[] = {0, 100, 0xFFFFFFF5, 0}, close[] = {8, 0x100, 0, 0};
    const amihunk_answer wrong_count = {.status = AMIHUNK_WRONG_COUNT};
    struct file bytes = load_of_all();
    amihunk_file file = {0};
    read_file(&file, amihunk_from_malloc(), bytes);
    check_unplaced(&file, NULL, 0, wrong_count);
    check_unplaced(&file, bases, 3, wrong_count);
    check_unplaced(&file, (const uint32_t[]){0, 100, 200, 300, 400}, 5, wrong_count);
    check_unplaced(&file, high, 4, (amihunk_answer){.status = AMIHUNK_PAST_END, .hunk = 2});
    check_unplaced(&file, close, 4,
                   (amihunk_answer){.status = AMIHUNK_OVERLAP, .hunk = 0, .other = 2});
    check_facts(&file, &load_facts);
    amihunk_file_close(&file);
    free(bytes.bytes);
}

/* ------------------------------ Out of turn ------------------------------ */

static void check_not_loaded_into(amihunk_loader *loader, amihunk_file *file)
{
    struct counted counted = {0};
    amihunk_loader before = *loader;
    amihunk_answer answer = unwritten();
    CHECK(amihunk_loader_load(loader, counted_memory(&counted), file, bases, 4, &answer) ==
          AMIHUNK_WRONG_STATE);
    CHECK(same_answer(&answer, &(amihunk_answer){.status = AMIHUNK_WRONG_STATE}));
    CHECK(memcmp(loader, &before, sizeof(before)) == 0 && counted.blocks == 0);
    check_facts(file, &load_facts);
}

static void only_a_closed_loader_is_loaded(void)
{
    struct file bytes = load_of_all();
    amihunk_file file = {0};
    amihunk_loader loader = {0};
    size_t taken;
    read_file(&file, amihunk_from_malloc(), bytes);
    CHECK(amihunk_loader_open(&loader, amihunk_from_malloc(), bases, 4) == AMIHUNK_OK);
    check_not_loaded_into(&loader, &file);
    CHECK(load_pieces(&loader, bytes, 3).status == AMIHUNK_OK);
    check_not_loaded_into(&loader, &file);
    check_loaded(&loader);
    amihunk_loader_close(&loader);
    CHECK(amihunk_loader_begin(&loader, amihunk_from_malloc()) == AMIHUNK_OK);
    check_not_loaded_into(&loader, &file);
    CHECK(feed_header(&loader, bytes, 0, &taken).status == AMIHUNK_NEEDS_BASES);
    check_not_loaded_into(&loader, &file);
    CHECK(amihunk_loader_finish(&loader, NULL) == AMIHUNK_BAD_FILE);
    check_not_loaded_into(&loader, &file);
    amihunk_loader_close(&loader);
    CHECK(amihunk_loader_load(&loader, amihunk_from_malloc(), &file, bases, 4, NULL) == AMIHUNK_OK);
    check_not_loaded_into(&loader, &file);
    check_loaded(&loader);
    amihunk_loader_close(&loader);
    amihunk_file_close(&file);
    free(bytes.bytes);
}

/* What is wrong with the bases does not matter where nothing can be loaded at all. */
static void only_a_load_file_that_was_read_is_loaded(void)
{
    static const uint32_t close[] = {0, 1};
    struct file bytes = table(), load = two_hunks();
    amihunk_file file = {0};
    amihunk_loader loader = {0};
    for (size_t count = 0; count <= 2; count++) {
        CHECK(amihunk_loader_load(&loader, amihunk_from_malloc(), &file, close, count, NULL) ==
              AMIHUNK_WRONG_STATE);
    }
    read_file(&file, amihunk_from_malloc(), bytes);
    for (size_t count = 0; count <= 2; count++) {
        amihunk_answer answer = unwritten();
        CHECK(amihunk_loader_load(&loader, amihunk_from_malloc(), &file, close, count, &answer) ==
              AMIHUNK_WRONG_STATE);
        CHECK(same_answer(&answer, &(amihunk_answer){.status = AMIHUNK_WRONG_STATE}));
    }
    amihunk_file_close(&file);
    CHECK(amihunk_file_open(&file, amihunk_from_malloc()) == AMIHUNK_OK);
    CHECK(amihunk_file_feed(&file, load.bytes, load.size - 4, NULL) == AMIHUNK_OK);
    CHECK(amihunk_loader_load(&loader, amihunk_from_malloc(), &file, bases, 2, NULL) ==
          AMIHUNK_WRONG_STATE);
    CHECK(amihunk_file_finish(&file, NULL) == AMIHUNK_BAD_FILE);
    CHECK(amihunk_loader_load(&loader, amihunk_from_malloc(), &file, bases, 2, NULL) ==
          AMIHUNK_WRONG_STATE);
    CHECK(memcmp(&loader, &(amihunk_loader){0}, sizeof(loader)) == 0);
    amihunk_file_close(&file);
    free(bytes.bytes);
    free(load.bytes);
}

/* ------------------------------ Memory ------------------------------ */

/* Each allocation of the loader's memory refused, alone and with all that follow it. */
static void each_allocation_is_refused(void)
{
    struct file bytes = load_of_all();
    struct counted of_file = {0};
    amihunk_file file = {0};
    read_file(&file, counted_memory(&of_file), bytes);
    for (int all = 0; all < 2; all++) {
        size_t asked = SIZE_MAX;
        for (size_t n = 1; n <= asked; n++) {
            struct counted counted = {.refused = n, .all = all};
            amihunk_loader loader = {0};
            amihunk_answer answer = unwritten();
            amihunk_status status =
                amihunk_loader_load(&loader, counted_memory(&counted), &file, bases, 4, &answer);
            CHECK(status == (counted.asked < n ? AMIHUNK_OK : AMIHUNK_OUT_OF_MEMORY));
            CHECK(same_answer(&answer, &(amihunk_answer){.status = status}));
            if (status != AMIHUNK_OK) {
                CHECK(memcmp(&loader, &(amihunk_loader){0}, sizeof(loader)) == 0);
                CHECK(counted.blocks == 0);
                counted.refused = 0;
                CHECK(amihunk_loader_load(&loader, counted_memory(&counted), &file, bases, 4,
                                          NULL) == AMIHUNK_OK);
            } else {
                asked = counted.asked;
            }
            check_loaded(&loader);
            amihunk_loader_close(&loader);
            CHECK(counted.blocks == 0);
        }
        CHECK(asked > 1);
    }
    check_facts(&file, &load_facts);
    amihunk_file_close(&file);
    CHECK(of_file.blocks == 0);
    free(bytes.bytes);
}

/* Loaders of one file stand side by side, each at bases of its own. */
static void a_file_is_loaded_more_than_once(void)
{
    struct file bytes = load_of_all();
    struct counted counted = {0};
    amihunk_file file = {0};
    amihunk_loader loaders[8] = {{0}};
    read_file(&file, amihunk_from_malloc(), bytes);
    for (uint32_t i = 0; i < COUNT(loaders); i++) {
        const uint32_t at[] = {bases[0] + i, bases[1] + i, bases[2] + i, bases[3] + i};
        CHECK(amihunk_loader_load(&loaders[i], counted_memory(&counted), &file, i == 0 ? bases : at,
                                  4, NULL) == AMIHUNK_OK);
    }
    amihunk_file_close(&file);
    check_loaded(&loaders[0]);
    for (uint32_t i = 0; i < COUNT(loaders); i++) {
        uint8_t byte = 0;
        CHECK(amihunk_loader_read(&loaders[i], 0, 23, &byte, 1) == 1 && byte == i);
        amihunk_loader_close(&loaders[i]);
    }
    CHECK(counted.blocks == 0);
    free(bytes.bytes);
}

int main(void)
{
    static const struct test tests[] = {
        TEST(a_file_may_be_closed_before_its_loader),
        TEST(hunks_are_those_of_a_loader_that_is_fed),
        TEST(other_bases_can_be_tried),
        TEST(only_a_closed_loader_is_loaded),
        TEST(only_a_load_file_that_was_read_is_loaded),
        TEST(each_allocation_is_refused),
        TEST(a_file_is_loaded_more_than_once),
    };
    return run_tests(tests, COUNT(tests));
}

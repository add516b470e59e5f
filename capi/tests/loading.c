/* Load files at addresses: the exact bytes of each hunk, whatever the pieces. */
#include "files.h"

struct expected {
    uint32_t base;
    const void *bytes;
    size_t size;
};

/* What get_hunk and read tell of a hunk. */
static void check_hunk(amihunk_loader *loader, size_t hunk, const struct expected *expected)
{
    amihunk_hunk told = {0};
    CHECK(amihunk_loader_get_hunk(loader, hunk, &told) == AMIHUNK_OK);
    CHECK(told.base == expected->base);
    CHECK(told.bytes != NULL);
    CHECK(told.size == expected->size && memcmp(told.bytes, expected->bytes, expected->size) == 0);

    uint8_t *copy = some(malloc(expected->size + 8));
    for (size_t offset = 0; offset <= expected->size + 1; offset++) {
        size_t rest = offset < expected->size ? expected->size - offset : 0;
        for (size_t size = 0; size <= expected->size + 1; size++) {
            size_t count = size < rest ? size : rest;
            memset(copy, 0xCC, expected->size + 8);
            CHECK(amihunk_loader_read(loader, hunk, offset, copy, size) == count);
            CHECK(memcmp(copy, (const uint8_t *)expected->bytes + (rest != 0 ? offset : 0),
                         count) == 0);
            for (size_t i = count; i < expected->size + 8; i++) {
                CHECK(copy[i] == 0xCC);
            }
        }
    }
    CHECK(amihunk_loader_read(loader, hunk, UINT64_MAX, copy, 8) == 0);
    free(copy);
}

static void check_loaded(amihunk_loader *loader, const struct expected *expected, size_t count)
{
    CHECK(amihunk_loader_hunk_count(loader) == count);
    for (size_t hunk = 0; hunk < count; hunk++) {
        check_hunk(loader, hunk, &expected[hunk]);
    }
    static const size_t beyond[] = {0, 1, SIZE_MAX};
    for (size_t i = 0; i < COUNT(beyond); i++) {
        size_t hunk = beyond[i] == SIZE_MAX ? SIZE_MAX : count + beyond[i];
        uint8_t byte = 0xCC;
        amihunk_hunk told = {&byte, 7, 7};
        CHECK(amihunk_loader_get_hunk(loader, hunk, &told) == AMIHUNK_OUT_OF_RANGE);
        CHECK(told.bytes == NULL && told.size == 0 && told.base == 0);
        CHECK(amihunk_loader_read(loader, hunk, 0, &byte, 1) == 0);
        CHECK(byte == 0xCC);
    }
}

static void check_load(struct file file, const struct expected *expected, size_t count)
{
    static const size_t pieces[] = {0, 1, 3, 5};
    uint32_t *bases = some(malloc(4 * count));
    for (size_t i = 0; i < count; i++) {
        bases[i] = expected[i].base;
    }
    for (size_t i = 0; i < COUNT(pieces); i++) {
        struct counted counted = {0};
        amihunk_loader loader = {0};
        CHECK(amihunk_loader_open(&loader, counted_memory(&counted), bases, count) == AMIHUNK_OK);
        amihunk_answer answer = load_pieces(&loader, file, pieces[i]);
        CHECK(same_answer(&answer, &(amihunk_answer){0}));
        check_loaded(&loader, expected, count);
        amihunk_loader_close(&loader);
        CHECK(counted.blocks == 0);
    }
    free(bases);
    free(file.bytes);
}

static void a_hunk_is_at_its_base(void)
{
    check_load(one_hunk(), (struct expected[]){{0x10000, "\x4E\x75\x4E\x71", 4}}, 1);
}

static void two_hunks_are_relocated(void)
{
    check_load(two_hunks(),
               (struct expected[]){{0x10000, two_hunks_first, sizeof(two_hunks_first)},
                                   {0x20000, two_hunks_second, sizeof(two_hunks_second)}},
               2);
}

static void linked_hunks_are_relocated(void)
{
    check_load(caller_and_definer(),
               (struct expected[]){{0x10000, "\x4E\xB9\x00\x02\x00\x04\x4E\x75", 8},
                                   {0x20000, "\x4E\x71\x4E\x71\x4E\x75\x4E\x71", 8}},
               2);
}

static void a_base_is_added_in_the_zeros(void)
{
    check_load(
        relocated_zeros(),
        (struct expected[]){{0x10000, "\x4E\x75\x4E\x71\x00\x00\x00\x00\x00\x01\x00\x00", 12}}, 1);
}

static void sums_wrap(void)
{
    check_load(
        LONGWORDS(0x3F3, 0, 1, 0, 0, 2, 0x3EA, 2, 0x00FFFFFF, 0xFF000000, 0x3EC, 1, 0, 1, 0, 0x3F2),
        (struct expected[]){{0x10001, "\x00\x00\x01\x00\x00\x00\x00\x00", 8}}, 1);
}

static void upper_bits_of_types_and_sizes_are_ignored(void)
{
    check_load(with(one_hunk(), 7, 0xC0000001),
               (struct expected[]){{0x10000, "\x4E\x75\x4E\x71", 4}}, 1);
    check_load(with(one_hunk(), 6, 0xC00003E9),
               (struct expected[]){{0x10000, "\x4E\x75\x4E\x71", 4}}, 1);
}

static void empty_hunks_have_a_base_and_no_bytes(void)
{
    check_load(LONGWORDS(0x3F3, 0, 2, 0, 1, 0, 1, 0x3E9, 0, 0x3F2, 0x3EB, 1, 0x3F2),
               (struct expected[]){{0xFFFFFFFF, "", 0}, {0xFFFFFFFC, "\0\0\0\0", 4}}, 2);
}

static void the_most_hunks_are_loaded(void)
{
    enum { HUNKS = 65535 };
    uint32_t *bases = some(malloc(4 * HUNKS));
    for (size_t i = 0; i < HUNKS; i++) {
        bases[i] = (uint32_t)(4 * i);
    }
    struct file file = zero_hunks(HUNKS);
    amihunk_loader loader = {0};
    CHECK(amihunk_loader_open(&loader, amihunk_from_malloc(), bases, HUNKS) == AMIHUNK_OK);
    CHECK(load_pieces(&loader, file, 1000).status == AMIHUNK_OK);
    CHECK(amihunk_loader_hunk_count(&loader) == HUNKS);
    amihunk_hunk told;
    CHECK(amihunk_loader_get_hunk(&loader, HUNKS - 1, &told) == AMIHUNK_OK);
    CHECK(told.base == 4 * (HUNKS - 1) && told.size == 4 && memcmp(told.bytes, "\0\0\0\0", 4) == 0);
    amihunk_loader_close(&loader);
    free(file.bytes);
    free(bases);
}

static void pointers_hold_until_the_loader_is_closed(void)
{
    static const uint32_t bases[] = {0x10000, 0x20000};
    struct file file = two_hunks();
    amihunk_loader loader = {0}, other = {0};
    CHECK(amihunk_loader_open(&loader, amihunk_from_malloc(), bases, 2) == AMIHUNK_OK);
    CHECK(load_pieces(&loader, file, 0).status == AMIHUNK_OK);
    amihunk_hunk first, second, again;
    CHECK(amihunk_loader_get_hunk(&loader, 0, &first) == AMIHUNK_OK);
    CHECK(amihunk_loader_get_hunk(&loader, 1, &second) == AMIHUNK_OK);
    CHECK(amihunk_loader_open(&other, amihunk_from_malloc(), bases, 2) == AMIHUNK_OK);
    CHECK(load_pieces(&other, file, 3).status == AMIHUNK_OK);
    amihunk_loader_close(&other);
    amihunk_loader moved = loader;
    memset(&loader, 0, sizeof(loader));
    CHECK(amihunk_loader_get_hunk(&moved, 0, &again) == AMIHUNK_OK && again.bytes == first.bytes);
    CHECK(memcmp(first.bytes, two_hunks_first, sizeof(two_hunks_first)) == 0);
    CHECK(memcmp(second.bytes, two_hunks_second, sizeof(two_hunks_second)) == 0);
    amihunk_loader_close(&moved);
    free(file.bytes);
}

int main(void)
{
    static const struct test tests[] = {
        TEST(a_hunk_is_at_its_base),
        TEST(two_hunks_are_relocated),
        TEST(linked_hunks_are_relocated),
        TEST(a_base_is_added_in_the_zeros),
        TEST(sums_wrap),
        TEST(upper_bits_of_types_and_sizes_are_ignored),
        TEST(empty_hunks_have_a_base_and_no_bytes),
        TEST(the_most_hunks_are_loaded),
        TEST(pointers_hold_until_the_loader_is_closed),
    };
    return run_tests(tests, COUNT(tests));
}

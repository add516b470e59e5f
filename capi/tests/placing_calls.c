/*
 * Placing hunks in memory of the caller: places that are refused and tried again, calls out of
 * turn, files that are refused later, closing at any time, and what memory the loader itself takes.
 */
#include "placed.h"

static const uint32_t bases[] = {0x10000, 0x20000};
static const uint32_t sizes[] = {4, 2}; /* of two_hunks */

/* The bytes of the header of two_hunks. */
enum { HEADER = FRONT + 4 * 2 };

/* Begins a loader, and feeds it the header of two_hunks. */
static void begin_two_hunks(amihunk_loader *loader, amihunk_memory memory, struct file file)
{
    size_t taken;
    CHECK(amihunk_loader_begin(loader, memory) == AMIHUNK_OK);
    CHECK(feed_header(loader, file, 0, &taken).status == AMIHUNK_NEEDS_BASES && taken == HEADER);
}

static void check_two_hunks(amihunk_loader *loader, const struct rooms *rooms)
{
    check_in_rooms(loader, rooms);
    CHECK(memcmp(rooms->places[0].bytes, two_hunks_first, 16) == 0);
    CHECK(memcmp(rooms->places[1].bytes, two_hunks_second, 8) == 0);
}

/* ------------------------------ Places that are refused ------------------------------ */

/* The places are refused so, the loader is as it was, and the rooms are the caller's again. */
static void check_refused(amihunk_loader *loader, struct rooms *rooms, uint32_t first,
                          uint32_t second, size_t count, amihunk_answer expected)
{
    amihunk_loader before = *loader;
    amihunk_answer answer = unwritten();
    amihunk_table told;
    rooms->places[0].base = first;
    rooms->places[1].base = second;
    CHECK(amihunk_loader_place_into(loader, count != 0 ? rooms->places : NULL, count, &answer) ==
          expected.status);
    CHECK(same_answer(&answer, &expected));
    CHECK(amihunk_loader_place_into(loader, count != 0 ? rooms->places : NULL, count, NULL) ==
          expected.status);
    CHECK(memcmp(loader, &before, sizeof(before)) == 0);
    CHECK(amihunk_loader_line(loader, "x", NULL, 0) == 0);
    CHECK(amihunk_loader_table(loader, 1, &told) == AMIHUNK_OK && told.size == sizes[1]);
    check_guards(rooms);
    fill_rooms(rooms);
}

static void other_places_can_be_tried(void)
{
    const amihunk_answer wrong_count = {.status = AMIHUNK_WRONG_COUNT};
    struct file file = two_hunks();
    for (int into = 0; into < 2; into++) {
        struct counted counted = {0};
        struct rooms rooms = make_rooms(bases, sizes, 2);
        amihunk_loader loader = {0};
        begin_two_hunks(&loader, counted_memory(&counted), file);
        check_refused(&loader, &rooms, 0, 16, 0, wrong_count);
        check_refused(&loader, &rooms, 0, 16, 1, wrong_count);
        check_refused(&loader, &rooms, 0, 16, MOST_ROOMS, wrong_count);
        check_refused(&loader, &rooms, 0, 0xFFFFFFF9, 2,
                      (amihunk_answer){.status = AMIHUNK_PAST_END, .hunk = 1});
        check_refused(&loader, &rooms, 0x10007, 0x10000, 2,
                      (amihunk_answer){.status = AMIHUNK_OVERLAP, .hunk = 0, .other = 1});
        rooms.places[0].base = bases[0];
        rooms.places[1].base = bases[1];
        CHECK((into ? amihunk_loader_place_into(&loader, rooms.places, 2, NULL)
                    : amihunk_loader_place(&loader, bases, 2, NULL)) == AMIHUNK_OK);
        CHECK(load_pieces(&loader, rest_of(file, HEADER), 0).status == AMIHUNK_OK);
        uint8_t bytes[16];
        CHECK(amihunk_loader_read(&loader, 0, 0, bytes, 16) == 16);
        CHECK(memcmp(bytes, two_hunks_first, 16) == 0);
        if (into) {
            check_two_hunks(&loader, &rooms);
        }
        amihunk_loader_close(&loader);
        CHECK(counted.blocks == 0);
        free_rooms(&rooms);
    }
    free(file.bytes);
}

/* ------------------------------ Calls out of turn ------------------------------ */

/* No places are taken, in this state; and nothing is written to them. */
static void check_takes_none(amihunk_loader *loader, amihunk_status status)
{
    struct rooms rooms = make_rooms(bases, sizes, 2);
    amihunk_loader before = *loader;
    amihunk_answer answer = unwritten();
    CHECK(amihunk_loader_place_into(loader, rooms.places, 2, &answer) == status);
    CHECK(answer.status == status);
    CHECK(status != AMIHUNK_WRONG_STATE ||
          same_answer(&answer, &(amihunk_answer){.status = AMIHUNK_WRONG_STATE}));
    CHECK(amihunk_loader_place_into(loader, NULL, 0, NULL) == status);
    CHECK(memcmp(loader, &before, sizeof(before)) == 0);
    for (size_t i = 0; status == AMIHUNK_WRONG_STATE && i < rooms.sizes[0]; i++) {
        CHECK(((uint8_t *)rooms.places[0].bytes)[i] == FORGOTTEN);
    }
    free_rooms(&rooms);
}

static void only_a_loader_with_a_header_takes_places(void)
{
    struct file file = two_hunks();
    struct rooms rooms = make_rooms(bases, sizes, 2);
    amihunk_loader loader = {0};
    size_t taken;
    check_takes_none(&loader, AMIHUNK_WRONG_STATE);
    CHECK(amihunk_loader_open(&loader, amihunk_from_malloc(), bases, 2) == AMIHUNK_OK);
    check_takes_none(&loader, AMIHUNK_WRONG_STATE);
    CHECK(load_pieces(&loader, file, 0).status == AMIHUNK_OK);
    check_takes_none(&loader, AMIHUNK_WRONG_STATE);
    amihunk_loader_close(&loader);
    check_takes_none(&loader, AMIHUNK_WRONG_STATE);
    CHECK(amihunk_loader_begin(&loader, amihunk_from_malloc()) == AMIHUNK_OK);
    for (size_t i = 0; i < HEADER; i++) {
        check_takes_none(&loader, AMIHUNK_WRONG_STATE);
        amihunk_loader_feed_header(&loader, file.bytes + i, 1, &taken, NULL);
    }
    CHECK(amihunk_loader_place_into(&loader, rooms.places, 2, NULL) == AMIHUNK_OK);
    for (size_t i = HEADER; i < file.size; i++) {
        check_takes_none(&loader, AMIHUNK_WRONG_STATE);
        CHECK(amihunk_loader_place(&loader, bases, 2, NULL) == AMIHUNK_WRONG_STATE);
        CHECK(amihunk_loader_feed(&loader, file.bytes + i, 1, NULL) == AMIHUNK_OK);
    }
    CHECK(amihunk_loader_finish(&loader, NULL) == AMIHUNK_OK);
    check_takes_none(&loader, AMIHUNK_WRONG_STATE);
    check_two_hunks(&loader, &rooms);
    amihunk_loader_close(&loader);
    free_rooms(&rooms);
    free(file.bytes);
}

static void a_refused_loader_refuses_places_as_before(void)
{
    struct file file = two_hunks();
    amihunk_loader loader = {0};
    size_t taken;
    CHECK(amihunk_loader_begin(&loader, amihunk_from_malloc()) == AMIHUNK_OK);
    CHECK(amihunk_loader_feed_header(&loader, "\0\0\3\xE7", 4, &taken, NULL) == AMIHUNK_BAD_FILE);
    check_takes_none(&loader, AMIHUNK_BAD_FILE);
    amihunk_loader_close(&loader);
    struct rooms rooms = make_rooms(bases, sizes, 2);
    begin_two_hunks(&loader, amihunk_from_malloc(), file);
    CHECK(amihunk_loader_place_into(&loader, rooms.places, 2, NULL) == AMIHUNK_OK);
    CHECK(amihunk_loader_finish(&loader, NULL) == AMIHUNK_BAD_FILE);
    check_takes_none(&loader, AMIHUNK_BAD_FILE);
    amihunk_loader_close(&loader);
    free_rooms(&rooms);
    free(file.bytes);
}

/* ------------------------------ Refused later, and closed ------------------------------ */

/* The file is refused at each longword after the header; the rooms then serve another loader. */
static void rooms_of_a_refused_file_are_used_again(void)
{
    struct file file = two_hunks();
    struct rooms rooms = make_rooms(bases, sizes, 2);
    for (size_t place = HEADER / 4; place <= file.size / 4; place++) {
        struct counted counted = {0};
        struct file bad = joined(file_of_bytes(file.bytes, file.size), 4 * place,
                                 LONGWORDS(0x3FF, 0x3FF, UINT32_MAX, UINT32_MAX, UINT32_MAX));
        amihunk_loader loader = {0}, second = {0};
        begin_two_hunks(&loader, counted_memory(&counted), bad);
        CHECK(amihunk_loader_place_into(&loader, rooms.places, 2, NULL) == AMIHUNK_OK);
        amihunk_answer answer = load_pieces(&loader, rest_of(bad, HEADER), 1 + place % 7);
        CHECK(answer.status == AMIHUNK_BAD_FILE && answer.place >= place);
        CHECK(amihunk_loader_hunk_count(&loader) == 0);
        check_guards(&rooms);
        amihunk_loader_close(&loader);
        CHECK(counted.blocks == 0);
        fill_rooms(&rooms);
        begin_two_hunks(&second, counted_memory(&counted), file);
        CHECK(amihunk_loader_place_into(&second, rooms.places, 2, NULL) == AMIHUNK_OK);
        CHECK(load_pieces(&second, rest_of(file, HEADER), 1 + place % 7).status == AMIHUNK_OK);
        check_two_hunks(&second, &rooms);
        amihunk_loader_close(&second);
        CHECK(counted.blocks == 0);
        free(bad.bytes);
    }
    free_rooms(&rooms);
    free(file.bytes);
}

static void a_loader_may_be_closed_at_any_time(void)
{
    struct file file = two_hunks();
    for (size_t size = 0; size <= file.size + 1; size++) {
        struct counted counted = {0};
        struct rooms rooms = make_rooms(bases, sizes, 2);
        amihunk_loader loaders[2] = {{0}}, *loader = &loaders[0];
        CHECK(amihunk_loader_begin(loader, counted_memory(&counted)) == AMIHUNK_OK);
        for (size_t i = 0, taken; i < size && i < file.size; i++) {
            if (i < HEADER) {
                amihunk_loader_feed_header(loader, file.bytes + i, 1, &taken, NULL);
            } else if (i > HEADER ||
                       amihunk_loader_place_into(loader, rooms.places, 2, NULL) == 0) {
                CHECK(amihunk_loader_feed(loader, file.bytes + i, 1, NULL) == AMIHUNK_OK);
            }
            /* It may be moved between two calls. */
            loaders[(i + 1) % 2] = *loader;
            memset(loader, 0, sizeof(*loader));
            loader = &loaders[(i + 1) % 2];
        }
        if (size > file.size) {
            CHECK(amihunk_loader_finish(loader, NULL) == AMIHUNK_OK);
            check_two_hunks(loader, &rooms);
        }
        CHECK(counted.blocks != 0);
        amihunk_loader_close(loader);
        CHECK(counted.blocks == 0);
        CHECK(memcmp(loader, &(amihunk_loader){0}, sizeof(*loader)) == 0);
        fill_rooms(&rooms);
        amihunk_loader_close(loader);
        free_rooms(&rooms);
    }
    free(file.bytes);
}

/* ------------------------------ Its own memory ------------------------------ */

/* Loads two_hunks; places that were refused for lack of memory are tried once more if `again`. */
static amihunk_status load_two_hunks(amihunk_loader *loader, amihunk_memory memory,
                                     struct rooms *rooms, struct file file, size_t piece, int again)
{
    size_t taken;
    amihunk_status status = amihunk_loader_begin(loader, memory);
    if (status != AMIHUNK_OK) {
        CHECK(loader->session == NULL);
        return status;
    }
    status = (amihunk_status)feed_header(loader, file, piece, &taken).status;
    if (status != AMIHUNK_NEEDS_BASES) {
        return status;
    }
    status = amihunk_loader_place_into(loader, rooms->places, 2, NULL);
    if (status != AMIHUNK_OK && again) {
        fill_rooms(rooms);
        status = amihunk_loader_place_into(loader, rooms->places, 2, NULL);
    }
    return status == AMIHUNK_OK
               ? (amihunk_status)load_pieces(loader, rest_of(file, taken), piece).status
               : status;
}

/* With the first and second hunk in a room, or in memory of the loader. */
static void refuse_each(size_t piece, int all, int again, int first, int second)
{
    size_t asked = SIZE_MAX, loaded = 0;
    struct file file = two_hunks();
    for (size_t n = 1; n <= asked; n++) {
        struct counted counted = {.refused = n, .all = all};
        struct rooms rooms = make_rooms(bases, sizes, 2);
        struct rooms given = rooms;
        amihunk_loader loader = {0};
        given.places[0].bytes = first ? given.places[0].bytes : NULL;
        given.places[1].bytes = second ? given.places[1].bytes : NULL;
        given.sizes[0] = first ? given.sizes[0] : 0;
        given.sizes[1] = second ? given.sizes[1] : 0;
        amihunk_status status =
            load_two_hunks(&loader, counted_memory(&counted), &given, file, piece, again);
        CHECK(status == AMIHUNK_OK || status == AMIHUNK_OUT_OF_MEMORY);
        CHECK(status == AMIHUNK_OUT_OF_MEMORY || counted.asked < n || again);
        loaded += status == AMIHUNK_OK;
        asked = counted.asked < n ? counted.asked : asked;
        if (status == AMIHUNK_OK) {
            uint8_t bytes[16];
            CHECK(amihunk_loader_read(&loader, 0, 0, bytes, 16) == 16 &&
                  memcmp(bytes, two_hunks_first, 16) == 0);
            CHECK(amihunk_loader_read(&loader, 1, 0, bytes, 16) == 8 &&
                  memcmp(bytes, two_hunks_second, 8) == 0);
        }
        amihunk_loader_close(&loader);
        CHECK(counted.blocks == 0);
        free_rooms(&rooms);
    }
    CHECK(again && !all ? loaded > 1 : loaded == 1);
    free(file.bytes);
}

static void each_allocation_is_refused(void)
{
    static const size_t pieces[] = {0, 1, 3, 5};
    for (size_t i = 0; i < COUNT(pieces); i++) {
        for (unsigned how = 0; how < 16; how++) {
            refuse_each(pieces[i], how & 1, how >> 1 & 1, how >> 2 & 1, how >> 3 & 1);
        }
    }
}

/*
 * A file of two hunks of `longwords` longwords: content that counts up from 1, and zeros. If there
 * are sites, the base of the other hunk is added to the last longword of each.
 */
static struct file large_hunks(uint32_t longwords, int sites)
{
    uint32_t last = 4 * (longwords - 1);
    const uint32_t front[] = {0x3F3, 0, 2, 0, 1, longwords, longwords, 0x3EA, longwords};
    const uint32_t first[] = {0x3EC, 1, 1, last, 0}, second[] = {0x3EC, 1, 0, last, 0};
    const uint32_t between[] = {0x3F2, 0x3EB, longwords};
    uint32_t *all = some(malloc(4 * ((size_t)longwords + 32))), *next = all;
    memcpy(next, front, sizeof(front));
    next += COUNT(front);
    for (uint32_t i = 0; i < longwords; i++) {
        *next++ = i + 1;
    }
    memcpy(next, first, sizeof(first));
    next += sites ? COUNT(first) : 0;
    memcpy(next, between, sizeof(between));
    next += COUNT(between);
    memcpy(next, second, sizeof(second));
    next += sites ? COUNT(second) : 0;
    *next++ = 0x3F2;
    struct file file = file_of(all, (size_t)(next - all));
    free(all);
    return file;
}

/* Loads such a file at 0 and 80000000 into rooms, and frees it. */
static void load_large(amihunk_memory memory, uint32_t longwords, int sites, size_t piece)
{
    static const uint32_t at[] = {0, 0x80000000};
    struct file file = large_hunks(longwords, sites);
    struct rooms rooms = make_rooms(at, (const uint32_t[]){longwords, longwords}, 2);
    amihunk_loader loader = {0};
    begin_two_hunks(&loader, memory, file);
    CHECK(amihunk_loader_place_into(&loader, rooms.places, 2, NULL) == AMIHUNK_OK);
    CHECK(load_pieces(&loader, rest_of(file, HEADER), piece).status == AMIHUNK_OK);
    check_in_rooms(&loader, &rooms);
    size_t wrong = 0;
    for (uint32_t i = 0; i < longwords; i++) {
        uint32_t first = i + 1 + (sites && i + 1 == longwords ? at[1] : 0);
        wrong += longword_at((uint8_t *)rooms.places[0].bytes + 4 * (size_t)i) != first;
        wrong += longword_at((uint8_t *)rooms.places[1].bytes + 4 * (size_t)i) != 0;
    }
    CHECK(wrong == 0);
    amihunk_loader_close(&loader);
    free_rooms(&rooms);
    free(file.bytes);
}

/* What relocations take at most beside 64 bytes for each 4 KiB of the hunk, if there is one. */
#define ONE_RELOCATION 256

/*
 * With hunks of 4 MiB it takes the memory that it takes with hunks of a few bytes; but for their
 * relocations, while the hunk is read, and that is little, wherever they are.
 */
static void no_memory_is_taken_for_what_is_in_a_room(void)
{
    static const size_t pieces[] = {0, 1000, 65536};
    for (size_t i = 0; i < COUNT(pieces); i++) {
        struct counted small = {0}, large = {0}, relocated = {0};
        load_large(counted_memory(&small), 1, 0, pieces[i]);
        load_large(counted_memory(&large), 1 << 20, 0, pieces[i]);
        load_large(counted_memory(&relocated), 1 << 20, 1, pieces[i]);
        CHECK(small.blocks == 0 && large.blocks == 0 && relocated.blocks == 0);
        CHECK(large.bytes == small.bytes && large.asked == small.asked);
        CHECK(large.bytes < 4096);
        CHECK(relocated.bytes <= large.bytes + 2 * (64 * 1024 + ONE_RELOCATION));
    }
}

static void a_small_buffer_is_enough_for_large_hunks(void)
{
    static uint8_t buffer[64 * 1024 + 4096];
    load_large(amihunk_in_buffer(buffer, 2048), 1 << 20, 0, 65536);
    load_large(amihunk_in_buffer(buffer, sizeof(buffer)), 1 << 20, 1, 65536);
}

static void blocks_need_not_be_resized(void)
{
    struct counted counted = {0};
    amihunk_memory memory = counted_memory(&counted);
    memory.resize = NULL;
    load_large(memory, 1000, 1, 1);
    CHECK(counted.asked != 0 && counted.blocks == 0);
}

int main(void)
{
    static const struct test tests[] = {
        TEST(other_places_can_be_tried),
        TEST(only_a_loader_with_a_header_takes_places),
        TEST(a_refused_loader_refuses_places_as_before),
        TEST(rooms_of_a_refused_file_are_used_again),
        TEST(a_loader_may_be_closed_at_any_time),
        TEST(each_allocation_is_refused),
        TEST(no_memory_is_taken_for_what_is_in_a_room),
        TEST(a_small_buffer_is_enough_for_large_hunks),
        TEST(blocks_need_not_be_resized),
    };
    return run_tests(tests, COUNT(tests));
}

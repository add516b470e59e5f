/*
 * Load files whose hunks are made in memory of the caller: the same bytes and the same refusals as
 * in memory of the loader, there and nowhere else, whatever the pieces.
 */
#include "placed.h"

static const uint32_t bases[] = {0x10000, 0x20000};
static const size_t pieces[] = {0, 1, 3, 5};

/* ------------------------------ The same as elsewhere ------------------------------ */

/*
 * In any pieces, the file is loaded into rooms or refused as by a loader that was opened with these
 * bases; and none of the rooms is taken for a block of the loader's memory.
 */
static void check_as_opened(struct file file, const uint32_t *at, size_t count)
{
    for (size_t i = 0; i < COUNT(pieces); i++) {
        struct counted counted = {0};
        struct rooms rooms;
        amihunk_loader opened = {0}, placed = {0};
        CHECK(amihunk_loader_open(&opened, amihunk_from_malloc(), at, count) == AMIHUNK_OK);
        CHECK(amihunk_loader_begin(&placed, counted_memory(&counted)) == AMIHUNK_OK);
        amihunk_answer expected = load_pieces(&opened, file, pieces[i]);
        amihunk_answer answer = load_into_rooms(&placed, file, pieces[i], at, count, &rooms);
        CHECK(same_answer(&answer, &expected));
        check_same_hunks(&opened, &placed);
        if (answer.status == AMIHUNK_OK) {
            check_in_rooms(&placed, &rooms);
        }
        amihunk_loader_close(&opened);
        amihunk_loader_close(&placed);
        CHECK(counted.blocks == 0);
        free_rooms(&rooms);
    }
    free(file.bytes);
}

static struct file zeros_after_nothing(void)
{
    return LONGWORDS(0x3F3, 0, 2, 0, 1, 0, 1, 0x3E9, 0, 0x3F2, 0x3EB, 1, 0x3F2);
}

static void files_are_loaded_as_into_memory_of_the_loader(void)
{
    check_as_opened(one_hunk(), bases, 1);
    check_as_opened(two_hunks(), bases, 2);
    check_as_opened(caller_and_definer(), bases, 2);
    check_as_opened(relocated_zeros(), bases, 1);
    check_as_opened(with(one_hunk(), 0, 0xC00003F3), bases, 1);
    check_as_opened(with(one_hunk(), 7, 0xC0000001), bases, 1);
    check_as_opened(zeros_after_nothing(), (const uint32_t[]){0xFFFFFFFF, 0xFFFFFFFC}, 2);
    check_as_opened(caller(), bases, 1);
    check_as_opened(assembled(), bases, 1);
}

static void files_that_end_anywhere_are_refused_the_same(void)
{
    struct file file = two_hunks();
    for (size_t size = 0; size < file.size; size++) {
        check_as_opened(file_of_bytes(file.bytes, size), bases, 2);
    }
    free(file.bytes);
}

static void other_longwords_are_refused_the_same(void)
{
    static const uint32_t longwords[] = {0, 3, 0x3E7, 0x3F2, 0xC0000001, UINT32_MAX};
    struct file file = two_hunks();
    for (size_t place = 0; place < file.size / 4; place++) {
        for (size_t i = 0; i < COUNT(longwords); i++) {
            struct file copy = file_of_bytes(file.bytes, file.size);
            check_as_opened(with(copy, place, longwords[i]), bases, 2);
        }
    }
    free(file.bytes);
}

/* ------------------------------ These bytes ------------------------------ */

/* Loads a file into the rooms, and forgets what is left of it. */
static void load_there(amihunk_loader *loader, amihunk_memory memory, struct file file,
                       const amihunk_place *places, size_t count, size_t most)
{
    size_t taken;
    CHECK(amihunk_loader_begin(loader, memory) == AMIHUNK_OK);
    CHECK(feed_header(loader, file, most, &taken).status == AMIHUNK_NEEDS_BASES);
    CHECK(taken == FRONT + 4 * count);
    amihunk_answer answer = unwritten();
    CHECK(amihunk_loader_place_into(loader, places, count, &answer) == AMIHUNK_OK);
    CHECK(same_answer(&answer, &(amihunk_answer){0}));
    answer = load_pieces(loader, rest_of(file, taken), most);
    CHECK(same_answer(&answer, &(amihunk_answer){0}));
}

static void the_bytes_are_in_the_rooms(void)
{
    struct file file = two_hunks();
    for (size_t i = 0; i < COUNT(pieces); i++) {
        struct counted counted = {0};
        struct rooms rooms = make_rooms(bases, (const uint32_t[]){4, 2}, 2);
        amihunk_loader loader = {0};
        load_there(&loader, counted_memory(&counted), file, rooms.places, 2, pieces[i]);
        check_in_rooms(&loader, &rooms);
        for (int closed = 0; closed < 2; closed++) {
            CHECK(memcmp(rooms.places[0].bytes, two_hunks_first, 16) == 0);
            CHECK(memcmp(rooms.places[1].bytes, two_hunks_second, 8) == 0);
            amihunk_loader_close(&loader);
        }
        CHECK(counted.blocks == 0);
        free_rooms(&rooms);
    }
    free(file.bytes);
}

/* One memory, in which the second hunk ends where the first begins. */
static void hunks_stand_in_one_memory_in_descending_order(void)
{
    static const uint32_t at[] = {0x10009, 0x10001};
    /* Bases of 00010009 (of hunk 0) and 00010001 (of hunk 1) are added. */
    static const uint8_t expected[] = {'h',  'u',  'n',  'k',  0,    0,    0,    0,
                                       0x20, 0x7C, 0x00, 0x01, 0x00, 0x01, 0x4E, 0xB9,
                                       0x00, 0x01, 0x00, 0x17, 0x4E, 0x75, 0x4E, 0x75};
    struct file file = two_hunks();
    for (size_t i = 0; i < COUNT(pieces); i++) {
        uint8_t memory[64];
        memset(memory, GUARDED, sizeof(memory));
        const amihunk_place places[] = {{memory + 9, at[0]}, {memory + 1, at[1]}};
        amihunk_loader loader = {0};
        load_there(&loader, amihunk_from_malloc(), file, places, 2, pieces[i]);
        CHECK(memcmp(memory + 1, expected, sizeof(expected)) == 0);
        for (size_t k = 0; k < sizeof(memory); k++) {
            CHECK((k >= 1 && k < 1 + sizeof(expected)) || memory[k] == GUARDED);
        }
        amihunk_loader_close(&loader);
        CHECK(memcmp(memory + 1, expected, sizeof(expected)) == 0);
    }
    free(file.bytes);
}

/* Each hunk in a room or in memory of the loader, in each combination. */
static void a_hunk_without_a_room_is_in_memory_of_the_loader(void)
{
    struct file file = two_hunks();
    for (size_t mask = 0; mask < 4; mask++) {
        struct counted counted = {0};
        struct rooms rooms = make_rooms(bases, (const uint32_t[]){4, 2}, 2);
        amihunk_place places[] = {rooms.places[0], rooms.places[1]};
        amihunk_loader loader = {0};
        for (size_t i = 0; i < 2; i++) {
            places[i].bytes = mask >> i & 1 ? places[i].bytes : NULL;
        }
        load_there(&loader, counted_memory(&counted), file, places, 2, 3);
        amihunk_hunk told[2];
        for (size_t i = 0; i < 2; i++) {
            uint8_t bytes[16];
            CHECK(amihunk_loader_get_hunk(&loader, i, &told[i]) == AMIHUNK_OK);
            CHECK((told[i].bytes == rooms.places[i].bytes) == (places[i].bytes != NULL));
            CHECK(told[i].base == bases[i] && told[i].size == rooms.sizes[i]);
            CHECK(amihunk_loader_read(&loader, i, 0, bytes, 16) == told[i].size);
            CHECK(memcmp(bytes, told[i].bytes, told[i].size) == 0);
        }
        CHECK(memcmp(told[0].bytes, two_hunks_first, 16) == 0);
        CHECK(memcmp(told[1].bytes, two_hunks_second, 8) == 0);
        amihunk_loader_close(&loader);
        CHECK(counted.blocks == 0);
        free_rooms(&rooms);
    }
    free(file.bytes);
}

static void a_hunk_of_no_longwords_needs_no_room(void)
{
    struct file file = zeros_after_nothing();
    for (int given = 0; given < 2; given++) {
        uint8_t empty = GUARDED, room[6] = {GUARDED, 1, 2, 3, 4, GUARDED};
        const amihunk_place places[] = {{given ? &empty : NULL, 0x10002}, {room + 1, 0x10000}};
        amihunk_loader loader = {0};
        load_there(&loader, amihunk_from_malloc(), file, places, 2, 1);
        amihunk_hunk told;
        CHECK(amihunk_loader_get_hunk(&loader, 0, &told) == AMIHUNK_OK);
        CHECK(told.bytes != NULL && told.size == 0 && told.base == 0x10002);
        CHECK(amihunk_loader_get_hunk(&loader, 1, &told) == AMIHUNK_OK);
        CHECK(told.bytes == room + 1 && told.size == 4 && told.base == 0x10000);
        CHECK(memcmp(room, "\xC7\0\0\0\0\xC7", 6) == 0 && empty == GUARDED);
        amihunk_loader_close(&loader);
    }
    free(file.bytes);
}

/* ------------------------------ Many hunks ------------------------------ */

enum { MANY = 1000 };

static uint64_t seed;

/* A number below `most`. */
static size_t dice(size_t most)
{
    seed = seed * 6364136223846793005u + 1442695040888963407u;
    return (size_t)(seed >> 33) % most;
}

/* The numbers below MANY, in any order. */
static void shuffle(size_t *order)
{
    for (size_t i = 0; i < MANY; i++) {
        size_t other = dice(i + 1);
        order[i] = order[other];
        order[other] = i;
    }
}

/*
 * A file of 1,000 hunks of 0 to 7 longwords: the first, if there is one, is the number of the hunk,
 * and the base of the next hunk is added to it.
 */
static struct file many_hunks(const uint32_t *sizes)
{
    uint32_t *longwords = some(malloc(4 * (5 + 10 * MANY))), *next = longwords;
    const uint32_t header[] = {0x3F3, 0, MANY, 0, MANY - 1};
    memcpy(next, header, sizeof(header));
    next += 5;
    memcpy(next, sizes, 4 * MANY);
    next += MANY;
    for (uint32_t i = 0; i < MANY; i++) {
        const uint32_t full[] = {0x3EA, 1, i, 0x3EC, 1, (i + 1) % MANY, 0, 0, 0x3F2};
        const uint32_t empty[] = {0x3EB, 0, 0x3F2};
        size_t count = sizes[i] != 0 ? COUNT(full) : COUNT(empty);
        memcpy(next, sizes[i] != 0 ? full : empty, 4 * count);
        next += count;
    }
    struct file file = file_of(longwords, (size_t)(next - longwords));
    free(longwords);
    return file;
}

/* Puts the hunks one after another into a memory, in any order, with bases in any other order. */
static size_t choose_places(amihunk_place *places, const uint32_t *sizes, uint8_t *memory)
{
    size_t order[MANY], used = 1;
    uint32_t base = 0x1000;
    shuffle(order);
    for (size_t i = 0; i < MANY; i++) {
        size_t hunk = order[i];
        places[hunk].bytes = sizes[hunk] != 0 && dice(10) != 0 ? memory + used : NULL;
        used += places[hunk].bytes != NULL ? 4 * sizes[hunk] + dice(2) : 0;
    }
    shuffle(order);
    for (size_t i = 0; i < MANY; i++) {
        places[order[i]].base = base;
        base += 4 * sizes[order[i]] + (uint32_t)dice(3);
    }
    return used;
}

static void check_many(amihunk_loader *loader, const uint32_t *sizes, const amihunk_place *places)
{
    static const uint8_t zeros[28];
    CHECK(amihunk_loader_hunk_count(loader) == MANY);
    for (size_t i = 0; i < MANY; i++) {
        uint32_t sum = (uint32_t)i + places[(i + 1) % MANY].base;
        amihunk_hunk told = {0};
        CHECK(amihunk_loader_get_hunk(loader, i, &told) == AMIHUNK_OK);
        CHECK(told.bytes != NULL);
        CHECK(places[i].bytes == NULL || told.bytes == places[i].bytes);
        CHECK(told.base == places[i].base && told.size == 4 * sizes[i]);
        if (told.size == 4 * sizes[i] && told.size != 0) {
            CHECK(longword_at(told.bytes) == sum);
            CHECK(memcmp(told.bytes + 4, zeros, told.size - 4) == 0);
        }
    }
}

static void many_hunks_stand_in_any_order(void)
{
    static uint8_t memory[MANY * 29 + 2];
    uint32_t sizes[MANY];
    amihunk_place places[MANY];
    seed = 1;
    for (int round = 0; round < 4; round++) {
        struct counted counted = {0};
        amihunk_loader loader = {0};
        for (size_t i = 0; i < MANY; i++) {
            sizes[i] = (uint32_t)dice(8);
        }
        struct file file = many_hunks(sizes);
        memset(memory, GUARDED, sizeof(memory));
        size_t used = choose_places(places, sizes, memory);
        load_there(&loader, counted_memory(&counted), file, places, MANY, 1 + dice(5000));
        check_many(&loader, sizes, places);
        amihunk_loader_close(&loader);
        CHECK(counted.blocks == 0);
        CHECK(memory[0] == GUARDED && memory[used] == GUARDED);
        free(file.bytes);
    }
}

/* As many hunks as a file may have, in memory that their numbers jump about in. */
static void the_most_hunks_are_placed(void)
{
    enum { HUNKS = 65535, JUMP = 7919 /* it has no factor of HUNKS */ };
    uint8_t *memory = some(malloc(4 * HUNKS));
    amihunk_place *places = some(malloc(HUNKS * sizeof(amihunk_place)));
    for (size_t i = 0; i < HUNKS; i++) {
        places[i] = (amihunk_place){memory + 4 * (i * JUMP % HUNKS), (uint32_t)(4 * i)};
    }
    struct file file = zero_hunks(HUNKS);
    struct counted counted = {0};
    amihunk_loader loader = {0};
    memset(memory, FORGOTTEN, 4 * HUNKS);
    load_there(&loader, counted_memory(&counted), file, places, HUNKS, 1000);
    size_t wrong = 0;
    for (size_t i = 0; i < HUNKS; i++) {
        amihunk_hunk told = {0};
        wrong += amihunk_loader_get_hunk(&loader, i, &told) != AMIHUNK_OK ||
                 told.bytes != places[i].bytes || told.size != 4 || told.base != 4 * i ||
                 longword_at(told.bytes) != 0;
    }
    CHECK(wrong == 0);
    amihunk_loader_close(&loader);
    CHECK(counted.blocks == 0);
    free(file.bytes);
    free(places);
    free(memory);
}

int main(void)
{
    static const struct test tests[] = {
        TEST(files_are_loaded_as_into_memory_of_the_loader),
        TEST(files_that_end_anywhere_are_refused_the_same),
        TEST(other_longwords_are_refused_the_same),
        TEST(the_bytes_are_in_the_rooms),
        TEST(hunks_stand_in_one_memory_in_descending_order),
        TEST(a_hunk_without_a_room_is_in_memory_of_the_loader),
        TEST(a_hunk_of_no_longwords_needs_no_room),
        TEST(many_hunks_stand_in_any_order),
        TEST(the_most_hunks_are_placed),
    };
    return run_tests(tests, COUNT(tests));
}

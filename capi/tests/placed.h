/*
 * Memory of the caller for the hunks of a file: a room for each, between guards, at an odd address,
 * and filled with what no one may rely on.
 */
#ifndef PLACED_H
#define PLACED_H

#include "files.h"

/* A guard is larger than what counted_release reads before a block that is not its own. */
enum { MOST_ROOMS = 8, GUARD = 32, GUARDED = 0xC7, FORGOTTEN = 0x3C };

struct rooms {
    amihunk_place places[MOST_ROOMS];
    uint8_t *whole[MOST_ROOMS]; /* each room with its guards */
    size_t sizes[MOST_ROOMS];   /* in bytes */
    size_t count;
};

static inline uint32_t longword_at(const uint8_t *bytes)
{
    return (uint32_t)bytes[0] << 24 | (uint32_t)bytes[1] << 16 | (uint32_t)bytes[2] << 8 | bytes[3];
}

/* Forgets what is in the rooms. */
static inline void fill_rooms(struct rooms *rooms)
{
    for (size_t i = 0; i < rooms->count; i++) {
        if (rooms->sizes[i] != 0) {
            memset(rooms->places[i].bytes, FORGOTTEN, rooms->sizes[i]);
        }
    }
}

/* Rooms of these sizes, in longwords, for hunks at these bases; NULL for none. */
static inline struct rooms make_rooms(const uint32_t *bases, const uint32_t *sizes, size_t count)
{
    struct rooms rooms = {.count = count};
    for (size_t i = 0; i < count; i++) {
        rooms.sizes[i] = 4 * (size_t)sizes[i];
        size_t whole = rooms.sizes[i] + 2 * GUARD;
        rooms.whole[i] = some(malloc(whole));
        memset(rooms.whole[i], GUARDED, whole);
        rooms.places[i].base = bases[i];
        rooms.places[i].bytes = sizes[i] != 0 ? rooms.whole[i] + GUARD - 1 : NULL;
    }
    fill_rooms(&rooms);
    return rooms;
}

/* Rooms for the hunks that a loader tells of, as many as there are bases at most. */
static inline struct rooms rooms_for(amihunk_loader *loader, const uint32_t *bases, size_t count)
{
    uint32_t sizes[MOST_ROOMS] = {0};
    for (size_t i = 0; i < count; i++) {
        amihunk_table told = {0};
        amihunk_loader_table(loader, i, &told);
        /* No file of these tests is to have larger hunks: they are placed in other tests. */
        sizes[i] = told.size < 4096 ? told.size : 0;
    }
    return make_rooms(bases, sizes, count);
}

static inline void check_guards(const struct rooms *rooms)
{
    for (size_t i = 0; i < rooms->count; i++) {
        size_t before = GUARD - 1, whole = rooms->sizes[i] + 2 * GUARD;
        for (size_t k = 0; k < whole; k++) {
            if ((k < before || k >= before + rooms->sizes[i]) && rooms->whole[i][k] != GUARDED) {
                CHECK(!"a byte outside the rooms is written");
            }
        }
    }
}

/* Checks the guards for the last time. */
static inline void free_rooms(struct rooms *rooms)
{
    check_guards(rooms);
    for (size_t i = 0; i < rooms->count; i++) {
        free(rooms->whole[i]);
    }
    rooms->count = 0;
}

/* The hunks of a loaded loader are in the rooms, and nowhere else. */
static inline void check_in_rooms(amihunk_loader *loader, const struct rooms *rooms)
{
    CHECK(amihunk_loader_hunk_count(loader) == rooms->count);
    for (size_t i = 0; i < rooms->count; i++) {
        amihunk_hunk told = {0};
        CHECK(amihunk_loader_get_hunk(loader, i, &told) == AMIHUNK_OK);
        CHECK(told.size == rooms->sizes[i] && told.base == rooms->places[i].base);
        CHECK(told.bytes != NULL);
        CHECK(rooms->sizes[i] == 0 || told.bytes == rooms->places[i].bytes);
    }
}

/*
 * Loads a file into rooms that are made for it, up to the first refusal, and finishes. Rooms are
 * made if the header is whole.
 */
static inline amihunk_answer load_into_rooms(amihunk_loader *loader, struct file file, size_t most,
                                             const uint32_t *bases, size_t count,
                                             struct rooms *rooms)
{
    size_t taken;
    amihunk_answer answer = feed_header(loader, file, most, &taken);
    *rooms = (struct rooms){0};
    if (answer.status != AMIHUNK_NEEDS_BASES) {
        amihunk_answer last = unwritten();
        CHECK(amihunk_loader_finish(loader, &last) == last.status);
        CHECK(answer.status == AMIHUNK_OK || same_answer(&answer, &last));
        return last;
    }
    *rooms = rooms_for(loader, bases, count);
    answer = unwritten();
    CHECK(amihunk_loader_place_into(loader, rooms->places, count, &answer) == answer.status);
    return answer.status == AMIHUNK_OK ? load_pieces(loader, rest_of(file, taken), most) : answer;
}

#endif

/*
 * What bench/capi.sh measures: WHAT MEMORY FILE. The first word says what is done with the file:
 *
 *   read    it is loaded while it is read, as a file of one hunk;
 *   load    it is read, and then loaded from memory five times; prints the least microseconds;
 *   link    it is read, and then linked from memory five times; prints the same;
 *   place   as load, but its hunk is made in memory of the caller, the same each time;
 *   asked   as place, but once; prints how many bytes the loader asked of its memory;
 *   copy    it is read, and then copied five times to the same memory, as load reads it: no loader.
 *
 * The second word says where the handle takes its memory from: malloc, or buffer, which is one of
 * 512 MiB. The pages of that, and of memory of the caller, are there from the second time on, and
 * those of malloc are new each time: so place is to be compared with load in a buffer.
 */
#include "amihunk.h"

#include <stdio.h>
#include <stdlib.h>
#include <string.h>
#include <time.h>

enum { PIECE = 65536 }; /* the bytes of a read, as many as `amihunk` reads */
static const size_t BUFFER = (size_t)512 << 20;

static const uint32_t base = 0x10000;

struct bytes {
    unsigned char *bytes;
    size_t size;
};

static long microseconds(void)
{
    struct timespec now;
    timespec_get(&now, TIME_UTC);
    return now.tv_sec * 1000000L + now.tv_nsec / 1000;
}

/* Ends the file. Whether it is loaded, and has bytes in memory. */
static int finish(amihunk_loader *loader)
{
    amihunk_hunk hunk = {0};
    int good = amihunk_loader_finish(loader, NULL) == AMIHUNK_OK &&
               amihunk_loader_get_hunk(loader, 0, &hunk) == AMIHUNK_OK;
    amihunk_loader_close(loader);
    return good && hunk.size != 0;
}

static int load_file(amihunk_memory memory, FILE *file)
{
    static unsigned char piece[PIECE];
    amihunk_loader loader = {0};
    size_t size;
    amihunk_loader_open(&loader, memory, &base, 1);
    while ((size = fread(piece, 1, PIECE, file)) != 0) {
        amihunk_loader_feed(&loader, piece, size, NULL);
    }
    return finish(&loader);
}

static int load_bytes(amihunk_memory memory, struct bytes file)
{
    amihunk_loader loader = {0};
    amihunk_loader_open(&loader, memory, &base, 1);
    for (size_t start = 0; start < file.size; start += PIECE) {
        size_t rest = file.size - start;
        amihunk_loader_feed(&loader, file.bytes + start, rest < PIECE ? rest : PIECE, NULL);
    }
    return finish(&loader);
}

/* Memory of the caller, at least as long as it was last asked for. */
static unsigned char *room_of(size_t size)
{
    static unsigned char *room;
    static size_t length;
    if (length < size || room == NULL) {
        free(room);
        room = malloc(size);
        length = size;
    }
    return room;
}

/* Loads a file of one hunk into memory of the caller. Whether it is there. */
static int place_bytes(amihunk_memory memory, struct bytes file)
{
    amihunk_loader loader = {0};
    amihunk_table table = {0};
    amihunk_hunk hunk = {0};
    size_t start = 0;
    amihunk_loader_begin(&loader, memory);
    amihunk_loader_feed_header(&loader, file.bytes, file.size, &start, NULL);
    amihunk_loader_table(&loader, 0, &table);
    const amihunk_place place = {room_of(4 * (size_t)table.size + 1), base};
    amihunk_loader_place_into(&loader, &place, 1, NULL);
    while (start < file.size) {
        size_t rest = file.size - start, size = rest < PIECE ? rest : PIECE;
        amihunk_loader_feed(&loader, file.bytes + start, size, NULL);
        start += size;
    }
    int good = amihunk_loader_finish(&loader, NULL) == AMIHUNK_OK &&
               amihunk_loader_get_hunk(&loader, 0, &hunk) == AMIHUNK_OK;
    amihunk_loader_close(&loader);
    return good && hunk.bytes == place.bytes && hunk.size == 4 * (uint64_t)table.size;
}

/* Copies a file as a load reads it. The copy is read, so that it is made. */
static int copy_bytes(amihunk_memory memory, struct bytes file)
{
    unsigned char *room = room_of(file.size);
    (void)memory;
    for (size_t start = 0; room != NULL && start < file.size; start += PIECE) {
        size_t rest = file.size - start;
        memcpy(room + start, file.bytes + start, rest < PIECE ? rest : PIECE);
    }
    return room != NULL && memcmp(room + file.size / 2, file.bytes + file.size / 2, 1) == 0;
}

/* Links an object file. Whether there is a load file. */
static int link_bytes(amihunk_memory memory, struct bytes file)
{
    amihunk_linker linker = {0};
    amihunk_bytes linked = {0};
    amihunk_linker_open(&linker, memory, (amihunk_options){0});
    for (size_t start = 0; start < file.size; start += PIECE) {
        size_t rest = file.size - start;
        amihunk_linker_feed(&linker, file.bytes + start, rest < PIECE ? rest : PIECE, NULL);
    }
    amihunk_linker_end_input(&linker, NULL);
    int good = amihunk_linker_finish(&linker, NULL) == AMIHUNK_OK &&
               amihunk_linker_get_file(&linker, &linked) == AMIHUNK_OK;
    amihunk_linker_close(&linker);
    return good && linked.size != 0;
}

static struct bytes whole_file(FILE *file)
{
    size_t room = PIECE, count;
    struct bytes whole = {malloc(room), 0};
    while (whole.bytes != NULL &&
           (count = fread(whole.bytes + whole.size, 1, room - whole.size, file)) != 0) {
        whole.size += count;
        if (whole.size == room) {
            room *= 2;
            whole.bytes = realloc(whole.bytes, room);
        }
    }
    return whole;
}

static int measure(int (*run)(amihunk_memory, struct bytes), amihunk_memory memory, FILE *file)
{
    long least = -1;
    struct bytes whole = whole_file(file);
    for (int i = 0; whole.bytes != NULL && i < 5; i++) {
        long start = microseconds();
        if (!run(memory, whole)) {
            least = -1;
            break;
        }
        long took = microseconds() - start;
        least = least < 0 || took < least ? took : least;
    }
    free(whole.bytes);
    printf("%ld\n", least);
    return least >= 0;
}

/* A memory that takes its blocks from malloc, and adds up what it is asked for. */
static void *count_allocate(void *context, size_t size, size_t align)
{
    (void)align;
    *(size_t *)context += size;
    return malloc(size);
}

static void *count_resize(void *context, void *block, size_t kept, size_t size, size_t align)
{
    (void)kept;
    (void)align;
    *(size_t *)context += size;
    return realloc(block, size);
}

static void count_release(void *context, void *block)
{
    (void)context;
    free(block);
}

static int print_asked(FILE *file)
{
    size_t asked = 0;
    struct bytes whole = whole_file(file);
    const amihunk_memory memory = {count_allocate, count_resize, count_release, &asked};
    int good = whole.bytes != NULL && place_bytes(memory, whole);
    free(whole.bytes);
    printf("%zu\n", asked);
    return good;
}

static int run(const char *what, amihunk_memory memory, FILE *file)
{
    if (strcmp(what, "read") == 0) {
        return load_file(memory, file);
    } else if (strcmp(what, "load") == 0) {
        return measure(load_bytes, memory, file);
    } else if (strcmp(what, "link") == 0) {
        return measure(link_bytes, memory, file);
    } else if (strcmp(what, "place") == 0) {
        return measure(place_bytes, memory, file);
    } else if (strcmp(what, "asked") == 0) {
        return print_asked(file);
    } else if (strcmp(what, "copy") == 0) {
        return measure(copy_bytes, memory, file);
    }
    return 0;
}

int main(int count, char **words)
{
    FILE *file = count == 4 ? fopen(words[3], "rb") : NULL;
    if (file == NULL) {
        return 1;
    }
    setvbuf(file, NULL, _IONBF, 0);
    void *buffer = strcmp(words[2], "buffer") == 0 ? malloc(BUFFER) : NULL;
    amihunk_memory memory =
        buffer != NULL ? amihunk_in_buffer(buffer, BUFFER) : amihunk_from_malloc();
    int good = run(words[1], memory, file);
    free(buffer);
    fclose(file);
    return good ? 0 : 1;
}

/*
 * An assembler makes two program units, links them in memory, and loads the result:
 *
 *     assembler NAME
 *
 * The first unit calls NAME. The second one has the routine `print`; any other NAME is missing.
 */
#include "amihunk.h"

#include <stdio.h>
#include <string.h>

enum { UNIT = 0x3E7, CODE = 0x3E9, EXT = 0x3EF, END = 0x3F2 }; /* types of blocks */
static const uint32_t DEFINITION = 1u << 24, REFERENCE = 129u << 24;

struct object {
    unsigned char bytes[256];
    size_t size;
};

/* Writes a longword, its most significant byte first. */
static void put(struct object *object, uint32_t number)
{
    for (int shift = 24; shift >= 0; shift -= 8) {
        object->bytes[object->size++] = (unsigned char)(number >> shift);
    }
}

/* Writes a unit of one hunk: two longwords of code, and a name that it defines or refers to. */
static void put_unit(struct object *object, uint32_t first, uint32_t second, uint32_t type,
                     const char *name, uint32_t offset)
{
    const uint32_t start[] = {UNIT, 0, CODE, 2, first, second, EXT};
    for (size_t i = 0; i < sizeof(start) / sizeof(start[0]); i++)
        put(object, start[i]);
    size_t longwords = (strlen(name) + 3) / 4;
    put(object, type | (uint32_t)longwords);
    memcpy(object->bytes + object->size, name, strlen(name)); /* zeros follow */
    object->size += 4 * longwords;
    if (type == REFERENCE)
        put(object, 1); /* how many offsets there are */
    put(object, offset);
    put(object, 0);
    put(object, END);
}

/* Links the objects. Once the linker refuses something, it answers the same to every call. */
static amihunk_status link_all(amihunk_linker *linker, const struct object *objects, size_t count)
{
    for (size_t i = 0; i < count; i++) {
        amihunk_linker_feed(linker, objects[i].bytes, objects[i].size, NULL);
        amihunk_linker_end_input(linker, NULL);
    }
    return amihunk_linker_finish(linker, NULL);
}

static amihunk_status load(amihunk_loader *loader, amihunk_linker *linker)
{
    amihunk_bytes file;
    amihunk_linker_get_file(linker, &file);
    amihunk_loader_open(loader, amihunk_from_malloc(), (const uint32_t[]){0x10000, 0x20000}, 2);
    amihunk_loader_feed(loader, file.bytes, file.size, NULL);
    return amihunk_loader_finish(loader, NULL);
}

static void print_hunks(amihunk_loader *loader)
{
    for (size_t i = 0; i < amihunk_loader_hunk_count(loader); i++) {
        amihunk_hunk hunk;
        amihunk_loader_get_hunk(loader, i, &hunk);
        printf("hunk %zu at %08x: ", i, (unsigned)hunk.base);
        for (size_t k = 0; k < hunk.size; k++) {
            printf("%02x%s", hunk.bytes[k], k + 1 < hunk.size ? "" : "\n");
        }
    }
}

int main(int count, char **words)
{
    const char *name = count == 2 && strlen(words[1]) <= 100 ? words[1] : "print";
    struct object objects[2] = {{{0}, 0}, {{0}, 0}};
    put_unit(&objects[0], 0x4EB90000, 0x00004E75, REFERENCE, name, 2);     /* jsr NAME, rts */
    put_unit(&objects[1], 0x4E714E71, 0x70004E75, DEFINITION, "print", 4); /* moveq #0,d0, rts */

    amihunk_linker linker = {0};
    amihunk_loader loader = {0};
    amihunk_linker_open(&linker, amihunk_from_malloc(), (amihunk_options){.strip = true});
    int good = link_all(&linker, objects, 2) == AMIHUNK_OK && load(&loader, &linker) == AMIHUNK_OK;
    if (good) {
        print_hunks(&loader);
    } else {
        char line[500];
        amihunk_linker_line(&linker, "an object", line, sizeof(line));
        fputs(line, stderr);
    }
    amihunk_loader_close(&loader);
    amihunk_linker_close(&linker);
    return good ? 0 : 1;
}

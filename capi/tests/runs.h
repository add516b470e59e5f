/*
 * Runs of a handle that may run out of memory, and check what there is to check of a whole one: the
 * tests of memories make them.
 */
#ifndef RUNS_H
#define RUNS_H

#include "facts.h"
#include "files.h"

static const uint32_t bases[] = {0x10000, 0x20000};

/* Loads the file of two hunks, and checks what there is to check of a whole run. */
static inline amihunk_status load(amihunk_memory memory, size_t piece)
{
    struct file file = two_hunks();
    amihunk_loader loader = {0};
    amihunk_answer answer = {.status = amihunk_loader_open(&loader, memory, bases, 2)};
    if (answer.status == AMIHUNK_OK) {
        answer = load_pieces(&loader, file, piece);
    } else {
        CHECK(loader.session == NULL);
    }
    if (answer.status == AMIHUNK_OK) {
        uint8_t bytes[16];
        CHECK(amihunk_loader_read(&loader, 0, 0, bytes, 16) == 16);
        CHECK(memcmp(bytes, two_hunks_first, 16) == 0);
        CHECK(amihunk_loader_read(&loader, 1, 0, bytes, 16) == 8);
        CHECK(memcmp(bytes, two_hunks_second, 8) == 0);
    } else {
        CHECK(same_answer(&answer, &(amihunk_answer){.status = AMIHUNK_OUT_OF_MEMORY}));
        CHECK(amihunk_loader_hunk_count(&loader) == 0);
        if (loader.session != NULL) {
            char line[80];
            amihunk_answer again = load_pieces(&loader, file, 0);
            CHECK(same_answer(&answer, &again));
            CHECK(amihunk_loader_line(&loader, "x", line, sizeof(line)) == 23);
            CHECK(strcmp(line, "amihunk: out of memory\n") == 0);
        }
    }
    amihunk_loader_close(&loader);
    free(file.bytes);
    return (amihunk_status)answer.status;
}

/* Links the caller and the definer. */
static inline amihunk_status link_two(amihunk_memory memory, size_t piece)
{
    const struct file files[] = {caller(), definer()};
    struct file expected = caller_and_definer();
    amihunk_linker linker = {0};
    amihunk_answer answer = {.status = amihunk_linker_open(&linker, memory, (amihunk_options){0})};
    if (answer.status == AMIHUNK_OK) {
        answer = link_pieces(&linker, files, 2, piece);
    } else {
        CHECK(linker.session == NULL);
    }
    amihunk_bytes told;
    if (answer.status == AMIHUNK_OK) {
        CHECK(amihunk_linker_get_file(&linker, &told) == AMIHUNK_OK);
        CHECK(same(expected, told.bytes, told.size));
    } else {
        CHECK(same_answer(&answer, &(amihunk_answer){.status = AMIHUNK_OUT_OF_MEMORY}));
        CHECK(amihunk_linker_get_file(&linker, &told) == AMIHUNK_WRONG_STATE);
        if (linker.session != NULL) {
            char line[80];
            amihunk_answer again = link_pieces(&linker, files, 2, 0);
            CHECK(same_answer(&answer, &again));
            CHECK(amihunk_linker_line(&linker, "x", line, sizeof(line)) == 23);
            CHECK(strcmp(line, "amihunk: out of memory\n") == 0);
        }
    }
    amihunk_linker_close(&linker);
    free(expected.bytes);
    free(files[0].bytes);
    free(files[1].bytes);
    return (amihunk_status)answer.status;
}

/* Links two files whose names clash: what is refused has a name of its own. */
static inline amihunk_status link_clash(amihunk_memory memory, size_t piece)
{
    const struct file files[] = {definer(), definer()};
    amihunk_linker linker = {0};
    amihunk_answer answer = {.status = amihunk_linker_open(&linker, memory, (amihunk_options){0})};
    if (answer.status == AMIHUNK_OK) {
        answer = link_pieces(&linker, files, 2, piece);
    }
    CHECK(answer.status == AMIHUNK_DUPLICATE_NAME || answer.status == AMIHUNK_OUT_OF_MEMORY);
    char name[8];
    size_t length = amihunk_linker_name(&linker, name, sizeof(name));
    CHECK(length == (answer.status == AMIHUNK_DUPLICATE_NAME ? 3 : 0));
    CHECK(strcmp(name, length != 0 ? "foo" : "") == 0);
    amihunk_linker_close(&linker);
    free(files[0].bytes);
    free(files[1].bytes);
    return (amihunk_status)answer.status;
}

/* Links the caller and the definer, keeps what is in them, and writes the map. */
static inline amihunk_status link_kept(amihunk_memory memory, size_t piece)
{
    static const char *const names[] = {"caller.o", "definer.o"};
    static const char map[] = "hunk 0 code any 2 longwords caller.o unit 0 \"\" hunk 0 \"\"\n"
                              "hunk 1 code any 2 longwords definer.o unit 0 \"\" hunk 0 \"\"\n"
                              "  define \"foo\" at 00000004\n";
    const struct file files[] = {caller(), definer()};
    struct file expected = caller_and_definer();
    amihunk_linker linker = {0};
    amihunk_answer answer = {
        .status = amihunk_linker_open(&linker, memory, (amihunk_options){.keep = true})};
    if (answer.status == AMIHUNK_OK) {
        answer = link_pieces(&linker, files, 2, piece);
    }
    char text[sizeof(map)];
    size_t length = amihunk_linker_map(&linker, names, 2, text, sizeof(text));
    CHECK(strcmp(text, length != 0 ? map : "") == 0);
    CHECK(length == 0 || (length == strlen(map) && answer.status == AMIHUNK_OK));
    if (answer.status == AMIHUNK_OK) {
        amihunk_bytes told;
        CHECK(amihunk_linker_get_file(&linker, &told) == AMIHUNK_OK);
        CHECK(same(expected, told.bytes, told.size));
        /* A map for which there was no memory is empty, and that is all that is told of it. */
        answer.status = length != 0 ? AMIHUNK_OK : AMIHUNK_OUT_OF_MEMORY;
    }
    CHECK(answer.status == AMIHUNK_OK || answer.status == AMIHUNK_OUT_OF_MEMORY);
    amihunk_linker_close(&linker);
    free(expected.bytes);
    free(files[0].bytes);
    free(files[1].bytes);
    return (amihunk_status)answer.status;
}

static inline int is_undefined(amihunk_linker *linker, size_t index, const char *name,
                               uint64_t input, uint64_t references)
{
    amihunk_undefined told;
    return amihunk_linker_get_undefined(linker, index, &told) == AMIHUNK_OK &&
           told.name.size == strlen(name) && memcmp(told.name.bytes, name, told.name.size) == 0 &&
           told.input == input && told.unit == 0 && told.hunk == 0 && told.references == references;
}

/* Links files that refer to two names, which are both missing. */
static inline amihunk_status link_missing(amihunk_memory memory, size_t piece)
{
    const struct file files[] = {caller(), with(caller(), 8, 0x62617200), caller()};
    amihunk_linker linker = {0};
    amihunk_answer answer = {
        .status = amihunk_linker_open(&linker, memory, (amihunk_options){.keep = true})};
    if (answer.status == AMIHUNK_OK) {
        answer = link_pieces(&linker, files, 3, piece);
    }
    CHECK(answer.status == AMIHUNK_UNDEFINED_NAME || answer.status == AMIHUNK_OUT_OF_MEMORY);
    amihunk_undefined told;
    if (answer.status == AMIHUNK_UNDEFINED_NAME) {
        CHECK(is_undefined(&linker, 0, "foo", 0, 2) && is_undefined(&linker, 1, "bar", 1, 1));
        CHECK(amihunk_linker_get_undefined(&linker, 2, &told) == AMIHUNK_OUT_OF_RANGE);
    } else {
        CHECK(amihunk_linker_get_undefined(&linker, 0, &told) == AMIHUNK_WRONG_STATE);
    }
    amihunk_linker_close(&linker);
    for (size_t i = 0; i < COUNT(files); i++) {
        free(files[i].bytes);
    }
    return (amihunk_status)answer.status;
}

/* Loads the file of two hunks into memory of the caller. */
static inline amihunk_status place(amihunk_memory memory, size_t piece)
{
    uint8_t first[16], second[8];
    const amihunk_place places[] = {{first, bases[0]}, {second, bases[1]}};
    struct file file = two_hunks();
    amihunk_loader loader = {0};
    size_t taken = 0;
    amihunk_status status = amihunk_loader_begin(&loader, memory);
    if (status == AMIHUNK_OK) {
        status = (amihunk_status)feed_header(&loader, file, piece, &taken).status;
    }
    if (status == AMIHUNK_NEEDS_BASES) {
        status = amihunk_loader_place_into(&loader, places, 2, NULL);
    }
    if (status == AMIHUNK_OK) {
        status = (amihunk_status)load_pieces(&loader, rest_of(file, taken), piece).status;
    }
    CHECK(status == AMIHUNK_OK || status == AMIHUNK_OUT_OF_MEMORY);
    CHECK(status != AMIHUNK_OK || (memcmp(first, two_hunks_first, sizeof(first)) == 0 &&
                                   memcmp(second, two_hunks_second, sizeof(second)) == 0));
    amihunk_loader_close(&loader);
    free(file.bytes);
    return status;
}

/* Reads a file, and checks what is in it. */
static inline amihunk_status look(amihunk_memory memory, size_t piece, struct file bytes,
                                  const struct facts *facts)
{
    amihunk_file file = {0};
    amihunk_answer answer = {.status = amihunk_file_open(&file, memory)};
    if (answer.status == AMIHUNK_OK) {
        answer = read_pieces(&file, bytes, piece);
    } else {
        CHECK(file.session == NULL);
    }
    if (answer.status == AMIHUNK_OK) {
        check_facts(&file, facts);
    } else {
        CHECK(same_answer(&answer, &(amihunk_answer){.status = AMIHUNK_OUT_OF_MEMORY}));
        if (file.session != NULL) {
            char line[80];
            amihunk_contents told;
            amihunk_answer again = read_pieces(&file, bytes, 0);
            CHECK(same_answer(&answer, &again));
            CHECK(amihunk_file_get_contents(&file, &told) == AMIHUNK_WRONG_STATE);
            CHECK(amihunk_file_line(&file, "x", line, sizeof(line)) == 23);
            CHECK(strcmp(line, "amihunk: out of memory\n") == 0);
        }
    }
    amihunk_file_close(&file);
    free(bytes.bytes);
    return (amihunk_status)answer.status;
}

static inline amihunk_status look_into_object(amihunk_memory memory, size_t piece)
{
    return look(memory, piece, object_of_all(), &object_facts);
}

static inline amihunk_status look_into_load(amihunk_memory memory, size_t piece)
{
    return look(memory, piece, load_of_all(), &load_facts);
}

/* Reads the file of two hunks, and loads it from there by the same memory. */
static inline amihunk_status reload(amihunk_memory memory, size_t piece)
{
    struct file bytes = two_hunks();
    amihunk_file file = {0};
    amihunk_loader loader = {0};
    amihunk_status status = amihunk_file_open(&file, memory);
    if (status == AMIHUNK_OK) {
        status = (amihunk_status)read_pieces(&file, bytes, piece).status;
    }
    if (status == AMIHUNK_OK) {
        status = amihunk_loader_load(&loader, memory, &file, bases, 2, NULL);
    }
    if (status == AMIHUNK_OK) {
        uint8_t first[16];
        amihunk_file_close(&file);
        CHECK(amihunk_loader_read(&loader, 0, 0, first, 16) == 16);
        CHECK(memcmp(first, two_hunks_first, 16) == 0);
    } else {
        CHECK(status == AMIHUNK_OUT_OF_MEMORY && loader.session == NULL);
    }
    amihunk_file_close(&file);
    amihunk_loader_close(&loader);
    free(bytes.bytes);
    return status;
}

#endif

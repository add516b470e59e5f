/*
 * Checks that a handle tells nothing: the status says why, and what is told is all zeros, or an
 * empty text.
 */
#ifndef NOTHING_H
#define NOTHING_H

#include "facts.h"

/* ------------------------------ Files ------------------------------ */

static inline int is_nothing(amihunk_bytes told)
{
    return told.bytes == NULL && told.size == 0;
}

static inline void check_no_site(amihunk_file *file, size_t unit, size_t hunk, size_t index,
                                 amihunk_status status)
{
    amihunk_site told = {7, 7, 7};
    CHECK(amihunk_file_get_site(file, unit, hunk, index, &told) == status);
    CHECK(told.offset == 0 && told.kind == 0 && told.target == 0);
}

static inline void check_no_symbol(amihunk_file *file, size_t unit, size_t hunk, size_t index,
                                   amihunk_status status)
{
    amihunk_symbol told = {{(const uint8_t *)"", 7}, 7};
    CHECK(amihunk_file_get_symbol(file, unit, hunk, index, &told) == status);
    CHECK(is_nothing(told.name) && told.value == 0);
}

static inline void check_no_definition(amihunk_file *file, size_t unit, size_t hunk, size_t index,
                                       amihunk_status status)
{
    amihunk_definition told = {{(const uint8_t *)"", 7}, 7, 7};
    CHECK(amihunk_file_get_definition(file, unit, hunk, index, &told) == status);
    CHECK(is_nothing(told.name) && told.value == 0 && told.absolute == 0);
}

static inline void check_no_reference(amihunk_file *file, size_t unit, size_t hunk, size_t index,
                                      amihunk_status status)
{
    amihunk_bytes told = {(const uint8_t *)"", 7};
    CHECK(amihunk_file_get_reference(file, unit, hunk, index, &told) == status);
    CHECK(is_nothing(told));
}

static inline void check_no_debug(amihunk_file *file, size_t unit, size_t hunk, size_t index,
                                  amihunk_status status)
{
    amihunk_debug told = {(const uint32_t[]){7}, 7};
    CHECK(amihunk_file_get_debug(file, unit, hunk, index, &told) == status);
    CHECK(told.longwords == NULL && told.size == 0);
}

static inline void check_no_symbol_before(amihunk_file *file, size_t unit, size_t hunk,
                                          uint32_t offset, amihunk_status status)
{
    amihunk_symbol told = {{(const uint8_t *)"", 7}, 7};
    CHECK(amihunk_file_symbol_before(file, unit, hunk, offset, &told) == status);
    CHECK(is_nothing(told.name) && told.value == 0);
}

/* Nothing of this hunk, whatever the index. */
static inline void check_no_hunk(amihunk_file *file, size_t unit, size_t hunk,
                                 amihunk_status status)
{
    static const size_t indexes[] = {0, 1, SIZE_MAX};
    amihunk_file_hunk told;
    memset(&told, 0xEE, sizeof(told));
    CHECK(amihunk_file_get_hunk(file, unit, hunk, &told) == status);
    CHECK(is_nothing(told.name) && is_nothing(told.stored) && told.sites == 0 &&
          told.symbols == 0 && told.definitions == 0 && told.references == 0 &&
          told.debug_blocks == 0 && told.size == 0 && told.kind == 0 && told.memory == 0);
    for (size_t i = 0; i < COUNT(indexes); i++) {
        check_no_site(file, unit, hunk, indexes[i], status);
        check_no_symbol(file, unit, hunk, indexes[i], status);
        check_no_definition(file, unit, hunk, indexes[i], status);
        check_no_reference(file, unit, hunk, indexes[i], status);
        check_no_debug(file, unit, hunk, indexes[i], status);
    }
    check_no_symbol_before(file, unit, hunk, 0, status);
    check_no_symbol_before(file, unit, hunk, UINT32_MAX, status);
}

static inline void check_no_unit(amihunk_file *file, size_t unit, amihunk_status status)
{
    amihunk_unit told = {{(const uint8_t *)"", 7}, 7};
    CHECK(amihunk_file_get_unit(file, unit, &told) == status);
    CHECK(is_nothing(told.name) && told.hunks == 0);
    check_no_hunk(file, unit, 0, status);
    check_no_hunk(file, unit, SIZE_MAX, status);
}

/* A file that is not read tells nothing at all, and stays as it is. */
static inline void check_tells_nothing(amihunk_file *file)
{
    amihunk_file before = *file;
    amihunk_contents told = {7, 7};
    CHECK(amihunk_file_get_contents(file, &told) == AMIHUNK_WRONG_STATE);
    CHECK(told.units == 0 && told.kind == 0);
    amihunk_difference difference = {7, 7, 7, 7, 7};
    CHECK(amihunk_file_compare(file, file, true, &difference) == AMIHUNK_WRONG_STATE);
    CHECK(difference.hunk == 0 && difference.offset == 0 && difference.first == 0 &&
          difference.second == 0 && difference.kind == 0);
    check_no_unit(file, 0, AMIHUNK_WRONG_STATE);
    check_no_unit(file, SIZE_MAX, AMIHUNK_WRONG_STATE);
    CHECK(memcmp(file, &before, sizeof(before)) == 0);
}

/* ------------------------------ Linkers ------------------------------ */

static inline void check_no_undefined(amihunk_linker *linker, size_t index, amihunk_status status)
{
    amihunk_undefined told = {{(const uint8_t *)"", 7}, 7, 7, 7, 7};
    CHECK(amihunk_linker_get_undefined(linker, index, &told) == status);
    CHECK(is_nothing(told.name) && told.input == 0 && told.unit == 0 && told.hunk == 0 &&
          told.references == 0);
}

/* The map is empty, whatever room there is for it, and whatever the files are called. */
static inline void check_no_map(amihunk_linker *linker)
{
    static const char *const names[] = {"x", NULL, "y"};
    for (size_t count = 0; count <= COUNT(names); count++) {
        CHECK(amihunk_linker_map(linker, count != 0 ? names : NULL, count, NULL, 0) == 0);
        for (size_t size = 1; size <= 4; size++) {
            char text[] = "####";
            CHECK(amihunk_linker_map(linker, names, count, text, size) == 0);
            CHECK(text[0] == 0 && strcmp(text + 1, "###") == 0);
        }
    }
}

/* A linker that keeps nothing of use tells nothing, and stays as it is. */
static inline void check_keeps_nothing(amihunk_linker *linker)
{
    amihunk_linker before = *linker;
    check_no_undefined(linker, 0, AMIHUNK_WRONG_STATE);
    check_no_undefined(linker, 1, AMIHUNK_WRONG_STATE);
    check_no_undefined(linker, SIZE_MAX, AMIHUNK_WRONG_STATE);
    check_no_map(linker);
    CHECK(memcmp(linker, &before, sizeof(before)) == 0);
}

#endif

/*
 * Prints all that amihunk.h tells of a file, as tests/looking.py reads it: TELL FILE. One line for
 * each thing, and in it words between spaces: numbers are decimal, and bytes hexadecimal after an
 * `x`.
 *
 *     file KIND UNITS
 *     unit NAME HUNKS
 *     hunk KIND MEMORY SIZE NAME STORED SITES SYMBOLS DEFINITIONS REFERENCES DEBUGS
 *     site OFFSET hunk NUMBER            or: site OFFSET name REFERENCE
 *     reference NAME
 *     definition NAME VALUE ABSOLUTE
 *     symbol NAME VALUE
 *     debug SIZE LONGWORD..
 *
 * A file that is refused gives the line of amihunk_file_line on standard error, and the status 1.
 */
#include "amihunk.h"

#include <inttypes.h>
#include <stdio.h>
#include <stdlib.h>

/* Nothing can be told where a call says something else than the header. */
static void expect(int holds, const char *call)
{
    if (!holds) {
        fprintf(stderr, "tell: %s failed\n", call);
        exit(2);
    }
}

static void print_bytes(amihunk_bytes told)
{
    printf(" x");
    for (uint64_t i = 0; i < told.size; i++) {
        printf("%02x", told.bytes[i]);
    }
}

static void tell_links(amihunk_file *file, size_t unit, size_t hunk, const amihunk_file_hunk *of)
{
    for (size_t i = 0; i < of->sites; i++) {
        amihunk_site told;
        expect(amihunk_file_get_site(file, unit, hunk, i, &told) == AMIHUNK_OK, "get_site");
        printf("site %" PRIu32 " %s %" PRIu32 "\n", told.offset,
               told.kind == AMIHUNK_ADDS_HUNK ? "hunk" : "name", told.target);
    }
    for (size_t i = 0; i < of->references; i++) {
        amihunk_bytes told;
        expect(amihunk_file_get_reference(file, unit, hunk, i, &told) == AMIHUNK_OK,
               "get_reference");
        printf("reference");
        print_bytes(told);
        printf("\n");
    }
    for (size_t i = 0; i < of->definitions; i++) {
        amihunk_definition told;
        expect(amihunk_file_get_definition(file, unit, hunk, i, &told) == AMIHUNK_OK,
               "get_definition");
        printf("definition");
        print_bytes(told.name);
        printf(" %" PRIu32 " %" PRIu32 "\n", told.value, told.absolute);
    }
}

static void tell_debugging(amihunk_file *file, size_t unit, size_t hunk,
                           const amihunk_file_hunk *of)
{
    for (size_t i = 0; i < of->symbols; i++) {
        amihunk_symbol told;
        expect(amihunk_file_get_symbol(file, unit, hunk, i, &told) == AMIHUNK_OK, "get_symbol");
        printf("symbol");
        print_bytes(told.name);
        printf(" %" PRIu32 "\n", told.value);
    }
    for (size_t i = 0; i < of->debug_blocks; i++) {
        amihunk_debug told;
        expect(amihunk_file_get_debug(file, unit, hunk, i, &told) == AMIHUNK_OK, "get_debug");
        printf("debug %" PRIu64, told.size);
        for (uint64_t k = 0; k < told.size; k++) {
            printf(" %" PRIu32, told.longwords[k]);
        }
        printf("\n");
    }
}

static void tell_hunk(amihunk_file *file, size_t unit, size_t hunk)
{
    amihunk_file_hunk told;
    expect(amihunk_file_get_hunk(file, unit, hunk, &told) == AMIHUNK_OK, "get_hunk");
    printf("hunk %" PRIu32 " %" PRIu32 " %" PRIu32, told.kind, told.memory, told.size);
    print_bytes(told.name);
    print_bytes(told.stored);
    printf(" %" PRIu64 " %" PRIu64 " %" PRIu64 " %" PRIu64 " %" PRIu64 "\n", told.sites,
           told.symbols, told.definitions, told.references, told.debug_blocks);
    tell_links(file, unit, hunk, &told);
    tell_debugging(file, unit, hunk, &told);
}

static void tell(amihunk_file *file)
{
    amihunk_contents contents;
    expect(amihunk_file_get_contents(file, &contents) == AMIHUNK_OK, "get_contents");
    printf("file %" PRIu32 " %" PRIu64 "\n", contents.kind, contents.units);
    for (size_t unit = 0; unit < contents.units; unit++) {
        amihunk_unit told;
        expect(amihunk_file_get_unit(file, unit, &told) == AMIHUNK_OK, "get_unit");
        printf("unit");
        print_bytes(told.name);
        printf(" %" PRIu64 "\n", told.hunks);
        for (size_t hunk = 0; hunk < told.hunks; hunk++) {
            tell_hunk(file, unit, hunk);
        }
    }
}

/* Writes why the file is refused, however long the line is. */
static void tell_refusal(amihunk_file *file, const char *name)
{
    size_t length = amihunk_file_line(file, name, NULL, 0);
    char *line = malloc(length + 1);
    expect(line != NULL && amihunk_file_line(file, name, line, length + 1) == length, "line");
    fputs(line, stderr);
    free(line);
}

int main(int count, char **words)
{
    static unsigned char piece[4096];
    FILE *input = count == 2 ? fopen(words[1], "rb") : NULL;
    amihunk_file file = {0};
    size_t size;
    expect(input != NULL, "fopen");
    expect(amihunk_file_open(&file, amihunk_from_malloc()) == AMIHUNK_OK, "open");
    while ((size = fread(piece, 1, sizeof(piece), input)) != 0) {
        amihunk_file_feed(&file, piece, size, NULL);
    }
    fclose(input);
    int read = amihunk_file_finish(&file, NULL) == AMIHUNK_OK;
    if (read) {
        tell(&file);
    } else {
        tell_refusal(&file, words[1]);
    }
    amihunk_file_close(&file);
    return read ? 0 : 1;
}

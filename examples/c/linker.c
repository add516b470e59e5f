/*
 * A linker links object files into a load file, and prints the map of it:
 *
 *     linker OUT FILE..
 *
 * If names are missing, it tells all of them. A link that is refused writes nothing.
 */
#include "amihunk.h"

#include <stdio.h>
#include <stdlib.h>

/* Feeds a file to the linker, whatever that answers: it answers the same again in the end. */
static int feed(amihunk_linker *linker, const char *name)
{
    unsigned char piece[4096];
    size_t size;
    FILE *file = fopen(name, "rb");
    if (file == NULL) {
        return 0;
    }
    while ((size = fread(piece, 1, sizeof(piece), file)) != 0) {
        amihunk_linker_feed(linker, piece, size, NULL);
    }
    amihunk_linker_end_input(linker, NULL);
    int good = !ferror(file);
    fclose(file);
    return good;
}

/* Tells each name that is missing, where it is first referred to, and how often in all files. */
static void tell_missing(amihunk_linker *linker, const char *const *files)
{
    amihunk_undefined missing;
    for (size_t i = 0; amihunk_linker_get_undefined(linker, i, &missing) == AMIHUNK_OK; i++) {
        fprintf(stderr, "  %s: unit %u hunk %u refers to ", files[missing.input],
                (unsigned)missing.unit, (unsigned)missing.hunk);
        fwrite(missing.name.bytes, 1, missing.name.size, stderr);
        fprintf(stderr, ", references: %u\n", (unsigned)missing.references);
    }
}

/* Prints the map of what is linked. Whether there is memory for it. */
static int print_map(amihunk_linker *linker, const char *const *files, size_t count)
{
    size_t length = amihunk_linker_map(linker, files, count, NULL, 0);
    char *map = malloc(length + 1);
    int good = map != NULL && length != 0 &&
               amihunk_linker_map(linker, files, count, map, length + 1) == length;
    fputs(good ? map : "", stdout);
    free(map);
    return good;
}

/* Writes the load file. Whether all of it is written. */
static int write_linked(amihunk_linker *linker, const char *name)
{
    amihunk_bytes linked;
    FILE *out = fopen(name, "wb");
    int good = out != NULL && amihunk_linker_get_file(linker, &linked) == AMIHUNK_OK &&
               fwrite(linked.bytes, 1, linked.size, out) == linked.size;
    return out != NULL && fclose(out) == 0 && good;
}

/* Links what was fed, and tells what comes of it. */
static int link_all(amihunk_linker *linker, const char *out, const char *const *files, size_t count)
{
    amihunk_answer answer;
    if (amihunk_linker_finish(linker, &answer) != AMIHUNK_OK) {
        char line[500];
        amihunk_linker_line(linker, files[answer.input], line, sizeof(line));
        fputs(line, stderr);
        tell_missing(linker, files);
        return 0;
    }
    if (!write_linked(linker, out)) {
        fprintf(stderr, "linker: %s cannot be written\n", out);
        return 0;
    }
    return print_map(linker, files, count);
}

int main(int count, char **words)
{
    if (count < 3) {
        fputs("usage: linker OUT FILE..\n", stderr);
        return 2;
    }
    const char *const *files = (const char *const *)words + 2;
    size_t number = (size_t)count - 2;
    amihunk_linker linker = {0};
    amihunk_linker_open(&linker, amihunk_from_malloc(), (amihunk_options){.keep = true});
    int good = 1;
    for (size_t i = 0; i < number && good; i++) {
        good = feed(&linker, files[i]);
        if (!good) {
            fprintf(stderr, "linker: %s cannot be read\n", files[i]);
        }
    }
    good = good && link_all(&linker, words[1], files, number);
    amihunk_linker_close(&linker);
    return good ? 0 : 1;
}

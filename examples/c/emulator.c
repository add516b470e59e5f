/*
 * An emulator loads a program from its disk into the memory of its machine, without a heap:
 *
 *     emulator FILE BASE..
 *
 * FILE is a load file, and each BASE the address of one of its hunks, in hexadecimal. Loading takes
 * its memory from one buffer of 64 KiB. A program that does not fit in it is refused.
 */
#include "amihunk.h"

#include <stdio.h>
#include <stdlib.h>
#include <string.h>

enum { SECTOR = 512, MOST_HUNKS = 16 };

static unsigned char machine[1024 * 1024]; /* its memory, from address 0 on */
static unsigned char buffer[64 * 1024];    /* all that loading may use */

/* Feeds the file sector by sector, up to its end or to what is wrong with it. */
static amihunk_status load(amihunk_loader *loader, FILE *disk)
{
    unsigned char sector[SECTOR];
    amihunk_status status = AMIHUNK_OK;
    size_t size;
    while (status == AMIHUNK_OK && (size = fread(sector, 1, SECTOR, disk)) != 0) {
        status = amihunk_loader_feed(loader, sector, size, NULL);
    }
    return status == AMIHUNK_OK ? amihunk_loader_finish(loader, NULL) : status;
}

/* Copies the hunks to their addresses. */
static int move_in(amihunk_loader *loader)
{
    for (size_t i = 0; i < amihunk_loader_hunk_count(loader); i++) {
        amihunk_hunk hunk;
        amihunk_loader_get_hunk(loader, i, &hunk);
        if (hunk.base > sizeof(machine) || hunk.size > sizeof(machine) - hunk.base) {
            fprintf(stderr, "emulator: the machine has no memory for hunk %zu\n", i);
            return 0;
        }
        memcpy(machine + hunk.base, hunk.bytes, hunk.size);
        printf("hunk %zu: %u bytes at %08x\n", i, (unsigned)hunk.size, (unsigned)hunk.base);
    }
    return 1;
}

static void start(uint32_t address)
{
    if (address <= sizeof(machine) - 2) {
        const unsigned char *code = machine + address;
        printf("the machine starts at %08x: %02x%02x\n", (unsigned)address, code[0], code[1]);
    }
}

int main(int count, char **words)
{
    uint32_t bases[MOST_HUNKS];
    if (count < 3 || count - 2 > MOST_HUNKS) {
        fputs("usage: emulator FILE BASE..\n", stderr);
        return 2;
    }
    for (int i = 2; i < count; i++) {
        bases[i - 2] = (uint32_t)strtoul(words[i], NULL, 16);
    }
    FILE *disk = fopen(words[1], "rb");
    if (disk == NULL) {
        perror(words[1]);
        return 1;
    }

    amihunk_loader loader = {0};
    amihunk_memory memory = amihunk_in_buffer(buffer, sizeof(buffer));
    int good = 0;
    if (amihunk_loader_open(&loader, memory, bases, (size_t)count - 2) != AMIHUNK_OK) {
        fputs("emulator: no memory for a loader\n", stderr);
    } else if (load(&loader, disk) == AMIHUNK_OK && !ferror(disk)) {
        good = move_in(&loader);
    } else {
        char line[300];
        amihunk_loader_line(&loader, words[1], line, sizeof(line));
        fputs(ferror(disk) ? "emulator: the disk cannot be read\n" : line, stderr);
    }
    amihunk_loader_close(&loader);
    fclose(disk);

    if (good) {
        start(bases[0]);
    }
    return good ? 0 : 1;
}

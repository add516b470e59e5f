/*
 * A program for the 68000 is linked, loaded into the RAM of a machine, and run there:
 *
 *     run
 *
 * The processor is that of Unicorn (libunicorn-dev of Debian). The program is two object files,
 * which stand here as an assembler would write them. It is loaded at three lists of addresses, and
 * leaves the same text in its last hunk each time.
 */
#include "amihunk.h"

#include <stdio.h>
#include <string.h>
#include <unicorn/unicorn.h>

#define COUNT(array) (sizeof(array) / sizeof((array)[0]))

/* Has a number, and asks for its digits. To the 00000000 in instructions an address is added. */
static const uint32_t main_object[] = {
    0x3E7, 1, 0x6D61696E,                   /* UNIT main */
    0x3E9, 4,                               /* hunk 0, CODE: 4 longwords */
    0x20390000, 0x00004EB9,                 /*   2039 00000000   main:  move.l  number,d0 */
    0x00000000, 0x4E754E71,                 /*   4EB9 00000000          jsr     hex */
                                            /*   4E75 4E71              rts; nop */
    0x3EC, 1, 1, 2, 0,                      /* RELOC32: at offset 2 the base of hunk 1 */
    0x3EF, 0x81000001, 0x68657800, 1, 8, 0, /* EXT: at offset 8 what hex stands for */
    0x3F2,                                  /* END */
    0x3EA, 1, 0x00C0FFEE, 0x3F2,            /* hunk 1, DATA:    number: dc.l $C0FFEE */
};

/* Writes the digits of d0. */
static const uint32_t hex_object[] = {
    0x3E7, 1, 0x68657800,                   /* UNIT hex */
    0x3E9, 8,                               /* hunk 0, CODE: 8 longwords */
    0x41F90000, 0x000043F9,                 /*   41F9 00000000   hex:   lea     digits,a0 */
    0x00000000, 0x7407E998,                 /*   43F9 00000000          lea     text,a1 */
    0x720FC280, 0x12F01800,                 /*   7407                   moveq   #7,d2 */
    0x51CAFFF4, 0x42114E75,                 /*   E998            next:  rol.l   #4,d0 */
                                            /*   720F                   moveq   #15,d1 */
                                            /*   C280                   and.l   d0,d1 */
                                            /*   12F0 1800              move.b  (a0,d1.l),(a1)+ */
                                            /*   51CA FFF4              dbra    d2,next */
                                            /*   4211 4E75              clr.b   (a1); rts */
    0x3EC, 1, 1, 2, 1, 2, 8, 0,             /* RELOC32: at 2 the base of hunk 1, at 8 of hunk 2 */
    0x3EF, 0x01000001, 0x68657800, 0, 0,    /* EXT: hex is at offset 0 */
    0x3F2,                                  /* END */
    0x3EA, 4, 0x30313233, 0x34353637,       /* hunk 1, DATA:    digits: dc.b "01234567" */
    0x38394142, 0x43444546, 0x3F2,          /*                          dc.b "89ABCDEF" */
    0x3EB, 3, 0x3F2,                        /* hunk 2, BSS:     text:   ds.l 3 */
};

/* How the hunks stand in the RAM: upwards or downwards from `start`, `gap` bytes apart. */
struct plan {
    uint32_t start;
    uint32_t gap;
    bool down;
};

static const struct plan plans[] = {
    {0x01000, 0, false}, {0x20000, 0x10000, false}, {0xF0000, 0x1235, true}};

enum { MOST_HUNKS = 16, WORDS = 3 }; /* of the program, hunks 0 to 2 hold words, 3 and 4 bytes */
enum { STOP = 0x400, MOST_STEPS = 1000 };       /* where the program returns to, and how soon */
static _Alignas(4096) uint8_t ram[1024 * 1024]; /* of the machine, from its address 0 on */

/* Writes a longword, its most significant byte first. */
static void put(uint8_t *bytes, uint32_t longword)
{
    for (int i = 0; i < 4; i++)
        bytes[i] = (uint8_t)(longword >> (24 - 8 * i));
}

/* Feeds an object file, longword by longword: pieces may have any size. */
static void feed(amihunk_linker *linker, const uint32_t *object, size_t count)
{
    for (size_t i = 0; i < count; i++) {
        uint8_t piece[4];
        put(piece, object[i]);
        amihunk_linker_feed(linker, piece, sizeof(piece), NULL);
    }
    amihunk_linker_end_input(linker, NULL);
}

/* Chooses a place in the RAM for each hunk, by its size. How many these are; 0 without room. */
static size_t choose(amihunk_loader *loader, const struct plan *plan, amihunk_place *places)
{
    uint32_t at = plan->start;
    amihunk_table hunk;
    size_t i;
    for (i = 0; amihunk_loader_table(loader, i, &hunk) == AMIHUNK_OK; i++) {
        uint32_t size = 4 * hunk.size;
        if (plan->down)
            at -= size + plan->gap;
        if (i < WORDS)
            at &= ~1u; /* a 68000 finds words at even addresses only */
        if (i == MOST_HUNKS || at > sizeof(ram) || size > sizeof(ram) - at)
            return 0;
        places[i] = (amihunk_place){ram + at, at};
        if (!plan->down)
            at += size + plan->gap;
    }
    return i;
}

/* Loads the program into the RAM, and returns how many hunks it has; 0 if it cannot be loaded. */
static size_t load(amihunk_bytes file, const struct plan *plan, amihunk_place *places)
{
    amihunk_loader loader = {0};
    amihunk_status status = AMIHUNK_OUT_OF_MEMORY;
    size_t taken;
    amihunk_loader_begin(&loader, amihunk_from_malloc());
    amihunk_loader_feed_header(&loader, file.bytes, file.size, &taken, NULL);
    size_t count = choose(&loader, plan, places);
    if (count != 0)
        status = amihunk_loader_place_into(&loader, places, count, NULL);
    if (status == AMIHUNK_OK) {
        amihunk_loader_feed(&loader, file.bytes + taken, file.size - taken, NULL);
        status = amihunk_loader_finish(&loader, NULL);
    }
    if (status != AMIHUNK_OK) {
        char line[200];
        size_t length = amihunk_loader_line(&loader, "the program", line, sizeof(line));
        fputs(length != 0 ? line : "run: there is no room for the program\n", stderr);
    }
    amihunk_loader_close(&loader); /* from here on, its bytes in the RAM are the machine's */
    return status == AMIHUNK_OK ? count : 0;
}

/* Runs the program that begins at an address, until it returns. Whether it did. */
static bool run(uint32_t start)
{
    uint32_t stack = sizeof(ram) - 4, counter = 0;
    uc_engine *machine = NULL;
    put(ram + stack, STOP);
    uc_err error = uc_open(UC_ARCH_M68K, UC_MODE_BIG_ENDIAN, &machine);
    if (error == UC_ERR_OK)
        error = uc_ctl_set_cpu_model(machine, UC_CPU_M68K_M68000);
    if (error == UC_ERR_OK)
        error = uc_mem_map_ptr(machine, 0, sizeof(ram), UC_PROT_ALL, ram);
    if (error == UC_ERR_OK)
        error = uc_reg_write(machine, UC_M68K_REG_A7, &stack);
    if (error == UC_ERR_OK)
        error = uc_emu_start(machine, start, STOP, 0, MOST_STEPS);
    if (error == UC_ERR_OK)
        error = uc_reg_read(machine, UC_M68K_REG_PC, &counter);
    if (machine != NULL)
        uc_close(machine);
    if (error != UC_ERR_OK)
        fprintf(stderr, "run: %s\n", uc_strerror(error));
    else if (counter != STOP)
        fputs("run: the program does not return\n", stderr);
    return error == UC_ERR_OK && counter == STOP;
}

int main(void)
{
    amihunk_linker linker = {0};
    amihunk_bytes file;
    amihunk_linker_open(&linker, amihunk_from_malloc(), (amihunk_options){.strip = true});
    feed(&linker, main_object, COUNT(main_object));
    feed(&linker, hex_object, COUNT(hex_object));
    bool good = amihunk_linker_finish(&linker, NULL) == AMIHUNK_OK;
    if (!good) {
        char line[200];
        size_t length = amihunk_linker_line(&linker, "an object file", line, sizeof(line));
        fputs(length != 0 ? line : "run: there is no memory for a linker\n", stderr);
    }
    amihunk_linker_get_file(&linker, &file);
    for (size_t i = 0; good && i < COUNT(plans); i++) {
        amihunk_place places[MOST_HUNKS];
        memset(ram, 0xFF, sizeof(ram)); /* so that nothing is left of the run before */
        size_t count = load(file, &plans[i], places);
        good = count != 0 && run(places[0].base);
        if (good) {
            printf("%.8s, with hunks at", (const char *)ram + places[count - 1].base);
            for (size_t hunk = 0; hunk < count; hunk++)
                printf(" %08x", (unsigned)places[hunk].base);
            putchar('\n');
        }
    }
    amihunk_linker_close(&linker);
    return good ? 0 : 1;
}

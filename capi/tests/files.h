/* Files whose meaning is known from the format: each as a call that makes it. */
#ifndef FILES_H
#define FILES_H

#include "check.h"

/* A load file of one hunk, with one longword of code: rts, nop. */
static inline struct file one_hunk(void)
{
    return LONGWORDS(0x3F3, 0, 1, 0, 0, 1, 0x3E9, 1, 0x4E754E71, 0x3F2);
}

/*
 * A load file with a relocation in the zeros after the content: at offset 8 the base of hunk 0 is
 * added.
 */
static inline struct file relocated_zeros(void)
{
    return LONGWORDS(0x3F3, 0, 1, 0, 0, 3, 0x3E9, 1, 0x4E754E71, 0x3EC, 1, 0, 8, 0, 0x3F2);
}

/*
 * A load file of two hunks. To the first, bases are added at offset 2 (of hunk 1, in 32 bits) and 8
 * (of hunk 0, in a short list); it has two symbols and a debug block. The second has one longword,
 * and room for two.
 */
static inline struct file two_hunks(void)
{
    return LONGWORDS(0x3F3, 0, 2, 0, 1, 4, 0x40000002, 0x3E9, 4, 0x207C0000, 0x00004EB9, 0x0000000E,
                     0x4E754E75, 0x3EC, 1, 1, 2, 0, 0x3FC, 0x00010000, 0x00080000, 0x3F0, 1,
                     0x6D61696E, 0, 1, 0x73756200, 14, 0, 0x3F1, 2, 0x6C696E65, 0x00010002, 0x3F2,
                     0x3EA, 1, 0x68756E6B, 0x3F1, 0, 0x3F2);
}

/* What is at 00010000 and at 00020000 once its hunks are there. */
static const uint8_t two_hunks_first[] = {0x20, 0x7C, 0x00, 0x02, 0x00, 0x00, 0x4E, 0xB9,
                                          0x00, 0x01, 0x00, 0x0E, 0x4E, 0x75, 0x4E, 0x75};
static const uint8_t two_hunks_second[] = {'h', 'u', 'n', 'k', 0, 0, 0, 0};

/* An object file whose code refers to foo at offset 2: jsr foo, rts. */
static inline struct file caller(void)
{
    return LONGWORDS(0x3E7, 0, 0x3E9, 2, 0x4EB90000, 0x00004E75, 0x3EF, 0x81000001, 0x666F6F00, 1,
                     2, 0, 0x3F2);
}

/* An object file whose code defines foo at offset 4: nop, nop, rts, nop. */
static inline struct file definer(void)
{
    return LONGWORDS(0x3E7, 0, 0x3E9, 2, 0x4E714E71, 0x4E754E71, 0x3EF, 0x01000001, 0x666F6F00, 4,
                     0, 0x3F2);
}

/*
 * An object file of two hunks, the first of which holds an address in the second: 8 bytes from its
 * base.
 */
static inline struct file table(void)
{
    return LONGWORDS(0x3E7, 0, 0x3E9, 1, 8, 0x3EC, 1, 1, 0, 0, 0x3F2, 0x3EB, 4, 0x3F2);
}

/*
 * An object file as an assembler writes it: names, a relocation, a definition, a symbol, a debug
 * block, chip memory.
 */
static inline struct file assembled(void)
{
    return LONGWORDS(0x3E7, 1, 0x74657374, 0x3E8, 1, 0x434F4445, 0x3E9, 2, 0x4EB90000, 0x00004E75,
                     0x3EC, 1, 1, 2, 0, 0x3EF, 0x01000001, 0x6D61696E, 0, 0, 0x3F0, 1, 0x6C6F6F70,
                     6, 0, 0x3F1, 1, 0x12345678, 0x3F2, 0x400003EB, 2, 0x3F2);
}

/* The load file that the caller and the definer make, in this order. */
static inline struct file caller_and_definer(void)
{
    return LONGWORDS(0x3F3, 0, 2, 0, 1, 2, 2, 0x3E9, 2, 0x4EB90000, 0x00044E75, 0x3EC, 1, 1, 2, 0,
                     0x3F2, 0x3E9, 2, 0x4E714E71, 0x4E754E71, 0x3F2);
}

/* An object file of so many hunks of no longwords. */
static inline struct file empty_hunks(size_t count)
{
    uint32_t *longwords = some(malloc(4 * (2 + 3 * count)));
    longwords[0] = 0x3E7;
    longwords[1] = 0;
    for (size_t i = 0; i < count; i++) {
        const uint32_t hunk[] = {0x3EB, 0, 0x3F2};
        memcpy(&longwords[2 + 3 * i], hunk, sizeof(hunk));
    }
    struct file file = file_of(longwords, 2 + 3 * count);
    free(longwords);
    return file;
}

/* A load file of so many hunks of one longword, which is zero. */
static inline struct file zero_hunks(uint32_t count)
{
    uint32_t *longwords = some(malloc(4 * (5 + 4 * (size_t)count)));
    const uint32_t header[] = {0x3F3, 0, count, 0, count - 1};
    memcpy(longwords, header, sizeof(header));
    for (size_t i = 0; i < count; i++) {
        const uint32_t hunk[] = {0x3EB, 1, 0x3F2};
        longwords[5 + i] = 1;
        memcpy(&longwords[5 + count + 3 * i], hunk, sizeof(hunk));
    }
    struct file file = file_of(longwords, 5 + 4 * (size_t)count);
    free(longwords);
    return file;
}

/* A name of four letters for a number: another one for each number of 16 bits. */
static inline uint32_t name_of(uint32_t number)
{
    return 0x61616161 + (number & 15) + (number << 4 & 0xF00) + (number << 8 & 0xF0000) +
           (number << 12 & 0xF000000);
}

#endif

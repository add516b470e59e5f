/* Files that are made of good ones by a few changes: the same on every run. */
#ifndef MUTATIONS_H
#define MUTATIONS_H

#include "check.h"

static uint64_t seed;

/* A number below `most`. */
static inline size_t dice(size_t most)
{
    seed = seed * 6364136223846793005u + 1442695040888963407u;
    return (size_t)(seed >> 33) % most;
}

/* Numbers with a meaning, so that a change often leads on to another part of the format. */
static inline uint32_t telling(void)
{
    static const uint32_t numbers[] = {
        0,          1,          2,          3,          4,          6,          8,
        0x3E7,      0x3E8,      0x3E9,      0x3EA,      0x3EB,      0x3EC,      0x3EF,
        0x3F0,      0x3F1,      0x3F2,      0x3F3,      0x3F5,      0x3FC,      1012,
        1015,       0xFFFFFFFF, 0x40000001, 0x80000002, 0xC0000001, 0x01000001, 0x81000001,
        0x02000001, 0x82000001, 0x10000,    0x00010000, 0x01000001};
    return dice(4) == 0 ? (uint32_t)dice(64) : numbers[dice(COUNT(numbers))];
}

/* Changes a longword or a byte, takes longwords out, writes some twice, or cuts the end off. */
static inline struct file changed(struct file file)
{
    size_t longwords = file.size / 4;
    size_t place = longwords != 0 ? dice(longwords) : 0;
    if (longwords == 0) {
        return file;
    }
    switch (dice(6)) {
    case 0:
    case 1:
        return with(file, place, telling());
    case 2:
        file.bytes[dice(file.size)] ^= (uint8_t)(1 << dice(8));
        return file;
    case 3: {
        size_t count = 1 + dice(longwords - place);
        count = count > 3 ? 3 : count;
        struct file rest =
            file_of_bytes(file.bytes + 4 * (place + count), file.size - 4 * (place + count));
        return joined(file, 4 * place, rest);
    }
    case 4: {
        struct file rest = file_of_bytes(file.bytes + 4 * place, file.size - 4 * place);
        return joined(file, 4 * (place + 1), rest);
    }
    default:
        return joined(file, dice(8) == 0 ? dice(file.size) : file.size,
                      file_of_bytes("\0\0\3\xF2", dice(3) == 0 ? 4 : 0));
    }
}

static inline struct file mutated(struct file file)
{
    size_t changes = 1 + dice(3);
    for (size_t i = 0; i < changes; i++) {
        file = changed(file);
    }
    return file;
}

#endif

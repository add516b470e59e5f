/*
 * Prints names that a hash with a fixed seed sends to one place of a table: collide COUNT
 *
 * The table has groups of twelve places each: a power of two of them, the least for which COUNT names are at
 * most nine for each group. The lowest bits of the hash of a name say in which group it belongs; where that is
 * full, it goes into the next that is not. The names that are printed all belong in the first group. So they
 * fill one run of groups, and to add or to find a name is to go through those before it.
 *
 * The hash has a state of 64 bits, which begins as a fixed number. It takes in the length of the name, in eight
 * bytes, and then the bytes of the name, one by one. To take in is to join with the state by xor, to multiply by
 * a fixed number, which is one for eight bytes and another for a single one, and to join the halves of the product
 * of 128 bits by xor. A single byte is joined with each of the three lowest bytes of the state. In the end, the
 * halves of the state are joined by xor, and make the hash.
 *
 * The names have eight visible characters. They are tried in order, and each costs one multiplication, since the
 * state before its last byte is at hand. It takes about COUNT times as many of them as there are groups.
 */
#include <inttypes.h>
#include <stdio.h>
#include <stdlib.h>

enum { LENGTH = 8 };

static uint64_t joined_halves_of_product(uint64_t a, uint64_t b)
{
    uint64_t low_a = (uint32_t)a, high_a = a >> 32, low_b = (uint32_t)b, high_b = b >> 32;
    uint64_t middle = high_a * low_b + (low_a * low_b >> 32);
    uint64_t other = low_a * high_b + (uint32_t)middle;
    uint64_t high = high_a * high_b + (middle >> 32) + (other >> 32);
    return a * b ^ high;
}

static uint64_t take_in(uint64_t state, uint64_t joined, uint64_t bytes)
{
    return joined_halves_of_product(state ^ joined, 0x9e3779b97f4a7c15 ^ 2 * bytes);
}

static unsigned long groups = 1, wanted;

/* Prints names that begin with the first `at` bytes of `name`, which the state took in. */
static void print_names(char *name, int at, uint64_t state)
{
    for (name[at] = '!'; name[at] <= '~' && wanted != 0; name[at]++) {
        uint64_t next = take_in(state, (uint64_t)name[at] * 0x010101, 1);
        if (at + 1 < LENGTH) {
            print_names(name, at + 1, next);
        } else if (((next ^ next >> 32) & (groups - 1)) == 0) {
            puts(name);
            wanted--;
        }
    }
}

int main(int words, char **word)
{
    char name[LENGTH + 1] = "";
    if (words != 2 || (wanted = strtoul(word[1], NULL, 10)) == 0) {
        fputs("usage: collide COUNT\n", stderr);
        return 1;
    }
    while (9 * groups < wanted) {
        groups *= 2;
    }
    print_names(name, 0, take_in(0x243f6a8885a308d3, LENGTH, 8));
    return wanted != 0;
}

/* Reads a file in pieces of 64 KiB and copies each into memory of the file's size, as a loader has to that reads no file at once: copy FILE
 * Prints the sum of the last bytes of the pieces. */
#include <fcntl.h>
#include <stdio.h>
#include <stdlib.h>
#include <string.h>
#include <sys/stat.h>
#include <unistd.h>

static unsigned char piece[65536];

int main(int count, char **words)
{
    struct stat file;
    int input = count == 2 ? open(words[1], O_RDONLY) : -1;
    unsigned char *memory;
    size_t size, at = 0, sum = 0;
    ssize_t read_now;

    if (input < 0 || fstat(input, &file) != 0)
        return 1;
    size = (size_t)file.st_size;
    memory = malloc(size + 1);
    if (!memory)
        return 1;
    while ((read_now = read(input, piece, sizeof piece)) > 0 && (size_t)read_now <= size - at) {
        memcpy(memory + at, piece, (size_t)read_now);
        at += (size_t)read_now;
        sum += memory[at - 1];
    }
    printf("%zu\n", sum);
    return at != size;
}

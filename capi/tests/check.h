/*
 * What the tests share: files as longwords, a memory that counts and refuses, and a list of tests
 * that is run. A test program prints a line `ok NAME` or `FAILED NAME` for each test, and then how
 * many there are.
 */
#ifndef CHECK_H
#define CHECK_H

#include "amihunk.h"

#include <stdint.h>
#include <stdio.h>
#include <stdlib.h>
#include <string.h>

#define COUNT(array) (sizeof(array) / sizeof((array)[0]))

/* ------------------------------ Tests ------------------------------ */

struct test {
    const char *name;
    void (*run)(void);
};

#define TEST(name)  \
    {               \
#name, name \
    }

static int failures;

static inline int checked(int holds, const char *file, int line, const char *text)
{
    if (!holds) {
        failures++;
        if (failures <= 20) {
            printf("%s:%d: %s\n", file, line, text);
        }
    }
    return holds;
}

#define CHECK(condition) checked((condition) ? 1 : 0, __FILE__, __LINE__, #condition)

static inline int run_tests(const struct test *tests, size_t count)
{
    int failed = 0;
    for (size_t i = 0; i < count; i++) {
        failures = 0;
        tests[i].run();
        failed |= failures != 0;
        printf("%s %s\n", failures == 0 ? "ok" : "FAILED", tests[i].name);
        fflush(stdout);
    }
    printf("ran %zu\n", count);
    return failed;
}

/* ------------------------------ Files ------------------------------ */

/* A file in memory, with as much room as it has bytes, so that reads past its end are found. */
struct file {
    uint8_t *bytes;
    size_t size;
};

static inline void *some(void *block)
{
    if (block == NULL) {
        abort();
    }
    return block;
}

static inline struct file file_of_bytes(const void *bytes, size_t size)
{
    struct file file = {some(malloc(size != 0 ? size : 1)), size};
    if (size != 0) {
        memcpy(file.bytes, bytes, size);
    }
    return file;
}

/* The longwords, each with its most significant byte first. */
static inline struct file file_of(const uint32_t *longwords, size_t count)
{
    struct file file = {some(malloc(4 * count + 1)), 4 * count};
    for (size_t i = 0; i < 4 * count; i++) {
        file.bytes[i] = (uint8_t)(longwords[i / 4] >> (24 - i % 4 * 8));
    }
    return file;
}

#define LONGWORDS(...) \
    file_of((const uint32_t[]){__VA_ARGS__}, sizeof((const uint32_t[]){__VA_ARGS__}) / 4)

/* A copy of the file with another longword at this place. */
static inline struct file with(struct file file, size_t place, uint32_t longword)
{
    struct file copy = file_of_bytes(file.bytes, file.size);
    for (size_t i = 0; i < 4; i++) {
        copy.bytes[4 * place + i] = (uint8_t)(longword >> (24 - i * 8));
    }
    free(file.bytes);
    return copy;
}

/* The first `size` bytes of the file, and then these longwords. */
static inline struct file joined(struct file file, size_t size, struct file rest)
{
    struct file whole = {some(malloc(size + rest.size + 1)), size + rest.size};
    memcpy(whole.bytes, file.bytes, size);
    memcpy(whole.bytes + size, rest.bytes, rest.size);
    free(file.bytes);
    free(rest.bytes);
    return whole;
}

static inline int same(struct file file, const void *bytes, size_t size)
{
    return file.size == size && memcmp(file.bytes, bytes, size) == 0;
}

/* ------------------------------ Memory ------------------------------ */

/*
 * A memory that checks what it is asked for, counts, moves every block that is resized, and refuses
 * allocations: that with the number `refused`, from 1, and those after it too if `all` is set.
 * Blocks are filled with what no one may rely on.
 */
struct counted {
    size_t asked;   /* allocations that were asked for, those that were refused too */
    size_t bytes;   /* their sizes, added up */
    size_t blocks;  /* blocks that are not released */
    size_t refused; /* 0: none */
    int all;
};

struct counted_block {
    size_t size;
    struct counted *owner;
};

static inline int counted_refuses(struct counted *counted)
{
    counted->asked++;
    if (counted->refused == 0) {
        return 0;
    }
    return counted->asked == counted->refused ||
           (counted->all && counted->asked > counted->refused);
}

static inline void *counted_allocate(void *context, size_t size, size_t align)
{
    struct counted *counted = context;
    CHECK(size != 0);
    CHECK(align == 1 || align == 2 || align == 4 || align == 8 || align == 16);
    counted->bytes += size;
    if (counted_refuses(counted)) {
        return NULL;
    }
    struct counted_block *block = some(malloc(sizeof(struct counted_block) + size));
    block->size = size;
    block->owner = counted;
    memset(block + 1, 0xA5, size);
    counted->blocks++;
    return block + 1;
}

static inline void counted_release(void *context, void *bytes)
{
    struct counted *counted = context;
    struct counted_block *block = (struct counted_block *)bytes - 1;
    if (!CHECK(block->owner == counted) || !CHECK(counted->blocks != 0)) {
        abort();
    }
    memset(block, 0x5A, sizeof(struct counted_block) + block->size);
    counted->blocks--;
    free(block);
}

static inline void *counted_resize(void *context, void *bytes, size_t kept, size_t size,
                                   size_t align)
{
    struct counted_block *block = (struct counted_block *)bytes - 1;
    if (!CHECK(block->owner == context)) {
        abort();
    }
    CHECK(kept <= block->size && kept <= size);
    void *moved = counted_allocate(context, size, align);
    if (moved != NULL) {
        memcpy(moved, bytes, kept);
        counted_release(context, bytes);
    }
    return moved;
}

static inline amihunk_memory counted_memory(struct counted *counted)
{
    return (amihunk_memory){counted_allocate, counted_resize, counted_release, counted};
}

/* ------------------------------ Runs ------------------------------ */

static inline int same_answer(const amihunk_answer *one, const amihunk_answer *other)
{
    return one->place == other->place && one->input == other->input && one->unit == other->unit &&
           one->hunk == other->hunk && one->other == other->other && one->status == other->status &&
           one->reason == other->reason && one->number == other->number;
}

/* An answer that no call gives, so that a field that is not written is seen. */
static inline amihunk_answer unwritten(void)
{
    amihunk_answer answer;
    memset(&answer, 0xEE, sizeof(answer));
    return answer;
}

/* Feeds a file in pieces of `most` bytes up to the first refusal, and finishes. 0: in one piece. */
static inline amihunk_answer load_pieces(amihunk_loader *loader, struct file file, size_t most)
{
    amihunk_answer answer = unwritten();
    for (size_t start = 0; start < file.size;) {
        size_t size = most == 0 || file.size - start < most ? file.size - start : most;
        amihunk_status status = amihunk_loader_feed(loader, file.bytes + start, size, &answer);
        CHECK(status == answer.status);
        if (status != AMIHUNK_OK) {
            break;
        }
        start += size;
    }
    amihunk_answer last = unwritten();
    amihunk_status status = amihunk_loader_finish(loader, &last);
    CHECK(status == last.status);
    CHECK(answer.status == AMIHUNK_OK || file.size == 0 || same_answer(&answer, &last));
    return last;
}

/* A header of 20 bytes and 4 for each hunk. */
enum { FRONT = 20 };

/* Feeds the header in pieces of `most` bytes, and counts what is taken. 0: in one piece. */
static inline amihunk_answer feed_header(amihunk_loader *loader, struct file file, size_t most,
                                         size_t *taken)
{
    amihunk_answer answer = unwritten();
    *taken = 0;
    do {
        size_t rest = file.size - *taken, size = most == 0 || rest < most ? rest : most;
        size_t count = SIZE_MAX;
        amihunk_status status =
            amihunk_loader_feed_header(loader, file.bytes + *taken, size, &count, &answer);
        CHECK(status == answer.status);
        CHECK(status == AMIHUNK_NEEDS_BASES ? count <= size
                                            : count == (status == AMIHUNK_OK ? size : 0));
        *taken += status == AMIHUNK_OK || status == AMIHUNK_NEEDS_BASES ? count : 0;
    } while (answer.status == AMIHUNK_OK && *taken < file.size);
    return answer;
}

/* What follows the bytes of a file that were taken. It is freed with the file. */
static inline struct file rest_of(struct file file, size_t taken)
{
    return (struct file){file.bytes + taken, file.size - taken};
}

/* Feeds object files as load_pieces does, ends each, and links them. */
static inline amihunk_answer link_pieces(amihunk_linker *linker, const struct file *files,
                                         size_t count, size_t most)
{
    amihunk_answer answer = unwritten();
    amihunk_status status = AMIHUNK_OK;
    for (size_t i = 0; i < count && status == AMIHUNK_OK; i++) {
        for (size_t start = 0; start < files[i].size && status == AMIHUNK_OK;) {
            size_t size = most == 0 || files[i].size - start < most ? files[i].size - start : most;
            status = amihunk_linker_feed(linker, files[i].bytes + start, size, &answer);
            CHECK(status == answer.status);
            start += size;
        }
        if (status == AMIHUNK_OK) {
            status = amihunk_linker_end_input(linker, &answer);
            CHECK(status == answer.status);
        }
    }
    amihunk_answer last = unwritten();
    amihunk_status ended = amihunk_linker_finish(linker, &last);
    CHECK(ended == last.status);
    CHECK(status == AMIHUNK_OK || same_answer(&answer, &last));
    return last;
}

/* Whether both loaders have the same hunks. */
static inline void check_same_hunks(amihunk_loader *one, amihunk_loader *other)
{
    CHECK(amihunk_loader_hunk_count(one) == amihunk_loader_hunk_count(other));
    for (size_t hunk = 0; hunk < amihunk_loader_hunk_count(one); hunk++) {
        amihunk_hunk first, second;
        CHECK(amihunk_loader_get_hunk(one, hunk, &first) == AMIHUNK_OK);
        CHECK(amihunk_loader_get_hunk(other, hunk, &second) == AMIHUNK_OK);
        CHECK(first.base == second.base && first.size == second.size &&
              memcmp(first.bytes, second.bytes, first.size) == 0);
    }
}

#endif

/*
 * Blocks of a buffer at random against a plain model: what is taken lies inside the buffer, apart
 * from all else, and keeps its bytes; what is refused may be; and in the end the whole buffer is
 * there again. These tests need no handle, and are built with buffer.c in them, so that the
 * sanitizers see what it does.
 */
#include "buffer.h"

static uint32_t dice(uint64_t *seed)
{
    *seed = *seed * 6364136223846793005u + 1442695040888963407u;
    return (uint32_t)(*seed >> 33);
}

enum { BLOCKS = 64 };

/* The blocks of a buffer, as whoever took them knows them. */
struct model {
    amihunk_memory memory;
    uint8_t *buffer;
    size_t size;
    struct {
        uint8_t *bytes; /* NULL: not taken */
        size_t size;
    } blocks[BLOCKS];
    size_t refused;
    uint64_t seed;
};

static uint8_t filling(size_t block, size_t offset)
{
    return (uint8_t)(block * 37 + offset * 11 + 1);
}

/* Checks the first bytes of a block. */
static void check_bytes(const struct model *model, size_t block, size_t size)
{
    size_t good = 0;
    while (good < size && model->blocks[block].bytes[good] == filling(block, good)) {
        good++;
    }
    CHECK(good == size);
}

/* Checks where a block is, and fills it. */
static void fill(const struct model *model, size_t block)
{
    uint8_t *bytes = model->blocks[block].bytes;
    size_t size = model->blocks[block].size;
    CHECK((uintptr_t)bytes % ALIGN == 0);
    CHECK(bytes >= model->buffer && bytes + size <= model->buffer + model->size);
    for (size_t other = 0; other < BLOCKS; other++) {
        const uint8_t *others = model->blocks[other].bytes;
        if (other != block && others != NULL) {
            CHECK(bytes + size <= others || others + model->blocks[other].size <= bytes);
        }
    }
    for (size_t i = 0; i < size; i++) {
        bytes[i] = filling(block, i);
    }
}

/* The bytes from here to the next block, or to the end of the buffer. */
static size_t gap_from(const struct model *model, const uint8_t *start)
{
    const uint8_t *end = model->buffer + model->size;
    for (size_t i = 0; i < BLOCKS; i++) {
        const uint8_t *bytes = model->blocks[i].bytes;
        end = bytes != NULL && bytes >= start && bytes < end ? bytes : end;
    }
    return (size_t)(end - start);
}

/*
 * Checks that a block of this length may be refused: no gap is a quarter longer than what it takes.
 * Beside a gap, at most 39 bytes of the block before it are not the caller's, and 8 of the block
 * after it, or 23 at the end of the buffer.
 */
static void refuse(struct model *model, size_t size)
{
    size_t most = cost(size) + cost(size) / 4 + 39 + 23;
    model->refused++;
    for (size_t i = 0; i < BLOCKS; i++) {
        if (model->blocks[i].bytes != NULL) {
            CHECK(gap_from(model, model->blocks[i].bytes + model->blocks[i].size) <= most);
        }
    }
    size_t first = gap_from(model, model->buffer);
    CHECK(first <= most + taken_at_once(model->size));
}

static void model_take(struct model *model, size_t block, size_t size)
{
    uint8_t *bytes = take(model->memory, size);
    if (bytes == NULL) {
        refuse(model, size);
        return;
    }
    model->blocks[block].bytes = bytes;
    model->blocks[block].size = size;
    fill(model, block);
}

static void model_change(struct model *model, size_t block, size_t size)
{
    size_t old = model->blocks[block].size;
    size_t kept = (size < old ? size : old) - dice(&model->seed) % 2;
    uint8_t *bytes = change(model->memory, model->blocks[block].bytes, kept, size);
    if (bytes == NULL) {
        refuse(model, size);
        check_bytes(model, block, old);
        return;
    }
    model->blocks[block].bytes = bytes;
    model->blocks[block].size = size;
    check_bytes(model, block, kept);
    fill(model, block);
}

static void model_give_back(struct model *model, size_t block)
{
    check_bytes(model, block, model->blocks[block].size);
    give_back(model->memory, model->blocks[block].bytes);
    model->blocks[block].bytes = NULL;
}

/* A step at random, with a block of at most `most` bytes. */
static void step(struct model *model, size_t most)
{
    size_t block = dice(&model->seed) % BLOCKS;
    size_t size = 1 + dice(&model->seed) % (dice(&model->seed) % 3 == 0 ? most : most / 40 + 1);
    if (model->blocks[block].bytes == NULL) {
        model_take(model, block, size);
    } else if (dice(&model->seed) % 2 == 0) {
        model_change(model, block, size);
    } else {
        model_give_back(model, block);
    }
}

/* Releases all blocks, after which the memory is as if none had been taken. */
static void give_all_back(struct model *model, uint8_t *first, size_t whole)
{
    size_t start = dice(&model->seed) % BLOCKS;
    for (size_t i = 0; i < BLOCKS; i++) {
        size_t block = (start + 23 * i) % BLOCKS;
        if (model->blocks[block].bytes != NULL) {
            model_give_back(model, block);
        }
    }
    CHECK(longest(model->memory, model->size) == whole);
    CHECK(take(model->memory, whole) == first);
    give_back(model->memory, first);
}

/* Steps at random in a buffer, some with few blocks and some in which it is full. */
static size_t run_model(size_t distance, size_t size, size_t most, size_t steps)
{
    static struct model model;
    model =
        (struct model){.buffer = guarded(distance, size), .size = size, .seed = size + distance};
    model.memory = amihunk_in_buffer(model.buffer, size);
    size_t whole = longest(model.memory, size);
    uint8_t *first = take(model.memory, whole);
    if (!CHECK(first != NULL)) {
        return 0;
    }
    give_back(model.memory, first);
    for (size_t i = 0; i < steps; i++) {
        step(&model, most);
        if (i % 5000 == 4999) {
            give_all_back(&model, first, whole);
        }
    }
    give_all_back(&model, first, whole);
    check_guards(model.buffer, size);
    return model.refused;
}

static void blocks_stay_apart_in_a_full_buffer(void)
{
    CHECK(run_model(0, 1 << 14, 4000, 100000) > 1000);
    CHECK(run_model(5, (1 << 14) + 3, 1500, 50000) > 100);
}

static void blocks_stay_apart_where_there_is_room(void)
{
    CHECK(run_model(8, MOST, 800, 20000) == 0);
}

static void blocks_stay_apart_in_small_buffers(void)
{
    for (size_t size = 168; size < 1000; size += 41) {
        CHECK(run_model(size % ALIGN, size, size / 3, 5000) > 100);
    }
}

int main(void)
{
    static const struct test tests[] = {
        TEST(blocks_stay_apart_in_a_full_buffer),
        TEST(blocks_stay_apart_where_there_is_room),
        TEST(blocks_stay_apart_in_small_buffers),
    };
    return run_tests(tests, COUNT(tests));
}

/*
 * Where there are no bytes, a pointer is told all the same. It leads to something that is there as
 * long as the handle is, and not to the stack of a call that has returned.
 */
/* For pthread_attr_setstack. */
#define _POSIX_C_SOURCE 200809L

#include "facts.h"
#include "files.h"

#include <pthread.h>

/* The stack of a thread that makes the calls, so that it is known where it is. */
static _Alignas(65536) uint8_t stack[512 * 1024];

/* Where the pointers led that a thread was told: as numbers, for its handle is closed by then. */
static uintptr_t told[16];
static size_t count;

static void keep(const void *pointer)
{
    told[count++] = (uintptr_t)pointer;
}

/* What has no bytes in object_of_all: names, contents and a debug block. */
static void *look(void *context)
{
    struct file bytes = object_of_all();
    amihunk_file handle = {0}, *file = &handle;
    amihunk_unit unit = {0};
    amihunk_file_hunk named = {0}, unnamed = {0};
    amihunk_symbol symbol = {0};
    amihunk_definition definition = {0};
    amihunk_debug debug = {0};
    CHECK(amihunk_file_open(file, amihunk_from_malloc()) == AMIHUNK_OK);
    CHECK(read_pieces(file, bytes, 0).status == AMIHUNK_OK);
    CHECK(amihunk_file_get_unit(file, 1, &unit) == AMIHUNK_OK && unit.name.size == 0);
    CHECK(amihunk_file_get_hunk(file, 0, 1, &named) == AMIHUNK_OK && named.name.size == 0);
    CHECK(amihunk_file_get_hunk(file, 0, 2, &unnamed) == AMIHUNK_OK && unnamed.stored.size == 0);
    CHECK(amihunk_file_get_symbol(file, 0, 0, 2, &symbol) == AMIHUNK_OK && symbol.name.size == 0);
    CHECK(amihunk_file_get_definition(file, 0, 0, 2, &definition) == AMIHUNK_OK &&
          definition.name.size == 0);
    CHECK(amihunk_file_get_debug(file, 0, 0, 1, &debug) == AMIHUNK_OK && debug.size == 0);
    keep(unit.name.bytes);
    keep(named.name.bytes);
    keep(unnamed.name.bytes);
    keep(unnamed.stored.bytes);
    keep(symbol.name.bytes);
    keep(definition.name.bytes);
    keep(debug.longwords);
    amihunk_file_close(file);
    free(bytes.bytes);
    return context;
}

/* An empty hunk, in memory of the loader. */
static void *load(void *context)
{
    static const uint32_t base = 0x10000;
    struct file bytes = LONGWORDS(0x3F3, 0, 1, 0, 0, 0, 0x3E9, 0, 0x3F2);
    amihunk_loader handle = {0}, *loader = &handle;
    amihunk_hunk hunk = {0};
    CHECK(amihunk_loader_open(loader, amihunk_from_malloc(), &base, 1) == AMIHUNK_OK);
    CHECK(load_pieces(loader, bytes, 0).status == AMIHUNK_OK);
    CHECK(amihunk_loader_get_hunk(loader, 0, &hunk) == AMIHUNK_OK && hunk.size == 0);
    keep(hunk.bytes);
    amihunk_loader_close(loader);
    free(bytes.bytes);
    return context;
}

/* A name without letters that no hunk defines. */
static void *link_missing(void *context)
{
    struct file bytes = LONGWORDS(0x3E7, 0, 0x3E9, 1, 0, 0x3EF, 0x81000000, 1, 0, 0, 0x3F2);
    amihunk_linker handle = {0}, *linker = &handle;
    amihunk_undefined undefined = {0};
    CHECK(amihunk_linker_open(linker, amihunk_from_malloc(), (amihunk_options){.keep = true}) ==
          AMIHUNK_OK);
    CHECK(link_pieces(linker, &bytes, 1, 0).status == AMIHUNK_UNDEFINED_NAME);
    CHECK(amihunk_linker_get_undefined(linker, 0, &undefined) == AMIHUNK_OK &&
          undefined.name.size == 0);
    keep(undefined.name.bytes);
    amihunk_linker_close(linker);
    free(bytes.bytes);
    return context;
}

/* Runs it on that stack, and checks what it kept. */
static void run_there(void *(*run)(void *), size_t expected)
{
    pthread_attr_t attributes;
    pthread_t thread;
    count = 0;
    if (!CHECK(pthread_attr_init(&attributes) == 0) ||
        !CHECK(pthread_attr_setstack(&attributes, stack, sizeof(stack)) == 0) ||
        !CHECK(pthread_create(&thread, &attributes, run, NULL) == 0)) {
        abort();
    }
    CHECK(pthread_join(thread, NULL) == 0);
    pthread_attr_destroy(&attributes);
    CHECK(count == expected);
    for (size_t i = 0; i < count; i++) {
        CHECK(told[i] != 0 && told[i] - (uintptr_t)stack >= sizeof(stack));
    }
}

static void no_text_of_a_file_is_on_the_stack(void)
{
    run_there(look, 7);
}

static void no_hunk_of_a_loader_is_on_the_stack(void)
{
    run_there(load, 1);
}

static void no_name_of_a_linker_is_on_the_stack(void)
{
    run_there(link_missing, 1);
}

int main(void)
{
    static const struct test tests[] = {
        TEST(no_text_of_a_file_is_on_the_stack),
        TEST(no_hunk_of_a_loader_is_on_the_stack),
        TEST(no_name_of_a_linker_is_on_the_stack),
    };
    return run_tests(tests, COUNT(tests));
}

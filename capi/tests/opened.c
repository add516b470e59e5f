/* Tests the shared library, opened by dlopen while the program runs: opened LIBRARY */
#define _POSIX_C_SOURCE 200809L /* for barriers */
#include "check.h"

#include <dlfcn.h>
#include <pthread.h>

enum { THREADS = 4, ROUNDS = 1000 };

static const char *path;
static void *library;

static struct {
    __typeof__(amihunk_version) *version;
    __typeof__(amihunk_in_buffer) *in_buffer;
    __typeof__(amihunk_loader_open) *open;
    __typeof__(amihunk_loader_feed) *feed;
    __typeof__(amihunk_loader_finish) *finish;
    __typeof__(amihunk_loader_read) *read;
    __typeof__(amihunk_loader_close) *close;
} calls;

/* Writes where a call of the library is. C has no cast from an object to a function. */
static int find(const char *name, void *call)
{
    void *address = dlsym(library, name);
    memcpy(call, &address, sizeof(address));
    return address != NULL;
}

static int open_library(void)
{
    library = dlopen(path, RTLD_NOW | RTLD_LOCAL);
    return library != NULL && find("amihunk_version", &calls.version) &&
           find("amihunk_in_buffer", &calls.in_buffer) &&
           find("amihunk_loader_open", &calls.open) &&
           find("amihunk_loader_feed", &calls.feed) &&
           find("amihunk_loader_finish", &calls.finish) &&
           find("amihunk_loader_read", &calls.read) && find("amihunk_loader_close", &calls.close);
}

/* Loads a hunk with the number 1, to which its base is added. Whether it is then as it should. */
static int loads_at(uint32_t base)
{
    unsigned char buffer[4096], bytes[4] = {0};
    struct file file = LONGWORDS(0x3F3, 0, 1, 0, 0, 1, 0x3E9, 1, 1, 0x3EC, 1, 0, 0, 0, 0x3F2);
    struct file wanted = LONGWORDS(base + 1);
    amihunk_loader loader = {0};
    calls.open(&loader, calls.in_buffer(buffer, sizeof(buffer)), &base, 1);
    calls.feed(&loader, file.bytes, file.size, NULL);
    int good = calls.finish(&loader, NULL) == AMIHUNK_OK &&
               calls.read(&loader, 0, 0, bytes, sizeof(bytes)) == sizeof(bytes) &&
               same(wanted, bytes, sizeof(bytes));
    calls.close(&loader);
    free(file.bytes);
    free(wanted.bytes);
    return good;
}

/* ------------------------------ Threads ------------------------------ */

static pthread_barrier_t opened;

struct worker {
    pthread_t thread;
    uint32_t base;
    int good;
};

static void *load_often(void *given)
{
    struct worker *worker = given;
    pthread_barrier_wait(&opened);
    for (uint32_t i = 0; i < ROUNDS; i++) {
        worker->good += loads_at(worker->base + 4 * i);
    }
    return NULL;
}

/* The threads begin before the library is opened, so that none has its variables yet. */
static void each_thread_loads_by_itself(void)
{
    struct worker workers[THREADS] = {0};
    CHECK(pthread_barrier_init(&opened, NULL, THREADS + 1) == 0);
    for (uint32_t i = 0; i < THREADS; i++) {
        workers[i].base = 0x01020300 + 0x10000000 * i;
        CHECK(pthread_create(&workers[i].thread, NULL, load_often, &workers[i]) == 0);
    }
    CHECK(open_library());
    pthread_barrier_wait(&opened);
    for (size_t i = 0; i < THREADS; i++) {
        CHECK(pthread_join(workers[i].thread, NULL) == 0);
        CHECK(workers[i].good == ROUNDS);
    }
    CHECK(pthread_barrier_destroy(&opened) == 0);
    CHECK(dlclose(library) == 0);
}

/* ------------------------------ The library ------------------------------ */

static void the_version_is_that_of_the_header(void)
{
    CHECK(open_library());
    CHECK(strcmp(calls.version(), AMIHUNK_VERSION) == 0);
    CHECK(dlclose(library) == 0);
}

static void other_names_are_not_found(void)
{
    static const char *const names[] = {"rattle_alloc", "rattle_realloc", "rattle_dealloc",
                                        "amihunk_c_open", "amihunk_c_feed"};
    CHECK(open_library());
    for (size_t i = 0; i < COUNT(names); i++) {
        CHECK(dlsym(library, names[i]) == NULL);
    }
    CHECK(dlclose(library) == 0);
}

static void a_library_that_was_closed_is_opened_again(void)
{
    for (int i = 0; i < 10; i++) {
        CHECK(open_library());
        CHECK(loads_at(0x01020304));
        CHECK(dlclose(library) == 0);
        CHECK(dlopen(path, RTLD_NOW | RTLD_NOLOAD) == NULL);
    }
}

int main(int count, char **words)
{
    static const struct test tests[] = {
        TEST(the_version_is_that_of_the_header),
        TEST(other_names_are_not_found),
        TEST(each_thread_loads_by_itself),
        TEST(a_library_that_was_closed_is_opened_again),
    };
    if (count != 2) {
        fputs("usage: opened LIBRARY\n", stderr);
        return 2;
    }
    path = words[1];
    return run_tests(tests, COUNT(tests));
}

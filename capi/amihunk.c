/*
 * The seam between amihunk.h and the exports of crates/amihunk_c: memory, loaders and linkers.
 */
#include "seam.h"

#include <string.h>

_Thread_local const amihunk_memory *current;

uint32_t none[1];

/* What the exports get when they ask for memory: whether there is some, and where; never NULL. */
struct taken {
    uint64_t ok;
    void *block;
};

static struct taken taken(void *block)
{
    static char nothing;
    return (struct taken){block != NULL, block != NULL ? block : &nothing};
}

struct taken rattle_alloc(size_t size, size_t align)
{
    return taken(current->allocate(current->context, size != 0 ? size : align, align));
}

void *resized(const amihunk_memory *memory, void *block, size_t kept, size_t size, size_t align)
{
    if (memory->resize != NULL) {
        return memory->resize(memory->context, block, kept, size, align);
    }
    void *moved = memory->allocate(memory->context, size, align);
    if (moved != NULL) {
        memcpy(moved, block, kept);
        memory->release(memory->context, block);
    }
    return moved;
}

struct taken rattle_realloc(void *block, size_t kept, size_t size, size_t align)
{
    return taken(resized(current, block, kept, size != 0 ? size : align, align));
}

void rattle_dealloc(void *block)
{
    current->release(current->context, block);
}

/* Of the room for a text, what is left without the zero byte after it. */
static size_t text_room(size_t size)
{
    return size != 0 ? size - 1 : 0;
}

/* Writes that byte after a text of this length, or after what there was room for. */
static size_t end_text(char *into, size_t size, uint64_t length)
{
    if (size != 0) {
        into[length < size ? length : size - 1] = 0;
    }
    return length;
}

/*
 * Writes the line of a refusal. It is made in a buffer here, and where that is too small, in the
 * memory of the handle. The buffer is an array of bytes, and buffer.c uses it as such; the exports,
 * which keep other types in its blocks, are not C, and C's rules on types do not bind them.
 */
size_t write_line(void **session, const amihunk_memory *memory, const char *file, char *into,
                  size_t size)
{
    char buffer[2048];
    amihunk_memory short_line = amihunk_in_buffer(buffer, sizeof(buffer));
    size_t file_size = file != NULL ? strlen(file) : 0;
    const amihunk_memory *before = enter(&short_line);
    uint64_t length =
        amihunk_c_refusal_line(session, items(file), file_size, room(into), text_room(size));
    if (length == 0) {
        current = memory;
        length =
            amihunk_c_refusal_line(session, items(file), file_size, room(into), text_room(size));
    }
    return end_text(into, size, leave(before, length));
}

void close_handle(void **session, amihunk_memory *memory)
{
    const amihunk_memory *before = enter(memory);
    amihunk_c_close(session);
    leave(before, 0);
    forget_lent(memory);
    *memory = (amihunk_memory){0};
}

const char *amihunk_version(void)
{
    return AMIHUNK_VERSION;
}

amihunk_status amihunk_loader_open(amihunk_loader *loader, amihunk_memory memory,
                                   const uint32_t *bases, size_t count)
{
    const amihunk_memory *before = enter(&memory);
    uint32_t status = leave(before, amihunk_c_open(&loader->session, items(bases), count));
    if (status == AMIHUNK_OK) {
        loader->memory = memory;
    }
    return status;
}

amihunk_status amihunk_loader_begin(amihunk_loader *loader, amihunk_memory memory)
{
    const amihunk_memory *before = enter(&memory);
    uint32_t status = leave(before, amihunk_c_begin(&loader->session));
    if (status == AMIHUNK_OK) {
        loader->memory = memory;
    }
    return status;
}

amihunk_status amihunk_loader_feed_header(amihunk_loader *loader, const void *piece, size_t size,
                                          size_t *taken, amihunk_answer *answer)
{
    amihunk_answer unwanted;
    uint64_t count = 0;
    const amihunk_memory *before = enter(&loader->memory);
    uint32_t status =
        leave(before, amihunk_c_feed_header(&loader->session, items(piece), size, &count,
                                            answer != NULL ? answer : &unwanted));
    *taken = count;
    return status;
}

amihunk_status amihunk_loader_table(amihunk_loader *loader, size_t hunk, amihunk_table *told)
{
    *told = (amihunk_table){0};
    const amihunk_memory *before = enter(&loader->memory);
    return leave(before, amihunk_c_table(&loader->session, hunk, told));
}

amihunk_status amihunk_loader_place(amihunk_loader *loader, const uint32_t *bases, size_t count,
                                    amihunk_answer *answer)
{
    amihunk_answer unwanted;
    const amihunk_memory *before = enter(&loader->memory);
    return leave(before, amihunk_c_place(&loader->session, items(bases), count,
                                         answer != NULL ? answer : &unwanted));
}

amihunk_status amihunk_loader_feed(amihunk_loader *loader, const void *piece, size_t size,
                                   amihunk_answer *answer)
{
    amihunk_answer unwanted;
    const amihunk_memory *before = enter(&loader->memory);
    return leave(before, amihunk_c_feed(&loader->session, items(piece), size,
                                        answer != NULL ? answer : &unwanted));
}

amihunk_status amihunk_loader_finish(amihunk_loader *loader, amihunk_answer *answer)
{
    amihunk_answer unwanted;
    const amihunk_memory *before = enter(&loader->memory);
    return leave(before, amihunk_c_finish(&loader->session, answer != NULL ? answer : &unwanted));
}

size_t amihunk_loader_hunk_count(amihunk_loader *loader)
{
    const amihunk_memory *before = enter(&loader->memory);
    return leave(before, amihunk_c_hunk_count(&loader->session));
}

amihunk_status amihunk_loader_get_hunk(amihunk_loader *loader, size_t hunk, amihunk_hunk *told)
{
    struct span span = {0};
    uint32_t base = 0;
    const amihunk_memory *before = enter(&loader->memory);
    uint32_t status = leave(before, amihunk_c_get_hunk(&loader->session, hunk, &span, &base));
    *told = (amihunk_hunk){span.bytes, span.size, base};
    return status;
}

amihunk_status amihunk_loader_find(amihunk_loader *loader, uint32_t address, amihunk_point *told)
{
    *told = (amihunk_point){0};
    const amihunk_memory *before = enter(&loader->memory);
    return leave(before, amihunk_c_find(&loader->session, address, told));
}

size_t amihunk_loader_read(amihunk_loader *loader, size_t hunk, uint64_t offset, void *into,
                           size_t size)
{
    const amihunk_memory *before = enter(&loader->memory);
    return leave(before, amihunk_c_read(&loader->session, hunk, offset, room(into), size));
}

size_t amihunk_loader_line(amihunk_loader *loader, const char *file, char *into, size_t size)
{
    return write_line(&loader->session, &loader->memory, file, into, size);
}

void amihunk_loader_close(amihunk_loader *loader)
{
    close_handle(&loader->session, &loader->memory);
}

amihunk_status amihunk_check_places(const uint32_t *sizes, size_t size_count, const uint32_t *bases,
                                    size_t base_count, amihunk_answer *answer)
{
    amihunk_answer unwanted;
    return amihunk_c_check_places(items(sizes), size_count, items(bases), base_count,
                                  answer != NULL ? answer : &unwanted);
}

amihunk_status amihunk_linker_open(amihunk_linker *linker, amihunk_memory memory,
                                   amihunk_options options)
{
    const amihunk_memory *before = enter(&memory);
    uint32_t status =
        leave(before, amihunk_c_open_linker(&linker->session, options.strip, options.short_form,
                                            options.trim, options.keep, options.key[0],
                                            options.key[1]));
    if (status == AMIHUNK_OK) {
        linker->memory = memory;
    }
    return status;
}

amihunk_status amihunk_linker_feed(amihunk_linker *linker, const void *piece, size_t size,
                                   amihunk_answer *answer)
{
    amihunk_answer unwanted;
    const amihunk_memory *before = enter(&linker->memory);
    return leave(before, amihunk_c_feed_input(&linker->session, items(piece), size,
                                              answer != NULL ? answer : &unwanted));
}

amihunk_status amihunk_linker_end_input(amihunk_linker *linker, amihunk_answer *answer)
{
    amihunk_answer unwanted;
    const amihunk_memory *before = enter(&linker->memory);
    return leave(before,
                 amihunk_c_end_input(&linker->session, answer != NULL ? answer : &unwanted));
}

amihunk_status amihunk_linker_finish(amihunk_linker *linker, amihunk_answer *answer)
{
    amihunk_answer unwanted;
    const amihunk_memory *before = enter(&linker->memory);
    return leave(before, amihunk_c_link(&linker->session, answer != NULL ? answer : &unwanted));
}

amihunk_status amihunk_linker_get_file(amihunk_linker *linker, amihunk_bytes *told)
{
    struct span span = {0};
    const amihunk_memory *before = enter(&linker->memory);
    uint32_t status = leave(before, amihunk_c_get_linked(&linker->session, &span));
    *told = (amihunk_bytes){span.bytes, span.size};
    return status;
}

size_t amihunk_linker_read(amihunk_linker *linker, uint64_t offset, void *into, size_t size)
{
    const amihunk_memory *before = enter(&linker->memory);
    return leave(before, amihunk_c_read_linked(&linker->session, offset, room(into), size));
}

size_t amihunk_linker_name(amihunk_linker *linker, char *into, size_t size)
{
    const amihunk_memory *before = enter(&linker->memory);
    uint64_t length =
        leave(before, amihunk_c_refusal_name(&linker->session, room(into), text_room(size)));
    return end_text(into, size, length);
}

size_t amihunk_linker_line(amihunk_linker *linker, const char *file, char *into, size_t size)
{
    return write_line(&linker->session, &linker->memory, file, into, size);
}

amihunk_status amihunk_linker_get_undefined(amihunk_linker *linker, size_t index,
                                            amihunk_undefined *told)
{
    *told = (amihunk_undefined){0};
    const amihunk_memory *before = enter(&linker->memory);
    return leave(before, amihunk_c_undefined(&linker->session, index, told));
}

/* How many bytes the names take, each with the zero byte after it. */
static size_t names_size(const char *const *names, size_t count)
{
    size_t size = 0;
    for (size_t i = 0; i < count; i++) {
        size += 1 + (names[i] != NULL ? strlen(names[i]) : 0);
    }
    return size;
}

/* Puts the names one after another, each with the zero byte after it. */
static void join_names(const char *const *names, size_t count, char *joined)
{
    for (size_t i = 0; i < count; i++) {
        size_t length = names[i] != NULL ? strlen(names[i]) : 0;
        if (length != 0) {
            memcpy(joined, names[i], length);
        }
        joined[length] = 0;
        joined += length + 1;
    }
}

size_t amihunk_linker_map(amihunk_linker *linker, const char *const *names, size_t count,
                          char *into, size_t size)
{
    const amihunk_memory *memory = &linker->memory;
    size_t joined_size = names != NULL ? names_size(names, count) : 0;
    char *joined = NULL;
    if (linker->session != NULL && joined_size != 0) {
        joined = memory->allocate(memory->context, joined_size, 1);
        if (joined == NULL) {
            return end_text(into, size, 0);
        }
        join_names(names, count, joined);
    }
    const amihunk_memory *before = enter(memory);
    uint64_t length =
        leave(before, amihunk_c_map(&linker->session, items(joined),
                                    joined != NULL ? joined_size : 0, room(into),
                                    text_room(size)));
    if (joined != NULL) {
        memory->release(memory->context, joined);
    }
    return end_text(into, size, length);
}

void amihunk_linker_close(amihunk_linker *linker)
{
    close_handle(&linker->session, &linker->memory);
}

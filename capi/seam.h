/*
 * What the parts of the seam between amihunk.h and the exports of crates/amihunk_c share. The seam
 * says which memory a call takes, and passes no NULL on. All else is done, and proved, by the
 * exports.
 */
#ifndef SEAM_H
#define SEAM_H

#include "amihunk.h"

/*
 * The exports. A handle is one pointer; items are a pointer that is never NULL, and their number.
 */
struct span {
    const uint8_t *bytes;
    uint64_t size;
};

uint32_t amihunk_c_open(void **session, const uint32_t *bases, size_t count);
uint32_t amihunk_c_begin(void **session);
uint32_t amihunk_c_feed_header(void **session, const uint8_t *piece, size_t size, uint64_t *taken,
                               amihunk_answer *answer);
uint32_t amihunk_c_table(void **session, uint64_t hunk, amihunk_table *told);
uint32_t amihunk_c_reserve_rooms(void **session);
uint32_t amihunk_c_add_room(void **session);
void amihunk_c_forget_rooms(void **session);
uint32_t amihunk_c_place(void **session, const uint32_t *bases, size_t count,
                         amihunk_answer *answer);
uint32_t amihunk_c_feed(void **session, const uint8_t *piece, size_t size, amihunk_answer *answer);
uint32_t amihunk_c_finish(void **session, amihunk_answer *answer);
uint64_t amihunk_c_hunk_count(void **session);
uint32_t amihunk_c_get_hunk(void **session, uint64_t hunk, struct span *span, uint32_t *base);
uint64_t amihunk_c_read(void **session, uint64_t hunk, uint64_t offset, uint8_t *into, size_t size);
uint32_t amihunk_c_find(void **session, uint32_t address, amihunk_point *told);
void amihunk_c_close(void **session);
uint32_t amihunk_c_open_file(void **session);
uint32_t amihunk_c_feed_file(void **session, const uint8_t *piece, size_t size,
                             amihunk_answer *answer);
uint32_t amihunk_c_finish_file(void **session, amihunk_answer *answer);
uint32_t amihunk_c_load_file(void **loader, void **file, const uint32_t *bases, size_t count,
                             amihunk_answer *answer);
uint32_t amihunk_c_contents(void **session, amihunk_contents *told);
uint32_t amihunk_c_unit(void **session, uint64_t unit, amihunk_unit *told);
uint32_t amihunk_c_hunk(void **session, uint64_t unit, uint64_t hunk, amihunk_file_hunk *told);
uint32_t amihunk_c_site(void **session, uint64_t unit, uint64_t hunk, uint64_t index,
                        amihunk_site *told);
uint32_t amihunk_c_symbol(void **session, uint64_t unit, uint64_t hunk, uint64_t index,
                          amihunk_symbol *told);
uint32_t amihunk_c_definition(void **session, uint64_t unit, uint64_t hunk, uint64_t index,
                              amihunk_definition *told);
uint32_t amihunk_c_reference(void **session, uint64_t unit, uint64_t hunk, uint64_t index,
                             amihunk_bytes *told);
uint32_t amihunk_c_debug(void **session, uint64_t unit, uint64_t hunk, uint64_t index,
                         amihunk_debug *told);
uint32_t amihunk_c_symbol_before(void **session, uint64_t unit, uint64_t hunk, uint32_t offset,
                                 amihunk_symbol *told);
uint32_t amihunk_c_compare(void **first, void **second, bool with_symbols,
                           amihunk_difference *told);
uint32_t amihunk_c_compare_with_itself(void **session, bool with_symbols, amihunk_difference *told);
uint32_t amihunk_c_check_places(const uint32_t *sizes, size_t size_count, const uint32_t *bases,
                                size_t base_count, amihunk_answer *answer);
uint32_t amihunk_c_open_linker(void **session, bool strip, bool short_form, bool trim, bool keep,
                               uint64_t key0, uint64_t key1);
uint32_t amihunk_c_feed_input(void **session, const uint8_t *piece, size_t size,
                              amihunk_answer *answer);
uint32_t amihunk_c_end_input(void **session, amihunk_answer *answer);
uint32_t amihunk_c_link(void **session, amihunk_answer *answer);
uint32_t amihunk_c_get_linked(void **session, struct span *span);
uint64_t amihunk_c_read_linked(void **session, uint64_t offset, uint8_t *into, size_t size);
uint32_t amihunk_c_undefined(void **session, uint64_t index, amihunk_undefined *told);
uint64_t amihunk_c_map(void **session, const uint8_t *names, size_t names_size, uint8_t *into,
                       size_t size);
uint64_t amihunk_c_refusal_name(void **session, uint8_t *into, size_t size);
uint64_t amihunk_c_refusal_line(void **session, const uint8_t *file, size_t file_size,
                                uint8_t *into, size_t size);

/* The memory of the handle whose call runs on this thread. */
extern _Thread_local const amihunk_memory *current;

/* Makes a memory the current one, and returns the one before, which `leave` puts back. */
static inline const amihunk_memory *enter(const amihunk_memory *memory)
{
    const amihunk_memory *before = current;
    current = memory;
    return before;
}

static inline uint64_t leave(const amihunk_memory *before, uint64_t result)
{
    current = before;
    return result;
}

/* Where no items are, and where none are written. */
extern uint32_t none[1];

static inline const void *items(const void *given)
{
    return given != NULL ? given : none;
}

static inline void *room(void *given)
{
    return given != NULL ? given : none;
}

/* Makes a block of a memory longer or shorter, in another place if need be. */
void *resized(const amihunk_memory *memory, void *block, size_t kept, size_t size, size_t align);

/* Writes the line of a refusal, as amihunk_loader_line says it. */
size_t write_line(void **session, const amihunk_memory *memory, const char *file, char *into,
                  size_t size);

void close_handle(void **session, amihunk_memory *memory);

/* Releases the list of blocks that a memory was lent by amihunk_loader_place_into, if it was. */
void forget_lent(const amihunk_memory *memory);

#endif

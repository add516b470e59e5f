/*
 * The seam between amihunk.h and the exports of crates/amihunk_c: files to look into.
 */
#include "seam.h"

amihunk_status amihunk_file_open(amihunk_file *file, amihunk_memory memory)
{
    const amihunk_memory *before = enter(&memory);
    uint32_t status = leave(before, amihunk_c_open_file(&file->session));
    if (status == AMIHUNK_OK) {
        file->memory = memory;
    }
    return status;
}

amihunk_status amihunk_file_feed(amihunk_file *file, const void *piece, size_t size,
                                 amihunk_answer *answer)
{
    amihunk_answer unwanted;
    const amihunk_memory *before = enter(&file->memory);
    return leave(before, amihunk_c_feed_file(&file->session, items(piece), size,
                                             answer != NULL ? answer : &unwanted));
}

amihunk_status amihunk_file_finish(amihunk_file *file, amihunk_answer *answer)
{
    amihunk_answer unwanted;
    const amihunk_memory *before = enter(&file->memory);
    return leave(before,
                 amihunk_c_finish_file(&file->session, answer != NULL ? answer : &unwanted));
}

amihunk_status amihunk_file_get_contents(amihunk_file *file, amihunk_contents *told)
{
    *told = (amihunk_contents){0};
    const amihunk_memory *before = enter(&file->memory);
    return leave(before, amihunk_c_contents(&file->session, told));
}

amihunk_status amihunk_file_get_unit(amihunk_file *file, size_t unit, amihunk_unit *told)
{
    *told = (amihunk_unit){0};
    const amihunk_memory *before = enter(&file->memory);
    return leave(before, amihunk_c_unit(&file->session, unit, told));
}

amihunk_status amihunk_file_get_hunk(amihunk_file *file, size_t unit, size_t hunk,
                                     amihunk_file_hunk *told)
{
    *told = (amihunk_file_hunk){0};
    const amihunk_memory *before = enter(&file->memory);
    return leave(before, amihunk_c_hunk(&file->session, unit, hunk, told));
}

amihunk_status amihunk_file_get_site(amihunk_file *file, size_t unit, size_t hunk, size_t index,
                                     amihunk_site *told)
{
    *told = (amihunk_site){0};
    const amihunk_memory *before = enter(&file->memory);
    return leave(before, amihunk_c_site(&file->session, unit, hunk, index, told));
}

amihunk_status amihunk_file_get_symbol(amihunk_file *file, size_t unit, size_t hunk, size_t index,
                                       amihunk_symbol *told)
{
    *told = (amihunk_symbol){0};
    const amihunk_memory *before = enter(&file->memory);
    return leave(before, amihunk_c_symbol(&file->session, unit, hunk, index, told));
}

amihunk_status amihunk_file_get_definition(amihunk_file *file, size_t unit, size_t hunk,
                                           size_t index, amihunk_definition *told)
{
    *told = (amihunk_definition){0};
    const amihunk_memory *before = enter(&file->memory);
    return leave(before, amihunk_c_definition(&file->session, unit, hunk, index, told));
}

amihunk_status amihunk_file_get_reference(amihunk_file *file, size_t unit, size_t hunk,
                                          size_t index, amihunk_bytes *told)
{
    *told = (amihunk_bytes){0};
    const amihunk_memory *before = enter(&file->memory);
    return leave(before, amihunk_c_reference(&file->session, unit, hunk, index, told));
}

amihunk_status amihunk_file_get_debug(amihunk_file *file, size_t unit, size_t hunk, size_t index,
                                      amihunk_debug *told)
{
    *told = (amihunk_debug){0};
    const amihunk_memory *before = enter(&file->memory);
    return leave(before, amihunk_c_debug(&file->session, unit, hunk, index, told));
}

amihunk_status amihunk_file_symbol_before(amihunk_file *file, size_t unit, size_t hunk,
                                          uint32_t offset, amihunk_symbol *told)
{
    *told = (amihunk_symbol){0};
    const amihunk_memory *before = enter(&file->memory);
    return leave(before, amihunk_c_symbol_before(&file->session, unit, hunk, offset, told));
}

/* Nothing is allocated, so it does not matter whose memory is the current one. */
amihunk_status amihunk_file_compare(amihunk_file *first, amihunk_file *second, bool with_symbols,
                                    amihunk_difference *told)
{
    *told = (amihunk_difference){0};
    const amihunk_memory *before = enter(&first->memory);
    if (first == second) {
        return leave(before, amihunk_c_compare_with_itself(&first->session, with_symbols, told));
    }
    return leave(before, amihunk_c_compare(&first->session, &second->session, with_symbols, told));
}

size_t amihunk_file_line(amihunk_file *file, const char *name, char *into, size_t size)
{
    return write_line(&file->session, &file->memory, name, into, size);
}

void amihunk_file_close(amihunk_file *file)
{
    close_handle(&file->session, &file->memory);
}

/* What is kept of the file is not touched, so all that is allocated is the loader's. */
amihunk_status amihunk_loader_load(amihunk_loader *loader, amihunk_memory memory,
                                   amihunk_file *file, const uint32_t *bases, size_t count,
                                   amihunk_answer *answer)
{
    amihunk_answer unwanted;
    const amihunk_memory *before = enter(&memory);
    uint32_t status = leave(before, amihunk_c_load_file(&loader->session, &file->session,
                                                        items(bases), count,
                                                        answer != NULL ? answer : &unwanted));
    if (status == AMIHUNK_OK) {
        loader->memory = memory;
    }
    return status;
}

// The header in C++: every call of it, by a link that is then loaded.
#include "amihunk.h"
#include "amihunk.h"

#include <cstdio>
#include <cstring>
#include <vector>

static const unsigned char object[] = {0, 0,    3, 0xE7, 0, 0,    0, 0, 0, 0,    3, 0xE9, 0, 0,
                                       0, 1,    0, 0,    0, 8,    0, 0, 3, 0xEC, 0, 0,    0, 1,
                                       0, 0,    0, 1,    0, 0,    0, 0, 0, 0,    0, 0,    0, 0,
                                       3, 0xF2, 0, 0,    3, 0xEB, 0, 0, 0, 4,    0, 0,    3, 0xF2};

static bool loads_by_sizes(const std::vector<unsigned char> &file)
{
    const uint32_t bases[] = {0x1000, 0x2000};
    amihunk_answer answer;
    amihunk_loader loader = {};
    amihunk_table table;
    std::size_t taken = 0;
    bool good = amihunk_loader_begin(&loader, amihunk_from_malloc()) == AMIHUNK_OK &&
                amihunk_loader_feed_header(&loader, file.data(), file.size(), &taken, &answer) ==
                    AMIHUNK_NEEDS_BASES &&
                taken == 28 && amihunk_loader_table(&loader, 1, &table) == AMIHUNK_OK &&
                table.hunks == 2 && table.size == 4 && table.memory == AMIHUNK_ANY_MEMORY;
    good = good && amihunk_loader_place(&loader, bases, 2, &answer) == AMIHUNK_OK &&
           amihunk_loader_feed(&loader, file.data() + taken, file.size() - taken, &answer) ==
               AMIHUNK_OK &&
           amihunk_loader_finish(&loader, &answer) == AMIHUNK_OK &&
           amihunk_loader_hunk_count(&loader) == 2;
    amihunk_loader_close(&loader);
    return good;
}

static bool loads_into_places(const std::vector<unsigned char> &file)
{
    unsigned char first[4], second[16];
    const amihunk_place places[] = {{first, 0x1000}, {second, 0x2000}};
    amihunk_answer answer;
    amihunk_loader loader = {};
    amihunk_point point;
    std::size_t taken = 0;
    bool good = amihunk_loader_begin(&loader, amihunk_from_malloc()) == AMIHUNK_OK &&
                amihunk_loader_feed_header(&loader, file.data(), file.size(), &taken, &answer) ==
                    AMIHUNK_NEEDS_BASES &&
                amihunk_loader_place_into(&loader, places, 2, &answer) == AMIHUNK_OK &&
                amihunk_loader_feed(&loader, file.data() + taken, file.size() - taken, &answer) ==
                    AMIHUNK_OK &&
                amihunk_loader_finish(&loader, &answer) == AMIHUNK_OK &&
                std::memcmp(first, "\0\0\x20\x08", 4) == 0 &&
                amihunk_loader_find(&loader, 0x200F, &point) == AMIHUNK_OK && point.hunk == 1 &&
                point.offset == 15;
    amihunk_loader_close(&loader);
    return good;
}

// What is told of the object file.
static bool looks_into_object()
{
    amihunk_answer answer;
    amihunk_file file = {};
    amihunk_contents contents;
    amihunk_unit unit;
    amihunk_file_hunk hunk;
    amihunk_site site;
    amihunk_symbol symbol;
    amihunk_definition definition;
    amihunk_bytes reference;
    amihunk_debug debug;
    bool good =
        amihunk_file_open(&file, amihunk_from_malloc()) == AMIHUNK_OK &&
        amihunk_file_feed(&file, object, sizeof object, &answer) == AMIHUNK_OK &&
        amihunk_file_finish(&file, &answer) == AMIHUNK_OK &&
        amihunk_file_get_contents(&file, &contents) == AMIHUNK_OK && contents.units == 1 &&
        contents.kind == AMIHUNK_OBJECT_FILE &&
        amihunk_file_get_unit(&file, 0, &unit) == AMIHUNK_OK && unit.hunks == 2 &&
        amihunk_file_get_hunk(&file, 0, 0, &hunk) == AMIHUNK_OK && hunk.kind == AMIHUNK_CODE &&
        hunk.size == 1 && hunk.stored.size == 4 &&
        amihunk_file_get_site(&file, 0, 0, 0, &site) == AMIHUNK_OK && site.offset == 0 &&
        site.kind == AMIHUNK_ADDS_HUNK && site.target == 1 &&
        amihunk_file_get_symbol(&file, 0, 0, 0, &symbol) == AMIHUNK_OUT_OF_RANGE &&
        amihunk_file_symbol_before(&file, 0, 0, 0, &symbol) == AMIHUNK_OUT_OF_RANGE &&
        amihunk_file_get_definition(&file, 0, 0, 0, &definition) == AMIHUNK_OUT_OF_RANGE &&
        amihunk_file_get_reference(&file, 0, 0, 0, &reference) == AMIHUNK_OUT_OF_RANGE &&
        amihunk_file_get_debug(&file, 0, 0, 0, &debug) == AMIHUNK_OUT_OF_RANGE &&
        amihunk_file_line(&file, "x", nullptr, 0) == 0;
    amihunk_file_close(&file);
    return good;
}

// A load file that is read, compared, and then loaded.
static bool loads_from_file(const std::vector<unsigned char> &bytes)
{
    const uint32_t bases[] = {0x1000, 0x2000};
    amihunk_answer answer;
    amihunk_file file = {};
    amihunk_loader loader = {};
    amihunk_difference difference;
    bool good = amihunk_file_open(&file, amihunk_from_malloc()) == AMIHUNK_OK &&
                amihunk_file_feed(&file, bytes.data(), bytes.size(), &answer) == AMIHUNK_OK &&
                amihunk_file_finish(&file, &answer) == AMIHUNK_OK &&
                amihunk_file_compare(&file, &file, true, &difference) == AMIHUNK_OK &&
                difference.kind == AMIHUNK_SAME && difference.first != AMIHUNK_NO_SITE &&
                amihunk_loader_load(&loader, amihunk_from_malloc(), &file, bases, 2, &answer) ==
                    AMIHUNK_OK &&
                amihunk_loader_hunk_count(&loader) == 2;
    amihunk_file_close(&file);
    amihunk_loader_close(&loader);
    return good;
}

// What a linker keeps: it is linked here, so that no name is missing.
static bool keeps_what_it_links()
{
    static const char expected[] = "hunk 0 code any 1 longwords x.o unit 0 \"\" hunk 0 \"\"\n"
                                   "hunk 1 bss any 4 longwords x.o unit 0 \"\" hunk 1 \"\"\n";
    const char *const names[] = {"x.o"};
    char map[sizeof expected];
    amihunk_answer answer;
    amihunk_options options = {false, false, false, true, {1, 2}};
    amihunk_linker linker = {};
    amihunk_undefined undefined;
    bool good = amihunk_linker_open(&linker, amihunk_from_malloc(), options) == AMIHUNK_OK &&
                amihunk_linker_feed(&linker, object, sizeof object, &answer) == AMIHUNK_OK &&
                amihunk_linker_end_input(&linker, &answer) == AMIHUNK_OK &&
                amihunk_linker_finish(&linker, &answer) == AMIHUNK_OK &&
                amihunk_linker_map(&linker, names, 1, map, sizeof map) == sizeof map - 1 &&
                std::strcmp(map, expected) == 0 &&
                amihunk_linker_get_undefined(&linker, 0, &undefined) == AMIHUNK_WRONG_STATE &&
                undefined.name.size == 0 && undefined.references == 0;
    amihunk_linker_close(&linker);
    return good;
}

static bool links_and_loads()
{
    static unsigned char room[16384];
    const uint32_t sizes[] = {1, 4}, bases[] = {0x1000, 0x2000};
    amihunk_answer answer;
    amihunk_options options = {true, false, true, false, {0, 0}};
    amihunk_linker linker = {};
    amihunk_loader loader = {};
    bool good = amihunk_linker_open(&linker, amihunk_from_malloc(), options) == AMIHUNK_OK &&
                amihunk_linker_feed(&linker, object, sizeof object, &answer) == AMIHUNK_OK &&
                amihunk_linker_end_input(&linker, &answer) == AMIHUNK_OK &&
                amihunk_linker_finish(&linker, &answer) == AMIHUNK_OK;
    amihunk_bytes file;
    good = good && amihunk_linker_get_file(&linker, &file) == AMIHUNK_OK;
    std::vector<unsigned char> copy(good ? file.size : 0);
    good = good && amihunk_linker_read(&linker, 0, copy.data(), copy.size()) == copy.size() &&
           std::memcmp(copy.data(), file.bytes, copy.size()) == 0;
    good = good && amihunk_check_places(sizes, 2, bases, 2, &answer) == AMIHUNK_OK &&
           amihunk_loader_open(&loader, amihunk_in_buffer(room, sizeof room), bases, 2) ==
               AMIHUNK_OK &&
           amihunk_loader_feed(&loader, copy.data(), copy.size(), &answer) == AMIHUNK_OK &&
           amihunk_loader_finish(&loader, &answer) == AMIHUNK_OK &&
           amihunk_loader_hunk_count(&loader) == 2;
    amihunk_hunk hunk;
    good = good && amihunk_loader_get_hunk(&loader, 0, &hunk) == AMIHUNK_OK &&
           hunk.base == 0x1000 && hunk.size == 4 && std::memcmp(hunk.bytes, "\0\0\x20\x08", 4) == 0;
    unsigned char bytes[16];
    good = good && amihunk_loader_read(&loader, 1, 0, bytes, 16) == 16;
    good = good && loads_by_sizes(copy) && loads_into_places(copy) && loads_from_file(copy);
    good = good && amihunk_loader_line(&loader, "x", nullptr, 0) == 0 &&
           amihunk_linker_name(&linker, nullptr, 0) == 0 &&
           amihunk_linker_line(&linker, "x", nullptr, 0) == 0;
    amihunk_loader_close(&loader);
    amihunk_linker_close(&linker);
    return good;
}

int main()
{
    bool good = links_and_loads() && keeps_what_it_links() && looks_into_object() &&
                std::strcmp(amihunk_version(), AMIHUNK_VERSION) == 0;
    std::printf("%s a_cpp_program_links_and_loads\nran 1\n", good ? "ok" : "FAILED");
    return good ? 0 : 1;
}

/*
 * Two files in which there is everything that a file may have, what is in them by the format, and a
 * check that a file handle tells that, and nothing else.
 */
#ifndef FACTS_H
#define FACTS_H

#include "check.h"

/* ------------------------------ The files ------------------------------ */

/*
 * An object file of three units: the first with three hunks, the second with none and without a
 * name, the third with one.
 */
static inline struct file object_of_all(void)
{
    return LONGWORDS(
        0x3E7, 2, 0x66697273, 0x74000000,               /* the unit "first" */
        0x3E8, 1, 0x434F4445,                           /* the hunk "CODE" */
        0x400003E9, 0x80000008,                         /* code in chip memory; 8 longwords */
        1, 2, 3, 4, 5, 0x4E714E71, 7, 0x4E754E71,       /* these */
        0x3EC, 2, 1, 28, 2, 1, 7, 13, 0,                /* hunk 1 at 28 and 2, hunk 7 at 13 */
        0x3EF, 0x01000001, 0x6D61696E, 4,               /* "main" is at 4 */
        0x81000002, 0x7072696E, 0x74000000, 2, 17, 8,   /* "print" is added at 17 and 8 */
        0x81000001, 0x6E6F6E65, 0,                      /* "none" is added nowhere */
        0x02000002, 0x73697A65, 0x00666F6F, 0x80000000, /* "size" is a number */
        0x81000002, 0x7072696E, 0x74000000, 1, 24, 0,   /* "print" is added at 24, too */
        0x3F0, 1, 0x6C6F6F70, 6,                        /* the symbol "loop" */
        2, 0x61FF6761, 0x696E0000, 0, 0,                /* and "a\xFFgain" */
        0x3F1, 2, 0, 0x4C494E45,                        /* a debug block */
        0x3F1, 0,                                       /* an empty one */
        0x3EF, 0x01000000, 0xFFFFFFFF, 0,               /* a name without letters is at FFFFFFFF */
        0x3F0, 1, 0, 0xFFFFFFFF, 0,                     /* a symbol without letters */
        0x3F1, 1, 0x12345678, 0x3F2,                    /* a third debug block */
        0x3E8, 0,                                       /* a name of a hunk without letters */
        0x800003EA, 2, 0x68656C6C, 0x6F000000, 0x3F2,   /* data in fast memory */
        0x3EB, 5, 0x3F0, 1, 0x62756600, 4, 0, 0x3F2,    /* zeros, with a symbol "buf" */
        0x3E7, 0,                                       /* a unit of nothing */
        0x3E7, 1, 0x78000000, 0x3E9, 0, 0x3F2);         /* the unit "x", with a hunk of nothing */
}

/* A load file of four hunks, the last of which is empty. */
static inline struct file load_of_all(void)
{
    return LONGWORDS(
        0x3F3, 0, 4, 0, 3, 6, 0x40000002, 0x80000003, 0, /* any, chip and fast memory */
        0x3E8, 1, 0x64726F70,                            /* a name, which is dropped */
        0x3E9, 2, 0x207C0000, 0x00004EB9,                /* two longwords of six */
        0x3EC, 1, 1, 20, 0,                              /* hunk 1 at 20, in the zeros */
        0x3FC, 0x00020000, 0x00080002,                   /* hunk 0 at 8 and 2 */
        0x00010002, 0x000D0000,                          /* hunk 2 at 13 */
        0x3F0, 1, 0x6D61696E, 0, 1, 0x73756200, 14,      /* the symbols "main" and "sub" */
        1, 0x73756232, 6, 0,                             /* and "sub2" */
        0x3F1, 2, 0x6C696E65, 0x00010002,                /* a debug block */
        0x3F1, 0,                                        /* an empty one */
        0x3F1, 1, 0xFFFFFFFF, 0x3F2,                     /* a third */
        0x3EA, 2, 0x68756E6B, 0xFFFFFFFF,                /* as many as there is room for */
        0x3FC, 0x00020003, 0x00040000, 0x0000FFFF,       /* hunk 3 at 4 and 0, and a pad word */
        0x3F2, 0x3EB, 1, 0x3F0, 2, 0x61000000,           /* zeros, with a symbol "a" */
        0x62636465, 0x7FFFFFFF, 0, 0x3F2,                /* that has more after its end */
        0x3E9, 0, 0x3F2);                                /* nothing */
}

/* ------------------------------ What is in them ------------------------------ */

struct text {
    const char *bytes;
    uint64_t size;
};

#define TEXT(literal)                \
    {                                \
        literal, sizeof(literal) - 1 \
    }

struct hunk_facts {
    uint32_t kind, memory, size; /* the size in longwords */
    struct text name, stored;
    uint64_t sites, symbols, definitions, references, debugs;
    struct {
        uint32_t offset, kind, target;
    } site[6];
    struct {
        struct text name;
        uint32_t value;
    } symbol[3];
    struct {
        struct text name;
        uint32_t value, absolute;
    } definition[3];
    struct text reference[2];
    struct {
        uint32_t longwords[2];
        uint64_t size;
    } debug[3];
};

struct unit_facts {
    struct text name;
    uint64_t hunks;
    struct hunk_facts hunk[4];
};

struct facts {
    uint32_t kind;
    uint64_t units;
    struct unit_facts unit[3];
};

static const struct facts object_facts = {
    .kind = AMIHUNK_OBJECT_FILE,
    .units = 3,
    .unit = {
        {.name = TEXT("first"),
         .hunks = 3,
         .hunk = {{.kind = AMIHUNK_CODE,
                   .memory = AMIHUNK_CHIP_MEMORY,
                   .size = 8,
                   .name = TEXT("CODE"),
                   .stored = TEXT("\0\0\0\1\0\0\0\2\0\0\0\3\0\0\0\4\0\0\0\5\x4E\x71\x4E\x71"
                                  "\0\0\0\7\x4E\x75\x4E\x71"),
                   .sites = 6,
                   .site = {{2, AMIHUNK_ADDS_HUNK, 1},
                            {8, AMIHUNK_ADDS_NAME, 0},
                            {13, AMIHUNK_ADDS_HUNK, 7},
                            {17, AMIHUNK_ADDS_NAME, 0},
                            {24, AMIHUNK_ADDS_NAME, 1},
                            {28, AMIHUNK_ADDS_HUNK, 1}},
                   .symbols = 3,
                   .symbol = {{TEXT("loop"), 6}, {TEXT("a\xFFgain"), 0}, {TEXT(""), 0xFFFFFFFF}},
                   .definitions = 3,
                   .definition = {{TEXT("main"), 4, 0},
                                  {TEXT("size"), 0x80000000, 1},
                                  {TEXT(""), 0xFFFFFFFF, 0}},
                   .references = 2,
                   .reference = {TEXT("print"), TEXT("print")},
                   .debugs = 3,
                   .debug = {{{0, 0x4C494E45}, 2}, {{0}, 0}, {{0x12345678}, 1}}},
                  {.kind = AMIHUNK_DATA,
                   .memory = AMIHUNK_FAST_MEMORY,
                   .size = 2,
                   .name = TEXT(""),
                   .stored = TEXT("hello\0\0\0")},
                  {.kind = AMIHUNK_BSS,
                   .memory = AMIHUNK_ANY_MEMORY,
                   .size = 5,
                   .symbols = 1,
                   .symbol = {{TEXT("buf"), 4}}}}},
        {.name = TEXT(""), .hunks = 0},
        {.name = TEXT("x"), .hunks = 1, .hunk = {{.kind = AMIHUNK_CODE}}}}};

static const struct facts load_facts = {
    .kind = AMIHUNK_LOAD_FILE,
    .units = 1,
    .unit = {{.hunks = 4,
              .hunk = {{.kind = AMIHUNK_CODE,
                        .memory = AMIHUNK_ANY_MEMORY,
                        .size = 6,
                        .stored = TEXT("\x20\x7C\0\0\0\0\x4E\xB9"),
                        .sites = 4,
                        .site = {{2, AMIHUNK_ADDS_HUNK, 0},
                                 {8, AMIHUNK_ADDS_HUNK, 0},
                                 {13, AMIHUNK_ADDS_HUNK, 2},
                                 {20, AMIHUNK_ADDS_HUNK, 1}},
                        .symbols = 3,
                        .symbol = {{TEXT("main"), 0}, {TEXT("sub"), 14}, {TEXT("sub2"), 6}},
                        .debugs = 3,
                        .debug = {{{0x6C696E65, 0x00010002}, 2}, {{0}, 0}, {{0xFFFFFFFF}, 1}}},
                       {.kind = AMIHUNK_DATA,
                        .memory = AMIHUNK_CHIP_MEMORY,
                        .size = 2,
                        .stored = TEXT("hunk\xFF\xFF\xFF\xFF"),
                        .sites = 2,
                        .site = {{0, AMIHUNK_ADDS_HUNK, 3}, {4, AMIHUNK_ADDS_HUNK, 3}}},
                       {.kind = AMIHUNK_BSS,
                        .memory = AMIHUNK_FAST_MEMORY,
                        .size = 3,
                        .symbols = 1,
                        .symbol = {{TEXT("a"), 0x7FFFFFFF}}},
                       {.kind = AMIHUNK_CODE}}}}};

/* ------------------------------ What is told ------------------------------ */

static inline int is_text(amihunk_bytes told, struct text expected)
{
    return told.bytes != NULL && told.size == expected.size &&
           (expected.size == 0 || memcmp(told.bytes, expected.bytes, expected.size) == 0);
}

/* Sites, definitions and references. */
static inline void check_links(amihunk_file *file, size_t unit, size_t hunk,
                               const struct hunk_facts *facts)
{
    for (size_t i = 0; i < facts->sites; i++) {
        amihunk_site told = {7, 7, 7};
        CHECK(amihunk_file_get_site(file, unit, hunk, i, &told) == AMIHUNK_OK);
        CHECK(told.offset == facts->site[i].offset && told.kind == facts->site[i].kind &&
              told.target == facts->site[i].target);
    }
    for (size_t i = 0; i < facts->definitions; i++) {
        amihunk_definition told = {{NULL, 7}, 7, 7};
        CHECK(amihunk_file_get_definition(file, unit, hunk, i, &told) == AMIHUNK_OK);
        CHECK(is_text(told.name, facts->definition[i].name) &&
              told.value == facts->definition[i].value &&
              told.absolute == facts->definition[i].absolute);
    }
    for (size_t i = 0; i < facts->references; i++) {
        amihunk_bytes told = {NULL, 7};
        CHECK(amihunk_file_get_reference(file, unit, hunk, i, &told) == AMIHUNK_OK);
        CHECK(is_text(told, facts->reference[i]));
    }
}

/* Symbols and debug blocks. */
static inline void check_debugging(amihunk_file *file, size_t unit, size_t hunk,
                                   const struct hunk_facts *facts)
{
    for (size_t i = 0; i < facts->symbols; i++) {
        amihunk_symbol told = {{NULL, 7}, 7};
        CHECK(amihunk_file_get_symbol(file, unit, hunk, i, &told) == AMIHUNK_OK);
        CHECK(is_text(told.name, facts->symbol[i].name) && told.value == facts->symbol[i].value);
    }
    for (size_t i = 0; i < facts->debugs; i++) {
        amihunk_debug told = {NULL, 7};
        CHECK(amihunk_file_get_debug(file, unit, hunk, i, &told) == AMIHUNK_OK);
        CHECK(told.longwords != NULL && told.size == facts->debug[i].size &&
              memcmp(told.longwords, facts->debug[i].longwords, 4 * told.size) == 0);
    }
}

static inline void check_hunk_facts(amihunk_file *file, size_t unit, size_t hunk,
                                    const struct hunk_facts *facts)
{
    amihunk_file_hunk told;
    memset(&told, 0xEE, sizeof(told));
    CHECK(amihunk_file_get_hunk(file, unit, hunk, &told) == AMIHUNK_OK);
    CHECK(is_text(told.name, facts->name));
    CHECK(is_text(told.stored, facts->stored));
    CHECK(told.sites == facts->sites && told.symbols == facts->symbols);
    CHECK(told.definitions == facts->definitions && told.references == facts->references);
    CHECK(told.debug_blocks == facts->debugs);
    CHECK(told.size == facts->size && told.kind == facts->kind && told.memory == facts->memory);
    check_links(file, unit, hunk, facts);
    check_debugging(file, unit, hunk, facts);
}

/* A file that is read tells these facts. */
static inline void check_facts(amihunk_file *file, const struct facts *facts)
{
    amihunk_contents contents = {7, 7};
    CHECK(amihunk_file_get_contents(file, &contents) == AMIHUNK_OK);
    CHECK(contents.units == facts->units && contents.kind == facts->kind);
    for (size_t unit = 0; unit < facts->units; unit++) {
        amihunk_unit told = {{NULL, 7}, 7};
        CHECK(amihunk_file_get_unit(file, unit, &told) == AMIHUNK_OK);
        CHECK(is_text(told.name, facts->unit[unit].name));
        CHECK(told.hunks == facts->unit[unit].hunks);
        for (size_t hunk = 0; hunk < facts->unit[unit].hunks; hunk++) {
            check_hunk_facts(file, unit, hunk, &facts->unit[unit].hunk[hunk]);
        }
    }
}

/* Feeds a file in pieces of `most` bytes up to the first refusal, and finishes. 0: in one piece. */
static inline amihunk_answer read_pieces(amihunk_file *handle, struct file file, size_t most)
{
    amihunk_answer answer = unwritten();
    for (size_t start = 0; start < file.size;) {
        size_t size = most == 0 || file.size - start < most ? file.size - start : most;
        amihunk_status status = amihunk_file_feed(handle, file.bytes + start, size, &answer);
        CHECK(status == answer.status);
        if (status != AMIHUNK_OK) {
            break;
        }
        start += size;
    }
    amihunk_answer last = unwritten();
    amihunk_status status = amihunk_file_finish(handle, &last);
    CHECK(status == last.status);
    CHECK(answer.status == AMIHUNK_OK || file.size == 0 || same_answer(&answer, &last));
    return last;
}

#endif

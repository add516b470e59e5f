/*
 * amihunk.h: loads Amiga load files into memory, links object files into load files, and tells what
 * is in either.
 *
 * A load file is what LoadSeg reads, and an object file is what assemblers write. Three handles do
 * the work:
 *
 *   amihunk_loader   takes the bytes of a load file, in pieces of any size, and makes the memory of
 *                    its hunks at the addresses that you give, relocated;
 *   amihunk_linker   takes object files, one after another and in pieces of any size, and makes one
 *                    load file of them;
 *   amihunk_file     takes a file of either kind, in pieces of any size, and tells what is in it:
 *                    hunks, their bytes, relocations, symbols and names.
 *
 *     uint32_t bases[] = {0x10000};
 *     amihunk_loader loader = {0};
 *     amihunk_answer answer;
 *     amihunk_loader_open(&loader, amihunk_from_malloc(), bases, 1);
 *     amihunk_loader_feed(&loader, bytes, size, &answer);
 *     if (amihunk_loader_finish(&loader, &answer) == AMIHUNK_OK) {
 *         ...                  amihunk_loader_get_hunk and amihunk_loader_read tell what is in it
 *     }
 *     amihunk_loader_close(&loader);
 *
 * Where the addresses depend on the sizes of the hunks, read the header first:
 *
 *     size_t taken;
 *     amihunk_table table;
 *     amihunk_loader_begin(&loader, amihunk_from_malloc());
 *     if (amihunk_loader_feed_header(&loader, bytes, size, &taken, &answer) ==
 *         AMIHUNK_NEEDS_BASES) {
 *         ...                  amihunk_loader_table tells the sizes: choose the bases
 *         amihunk_loader_place(&loader, bases, count, &answer);
 *         amihunk_loader_feed(&loader, bytes + taken, size - taken, &answer);
 *     }
 *     amihunk_loader_finish(&loader, &answer);
 *
 * amihunk_loader_place_into does the same in memory of yours, such as the RAM of an emulator.
 *
 * A handle that is refused answers the same to every later call that feeds or finishes it, so it is
 * enough to look at the answer of the last one.
 *
 * Handles
 *
 *   A handle is yours: put it where you like. A handle of all zeros is closed, so begin with
 *   `= {0}`. An open call opens a closed handle; a close call releases its memory and leaves zeros.
 *   You may move a handle between two calls, but of two copies only one may be used afterwards.
 *   Each call may be made on each handle: one that is out of turn changes nothing, and returns
 *   AMIHUNK_WRONG_STATE, or 0 where it returns a number.
 *
 *   Nothing is kept outside the handles. Different handles may be used by different threads at the
 *   same time, as far as their memories allow that. A handle stays on the thread that opened it.
 *
 * Pointers
 *
 *   What you pass is read or written during that call alone. Of what you pass nothing is kept but
 *   the functions and the context of an amihunk_memory, and the bytes of amihunk_loader_place_into.
 *   They have to stay good until the handle is closed. A pointer to items may be NULL if their
 *   number is 0, and the pointer to an answer if you do not want it; no other pointer may be NULL.
 *   What a call writes to overlaps nothing else that it is passed, and not the memory of a handle.
 *
 *   The pointers in what a call tells, such as an amihunk_hunk, lead into the memory of the handle,
 *   or into those bytes, and hold until it is closed. They are not NULL, also if there are no
 *   bytes. Do not write there: what is read later would be what you wrote.
 *
 * Time
 *
 *   Each call says what its time grows with, whatever it is passed. The functions of its memory
 *   take time of their own. A call that refuses releases what the handle has, which takes the time
 *   of a close.
 *
 * What it needs
 *
 *   An x86-64 processor of level 2 (SSE4.2 and POPCNT; this is not checked), 64-bit pointers,
 *   thread-local variables, and of the C library memcpy, memmove, memset and strlen. A call takes
 *   up to 16 KiB of stack. No call prints anything, reads a file or ends the program.
 */
#ifndef AMIHUNK_H
#define AMIHUNK_H

#include <stdbool.h>
#include <stddef.h>
#include <stdint.h>

#ifdef __cplusplus
extern "C" {
#endif

/* The version of this header. */
#define AMIHUNK_VERSION "0.1.0"

/* The version of the library: AMIHUNK_VERSION of the header that belongs to it. */
const char *amihunk_version(void);

/* Bytes in the memory of a handle. */
typedef struct amihunk_bytes {
    const uint8_t *bytes;
    uint64_t size;
} amihunk_bytes;

/* -------------------------------------------- Memory ----------------------------------------- */

/*
 * Where a handle takes its memory from: three functions over a context. They are called during the
 * calls of that handle alone, and on its thread. They may use other handles, but not the one whose
 * call runs, and they return: no longjmp, no exception.
 */
typedef struct amihunk_memory {
    /*
     * Returns a block of at least `size` bytes, at an address that is a multiple of `align`, or
     * NULL if there is none. `size` is at least 1; `align` is a power of two, at most 16.
     */
    void *(*allocate)(void *context, size_t size, size_t align);
    /*
     * Makes the block `size` bytes long, longer or shorter than it is, and returns where it is
     * then. Its first `kept` bytes are as before: that is at most its old length, and at most
     * `size`. NULL if that cannot be done: then the block is as it was. `size` and `align` are as
     * above.
     *
     * The function may be NULL. Then a new block is allocated, and the old one is released.
     */
    void *(*resize)(void *context, void *block, size_t kept, size_t size, size_t align);
    /* Takes back a block. Once a handle is closed, all its blocks are released. */
    void (*release)(void *context, void *block);
    void *context;
} amihunk_memory;

/* The heap of the C library: malloc, realloc and free. The time of the call is constant. */
amihunk_memory amihunk_from_malloc(void);

/*
 * The `size` bytes at `buffer`, and none beside them. They are yours again once each handle that
 * takes its memory there is closed. Several handles may share them, on one thread.
 *
 * They may be at any address, and declared as an array of any type, for they are read and written
 * as bytes. At once, at most 32 of them are taken for each doubling from 4 to `size`: 320 of 4,096,
 * 448 of 65,536. In 168 bytes there is room for a block, in fewer there may be none. A block takes
 * 8 bytes more than its length, rounded up to a multiple of 16, and at least 32; and 16 more where
 * these would be left over. What is released is joined with what is free beside it, and used again.
 *
 * An allocation fails if `buffer` is NULL, or no gap is as long as what the block takes; it may
 * fail if none is a quarter longer. A block is resized in its place where there is room for it.
 *
 * The time of this call, of an allocation and of a release is constant: it grows neither with the
 * number of blocks nor with that of gaps. So is that of a resize, unless it moves the block: then
 * it grows with the bytes that are kept.
 */
amihunk_memory amihunk_in_buffer(void *buffer, size_t size);

/* -------------------------------------------- Answers ---------------------------------------- */

/*
 * What a call returns. Each call says below which of these it returns, and when. The names after a
 * colon are the fields of the answer that are then set.
 */
typedef enum amihunk_status {
    AMIHUNK_OK = 0,

    /* The bytes are not a file of their kind. The first offence: place, reason, number, input. */
    AMIHUNK_BAD_FILE = 1,

    /* The hunks cannot be placed at the bases, for the first of these reasons. */
    /* There are fewer or more bases than hunks. */
    AMIHUNK_WRONG_COUNT = 2,
    /* A hunk ends after address 2^32 - 1. The lowest: hunk. */
    AMIHUNK_PAST_END = 3,
    /* Two hunks share an address. The lowest that shares one with an earlier one: other; and the
       lowest of these earlier ones: hunk. */
    AMIHUNK_OVERLAP = 4,

    /* The units do not link, for the first of these reasons. */
    /* They have no hunk. */
    AMIHUNK_NO_HUNKS = 5,
    /* They have more than 65,535 hunks. */
    AMIHUNK_TOO_MANY_HUNKS = 6,
    /* Their hunks have more than 2^24 longwords, or the symbols and debug blocks that are kept take
       more than 2^27 longwords of the load file. */
    AMIHUNK_TOO_LARGE = 7,
    /* A relocation adds the base of a hunk that its unit does not have: unit, input, hunk; and
       which it does not have: other. */
    AMIHUNK_NO_SUCH_HUNK = 8,
    /* A hunk defines a name that was defined before: unit, input, hunk; amihunk_linker_name. */
    AMIHUNK_DUPLICATE_NAME = 9,
    /* A hunk refers to a name that no hunk defines: unit, input, hunk; amihunk_linker_name. */
    AMIHUNK_UNDEFINED_NAME = 10,

    /* An allocation failed. */
    AMIHUNK_OUT_OF_MEMORY = 11,
    /* The call is out of turn. The handle is as it was. */
    AMIHUNK_WRONG_STATE = 12,
    /* There is nothing with this number, or at this address. */
    AMIHUNK_OUT_OF_RANGE = 13,
    /* The header of the file is whole, and the bases of its hunks are due. */
    AMIHUNK_NEEDS_BASES = 14
} amihunk_status;

/* Why a file is refused. The words after a colon say what `number` is; without them it is 0. */
typedef enum amihunk_reason {
    /* The status is not AMIHUNK_BAD_FILE. */
    AMIHUNK_REASON_NONE = 0,
    /* The file ends after one to three bytes of a longword. */
    AMIHUNK_REASON_PARTIAL_LONGWORD = 1,
    /* The file ends too early, at a whole longword. */
    AMIHUNK_REASON_UNEXPECTED_END = 2,
    /* No file of this kind begins with this longword. */
    AMIHUNK_REASON_WRONG_START = 3,
    /* A block of an unknown type: the type. */
    AMIHUNK_REASON_UNKNOWN_TYPE = 4,
    /* A block that is not allowed here: its type. */
    AMIHUNK_REASON_MISPLACED_TYPE = 5,
    /* A block of a type that is left out, such as an overlay: the type. */
    AMIHUNK_REASON_UNSUPPORTED_BLOCK = 6,
    /* An external symbol of a type that is left out, such as a common symbol: the type. */
    AMIHUNK_REASON_UNSUPPORTED_EXT = 7,
    /* A hunk asks for both chip memory and fast memory. */
    AMIHUNK_REASON_BOTH_MEMORY_BITS = 8,
    /* The header names resident libraries. */
    AMIHUNK_REASON_RESIDENT_NAMES = 9,
    /* The header has no hunks, or not those from 0 to the last one. */
    AMIHUNK_REASON_HUNK_TABLE = 10,
    /* The sizes in the header add up to more than 2^24 longwords, or the file has over 2^28. */
    AMIHUNK_REASON_TOO_LARGE = 11,
    /* The content of a hunk is longer than its size in the header. */
    AMIHUNK_REASON_CONTENT_TOO_LONG = 12,
    /* A relocation adds the base of a hunk that the load file does not have: the hunk. */
    AMIHUNK_REASON_NO_SUCH_HUNK = 13,
    /* A relocation or a reference is not inside its hunk: its offset, in bytes. */
    AMIHUNK_REASON_SITE_OUTSIDE = 14,
    /* A relocation or a reference shares a byte with an earlier one: its offset, in bytes. */
    AMIHUNK_REASON_SITE_OVERLAP = 15,
    /* A symbol of a kind other than 0: the kind. */
    AMIHUNK_REASON_SYMBOL_KIND = 16,
    /* Something follows the last hunk. */
    AMIHUNK_REASON_TRAILING_DATA = 17
} amihunk_reason;

/*
 * What a call has to tell beside its status. A call that is passed an answer writes each field; one
 * that the status and the reason do not name is 0. Everything is counted from 0.
 */
typedef struct amihunk_answer {
    uint64_t place;  /* a longword of the file; after a file that ends too early, the next one */
    uint64_t input;  /* of a linker: the object file that is refused, or that has the unit */
    uint64_t unit;   /* of a linker: a unit, counted over all object files */
    uint64_t hunk;   /* a hunk of the load file, or of the unit */
    uint64_t other;  /* another hunk */
    uint32_t status; /* the amihunk_status that the call returned */
    uint32_t reason; /* an amihunk_reason */
    uint32_t number; /* what the reason is about */
} amihunk_answer;

/* -------------------------------------------- Loading ---------------------------------------- */

/* A loader. It is closed, sizing, loading, loaded or refused. Leave its fields alone. */
typedef struct amihunk_loader {
    void *session;
    amihunk_memory memory;
} amihunk_loader;

/* A hunk in memory. */
typedef struct amihunk_hunk {
    const uint8_t *bytes; /* its content and zeros after it, with a base added at each relocation */
    uint64_t size;        /* how many bytes these are: 4 times its size in the header */
    uint32_t base;        /* the address of the first one */
} amihunk_hunk;

/*
 * Opens a closed loader for a load file whose hunk number i is to be at address bases[i]. Each
 * address may be a base, also an odd one. The bases are copied. Whether the hunks can be placed at
 * them is told by amihunk_loader_finish. The time grows with `count`.
 *
 * AMIHUNK_OK: the loader is loading.
 * AMIHUNK_OUT_OF_MEMORY: it is still closed.
 * AMIHUNK_WRONG_STATE: it was not closed.
 */
amihunk_status amihunk_loader_open(amihunk_loader *loader, amihunk_memory memory,
                                   const uint32_t *bases, size_t count);

/*
 * Opens a closed loader for a load file whose hunks have no addresses yet. Its header is read
 * first, by amihunk_loader_feed_header; then amihunk_loader_table tells the sizes, and
 * amihunk_loader_place takes the bases. The time is constant.
 *
 * AMIHUNK_OK: the loader is sizing.
 * AMIHUNK_OUT_OF_MEMORY: it is still closed.
 * AMIHUNK_WRONG_STATE: it was not closed.
 */
amihunk_status amihunk_loader_begin(amihunk_loader *loader, amihunk_memory memory);

/*
 * Takes the next bytes of the file, at most `size`, up to the last size in its header, and writes
 * to `taken` how many it took. The rest of the piece is for amihunk_loader_feed, once the hunks are
 * placed. The time of all these calls together grows with the bytes of the header.
 *
 * AMIHUNK_OK: all of the piece was taken, and the header goes on.
 * AMIHUNK_NEEDS_BASES: the header is whole. If it was before, nothing is taken.
 * AMIHUNK_BAD_FILE: no load file begins so. This comes with the last byte of the longword at the
 * place, as it does from amihunk_loader_feed.
 * AMIHUNK_OUT_OF_MEMORY: an allocation failed.
 * AMIHUNK_WRONG_STATE: the loader is not sizing.
 *
 * With the last three, nothing is taken. With AMIHUNK_BAD_FILE and AMIHUNK_OUT_OF_MEMORY the loader
 * is refused from then on.
 */
amihunk_status amihunk_loader_feed_header(amihunk_loader *loader, const void *piece, size_t size,
                                          size_t *taken, amihunk_answer *answer);

/* Which memory a hunk asks for. */
typedef enum amihunk_memory_kind {
    AMIHUNK_ANY_MEMORY = 0,
    /* Memory that the custom chips can reach. */
    AMIHUNK_CHIP_MEMORY = 1,
    /* Memory that only the processor can reach. */
    AMIHUNK_FAST_MEMORY = 2
} amihunk_memory_kind;

/* What a header tells of a hunk. */
typedef struct amihunk_table {
    uint64_t hunks;  /* how many hunks the file has, 1 to 65,535 */
    uint32_t size;   /* of this one: its size in longwords, all of them together at most 2^24 */
    uint32_t memory; /* of this one: an amihunk_memory_kind */
} amihunk_table;

/*
 * Tells how many hunks the file has, and of one of them its size, and which memory it asks for. The
 * time is constant.
 *
 * AMIHUNK_OK: `told` is that. Hunk 0 is always there.
 * AMIHUNK_OUT_OF_RANGE: there is no such hunk.
 * AMIHUNK_WRONG_STATE: the loader is not sizing, or the header is not whole.
 *
 * With the last two, `told` is all zeros.
 */
amihunk_status amihunk_loader_table(amihunk_loader *loader, size_t hunk, amihunk_table *told);

/*
 * Chooses the bases of a file whose header is whole: hunk number i is to be at address bases[i].
 * The bases are copied. The time grows as n log n with the number of hunks, and with the bytes of
 * the header. Where the hunks stand in no order, that takes a block of 24 bytes for each of them,
 * which is given back; without one it takes the time of amihunk_check_places.
 *
 * AMIHUNK_OK: the loader is loading, as if it had been opened with these bases and fed the header.
 * amihunk_loader_feed takes what follows.
 * AMIHUNK_WRONG_COUNT, AMIHUNK_PAST_END, AMIHUNK_OVERLAP: the hunks cannot be placed there.
 * AMIHUNK_OUT_OF_MEMORY: an allocation failed.
 * AMIHUNK_WRONG_STATE: the loader is not sizing, or the header is not whole.
 *
 * With all but the first, the loader is as it was: try other bases, or again. A loader that was
 * refused before gives the same answer as then.
 */
amihunk_status amihunk_loader_place(amihunk_loader *loader, const uint32_t *bases, size_t count,
                                    amihunk_answer *answer);

/* Where a hunk is to be: its address, and the memory of yours for its bytes. */
typedef struct amihunk_place {
    void *bytes;   /* 4 bytes for each longword of its size; NULL: take memory of the loader */
    uint32_t base; /* the address of the first one */
} amihunk_place;

/*
 * As amihunk_loader_place, and the bytes of hunk number i are made at places[i].bytes, where
 * amihunk_loader_get_hunk tells them. Nothing of a hunk is kept elsewhere, or twice. The bytes may
 * be at any address. No two hunks share one, none is part of a block of the loader's memory, and no
 * piece that is fed overlaps them. While a hunk is read, its relocations take memory of the loader:
 * 64 to 80 bytes for each 4 KiB of the hunk up to the last of them, and more for each.
 *
 * With AMIHUNK_OK they are the loader's until it is closed: do not write there, and read there only
 * once the loader is loaded. If the file is refused, they may hold anything. No byte outside them
 * is touched. With any other status they are yours again, and may hold anything.
 *
 * A hunk of no longwords needs no bytes: what is given for it is not kept, and
 * amihunk_loader_get_hunk tells another place. One that has some, and NULL for them, takes them
 * from the memory of the loader. It keeps a pointer for each hunk. The time is that of
 * amihunk_loader_place, and grows as n log n with the number of hunks; so does that of a close, or
 * of a call that refuses.
 *
 * The status is one of those of amihunk_loader_place.
 */
amihunk_status amihunk_loader_place_into(amihunk_loader *loader, const amihunk_place *places,
                                         size_t count, amihunk_answer *answer);

/*
 * Takes the next `size` bytes of the file. The time of all these calls together grows with the
 * bytes of the file and of its hunks in memory; one of them also places the hunks, in the time and
 * with the memory that amihunk_loader_place takes for it.
 *
 * AMIHUNK_OK: the bytes so far may be the beginning of a load file.
 * AMIHUNK_BAD_FILE: they are not. This comes with the last byte of the longword at the place.
 * AMIHUNK_OUT_OF_MEMORY: an allocation failed.
 * AMIHUNK_WRONG_STATE: the loader is closed, sizing or loaded.
 *
 * With AMIHUNK_BAD_FILE and AMIHUNK_OUT_OF_MEMORY the loader is refused from then on: every later
 * feed and finish gives the same answer.
 */
amihunk_status amihunk_loader_feed(amihunk_loader *loader, const void *piece, size_t size,
                                   amihunk_answer *answer);

/*
 * Ends the file, and makes its hunks known. No memory is needed for that. The time is constant.
 *
 * AMIHUNK_OK: the loader is loaded.
 * AMIHUNK_BAD_FILE: the file ends too early, as it does if the loader is still sizing.
 * AMIHUNK_WRONG_COUNT, AMIHUNK_PAST_END, AMIHUNK_OVERLAP: it is a load file, but its hunks cannot
 * be placed at the bases of amihunk_loader_open. After amihunk_loader_place they can.
 * AMIHUNK_WRONG_STATE: the loader is closed or loaded.
 *
 * With all but the first and the last of these, the loader is refused from then on. A loader that
 * was refused before gives the same answer as then.
 */
amihunk_status amihunk_loader_finish(amihunk_loader *loader, amihunk_answer *answer);

/* The number of hunks of a loaded loader, 1 to 65,535; else 0. The time is constant. */
size_t amihunk_loader_hunk_count(amihunk_loader *loader);

/*
 * Tells where the bytes of a hunk are, how many they are, and the base. The time is constant.
 *
 * AMIHUNK_OK: `told` is the hunk. The pointer is not NULL, also if there are no bytes.
 * AMIHUNK_OUT_OF_RANGE: there is no such hunk.
 * AMIHUNK_WRONG_STATE: the loader is not loaded.
 *
 * With the last two, `told` is all zeros.
 */
amihunk_status amihunk_loader_get_hunk(amihunk_loader *loader, size_t hunk, amihunk_hunk *told);

/* A byte of a hunk. */
typedef struct amihunk_point {
    uint64_t hunk;   /* the number of the hunk */
    uint32_t offset; /* how many bytes of the hunk come before it */
} amihunk_point;

/*
 * Tells which byte of which hunk is at an address. The time grows with the number of hunks.
 *
 * AMIHUNK_OK: `told` is that byte.
 * AMIHUNK_OUT_OF_RANGE: no hunk has a byte there.
 * AMIHUNK_WRONG_STATE: the loader is not loaded.
 *
 * With the last two, `told` is all zeros.
 */
amihunk_status amihunk_loader_find(amihunk_loader *loader, uint32_t address, amihunk_point *told);

/*
 * Copies the bytes of a hunk from `offset` on, as many as there are and at most `size`, and returns
 * how many. 0 if the loader is not loaded, or there is no such hunk, or nothing at that offset. The
 * rest of `into` is as it was. The time grows with the bytes that are copied.
 */
size_t amihunk_loader_read(amihunk_loader *loader, size_t hunk, uint64_t offset, void *into,
                           size_t size);

/*
 * Writes why the loader is refused: the line that the program `amihunk` prints, with its newline.
 *
 *     amihunk: hello: longword 7: block longer than its hunk
 *     amihunk: places: hunks 0 and 1 overlap
 *     amihunk: out of memory
 *
 * `file` is what the file is called: bytes of any encoding that end with a zero byte, or NULL for
 * an empty name. If `size` is not 0, as much of the line as fits is written, at most `size` - 1
 * bytes, and a zero byte after it. Returns the length of the whole line, as snprintf does, so that
 * something is missing if that is `size` or more. The line is empty if the loader is not refused.
 * One of up to 500 bytes needs no memory; a longer one is empty too if the loader's memory has no
 * room for it. The time grows with the length of the line.
 */
size_t amihunk_loader_line(amihunk_loader *loader, const char *file, char *into, size_t size);

/*
 * Closes a loader, whatever it is doing, and releases its memory. The time grows with the number of
 * its blocks.
 */
void amihunk_loader_close(amihunk_loader *loader);

/*
 * Checks whether hunks of these sizes, in longwords, can be placed at these bases. No memory is
 * needed for that. A hunk of no longwords takes no address.
 *
 * If the others stand in ascending or in descending order, and share no address, the time grows
 * with the number of hunks; else with its square. A loader has memory, and takes less time for the
 * same answer: amihunk_loader_place says how much.
 *
 * AMIHUNK_OK: they can.
 * AMIHUNK_WRONG_COUNT, AMIHUNK_PAST_END, AMIHUNK_OVERLAP: they cannot.
 */
amihunk_status amihunk_check_places(const uint32_t *sizes, size_t size_count, const uint32_t *bases,
                                    size_t base_count, amihunk_answer *answer);

/* -------------------------------------------- Linking ---------------------------------------- */

/* A linker. It is closed, linking, linked or refused. Leave its fields alone. */
typedef struct amihunk_linker {
    void *session;
    amihunk_memory memory;
} amihunk_linker;

/*
 * How object files are linked, and how their load file is written. Whatever is chosen, it has the
 * same bytes in memory.
 */
typedef struct amihunk_options {
    bool strip;      /* leaves out symbols and debug blocks */
    bool short_form; /* writes relocations at offsets up to 65,535 in 16 bits (block type 1020) */
    bool trim;       /* leaves out zero longwords at the end of contents that are not relocated */
    bool keep;       /* keeps what is in the object files when they are linked, which
                        amihunk_linker_map and amihunk_linker_get_undefined tell */
    uint64_t key[2]; /* with which names are hashed: 16 random bytes, where object files may be from
                        strangers, such as getentropy(options.key, sizeof(options.key)) writes */
} amihunk_options;

/* A name that hunks refer to and no hunk of the object files defines. */
typedef struct amihunk_undefined {
    amihunk_bytes name;
    uint64_t input;      /* the object file of the first reference to it */
    uint64_t unit;       /* its unit, counted in that object file */
    uint64_t hunk;       /* the hunk of that unit */
    uint64_t references; /* how many references to it there are in all object files */
} amihunk_undefined;

/*
 * Opens a closed linker. The time is constant.
 *
 * AMIHUNK_OK: the linker is linking, and waits for its first object file.
 * AMIHUNK_OUT_OF_MEMORY: it is still closed.
 * AMIHUNK_WRONG_STATE: it was not closed.
 */
amihunk_status amihunk_linker_open(amihunk_linker *linker, amihunk_memory memory,
                                   amihunk_options options);

/*
 * Takes the next `size` bytes of an object file. The first call begins the first object file, and
 * the first one after an amihunk_linker_end_input the next. The time of all these calls for an
 * object file together grows with its bytes.
 *
 * AMIHUNK_OK: the bytes so far may be the beginning of an object file.
 * AMIHUNK_BAD_FILE: they are not. This comes with the last byte of the longword at the place.
 * AMIHUNK_OUT_OF_MEMORY: an allocation failed.
 * AMIHUNK_WRONG_STATE: the linker is closed or linked.
 *
 * With AMIHUNK_BAD_FILE and AMIHUNK_OUT_OF_MEMORY the linker is refused from then on: every later
 * feed, end_input and finish gives the same answer.
 */
amihunk_status amihunk_linker_feed(amihunk_linker *linker, const void *piece, size_t size,
                                   amihunk_answer *answer);

/*
 * Ends the object file. One that was never fed is empty, and is refused. The time of all these
 * calls together grows with the number of object files and of their units.
 *
 * AMIHUNK_OK: it is an object file.
 * AMIHUNK_BAD_FILE: it ends too early.
 * AMIHUNK_OUT_OF_MEMORY, AMIHUNK_WRONG_STATE: as of amihunk_linker_feed.
 *
 * A linker that is refused stays so, as after amihunk_linker_feed.
 */
amihunk_status amihunk_linker_end_input(amihunk_linker *linker, amihunk_answer *answer);

/*
 * Links the units of all object files, in the order in which they came.
 *
 * The time grows with the bytes of the object files and of the load file, and as n log n with the
 * number of relocations of one hunk. The names are in a hash table: whoever knows the key of its
 * hash, as everyone does who sees that it was left at zeros, can make names that collide, with which
 * the time grows with the square of their number. No answer depends on the key.
 *
 * AMIHUNK_OK: the linker is linked, and has the load file. With `keep` it has what is in the object
 * files too, and the hunks of the load file.
 * AMIHUNK_NO_HUNKS to AMIHUNK_UNDEFINED_NAME: the units do not link.
 * AMIHUNK_OUT_OF_MEMORY: an allocation failed.
 * AMIHUNK_WRONG_STATE: the linker is closed or linked, or an object file has not ended.
 *
 * With all but the first and the last of these, the linker is refused from then on. A linker that
 * was refused before gives the same answer as then.
 */
amihunk_status amihunk_linker_finish(amihunk_linker *linker, amihunk_answer *answer);

/*
 * Tells where the bytes of the load file are, and how many they are. The time is constant.
 *
 * AMIHUNK_OK: `told` is the load file.
 * AMIHUNK_WRONG_STATE: the linker is not linked, and `told` is all zeros.
 */
amihunk_status amihunk_linker_get_file(amihunk_linker *linker, amihunk_bytes *told);

/*
 * Copies the bytes of the load file from `offset` on, as many as there are and at most `size`, and
 * returns how many. 0 if the linker is not linked, or there is nothing at that offset. The rest of
 * `into` is as it was. The time grows with the bytes that are copied.
 */
size_t amihunk_linker_read(amihunk_linker *linker, uint64_t offset, void *into, size_t size);

/*
 * Writes the name that AMIHUNK_DUPLICATE_NAME or AMIHUNK_UNDEFINED_NAME is about, and returns its
 * length; `into` and `size` are as in amihunk_loader_line. It has no zero byte, and may be empty;
 * it is empty if the linker is not refused with one of these. The time grows with the bytes that
 * are written.
 */
size_t amihunk_linker_name(amihunk_linker *linker, char *into, size_t size);

/*
 * Writes why the linker is refused, as amihunk_loader_line does. `file` is what the object file is
 * called that is refused: number `input` of the answer. The time grows with the length of the line.
 *
 *     amihunk: main.o: longword 15: site 00000004 overlaps another
 *     amihunk: link: unit 0 hunk 0: "foo" not defined
 */
size_t amihunk_linker_line(amihunk_linker *linker, const char *file, char *into, size_t size);

/*
 * Tells a name that no hunk defines, of a linker that was opened with `keep` and was refused with
 * AMIHUNK_UNDEFINED_NAME. The names are numbered from 0, in the order in which they are first
 * referred to; the first is the one that the answer is about. The time is constant.
 *
 * AMIHUNK_OK: `told` is that. Its name stays where it is until the linker is closed.
 * AMIHUNK_OUT_OF_RANGE: there is no name with this index.
 * AMIHUNK_WRONG_STATE: the linker is not so refused, or was opened without `keep`.
 *
 * With the last two, `told` is all zeros.
 */
amihunk_status amihunk_linker_get_undefined(amihunk_linker *linker, size_t index,
                                            amihunk_undefined *told);

/*
 * Writes the map of the load file, which the program `amihunk` writes with `link --map`: for each
 * hunk a line that says where it is from, and a line for each name that it defines.
 *
 *     hunk 0 code any 2 longwords main.o unit 0 "test" hunk 0 "CODE"
 *       define "main" at 00000000
 *
 * `names` are what the object files are called, the first of them first: `count` strings of bytes
 * of any encoding that end with a zero byte. One that is missing or NULL is empty; one that is not
 * printable ASCII, or has ": " in it, is quoted as all other names are. `into` and `size` are as in
 * amihunk_loader_line, and so is what is returned: the length of the whole map. The map is empty if
 * the linker is not linked, if it was opened without `keep`, or if its memory has no room for the
 * map. The time grows with the length of the map and of the names.
 */
size_t amihunk_linker_map(amihunk_linker *linker, const char *const *names, size_t count,
                          char *into, size_t size);

/*
 * Closes a linker, whatever it is doing, and releases its memory. The time grows with the number of
 * its blocks.
 */
void amihunk_linker_close(amihunk_linker *linker);

/* --------------------------------------- Looking into files ---------------------------------- */

/* A file to look into. It is closed, reading, read or refused. Leave its fields alone. */
typedef struct amihunk_file {
    void *session;
    amihunk_memory memory;
} amihunk_file;

/* Which kind of file it is. */
typedef enum amihunk_file_kind {
    AMIHUNK_OBJECT_FILE = 0,
    AMIHUNK_LOAD_FILE = 1
} amihunk_file_kind;

/* What a file has. */
typedef struct amihunk_contents {
    uint64_t units; /* how many program units; a load file counts as one */
    uint32_t kind;  /* an amihunk_file_kind */
} amihunk_contents;

/* A program unit of an object file, or all hunks of a load file. */
typedef struct amihunk_unit {
    amihunk_bytes name; /* of a load file: no bytes */
    uint64_t hunks;     /* how many hunks it has */
} amihunk_unit;

/* What a hunk holds. */
typedef enum amihunk_hunk_kind {
    AMIHUNK_CODE = 0,
    AMIHUNK_DATA = 1,
    /* Zeros, of which the file has none. */
    AMIHUNK_BSS = 2
} amihunk_hunk_kind;

/* A hunk as it is in a file. */
typedef struct amihunk_file_hunk {
    amihunk_bytes name;    /* of an object file; no bytes if it has none, and in a load file */
    amihunk_bytes stored;  /* the bytes that the file has for it; zeros follow them in memory */
    uint64_t sites;        /* how many relocations and references it has */
    uint64_t symbols;      /* how many symbols for a debugger */
    uint64_t definitions;  /* how many names it defines; in a load file 0 */
    uint64_t references;   /* how many names it refers to; in a load file 0 */
    uint64_t debug_blocks; /* how many debug blocks */
    uint32_t size;         /* its size in longwords, in memory */
    uint32_t kind;         /* an amihunk_hunk_kind */
    uint32_t memory;       /* an amihunk_memory_kind */
} amihunk_file_hunk;

/* What is added to the longword at a site. */
typedef enum amihunk_site_kind {
    /* The base of a hunk. */
    AMIHUNK_ADDS_HUNK = 0,
    /* What a name stands for. */
    AMIHUNK_ADDS_NAME = 1
} amihunk_site_kind;

/* A longword of a hunk to which something is added when the hunk is linked or loaded. */
typedef struct amihunk_site {
    uint32_t offset; /* of its first byte in the hunk */
    uint32_t kind;   /* an amihunk_site_kind */
    uint32_t target; /* the number of the hunk, in its unit or load file; an object file may name
                        one that its unit does not have. Or the index of the reference of this
                        hunk, whose name it is */
} amihunk_site;

/* A symbol for a debugger. */
typedef struct amihunk_symbol {
    amihunk_bytes name;
    uint32_t value; /* most often an offset in the hunk, in bytes */
} amihunk_symbol;

/* A name that a hunk defines. */
typedef struct amihunk_definition {
    amihunk_bytes name;
    uint32_t value;    /* what it stands for: an offset in the hunk, in bytes, which may lie past
                          it; or a number */
    uint32_t absolute; /* 1 for a number, else 0 */
} amihunk_definition;

/* A debug block. */
typedef struct amihunk_debug {
    const uint32_t *longwords; /* as numbers of this machine */
    uint64_t size;             /* how many these are */
} amihunk_debug;

/* What differs between two load files, and what `first` and `second` are then. */
typedef enum amihunk_difference_kind {
    /* Nothing does. */
    AMIHUNK_SAME = 0,
    /* The numbers of hunks. */
    AMIHUNK_HUNK_COUNT_DIFFERS = 1,
    /* What a hunk holds: each an amihunk_hunk_kind. */
    AMIHUNK_KIND_DIFFERS = 2,
    /* Which memory a hunk asks for: each an amihunk_memory_kind. */
    AMIHUNK_MEMORY_DIFFERS = 3,
    /* The size of a hunk in memory: longwords. */
    AMIHUNK_SIZE_DIFFERS = 4,
    /* A byte of a hunk: each 0 to 255. After what is stored of a hunk there are zeros. */
    AMIHUNK_BYTE_DIFFERS = 5,
    /* A site of a hunk: the hunks whose bases are added there, or AMIHUNK_NO_SITE. */
    AMIHUNK_SITE_DIFFERS = 6,
    /* A symbol of a hunk: its name, its value, or whether there is one. */
    AMIHUNK_SYMBOL_DIFFERS = 7,
    /* A debug block of a hunk: its longwords, or whether there is one. */
    AMIHUNK_DEBUG_DIFFERS = 8
} amihunk_difference_kind;

/* Of a site that differs: the file has none there. */
#define AMIHUNK_NO_SITE UINT64_MAX

/* Where two load files first differ. What its kind does not name is 0. */
typedef struct amihunk_difference {
    uint64_t hunk;   /* the number of the hunk; 0 if the numbers of hunks differ */
    uint64_t offset; /* of a byte and of a site: where it is in the hunk, in bytes; of a symbol and
                        of a debug block: its index */
    uint64_t first;  /* what the first file has, as the kind says; 0 if it says nothing */
    uint64_t second; /* what the second file has */
    uint32_t kind;   /* an amihunk_difference_kind */
} amihunk_difference;

/*
 * Opens a closed file. The time is constant.
 *
 * AMIHUNK_OK: the file is reading.
 * AMIHUNK_OUT_OF_MEMORY: it is still closed.
 * AMIHUNK_WRONG_STATE: it was not closed.
 */
amihunk_status amihunk_file_open(amihunk_file *file, amihunk_memory memory);

/*
 * Takes the next `size` bytes of the file. It is a load file if its first longword is that of one,
 * whose upper two bits do not count, and an object file otherwise. The time of all these calls
 * together grows with the bytes of the file.
 *
 * AMIHUNK_OK: the bytes so far may be the beginning of a file.
 * AMIHUNK_BAD_FILE: they are not. This comes with the last byte of the longword at the place.
 * AMIHUNK_OUT_OF_MEMORY: an allocation failed.
 * AMIHUNK_WRONG_STATE: the file is closed or read.
 *
 * With AMIHUNK_BAD_FILE and AMIHUNK_OUT_OF_MEMORY the file is refused from then on: every later
 * feed and finish gives the same answer.
 */
amihunk_status amihunk_file_feed(amihunk_file *file, const void *piece, size_t size,
                                 amihunk_answer *answer);

/*
 * Ends the file, and makes what is in it known. The time grows with the number of its hunks and
 * sites.
 *
 * AMIHUNK_OK: the file is read.
 * AMIHUNK_BAD_FILE: it ends too early.
 * AMIHUNK_OUT_OF_MEMORY: an allocation failed.
 * AMIHUNK_WRONG_STATE: the file is closed or read.
 *
 * With AMIHUNK_BAD_FILE and AMIHUNK_OUT_OF_MEMORY the file is refused from then on. One that was
 * refused before gives the same answer as then.
 */
amihunk_status amihunk_file_finish(amihunk_file *file, amihunk_answer *answer);

/*
 * These calls tell what is in a file. Units, hunks and what a hunk has are numbered from 0, in the
 * order of the file; sites by rising offset. The time of each is constant.
 *
 * AMIHUNK_OK: `told` is that.
 * AMIHUNK_OUT_OF_RANGE: there is no such unit, no such hunk, or nothing with this index.
 * AMIHUNK_WRONG_STATE: the file is not read.
 *
 * With the last two, `told` is all zeros.
 */
amihunk_status amihunk_file_get_contents(amihunk_file *file, amihunk_contents *told);
amihunk_status amihunk_file_get_unit(amihunk_file *file, size_t unit, amihunk_unit *told);
amihunk_status amihunk_file_get_hunk(amihunk_file *file, size_t unit, size_t hunk,
                                     amihunk_file_hunk *told);
amihunk_status amihunk_file_get_site(amihunk_file *file, size_t unit, size_t hunk, size_t index,
                                     amihunk_site *told);
amihunk_status amihunk_file_get_symbol(amihunk_file *file, size_t unit, size_t hunk, size_t index,
                                       amihunk_symbol *told);
amihunk_status amihunk_file_get_definition(amihunk_file *file, size_t unit, size_t hunk,
                                           size_t index, amihunk_definition *told);
amihunk_status amihunk_file_get_reference(amihunk_file *file, size_t unit, size_t hunk,
                                          size_t index, amihunk_bytes *told);
amihunk_status amihunk_file_get_debug(amihunk_file *file, size_t unit, size_t hunk, size_t index,
                                      amihunk_debug *told);

/*
 * Tells the symbol of a hunk at `offset` or before it: of those whose value is at most that, the
 * one with the highest value, and of several with this value the first. With amihunk_loader_find it
 * names an address; the unit of a load file is 0. The time grows with the number of symbols of the
 * hunk.
 *
 * AMIHUNK_OUT_OF_RANGE: there is no such unit, no such hunk, or no such symbol. Otherwise it is as
 * of the calls above.
 */
amihunk_status amihunk_file_symbol_before(amihunk_file *file, size_t unit, size_t hunk,
                                          uint32_t offset, amihunk_symbol *told);

/*
 * Compares two load files that were read, and tells where they first differ in what they mean: in
 * their hunks as they are in memory before any base is added. The number of hunks comes first;
 * then, hunk by hunk, the kind, the memory and the size, and then the lowest offset with another
 * byte or another site. Where both differ at one offset, it is the byte. Zeros at the end of what
 * is stored of a hunk make no difference, and neither does the form in which sites are written.
 *
 * With `with_symbols` symbols and debug blocks count too, once all else is the same: hunk by hunk,
 * the first symbol, and then the first debug block, that the files do not both have there.
 *
 * Both handles may be one. If not, they are of one thread; their memories may be different ones,
 * and neither is asked for a block. The time grows with what is stored of the hunks and with their
 * sites, and with `with_symbols` also with their symbols and debug blocks.
 *
 * AMIHUNK_OK: `told` is that. Its kind is AMIHUNK_SAME if there is no difference.
 * AMIHUNK_WRONG_STATE: one of the files is not read, or no load file, which
 * amihunk_file_get_contents tells. `told` is all zeros.
 */
amihunk_status amihunk_file_compare(amihunk_file *first, amihunk_file *second, bool with_symbols,
                                    amihunk_difference *told);

/*
 * Writes why the file is refused, as amihunk_loader_line does.
 *
 *     amihunk: hello: longword 7: block longer than its hunk
 */
size_t amihunk_file_line(amihunk_file *file, const char *name, char *into, size_t size);

/*
 * Closes a file, whatever it is doing, and releases its memory. The time grows with the number of
 * its blocks.
 */
void amihunk_file_close(amihunk_file *file);

/*
 * Opens a closed loader, and loads a load file that was read, without reading it again: hunk number
 * i at address bases[i]. The file stays as it is, and may be closed before the loader. The hunks
 * are placed in the time and with the memory that amihunk_loader_place takes for it; the time also
 * grows with the bytes of the hunks in memory and their sites.
 *
 * AMIHUNK_OK: the loader is loaded.
 * AMIHUNK_WRONG_COUNT, AMIHUNK_PAST_END, AMIHUNK_OVERLAP: the hunks cannot be placed at the bases.
 * AMIHUNK_OUT_OF_MEMORY: an allocation failed.
 * AMIHUNK_WRONG_STATE: the loader was not closed, or the file is not read, or no load file, which
 * amihunk_file_get_contents tells.
 *
 * With all but the first, the loader is as it was, so that amihunk_loader_line tells nothing.
 */
amihunk_status amihunk_loader_load(amihunk_loader *loader, amihunk_memory memory,
                                   amihunk_file *file, const uint32_t *bases, size_t count,
                                   amihunk_answer *answer);

#ifdef __cplusplus
}
#endif

#endif

/*
 * Makes calls of the C library fail in a program that is started with this library in LD_PRELOAD.
 *
 * The variable FAIL has the faults: `KIND:N` for the Nth call of a kind, counted from 1, and `KIND:N+` for it and all later ones.
 * Several are separated by spaces. The kinds are `alloc`, `open`, `read`, `write`, `sync` and `rename`. A call that fails does
 * nothing, with the errno ENOMEM or EIO. At the first one, the empty file that FAILED names is made, so that whoever started the
 * program knows that there was such a call.
 */
#define _GNU_SOURCE
#include <errno.h>
#include <fcntl.h>
#include <stdarg.h>
#include <stdlib.h>
#include <string.h>
#include <sys/syscall.h>
#include <sys/types.h>
#include <sys/uio.h>
#include <unistd.h>

enum kind { ALLOC, OPEN, READ, WRITE, SYNC, RENAME, KINDS };

static const char *const names[KINDS] = {"alloc", "open", "read", "write", "sync", "rename"};
static unsigned long calls[KINDS];

/* Whether this call of a kind, the Nth, is one of the faults. */
static int is_asked(enum kind kind, unsigned long number) {
    const char *at = getenv("FAIL");
    size_t length = strlen(names[kind]);
    while (at && *at) {
        char *end;
        if (strncmp(at, names[kind], length) == 0 && at[length] == ':') {
            unsigned long first = strtoul(at + length + 1, &end, 10);
            if (number == first || (*end == '+' && number > first)) {
                return 1;
            }
        }
        at = strchr(at, ' ');
        at += at != NULL;
    }
    return 0;
}

static int fails(enum kind kind) {
    if (!is_asked(kind, ++calls[kind])) {
        return 0;
    }
    const char *told = getenv("FAILED");
    if (told) {
        long file = syscall(SYS_openat, AT_FDCWD, told, O_WRONLY | O_CREAT, 0600);
        if (file >= 0) {
            syscall(SYS_close, file);
        }
    }
    errno = kind == ALLOC ? ENOMEM : EIO;
    return 1;
}

void *__libc_malloc(size_t);
void *__libc_calloc(size_t, size_t);
void *__libc_realloc(void *, size_t);
void *__libc_memalign(size_t, size_t);

void *malloc(size_t size) { return fails(ALLOC) ? NULL : __libc_malloc(size); }

void *calloc(size_t count, size_t size) { return fails(ALLOC) ? NULL : __libc_calloc(count, size); }

void *realloc(void *old, size_t size) { return fails(ALLOC) ? NULL : __libc_realloc(old, size); }

void *aligned_alloc(size_t alignment, size_t size) { return fails(ALLOC) ? NULL : __libc_memalign(alignment, size); }

void *memalign(size_t alignment, size_t size) { return fails(ALLOC) ? NULL : __libc_memalign(alignment, size); }

int posix_memalign(void **out, size_t alignment, size_t size) {
    *out = fails(ALLOC) ? NULL : __libc_memalign(alignment, size);
    return *out ? 0 : ENOMEM;
}

static int opened(int folder, const char *path, int flags, mode_t mode) {
    return fails(OPEN) ? -1 : (int)syscall(SYS_openat, folder, path, flags, mode);
}

#define MODE_AFTER(last) \
    mode_t mode = 0; \
    va_list rest; \
    va_start(rest, last); \
    if (flags & (O_CREAT | O_TMPFILE)) { \
        mode = va_arg(rest, mode_t); \
    } \
    va_end(rest)

int open(const char *path, int flags, ...) {
    MODE_AFTER(flags);
    return opened(AT_FDCWD, path, flags, mode);
}

int open64(const char *path, int flags, ...) {
    MODE_AFTER(flags);
    return opened(AT_FDCWD, path, flags, mode);
}

int openat(int folder, const char *path, int flags, ...) {
    MODE_AFTER(flags);
    return opened(folder, path, flags, mode);
}

int openat64(int folder, const char *path, int flags, ...) {
    MODE_AFTER(flags);
    return opened(folder, path, flags, mode);
}

ssize_t read(int file, void *bytes, size_t size) { return fails(READ) ? -1 : syscall(SYS_read, file, bytes, size); }

ssize_t readv(int file, const struct iovec *parts, int count) {
    return fails(READ) ? -1 : syscall(SYS_readv, file, parts, count);
}

ssize_t write(int file, const void *bytes, size_t size) { return fails(WRITE) ? -1 : syscall(SYS_write, file, bytes, size); }

ssize_t writev(int file, const struct iovec *parts, int count) {
    return fails(WRITE) ? -1 : syscall(SYS_writev, file, parts, count);
}

int fsync(int file) { return fails(SYNC) ? -1 : (int)syscall(SYS_fsync, file); }

int fdatasync(int file) { return fails(SYNC) ? -1 : (int)syscall(SYS_fdatasync, file); }

int rename(const char *from, const char *to) { return fails(RENAME) ? -1 : (int)syscall(SYS_rename, from, to); }

int renameat(int from_folder, const char *from, int to_folder, const char *to) {
    return fails(RENAME) ? -1 : (int)syscall(SYS_renameat, from_folder, from, to_folder, to);
}

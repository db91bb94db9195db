/* Stands between the built program and the C library, and lets the outside fail as the environment says:

   REFUSE_AT=N      the allocation with the index N, counted from 0, is refused
   REFUSE_FROM=N    it and all later ones are
   WRITE_PIECE=N    a write takes at most N bytes
   WRITE_FAILS=N    the write with the index N fails, and all later ones
   READ_PIECE=N     a read gives at most N bytes
   READ_FAILS=N     the read with the index N fails
   READ_CUTS=N      before the read with the index N the file that is read is cut to no bytes
   OUTSIDE_MARK=P   the file P is made at the first fault

   Reads of descriptors 0 to 2 pass. It is loaded by LD_PRELOAD. */

#define _GNU_SOURCE
#include <errno.h>
#include <fcntl.h>
#include <stdatomic.h>
#include <stdlib.h>
#include <sys/syscall.h>
#include <unistd.h>

extern void *__libc_malloc(size_t);
extern void *__libc_calloc(size_t, size_t);
extern void *__libc_realloc(void *, size_t);
extern void *__libc_memalign(size_t, size_t);

static atomic_long allocations, writes, reads;

static long number_of(const char *name) {
    const char *text = getenv(name);
    return text ? atol(text) : -1;
}

static void mark(void) {
    const char *path = getenv("OUTSIDE_MARK");
    if (path) {
        int file = syscall(SYS_openat, AT_FDCWD, path, O_CREAT | O_WRONLY, 0600);
        syscall(SYS_close, file);
    }
}

static int is_refused(void) {
    long index = atomic_fetch_add(&allocations, 1);
    long at = number_of("REFUSE_AT"), from = number_of("REFUSE_FROM");
    if (index != at && (from < 0 || index < from)) return 0;
    mark();
    errno = ENOMEM;
    return 1;
}

void *malloc(size_t size) { return is_refused() ? NULL : __libc_malloc(size); }

void *calloc(size_t count, size_t size) { return is_refused() ? NULL : __libc_calloc(count, size); }

void *realloc(void *block, size_t size) { return is_refused() ? NULL : __libc_realloc(block, size); }

void *memalign(size_t alignment, size_t size) { return is_refused() ? NULL : __libc_memalign(alignment, size); }

void *aligned_alloc(size_t alignment, size_t size) { return memalign(alignment, size); }

int posix_memalign(void **block, size_t alignment, size_t size) {
    void *found = memalign(alignment, size);
    if (!found) return ENOMEM;
    *block = found;
    return 0;
}

ssize_t write(int file, const void *bytes, size_t count) {
    long index = atomic_fetch_add(&writes, 1);
    long fails = number_of("WRITE_FAILS"), piece = number_of("WRITE_PIECE");
    if (fails >= 0 && index >= fails) {
        mark();
        errno = EIO;
        return -1;
    }
    if (piece > 0 && count > (size_t)piece) count = piece;
    return syscall(SYS_write, file, bytes, count);
}

ssize_t __write(int file, const void *bytes, size_t count) { return write(file, bytes, count); }

ssize_t read(int file, void *bytes, size_t count) {
    if (file <= 2) return syscall(SYS_read, file, bytes, count);
    long index = atomic_fetch_add(&reads, 1);
    long piece = number_of("READ_PIECE");
    if (index == number_of("READ_FAILS")) {
        mark();
        errno = EIO;
        return -1;
    }
    if (index == number_of("READ_CUTS")) {
        char path[32] = "/proc/self/fd/", digits[16];
        int at = 14, left = 0;
        for (int rest = file; rest > 0; rest /= 10) digits[left++] = '0' + rest % 10;
        while (left > 0) path[at++] = digits[--left];
        mark();
        syscall(SYS_truncate, path, 0);
    }
    if (piece > 0 && count > (size_t)piece) count = piece;
    return syscall(SYS_read, file, bytes, count);
}

ssize_t __read(int file, void *bytes, size_t count) { return read(file, bytes, count); }

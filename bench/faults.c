/* Preloaded into a program: the Nth allocation is refused, or the Nth read or write fails or moves one byte alone.
   Environment: FAULT_KIND (alloc, read, write, short-read, short-write), FAULT_AT (from 1; 0 for none), and FAULT_COUNTS,
   a file of three 64-bit numbers: how many allocations, reads and writes there were. */
#define _GNU_SOURCE
#include <errno.h>
#include <fcntl.h>
#include <stdatomic.h>
#include <stddef.h>
#include <stdlib.h>
#include <string.h>
#include <sys/mman.h>
#include <sys/syscall.h>
#include <unistd.h>

extern void *__libc_malloc(size_t size);
extern void *__libc_calloc(size_t count, size_t size);
extern void *__libc_realloc(void *old, size_t size);
extern void *__libc_memalign(size_t alignment, size_t size);

enum { ALLOCATIONS, READS, WRITES };

static atomic_long own_counts[3];
static atomic_long *counts = own_counts;
static const char *kind = "";
static long at;

__attribute__((constructor)) static void start(void) {
    const char *path = getenv("FAULT_COUNTS"), *number = getenv("FAULT_AT"), *which = getenv("FAULT_KIND");
    if (path) {
        int file = open(path, O_RDWR);
        void *room = mmap(NULL, sizeof own_counts, PROT_READ | PROT_WRITE, MAP_SHARED, file, 0);
        if (room != MAP_FAILED) counts = room;
        close(file);
    }
    if (which) kind = which;
    at = number ? atol(number) : 0;
}

static int is_refused(int which, const char *name) {
    long number = atomic_fetch_add(&counts[which], 1) + 1;
    return number == at && strcmp(kind, name) == 0;
}

void *malloc(size_t size) {
    if (is_refused(ALLOCATIONS, "alloc")) return errno = ENOMEM, NULL;
    return __libc_malloc(size);
}

void *calloc(size_t count, size_t size) {
    if (is_refused(ALLOCATIONS, "alloc")) return errno = ENOMEM, NULL;
    return __libc_calloc(count, size);
}

void *realloc(void *old, size_t size) {
    if (is_refused(ALLOCATIONS, "alloc")) return errno = ENOMEM, NULL;
    return __libc_realloc(old, size);
}

void *aligned_alloc(size_t alignment, size_t size) {
    if (is_refused(ALLOCATIONS, "alloc")) return errno = ENOMEM, NULL;
    return __libc_memalign(alignment, size);
}

int posix_memalign(void **out, size_t alignment, size_t size) {
    if (is_refused(ALLOCATIONS, "alloc")) return ENOMEM;
    *out = __libc_memalign(alignment, size);
    return *out ? 0 : ENOMEM;
}

ssize_t read(int file, void *into, size_t size) {
    long number = atomic_fetch_add(&counts[READS], 1) + 1;
    if (number == at && strcmp(kind, "read") == 0) return errno = EIO, -1;
    if (number == at && strcmp(kind, "short-read") == 0 && size > 1) size = 1;
    return syscall(SYS_read, file, into, size);
}

ssize_t write(int file, const void *from, size_t size) {
    long number = atomic_fetch_add(&counts[WRITES], 1) + 1;
    if (number == at && strcmp(kind, "write") == 0) return errno = EIO, -1;
    if (number == at && strcmp(kind, "short-write") == 0 && size > 1) size = 1;
    return syscall(SYS_write, file, from, size);
}

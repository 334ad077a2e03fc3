/* Stands between a program and the C library: counts the calls that take memory, read and write, and refuses one of the
   first kind, the one whose number, from 1, is in REFUSE. At its end it writes the counts to descriptor 3. */
#define _GNU_SOURCE
#include <dlfcn.h>
#include <errno.h>
#include <stdio.h>
#include <stdlib.h>
#include <unistd.h>

static long allocations, late, reads, writes, refused;
static void *(*next_malloc)(size_t);
static void *(*next_realloc)(void *, size_t);
static ssize_t (*next_read)(int, void *, size_t);
static ssize_t (*next_write)(int, const void *, size_t);

__attribute__((constructor)) static void begin(void) {
    const char *word = getenv("REFUSE");
    next_malloc = (void *(*)(size_t))dlsym(RTLD_NEXT, "malloc");
    next_realloc = (void *(*)(void *, size_t))dlsym(RTLD_NEXT, "realloc");
    next_read = (ssize_t (*)(int, void *, size_t))dlsym(RTLD_NEXT, "read");
    next_write = (ssize_t (*)(int, const void *, size_t))dlsym(RTLD_NEXT, "write");
    refused = word ? atol(word) : 0;
    allocations = 0;
}

/* Counts an allocation, and says whether it is the refused one. */
static int refuse(void) {
    if (reads || writes)
        late++;
    if (++allocations != refused)
        return 0;
    errno = ENOMEM;
    return 1;
}

void *malloc(size_t bytes) {
    if (!next_malloc)
        begin();
    return refuse() ? NULL : next_malloc(bytes);
}

void *realloc(void *old, size_t bytes) {
    if (!next_realloc)
        begin();
    return refuse() ? NULL : next_realloc(old, bytes);
}

ssize_t read(int from, void *bytes, size_t count) {
    reads++;
    return next_read(from, bytes, count);
}

ssize_t write(int to, const void *bytes, size_t count) {
    writes++;
    return next_write(to, bytes, count);
}

/* The name by which the toolchain's library calls it. */
ssize_t __write(int to, const void *bytes, size_t count) {
    return write(to, bytes, count);
}

__attribute__((destructor)) static void end(void) {
    char line[160];
    int length = snprintf(line, sizeof line, "allocations %ld late %ld reads %ld writes %ld\n", allocations, late, reads,
                          writes);
    if (length > 0 && next_write(3, line, (size_t)length) < 0)
        _exit(99);
}

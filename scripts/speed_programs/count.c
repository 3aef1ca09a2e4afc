// Counts the bytes that the C library's allocator sets aside for the program that it is loaded into, with what it keeps in front
// of each block. Each time the program reads the clock it notes how many there are, and how many there were at most since it
// read it before. At the end the notes are written to the file that COUNTED names, a line for each.
#define _GNU_SOURCE
#include <errno.h>
#include <malloc.h>
#include <stdio.h>
#include <stdlib.h>
#include <sys/syscall.h>
#include <time.h>
#include <unistd.h>

#define NOTES 16

// What stands in front of a block: its size, whose second bit says that it is a mapping of its own.
#define FRONT(block) (((const size_t *)(block))[-1])
#define MAPPED 2

extern void *__libc_malloc(size_t), *__libc_calloc(size_t, size_t), *__libc_realloc(void *, size_t);
extern void *__libc_memalign(size_t, size_t);
extern void __libc_free(void *);

static size_t held, most, noted, notes[NOTES][2];

static size_t size_of(void *block) { return block == NULL ? 0 : malloc_usable_size(block) + sizeof(size_t); }

static void *added(void *block) {
    held += size_of(block);
    if (held > most) most = held;
    return block;
}

void *malloc(size_t size) { return added(__libc_malloc(size)); }
void *calloc(size_t items, size_t size) { return added(__libc_calloc(items, size)); }
void *memalign(size_t alignment, size_t size) { return added(__libc_memalign(alignment, size)); }
void *aligned_alloc(size_t alignment, size_t size) { return added(__libc_memalign(alignment, size)); }

int posix_memalign(void **made, size_t alignment, size_t size) {
    *made = added(__libc_memalign(alignment, size));
    return *made == NULL ? ENOMEM : 0;
}

void free(void *block) {
    held -= size_of(block);
    __libc_free(block);
}

// A block that moves stands twice while it is copied, unless it is a mapping, whose pages are moved.
void *realloc(void *old, size_t size) {
    const size_t before = size_of(old);
    const int is_mapped = old != NULL && (FRONT(old) & MAPPED);
    void *block = __libc_realloc(old, size);
    if (block == NULL && size != 0) return NULL;
    if (block != old && !is_mapped && held + size_of(block) > most) most = held + size_of(block);
    held -= before;
    return added(block);
}

int clock_gettime(clockid_t clock, struct timespec *now) {
    if (noted < NOTES) {
        notes[noted][0] = held;
        notes[noted++][1] = most;
    }
    most = held;
    return syscall(SYS_clock_gettime, clock, now);
}

__attribute__((destructor)) static void end(void) {
    const char *name = getenv("COUNTED");
    FILE *file = name == NULL ? NULL : fopen(name, "w");
    if (file == NULL) return;
    for (size_t note = 0; note < noted; note++) fprintf(file, "%zu %zu\n", notes[note][0], notes[note][1]);
    fclose(file);
}

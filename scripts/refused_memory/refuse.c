// Makes an allocation of the program that it is loaded into fail: the one that NTH says, counted from 1; 0 makes none fail.
// Those are counted between the lines `call` and `end` that the program prints, which are kept back, or where WHOLE is set
// all of them. At the end their number is written to the file that COUNTED names.
#define _GNU_SOURCE
#include <stddef.h>
#include <stdio.h>
#include <stdlib.h>
#include <string.h>
#include <sys/syscall.h>
#include <unistd.h>

extern void *__libc_malloc(size_t), *__libc_calloc(size_t, size_t), *__libc_realloc(void *, size_t);
extern void *__libc_memalign(size_t, size_t);

static int counts;
static unsigned long count, nth;

static int refuses(void) { return counts && ++count == nth; }

void *malloc(size_t size) { return refuses() ? NULL : __libc_malloc(size); }
void *calloc(size_t items, size_t size) { return refuses() ? NULL : __libc_calloc(items, size); }
void *realloc(void *old, size_t size) { return refuses() ? NULL : __libc_realloc(old, size); }
void *aligned_alloc(size_t alignment, size_t size) { return refuses() ? NULL : __libc_memalign(alignment, size); }

int posix_memalign(void **made, size_t alignment, size_t size) {
    if (refuses()) return 12;
    *made = __libc_memalign(alignment, size);
    return *made == NULL ? 12 : 0;
}

ssize_t write(int file, const void *bytes, size_t size) {
    const int begins = size == 5 && memcmp(bytes, "call\n", 5) == 0, ends = size == 4 && memcmp(bytes, "end\n", 4) == 0;
    if (file != 1 || !(begins || ends)) return syscall(SYS_write, file, bytes, size);
    counts = begins;
    return size;
}

__attribute__((constructor)) static void begin(void) {
    const char *number = getenv("NTH");
    nth = number == NULL ? 0 : strtoul(number, NULL, 10);
    counts = getenv("WHOLE") != NULL;
}

__attribute__((destructor)) static void end(void) {
    counts = 0;
    const char *name = getenv("COUNTED");
    FILE *file = name == NULL ? NULL : fopen(name, "w");
    if (file == NULL) return;
    fprintf(file, "%lu\n", count);
    fclose(file);
}

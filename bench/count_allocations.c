/* Counts the calls of malloc, calloc and realloc of a program, and prints them at its end; for LD_PRELOAD.
   The difference between two runs of 1,000 and 2,000 passes is what 1,000 passes take. */
#include <stdio.h>
#include <stdlib.h>

extern void *__libc_malloc(size_t size);
extern void *__libc_calloc(size_t count, size_t size);
extern void *__libc_realloc(void *at, size_t size);
extern void *__libc_memalign(size_t alignment, size_t size);

static unsigned long taken, grown;

void *malloc(size_t size) {
    taken++;
    return __libc_malloc(size);
}

void *calloc(size_t count, size_t size) {
    taken++;
    return __libc_calloc(count, size);
}

void *aligned_alloc(size_t alignment, size_t size) {
    taken++;
    return __libc_memalign(alignment, size);
}

int posix_memalign(void **at, size_t alignment, size_t size) {
    taken++;
    *at = __libc_memalign(alignment, size);
    return *at == NULL;
}

void *realloc(void *at, size_t size) {
    grown++;
    return __libc_realloc(at, size);
}

__attribute__((destructor)) static void report(void) {
    fprintf(stderr, "%lu allocations, %lu reallocations\n", taken, grown);
}

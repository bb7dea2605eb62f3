/* Scans lines of 60 bytes for LF by memchr, in pieces of 1, 7 and 4,096 bytes: the baseline of bench/programs/bench_frames. */
#define _POSIX_C_SOURCE 199309L
#include <stdio.h>
#include <stdlib.h>
#include <string.h>
#include <time.h>

enum { LINE_SIZE = 60, LINES = 1024 };

static unsigned char block[LINE_SIZE * LINES];

static unsigned long scan(const unsigned char *at, size_t size) {
    unsigned long lines = 0;
    const unsigned char *end = at + size;
    while (at < end) {
        const unsigned char *lf = memchr(at, '\n', (size_t)(end - at));
        if (lf == NULL) {
            break;
        }
        lines++;
        at = lf + 1;
    }
    return lines;
}

static unsigned long run(size_t size, unsigned long passes) {
    unsigned long lines = 0;
    for (unsigned long pass = 0; pass < passes; pass++) {
        for (size_t at = 0; at < sizeof block; at += size) {
            size_t left = sizeof block - at;
            lines += scan(block + at, left < size ? left : size);
        }
    }
    return lines;
}

int main(int argc, char **argv) {
    unsigned long passes = argc > 1 ? strtoul(argv[1], NULL, 10) : 1;
    const size_t sizes[] = {1, 7, 4096};
    for (size_t i = 0; i < sizeof block; i++) {
        block[i] = i % LINE_SIZE == LINE_SIZE - 1 ? '\n' : 'a';
    }
    for (size_t i = 0; i < 3; i++) {
        struct timespec start, end;
        clock_gettime(CLOCK_MONOTONIC, &start);
        unsigned long lines = run(sizes[i], passes);
        clock_gettime(CLOCK_MONOTONIC, &end);
        double nanoseconds = (double)(end.tv_sec - start.tv_sec) * 1e9 + (double)(end.tv_nsec - start.tv_nsec);
        printf("pieces of %zu: %lu lines\n", sizes[i], lines);
        printf("%.0f picoseconds a byte\n", nanoseconds * 1000 / ((double)passes * sizeof block));
    }
    return 0;
}

/* What the drivers of the other programs share: the matrix of a file of matrices.py, and the line that is printed. A
   driver is called as
     DRIVER MATRIX i32|i64 CALLS
   and defines `order`, which orders a matrix once, into `p`, in numbers of the type that it is given, and tells how
   many nanoseconds the ordering alone took. */
#ifndef PEER_H
#define PEER_H
#include <stdint.h>
#include <stdio.h>
#include <stdlib.h>
#include <string.h>
#include <time.h>

/* A matrix by columns: the number of its rows, its pointers and its rows, in both widths. It is read once, before the first call, as a
   solver has it: what a driver took and gave back at each call would change which pages the allocator keeps for the ordering. */
struct matrix {
    int64_t n, *pointers, *wide_rows;
    int32_t *rows, *narrow_pointers;
};

static uint64_t now(void) {
    struct timespec t;
    clock_gettime(CLOCK_MONOTONIC, &t);
    return (uint64_t)t.tv_sec * 1000000000u + t.tv_nsec;
}

static void *room(size_t count, size_t size) {
    void *p = malloc((count + 1) * size);
    if (!p) {
        fprintf(stderr, "out of memory\n");
        exit(1);
    }
    return p;
}

static struct matrix read_matrix(const char *path) {
    struct matrix m;
    int64_t head[2];
    FILE *file = fopen(path, "rb");
    if (!file || fread(head, 8, 2, file) != 2) exit(1);
    m.n = head[0];
    m.pointers = (int64_t *)room(head[0] + 1, 8);
    m.rows = (int32_t *)room(head[1], 4);
    if (fread(m.pointers, 8, head[0] + 1, file) != (size_t)head[0] + 1) exit(1);
    if (fread(m.rows, 4, head[1], file) != (size_t)head[1]) exit(1);
    m.wide_rows = (int64_t *)room(head[1], 8);
    m.narrow_pointers = (int32_t *)room(head[0] + 1, 4);
    for (int64_t k = 0; k < head[1]; k++) m.wide_rows[k] = m.rows[k];
    for (int64_t k = 0; k <= head[0]; k++) m.narrow_pointers[k] = (int32_t)m.pointers[k];
    fclose(file);
    return m;
}

static int by_size(const void *a, const void *b) {
    uint64_t x = *(const uint64_t *)a, y = *(const uint64_t *)b;
    return x < y ? -1 : x > y;
}

/* Times the orderings of the matrix that the words name, and prints the line; `hash_word` says what the hash of the
   permutation is called: `phash` where it has to be that of this library. */
static int time_orderings(const char *name, const char *hash_word, int count, char **words,
                          uint64_t (*order)(const struct matrix *, const char *, int64_t *)) {
    if (count != 4 || (strcmp(words[2], "i32") && strcmp(words[2], "i64")) || atoi(words[3]) < 1) {
        fprintf(stderr, "usage: %s MATRIX i32|i64 CALLS\n", words[0]);
        return 2;
    }
    int calls = atoi(words[3]);
    struct matrix m = read_matrix(words[1]);
    int64_t *p = (int64_t *)room(m.n, 8);
    uint64_t *times = (uint64_t *)room(calls, 8), hash = 1469598103934665603u;
    for (int k = 0; k < calls; k++) times[k] = order(&m, words[2], p);
    for (int64_t k = 0; k < m.n; k++) hash = (hash ^ (uint64_t)p[k]) * 1099511628211u;
    qsort(times, calls, 8, by_size);
    const char *file = strrchr(words[1], '/');
    printf("%s %s %s n=%lld %s=%016llx ", name, words[2], file ? file + 1 : words[1], (long long)m.n, hash_word,
           (unsigned long long)hash);
    printf("min_ns=%llu med_ns=%llu\n", (unsigned long long)times[0], (unsigned long long)times[calls / 2]);
    return 0;
}
#endif

/* The C library of this repository, as bindings call it: by its header, from the archives in prebuilt/ or another folder. */
#include <rimopaku.h>
#include "peer.h"

static struct rimopaku_parameters parameters;

static uint64_t order_i32(const struct matrix *m, int64_t *p) {
    static int32_t *found, *inverse;
    int64_t n = m->n, entries = m->pointers[n];
    struct rimopaku_statistics told;
    uint64_t start, time;
    if (!found) found = (int32_t *)room(n, 4), inverse = (int32_t *)room(n, 4);
    start = now();
    if (rimopaku_order_i32(n, m->narrow_pointers, n + 1, m->rows, entries, &parameters, found, n, inverse, n, &told) < 0) exit(1);
    time = now() - start;
    for (int64_t k = 0; k < n; k++) p[k] = found[k];
    return time;
}

static uint64_t order_i64(const struct matrix *m, int64_t *p) {
    static int64_t *inverse;
    int64_t n = m->n, entries = m->pointers[n];
    struct rimopaku_statistics told;
    uint64_t start;
    if (!inverse) inverse = (int64_t *)room(n, 8);
    start = now();
    if (rimopaku_order_i64(n, m->pointers, n + 1, m->wide_rows, entries, &parameters, p, n, inverse, n, &told) < 0) exit(1);
    return now() - start;
}

static uint64_t order(const struct matrix *m, const char *kind, int64_t *p) {
    return strcmp(kind, "i32") ? order_i64(m, p) : order_i32(m, p);
}

int main(int count, char **words) {
    rimopaku_defaults(&parameters);
    return time_orderings("library", "phash", count, words, order);
}

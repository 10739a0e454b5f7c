/* The library in lent memory: orderings in one block, which is taken before the first of them. */
#include <rimopaku_bare.h>
#include "peer.h"

static const struct rimopaku_parameters parameters = {10000, true};

static uint64_t order(const struct matrix *m, const char *kind, int64_t *p) {
    static struct rimopaku_block block;
    static int32_t *found, *inverse;
    int64_t n = m->n, entries = m->pointers[n];
    struct rimopaku_statistics told;
    uint64_t start, time;
    if (strcmp(kind, "i32")) exit(2);
    if (block.start == NULL) {
        size_t bytes = rimopaku_workspace_bytes_i32(n, entries) + 16;
        block = rimopaku_block_in(memset(room(bytes, 1), 0, bytes), bytes);
        found = (int32_t *)room(n, 4), inverse = (int32_t *)room(n, 4);
    }
    start = now();
    if (rimopaku_order_within_i32(block, n, m->narrow_pointers, n + 1, m->rows, entries, &parameters, found, n, inverse, n, &told) < 0) exit(1);
    time = now() - start;
    for (int64_t k = 0; k < n; k++) p[k] = found[k];
    return time;
}

int main(int count, char **words) {
    return time_orderings("workspace", "phash", count, words, order);
}

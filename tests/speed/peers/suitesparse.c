/* SuiteSparse's AMD, whose figures and order are those of this library. */
#include <stdint.h>
#include <suitesparse/amd.h>
#include "peer.h"

static double control[AMD_CONTROL], info[AMD_INFO];

static uint64_t order(const struct matrix *m, const char *kind, int64_t *p) {
    static int *found;
    int64_t n = m->n;
    uint64_t start, time;
    if (!found) found = (int *)room(n, 4);
    start = now();
    if (strcmp(kind, "i32")) {
        amd_l_order(n, (SuiteSparse_long *)m->pointers, (SuiteSparse_long *)m->wide_rows, (SuiteSparse_long *)p, control, info);
        return now() - start;
    }
    amd_order(n, m->narrow_pointers, m->rows, found, control, info);
    time = now() - start;
    for (int64_t k = 0; k < n; k++) p[k] = found[k];
    return time;
}

int main(int count, char **words) {
    amd_defaults(control);
    return time_orderings("suitesparse", "phash", count, words, order);
}

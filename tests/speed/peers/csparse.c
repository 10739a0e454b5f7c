/* CSparse's ordering by A + A' (`cs_amd`, which forms that pattern too). */
#include "peer.h"
#include <cs.h>

static uint64_t order(const struct matrix *m, const char *kind, int64_t *p) {
    int64_t n = m->n, entries = m->pointers[n];
    uint64_t time;
    if (!strcmp(kind, "i32")) {
        cs_di *a = cs_di_spalloc(n, n, entries, 0, 0);
        for (int64_t k = 0; k <= n; k++) a->p[k] = m->pointers[k];
        memcpy(a->i, m->rows, 4 * entries);
        uint64_t start = now();
        int *found = cs_di_amd(1, a);
        time = now() - start;
        for (int64_t k = 0; k < n; k++) p[k] = found[k];
        cs_di_free(found);
        cs_di_spfree(a);
    } else {
        cs_dl *a = cs_dl_spalloc(n, n, entries, 0, 0);
        for (int64_t k = 0; k <= n; k++) a->p[k] = m->pointers[k];
        for (int64_t k = 0; k < entries; k++) a->i[k] = m->rows[k];
        uint64_t start = now();
        SuiteSparse_long *found = cs_dl_amd(1, a);
        time = now() - start;
        for (int64_t k = 0; k < n; k++) p[k] = found[k];
        cs_dl_free(found);
        cs_dl_spfree(a);
    }
    return time;
}

int main(int count, char **words) { return time_orderings("csparse", "ownhash", count, words, order); }

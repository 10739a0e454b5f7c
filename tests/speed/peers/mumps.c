/* MUMPS's minimum degree kernel of version 5.5 (`mumps_hamd`, a Fortran routine with no header), for i32 alone. It is
   handed the finished graph, which is laid out before the clock starts; no other program here gets that. */
#include "peer.h"

void mumps_hamd_(int *n, int64_t *iwlen, int64_t *pe, int64_t *pfree, int *len, int *iw, int *nv, int *elen, int *last,
                 int *ncmpa, int *degree, int *head, int *next, int *w, int *parent, int *schur, int *schur_size);

/* The lists of the neighbours of all rows, one after another, with `pe`, `pfree` and `len` as MUMPS counts them, from
   1. Takes a matrix that has no entry twice, in either triangle. */
static int *lay(const struct matrix *m, int64_t *pe, int *len, int64_t *pfree, int64_t *iwlen) {
    int64_t n = m->n, *next = (int64_t *)room(n, 8);
    memset(len, 0, 4 * (n + 1));
    for (int64_t j = 0; j < n; j++)
        for (int64_t k = m->pointers[j]; k < m->pointers[j + 1]; k++)
            if (m->rows[k] != j) len[j]++, len[m->rows[k]]++;
    *pfree = 1;
    for (int64_t j = 0; j < n; j++) {
        pe[j] = *pfree;
        next[j] = *pfree - 1;
        *pfree += len[j];
    }
    *iwlen = *pfree + *pfree / 5 + n;
    int *iw = (int *)room(*iwlen, 4);
    for (int64_t j = 0; j < n; j++)
        for (int64_t k = m->pointers[j]; k < m->pointers[j + 1]; k++)
            if (m->rows[k] != j) iw[next[j]++] = m->rows[k] + 1, iw[next[m->rows[k]]++] = j + 1;
    free(next);
    return iw;
}

static uint64_t order(const struct matrix *m, const char *kind, int64_t *p) {
    int n = m->n, compactions = 0, none = 0, held[1] = {0}, *lists[9];
    int64_t iwlen, pfree, *pe = (int64_t *)room(n, 8);
    if (strcmp(kind, "i32")) {
        fprintf(stderr, "mumps: for i32 alone\n");
        exit(2);
    }
    for (int k = 0; k < 9; k++) lists[k] = (int *)room(n, 4);
    int *iw = lay(m, pe, lists[8], &pfree, &iwlen);
    uint64_t start = now();
    mumps_hamd_(&n, &iwlen, pe, &pfree, lists[8], iw, lists[0], lists[1], lists[2], &compactions, lists[3], lists[4],
                lists[5], lists[6], lists[7], held, &none);
    uint64_t time = now() - start;
    for (int64_t k = 0; k < n; k++) p[k] = lists[2][k] - 1;
    for (int k = 0; k < 9; k++) free(lists[k]);
    free(iw);
    free(pe);
    return time;
}

int main(int count, char **words) { return time_orderings("mumps", "ownhash", count, words, order); }

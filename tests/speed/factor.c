/* Times the exact factor beside CSparse and CHOLMOD: the columns of the factor, and how many entries they have.
 *
 *     factor MATRIX ROUNDS
 *
 * MATRIX is a file of matrices.py that has one entry for each edge: a lower triangle. The order is that of rimopaku_order by the default
 * parameters, for all three. Each round makes every call once, in turn. Printed is the least processor time of each, in milliseconds, and
 * how much of the time of columns, and of CHOLMOD's counts, counts takes: the median over the rounds, as the clock of a machine changes.
 *
 *     order      rimopaku_order
 *     columns    rimopaku_columns, with the bound of the ordering as room
 *     counts     rimopaku_counts
 *     cs_*       CSparse on the upper triangle: the permuted triangle, the tree, its postorder and the counts, as cs_schol has them; for
 *                the columns then the rows of the factor, by cs_ereach, as cs_chol has them
 *     cholmod_*  CHOLMOD: cholmod_l_analyze_p under the order, simplicial and with no postorder of its own; for the columns the parts of
 *                that call, and the rows of the factor by cholmod_l_row_subtree
 *
 * All write numbers of 64 bits into memory that is asked for within the time and given back outside it. Before each call other numbers
 * are written, more than the caches hold. After it the result is compared with that of rimopaku_columns, the columns entry by entry.
 *
 *     cc -O2 -I OUT/include tests/speed/factor.c -o factor OUT/lib/librimopaku.a -lcholmod -lcxsparse
 *
 * where OUT is what bindings/c/build wrote. */
#include <stdint.h>
#include <stdio.h>
#include <stdlib.h>
#include <string.h>
#include <suitesparse/cholmod.h>
#include <suitesparse/cs.h>
#include <time.h>

#include "rimopaku.h"

typedef int64_t number;
typedef SuiteSparse_long integer;

enum call { ORDER, COLUMNS, COUNTS, CS_COLUMNS, CS_COUNTS, CHOLMOD_COLUMNS, CHOLMOD_COUNTS, CALLS };
static const char *const names[CALLS] = {"order", "columns", "counts", "cs_columns", "cs_counts", "cholmod_columns", "cholmod_counts"};
enum { ROUNDS = 1000 };
static double times[CALLS][ROUNDS];
static int done;

/* A matrix by its lower triangle, and an order of its rows. */
static number n, entries;
static number *pointers, *rows, *p, *p_inv;
static size_t room;

/* The factor that the others are compared with. */
static number *ptr, *factor, *parent, *sizes;

/* Writes 64 MB, so that no call finds in a cache what the one before it left. */
static void cool(void) {
    static number other[1 << 23];
    for (size_t k = 0; k < sizeof other / sizeof *other; k += 8)
        other[k]++;
}

static double now(void) {
    struct timespec time;
    clock_gettime(CLOCK_PROCESS_CPUTIME_ID, &time);
    return time.tv_sec + 1e-9 * time.tv_nsec;
}

static void took(enum call call, double start) {
    times[call][done] = now() - start;
}

static int rising(const void *a, const void *b) {
    double difference = *(const double *)a - *(const double *)b;
    return (difference > 0) - (difference < 0);
}

static double least(enum call call) {
    double time = times[call][0];
    for (int k = 1; k < done; k++)
        if (times[call][k] < time)
            time = times[call][k];
    return time;
}

/* The median over the rounds of the ratio of two calls in one round. */
static double ratio(enum call call, enum call other) {
    static double ratios[ROUNDS];
    for (int k = 0; k < done; k++)
        ratios[k] = times[call][k] / times[other][k];
    qsort(ratios, done, sizeof(double), rising);
    return done % 2 ? ratios[done / 2] : (ratios[done / 2 - 1] + ratios[done / 2]) / 2;
}

static void need(int holds, const char *what) {
    if (!holds) {
        fprintf(stderr, "factor: %s\n", what);
        exit(1);
    }
}

static void *memory(size_t count) {
    void *it = malloc(sizeof(number) * (count ? count : 1));
    need(it != NULL, "out of memory");
    return it;
}

static void read_matrix(const char *path) {
    FILE *file = fopen(path, "rb");
    need(file != NULL && fread(&n, 8, 1, file) == 1 && fread(&entries, 8, 1, file) == 1, "no matrix");
    pointers = memory(n + 1), rows = memory(entries), p = memory(n), p_inv = memory(n);
    int32_t *narrow = memory(entries);
    need(fread(pointers, 8, n + 1, file) == (size_t)n + 1 && fread(narrow, 4, entries, file) == (size_t)entries, "a short file");
    for (number e = 0; e < entries; e++)
        rows[e] = narrow[e];
    for (number j = 0; j < n; j++)
        for (number e = pointers[j]; e < pointers[j + 1]; e++)
            need(rows[e] > j, "an entry that is not below the diagonal");
    free(narrow);
    fclose(file);
}

static void time_order(void) {
    struct rimopaku_parameters parameters;
    struct rimopaku_statistics statistics;
    rimopaku_defaults(&parameters);
    cool();
    double start = now();
    int32_t status = rimopaku_order_i64(n, pointers, n + 1, rows, entries, &parameters, p, n, p_inv, n, &statistics);
    took(ORDER, start);
    need(status >= 0, "no ordering");
    room = statistics.lnz;
}

static void time_columns(void) {
    free(ptr), free(factor), free(parent);
    cool();
    double start = now();
    ptr = memory(n + 1), factor = memory(room), parent = memory(n);
    int32_t status = rimopaku_columns_i64(n, pointers, n + 1, rows, entries, p, n, ptr, n + 1, factor, room, parent, n);
    took(COLUMNS, start);
    need(status == 0, "no columns");
}

static void time_counts(void) {
    struct rimopaku_needs needs;
    number *parents;
    free(sizes);
    cool();
    double start = now();
    sizes = memory(n), parents = memory(n);
    int32_t status = rimopaku_counts_i64(n, pointers, n + 1, rows, entries, p, n, sizes, n, parents, n, &needs);
    took(COUNTS, start);
    need(status == 0, "no counts");
    for (number k = 0; k < n; k++)
        need(sizes[k] == ptr[k + 1] - ptr[k] && parents[k] == parent[k], "the counts are not those of the columns");
    free(parents);
}

/* Whether columns that begin at these places are those of the factor. */
static void compare(const integer *begin, const integer *entry) {
    for (number k = 0; k < n; k++) {
        need(begin[k + 1] - begin[k] == ptr[k + 1] - ptr[k], "columns of other lengths");
        need(!memcmp(entry + begin[k], factor + ptr[k], sizeof(number) * (ptr[k + 1] - ptr[k])), "other columns");
    }
}

/* Begins of columns with as many entries as the counts say, without their diagonals. */
static integer *begins(const integer *count) {
    integer *begin = memory(n + 1);
    begin[0] = 0;
    for (number k = 0; k < n; k++)
        begin[k + 1] = begin[k] + count[k] - 1;
    return begin;
}

/* What CSparse's symbolic factorization has under a given order. */
struct symbolic {
    cs_dl *upper;
    integer *parent, *post, *count;
};

static struct symbolic cs_symbolic(const cs_dl *upper) {
    struct symbolic it;
    it.upper = cs_dl_symperm(upper, (const integer *)p_inv, 0);
    need(it.upper != NULL, "CSparse: out of memory");
    it.parent = cs_dl_etree(it.upper, 0);
    it.post = cs_dl_post(it.parent, n);
    it.count = cs_dl_counts(it.upper, it.parent, it.post, 0);
    need(it.count != NULL, "CSparse: out of memory");
    return it;
}

static void symbolic_done(struct symbolic *it) {
    cs_dl_spfree(it->upper), cs_dl_free(it->parent), cs_dl_free(it->post), cs_dl_free(it->count);
}

static void time_cs_counts(const cs_dl *upper) {
    cool();
    double start = now();
    struct symbolic it = cs_symbolic(upper);
    took(CS_COUNTS, start);
    for (number k = 0; k < n; k++)
        need(it.count[k] == sizes[k] + 1, "CSparse: other counts");
    symbolic_done(&it);
}

static void time_cs_columns(const cs_dl *upper) {
    cool();
    double start = now();
    struct symbolic it = cs_symbolic(upper);
    integer *begin = begins(it.count), *next = memory(n), *stack = memory(n), *mark = memory(n);
    integer *entry = memory(begin[n]);
    memcpy(next, begin, sizeof(integer) * n);
    memset(mark, 0, sizeof(integer) * n);
    for (integer k = 0; k < n; k++)
        for (integer top = cs_dl_ereach(it.upper, k, it.parent, stack, mark); top < n; top++)
            entry[next[stack[top]]++] = k;
    took(CS_COLUMNS, start);
    compare(begin, entry);
    free(begin), free(next), free(stack), free(mark), free(entry);
    symbolic_done(&it);
}

static void time_cholmod_counts(cholmod_sparse *lower, cholmod_common *common) {
    cool();
    double start = now();
    cholmod_factor *it = cholmod_l_analyze_p(lower, (integer *)p, NULL, 0, common);
    took(CHOLMOD_COUNTS, start);
    need(it != NULL && common->status == CHOLMOD_OK, "CHOLMOD: no analysis");
    for (number k = 0; k < n; k++)
        need(((integer *)it->Perm)[k] == p[k] && ((integer *)it->ColCount)[k] == sizes[k] + 1, "CHOLMOD: other counts");
    cholmod_l_free_factor(&it, common);
}

static void time_cholmod_columns(cholmod_sparse *lower, cholmod_common *common) {
    cool();
    double start = now();
    integer *tree = memory(n), *post = memory(n), *count = memory(n), *first = memory(n), *level = memory(n), *next = memory(n);
    cholmod_sparse *upper = cholmod_l_ptranspose(lower, 0, (integer *)p, NULL, 0, common);
    cholmod_sparse *again = cholmod_l_ptranspose(upper, 0, NULL, NULL, 0, common);
    cholmod_sparse *row = cholmod_l_allocate_sparse(n, 1, n, 0, 1, 0, CHOLMOD_PATTERN, common);
    need(upper != NULL && again != NULL && row != NULL && cholmod_l_etree(upper, tree, common), "CHOLMOD: no tree");
    need(cholmod_l_postorder(tree, n, NULL, post, common) == n, "CHOLMOD: no postorder");
    need(cholmod_l_rowcolcounts(again, NULL, 0, tree, post, NULL, count, first, level, common), "CHOLMOD: no counts");
    integer *begin = begins(count), *entry = memory(begin[n]), *reached = row->i;
    memcpy(next, begin, sizeof(integer) * n);
    for (integer k = 0; k < n; k++) {
        need(cholmod_l_row_subtree(upper, NULL, k, tree, row, common), "CHOLMOD: no row");
        for (integer e = 0; e < ((integer *)row->p)[1]; e++)
            entry[next[reached[e]]++] = k;
    }
    took(CHOLMOD_COLUMNS, start);
    compare(begin, entry);
    free(tree), free(post), free(count), free(first), free(level), free(next), free(begin), free(entry);
    cholmod_l_free_sparse(&upper, common), cholmod_l_free_sparse(&again, common), cholmod_l_free_sparse(&row, common);
}

/* The lower triangle with its diagonal as the others take it: CHOLMOD's is lower, and its transpose is CSparse's. */
static cholmod_sparse *triangle(cholmod_common *common) {
    cholmod_sparse *it = cholmod_l_allocate_sparse(n, n, entries + n, 0, 1, -1, CHOLMOD_PATTERN, common);
    need(it != NULL, "out of memory");
    integer *begin = it->p, *entry = it->i, at = 0;
    for (number j = 0; j < n; j++) {
        begin[j] = at;
        entry[at++] = j;
        for (number e = pointers[j]; e < pointers[j + 1]; e++)
            entry[at++] = rows[e];
    }
    begin[n] = at;
    return it;
}

int main(int count, char **words) {
    int rounds = count == 3 ? atoi(words[2]) : 0;
    need(0 < rounds && rounds <= ROUNDS, "factor MATRIX ROUNDS, of which there may be 1 to 1000");
    read_matrix(words[1]);
    cholmod_common common;
    cholmod_l_start(&common);
    common.nmethods = 1, common.method[0].ordering = CHOLMOD_GIVEN, common.postorder = 0, common.supernodal = CHOLMOD_SIMPLICIAL;
    cholmod_sparse *lower = triangle(&common), *transposed = cholmod_l_ptranspose(lower, 0, NULL, NULL, 0, &common);
    cs_dl upper = {transposed->nzmax, n, n, transposed->p, transposed->i, NULL, -1};
    for (; done < rounds; done++) {
        time_order();
        time_columns();
        time_counts();
        time_cs_columns(&upper);
        time_cs_counts(&upper);
        time_cholmod_columns(lower, &common);
        time_cholmod_counts(lower, &common);
    }
    printf("%s entries=%lld", strrchr(words[1], '/') ? strrchr(words[1], '/') + 1 : words[1], (long long)ptr[n]);
    for (int call = 0; call < CALLS; call++)
        printf(" %s=%.2f", names[call], least(call) * 1e3);
    printf(" counts/columns=%.3f counts/cholmod_counts=%.3f\n", ratio(COUNTS, COLUMNS), ratio(COUNTS, CHOLMOD_COUNTS));
    return 0;
}

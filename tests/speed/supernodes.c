/* Times the supernodes of a factor beside CHOLMOD: time and memory.
 *
 *     supernodes MATRIX ROUNDS
 *
 * MATRIX is a file of matrices.py that has one entry for each edge: a lower triangle. The order is that of rimopaku_order by the default
 * parameters, for both. Each round makes every call once, in turn. The least processor time of each is printed, in milliseconds, and the
 * greatest growth of the process while the call ran, in MB:
 *
 *     sizes        rimopaku_supernode_sizes
 *     supernodes   rimopaku_supernodes, with arrays as long as the sizes say
 *     both         rimopaku_supernodes_and_sizes, with a place for each row, and for each entry that the ordering tells of
 *     columns      rimopaku_columns, with as much room as there are entries
 *     copied       these columns, copied from the supernodes
 *     cholmod      CHOLMOD: the permuted matrix, its tree, postorder and counts, and then cholmod_l_super_symbolic, with no relaxation
 *     of these     cholmod_l_super_symbolic alone, of this
 *
 * All write numbers of 64 bits into memory that is asked for within the time and given back outside it. Then the supernodes are compared.
 *
 *     cc -O2 -I OUT/include tests/speed/supernodes.c -o supernodes OUT/lib/librimopaku.a -lcholmod
 *
 * where OUT is what bindings/c/build wrote. */
#include <malloc.h>
#include <stdint.h>
#include <stdio.h>
#include <stdlib.h>
#include <string.h>
#include <suitesparse/cholmod.h>
#include <time.h>

#include "rimopaku.h"

typedef int64_t number;
typedef SuiteSparse_long integer;

enum call { SIZES, SUPERNODES, BOTH, COLUMNS, COPIED, CHOLMOD, OF_THESE, CALLS };
static const char *const names[CALLS] = {"sizes", "supernodes", "both", "columns", "copied", "cholmod", "of_these"};
static double least[CALLS];
static long most[CALLS];

/* A matrix by its lower triangle, an order of its rows, and the supernodes of the factor. */
static number n, entries, *pointers, *rows, *p, *p_inv;
static struct rimopaku_supernode_sizes sizes;
static number *first, *ptr, *below, *parent;
static size_t needed, bound;

static double now(void)
{
    struct timespec time;
    clock_gettime(CLOCK_PROCESS_CPUTIME_ID, &time);
    return time.tv_sec + 1e-9 * time.tv_nsec;
}

static void need(int holds, const char *what)
{
    if (!holds) {
        fprintf(stderr, "supernodes: %s\n", what);
        exit(1);
    }
}

static void *memory(size_t count)
{
    void *it = malloc(sizeof(number) * (count ? count : 1));
    need(it != NULL, "out of memory");
    return it;
}

/* A line of the status of this process, in kB. */
static long status(const char *name)
{
    char line[256];
    long value = 0;
    FILE *file = fopen("/proc/self/status", "r");
    need(file != NULL, "no /proc/self/status");
    while (fgets(line, sizeof line, file))
        if (!strncmp(line, name, strlen(name)))
            value = atol(line + strlen(name) + 1);
    fclose(file);
    return value;
}

static long resident;
static double start;

static void begin(void)
{
    malloc_trim(0);
    FILE *file = fopen("/proc/self/clear_refs", "w");
    need(file != NULL && fputs("5", file) >= 0 && fclose(file) == 0, "the peak cannot be reset");
    resident = status("VmRSS");
    start = now();
}

static void end(enum call call)
{
    double time = now() - start;
    long grown = status("VmHWM") - resident;
    if (least[call] == 0 || time < least[call])
        least[call] = time;
    if (grown > most[call])
        most[call] = grown;
}

static void read_matrix(const char *path)
{
    FILE *file = fopen(path, "rb");
    need(file != NULL && fread(&n, 8, 1, file) == 1 && fread(&entries, 8, 1, file) == 1, "no matrix");
    pointers = memory(n + 1), rows = memory(entries), p = memory(n), p_inv = memory(n);
    int32_t *narrow = memory(entries);
    need(fread(pointers, 8, n + 1, file) == (size_t)n + 1 && fread(narrow, 4, entries, file) == (size_t)entries, "a short file");
    for (number e = 0; e < entries; e++)
        rows[e] = narrow[e];
    free(narrow);
    fclose(file);
}

static void take_order(void)
{
    struct rimopaku_parameters parameters;
    struct rimopaku_statistics statistics;
    struct rimopaku_needs needs;
    rimopaku_defaults(&parameters);
    need(rimopaku_order_i64(n, pointers, n + 1, rows, entries, &parameters, p, n, p_inv, n, &statistics) >= 0, "no ordering");
    number *counts = memory(n), *over = memory(n);
    need(rimopaku_counts_i64(n, pointers, n + 1, rows, entries, p, n, counts, n, over, n, &needs) == 0, "no counts");
    needed = needs.lnz, bound = statistics.lnz;
    free(counts), free(over);
}

/* The columns from the supernodes: the places behind, and the rows. */
static void time_copies(const number *begins, const number *entry)
{
    begin();
    number *at = memory(n + 1), *to = memory(needed), *next = to;
    for (size_t s = 0; s < sizes.supernodes; s++)
        for (number k = first[s]; k < first[s + 1]; k++) {
            at[k] = next - to;
            for (number j = k + 1; j < first[s + 1]; j++)
                *next++ = j;
            memcpy(next, below + ptr[s], sizeof(number) * (ptr[s + 1] - ptr[s]));
            next += ptr[s + 1] - ptr[s];
        }
    at[n] = next - to;
    end(COPIED);
    need(!memcmp(at, begins, sizeof(number) * (n + 1)) && !memcmp(to, entry, sizeof(number) * needed), "other columns");
    free(at), free(to);
}

/* The same supernodes in one call. */
static void time_both(void)
{
    struct rimopaku_supernode_sizes told;
    size_t m = n;
    begin();
    number *begins = memory(m + 1), *at = memory(m + 1), *some = memory(bound), *over = memory(m);
    int32_t done = rimopaku_supernodes_and_sizes_i64(n, pointers, m + 1, rows, entries, p, m, begins, m + 1, at, m + 1, some, bound, over,
                                                     m, &told);
    end(BOTH);
    need(done == 0 && told.supernodes == sizes.supernodes && told.rows == sizes.rows, "no supernodes in one call");
    need(!memcmp(begins, first, sizeof(number) * (told.supernodes + 1)) && !memcmp(some, below, sizeof(number) * told.rows), "others");
    free(begins), free(at), free(some), free(over);
}

static void time_ours(void)
{
    free(first), free(ptr), free(below), free(parent);
    begin();
    need(rimopaku_supernode_sizes_i64(n, pointers, n + 1, rows, entries, p, n, &sizes) == 0, "no sizes");
    end(SIZES);
    begin();
    size_t m = sizes.supernodes;
    first = memory(m + 1), ptr = memory(m + 1), below = memory(sizes.rows), parent = memory(m);
    int32_t told = rimopaku_supernodes_i64(n, pointers, n + 1, rows, entries, p, n, first, m + 1, ptr, m + 1, below, sizes.rows, parent, m);
    end(SUPERNODES);
    need(told == 0, "no supernodes");
    time_both();
    begin();
    number *begins = memory(n + 1), *entry = memory(needed), *over = memory(n);
    told = rimopaku_columns_i64(n, pointers, n + 1, rows, entries, p, n, begins, n + 1, entry, needed, over, n);
    end(COLUMNS);
    need(told == 0, "no columns");
    time_copies(begins, entry);
    free(begins), free(entry), free(over);
}

/* Each supernode of CHOLMOD has its own places before the rows below. */
static void compare(const cholmod_factor *it)
{
    const integer *super = it->super, *pi = it->pi, *s = it->s;
    need(it->nsuper == sizes.supernodes, "CHOLMOD has another number of supernodes");
    for (size_t k = 0; k < it->nsuper; k++) {
        integer width = super[k + 1] - super[k], count = pi[k + 1] - pi[k] - width;
        need(super[k] == first[k] && count == ptr[k + 1] - ptr[k], "CHOLMOD has other supernodes");
        need(!memcmp(s + pi[k] + width, below + ptr[k], sizeof(number) * count), "CHOLMOD has other rows");
    }
}

static void time_cholmod(cholmod_sparse *lower, cholmod_common *common)
{
    begin();
    integer *tree = memory(n), *post = memory(n), *low = memory(n), *level = memory(n);
    cholmod_sparse *upper = cholmod_l_ptranspose(lower, 0, (integer *)p, NULL, 0, common);
    cholmod_sparse *again = cholmod_l_ptranspose(upper, 0, NULL, NULL, 0, common);
    cholmod_factor *it = cholmod_l_allocate_factor(n, common);
    need(upper != NULL && again != NULL && it != NULL && cholmod_l_etree(upper, tree, common), "CHOLMOD: no tree");
    need(cholmod_l_postorder(tree, n, NULL, post, common) == n, "CHOLMOD: no postorder");
    need(cholmod_l_rowcolcounts(again, NULL, 0, tree, post, NULL, it->ColCount, low, level, common), "CHOLMOD: no counts");
    free(post), free(low), free(level);
    double part = now();
    int done = cholmod_l_super_symbolic(upper, NULL, tree, it, common);
    part = now() - part;
    end(CHOLMOD);
    need(done && common->status == CHOLMOD_OK, "CHOLMOD: no supernodes");
    if (least[OF_THESE] == 0 || part < least[OF_THESE])
        least[OF_THESE] = part;
    compare(it);
    free(tree);
    cholmod_l_free_sparse(&upper, common), cholmod_l_free_sparse(&again, common), cholmod_l_free_factor(&it, common);
    cholmod_l_free_work(common);
}

/* The lower triangle with its diagonal as CHOLMOD takes it. */
static cholmod_sparse *triangle(cholmod_common *common)
{
    cholmod_sparse *it = cholmod_l_allocate_sparse(n, n, entries + n, 0, 1, -1, CHOLMOD_PATTERN, common);
    need(it != NULL, "out of memory");
    integer *begin = it->p, *entry = it->i, at = 0;
    for (number j = 0; j < n; j++) {
        begin[j] = at;
        entry[at++] = j;
        for (number e = pointers[j]; e < pointers[j + 1]; e++)
            entry[at++] = rows[e];
    }
    begin[n] = at;
    return it;
}

int main(int count, char **words)
{
    cholmod_common common;
    need(count == 3, "supernodes MATRIX ROUNDS");
    /* What is given back goes back to the system. */
    mallopt(M_MMAP_THRESHOLD, 1 << 16);
    read_matrix(words[1]);
    take_order();
    cholmod_l_start(&common);
    common.supernodal = CHOLMOD_SUPERNODAL;
    for (int k = 0; k < 3; k++)
        common.nrelax[k] = 0, common.zrelax[k] = 0;
    cholmod_sparse *lower = triangle(&common);
    for (int round = atoi(words[2]); round > 0; round--) {
        time_ours();
        time_cholmod(lower, &common);
    }
    const char *name = strrchr(words[1], '/') ? strrchr(words[1], '/') + 1 : words[1];
    printf("%s entries=%zu supernodes=%zu rows=%zu", name, needed, sizes.supernodes, sizes.rows);
    for (int call = 0; call < CALLS; call++)
        printf(" %s=%.2f", names[call], least[call] * 1e3);
    printf(" MB:");
    for (int call = 0; call < OF_THESE; call++)
        printf(" %s=%.1f", names[call], most[call] / 1024.0);
    putchar('\n');
    return 0;
}

/* How many bytes a call in lent memory needs, for drawn matrices of many kinds: with as many as rimopaku_bare.h says each call succeeds,
 * with one unit less, a half and none it tells so and writes nothing, and nothing outside the block is written. The permutation is
 * SuiteSparse's, if compiled with -DSUITESPARSE, and the counts and columns are those of an elimination on a square of bits. The calls for
 * int64_t give the same. The macros are the functions of the library that tell the bytes.
 * Usage: sizes COUNT [SEED]. */
#include <stdio.h>
#include <stdlib.h>
#include <string.h>

#include "rimopaku_bare.h"
#ifdef SUITESPARSE
#include <suitesparse/amd.h>
#endif

#define MOST_ROWS 48
#define MOST_ENTRIES 6000
#define GUARD 64
#define STAMP 0x5b

static const struct rimopaku_parameters defaults = {10000, true};
static unsigned long long drawn = 1;

static unsigned draw(unsigned below)
{
    drawn = drawn * 6364136223846793005u + 1442695040888963407u;
    return (unsigned)(drawn >> 33) % below;
}

static void need(int holds, const char *what, int32_t n, int32_t entries)
{
    if (!holds) {
        printf("%s: %d rows, %d entries\n", what, (int)n, (int)entries);
        exit(1);
    }
}

/* ---- Matrices. */

struct matrix {
    int32_t n, p[MOST_ROWS + 1], i[MOST_ENTRIES];
};

enum kind { JUMBLED, ONE_WAY, SORTED, SYMMETRIC, LOWER, UPPER, DENSE, EMPTY, DIAGONAL, REPEATED, KINDS };

static int is_kept(enum kind kind, int32_t row, int32_t column, const unsigned char *mirror)
{
    switch (kind) {
    case ONE_WAY: return row != column && !mirror[column * MOST_ROWS + row];
    case LOWER: return row >= column;
    case UPPER: return row <= column;
    case EMPTY: return 0;
    case DIAGONAL: return row == column;
    default: return 1;
    }
}

/* A square of bits: which rows each column names. */
static void draw_square(enum kind kind, int32_t n, unsigned char *square)
{
    unsigned part = kind == DENSE || kind == DIAGONAL ? 1 : 1 + draw(12);
    memset(square, 0, MOST_ROWS * MOST_ROWS);
    for (int32_t cell = 0; cell < n * n; cell++) {
        int32_t row = cell % n, column = cell / n;
        if (draw(part) == 0 && is_kept(kind, row, column, square)) {
            square[row * MOST_ROWS + column] = 1;
            if (kind == SYMMETRIC)
                square[column * MOST_ROWS + row] = 1;
        }
    }
}

static int32_t add_column(const struct matrix *a, int32_t at, enum kind kind, int32_t column, const unsigned char *square, int32_t *i)
{
    for (int32_t row = 0; row < a->n; row++)
        for (int copies = square[row * MOST_ROWS + column] * (kind == REPEATED ? 1 + (int)draw(2) : 1); copies > 0; copies--)
            i[at++] = row;
    return at;
}

/* Exchanges entries of a column. */
static void jumble(int32_t *i, int32_t count)
{
    for (int32_t k = count - 1; k > 0; k--) {
        int32_t other = (int32_t)draw((unsigned)k + 1), kept = i[k];
        i[k] = i[other];
        i[other] = kept;
    }
}

static void draw_matrix(enum kind kind, struct matrix *a)
{
    static unsigned char square[MOST_ROWS * MOST_ROWS];
    a->n = (int32_t)draw(MOST_ROWS + 1);
    draw_square(kind, a->n, square);
    a->p[0] = 0;
    for (int32_t column = 0; column < a->n; column++) {
        a->p[column + 1] = add_column(a, a->p[column], kind, column, square, a->i);
        if (kind == JUMBLED || kind == ONE_WAY || kind == REPEATED)
            jumble(a->i + a->p[column], a->p[column + 1] - a->p[column]);
    }
}

/* ---- A block of so many bytes, with guards around it. */

static unsigned char *arena;
static size_t arena_bytes;

static struct rimopaku_block lend(size_t bytes)
{
    struct rimopaku_block block = rimopaku_block_in(arena + GUARD, bytes);
    memset(arena, STAMP, GUARD);
    memset(arena + GUARD + bytes, STAMP, GUARD);
    need(block.size == bytes && block.start == arena + GUARD, "the arena is no block", 0, 0);
    return block;
}

static int guards_are_kept(size_t bytes)
{
    for (size_t k = 0; k < GUARD; k++)
        if (arena[k] != STAMP || arena[GUARD + bytes + k] != STAMP)
            return 0;
    return 1;
}

/* ---- The calls, into arrays of which the first places are looked at. */

struct results {
    int32_t p[MOST_ROWS], p_inv[MOST_ROWS], sizes[MOST_ROWS], parent[MOST_ROWS], ptr[MOST_ROWS + 1], rows[MOST_ROWS * MOST_ROWS];
    struct rimopaku_statistics told;
    struct rimopaku_needs needs;
};

static int order(const struct matrix *a, size_t bytes, struct results *r)
{
    size_t n = (size_t)a->n;
    return rimopaku_order_within_i32(lend(bytes), a->n, a->p, n + 1, a->i, (size_t)a->p[n], &defaults, r->p, n, r->p_inv, n, &r->told);
}

static int order_holding(const struct matrix *a, size_t bytes, struct results *r)
{
    static const bool hold[MOST_ROWS] = {true, false, false, true};
    size_t n = (size_t)a->n;
    return rimopaku_order_holding_within_i32(lend(bytes), a->n, a->p, n + 1, a->i, (size_t)a->p[n], &defaults, hold, n, r->p, n, r->p_inv,
                                             n, &r->told);
}

/* The factor is counted and written in an order that the call has not made: the rows backwards. */
static int32_t backwards[MOST_ROWS];

static const int32_t *last_first(int32_t n)
{
    for (int32_t k = 0; k < n; k++)
        backwards[k] = n - 1 - k;
    return backwards;
}

static int counts(const struct matrix *a, size_t bytes, struct results *r)
{
    size_t n = (size_t)a->n;
    return rimopaku_counts_within_i32(lend(bytes), a->n, a->p, n + 1, a->i, (size_t)a->p[n], last_first(a->n), n, r->sizes, n, r->parent, n,
                                      &r->needs);
}

static int columns(const struct matrix *a, size_t bytes, struct results *r)
{
    size_t n = (size_t)a->n;
    return rimopaku_columns_within_i32(lend(bytes), a->n, a->p, n + 1, a->i, (size_t)a->p[n], last_first(a->n), n, r->ptr, n + 1, r->rows,
                                       MOST_ROWS * MOST_ROWS, r->parent, n);
}

/* The same calls for int64_t, into arrays of their own. */

struct wide {
    int64_t a_p[MOST_ROWS + 1], a_i[MOST_ENTRIES], order[MOST_ROWS];
    int64_t p[MOST_ROWS], p_inv[MOST_ROWS], sizes[MOST_ROWS], parent[MOST_ROWS], ptr[MOST_ROWS + 1], rows[MOST_ROWS * MOST_ROWS];
    struct rimopaku_statistics told;
    struct rimopaku_needs needs;
};

static void widen(size_t count, const int32_t *narrow, int64_t *wide)
{
    for (size_t k = 0; k < count; k++)
        wide[k] = narrow[k];
}

static int are_equal(size_t count, const int32_t *narrow, const int64_t *wide)
{
    for (size_t k = 0; k < count; k++)
        if (wide[k] != narrow[k])
            return 0;
    return 1;
}

static int order_wide(const struct matrix *a, size_t bytes, struct wide *w)
{
    size_t n = (size_t)a->n;
    return rimopaku_order_within_i64(lend(bytes), a->n, w->a_p, n + 1, w->a_i, (size_t)a->p[n], &defaults, w->p, n, w->p_inv, n, &w->told);
}

/* An ordering for int64_t is that for int32_t, in as many bytes and in no fewer. */
static void try_wide_order(const struct matrix *a, size_t enough, const struct results *r, struct wide *w)
{
    size_t n = (size_t)a->n;
    need(order_wide(a, enough, w) >= 0 && guards_are_kept(enough), "order of 64 bits", a->n, a->p[n]);
    need(are_equal(n, r->p, w->p) && are_equal(n, r->p_inv, w->p_inv), "another order of 64 bits", a->n, a->p[n]);
    need(memcmp(&r->told, &w->told, sizeof w->told) == 0, "other statistics of 64 bits", a->n, a->p[n]);
    need(n == 0 || order_wide(a, enough - 16, w) == RIMOPAKU_OUT_OF_MEMORY, "order of 64 bits in less", a->n, a->p[n]);
}

static int counts_wide(const struct matrix *a, size_t bytes, struct wide *w)
{
    size_t n = (size_t)a->n;
    return rimopaku_counts_within_i64(lend(bytes), a->n, w->a_p, n + 1, w->a_i, (size_t)a->p[n], w->order, n, w->sizes, n, w->parent, n,
                                      &w->needs);
}

static int columns_wide(const struct matrix *a, size_t bytes, struct wide *w)
{
    size_t n = (size_t)a->n;
    return rimopaku_columns_within_i64(lend(bytes), a->n, w->a_p, n + 1, w->a_i, (size_t)a->p[n], w->order, n, w->ptr, n + 1, w->rows,
                                       MOST_ROWS * MOST_ROWS, w->parent, n);
}

static void try_wide_factor(const struct matrix *a, const struct results *r, struct wide *w)
{
    size_t n = (size_t)a->n, entries = (size_t)a->p[n];
    size_t enough = rimopaku_counts_bytes_i64(n, entries), for_columns = rimopaku_columns_bytes_i64(n, entries);
    widen(n, last_first(a->n), w->order);
    need(counts_wide(a, enough, w) == 0, "counts of 64 bits", a->n, a->p[n]);
    need(are_equal(n, r->sizes, w->sizes) && are_equal(n, r->parent, w->parent), "other counts of 64 bits", a->n, a->p[n]);
    need(n == 0 || counts_wide(a, enough - 16, w) == RIMOPAKU_OUT_OF_MEMORY, "counts of 64 bits in less", a->n, a->p[n]);
    need(columns_wide(a, for_columns, w) == 0, "columns of 64 bits", a->n, a->p[n]);
    need(are_equal(n + 1, r->ptr, w->ptr) && are_equal((size_t)r->ptr[n], r->rows, w->rows), "other columns of 64 bits", a->n, a->p[n]);
    need(n == 0 || columns_wide(a, for_columns - 16, w) == RIMOPAKU_OUT_OF_MEMORY, "columns of 64 bits in less", a->n, a->p[n]);
}

/* ---- What the results are to be. */

static int is_inverse(const struct matrix *a, const struct results *r)
{
    for (int32_t k = 0; k < a->n; k++)
        if (r->p[k] < 0 || r->p[k] >= a->n || r->p_inv[r->p[k]] != k)
            return 0;
    return 1;
}

static int is_the_order(const struct matrix *a, const struct results *r)
{
#ifdef SUITESPARSE
    int32_t p[MOST_ROWS + 1];
    if (a->n > 0 && (amd_order(a->n, a->p, a->i, p, NULL, NULL) < 0 || memcmp(p, r->p, sizeof *p * (size_t)a->n) != 0))
        return 0;
#endif
    return is_inverse(a, r) && r->told.n == (size_t)a->n;
}

/* A square of bits: joined[k][j] says whether places k and j are joined, with the rows backwards. */
typedef unsigned char square[MOST_ROWS][MOST_ROWS];

static void join_column(const struct matrix *a, int32_t column, square joined)
{
    int32_t last = a->n - 1;
    for (int32_t at = a->p[column]; at < a->p[column + 1]; at++)
        joined[last - column][last - a->i[at]] = joined[last - a->i[at]][last - column] = 1;
}

/* Joins what place k is joined with. */
static void eliminate(int32_t n, int32_t k, square joined)
{
    for (int32_t i = k + 1; i < n; i++)
        for (int32_t j = k + 1; joined[k][i] && j < n; j++)
            joined[i][j] |= joined[k][j];
}

/* The column of place k: whether the counts and the columns have it. */
static int is_column(int32_t k, int32_t n, const unsigned char *joined, const struct results *r)
{
    int32_t at = r->ptr[k], first = -1;
    for (int32_t i = k + 1; i < n; i++)
        if (joined[i]) {
            first = first < 0 ? i : first;
            if (at >= r->ptr[k + 1] || r->rows[at++] != i)
                return 0;
        }
    return at == r->ptr[k + 1] && r->sizes[k] == at - r->ptr[k] && r->parent[k] == first;
}

static int is_the_factor(const struct matrix *a, const struct results *r)
{
    static square joined;
    memset(joined, 0, sizeof joined);
    for (int32_t column = 0; column < a->n; column++)
        join_column(a, column, joined);
    for (int32_t k = 0; k < a->n; k++) {
        eliminate(a->n, k, joined);
        if (!is_column(k, a->n, joined[k], r))
            return 0;
    }
    return r->needs.lnz == (size_t)r->ptr[a->n];
}

/* ---- How many bytes a call needs. */

typedef int a_call(const struct matrix *, size_t, struct results *);

/* The least number of bytes, a multiple of 16, with which the call succeeds; `enough` are. */
static size_t least(a_call *call, const struct matrix *a, size_t enough)
{
    static struct results r;
    size_t below = 0, above = enough / 16 + 1;
    while (below < above - 1) {
        size_t middle = (below + above) / 2;
        if (call(a, middle * 16 - 16, &r) >= 0)
            above = middle;
        else
            below = middle;
    }
    return above * 16 - 16;
}

/* With one unit less than the least number, with a half of it and with none the call refuses, and the results are as they were. */
static void refuse(const char *name, a_call *call, const struct matrix *a, size_t bytes)
{
    static struct results before, r;
    size_t tried[] = {bytes - 16, bytes / 32 * 16, 0};
    memset(&before, STAMP, sizeof before);
    for (size_t k = 0; bytes > 0 && k < sizeof tried / sizeof *tried; k++) {
        r = before;
        need(tried[k] >= bytes || call(a, tried[k], &r) == RIMOPAKU_OUT_OF_MEMORY, name, a->n, a->p[a->n]);
        need(guards_are_kept(tried[k]), "a byte outside the block was written", a->n, a->p[a->n]);
        memset(r.rows, STAMP, sizeof r.rows); /* columns may write here */
        need(memcmp(&r, &before, sizeof r) == 0, "a refused call wrote", a->n, a->p[a->n]);
    }
}

static size_t needed_all;

/* A call takes every byte of `enough`, or none where there are no rows. */
static void try_call(const char *name, a_call *call, const struct matrix *a, size_t enough, struct results *r)
{
    size_t bytes = least(call, a, enough);
    need(call(a, enough, r) >= 0, name, a->n, a->p[a->n]);
    need(guards_are_kept(enough), "a byte outside the block was written", a->n, a->p[a->n]);
    need(bytes == (a->n == 0 ? 0 : enough), "another number of bytes is needed", a->n, a->p[a->n]);
    refuse(name, call, a, bytes);
    needed_all += bytes == enough;
}

static void try_matrix(const struct matrix *a)
{
    static struct results r;
    int32_t n = a->n, entries = a->p[n];
    static struct wide w;
    size_t enough = rimopaku_order_bytes_i32(n, entries);

    widen((size_t)n + 1, a->p, w.a_p);
    widen((size_t)entries, a->i, w.a_i);
    try_call("order", order, a, enough, &r);
    need(is_the_order(a, &r), "another order", n, entries);
    try_wide_order(a, enough, &r, &w);
    try_call("order_holding", order_holding, a, enough, &r);
    need(is_inverse(a, &r), "no order", n, entries);
    need(n < 4 || (r.p_inv[0] < r.p_inv[3] && r.told.n_dense >= 2), "rows are not held", n, entries);
    try_call("counts", counts, a, rimopaku_counts_bytes_i32((size_t)n, (size_t)entries), &r);
    try_call("columns", columns, a, rimopaku_columns_bytes_i32((size_t)n, (size_t)entries), &r);
    need(is_the_factor(a, &r), "another factor", n, entries);
    try_wide_factor(a, &r, &w);
    /* A block for more rows and entries is enough too. */
    need(rimopaku_order_bytes_i32(n + (int32_t)draw(9), entries + (int32_t)draw(9)) >= enough, "fewer for more", n, entries);
}

/* The macros are the functions, for numbers of all sizes. */
static void try_factor_macros(size_t rows, size_t entries)
{
    int32_t n = (int32_t)rows, count = (int32_t)entries;
    size_t bytes = rimopaku_counts_bytes_i32(rows, entries), others = rimopaku_columns_bytes_i32(rows, entries);
    need(bytes == RIMOPAKU_COUNTS_BYTES_I32(rows, entries) && bytes % 16 == 0, "other bytes of counts", n, count);
    need(bytes == rimopaku_counts_bytes_i64(rows, entries), "other bytes of counts of 64 bits", n, count);
    need(bytes == 16 * entries + 112 * rows + 64, "another sum of counts", n, count);
    need(others == RIMOPAKU_COLUMNS_BYTES_I32(rows, entries) && others % 16 == 0, "other bytes of columns", n, count);
    need(others == rimopaku_columns_bytes_i64(rows, entries), "other bytes of columns of 64 bits", n, count);
    need(others - (8 * entries + 72 * rows + 16) < 16, "another sum of columns", n, count);
}

static void try_macros(void)
{
    size_t rows = (size_t)draw(1u << 30) >> draw(30), entries = ((size_t)draw(1u << 30) << 4) >> draw(34);
    size_t bytes = rimopaku_workspace_bytes_i32(rows, entries);
    need(bytes == RIMOPAKU_ORDER_BYTES_I32(rows, entries) && bytes % 16 == 0, "other bytes", (int32_t)rows, (int32_t)entries);
    need(bytes == rimopaku_workspace_bytes_i64(rows, entries), "other bytes of 64 bits", (int32_t)rows, (int32_t)entries);
    need(rimopaku_order_bytes_i64((int64_t)rows, (int64_t)entries) == bytes, "other bytes for more", (int32_t)rows, (int32_t)entries);
    try_factor_macros(rows, entries);
}

/* ---- Larger ones, by their sizes alone: a band of entries in each column, from the last row up. */

static void make_band(int32_t n, int32_t in_column, int32_t *p, int32_t *i)
{
    int32_t at = 0;
    for (int32_t column = 0; column < n; column++) {
        p[column] = at;
        for (int32_t k = in_column; k > 0; k--)
            i[at++] = (column + k) % n;
    }
    p[n] = at;
}

static void try_large(int32_t n, int32_t in_column)
{
    size_t rows = (size_t)n, entries = rows * (size_t)in_column, bytes = rimopaku_order_bytes_i32(n, n * in_column);
    int32_t *p = malloc(4 * (rows + 1)), *i = malloc(4 * entries), *order = malloc(4 * rows), *inverse = malloc(4 * rows);
    struct rimopaku_statistics told;
    unsigned char *memory = malloc(bytes + 16);
    struct rimopaku_block block;
    int32_t status;

    need(p != NULL && i != NULL && order != NULL && inverse != NULL && memory != NULL, "no memory", n, 0);
    make_band(n, in_column, p, i);
    block = rimopaku_block_in(memory, bytes + 15);
    need(block.size == bytes, "no block", n, 0);
    status = rimopaku_order_within_i32(block, n, p, rows + 1, i, entries, &defaults, order, rows, inverse, rows, &told);
    need(status == RIMOPAKU_OK_BUT_JUMBLED, "large", n, in_column);
    block.size -= 16;
    status = rimopaku_order_within_i32(block, n, p, rows + 1, i, entries, &defaults, order, rows, inverse, rows, &told);
    need(status == RIMOPAKU_OUT_OF_MEMORY, "not every byte is needed", n, in_column);
    free(p), free(i), free(order), free(inverse), free(memory);
}

int main(int argc, char **argv)
{
    static struct matrix a;
    long count = argc > 1 ? atol(argv[1]) : 2000;
    size_t most = rimopaku_order_bytes_i32(MOST_ROWS, MOST_ENTRIES), others = rimopaku_counts_bytes_i32(MOST_ROWS, MOST_ENTRIES);

    drawn = argc > 2 ? strtoull(argv[2], NULL, 10) : 1;
    arena_bytes = (most > others ? most : others) + 2 * GUARD;
    arena = aligned_alloc(64, (arena_bytes + 63) / 64 * 64);
    need(arena != NULL, "no memory", 0, 0);
    for (long k = 0; k < count; k++) {
        draw_matrix((enum kind)(k % KINDS), &a);
        try_matrix(&a);
    }
    for (long k = 0; k < 100000; k++)
        try_macros();
    need(rimopaku_workspace_bytes_i32(SIZE_MAX, SIZE_MAX) == SIZE_MAX, "bytes that are no size_t", 0, 0);
    need(rimopaku_counts_bytes_i32(SIZE_MAX / 112, 0) == SIZE_MAX, "bytes of counts that are no size_t", 0, 0);
    need(rimopaku_columns_bytes_i32(0, SIZE_MAX / 8) == SIZE_MAX, "bytes of columns that are no size_t", 0, 0);
    try_large(200000, 3);
    try_large(6500, 2000);
    try_large(3000, 2400); /* mirrored pairs */
    printf("%ld matrices, %zu of %ld calls needed every byte, and the others had no rows\n", count, needed_all, 4 * count);
    free(arena);
    return 0;
}

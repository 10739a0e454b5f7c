/* A small supernodal Cholesky factorization: what the supernodes of a factor are for.
 *
 *     supernodal_cholesky MATRIX [SOLUTION]
 *
 * MATRIX is a Matrix Market file, `coordinate real symmetric`, of a positive definite matrix; or `coordinate pattern symmetric`, which
 * stands for ones off the diagonal and n on it. The library orders its rows and tells the supernodes of the factor L. Then everything that the numbers need is reserved once, and A = L L' is factored block by block: each
 * supernode is one dense block, in columns, of its own places and the rows below them. The system A x = b is solved, where b[i] is
 * 1 + i / n in the order of the file, and the residual |A x - b| / (|A| |x| + |b|) by greatest absolute values is printed. The solution is
 * written into the file SOLUTION, a number on each line.
 *
 * The structure comes from a library whose contracts are proved. The arithmetic in doubles below is an example: nothing of it is proved,
 * and it is not tuned. A solver would call the BLAS for each block.
 *
 *     cc -O2 -I OUT/include examples/supernodal_cholesky.c -o supernodal_cholesky OUT/lib/librimopaku.a -lm
 *
 * where OUT is what bindings/c/build wrote. */
#include <math.h>
#include <stdint.h>
#include <stdio.h>
#include <stdlib.h>
#include <string.h>

#include "rimopaku.h"

/* A symmetric matrix by its lower triangle with the diagonal, in compressed columns. */
struct matrix {
    int64_t n, *begin, *row;
    double *value;
};

/* The factor by supernodes. Supernode s has the places first[s] to first[s + 1] - 1 and the rows below from row[ptr[s]] on; its block
 * begins at value[at[s]], and has as many rows as places and rows below, column by column. */
struct factor {
    int64_t n, count, *p, *p_inv, *first, *ptr, *row, *at, *owner;
    double *value;
};

static void need(int holds, const char *what)
{
    if (!holds) {
        fprintf(stderr, "supernodal_cholesky: %s\n", what);
        exit(1);
    }
}

static void *room(int64_t count, size_t size)
{
    void *it = calloc(count > 0 ? (size_t)count : 1, size);
    need(it != NULL, "out of memory");
    return it;
}

/* ---- The matrix. */

struct entry {
    int64_t row, column;
    double value;
};

static int by_column(const void *one, const void *other)
{
    const struct entry *a = one, *b = other;
    if (a->column != b->column)
        return a->column < b->column ? -1 : 1;
    return (a->row > b->row) - (a->row < b->row);
}

/* Entries at one place are added up, as the format has it. */
static struct matrix in_columns(int64_t n, struct entry *entry, int64_t count)
{
    struct matrix a = {n, room(n + 1, sizeof(int64_t)), room(count, sizeof(int64_t)), room(count, sizeof(double))};
    int64_t kept = 0;
    qsort(entry, (size_t)count, sizeof *entry, by_column);
    for (int64_t e = 0; e < count; e++) {
        if (e > 0 && by_column(&entry[e - 1], &entry[e]) == 0) {
            a.value[kept - 1] += entry[e].value;
            continue;
        }
        a.row[kept] = entry[e].row, a.value[kept++] = entry[e].value;
        a.begin[entry[e].column + 1] = kept;
    }
    for (int64_t j = 0; j < n; j++)
        if (a.begin[j + 1] < a.begin[j])
            a.begin[j + 1] = a.begin[j];
    return a;
}

static struct matrix read_matrix(const char *path)
{
    char line[1024];
    long long n, columns, count, row, column;
    FILE *file = fopen(path, "r");
    need(file != NULL && fgets(line, sizeof line, file) != NULL, "no file");
    int is_pattern = !strncmp(line, "%%MatrixMarket matrix coordinate pattern symmetric", 50);
    need(is_pattern || !strncmp(line, "%%MatrixMarket matrix coordinate real symmetric", 47), "no real symmetric matrix in coordinates");
    do
        need(fgets(line, sizeof line, file) != NULL, "no sizes");
    while (line[0] == '%');
    need(sscanf(line, "%lld %lld %lld", &n, &columns, &count) == 3 && n > 0 && n == columns && count >= 0, "wrong sizes");
    struct entry *entry = room(count + (is_pattern ? n : 0), sizeof *entry);
    for (int64_t e = 0; e < count; e++) {
        need(fscanf(file, "%lld %lld", &row, &column) == 2, "an entry is missing");
        need(1 <= column && column <= row && row <= n, "an entry outside the lower triangle");
        entry[e].row = row - 1, entry[e].column = column - 1, entry[e].value = row == column ? 0 : 1;
        need(is_pattern || fscanf(file, "%lf", &entry[e].value) == 1, "a value is missing");
    }
    for (int64_t j = 0; is_pattern && j < n; j++)
        entry[count++] = (struct entry){j, j, (double)n};
    fclose(file);
    struct matrix a = in_columns(n, entry, count);
    free(entry);
    return a;
}

/* ---- The structure, from the library. */

static struct factor structure(const struct matrix *a)
{
    struct rimopaku_parameters parameters;
    struct rimopaku_statistics statistics;
    struct rimopaku_supernode_sizes sizes;
    int64_t n = a->n, entries = a->begin[n], total = 0;
    struct factor f = {n, 0, room(n, sizeof(int64_t)), room(n, sizeof(int64_t)), NULL, NULL, NULL, NULL, NULL, NULL};

    rimopaku_defaults(&parameters);
    need(rimopaku_order_i64(n, a->begin, n + 1, a->row, entries, &parameters, f.p, n, f.p_inv, n, &statistics) >= 0, "no ordering");
    need(rimopaku_supernode_sizes_i64(n, a->begin, n + 1, a->row, entries, f.p, n, &sizes) == 0, "no supernodes");

    /* All memory of the structure and of the numbers, once. */
    size_t count = sizes.supernodes;
    f.count = (int64_t)count;
    f.first = room(f.count + 1, sizeof(int64_t)), f.ptr = room(f.count + 1, sizeof(int64_t));
    f.row = room((int64_t)sizes.rows, sizeof(int64_t)), f.at = room(f.count + 1, sizeof(int64_t)), f.owner = room(n, sizeof(int64_t));
    int64_t *parent = room(f.count, sizeof(int64_t));
    need(rimopaku_supernodes_i64(n, a->begin, n + 1, a->row, entries, f.p, n, f.first, count + 1, f.ptr, count + 1, f.row, sizes.rows,
                                 parent, count) == 0,
         "no supernodes");
    free(parent);
    for (int64_t s = 0; s < f.count; s++) {
        int64_t width = f.first[s + 1] - f.first[s];
        f.at[s] = total;
        total += width * (width + f.ptr[s + 1] - f.ptr[s]);
        for (int64_t k = f.first[s]; k < f.first[s + 1]; k++)
            f.owner[k] = s;
    }
    f.at[f.count] = total;
    f.value = room(total, sizeof(double));
    return f;
}

static int64_t width_of(const struct factor *f, int64_t s)
{
    return f->first[s + 1] - f->first[s];
}

static int64_t below_of(const struct factor *f, int64_t s)
{
    return f->ptr[s + 1] - f->ptr[s];
}

/* ---- The numbers. */

/* Row k of supernode s, or of what is below its block, counted from the first one. */
static void place_rows(const struct factor *f, int64_t s, int64_t *map)
{
    for (int64_t k = f->first[s]; k < f->first[s + 1]; k++)
        map[k] = k - f->first[s];
    for (int64_t e = f->ptr[s]; e < f->ptr[s + 1]; e++)
        map[f->row[e]] = width_of(f, s) + e - f->ptr[s];
}

/* Writes the entries of the matrix into the blocks. An entry lies in the column of the earlier of its two places. */
static void scatter(struct factor *f, const struct matrix *a, int64_t *map)
{
    /* By supernode, so that the map is made once for each. */
    int64_t entries = a->begin[a->n], *head = room(f->count, sizeof(int64_t)), *next = room(entries, sizeof(int64_t));
    int64_t *column = room(entries, sizeof(int64_t));
    for (int64_t j = 0; j < a->n; j++)
        for (int64_t e = a->begin[j]; e < a->begin[j + 1]; e++) {
            int64_t one = f->p_inv[j], other = f->p_inv[a->row[e]], s = f->owner[one < other ? one : other];
            column[e] = j, next[e] = head[s], head[s] = e + 1;
        }
    for (int64_t s = 0; s < f->count; s++) {
        int64_t height = width_of(f, s) + below_of(f, s);
        place_rows(f, s, map);
        for (int64_t e = head[s] - 1; e >= 0; e = next[e] - 1) {
            int64_t one = f->p_inv[column[e]], other = f->p_inv[a->row[e]];
            int64_t low = one < other ? one : other, high = one < other ? other : one;
            f->value[f->at[s] + (low - f->first[s]) * height + map[high]] = a->value[e];
        }
    }
    free(head), free(next), free(column);
}

/* Takes from supernode s what supernode d gives it: its rows from place `from` below the block on, of which `count` lie in s. */
static void update(struct factor *f, int64_t s, int64_t d, int64_t from, int64_t count, const int64_t *map)
{
    int64_t height = width_of(f, s) + below_of(f, s), width = width_of(f, d), tall = width + below_of(f, d);
    const int64_t *row = f->row + f->ptr[d];
    for (int64_t j = from; j < from + count; j++) {
        double *to = f->value + f->at[s] + (row[j] - f->first[s]) * height;
        for (int64_t k = 0; k < width; k++) {
            const double *of = f->value + f->at[d] + k * tall + width;
            double by = of[j];
            for (int64_t i = j; i < tall - width; i++)
                to[map[row[i]]] -= of[i] * by;
        }
    }
}

/* Factors the block of a supernode whose updates are done: its square, and the rows below by it. */
static void factor_block(struct factor *f, int64_t s)
{
    int64_t width = width_of(f, s), height = width + below_of(f, s);
    double *block = f->value + f->at[s];
    for (int64_t k = 0; k < width; k++) {
        double *own = block + k * height;
        need(own[k] > 0, "the matrix is not positive definite");
        double root = sqrt(own[k]);
        for (int64_t i = k; i < height; i++)
            own[i] /= root;
        for (int64_t j = k + 1; j < width; j++)
            for (int64_t i = j; i < height; i++)
                block[j * height + i] -= own[i] * own[j];
    }
}

/* From left to right. A supernode that is done waits in the list of the one that has its next row. No memory is asked for but here. */
static void factor_matrix(struct factor *f, const struct matrix *a)
{
    int64_t *map = room(f->n, sizeof(int64_t)), *head = room(f->count, sizeof(int64_t)), *next = room(f->count, sizeof(int64_t));
    int64_t *done = room(f->count, sizeof(int64_t));
    scatter(f, a, map);
    for (int64_t s = 0; s < f->count; s++) {
        place_rows(f, s, map);
        for (int64_t d = head[s] - 1; d >= 0;) {
            int64_t after = next[d] - 1, from = done[d], to = from;
            while (to < below_of(f, d) && f->row[f->ptr[d] + to] < f->first[s + 1])
                to++;
            update(f, s, d, from, to - from, map);
            done[d] = to;
            if (to < below_of(f, d)) {
                int64_t waits = f->owner[f->row[f->ptr[d] + to]];
                next[d] = head[waits], head[waits] = d + 1;
            }
            d = after;
        }
        factor_block(f, s);
        if (below_of(f, s) > 0) {
            int64_t waits = f->owner[f->row[f->ptr[s]]];
            next[s] = head[waits], head[waits] = s + 1;
        }
    }
    free(map), free(head), free(next), free(done);
}

/* x = A^-1 b. */
static void solve(const struct factor *f, const double *b, double *x)
{
    double *y = room(f->n, sizeof(double));
    for (int64_t k = 0; k < f->n; k++)
        y[k] = b[f->p[k]];
    for (int64_t s = 0; s < f->count; s++)
        for (int64_t k = 0, width = width_of(f, s), height = width + below_of(f, s); k < width; k++) {
            const double *own = f->value + f->at[s] + k * height;
            double it = y[f->first[s] + k] /= own[k];
            for (int64_t i = k + 1; i < width; i++)
                y[f->first[s] + i] -= own[i] * it;
            for (int64_t i = width; i < height; i++)
                y[f->row[f->ptr[s] + i - width]] -= own[i] * it;
        }
    for (int64_t s = f->count - 1; s >= 0; s--)
        for (int64_t width = width_of(f, s), height = width + below_of(f, s), k = width - 1; k >= 0; k--) {
            const double *own = f->value + f->at[s] + k * height;
            double it = y[f->first[s] + k];
            for (int64_t i = k + 1; i < width; i++)
                it -= own[i] * y[f->first[s] + i];
            for (int64_t i = width; i < height; i++)
                it -= own[i] * y[f->row[f->ptr[s] + i - width]];
            y[f->first[s] + k] = it / own[k];
        }
    for (int64_t k = 0; k < f->n; k++)
        x[f->p[k]] = y[k];
    free(y);
}

static double residual(const struct matrix *a, const double *x, const double *b)
{
    double *left = room(a->n, sizeof(double)), *sum = room(a->n, sizeof(double)), worst = 0, norm = 0, most = 0, right = 0;
    for (int64_t j = 0; j < a->n; j++)
        for (int64_t e = a->begin[j]; e < a->begin[j + 1]; e++) {
            int64_t i = a->row[e];
            left[i] += a->value[e] * x[j], sum[i] += fabs(a->value[e]);
            if (i != j)
                left[j] += a->value[e] * x[i], sum[j] += fabs(a->value[e]);
        }
    for (int64_t i = 0; i < a->n; i++) {
        worst = fmax(worst, fabs(left[i] - b[i])), norm = fmax(norm, sum[i]);
        most = fmax(most, fabs(x[i])), right = fmax(right, fabs(b[i]));
    }
    free(left), free(sum);
    return worst / (norm * most + right);
}

int main(int count, char **words)
{
    need(count == 2 || count == 3, "supernodal_cholesky MATRIX [SOLUTION]");
    struct matrix a = read_matrix(words[1]);
    struct factor f = structure(&a);
    double *b = room(a.n, sizeof(double)), *x = room(a.n, sizeof(double));

    factor_matrix(&f, &a);
    for (int64_t i = 0; i < a.n; i++)
        b[i] = 1 + (double)i / (double)a.n;
    solve(&f, b, x);
    printf("%lld rows, %lld supernodes, %lld rows below them, %lld numbers in blocks, residual %.1e\n", (long long)f.n, (long long)f.count,
           (long long)f.ptr[f.count], (long long)f.at[f.count], residual(&a, x, b));
    if (count == 3) {
        FILE *file = fopen(words[2], "w");
        need(file != NULL, "the solution cannot be written");
        for (int64_t i = 0; i < a.n; i++)
            fprintf(file, "%.17g\n", x[i]);
        need(fclose(file) == 0, "the solution cannot be written");
    }
    free(a.begin), free(a.row), free(a.value), free(b), free(x);
    free(f.p), free(f.p_inv), free(f.first), free(f.ptr), free(f.row), free(f.at), free(f.owner), free(f.value);
    return 0;
}

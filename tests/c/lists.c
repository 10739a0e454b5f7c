/* The elimination of lists in a caller's workspace, in 64 and in 32 bits: the matrix of the AMD user guide, a cycle of four rows, and that
 * cycle with a row without neighbours. The orders and the numbers of rows were worked by hand. And cycles whose lists are packed or not:
 * the copies in 32 bits have room for a fifth of the words of the lists and for one of each row, as the workspace of an ordering has. */
#include <stdio.h>
#include <string.h>

#include "rimopaku.h"

enum { MOST = 5, WORDS = 15 };

/* Lists of neighbours: where each begins, the rows, and how many each has. */
struct lists {
    int32_t n, pe[MOST], iw[WORDS], len[MOST], pfree;
};

static const struct lists guide = {5, {0, 1, 4, 7, 8}, {1, 0, 2, 4, 1, 3, 4, 2, 1, 2}, {1, 3, 3, 1, 2}, 10};
static const struct lists cycle = {4, {0, 2, 4, 6}, {1, 3, 0, 2, 1, 3, 0, 2}, {2, 2, 2, 2}, 8};
static const struct lists with_empty_row = {5, {0, 2, 4, 6, 8}, {1, 3, 0, 2, 1, 3, 0, 2}, {2, 2, 2, 2, 0}, 8};

/* What a call leaves: the parents and links, the numbers of rows of the blocks, the inverse, the permutation, and the numbers of rows of
 * the fronts. */
struct left {
    int64_t wide[5][MOST];
    struct rimopaku_statistics statistics;
};

static void print(int32_t status, int32_t n, const struct left *left)
{
    static const char *const names[] = {"PE", "NV", "PINV", "P", "ELEN"};
    const struct rimopaku_statistics *told = &left->statistics;
    int32_t list, k;

    printf("status %d\n", (int)status);
    for (list = 0; list < 5; list++) {
        printf("%s", names[list]);
        for (k = 0; k < n; k++)
            printf(" %lld", (long long)left->wide[list][k]);
        printf("\n");
    }
    printf("FIGURES %zu %zu; %zu %zu; %zu %zu %zu %zu %zu\n", told->n, told->nz, told->n_dense, told->n_cmp_a, told->lnz, told->n_div,
           told->n_mult_subs_ldl, told->n_mult_subs_lu, told->d_max);
}

static void eliminate_64(const struct lists *lists)
{
    const struct rimopaku_parameters parameters = {10000, true};
    struct left left = {{{0}}, {0}};
    int64_t iw[WORDS];
    size_t len[MOST], n = (size_t)lists->n;
    int32_t k, status;

    for (k = 0; k < WORDS; k++)
        iw[k] = lists->iw[k];
    for (k = 0; k < lists->n; k++) {
        left.wide[0][k] = lists->pe[k];
        len[k] = (size_t)lists->len[k];
    }
    status = rimopaku_amd_2_i64(lists->n, left.wide[0], n, iw, WORDS, len, n, (size_t)lists->pfree, &parameters, left.wide[1], n,
                                left.wide[2], n, left.wide[3], n, left.wide[4], n, &left.statistics);
    print(status, lists->n, &left);
}

static void eliminate_32(const struct lists *lists)
{
    const struct rimopaku_parameters parameters = {10000, true};
    struct left left = {{{0}}, {0}};
    int32_t narrow[5][MOST] = {{0}};
    uint32_t len[MOST];
    size_t n = (size_t)lists->n;
    int32_t list, k, status;

    memcpy(narrow[0], lists->pe, sizeof narrow[0]);
    for (k = 0; k < lists->n; k++)
        len[k] = (uint32_t)lists->len[k];
    status = rimopaku_amd_2_i32(lists->n, narrow[0], n, lists->iw, (size_t)lists->pfree, len, n, &parameters, narrow[1], n, narrow[2], n,
                                narrow[3], n, narrow[4], n, &left.statistics);
    for (list = 0; list < 5; list++)
        for (k = 0; k < lists->n; k++)
            left.wide[list][k] = narrow[list][k];
    print(status, lists->n, &left);
}

enum { LONGEST = 14, ROOM = 60 };

/* The lists of a cycle of n rows. */
static void lay_cycle(int32_t n, int32_t pe[], int32_t iw[])
{
    int32_t k;

    for (k = 0; k < n; k++) {
        int32_t before = (k + n - 1) % n, behind = (k + 1) % n;
        pe[k] = 2 * k;
        iw[2 * k] = before < behind ? before : behind;
        iw[2 * k + 1] = before < behind ? behind : before;
    }
}

/* Whether the lists of a cycle are packed in 32 bits. */
static const char *packed_32(int32_t n)
{
    const struct rimopaku_parameters parameters = {10000, true};
    struct rimopaku_statistics told;
    int32_t pe[LONGEST], iw[2 * LONGEST], nv[LONGEST], p_inv[LONGEST], p[LONGEST], e_len[LONGEST], k;
    uint32_t len[LONGEST];
    size_t size = (size_t)n;

    lay_cycle(n, pe, iw);
    for (k = 0; k < n; k++)
        len[k] = 2;
    if (rimopaku_amd_2_i32(n, pe, size, iw, 2 * size, len, size, &parameters, nv, size, p_inv, size, p, size, e_len, size, &told) != 0)
        return "no answer";
    return told.n_cmp_a > 0 ? "packed" : "not packed";
}

/* Whether the lists of a cycle are packed in 64 bits, in so many words. */
static const char *packed_64(int32_t n, size_t words)
{
    const struct rimopaku_parameters parameters = {10000, true};
    struct rimopaku_statistics told;
    int32_t narrow_pe[LONGEST], narrow_iw[2 * LONGEST], k;
    int64_t pe[LONGEST], iw[ROOM] = {0}, nv[LONGEST], p_inv[LONGEST], p[LONGEST], e_len[LONGEST];
    size_t len[LONGEST], size = (size_t)n;

    lay_cycle(n, narrow_pe, narrow_iw);
    for (k = 0; k < n; k++) {
        pe[k] = narrow_pe[k];
        iw[2 * k] = narrow_iw[2 * k];
        iw[2 * k + 1] = narrow_iw[2 * k + 1];
        len[k] = 2;
    }
    if (rimopaku_amd_2_i64(n, pe, size, iw, words, len, size, 2 * size, &parameters, nv, size, p_inv, size, p, size, e_len, size,
                           &told) != 0)
        return "no answer";
    return told.n_cmp_a > 0 ? "packed" : "not packed";
}

/* A cycle whose lists just fit, and one of which they are a word too long: in 32 bits, and in 64 bits with as many words, with one less and
 * with one more. */
static void tell_cycle(int32_t n)
{
    size_t words = 2 * (size_t)n + 2 * (size_t)n / 5 + (size_t)n;

    printf("CYCLE %d: %s; %s; %s; %s\n", (int)n, packed_32(n), packed_64(n, words), packed_64(n, words - 1), packed_64(n, words + 1));
}

int main(void)
{
    eliminate_64(&guide);
    eliminate_64(&cycle);
    eliminate_32(&guide);
    eliminate_32(&with_empty_row);
    tell_cycle(13);
    tell_cycle(14);
    return 0;
}

/* CHOLMOD, UMFPACK and KLU on a grid and on drawn matrices, with AMD as their ordering: their permutations, fills and residuals, in both
 * widths of integer. What it prints must not change with libamd. */
#include <cholmod.h>
#include <klu.h>
#include <math.h>
#include <stdint.h>
#include <stdio.h>
#include <stdlib.h>
#include <umfpack.h>

static uint64_t state = 11;

static uint32_t draw(uint32_t bound)
{
    state = state * 6364136223846793005u + 1442695040888963407u;
    return (uint32_t)((state >> 33) % bound);
}

static uint64_t digest_long(const SuiteSparse_long *numbers, SuiteSparse_long n)
{
    uint64_t digest = 0;
    for (SuiteSparse_long k = 0; k < n; k++)
        digest = digest * 0x100000001b3u ^ (uint64_t)numbers[k];
    return digest;
}

static uint64_t digest_int(const int *numbers, int n)
{
    uint64_t digest = 0;
    for (int k = 0; k < n; k++)
        digest = digest * 0x100000001b3u ^ (uint64_t)(unsigned)numbers[k];
    return digest;
}

/* The lower triangle of a grid, or of a drawn matrix: diagonally dominant. */
static cholmod_sparse *matrix(SuiteSparse_long side, int drawn, cholmod_common *common)
{
    SuiteSparse_long n = side * side, k = 0;
    cholmod_triplet *triplet = cholmod_l_allocate_triplet((size_t)n, (size_t)n, (size_t)(4 * n), -1, CHOLMOD_REAL, common);
    SuiteSparse_long *i = triplet->i, *j = triplet->j;
    double *x = triplet->x;
    cholmod_sparse *sparse;

    for (SuiteSparse_long row = 0; row < n; row++) {
        SuiteSparse_long other[2] = {row + 1, row + side};
        if (drawn)
            other[0] = (SuiteSparse_long)draw((uint32_t)n), other[1] = (SuiteSparse_long)draw((uint32_t)n);
        i[k] = j[k] = row, x[k++] = 9;
        for (int q = 0; q < 2; q++)
            if (other[q] < n && other[q] != row && (drawn || q == 1 || other[q] % side != 0)) {
                i[k] = other[q] > row ? other[q] : row;
                j[k] = other[q] > row ? row : other[q];
                x[k++] = -1;
            }
    }
    triplet->nnz = (size_t)k;
    sparse = cholmod_l_triplet_to_sparse(triplet, (size_t)k, common);
    cholmod_l_free_triplet(&triplet, common);
    return sparse;
}

static double residual(SuiteSparse_long n, const SuiteSparse_long *p, const SuiteSparse_long *i, const double *x, const double *solution)
{
    double *left = calloc((size_t)n, sizeof(double)), worst = 0;
    for (SuiteSparse_long j = 0; j < n; j++)
        for (SuiteSparse_long q = p[j]; q < p[j + 1]; q++)
            left[i[q]] += x[q] * solution[j];
    for (SuiteSparse_long j = 0; j < n; j++)
        worst = fmax(worst, fabs(left[j] - 1));
    free(left);
    return worst;
}

/* The residual as a word: its digits vary with the libraries of the factorization. */
static const char *size_of(double error)
{
    return error < 1e-10 ? "small" : "LARGE";
}

static void cholmod(cholmod_sparse *lower, cholmod_common *common)
{
    SuiteSparse_long n = (SuiteSparse_long)lower->nrow, entries = ((SuiteSparse_long *)lower->p)[n];
    cholmod_factor *factor = cholmod_l_analyze(lower, common);
    cholmod_dense *ones = cholmod_l_ones((size_t)n, 1, CHOLMOD_REAL, common), *solution;
    cholmod_sparse *whole = cholmod_l_copy(lower, 0, 1, common), *narrow;
    cholmod_common narrow_common;
    cholmod_factor *narrow_factor;

    cholmod_l_factorize(lower, factor, common);
    solution = cholmod_l_solve(CHOLMOD_A, factor, ones, common);
    printf("cholmod_l: permutation %016llx, entries of L %.0f, flops %.0f, residual %s\n",
           (unsigned long long)digest_long(factor->Perm, n), common->lnz, common->fl,
           size_of(residual(n, whole->p, whole->i, whole->x, solution->x)));

    cholmod_start(&narrow_common);
    narrow_common.nmethods = 1;
    narrow_common.method[0].ordering = CHOLMOD_AMD;
    narrow = cholmod_allocate_sparse((size_t)n, (size_t)n, (size_t)entries, 1, 1, -1, CHOLMOD_PATTERN, &narrow_common);
    for (SuiteSparse_long j = 0; j <= n; j++)
        ((int *)narrow->p)[j] = (int)((SuiteSparse_long *)lower->p)[j];
    for (SuiteSparse_long q = 0; q < entries; q++)
        ((int *)narrow->i)[q] = (int)((SuiteSparse_long *)lower->i)[q];
    narrow_factor = cholmod_analyze(narrow, &narrow_common);
    printf("cholmod: permutation %016llx, entries of L %.0f\n", (unsigned long long)digest_int(narrow_factor->Perm, (int)n),
           narrow_common.lnz);
    cholmod_free_factor(&narrow_factor, &narrow_common);
    cholmod_free_sparse(&narrow, &narrow_common);
    cholmod_finish(&narrow_common);
    cholmod_l_free_sparse(&whole, common);
    cholmod_l_free_dense(&ones, common);
    cholmod_l_free_dense(&solution, common);
    cholmod_l_free_factor(&factor, common);
}

static void umfpack(SuiteSparse_long n, SuiteSparse_long *p, SuiteSparse_long *i, double *x)
{
    static const char *const names[] = {"automatic", "symmetric", "unsymmetric"};
    static const double strategies[] = {UMFPACK_STRATEGY_AUTO, UMFPACK_STRATEGY_SYMMETRIC, UMFPACK_STRATEGY_UNSYMMETRIC};
    double *ones = malloc((size_t)n * sizeof(double)), *solution = malloc((size_t)n * sizeof(double));

    for (SuiteSparse_long k = 0; k < n; k++)
        ones[k] = 1;
    for (int s = 0; s < 3; s++) {
        double control[UMFPACK_CONTROL], info[UMFPACK_INFO];
        void *symbolic, *numeric;
        umfpack_dl_defaults(control);
        control[UMFPACK_STRATEGY] = strategies[s];
        umfpack_dl_symbolic(n, n, p, i, x, &symbolic, control, info);
        umfpack_dl_numeric(p, i, x, symbolic, &numeric, control, info);
        umfpack_dl_solve(UMFPACK_A, p, i, x, solution, ones, numeric, control, info);
        printf("umfpack_dl, %s: entries of L %.0f, of U %.0f, of a symmetric LU %.0f, residual %s\n", names[s], info[UMFPACK_LNZ],
               info[UMFPACK_UNZ], info[UMFPACK_SYMMETRIC_LUNZ], size_of(residual(n, p, i, x, solution)));
        umfpack_dl_free_symbolic(&symbolic);
        umfpack_dl_free_numeric(&numeric);
    }
    free(ones);
    free(solution);
}

static void klu(SuiteSparse_long n, SuiteSparse_long *p, SuiteSparse_long *i, double *x)
{
    double *solution = malloc((size_t)n * sizeof(double));
    int *narrow_p = malloc(((size_t)n + 1) * sizeof(int)), *narrow_i = malloc((size_t)p[n] * sizeof(int));
    klu_l_common common;
    klu_common narrow_common;
    klu_l_symbolic *symbolic;
    klu_l_numeric *numeric;
    klu_symbolic *narrow;

    klu_l_defaults(&common);
    symbolic = klu_l_analyze(n, p, i, &common);
    numeric = klu_l_factor(p, i, x, symbolic, &common);
    for (SuiteSparse_long k = 0; k < n; k++)
        solution[k] = 1;
    klu_l_solve(symbolic, numeric, n, 1, solution, &common);
    printf("klu_l: permutation %016llx, entries of L %.0f, found %ld, residual %s\n", (unsigned long long)digest_long(symbolic->Q, n),
           symbolic->lnz, (long)numeric->lnz, size_of(residual(n, p, i, x, solution)));
    for (SuiteSparse_long j = 0; j <= n; j++)
        narrow_p[j] = (int)p[j];
    for (SuiteSparse_long q = 0; q < p[n]; q++)
        narrow_i[q] = (int)i[q];
    klu_defaults(&narrow_common);
    narrow = klu_analyze((int)n, narrow_p, narrow_i, &narrow_common);
    printf("klu: permutation %016llx, entries of L %.0f\n", (unsigned long long)digest_int(narrow->Q, (int)n), narrow->lnz);
    klu_free_symbolic(&narrow, &narrow_common);
    klu_l_free_numeric(&numeric, &common);
    klu_l_free_symbolic(&symbolic, &common);
    free(narrow_p);
    free(narrow_i);
    free(solution);
}

int main(void)
{
    static const SuiteSparse_long sides[] = {3, 10, 40, 120, 7, 25, 50};
    cholmod_common common;

    cholmod_l_start(&common);
    common.nmethods = 1;
    common.method[0].ordering = CHOLMOD_AMD;
    for (int q = 0; q < 7; q++) {
        cholmod_sparse *lower = matrix(sides[q], q >= 4, &common), *whole = cholmod_l_copy(lower, 0, 1, &common);
        cholmod_l_sort(whole, &common);
        printf("%s of %ld rows\n", q >= 4 ? "drawn matrix" : "grid", (long)lower->nrow);
        cholmod(lower, &common);
        umfpack((SuiteSparse_long)whole->nrow, whole->p, whole->i, whole->x);
        klu((SuiteSparse_long)whole->nrow, whole->p, whole->i, whole->x);
        cholmod_l_free_sparse(&whole, &common);
        cholmod_l_free_sparse(&lower, &common);
    }
    cholmod_l_finish(&common);
    return 0;
}

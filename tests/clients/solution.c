/* Compares a solution with CHOLMOD's: solution MATRIX SOLUTION. The matrix is a Matrix Market file, and b[i] is 1 + i / n, as in
 * examples/supernodal_cholesky.c. Prints "same" where no number differs by more than 1e-10 of the greatest. */
#include <cholmod.h>
#include <math.h>
#include <stdio.h>

int main(int count, char **words)
{
    cholmod_common common;
    FILE *file = count == 3 ? fopen(words[1], "r") : NULL, *solution = count == 3 ? fopen(words[2], "r") : NULL;
    if (!file || !solution)
        return 2;
    cholmod_l_start(&common);
    cholmod_sparse *a = cholmod_l_read_sparse(file, &common);
    if (!a || a->nrow == 0)
        return 2;
    cholmod_dense *b = cholmod_l_allocate_dense(a->nrow, 1, a->nrow, CHOLMOD_REAL, &common);
    for (size_t i = 0; i < a->nrow; i++)
        ((double *)b->x)[i] = 1 + (double)i / (double)a->nrow;
    cholmod_factor *factor = cholmod_l_analyze(a, &common);
    cholmod_l_factorize(a, factor, &common);
    cholmod_dense *x = cholmod_l_solve(CHOLMOD_A, factor, b, &common);
    double most = 0, apart = 0, other;
    for (size_t i = 0; i < a->nrow; i++) {
        if (fscanf(solution, "%lf", &other) != 1)
            return 2;
        most = fmax(most, fabs(((double *)x->x)[i])), apart = fmax(apart, fabs(((double *)x->x)[i] - other));
    }
    puts(common.status == CHOLMOD_OK && apart <= 1e-10 * most ? "same" : "DIFFERENT");
    cholmod_l_free_sparse(&a, &common), cholmod_l_free_dense(&b, &common), cholmod_l_free_dense(&x, &common);
    cholmod_l_free_factor(&factor, &common);
    cholmod_l_finish(&common);
    fclose(file), fclose(solution);
    return 0;
}

/* Reads a matrix file of the Matrix Market by CHOLMOD's cholmod_l_read_sparse, and prints its rows and entries:
   cc -O2 reading.c -o reading -lcholmod; reading FILE. Called by reading.py. */
#include <stdio.h>
#include <suitesparse/cholmod.h>

int main(int count, char **words) {
    cholmod_common common;
    cholmod_l_start(&common);
    FILE *file = count == 2 ? fopen(words[1], "r") : NULL;
    cholmod_sparse *matrix = file ? cholmod_l_read_sparse(file, &common) : NULL;
    if (!matrix) {
        fprintf(stderr, "no matrix\n");
        return 1;
    }
    printf("%ld rows, %ld entries\n", (long)matrix->nrow, (long)cholmod_l_nnz(matrix, &common));
    cholmod_l_free_sparse(&matrix, &common);
    cholmod_l_finish(&common);
    return 0;
}

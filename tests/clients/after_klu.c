/* A program that reads klu.h and umfpack.h, and with them SuiteSparse's amd.h, calls AMD through the symbols. */
#include <klu.h>
#include <umfpack.h>

#include <stdio.h>

int main(void)
{
    int Ap[] = {0, 2, 6, 10, 12, 14}, Ai[] = {0, 1, 0, 1, 2, 4, 1, 2, 3, 4, 2, 3, 1, 4}, P[5];
    double Info[AMD_INFO];
    int status = amd_order(5, Ap, Ai, P, NULL, Info);

    printf("status %d, P %d %d %d %d %d, lnz %g\n", status, P[0], P[1], P[2], P[3], P[4], Info[AMD_LNZ]);
    return 0;
}

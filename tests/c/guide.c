/* The first demo of the AMD user guide, written anew: a matrix with five rows, ordered through the names and arrays of SuiteSparse's AMD,
 * once with int and once with SuiteSparse_long. Then the answers for bad arguments. */
#include <stdio.h>

#include "amd.h"

static const int Ap[] = {0, 2, 6, 10, 12, 14};
static const int Ai[] = {0, 1, 0, 1, 2, 4, 1, 2, 3, 4, 2, 3, 1, 4};

static void order_int(void)
{
    int P[5], k, status;
    double Control[AMD_CONTROL], Info[AMD_INFO];

    amd_defaults(Control);
    amd_control(Control);
    status = amd_order(5, Ap, Ai, P, Control, Info);
    printf("status %d, valid %d\n", status, amd_valid(5, 5, Ap, Ai));
    for (k = 0; k < 5; k++)
        printf("P [%d] = %d\n", k, P[k]);
    amd_info(Info);
}

static void order_long(void)
{
    SuiteSparse_long lp[6], li[14], P[5], k, status;

    for (k = 0; k < 6; k++)
        lp[k] = Ap[k];
    for (k = 0; k < 14; k++)
        li[k] = Ai[k];
    status = amd_l_order(5, lp, li, P, NULL, NULL);
    printf("status %d, valid %d\n", (int)status, (int)amd_l_valid(5, 5, lp, li));
    for (k = 0; k < 5; k++)
        printf("P [%d] = " SuiteSparse_long_id "\n", (int)k, P[k]);
}

static void bad_arguments(void)
{
    int P[5] = {7, 7, 7, 7, 7}, down[] = {0, 2, 1}, rows[] = {0, 1};
    double Info[AMD_INFO];

    printf("no P: %d\n", amd_order(5, Ap, Ai, NULL, NULL, Info));
    printf("no Ap: %d\n", amd_order(5, NULL, Ai, P, NULL, Info));
    printf("no Ai: %d\n", amd_order(5, Ap, NULL, P, NULL, Info));
    printf("n below 0: %d\n", amd_order(-1, Ap, Ai, P, NULL, Info));
    printf("Info: status %g, n %g, nz %g, lnz %g\n", Info[AMD_STATUS], Info[AMD_N], Info[AMD_NZ], Info[AMD_LNZ]);
    printf("pointers that descend: %d, valid %d\n", amd_order(2, down, rows, P, NULL, Info), amd_valid(2, 2, down, rows));
    printf("Info: status %g, n %g, nz %g, lnz %g\n", Info[AMD_STATUS], Info[AMD_N], Info[AMD_NZ], Info[AMD_LNZ]);
    printf("n is 0: %d\n", amd_order(0, Ap, Ai, P, NULL, Info));
    printf("P as it was: %d %d %d %d %d\n", P[0], P[1], P[2], P[3], P[4]);
}

int main(void)
{
    order_int();
    order_long();
    bad_arguments();
    return 0;
}

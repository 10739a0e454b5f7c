/* texts.c: prints by amd_control and amd_info, in both widths: the defaults, parameters of each kind, the figures of an ordering, and records
 * in which little or much is known. What SuiteSparse's AMD prints must be the same but for what the head of include/drop_in/amd.h names. */
#include <suitesparse/amd.h>

static void tell(double info[], double status, double figures)
{
    for (int i = 0; i < AMD_INFO; i++)
        info[i] = figures;
    info[AMD_STATUS] = status;
    amd_info(info);
}

int main(void)
{
    int32_t a_p[] = {0, 2, 6, 10, 12, 14}, a_i[] = {0, 1, 0, 1, 2, 4, 1, 2, 3, 4, 2, 3, 1, 4}, p[5];
    const double dense[] = {10, 0, -1, 2.5, 123456789.0, 1e300};
    double control[AMD_CONTROL], info[AMD_INFO];

    amd_control(NULL);
    amd_l_control(NULL);
    amd_defaults(control);
    for (int i = 0; i < 6; i++) {
        control[AMD_DENSE] = dense[i];
        control[AMD_AGGRESSIVE] = i % 2;
        amd_control(control);
        amd_l_control(control);
    }
    amd_defaults(control);
    if (amd_order(5, a_p, a_i, p, control, info) != AMD_OK)
        return 1;
    amd_info(info);
    amd_l_info(info);
    amd_info(NULL);
    for (int status = -3; status < 3; status++) {
        tell(info, status, -1);
        tell(info, status, 0);
        tell(info, status, 123456789012345678.0);
        tell(info, status, 1.5e20);
    }
    return 0;
}

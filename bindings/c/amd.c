/* amd.c: SuiteSparse's AMD as symbols, over the library rimopaku: for programs and libraries that were compiled with SuiteSparse's amd.h,
 * among them CHOLMOD, UMFPACK and KLU. bindings/c/build makes libamd.so and libamd.a of it.
 *
 * amd_order, amd_valid, amd_defaults, amd_control, amd_info and amd_version come from include/drop_in/amd.h. Here are
 * amd_2, amd_1 and what UMFPACK calls besides, in both widths, and what Fortran calls. What they compute is computed by the
 * proved calls of rimopaku.h; this file turns their arguments round. For amd_2 it also lays lists one after another, and
 * compares what those calls tell of them with their lengths, since a caller's lists may be none. amd_post_tree alone walks
 * the caller's links itself: they come without a length, so that nothing could test them. */

/* A status of 64 bits is right for callers of both versions: those of SuiteSparse 7 read its lower half. */
#define RIMOPAKU_AMD_LONG_STATUS int64_t
#define RIMOPAKU_AMD_LINKAGE
#include "amd.h"

#include <stdbool.h>
#include <string.h>

#define EMPTY (-1)

/* Of Info, what amd_2 and amd_1 write: what is known once the rows are eliminated. */
static void tell_elimination(double Info[], const struct rimopaku_statistics *told)
{
    if (Info == NULL)
        return;
    Info[AMD_STATUS] = AMD_OK;
    Info[AMD_NDENSE] = (double)told->n_dense;
    Info[AMD_NCMPA] = (double)told->n_cmp_a;
    Info[AMD_LNZ] = (double)told->lnz;
    Info[AMD_NDIV] = (double)told->n_div;
    Info[AMD_NMULTSUBS_LDL] = (double)told->n_mult_subs_ldl;
    Info[AMD_NMULTSUBS_LU] = (double)told->n_mult_subs_lu;
    Info[AMD_DMAX] = (double)told->d_max;
}

/* Of Info, what amd_aat writes: the pattern of n rows. The other places become EMPTY, as in SuiteSparse's AMD. */
static void tell_pattern(double Info[], double n, const struct rimopaku_statistics *told)
{
    size_t off_diagonal = told->nz - told->nz_diag;
    size_t mirrored = 2 * off_diagonal - told->nz_a_plus_at;

    if (Info == NULL)
        return;
    rimopaku_amd_begin(Info, n);
    Info[AMD_NZ] = (double)told->nz;
    Info[AMD_SYMMETRY] = off_diagonal == 0 ? 1 : (double)mirrored / (double)off_diagonal;
    Info[AMD_NZDIAG] = (double)told->nz_diag;
    Info[AMD_NZ_A_PLUS_AT] = (double)told->nz_a_plus_at;
}

/* Asks for as much memory as an elimination of n rows takes, `each` bytes for a row and `more` bytes, up to 32 MB, and gives it back at
 * once: an allocator keeps as much for later, and need not take each page from the system anew. The proved call that orders a matrix does
 * so too. Returns false if malloc refuses it. */
static bool has_memory(size_t n, size_t each, size_t more)
{
    const size_t most = 33500000;
    void *volatile block = malloc(n < most / each && each * n + more < most ? each * n + more : most);
    bool has = block != NULL;

    free(block);
    return has;
}

#define INT int32_t
#define WIDTH 32
#define CALL(name) rimopaku_##name##_i32
#define NAME(name) amd_##name
#define SHORT_NAME(name) amd_##name
#include "amd_width.h"
#undef INT
#undef WIDTH
#undef CALL
#undef NAME
#undef SHORT_NAME

#define INT SuiteSparse_long
#define WIDTH 64
#define CALL(name) rimopaku_##name##_i64
#define NAME(name) amd_l_##name
#define SHORT_NAME(name) amd_l##name
#include "amd_width.h"
#undef INT
#undef WIDTH
#undef CALL
#undef NAME
#undef SHORT_NAME

#if RIMOPAKU_SUITESPARSE >= 7
#include "amd_fortran.h"
#endif

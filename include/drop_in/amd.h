/* amd.h: the calls of SuiteSparse's AMD over the library rimopaku, with the same names, arguments and numbers, as SuiteSparse 5 and 7
 * have them, for C99 and C++11.
 *
 * A C or C++ program that includes "amd.h" or <suitesparse/amd.h> is compiled with the folder of this file first in the include path, and
 * linked with librimopaku, or with libamd_c.a and liblibc_c.a, instead of SuiteSparse's libamd, with no other change. The permutation and
 * the status are the same.
 *
 * What is passed: a square matrix in compressed sparse columns, with columns and rows counted from 0. Only its pattern is read, and that of
 * A + A' is ordered: one triangle of a symmetric matrix is enough, and entries on the diagonal change nothing. There are no values.
 * Columns may be unsorted and have duplicates. Nothing is factorized.
 *
 * What differs:
 *
 *   - Control [AMD_DENSE]: up to n = 1,000,000 a row is dense exactly where it is in SuiteSparse's AMD. Above, the parameter is rounded to
 *     thousandths, and one that is no whole number of them moves the number of entries above which a row is dense by at most
 *     sqrt (n) / 2000 + 1. NaN stands for the default; SuiteSparse does not say what it does then. Where the parameter times sqrt (n) is too
 *     large for SuiteSparse's integers, as with infinity (opts.dense = Inf in Octave), no row is dense here. SuiteSparse's AMD converts
 *     that number to an integer all the same, and then takes each row with more than 16 entries as dense (tried on x86-64): the
 *     permutation is another one.
 *   - Info [AMD_LNZ] to Info [AMD_NMULTSUBS_LU] saturate at 2^64, and a count above 2^53 is rounded to a double. SuiteSparse adds up
 *     doubles, so its last digits differ there.
 *   - Info [AMD_MEMORY] is what SuiteSparse's AMD would take for such a matrix, and not what this library takes.
 *   - Info [AMD_NCMPA] counts the compactions of this library's workspace.
 *   - amd_order takes a second array of n integers for the inverse permutation. If malloc refuses it, the call returns AMD_OUT_OF_MEMORY,
 *     even if the matrix is not valid.
 *   - amd_control and amd_info print the same texts but for two places. Their first lines are "AMD by rimopaku: approximate minimum degree
 *     ordering" and "AMD by rimopaku, results:", where SuiteSparse's have "AMD version 2.4.6, May 4, 2016" or a later one. And the four
 *     lines of amd_info on approximate statistics are one line, "Upper bounds for a factorization of A(P,P) + A(P,P)':".
 *   - There is no amd_malloc or amd_printf, and SuiteSparse_config is not used: memory comes from malloc, and text goes to standard output.
 *
 * What a caller must uphold, as with SuiteSparse: each pointer that is not NULL points to as many numbers as the comment at its function
 * says, and P overlaps neither Ap nor Ai. That Ai has Ap [n] numbers cannot be checked. A NULL Ap, Ai or P and a negative n are
 * AMD_INVALID, a NULL Control stands for the defaults, and a NULL Info is allowed.
 *
 * Macros that may be defined before the header is read:
 *
 *   - RIMOPAKU_SUITESPARSE: 5 or 7, the version of SuiteSparse whose header this one stands for. Without it 5. With 7, amd_l_order and
 *     amd_l_valid return an int, and AMD_VERSION is that of AMD 3.
 *   - RIMOPAKU_AMD_SYMBOLS: the header only declares its functions, and the program is linked with libamd.so or libamd.a of this
 *     repository (bindings/c). Without it they are `static inline`, except amd_2 and amd_l2, which only that library has.
 *
 * A program that reads klu.h or another header of SuiteSparse which reads SuiteSparse's own amd.h has its declarations already: leave out
 * this header, and link with libamd of this repository, whose symbols are those that SuiteSparse's header declares. */

#ifndef RIMOPAKU_AMD_H
#define RIMOPAKU_AMD_H

/* The guard of SuiteSparse's header. It is defined below too, so that SuiteSparse's header is left out where it comes second. */
#ifdef AMD_H
#error "SuiteSparse's amd.h was read before rimopaku's: leave out this one and link with rimopaku's libamd, or include this one first"
#endif
#define AMD_H

#include <inttypes.h>
#include <stdio.h>
#include <stdlib.h>
#if defined __SSE2__
#include <emmintrin.h>
#elif defined __aarch64__
#include <arm_neon.h>
#else
#include <math.h>
#endif

/* rimopaku.h stands beside this header, or one folder above it. */
#if defined __has_include
#if __has_include("rimopaku.h")
#include "rimopaku.h"
#else
#include "../rimopaku.h"
#endif
#else
#include "../rimopaku.h"
#endif

#ifndef RIMOPAKU_SUITESPARSE
#define RIMOPAKU_SUITESPARSE 5
#endif

#ifndef RIMOPAKU_AMD_LINKAGE
#ifdef RIMOPAKU_AMD_SYMBOLS
#define RIMOPAKU_AMD_LINKAGE
#else
#define RIMOPAKU_AMD_LINKAGE static inline
#endif
#endif

#ifndef SuiteSparse_long
#define SuiteSparse_long int64_t
#define SuiteSparse_long_max INT64_MAX
#define SuiteSparse_long_idd PRId64
#define SuiteSparse_long_id "%" SuiteSparse_long_idd
#endif

#define AMD_CONTROL 5 /* length of Control */
#define AMD_INFO 20   /* length of Info */

/* The places of Control. */
#define AMD_DENSE 0      /* a row with more than max (16, Control [0] * sqrt (n)) entries is dense; below 0: nearly none is */
#define AMD_AGGRESSIVE 1 /* other than 0: aggressive absorption */

#define AMD_DEFAULT_DENSE 10.0
#define AMD_DEFAULT_AGGRESSIVE 1

/* The places of Info; -1 where a number is not known. */
#define AMD_STATUS 0         /* what amd_order returned */
#define AMD_N 1              /* rows */
#define AMD_NZ 2             /* entries, without duplicates; after an error Ap [n] */
#define AMD_SYMMETRY 3       /* the share of the entries off the diagonal whose mirror is an entry */
#define AMD_NZDIAG 4         /* entries on the diagonal */
#define AMD_NZ_A_PLUS_AT 5   /* entries of A + A' off the diagonal */
#define AMD_NDENSE 6         /* dense rows */
#define AMD_MEMORY 7         /* bytes */
#define AMD_NCMPA 8          /* compactions of the workspace */
#define AMD_LNZ 9            /* entries of L below the diagonal, at most */
#define AMD_NDIV 10          /* divisions, at most */
#define AMD_NMULTSUBS_LDL 11 /* multiply-subtract steps of LDL', at most */
#define AMD_NMULTSUBS_LU 12  /* multiply-subtract steps of LU, at most */
#define AMD_DMAX 13          /* entries of a column of L with its diagonal, at most */

/* The statuses, with the numbers of rimopaku.h. They are no names of an enum, which C++20 does not compare with a double of Info. */
#define AMD_OK 0
#define AMD_OUT_OF_MEMORY (-1)
#define AMD_INVALID (-2)
#define AMD_OK_BUT_JUMBLED 1

/* What the calls for long integers return. */
#ifndef RIMOPAKU_AMD_LONG_STATUS
#if RIMOPAKU_SUITESPARSE >= 7
#define RIMOPAKU_AMD_LONG_STATUS int
#else
#define RIMOPAKU_AMD_LONG_STATUS SuiteSparse_long
#endif
#endif

/* The version of AMD whose calls these are. */
#if RIMOPAKU_SUITESPARSE >= 7
#ifndef SUITESPARSE_VER_CODE
#define SUITESPARSE_VER_CODE(main,sub) ((main) * 1000 + (sub))
#endif
#ifndef SUITESPARSE__VERCODE
#define SUITESPARSE__VERCODE(main,sub,patch) (((main)*1000ULL + (sub))*1000ULL + (patch))
#endif
#define AMD_DATE "June 20, 2024"
#define AMD_MAIN_VERSION 3
#define AMD_SUB_VERSION 3
#define AMD_SUBSUB_VERSION 3
#define AMD_VERSION_CODE(main, sub) SUITESPARSE_VER_CODE(main, sub)
#define AMD__VERSION SUITESPARSE__VERCODE(3,3,3)
#else
#define AMD_DATE "May 4, 2016"
#define AMD_MAIN_VERSION 2
#define AMD_SUB_VERSION 4
#define AMD_SUBSUB_VERSION 6
#define AMD_VERSION_CODE(main, sub) ((main) * 1000 + (sub))
#endif
#define AMD_VERSION AMD_VERSION_CODE(AMD_MAIN_VERSION, AMD_SUB_VERSION)

#ifdef __cplusplus
extern "C" {
#endif

/* Orders a matrix. Ap has n + 1 integers, Ai has Ap [n], P gets n, Control has AMD_CONTROL doubles and Info gets AMD_INFO. */
RIMOPAKU_AMD_LINKAGE int amd_order(int32_t n, const int32_t Ap[], const int32_t Ai[], int32_t P[], double Control[], double Info[]);
RIMOPAKU_AMD_LINKAGE RIMOPAKU_AMD_LONG_STATUS amd_l_order(SuiteSparse_long n, const SuiteSparse_long Ap[], const SuiteSparse_long Ai[],
                                                          SuiteSparse_long P[], double Control[], double Info[]);

/* Orders the rows of a symmetric pattern that is given as lists, and is without its diagonal: list i has the rows Iw [Pe [i]] to
 * Iw [Pe [i] + Len [i] - 1], and each pair of rows stands in both lists. Last gets the permutation, Next its inverse, and Pe, Nv and Elen
 * the assembly tree: of each element i its parent, or -1; the number of rows that it eliminated; and that of the rows of its front. If row
 * i is no element, Nv [i] is 0, Elen [i] -1, and Pe [i] the element with which it went, or -1 for a dense row. Of Info the places
 * AMD_STATUS, AMD_NDENSE, and AMD_NCMPA to AMD_DMAX are written. What Iw and Len hold afterwards is not said; Head, Degree and W stay as
 * they are.
 *
 * This is what SuiteSparse's AMD leaves, and as there the call has no status. Where malloc refuses memory, or Pe and Len are no lists of
 * rows, Last and Next get the identity, and Info [AMD_STATUS] is AMD_OUT_OF_MEMORY or AMD_INVALID. Lists that are not as above are ordered
 * as the columns of a matrix. In both cases each row is an element by itself in Pe, Nv and Elen. SuiteSparse's AMD tests nothing. */
void amd_2(int32_t n, int32_t Pe[], int32_t Iw[], int32_t Len[], int32_t iwlen, int32_t pfree, int32_t Nv[], int32_t Next[],
           int32_t Last[], int32_t Head[], int32_t Elen[], int32_t Degree[], int32_t W[], double Control[], double Info[]);
void amd_l2(SuiteSparse_long n, SuiteSparse_long Pe[], SuiteSparse_long Iw[], SuiteSparse_long Len[], SuiteSparse_long iwlen,
            SuiteSparse_long pfree, SuiteSparse_long Nv[], SuiteSparse_long Next[], SuiteSparse_long Last[], SuiteSparse_long Head[],
            SuiteSparse_long Elen[], SuiteSparse_long Degree[], SuiteSparse_long W[], double Control[], double Info[]);

/* Checks a matrix: AMD_OK, AMD_OK_BUT_JUMBLED or AMD_INVALID. Ap has n_col + 1 integers, and Ai has Ap [n_col]. */
RIMOPAKU_AMD_LINKAGE int amd_valid(int32_t n_row, int32_t n_col, const int32_t Ap[], const int32_t Ai[]);
RIMOPAKU_AMD_LINKAGE RIMOPAKU_AMD_LONG_STATUS amd_l_valid(SuiteSparse_long n_row, SuiteSparse_long n_col, const SuiteSparse_long Ap[],
                                                          const SuiteSparse_long Ai[]);

/* Writes the defaults into Control. */
RIMOPAKU_AMD_LINKAGE void amd_defaults(double Control[]);
RIMOPAKU_AMD_LINKAGE void amd_l_defaults(double Control[]);

/* Prints Control, or the defaults. */
RIMOPAKU_AMD_LINKAGE void amd_control(double Control[]);
RIMOPAKU_AMD_LINKAGE void amd_l_control(double Control[]);

/* Prints Info. */
RIMOPAKU_AMD_LINKAGE void amd_info(double Info[]);
RIMOPAKU_AMD_LINKAGE void amd_l_info(double Info[]);

#if RIMOPAKU_SUITESPARSE >= 7
/* Writes the version of AMD whose calls these are. */
RIMOPAKU_AMD_LINKAGE void amd_version(int version[3]);
#endif

#ifndef RIMOPAKU_AMD_SYMBOLS

/* The square root, rounded as IEEE 754 says, without a library to link where the processor has an instruction for it. */
static inline double rimopaku_amd_root(double square)
{
#if defined __SSE2__
    return _mm_cvtsd_f64(_mm_sqrt_sd(_mm_set_sd(square), _mm_set_sd(square)));
#elif defined __aarch64__
    return vget_lane_f64(vsqrt_f64(vdup_n_f64(square)), 0);
#else
    return sqrt(square);
#endif
}

/* The rows up to which a dense row parameter has a thousandth with its very threshold: up to there one more thousandth moves the threshold
 * by one row at most. */
#define RIMOPAKU_AMD_EXACT_ROWS 1000000

/* The dense row parameter in thousandths, for n rows: the least number of them with the threshold of SuiteSparse's AMD, which is
 * dense * sqrt (n) rounded down, as far as there is one. */
static inline int32_t rimopaku_amd_thousandths(double dense, int64_t n)
{
    double root, rows;
    uint64_t size, goal, t;

    if (dense != dense)
        return 10000;
    if (dense < 0)
        return -1;
    if (n < 1 || n > RIMOPAKU_AMD_EXACT_ROWS)
        return dense >= 2147483.647 ? INT32_MAX : (int32_t)(dense * 1000 + 0.5);
    root = rimopaku_amd_root((double)n);
    rows = dense * root;
    if (rows > (double)n)
        rows = (double)n;
    size = (uint64_t)n;
    goal = (uint64_t)rows * 1000;
    t = (uint64_t)((double)goal / root);
    while (t > 0 && t * t * size >= goal * goal)
        t--;
    while (t * t * size < goal * goal)
        t++;
    return (int32_t)t;
}

/* The parameters in Control, for n rows. */
static inline struct rimopaku_parameters rimopaku_amd_parameters(const double Control[], int64_t n)
{
    struct rimopaku_parameters parameters;
    rimopaku_defaults(&parameters);
    if (Control != NULL) {
        parameters.dense = rimopaku_amd_thousandths(Control[AMD_DENSE], n);
        parameters.aggressive = Control[AMD_AGGRESSIVE] != 0;
    }
    return parameters;
}

/* Sets Info to unknown, except for n. */
static inline void rimopaku_amd_begin(double Info[], double n)
{
    int i;
    if (Info == NULL)
        return;
    for (i = 0; i < AMD_INFO; i++)
        Info[i] = -1;
    Info[AMD_N] = n;
    Info[AMD_STATUS] = AMD_OK;
}

/* Writes the status and returns it. */
static inline int32_t rimopaku_amd_end(double Info[], int32_t status)
{
    if (Info != NULL)
        Info[AMD_STATUS] = status;
    return status;
}

/* Writes the statistics of an ordering. `integers` is how many integers SuiteSparse's AMD would take, and `size` the bytes of one. */
static inline void rimopaku_amd_tell(double Info[], const struct rimopaku_statistics *told, double integers, double size)
{
    size_t off_diagonal = told->nz - told->nz_diag;
    size_t mirrored = 2 * off_diagonal - told->nz_a_plus_at;
    if (Info == NULL)
        return;
    Info[AMD_NZ] = (double)told->nz;
    Info[AMD_SYMMETRY] = off_diagonal == 0 ? 1 : (double)mirrored / (double)off_diagonal;
    Info[AMD_NZDIAG] = (double)told->nz_diag;
    Info[AMD_NZ_A_PLUS_AT] = (double)told->nz_a_plus_at;
    Info[AMD_NDENSE] = (double)told->n_dense;
    Info[AMD_MEMORY] = integers * size;
    Info[AMD_NCMPA] = (double)told->n_cmp_a;
    Info[AMD_LNZ] = (double)told->lnz;
    Info[AMD_NDIV] = (double)told->n_div;
    Info[AMD_NMULTSUBS_LDL] = (double)told->n_mult_subs_ldl;
    Info[AMD_NMULTSUBS_LU] = (double)told->n_mult_subs_lu;
    Info[AMD_DMAX] = (double)told->d_max;
}

/* How many integers SuiteSparse's AMD would take: the lists with a fifth more, nine arrays, and the sorted copy of a jumbled matrix. */
static inline double rimopaku_amd_integers(const struct rimopaku_statistics *told, int32_t status, double entries)
{
    double lists = (double)told->nz_a_plus_at + (double)(told->nz_a_plus_at / 5);
    double copy = (double)told->n + 1 + (entries > 1 ? entries : 1);
    return lists + 9 * (double)told->n + (status == AMD_OK_BUT_JUMBLED ? copy : 0);
}

RIMOPAKU_AMD_LINKAGE int amd_order(int32_t n, const int32_t Ap[], const int32_t Ai[], int32_t P[], double Control[], double Info[])
{
    struct rimopaku_parameters parameters = rimopaku_amd_parameters(Control, n);
    struct rimopaku_statistics told;
    int32_t *inverse;
    int32_t status;

    rimopaku_amd_begin(Info, n);
    if (Ap == NULL || Ai == NULL || P == NULL || n < 0)
        return rimopaku_amd_end(Info, AMD_INVALID);
    if (n == 0)
        return AMD_OK;
    if (Info != NULL)
        Info[AMD_NZ] = Ap[n];
    if (Ap[n] < 0)
        return rimopaku_amd_end(Info, AMD_INVALID);
    inverse = (int32_t *)malloc((size_t)n * sizeof(int32_t));
    if (inverse == NULL)
        return rimopaku_amd_end(Info, AMD_OUT_OF_MEMORY);
    status = rimopaku_order_i32(n, Ap, (size_t)n + 1, Ai, (size_t)Ap[n], &parameters, P, (size_t)n, inverse, (size_t)n, &told);
    free(inverse);
    if (status >= 0)
        rimopaku_amd_tell(Info, &told, rimopaku_amd_integers(&told, status, Ap[n]), sizeof(int32_t));
    return rimopaku_amd_end(Info, status);
}

RIMOPAKU_AMD_LINKAGE RIMOPAKU_AMD_LONG_STATUS amd_l_order(SuiteSparse_long n, const SuiteSparse_long Ap[], const SuiteSparse_long Ai[],
                                                          SuiteSparse_long P[], double Control[], double Info[])
{
    struct rimopaku_parameters parameters = rimopaku_amd_parameters(Control, n);
    struct rimopaku_statistics told;
    SuiteSparse_long *inverse;
    int32_t status;

    rimopaku_amd_begin(Info, (double)n);
    if (Ap == NULL || Ai == NULL || P == NULL || n < 0)
        return rimopaku_amd_end(Info, AMD_INVALID);
    if (n == 0)
        return AMD_OK;
    if (Info != NULL)
        Info[AMD_NZ] = (double)Ap[n];
    if (Ap[n] < 0)
        return rimopaku_amd_end(Info, AMD_INVALID);
    if ((size_t)n > SIZE_MAX / sizeof(SuiteSparse_long))
        return rimopaku_amd_end(Info, AMD_OUT_OF_MEMORY);
    inverse = (SuiteSparse_long *)malloc((size_t)n * sizeof(SuiteSparse_long));
    if (inverse == NULL)
        return rimopaku_amd_end(Info, AMD_OUT_OF_MEMORY);
    status = rimopaku_order_i64(n, Ap, (size_t)n + 1, Ai, (size_t)Ap[n], &parameters, P, (size_t)n, inverse, (size_t)n, &told);
    free(inverse);
    if (status >= 0)
        rimopaku_amd_tell(Info, &told, rimopaku_amd_integers(&told, status, (double)Ap[n]), sizeof(SuiteSparse_long));
    return rimopaku_amd_end(Info, status);
}

RIMOPAKU_AMD_LINKAGE int amd_valid(int32_t n_row, int32_t n_col, const int32_t Ap[], const int32_t Ai[])
{
    if (Ap == NULL || Ai == NULL || n_row < 0 || n_col < 0 || Ap[n_col] < 0)
        return AMD_INVALID;
    return rimopaku_valid_i32(n_row, n_col, Ap, (size_t)n_col + 1, Ai, (size_t)Ap[n_col]);
}

RIMOPAKU_AMD_LINKAGE RIMOPAKU_AMD_LONG_STATUS amd_l_valid(SuiteSparse_long n_row, SuiteSparse_long n_col, const SuiteSparse_long Ap[],
                                                          const SuiteSparse_long Ai[])
{
    if (Ap == NULL || Ai == NULL || n_row < 0 || n_col < 0 || Ap[n_col] < 0)
        return AMD_INVALID;
    return rimopaku_valid_i64(n_row, n_col, Ap, (size_t)n_col + 1, Ai, (size_t)Ap[n_col]);
}

RIMOPAKU_AMD_LINKAGE void amd_defaults(double Control[])
{
    int i;
    if (Control == NULL)
        return;
    for (i = 0; i < AMD_CONTROL; i++)
        Control[i] = 0;
    Control[AMD_DENSE] = AMD_DEFAULT_DENSE;
    Control[AMD_AGGRESSIVE] = AMD_DEFAULT_AGGRESSIVE;
}

RIMOPAKU_AMD_LINKAGE void amd_l_defaults(double Control[])
{
    amd_defaults(Control);
}

/* Prints Control, or the defaults. */
static inline void rimopaku_amd_print_control(const double Control[], int size)
{
    double dense = Control != NULL ? Control[AMD_DENSE] : AMD_DEFAULT_DENSE;
    double aggressive = Control != NULL ? Control[AMD_AGGRESSIVE] : AMD_DEFAULT_AGGRESSIVE;

    printf("\nAMD by rimopaku: approximate minimum degree ordering\n");
    printf("    dense row parameter: %g\n", dense);
    if (dense < 0)
        printf("    no rows treated as dense\n");
    else
        printf("    (rows with more than max (%g * sqrt (n), 16) entries are\n"
               "    considered \"dense\", and placed last in output permutation)\n", dense);
    printf("    aggressive absorption:  %s\n", aggressive != 0 ? "yes" : "no");
    printf("    size of AMD integer: %d\n\n", size);
}

RIMOPAKU_AMD_LINKAGE void amd_control(double Control[])
{
    rimopaku_amd_print_control(Control, (int)sizeof(int));
}

RIMOPAKU_AMD_LINKAGE void amd_l_control(double Control[])
{
    rimopaku_amd_print_control(Control, (int)sizeof(SuiteSparse_long));
}

/* Prints a line of amd_info, if the number is known. */
static inline void rimopaku_amd_print(const char *label, double number)
{
    if (number >= 0)
        printf("    %-52s%.20g\n", label, number);
}

RIMOPAKU_AMD_LINKAGE void amd_info(double Info[])
{
    double n, divisions, ldl, lu;

    printf("\nAMD by rimopaku, results:\n");
    if (Info == NULL)
        return;
    n = Info[AMD_N];
    divisions = Info[AMD_NDIV];
    ldl = Info[AMD_NMULTSUBS_LDL];
    lu = Info[AMD_NMULTSUBS_LU];
    printf("    status: %s\n", Info[AMD_STATUS] == AMD_OK ? "OK"
                               : Info[AMD_STATUS] == AMD_OUT_OF_MEMORY ? "out of memory"
                               : Info[AMD_STATUS] == AMD_INVALID ? "invalid matrix"
                               : Info[AMD_STATUS] == AMD_OK_BUT_JUMBLED ? "OK, but jumbled"
                                                                        : "unknown");
    rimopaku_amd_print("n, dimension of A:", n);
    rimopaku_amd_print("nz, number of nonzeros in A:", Info[AMD_NZ]);
    if (Info[AMD_SYMMETRY] >= 0)
        printf("    %-52s%.4f\n", "symmetry of A:", Info[AMD_SYMMETRY]);
    rimopaku_amd_print("number of nonzeros on diagonal:", Info[AMD_NZDIAG]);
    rimopaku_amd_print("nonzeros in pattern of A+A' (excl. diagonal):", Info[AMD_NZ_A_PLUS_AT]);
    rimopaku_amd_print("# dense rows/columns of A+A':", Info[AMD_NDENSE]);
    rimopaku_amd_print("memory used, in bytes:", Info[AMD_MEMORY]);
    rimopaku_amd_print("# of memory compactions:", Info[AMD_NCMPA]);
    printf("\n    Upper bounds for a factorization of A(P,P) + A(P,P)':\n\n");
    rimopaku_amd_print("nonzeros in L (excluding diagonal):", Info[AMD_LNZ]);
    rimopaku_amd_print("nonzeros in L (including diagonal):", n >= 0 && Info[AMD_LNZ] >= 0 ? n + Info[AMD_LNZ] : -1);
    rimopaku_amd_print("# divide operations for LDL' or LU:", divisions);
    rimopaku_amd_print("# multiply-subtract operations for LDL':", ldl);
    rimopaku_amd_print("# multiply-subtract operations for LU:", lu);
    rimopaku_amd_print("max nz. in any column of L (incl. diagonal):", Info[AMD_DMAX]);
    if (n < 0 || divisions < 0 || ldl < 0 || lu < 0)
        return;
    printf("\n");
    rimopaku_amd_print("chol flop count for real A, sqrt counted as 1 flop:", n + divisions + 2 * ldl);
    rimopaku_amd_print("LDL' flop count for real A:", divisions + 2 * ldl);
    rimopaku_amd_print("LDL' flop count for complex A:", 9 * divisions + 8 * ldl);
    rimopaku_amd_print("LU flop count for real A (with no pivoting):", divisions + 2 * lu);
    rimopaku_amd_print("LU flop count for complex A (with no pivoting):", 9 * divisions + 8 * lu);
    printf("\n");
}

RIMOPAKU_AMD_LINKAGE void amd_l_info(double Info[])
{
    amd_info(Info);
}

#if RIMOPAKU_SUITESPARSE >= 7
RIMOPAKU_AMD_LINKAGE void amd_version(int version[3])
{
    version[0] = AMD_MAIN_VERSION;
    version[1] = AMD_SUB_VERSION;
    version[2] = AMD_SUBSUB_VERSION;
}
#endif

#endif

#ifdef __cplusplus
}
#endif

#endif

/* rimopaku.h: the approximate minimum degree ordering (AMD) of sparse matrices, for C99 and C++11.
 *
 * The functions are in librimopaku.a and librimopaku.so.1, which bindings/c/build makes of the proved archive libamd_c.a and liblibc_c.a of
 * the kit; docs/USING.md says how. Each is a thin call of a library whose contracts are proved. The proofs assume what the compiler cannot
 * check, and what the caller must therefore uphold:
 *
 *   - No pointer is NULL, even if its length is 0.
 *   - A pointer with a length LEN points to LEN numbers that may be read, and also written unless it is `const`.
 *   - An array that is written overlaps no other argument.
 *   - No other thread writes these arrays during the call. Calls with other arrays may run at the same time.
 *   - A `bool` is 0 or 1.
 *   - malloc, realloc and free belong to one allocator, as in the C library. No function is called from a signal handler.
 *
 * Everything else is checked, except by rimopaku_amd_2_i32 and rimopaku_amd_2_i64: the arrays and `n` may have any values. No call ends the
 * program. Each block of memory that a call takes is freed before it returns; this is tested, and not proved.
 *
 * What to pass: a square matrix, with rows and columns counted from 0. The pattern of A + A' is ordered: one triangle of a symmetric matrix
 * is enough, entries on the diagonal change nothing, and there are no values. A permutation comes back, in all tests that of SuiteSparse's
 * AMD and of the Rust crate amd. Nothing is factorized.
 *
 * A matrix with n rows and n columns is passed in compressed sparse columns, called a column form: `a_p` has n + 1 numbers or more; the
 * first is 0; they never descend up to a_p[n]; a_p[n] is at most a_i_len; and column j has the rows a_i[a_p[j]] to a_i[a_p[j + 1] - 1],
 * each from 0 to n - 1. Columns may be unsorted and have duplicates. What follows in either array is ignored.
 *
 * Beside SuiteSparse's AMD: the dense row parameter counts in thousandths, lengths are passed with the arrays, the inverse permutation is
 * returned too, and the counts are integers that saturate at SIZE_MAX. The header amd.h has the calls of SuiteSparse's AMD. */

#ifndef RIMOPAKU_H
#define RIMOPAKU_H

#include <stdbool.h>
#include <stddef.h>
#include <stdint.h>

#ifdef __cplusplus
extern "C" {
#endif

/* A `size_t` must have 64 bits: elsewhere this line does not compile. */
typedef char rimopaku_size_has_64_bits[sizeof(size_t) == 8 ? 1 : -1];

/* What a call returns. The numbers are those of SuiteSparse's AMD. A number below 0 is an error. */
enum {
    RIMOPAKU_OK = 0,             /* each column is sorted and has no duplicates */
    RIMOPAKU_OK_BUT_JUMBLED = 1, /* a column is unsorted or has a duplicate; this is no error */
    RIMOPAKU_OUT_OF_MEMORY = -1, /* malloc failed, or the matrix is too large for this machine */
    RIMOPAKU_INVALID = -2        /* the input is not a column form, or an array has the wrong length */
};

/* What a caller chooses. rimopaku_defaults writes what most callers want: { 10000, true }. */
struct rimopaku_parameters {
    /* In thousandths: 10000 stands for the 10.0 of SuiteSparse's AMD. A row with more than max(16, dense / 1000 * sqrt(n)) entries off the
     * diagonal of A + A' is dense, and is placed last. Any number is allowed. If it is negative, only rows with n - 1 such entries are
     * dense, and only for n >= 18. */
    int32_t dense;
    /* Aggressive absorption: whether a new element also absorbs elements that lie inside it but do not contain the pivot. */
    bool aggressive;
};

/* Statistics of an ordering. L is the factor of the matrix in the new order. */
struct rimopaku_statistics {
    size_t n;               /* rows */
    size_t nz;              /* entries of the pattern, without duplicates */
    bool symmetry;          /* whether the pattern equals its transpose; SuiteSparse's AMD has a ratio here */
    size_t nz_diag;         /* entries on the diagonal */
    size_t nz_a_plus_at;    /* entries of A + A' off the diagonal */
    size_t n_dense;         /* rows placed last: dense ones, and those in `hold` */
    size_t n_cmp_a;         /* how often the workspace was compacted; at most n */
    /* The next four are upper bounds. They saturate: one that would exceed SIZE_MAX is SIZE_MAX, and may then be too small. */
    size_t lnz;             /* entries of L below the diagonal */
    size_t n_div;           /* divisions: equal to lnz */
    size_t n_mult_subs_ldl; /* multiply-subtract steps of a factorization LDL' */
    size_t n_mult_subs_lu;  /* multiply-subtract steps of a factorization LU without pivoting */
    size_t d_max;           /* upper bound on the entries of a column of L, with its diagonal */
};

/* Writes the default parameters. */
void rimopaku_defaults(struct rimopaku_parameters *parameters);

/* Orders the rows of a matrix by the pattern of A + A'. Row p[k] comes at place k, and p_inv[p[k]] is k.
 *
 * p_len and p_inv_len must be n. The call returns RIMOPAKU_INVALID exactly if they are not, or if n is not 0 and the input is not a column
 * form. After an error p, p_inv and *statistics are unchanged. For n = 0 only *statistics is written, and a_p is not read. */
int32_t rimopaku_order_i32(int32_t n, const int32_t *a_p, size_t a_p_len, const int32_t *a_i, size_t a_i_len,
                           const struct rimopaku_parameters *parameters, int32_t *p, size_t p_len, int32_t *p_inv, size_t p_inv_len,
                           struct rimopaku_statistics *statistics);
int32_t rimopaku_order_i64(int64_t n, const int64_t *a_p, size_t a_p_len, const int64_t *a_i, size_t a_i_len,
                           const struct rimopaku_parameters *parameters, int64_t *p, size_t p_len, int64_t *p_inv, size_t p_inv_len,
                           struct rimopaku_statistics *statistics);

/* Orders as above, and places the rows whose mark in `hold` is true last, together with the dense ones, in ascending order.
 *
 * hold_len must be n. The call also returns RIMOPAKU_INVALID if it is not and n is not 0. */
int32_t rimopaku_order_holding_i32(int32_t n, const int32_t *a_p, size_t a_p_len, const int32_t *a_i, size_t a_i_len,
                                   const struct rimopaku_parameters *parameters, const bool *hold, size_t hold_len, int32_t *p,
                                   size_t p_len, int32_t *p_inv, size_t p_inv_len, struct rimopaku_statistics *statistics);
int32_t rimopaku_order_holding_i64(int64_t n, const int64_t *a_p, size_t a_p_len, const int64_t *a_i, size_t a_i_len,
                                   const struct rimopaku_parameters *parameters, const bool *hold, size_t hold_len, int64_t *p,
                                   size_t p_len, int64_t *p_inv, size_t p_inv_len, struct rimopaku_statistics *statistics);

/* Checks a matrix with n_row rows and n_col columns. Returns RIMOPAKU_INVALID exactly if it is not a column form, RIMOPAKU_OK exactly if it
 * is one whose columns are sorted and have no duplicates, else RIMOPAKU_OK_BUT_JUMBLED. Takes no memory. A negative n_row is no fault where
 * there are no entries, as in the Rust crate amd; SuiteSparse's amd_valid refuses it. */
int32_t rimopaku_valid_i32(int32_t n_row, int32_t n_col, const int32_t *a_p, size_t a_p_len, const int32_t *a_i, size_t a_i_len);
int32_t rimopaku_valid_i64(int64_t n_row, int64_t n_col, const int64_t *a_p, size_t a_p_len, const int64_t *a_i, size_t a_i_len);

/* What the calls below return besides 0, RIMOPAKU_OUT_OF_MEMORY and RIMOPAKU_INVALID. */
enum {
    RIMOPAKU_NOT_PERMUTATION = -3, /* p does not list each row exactly once */
    RIMOPAKU_ROOM_TOO_SMALL = -4   /* there are more entries than an array has places for */
};

/* Writes the pattern of the factor L of the matrix in the order p: row p[k] is at place k. p is any permutation of the rows, such as one
 * that the calls above wrote; if p_len is not n, p is no permutation of them.
 *
 * Column k has the entries rows[ptr[k]] to rows[ptr[k + 1] - 1] below its diagonal: places, in ascending order. There are ptr[n] entries in
 * all; what follows them in rows is unchanged. parent[k] is the first entry of column k, its parent in the elimination tree, or -1 if the
 * column is empty. With p from rimopaku_order, rows_len = statistics.lnz is enough, unless lnz is SIZE_MAX.
 *
 * ptr_len must be n + 1 and parent_len n; otherwise the call returns RIMOPAKU_INVALID. It returns RIMOPAKU_OUT_OF_MEMORY also if the
 * integer type cannot count the entries. After an error ptr and parent are unchanged, and so is rows, except that after
 * RIMOPAKU_OUT_OF_MEMORY and RIMOPAKU_ROOM_TOO_SMALL it may hold some of the entries. The memory that the call takes does not grow with
 * the factor. */
int32_t rimopaku_columns_i32(int32_t n, const int32_t *a_p, size_t a_p_len, const int32_t *a_i, size_t a_i_len, const int32_t *p,
                             size_t p_len, int32_t *ptr, size_t ptr_len, int32_t *rows, size_t rows_len, int32_t *parent,
                             size_t parent_len);
int32_t rimopaku_columns_i64(int64_t n, const int64_t *a_p, size_t a_p_len, const int64_t *a_i, size_t a_i_len, const int64_t *p,
                             size_t p_len, int64_t *ptr, size_t ptr_len, int64_t *rows, size_t rows_len, int64_t *parent,
                             size_t parent_len);

/* What the factor L needs: sums over its columns. They saturate: one that would exceed SIZE_MAX is SIZE_MAX. */
struct rimopaku_needs {
    size_t lnz;             /* entries of L below the diagonal, and so the divisions */
    size_t n_mult_subs_ldl; /* multiply-subtract steps of a factorization LDL' */
    size_t n_mult_subs_lu;  /* multiply-subtract steps of a factorization LU without pivoting */
    size_t d_max;           /* entries of the longest column of L, with its diagonal; 0 for n = 0 */
};

/* Counts the entries of the factor that rimopaku_columns writes, without writing them: sizes[k] is the number of entries of column k, and
 * parent[k] is what rimopaku_columns writes there. The entries are needs->lnz in all, and that is enough room for rimopaku_columns, unless
 * it is SIZE_MAX. The memory that the call takes does not grow with the factor.
 *
 * sizes_len and parent_len must be n; otherwise the call returns RIMOPAKU_INVALID. If p is no permutation of the rows it returns
 * RIMOPAKU_NOT_PERMUTATION. It never returns RIMOPAKU_ROOM_TOO_SMALL. After an error sizes, parent and *needs are unchanged. */
int32_t rimopaku_counts_i32(int32_t n, const int32_t *a_p, size_t a_p_len, const int32_t *a_i, size_t a_i_len, const int32_t *p,
                            size_t p_len, int32_t *sizes, size_t sizes_len, int32_t *parent, size_t parent_len,
                            struct rimopaku_needs *needs);
int32_t rimopaku_counts_i64(int64_t n, const int64_t *a_p, size_t a_p_len, const int64_t *a_i, size_t a_i_len, const int64_t *p,
                            size_t p_len, int64_t *sizes, size_t sizes_len, int64_t *parent, size_t parent_len,
                            struct rimopaku_needs *needs);

/* How much room the supernodes of a factor need. */
struct rimopaku_supernode_sizes {
    size_t supernodes; /* their number */
    size_t rows;       /* the rows below their blocks */
};

/* The factor that rimopaku_columns writes, by supernodes: runs of places of which each but the last has the next one as its parent, and one
 * entry more than that has. Supernode s has the places first[s] to first[s + 1] - 1. Column k of it has the places behind k in it, and then
 * the rows rows[ptr[s]] to rows[ptr[s + 1] - 1], in ascending order. parent[s] is the supernode in which the first of its rows lies, or -1
 * if it has none. With m supernodes first[m] is n, and ptr[m] the number of rows.
 *
 * Three calls. rimopaku_supernode_sizes tells how much room is needed; the memory that it takes does not grow with the factor.
 * rimopaku_supernodes writes m places of parent, one more of first and ptr, and the rows, in their place at once. The arrays may be longer,
 * if first and ptr still have one place more than parent; what follows in each is unchanged. rimopaku_supernodes_and_sizes does the work of
 * both in the time of the second: it writes the supernodes, and tells the sizes. With n places of parent, and as many of rows as
 * rimopaku_columns needs, there is always room: statistics.lnz of rimopaku_order is enough for its own p. So one call does, and what is
 * left of the arrays may be given back.
 *
 * All return RIMOPAKU_NOT_PERMUTATION if p is no permutation of the rows. The last two return RIMOPAKU_INVALID also if first_len or ptr_len
 * is not parent_len + 1; RIMOPAKU_ROOM_TOO_SMALL if parent has fewer places than there are supernodes, or rows than there are rows below
 * the blocks; and RIMOPAKU_OUT_OF_MEMORY also if the integer type cannot count the rows. After an error all is unchanged, but that with
 * RIMOPAKU_ROOM_TOO_SMALL rimopaku_supernodes_and_sizes tells the sizes. */
int32_t rimopaku_supernode_sizes_i32(int32_t n, const int32_t *a_p, size_t a_p_len, const int32_t *a_i, size_t a_i_len, const int32_t *p,
                                     size_t p_len, struct rimopaku_supernode_sizes *sizes);
int32_t rimopaku_supernode_sizes_i64(int64_t n, const int64_t *a_p, size_t a_p_len, const int64_t *a_i, size_t a_i_len, const int64_t *p,
                                     size_t p_len, struct rimopaku_supernode_sizes *sizes);
int32_t rimopaku_supernodes_i32(int32_t n, const int32_t *a_p, size_t a_p_len, const int32_t *a_i, size_t a_i_len, const int32_t *p,
                                size_t p_len, int32_t *first, size_t first_len, int32_t *ptr, size_t ptr_len, int32_t *rows,
                                size_t rows_len, int32_t *parent, size_t parent_len);
int32_t rimopaku_supernodes_i64(int64_t n, const int64_t *a_p, size_t a_p_len, const int64_t *a_i, size_t a_i_len, const int64_t *p,
                                size_t p_len, int64_t *first, size_t first_len, int64_t *ptr, size_t ptr_len, int64_t *rows,
                                size_t rows_len, int64_t *parent, size_t parent_len);
int32_t rimopaku_supernodes_and_sizes_i32(int32_t n, const int32_t *a_p, size_t a_p_len, const int32_t *a_i, size_t a_i_len,
                                          const int32_t *p, size_t p_len, int32_t *first, size_t first_len, int32_t *ptr, size_t ptr_len,
                                          int32_t *rows, size_t rows_len, int32_t *parent, size_t parent_len,
                                          struct rimopaku_supernode_sizes *sizes);
int32_t rimopaku_supernodes_and_sizes_i64(int64_t n, const int64_t *a_p, size_t a_p_len, const int64_t *a_i, size_t a_i_len,
                                          const int64_t *p, size_t p_len, int64_t *first, size_t first_len, int64_t *ptr, size_t ptr_len,
                                          int64_t *rows, size_t rows_len, int64_t *parent, size_t parent_len,
                                          struct rimopaku_supernode_sizes *sizes);

/* Writes the degrees of the rows by the pattern of A + A', without its diagonal: degrees[i] is the number of its entries in row i. The
 * columns of the matrix must be sorted and have no duplicates. Of *statistics the fields n, nz, symmetry, nz_diag and nz_a_plus_at tell the
 * pattern, and the others are 0.
 *
 * degrees_len must be n. Returns RIMOPAKU_OK, or RIMOPAKU_INVALID exactly if degrees_len is not n or rimopaku_valid(n, n, ..) would not
 * return RIMOPAKU_OK. After an error degrees and *statistics are unchanged. */
int32_t rimopaku_aat_i32(int32_t n, const int32_t *a_p, size_t a_p_len, const int32_t *a_i, size_t a_i_len, int32_t *degrees,
                         size_t degrees_len, struct rimopaku_statistics *statistics);
int32_t rimopaku_aat_i64(int64_t n, const int64_t *a_p, size_t a_p_len, const int64_t *a_i, size_t a_i_len, int64_t *degrees,
                         size_t degrees_len, struct rimopaku_statistics *statistics);

/* Writes the row form of a matrix, which is the column form of its transpose: row i has the columns indices[pointers[i]] to
 * indices[pointers[i + 1] - 1], in ascending order and without duplicates. The columns of the matrix may be unsorted and have duplicates.
 *
 * pointers_len must be n + 1; otherwise, and if the input is not a column form, the call returns RIMOPAKU_INVALID. indices has room for the
 * entries of the pattern, of which there are at most a_p[n]; if it is too small, the call returns RIMOPAKU_ROOM_TOO_SMALL. What follows the
 * entries in indices is unchanged, and after an error both arrays are. */
int32_t rimopaku_preprocess_i32(int32_t n, const int32_t *a_p, size_t a_p_len, const int32_t *a_i, size_t a_i_len, int32_t *pointers,
                                size_t pointers_len, int32_t *indices, size_t indices_len);
int32_t rimopaku_preprocess_i64(int64_t n, const int64_t *a_p, size_t a_p_len, const int64_t *a_i, size_t a_i_len, int64_t *pointers,
                                size_t pointers_len, int64_t *indices, size_t indices_len);

/* Writes the postorder of an assembly tree. Place e holds an element if nv[e] > 0; then parent[e] is the element above it, or -1 if there
 * is none, and f_size[e] is the size of its front. order[e] becomes its number in the postorder, and -1 if e holds no element. The elements
 * with the same parent come in ascending order, except that the last one of those with the largest front comes last. The roots come in
 * ascending order.
 *
 * Each length must be n. Returns RIMOPAKU_OK; or RIMOPAKU_INVALID exactly if a length is not n, or the lists are no forest: an element has
 * a negative front, or a parent that is neither -1 nor an element, or is above itself. The test of the lists takes memory: if the lengths
 * are n, RIMOPAKU_OUT_OF_MEMORY may come in place of either. After an error order is unchanged. */
int32_t rimopaku_postorder_i32(int32_t n, const int32_t *parent, size_t parent_len, const int32_t *nv, size_t nv_len,
                               const int32_t *f_size, size_t f_size_len, int32_t *order, size_t order_len);
int32_t rimopaku_postorder_i64(int64_t n, const int64_t *parent, size_t parent_len, const int64_t *nv, size_t nv_len,
                               const int64_t *f_size, size_t f_size_len, int64_t *order, size_t order_len);

/* Eliminates the rows of a symmetric pattern in the caller's workspace, and lists them. List i is the len[i] rows from iw[pe[i]] on: the
 * neighbours of row i. Of SuiteSparse's AMD this is amd_2, without an array for its own use, and what it takes is not tested. So the caller
 * must uphold more than the head of this file says:
 *
 *   - n is at least 1; pe_len, len_len, nv_len, p_inv_len, p_len and e_len_len are n; and pfree + n is at most iw_len.
 *   - Each pe[i] is at least 0, also where len[i] is 0. No two lists share a place, and together they fill the places of iw before pfree.
 *   - In list i each row is from 0 to n - 1, none is there twice, none is i, and i is in the list of each.
 *
 * Returns RIMOPAKU_OK; or RIMOPAKU_OUT_OF_MEMORY, and then nv, p_inv, p, e_len and *statistics are unchanged. What iw and len then hold is
 * not said. Row p[k] comes at place k, and p_inv[p[k]] is k. nv[i] is the number of rows that element i eliminated, and 0 if row i is no
 * element; e_len[i] the number of rows of its front, and -1; and pe[i] its parent in the assembly tree, or -1 for a root. If row i is no
 * element, pe[i] is a row toward the element with which it went, or -1 if it was placed last as dense. Of *statistics n and what follows
 * nz_a_plus_at is told, and the others are 0. */
int32_t rimopaku_amd_2_i64(int64_t n, int64_t *pe, size_t pe_len, int64_t *iw, size_t iw_len, size_t *len, size_t len_len, size_t pfree,
                           const struct rimopaku_parameters *parameters, int64_t *nv, size_t nv_len, int64_t *p_inv, size_t p_inv_len,
                           int64_t *p, size_t p_len, int64_t *e_len, size_t e_len_len, struct rimopaku_statistics *statistics);

/* The same in 32 bits, in copies of the lists: iw and len stay as they are, and after RIMOPAKU_OUT_OF_MEMORY pe does too. The caller must
 * uphold the same, with iw_len in the place of pfree: the lists fill iw, and no room is needed behind them. Besides, n + 2 and iw_len + n
 * are at most INT32_MAX. */
int32_t rimopaku_amd_2_i32(int32_t n, int32_t *pe, size_t pe_len, const int32_t *iw, size_t iw_len, const uint32_t *len, size_t len_len,
                           const struct rimopaku_parameters *parameters, int32_t *nv, size_t nv_len, int32_t *p_inv, size_t p_inv_len,
                           int32_t *p, size_t p_len, int32_t *e_len, size_t e_len_len, struct rimopaku_statistics *statistics);

#ifdef __cplusplus
}
#endif

#endif

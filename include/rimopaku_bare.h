/* rimopaku_bare.h: orderings and the factor's columns with no malloc, for C99 and C++11: the caller lends each call its memory.
 *
 * The functions are in libamd_bare.a, which the Rattle kit makes of crates/amd_bare; docs/USING.md says how. They have the contracts of
 * rimopaku.h, by the same definitions, and that header has the records and the numbers of the statuses. Of what it declares as functions
 * nothing is in libamd_bare.a: default parameters are { 10000, true }.
 *
 * Nothing here calls malloc or the system. What the archive takes from elsewhere are memcpy, memmove and memset, which a compiler for a
 * machine without a C library asks for anyway, and the division of 128 bits, __udivti3, which is in libgcc and in bindings/c/wide.c.
 *
 * What a caller must uphold is what the head of rimopaku.h says, but for malloc, and this of the block:
 *
 *   - `start` is a multiple of 16, and so is `size`, which is below 2^63.
 *   - The block is `size` bytes that may be read and written, and that nothing else uses during the call: no argument, no other call. What
 *     stands in it at first does not matter.
 *
 * A call takes its memory from the front of the block, each list behind the one before it, and none of it twice. It asks for memory
 * nowhere else. If the block is too small, it returns RIMOPAKU_OUT_OF_MEMORY, and nothing has changed. It does so exactly where the arrays
 * have their places, the input is a column form, n is not 0, and the block has fewer bytes than the call takes: for an ordering
 * rimopaku_workspace_bytes_i32(n, a_p[n]), for counts rimopaku_counts_bytes_i32(n, a_p[n]), and for columns
 * rimopaku_columns_bytes_i32(n, a_p[n]). That is proved. Where n is 0 no byte is taken.
 *
 * A call keeps no address of the block, and what it leaves there means nothing. So the same block may be lent to call after call. The
 * contracts do not say this, since they do not give the block back: it is tested. Calls with other blocks may run at the same time.
 *
 * Two answers are not those of rimopaku.h. RIMOPAKU_OUT_OF_MEMORY comes before RIMOPAKU_NOT_PERMUTATION, and RIMOPAKU_ROOM_TOO_SMALL comes
 * also where the factor has more entries than the type of its pointers can count. */

#ifndef RIMOPAKU_BARE_H
#define RIMOPAKU_BARE_H

#include "rimopaku.h"

#ifdef __cplusplus
extern "C" {
#endif

/* A block that is lent, passed by value. */
struct rimopaku_block {
    void *start; /* a multiple of 16 */
    size_t size; /* bytes, a multiple of 16 */
};

/* As much of some memory as is a block: up to 15 bytes are left out at the front and at the end. */
static inline struct rimopaku_block rimopaku_block_in(void *memory, size_t bytes)
{
    size_t before = (size_t)(-(uintptr_t)memory & 15);
    struct rimopaku_block block;

    block.start = memory;
    block.size = 0;
    if (bytes >= before) {
        block.start = (unsigned char *)memory + before;
        block.size = (bytes - before) / 16 * 16;
    }
    return block;
}

/* The calls of rimopaku.h for int32_t in memory that is lent: orderings, the counts and the columns of a factor. */
int32_t rimopaku_order_within_i32(struct rimopaku_block block, int32_t n, const int32_t *a_p, size_t a_p_len, const int32_t *a_i,
                                  size_t a_i_len, const struct rimopaku_parameters *parameters, int32_t *p, size_t p_len, int32_t *p_inv,
                                  size_t p_inv_len, struct rimopaku_statistics *statistics);
int32_t rimopaku_order_holding_within_i32(struct rimopaku_block block, int32_t n, const int32_t *a_p, size_t a_p_len, const int32_t *a_i,
                                          size_t a_i_len, const struct rimopaku_parameters *parameters, const bool *hold,
                                          size_t hold_len, int32_t *p, size_t p_len, int32_t *p_inv, size_t p_inv_len,
                                          struct rimopaku_statistics *statistics);
int32_t rimopaku_counts_within_i32(struct rimopaku_block block, int32_t n, const int32_t *a_p, size_t a_p_len, const int32_t *a_i,
                                   size_t a_i_len, const int32_t *p, size_t p_len, int32_t *sizes, size_t sizes_len, int32_t *parent,
                                   size_t parent_len, struct rimopaku_needs *needs);
int32_t rimopaku_columns_within_i32(struct rimopaku_block block, int32_t n, const int32_t *a_p, size_t a_p_len, const int32_t *a_i,
                                    size_t a_i_len, const int32_t *p, size_t p_len, int32_t *ptr, size_t ptr_len, int32_t *rows,
                                    size_t rows_len, int32_t *parent, size_t parent_len);

/* The calls of rimopaku.h for int64_t in memory that is lent: orderings, the counts and the columns of a factor. */
int32_t rimopaku_order_within_i64(struct rimopaku_block block, int64_t n, const int64_t *a_p, size_t a_p_len, const int64_t *a_i,
                                  size_t a_i_len, const struct rimopaku_parameters *parameters, int64_t *p, size_t p_len, int64_t *p_inv,
                                  size_t p_inv_len, struct rimopaku_statistics *statistics);
int32_t rimopaku_order_holding_within_i64(struct rimopaku_block block, int64_t n, const int64_t *a_p, size_t a_p_len, const int64_t *a_i,
                                          size_t a_i_len, const struct rimopaku_parameters *parameters, const bool *hold,
                                          size_t hold_len, int64_t *p, size_t p_len, int64_t *p_inv, size_t p_inv_len,
                                          struct rimopaku_statistics *statistics);
int32_t rimopaku_counts_within_i64(struct rimopaku_block block, int64_t n, const int64_t *a_p, size_t a_p_len, const int64_t *a_i,
                                   size_t a_i_len, const int64_t *p, size_t p_len, int64_t *sizes, size_t sizes_len, int64_t *parent,
                                   size_t parent_len, struct rimopaku_needs *needs);
int32_t rimopaku_columns_within_i64(struct rimopaku_block block, int64_t n, const int64_t *a_p, size_t a_p_len, const int64_t *a_i,
                                    size_t a_i_len, const int64_t *p, size_t p_len, int64_t *ptr, size_t ptr_len, int64_t *rows,
                                    size_t rows_len, int64_t *parent, size_t parent_len);

/* How many bytes a call takes of a block, for every matrix with at most so many rows and entries, a_p[n], whatever its columns: sorted or
 * not, with or without duplicates. With as many bytes the call is not refused for want of memory, and with fewer than its own matrix takes
 * it is: that is proved. SIZE_MAX where they are no size_t, and no block is so large. Those with _i64 are the same functions. */
size_t rimopaku_workspace_bytes_i32(size_t rows, size_t entries); /* an ordering */
size_t rimopaku_workspace_bytes_i64(size_t rows, size_t entries);
size_t rimopaku_counts_bytes_i32(size_t rows, size_t entries);
size_t rimopaku_counts_bytes_i64(size_t rows, size_t entries);
size_t rimopaku_columns_bytes_i32(size_t rows, size_t entries);
size_t rimopaku_columns_bytes_i64(size_t rows, size_t entries);

/* The same for constants, which is tested: the size of a static array. The macros read their arguments more than once. Rows and entries are
 * not negative, and their sums are within a size_t. An ordering takes 48 bytes for a row and 12 for an entry, with rows and entries rounded
 * up to multiples of 4, and 16; twice that where twice the entries and the rows are more than 2147483645 in sum. Counts take 112 for a row,
 * 16 for an entry, and 64. Columns take 72 and 8, and 16 or 24. */
#define RIMOPAKU_ORDER_BYTES_I32(rows, entries) RIMOPAKU_ORDER_BYTES_(RIMOPAKU_SIZE_(rows), RIMOPAKU_SIZE_(entries))
#define RIMOPAKU_COUNTS_BYTES_I32(rows, entries) RIMOPAKU_COUNTS_BYTES_(RIMOPAKU_SIZE_(rows), RIMOPAKU_SIZE_(entries))
#define RIMOPAKU_COLUMNS_BYTES_I32(rows, entries) RIMOPAKU_COLUMNS_BYTES_(RIMOPAKU_SIZE_(rows), RIMOPAKU_SIZE_(entries))
#define RIMOPAKU_ORDER_BYTES_I64(rows, entries) RIMOPAKU_ORDER_BYTES_(RIMOPAKU_SIZE_(rows), RIMOPAKU_SIZE_(entries))
#define RIMOPAKU_COUNTS_BYTES_I64(rows, entries) RIMOPAKU_COUNTS_BYTES_(RIMOPAKU_SIZE_(rows), RIMOPAKU_SIZE_(entries))
#define RIMOPAKU_COLUMNS_BYTES_I64(rows, entries) RIMOPAKU_COLUMNS_BYTES_(RIMOPAKU_SIZE_(rows), RIMOPAKU_SIZE_(entries))

/* What follows, with names that end in a line, serves these macros alone: the sums of the lists that a call makes. */
#define RIMOPAKU_SIZE_(number) ((size_t)(number))

/* An ordering: three numbers for each entry and twelve for each row, in lists with places for a multiple of 4. */
#define RIMOPAKU_ORDER_BYTES_(n, e) (RIMOPAKU_WIDTH_(n, e) * (3 * RIMOPAKU_FOURS_(e) + 12 * RIMOPAKU_FOURS_(n) + 4))
#define RIMOPAKU_WIDTH_(n, e) (2 * (e) + (n) <= 2147483645 ? RIMOPAKU_SIZE_(4) : RIMOPAKU_SIZE_(8))
#define RIMOPAKU_FOURS_(count) (((count) + 3) / 4 * 4)

/* Counts and columns: a list of numbers of 8 bytes in whole units of 16, and one of links of 16 bytes. */
#define RIMOPAKU_LISTS_(numbers, links) ((8 * (numbers) + 15) / 16 * 16 + 16 * (links))

/* Counts: sizes and places of the rows; pointers and neighbours twice, to earlier and to later places; the work of the count, eight numbers
 * for each row and five; and parents. */
#define RIMOPAKU_COUNTS_BYTES_(n, e) RIMOPAKU_LISTS_(2 * (e) + 12 * (n) + 7, n)

/* Columns: pointers of the factor, places of the rows, pointers and neighbours, two numbers of each row; and two links of each row. */
#define RIMOPAKU_COLUMNS_BYTES_(n, e) RIMOPAKU_LISTS_((e) + 5 * (n) + 2, 2 * (n))

static inline size_t rimopaku_order_bytes_i32(int32_t rows, int32_t entries)
{
    return RIMOPAKU_ORDER_BYTES_I32(rows, entries);
}

static inline size_t rimopaku_order_bytes_i64(int64_t rows, int64_t entries)
{
    return RIMOPAKU_ORDER_BYTES_I64(rows, entries);
}

#ifdef __cplusplus
}
#endif

#endif

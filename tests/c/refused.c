/* Each request for memory of a call is refused in turn, until a call meets no refusal: each call before must return RIMOPAKU_OUT_OF_MEMORY
 * and leave the arrays as they were, the last one must answer, and every block must have come back. Linked with
 * -Wl,--wrap=malloc,--wrap=realloc,--wrap=free, so that the requests of the library come here. */
#include <stdio.h>
#include <string.h>

#include "rimopaku.h"

enum { ROWS = 5, ROOM = 10, UNTOUCHED = -9 };

void *__real_malloc(size_t size);
void *__real_realloc(void *block, size_t size);
void __real_free(void *block);

static size_t asked, refused, blocks;

void *__wrap_malloc(size_t size)
{
    void *block = ++asked == refused ? NULL : __real_malloc(size);
    if (block)
        blocks++;
    return block;
}

void *__wrap_realloc(void *old, size_t size)
{
    void *block = ++asked == refused ? NULL : __real_realloc(old, size);
    if (block && !old)
        blocks++;
    return block;
}

void __wrap_free(void *block)
{
    if (block)
        blocks--;
    __real_free(block);
}

/* What the calls may write. */
struct answer {
    int32_t narrow[ROWS + ROWS + ROWS + 1 + ROOM];
    int64_t wide[ROWS + ROWS + ROWS + 1 + ROOM];
    struct rimopaku_statistics statistics;
    struct rimopaku_needs needs;
    struct rimopaku_supernode_sizes sizes;
};

static const int32_t a_p_32[] = {0, 2, 6, 10, 12, 14}, a_i_32[] = {0, 1, 0, 1, 2, 4, 1, 2, 3, 4, 2, 3, 1, 4}, p_32[] = {0, 3, 2, 4, 1};
static const int64_t a_p_64[] = {0, 2, 6, 10, 12, 14}, a_i_64[] = {0, 1, 0, 1, 2, 4, 1, 2, 3, 4, 2, 3, 1, 4}, p_64[] = {0, 3, 2, 4, 1};
static const bool hold[ROWS] = {true, false, false, false, false};

static int32_t order_32(struct answer *to)
{
    return rimopaku_order_i32(ROWS, a_p_32, ROWS + 1, a_i_32, 14, &(struct rimopaku_parameters){10000, true}, to->narrow, ROWS,
                              to->narrow + ROWS, ROWS, &to->statistics);
}

static int32_t order_64(struct answer *to)
{
    return rimopaku_order_i64(ROWS, a_p_64, ROWS + 1, a_i_64, 14, &(struct rimopaku_parameters){10000, true}, to->wide, ROWS,
                              to->wide + ROWS, ROWS, &to->statistics);
}

static int32_t order_holding_32(struct answer *to)
{
    return rimopaku_order_holding_i32(ROWS, a_p_32, ROWS + 1, a_i_32, 14, &(struct rimopaku_parameters){10000, true}, hold, ROWS, to->narrow,
                                      ROWS, to->narrow + ROWS, ROWS, &to->statistics);
}

static int32_t order_holding_64(struct answer *to)
{
    return rimopaku_order_holding_i64(ROWS, a_p_64, ROWS + 1, a_i_64, 14, &(struct rimopaku_parameters){10000, true}, hold, ROWS, to->wide,
                                      ROWS, to->wide + ROWS, ROWS, &to->statistics);
}

static int32_t columns_32(struct answer *to)
{
    return rimopaku_columns_i32(ROWS, a_p_32, ROWS + 1, a_i_32, 14, p_32, ROWS, to->narrow, ROWS + 1, to->narrow + ROWS + 1, ROOM,
                                to->narrow + ROWS + 1 + ROOM, ROWS);
}

static int32_t columns_64(struct answer *to)
{
    return rimopaku_columns_i64(ROWS, a_p_64, ROWS + 1, a_i_64, 14, p_64, ROWS, to->wide, ROWS + 1, to->wide + ROWS + 1, ROOM,
                                to->wide + ROWS + 1 + ROOM, ROWS);
}

static int32_t counts_32(struct answer *to)
{
    return rimopaku_counts_i32(ROWS, a_p_32, ROWS + 1, a_i_32, 14, p_32, ROWS, to->narrow, ROWS, to->narrow + ROWS, ROWS, &to->needs);
}

static int32_t counts_64(struct answer *to)
{
    return rimopaku_counts_i64(ROWS, a_p_64, ROWS + 1, a_i_64, 14, p_64, ROWS, to->wide, ROWS, to->wide + ROWS, ROWS, &to->needs);
}

static int32_t supernode_sizes_32(struct answer *to)
{
    return rimopaku_supernode_sizes_i32(ROWS, a_p_32, ROWS + 1, a_i_32, 14, p_32, ROWS, &to->sizes);
}

static int32_t supernode_sizes_64(struct answer *to)
{
    return rimopaku_supernode_sizes_i64(ROWS, a_p_64, ROWS + 1, a_i_64, 14, p_64, ROWS, &to->sizes);
}

static int32_t supernodes_32(struct answer *to)
{
    int32_t *ptr = to->narrow + ROWS + 1, *parent = ptr + ROWS + 1, *rows = parent + ROWS;
    return rimopaku_supernodes_i32(ROWS, a_p_32, ROWS + 1, a_i_32, 14, p_32, ROWS, to->narrow, ROWS + 1, ptr, ROWS + 1, rows, 5, parent,
                                   ROWS);
}

static int32_t supernodes_64(struct answer *to)
{
    int64_t *ptr = to->wide + ROWS + 1, *parent = ptr + ROWS + 1, *rows = parent + ROWS;
    return rimopaku_supernodes_i64(ROWS, a_p_64, ROWS + 1, a_i_64, 14, p_64, ROWS, to->wide, ROWS + 1, ptr, ROWS + 1, rows, 5, parent,
                                   ROWS);
}

static int32_t both_32(struct answer *to)
{
    int32_t *ptr = to->narrow + ROWS + 1, *parent = ptr + ROWS + 1, *rows = parent + ROWS;
    return rimopaku_supernodes_and_sizes_i32(ROWS, a_p_32, ROWS + 1, a_i_32, 14, p_32, ROWS, to->narrow, ROWS + 1, ptr, ROWS + 1, rows, 5,
                                             parent, ROWS, &to->sizes);
}

static int32_t both_64(struct answer *to)
{
    int64_t *ptr = to->wide + ROWS + 1, *parent = ptr + ROWS + 1, *rows = parent + ROWS;
    return rimopaku_supernodes_and_sizes_i64(ROWS, a_p_64, ROWS + 1, a_i_64, 14, p_64, ROWS, to->wide, ROWS + 1, ptr, ROWS + 1, rows, 5,
                                             parent, ROWS, &to->sizes);
}

static int32_t aat_32(struct answer *to)
{
    return rimopaku_aat_i32(ROWS, a_p_32, ROWS + 1, a_i_32, 14, to->narrow, ROWS, &to->statistics);
}

static int32_t aat_64(struct answer *to)
{
    return rimopaku_aat_i64(ROWS, a_p_64, ROWS + 1, a_i_64, 14, to->wide, ROWS, &to->statistics);
}

static int32_t preprocess_32(struct answer *to)
{
    return rimopaku_preprocess_i32(ROWS, a_p_32, ROWS + 1, a_i_32, 14, to->narrow, ROWS + 1, to->narrow + ROWS + 1, 14);
}

static int32_t preprocess_64(struct answer *to)
{
    return rimopaku_preprocess_i64(ROWS, a_p_64, ROWS + 1, a_i_64, 14, to->wide, ROWS + 1, to->wide + ROWS + 1, 14);
}

/* A forest: 4 above 3 and 1, 3 above 0; place 2 holds no element. */
static const int32_t parent_32[] = {3, 4, -1, 4, -1}, nv_32[] = {1, 1, 0, 1, 2}, f_size_32[] = {2, 5, 0, 3, 2};
static const int64_t parent_64[] = {3, 4, -1, 4, -1}, nv_64[] = {1, 1, 0, 1, 2}, f_size_64[] = {2, 5, 0, 3, 2};

static int32_t postorder_32(struct answer *to)
{
    return rimopaku_postorder_i32(ROWS, parent_32, ROWS, nv_32, ROWS, f_size_32, ROWS, to->narrow, ROWS);
}

static int32_t postorder_64(struct answer *to)
{
    return rimopaku_postorder_i64(ROWS, parent_64, ROWS, nv_64, ROWS, f_size_64, ROWS, to->wide, ROWS);
}

/* The lists of the same matrix, in a workspace that is laid anew for each call. */
static int32_t lists_64(struct answer *to)
{
    int64_t pe[] = {0, 1, 4, 7, 8}, iw[15] = {1, 0, 2, 4, 1, 3, 4, 2, 1, 2};
    size_t len[] = {1, 3, 3, 1, 2};
    return rimopaku_amd_2_i64(ROWS, pe, ROWS, iw, 15, len, ROWS, 10, &(struct rimopaku_parameters){10000, true}, to->wide, ROWS,
                              to->wide + ROWS, ROWS, to->wide + 2 * ROWS, ROWS, to->wide + 3 * ROWS, ROWS, &to->statistics);
}

/* The same in 32 bits, where `pe` too must stay as it is if a request is refused. */
static int32_t lists_32(struct answer *to)
{
    static const int32_t begins[] = {0, 1, 4, 7, 8}, iw[] = {1, 0, 2, 4, 1, 3, 4, 2, 1, 2};
    static const uint32_t len[] = {1, 3, 3, 1, 2};
    int32_t pe[ROWS], status;
    memcpy(pe, begins, sizeof pe);
    status = rimopaku_amd_2_i32(ROWS, pe, ROWS, iw, 10, len, ROWS, &(struct rimopaku_parameters){10000, true}, to->narrow, ROWS,
                                to->narrow + ROWS, ROWS, to->narrow + 2 * ROWS, ROWS, to->narrow + 3 * ROWS, ROWS, &to->statistics);
    if (status != RIMOPAKU_OK && memcmp(pe, begins, sizeof pe) != 0)
        printf("amd_2, 32 bits: pe was written where a request was refused\n");
    return status;
}

/* Fills everything that a call may write. */
static void untouch(struct answer *answer)
{
    size_t k;
    memset(answer, 0, sizeof *answer);
    for (k = 0; k < sizeof answer->narrow / sizeof *answer->narrow; k++)
        answer->narrow[k] = answer->wide[k] = UNTOUCHED;
    answer->statistics.lnz = answer->needs.lnz = answer->sizes.rows = 77;
}

/* Refuses each request of a call in turn, and tells what went wrong, or how the last call ended. */
static void refuse_each(const char *name, int32_t (*call)(struct answer *to))
{
    struct answer before, after;
    int32_t status;

    untouch(&before);
    for (refused = 1;; refused++) {
        untouch(&after);
        asked = 0;
        status = call(&after);
        if (blocks != 0)
            printf("%s: blocks are left\n", name);
        if (asked < refused)
            break;
        if (status != RIMOPAKU_OUT_OF_MEMORY)
            printf("%s: status %d where a request was refused\n", name, (int)status);
        if (memcmp(&before, &after, sizeof before) != 0)
            printf("%s: something was written where a request was refused\n", name);
    }
    printf("%s: %s, at last status %d\n", name, refused > 1 ? "each request refused" : "no request met", (int)status);
    refused = 0;
}

int main(void)
{
    refuse_each("order, 32 bits", order_32);
    refuse_each("order, 64 bits", order_64);
    refuse_each("order with a row held, 32 bits", order_holding_32);
    refuse_each("order with a row held, 64 bits", order_holding_64);
    refuse_each("columns, 32 bits", columns_32);
    refuse_each("columns, 64 bits", columns_64);
    refuse_each("counts, 32 bits", counts_32);
    refuse_each("counts, 64 bits", counts_64);
    refuse_each("sizes of supernodes, 32 bits", supernode_sizes_32);
    refuse_each("sizes of supernodes, 64 bits", supernode_sizes_64);
    refuse_each("supernodes, 32 bits", supernodes_32);
    refuse_each("supernodes, 64 bits", supernodes_64);
    refuse_each("supernodes and sizes, 32 bits", both_32);
    refuse_each("supernodes and sizes, 64 bits", both_64);
    refuse_each("aat, 32 bits", aat_32);
    refuse_each("aat, 64 bits", aat_64);
    refuse_each("preprocess, 32 bits", preprocess_32);
    refuse_each("preprocess, 64 bits", preprocess_64);
    refuse_each("postorder, 32 bits", postorder_32);
    refuse_each("postorder, 64 bits", postorder_64);
    refuse_each("amd_2, 32 bits", lists_32);
    refuse_each("amd_2, 64 bits", lists_64);
    return 0;
}

/* The calls of rimopaku_bare.h on matrices that were worked by hand, on a grid and on a path, all in one static array: an ordering, rows
 * held last, the counts and the columns of the factor, and each fault. No C library is needed: start.c stands in its place. The exit status
 * is 0, or the number of the line that found another result, cut to 255. */
#include "rimopaku_bare.h"

#define SIDE 40
#define ROWS (SIDE * SIDE)
#define ENTRIES (2 * ROWS)
#define MOST_FACTOR 40000
#define CHECK(holds) \
    do { \
        if (!(holds)) \
            return __LINE__; \
    } while (0)

#define BIGGER(a, b) ((a) > (b) ? (a) : (b))
#define BYTES \
    BIGGER(RIMOPAKU_ORDER_BYTES_I32(ROWS, ENTRIES), \
           BIGGER(RIMOPAKU_COUNTS_BYTES_I32(ROWS, ENTRIES), RIMOPAKU_COLUMNS_BYTES_I32(ROWS, ENTRIES)))

/* Nothing may write the first and the last 16 bytes. */
static _Alignas(16) unsigned char memory[16 + BYTES + 16];
static const struct rimopaku_parameters defaults = {10000, true};

/* The arrays of the grid. */
static int32_t grid_p[ROWS + 1], grid_i[ENTRIES], order[ROWS], place[ROWS], ptr[ROWS + 1], rows[MOST_FACTOR], parent[ROWS], up[ROWS],
    sizes[ROWS];

/* So many bytes that are lent, the whole array without its ends at most. */
static struct rimopaku_block lend(size_t bytes)
{
    return rimopaku_block_in(memory + 16, bytes);
}

static int ends_are_kept(void)
{
    for (int k = 0; k < 16; k++)
        if (memory[k] != 0 || memory[16 + BYTES + k] != 0)
            return 0;
    return 1;
}

static int equal(const int32_t *one, const int32_t *other, int count)
{
    for (int k = 0; k < count; k++)
        if (one[k] != other[k])
            return 0;
    return 1;
}

/* The matrix of five rows of the README. Its edges are 0-1, 1-2, 1-4, 2-3 and 2-4. Rows 0 and 3 have one edge each. Then 2 is joined with
 * 1 and 4, which are joined already, and no edge is new. So the factor in the order 0, 3, 2, 4, 1 has a column for each of the edges. */
static const int32_t five_p[] = {0, 2, 6, 10, 12, 14};
static const int32_t five_i[] = {0, 1, 0, 1, 2, 4, 1, 2, 3, 4, 2, 3, 1, 4};
static const int32_t five_order[] = {0, 3, 2, 4, 1};

static int five_rows(void)
{
    static const int32_t places[] = {0, 4, 2, 1, 3};
    struct rimopaku_statistics told;
    int32_t p[5], p_inv[5];

    CHECK(rimopaku_order_within_i32(lend(rimopaku_order_bytes_i32(5, 14)), 5, five_p, 6, five_i, 14, &defaults, p, 5, p_inv, 5,
                                    &told) == 0);
    CHECK(equal(p, five_order, 5) && equal(p_inv, places, 5));
    CHECK(told.n == 5 && told.nz == 14 && !told.symmetry && told.nz_diag == 5 && told.nz_a_plus_at == 10 && told.lnz == 5);
    return 0;
}

static int five_columns(void)
{
    static const int32_t begins[] = {0, 1, 2, 4, 5, 5}, entries[] = {4, 2, 3, 4, 4};
    static const int32_t parents[] = {4, 2, 3, 4, -1}, lengths[] = {1, 1, 2, 1, 0};
    struct rimopaku_needs needs;

    CHECK(rimopaku_counts_within_i32(lend(rimopaku_counts_bytes_i32(5, 14)), 5, five_p, 6, five_i, 14, five_order, 5, sizes, 5, parent, 5,
                                     &needs) == 0);
    CHECK(equal(sizes, lengths, 5) && equal(parent, parents, 5));
    CHECK(needs.lnz == 5 && needs.n_mult_subs_ldl == 6 && needs.n_mult_subs_lu == 7 && needs.d_max == 3);
    CHECK(rimopaku_columns_within_i32(lend(rimopaku_columns_bytes_i32(5, 14)), 5, five_p, 6, five_i, 14, five_order, 5, ptr, 6, rows, 5, up,
                                      5) == 0);
    CHECK(equal(ptr, begins, 6) && equal(rows, entries, 5) && equal(up, parents, 5));
    return 0;
}

/* Four rows without an edge, of which row 1 is held last. */
static int held(void)
{
    static const int32_t a_p[] = {0, 1, 2, 3, 4}, a_i[] = {0, 1, 2, 3}, last[] = {0, 2, 3, 1};
    static const bool hold[] = {false, true, false, false};
    struct rimopaku_statistics told;
    int32_t p[4], p_inv[4];

    CHECK(rimopaku_order_holding_within_i32(lend(rimopaku_order_bytes_i32(4, 4)), 4, a_p, 5, a_i, 4, &defaults, hold, 4, p, 4, p_inv, 4,
                                            &told) == 0);
    CHECK(equal(p, last, 4) && told.n_dense == 1 && told.lnz == 0);
    return 0;
}

/* No rows, which need no byte. */
static int nothing(void)
{
    const int32_t none[] = {0};
    struct rimopaku_statistics told;
    struct rimopaku_needs needs;
    int32_t some[1] = {-7};

    CHECK(rimopaku_order_within_i32(lend(0), 0, none, 1, none, 0, &defaults, some, 0, some, 0, &told) == 0 && told.n == 0);
    CHECK(rimopaku_counts_within_i32(lend(0), 0, none, 1, none, 0, none, 0, some, 0, some, 0, &needs) == 0 && needs.d_max == 0);
    CHECK(some[0] == -7);
    CHECK(rimopaku_columns_within_i32(lend(0), 0, none, 1, none, 0, none, 0, some, 1, rows, 0, parent, 0) == 0 && some[0] == 0);
    return 0;
}

static int faults(void)
{
    static const int32_t wrong[] = {0, 1, 2, 3, 3}, unwritten[] = {-7, -7, -7, -7, -7};
    struct rimopaku_block all = lend(BYTES);
    struct rimopaku_statistics told;
    struct rimopaku_needs needs;
    int32_t p[6] = {-7, -7, -7, -7, -7, -7}, q[6] = {-7, -7, -7, -7, -7, -7};

    CHECK(rimopaku_order_within_i32(all, 6, five_p, 6, five_i, 14, &defaults, p, 6, q, 6, &told) == RIMOPAKU_INVALID);
    CHECK(rimopaku_order_within_i32(all, 5, five_p, 6, five_i, 13, &defaults, p, 5, q, 5, &told) == RIMOPAKU_INVALID);
    CHECK(rimopaku_order_within_i32(all, 5, five_p, 6, five_i, 14, &defaults, p, 5, q, 4, &told) == RIMOPAKU_INVALID);
    CHECK(rimopaku_order_within_i32(lend(0), 5, five_p, 6, five_i, 14, &defaults, p, 5, q, 5, &told) == RIMOPAKU_OUT_OF_MEMORY);
    /* four bytes for each of three words of an entry and twelve of a row, as of 16 entries and 8 rows, and four */
    CHECK(rimopaku_workspace_bytes_i32(5, 14) == 592);
    CHECK(rimopaku_order_within_i32(lend(591), 5, five_p, 6, five_i, 14, &defaults, p, 5, q, 5, &told) == RIMOPAKU_OUT_OF_MEMORY);
    /* eight for each of two numbers of an entry, twelve of a row, and seven, and sixteen for a link of each row */
    CHECK(rimopaku_counts_bytes_i32(5, 14) == 848);
    CHECK(rimopaku_counts_within_i32(lend(847), 5, five_p, 6, five_i, 14, five_order, 5, p, 5, q, 5, &needs) == RIMOPAKU_OUT_OF_MEMORY);
    /* eight for each number of an entry, five of a row, and two, in whole units, and sixteen for two links of each row */
    CHECK(rimopaku_columns_bytes_i32(5, 14) == 496);
    CHECK(rimopaku_columns_within_i32(lend(495), 5, five_p, 6, five_i, 14, five_order, 5, p, 6, rows, 5, q, 5) ==
          RIMOPAKU_OUT_OF_MEMORY);
    CHECK(rimopaku_counts_within_i32(all, 5, five_p, 6, five_i, 14, wrong, 5, p, 5, q, 5, &needs) == RIMOPAKU_NOT_PERMUTATION);
    CHECK(rimopaku_columns_within_i32(all, 5, five_p, 6, five_i, 14, five_order, 5, p, 6, rows, 4, q, 5) == RIMOPAKU_ROOM_TOO_SMALL);
    CHECK(equal(p, unwritten, 5) && equal(q, unwritten, 5) && p[5] == -7);
    return 0;
}

/* A grid: each row is joined with the one to its right and with the one below. */
static void make_grid(void)
{
    int32_t entries = 0;
    for (int32_t row = 0; row < ROWS; row++) {
        if (row % SIDE + 1 < SIDE)
            grid_i[entries++] = row + 1;
        if (row + SIDE < ROWS)
            grid_i[entries++] = row + SIDE;
        grid_p[row + 1] = entries;
    }
}

/* Each row has a place, and each place a row. */
static int grid_order(struct rimopaku_statistics *told)
{
    int32_t entries = grid_p[ROWS];
    CHECK(entries == 2 * SIDE * (SIDE - 1));
    CHECK(rimopaku_order_within_i32(lend(rimopaku_order_bytes_i32(ROWS, entries)), ROWS, grid_p, ROWS + 1, grid_i, (size_t)entries,
                                    &defaults, order, ROWS, place, ROWS, told) == 0);
    CHECK(told->nz_a_plus_at == 2 * (size_t)entries);
    for (int32_t k = 0; k < ROWS; k++)
        CHECK(order[k] >= 0 && order[k] < ROWS && place[order[k]] == k);
    return 0;
}

/* The columns are as long as the counts tell, and each parent is the first entry of its column. */
static int grid(void)
{
    struct rimopaku_statistics told;
    struct rimopaku_needs needs;
    int32_t entries;
    int line;

    make_grid();
    entries = grid_p[ROWS];
    line = grid_order(&told);
    if (line != 0)
        return line;
    CHECK(rimopaku_counts_within_i32(lend(rimopaku_counts_bytes_i32(ROWS, entries)), ROWS, grid_p, ROWS + 1, grid_i, (size_t)entries, order,
                                     ROWS, sizes, ROWS, parent, ROWS, &needs) == 0);
    CHECK(needs.lnz <= told.lnz && needs.lnz <= MOST_FACTOR && needs.d_max <= told.d_max);
    CHECK(rimopaku_columns_within_i32(lend(rimopaku_columns_bytes_i32(ROWS, entries)), ROWS, grid_p, ROWS + 1, grid_i, (size_t)entries,
                                      order, ROWS, ptr, ROWS + 1, rows, needs.lnz, up, ROWS) == 0);
    CHECK(equal(parent, up, ROWS) && (size_t)ptr[ROWS] == needs.lnz);
    for (int32_t k = 0; k < ROWS; k++)
        CHECK(ptr[k + 1] - ptr[k] == sizes[k] && parent[k] == (sizes[k] > 0 ? rows[ptr[k]] : -1));
    return 0;
}

static void make_path(void)
{
    for (int32_t row = 0; row < ROWS; row++) {
        grid_i[row] = row + 1;
        grid_p[row] = order[row] = row;
    }
    grid_p[ROWS] = ROWS - 1;
}

/* A path, whose rows are eliminated one after another: each column has the next place alone, and the tree is as deep as it can be. */
static int path(void)
{
    struct rimopaku_needs needs;

    make_path();
    CHECK(rimopaku_counts_within_i32(lend(rimopaku_counts_bytes_i32(ROWS, ROWS - 1)), ROWS, grid_p, ROWS + 1, grid_i, ROWS - 1, order, ROWS,
                                     sizes, ROWS, parent, ROWS, &needs) == 0);
    CHECK(needs.lnz == ROWS - 1 && needs.d_max == 2);
    CHECK(rimopaku_columns_within_i32(lend(rimopaku_columns_bytes_i32(ROWS, ROWS - 1)), ROWS, grid_p, ROWS + 1, grid_i, ROWS - 1, order,
                                      ROWS, ptr, ROWS + 1, rows, ROWS - 1, up, ROWS) == 0);
    for (int32_t k = 0; k < ROWS - 1; k++)
        CHECK(sizes[k] == 1 && ptr[k] == k && rows[k] == k + 1 && parent[k] == k + 1 && up[k] == k + 1);
    CHECK(sizes[ROWS - 1] == 0 && parent[ROWS - 1] == -1 && up[ROWS - 1] == -1);
    return 0;
}

int main(void)
{
    int (*const tests[])(void) = {five_rows, five_columns, held, nothing, faults, grid, path, five_rows};
    for (size_t k = 0; k < sizeof tests / sizeof *tests; k++) {
        int line = tests[k]();
        if (line != 0)
            return line < 255 ? line : 255;
        if (!ends_are_kept())
            return 1;
    }
    return 0;
}

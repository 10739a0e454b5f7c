/* The columns of the factors of two matrices under given orders, and their counts, once with int32_t and once with int64_t; and a room that
 * is too small. The same for the supernodes of one of them, by one call. */
#include <stdio.h>

#include "rimopaku.h"

static void print(const char *name, const int64_t *numbers, size_t len)
{
    size_t k;
    printf("%s", name);
    for (k = 0; k < len; k++)
        printf(" %lld", (long long)numbers[k]);
    printf("\n");
}

static void print_needs(struct rimopaku_needs needs)
{
    printf("NEEDS %zu %zu %zu %zu\n", needs.lnz, needs.n_mult_subs_ldl, needs.n_mult_subs_lu, needs.d_max);
}

static void six_rows(void)
{
    const int32_t a_p[] = {0, 1, 3, 6, 9, 14, 20}, p[] = {1, 4, 3, 5, 0, 2};
    const int32_t a_i[] = {0, 0, 1, 0, 1, 2, 0, 1, 2, 0, 1, 2, 3, 4, 0, 1, 2, 3, 4, 5};
    int32_t ptr[7], rows[15], parent[6], sizes[6];
    int64_t wide[15];
    struct rimopaku_needs needs;
    int k;

    printf("status %d\n", (int)rimopaku_columns_i32(6, a_p, 7, a_i, 20, p, 6, ptr, 7, rows, 15, parent, 6));
    for (k = 0; k < 7; k++)
        wide[k] = ptr[k];
    print("PTR", wide, 7);
    for (k = 0; k < 15; k++)
        wide[k] = rows[k];
    print("ROWS", wide, 15);
    for (k = 0; k < 6; k++)
        wide[k] = parent[k];
    print("PARENT", wide, 6);
    printf("counts, status %d\n", (int)rimopaku_counts_i32(6, a_p, 7, a_i, 20, p, 6, sizes, 6, parent, 6, &needs));
    for (k = 0; k < 6; k++)
        wide[k] = sizes[k];
    print("SIZES", wide, 6);
    for (k = 0; k < 6; k++)
        wide[k] = parent[k];
    print("PARENT", wide, 6);
    print_needs(needs);
}

static void nine_rows(size_t room)
{
    const int64_t a_p[] = {0, 1, 4, 7, 10, 12, 15, 17, 20, 22}, p[] = {6, 1, 0, 7, 2, 4, 5, 8, 3};
    const int64_t a_i[] = {1, 0, 1, 2, 1, 2, 3, 2, 3, 4, 3, 5, 4, 5, 6, 5, 7, 6, 7, 8, 7, 8};
    int64_t ptr[10] = {-9, -9, -9, -9, -9, -9, -9, -9, -9, -9}, rows[14] = {-9}, parent[9] = {-9}, sizes[9], up[9];
    struct rimopaku_needs needs;
    int32_t status;

    rows[13] = -7;
    status = rimopaku_columns_i64(9, a_p, 10, a_i, 22, p, 9, ptr, 10, rows, room, parent, 9);
    printf("room %zu, status %d\n", room, (int)status);
    print("PTR", ptr, 10);
    if (status == 0)
        print("ROWS", rows, 14);
    else
        printf("the last row %lld\n", (long long)rows[13]);
    print("PARENT", parent, 9);
    printf("counts, status %d\n", (int)rimopaku_counts_i64(9, a_p, 10, a_i, 22, p, 9, sizes, 9, up, 9, &needs));
    print("SIZES", sizes, 9);
    print("PARENT", up, 9);
    print_needs(needs);
}

static void nine_rows_by_supernodes(size_t places, size_t room)
{
    const int64_t a_p[] = {0, 1, 4, 7, 10, 12, 15, 17, 20, 22}, p[] = {6, 1, 0, 7, 2, 4, 5, 8, 3};
    const int64_t a_i[] = {1, 0, 1, 2, 1, 2, 3, 2, 3, 4, 3, 5, 4, 5, 6, 5, 7, 6, 7, 8, 7, 8};
    int64_t first[10] = {-9}, ptr[10] = {-9}, rows[10] = {-9}, parent[10] = {-9};
    struct rimopaku_supernode_sizes sizes = {77, 77};
    int32_t status = rimopaku_supernodes_and_sizes_i64(9, a_p, 10, a_i, 22, p, 9, first, places + 1, ptr, places + 1, rows, room, parent,
                                                       places, &sizes);

    printf("places %zu, room %zu, status %d, supernodes %zu, rows %zu\n", places, room, (int)status, sizes.supernodes, sizes.rows);
    print("FIRST", first, 10);
    print("PTR", ptr, 10);
    print("ROWS", rows, 10);
    print("PARENT", parent, 10);
}

int main(void)
{
    six_rows();
    nine_rows(14);
    nine_rows(12);
    nine_rows_by_supernodes(9, 10);
    nine_rows_by_supernodes(6, 8);
    nine_rows_by_supernodes(6, 7);
    nine_rows_by_supernodes(5, 8);
    return 0;
}

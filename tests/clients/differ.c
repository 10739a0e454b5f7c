/* Two libraries with the symbols of SuiteSparse's AMD get the same calls, on drawn matrices, and what differs is counted.
 * Usage: differ ONE.so OTHER.so SEED COUNT [32|64]. ONE is the one that is trusted. This file is compiled once for each width: WIDTH is 32
 * or 64. The status is 1 where a count that must be 0 is not. */
#define _GNU_SOURCE
#include <dlfcn.h>
#include <stdint.h>
#include <stdio.h>
#include <stdlib.h>
#include <string.h>

#if WIDTH == 32
typedef int INT;
#define NAME(name) "amd_" name
#define SHORT_NAME(name) "amd_" name
#else
typedef long INT;
#define NAME(name) "amd_l_" name
#define SHORT_NAME(name) "amd_l" name
#endif

enum { ROWS = 400, ENTRIES = 8000, INFO = 20, UNTOUCHED = -77 };

/* A library, by its symbols. A status is read as an int, as SuiteSparse 7 returns it in both widths. */
struct library {
    int (*order)(INT, const INT *, const INT *, INT *, double *, double *);
    void (*two)(INT, INT *, INT *, INT *, INT, INT, INT *, INT *, INT *, INT *, INT *, INT *, INT *, double *, double *);
    void (*one)(INT, const INT *, const INT *, INT *, INT *, INT *, INT, INT *, double *, double *);
    size_t (*aat)(INT, const INT *, const INT *, INT *, INT *, double *);
    void (*preprocess)(INT, const INT *, const INT *, INT *, INT *, INT *, INT *);
    void (*postorder)(INT, INT *, INT *, INT *, INT *, INT *, INT *, INT *);
    INT (*post_tree)(INT, INT, INT *, const INT *, INT *, INT *);
    int (*valid)(INT, INT, const INT *, const INT *);
    void (*defaults)(double *);
};

static struct library libraries[2];

static void *symbol(void *handle, const char *name)
{
    void *found = dlsym(handle, name);
    if (found == NULL) {
        fprintf(stderr, "no symbol %s\n", name);
        exit(2);
    }
    return found;
}

static void open_library(struct library *library, const char *path)
{
    void *handle = dlopen(path, RTLD_NOW | RTLD_LOCAL);
    if (handle == NULL) {
        fprintf(stderr, "%s\n", dlerror());
        exit(2);
    }
    *(void **)&library->order = symbol(handle, NAME("order"));
    *(void **)&library->two = symbol(handle, SHORT_NAME("2"));
    *(void **)&library->one = symbol(handle, SHORT_NAME("1"));
    *(void **)&library->aat = symbol(handle, NAME("aat"));
    *(void **)&library->preprocess = symbol(handle, NAME("preprocess"));
    *(void **)&library->postorder = symbol(handle, NAME("postorder"));
    *(void **)&library->post_tree = symbol(handle, NAME("post_tree"));
    *(void **)&library->valid = symbol(handle, NAME("valid"));
    *(void **)&library->defaults = symbol(handle, NAME("defaults"));
}

static uint64_t state;

static uint32_t draw(uint32_t bound)
{
    state = state * 6364136223846793005u + 1442695040888963407u;
    return bound ? (uint32_t)((state >> 33) % bound) : 0;
}

/* What is counted. */
static long order_differs, order_info_differs, valid_differs, aat_differs, preprocess_differs, two_differs, two_tree_differs,
    two_info_differs, one_differs, postorder_differs, tree_differs, defaults_differ, compactions_differ;

/* The matrix that is drawn: sorted columns, and as a square of marks. */
static INT n, pointers[ROWS + 1], rows[ENTRIES];
static char entry[ROWS * ROWS];

static int different(const INT *one, const INT *other, INT size)
{
    return memcmp(one, other, (size_t)size * sizeof(INT)) != 0;
}

/* Whether two records differ, the compactions and the memory aside. */
static int info_differs(const double *one, const double *other)
{
    for (int q = 0; q < 14; q++)
        if (q != 7 && q != 8 && one[q] != other[q])
            return 1;
    compactions_differ += one[8] != other[8];
    return 0;
}

static void draw_matrix(int round)
{
    INT nz = 0, density = 1 + (INT)draw(6);
    int symmetric = (int)draw(2);

    n = 1 + (INT)draw(round % 10 == 0 ? ROWS - 1 : 60);
    memset(entry, 0, (size_t)(n * n));
    for (long k = 0; k < (long)n * density; k++) {
        INT i = (INT)draw((uint32_t)n), j = (INT)draw((uint32_t)n);
        entry[j * n + i] = 1;
        if (symmetric)
            entry[i * n + j] = 1;
    }
    if (draw(5) == 0) {
        INT j = (INT)draw((uint32_t)n);
        for (INT i = 0; i < n; i++)
            if (draw(4))
                entry[j * n + i] = 1;
    }
    for (INT j = 0; j < n; j++) {
        pointers[j] = nz;
        for (INT i = 0; i < n; i++)
            if (entry[j * n + i]) {
                if (nz < ENTRIES)
                    rows[nz++] = i;
                else
                    entry[j * n + i] = 0;
            }
    }
    pointers[n] = nz;
}

/* A dense row parameter: some are whole numbers of thousandths, and some are not. */
static double draw_dense(void)
{
    static const double fixed[] = {10, 0, -1, 3.5, 1};
    return draw(2) ? fixed[draw(5)] : (double)draw(1u << 30) / (1u << 27);
}

static void try_order(const INT *a_p, const INT *a_i, double *control)
{
    static INT p[2][ROWS];
    double info[2][INFO];
    INT status[2];

    for (int k = 0; k < 2; k++) {
        for (int q = 0; q < INFO; q++)
            info[k][q] = UNTOUCHED;
        status[k] = libraries[k].order(n, a_p, a_i, p[k], control, info[k]);
    }
    order_differs += status[0] != status[1] || (status[0] >= 0 && different(p[0], p[1], n));
    order_info_differs += info_differs(info[0], info[1]);
    valid_differs += libraries[0].valid(n, n, a_p, a_i) != libraries[1].valid(n, n, a_p, a_i);
}

static void try_aat_and_one(double *control)
{
    static INT degrees[2][ROWS], work[ROWS], p[2][ROWS], p_inv[2][ROWS], room[20 * ENTRIES];
    double info[2][INFO];
    size_t sum[2];

    for (int k = 0; k < 2; k++)
        sum[k] = libraries[k].aat(n, pointers, rows, degrees[k], work, info[k]);
    aat_differs += sum[0] != sum[1] || different(degrees[0], degrees[1], n) || info_differs(info[0], info[1]);
    for (int k = 0; k < 2; k++) {
        INT length = (INT)(sum[0] + sum[0] / 5) + 8 * n;
        libraries[k].one(n, pointers, rows, p[k], p_inv[k], degrees[0], length, room, control, info[k]);
        if (k == 0)
            libraries[0].aat(n, pointers, rows, degrees[0], work, NULL);
    }
    one_differs += different(p[0], p[1], n) || different(p_inv[0], p_inv[1], n) || info_differs(info[0], info[1]);
}

/* A copy with duplicates and shuffled columns, through preprocess and order; at times it is broken. */
static void try_jumbled(double *control)
{
    static INT a_i[2 * ENTRIES], a_p[ROWS + 1], r_p[2][ROWS + 1], r_i[2][2 * ENTRIES], work[2][ROWS];
    INT nz = 0;

    for (INT j = 0; j < n; j++) {
        INT first = nz;
        a_p[j] = nz;
        for (INT q = pointers[j]; q < pointers[j + 1]; q++) {
            a_i[nz++] = rows[q];
            if (draw(4) == 0)
                a_i[nz++] = rows[q];
        }
        for (INT x = nz - 1; x > first; x--) {
            INT y = first + (INT)draw((uint32_t)(x - first + 1)), held = a_i[x];
            a_i[x] = a_i[y];
            a_i[y] = held;
        }
    }
    a_p[n] = nz;
    for (int k = 0; k < 2; k++)
        libraries[k].preprocess(n, a_p, a_i, r_p[k], r_i[k], work[0], work[1]);
    preprocess_differs += different(r_p[0], r_p[1], n + 1) || different(r_i[0], r_i[1], r_p[0][n]);
    try_order(a_p, a_i, control);
    if (draw(4) == 0 && nz > 0) {
        a_i[draw((uint32_t)nz)] = draw(2) ? n : -1;
        try_order(a_p, a_i, control);
    }
}

/* The lists of A + A', sorted or shuffled, packed or with gaps, with places to spare or none, through amd_2. */
static void try_lists(double *control, int shuffled, int gaps)
{
    static INT begins[2][ROWS], lists[2][8 * ENTRIES], lengths[2][ROWS], p[2][ROWS], p_inv[2][ROWS], nv[2][ROWS], e_len[2][ROWS],
        work[3][ROWS];
    double info[2][INFO];
    INT next = 0, places;

    for (INT j = 0; j < n; j++) {
        for (INT gap = gaps ? (INT)draw(3) : 0; gap > 0; gap--)
            lists[0][next++] = 0;
        begins[0][j] = next;
        for (INT i = 0; i < n; i++)
            if (i != j && (entry[j * n + i] || entry[i * n + j]))
                lists[0][next++] = i;
        lengths[0][j] = next - begins[0][j];
        for (INT x = next - 1; shuffled && x > begins[0][j]; x--) {
            INT y = begins[0][j] + (INT)draw((uint32_t)(x - begins[0][j] + 1)), held = lists[0][x];
            lists[0][x] = lists[0][y];
            lists[0][y] = held;
        }
    }
    places = next + (draw(2) ? next / 5 : 0) + n;
    memcpy(begins[1], begins[0], sizeof begins[0]);
    memcpy(lists[1], lists[0], sizeof lists[0]);
    memcpy(lengths[1], lengths[0], sizeof lengths[0]);
    for (int k = 0; k < 2; k++) {
        for (int q = 0; q < INFO; q++)
            info[k][q] = UNTOUCHED;
        libraries[k].two(n, begins[k], lists[k], lengths[k], places, next, nv[k], p_inv[k], p[k], work[0], e_len[k], work[1], work[2],
                         control, info[k]);
    }
    two_differs += different(p[0], p[1], n) || different(p_inv[0], p_inv[1], n);
    two_tree_differs += different(begins[0], begins[1], n) || different(nv[0], nv[1], n) || different(e_len[0], e_len[1], n);
    two_info_differs += info_differs(info[0], info[1]);
}

/* A drawn forest through postorder, and one of its trees through post_tree. */
static void try_forest(void)
{
    static INT parent[ROWS], nv[ROWS], f_size[ROWS], order[2][ROWS], work[3][ROWS], child[2][ROWS], sibling[ROWS], stack[ROWS];
    INT last[2];

    for (INT j = 0; j < n; j++) {
        parent[j] = j == n - 1 || draw(8) == 0 ? -1 : j + 1 + (INT)draw((uint32_t)(n - j - 1));
        nv[j] = draw(6) != 0;
        f_size[j] = 1 + (INT)draw(9);
    }
    for (INT j = 0; j < n; j++)
        if (parent[j] >= 0 && !nv[parent[j]])
            parent[j] = -1;
    for (int k = 0; k < 2; k++)
        libraries[k].postorder(n, parent, nv, f_size, order[k], work[0], work[1], work[2]);
    postorder_differs += different(order[0], order[1], n);

    for (INT j = 0; j < n; j++)
        child[0][j] = sibling[j] = order[0][j] = order[1][j] = -1;
    for (INT j = 0; j + 1 < n; j++) {
        INT above = j + 1 + (INT)draw((uint32_t)(n - j - 1));
        sibling[j] = child[0][above];
        child[0][above] = j;
    }
    memcpy(child[1], child[0], sizeof child[0]);
    for (int k = 0; k < 2; k++)
        last[k] = libraries[k].post_tree(n - 1, 3, child[k], sibling, order[k], stack);
    tree_differs += last[0] != last[1] || different(order[0], order[1], n);
}

int main(int count, char **arguments)
{
    long rounds;
    double control[2][5];

    if (count < 5)
        return 2;
    for (int k = 0; k < 2; k++) {
        open_library(&libraries[k], arguments[1 + k]);
        libraries[k].defaults(control[k]);
    }
    defaults_differ = memcmp(control[0], control[1], sizeof control[0]) != 0;
    state = strtoull(arguments[3], NULL, 10);
    rounds = strtol(arguments[4], NULL, 10);
    for (long t = 0; t < rounds; t++) {
        double chosen[5] = {0, 0, 0, 0, 0};
        draw_matrix((int)(t % 10));
        chosen[0] = draw_dense();
        chosen[1] = draw(2);
        try_order(pointers, rows, draw(8) ? chosen : NULL);
        try_aat_and_one(chosen);
        try_jumbled(chosen);
        try_lists(chosen, 0, 0);
        try_lists(chosen, 0, 1);
        try_lists(chosen, 1, 0);
        try_lists(chosen, 1, 1);
        try_forest();
    }
    printf("%ld matrices in %d bits; what differs: order %ld, its info %ld, valid %ld, defaults %ld, aat %ld, preprocess %ld, amd_1 %ld, "
           "amd_2 %ld, its tree %ld, its info %ld, postorder %ld, post_tree %ld; compactions %ld\n",
           rounds, WIDTH, order_differs, order_info_differs, valid_differs, defaults_differ, aat_differs, preprocess_differs, one_differs,
           two_differs, two_tree_differs, two_info_differs, postorder_differs, tree_differs, compactions_differ);
    return order_differs + order_info_differs + valid_differs + defaults_differ + aat_differs + preprocess_differs + one_differs +
               two_differs + two_tree_differs + two_info_differs + postorder_differs + tree_differs != 0;
}

/* Two libraries with the routines AMD and AMDBAR of SuiteSparse's Fortran get the same calls, on drawn matrices, and
 * what differs is counted. Usage: fortran ONE.so OTHER.so SEED COUNT. ONE is the one that is trusted. Both must leave
 * the same tree, with the same fronts. Each permutation must list it: the rows that went with an element directly
 * before it, and an element before its parent. Trees are listed in more than one order, so the permutations may differ.
 * Then so may the entries of the factors, which are counted by elimination. The status is 1 where a count that must be
 * 0 is not. */
#define _GNU_SOURCE
#include <dlfcn.h>
#include <stdint.h>
#include <stdio.h>
#include <stdlib.h>
#include <string.h>

enum { ROWS = 200, WORDS = ROWS * ROWS + ROWS };

typedef void routine(const int *, int *, int *, int *, const int *, int *, int *, int *, int *, int *, int *, int *,
                     int *, int *, const int *);

static const char *const names[] = {"amd_", "amdbar_"};
static routine *routines[2][2];
static long parent_differs, front_differs, no_permutation, no_listing, order_differs, compactions_differ, fill_differs,
    most_more, most_less;

static uint64_t state;

static uint32_t draw(uint32_t bound)
{
    state = state * 6364136223846793005u + 1442695040888963407u;
    return (uint32_t)((state >> 33) % bound);
}

static int n;
static char edge[ROWS][ROWS];

static void link_rows(int i, int j)
{
    if (i != j)
        edge[i][j] = edge[j][i] = 1;
}

/* Links a row with each other one, or with most of them. */
static void link_most(int j, int all)
{
    for (int i = 0; i < n; i++)
        if (all || draw(8))
            link_rows(i, j);
}

/* Links row 1 with the neighbours of row 0. */
static void link_alike(void)
{
    for (int i = 2; i < n; i++)
        if (edge[0][i])
            link_rows(i, 1);
}

/* A pattern of few or many edges, at times with two rows that are alike, or with a row that has an edge to each other
 * row. */
static void draw_pattern(int round)
{
    int density = 1 + (int)draw(6);

    n = 1 + (int)draw(round % 10 == 0 ? ROWS - 1 : 60);
    memset(edge, 0, sizeof edge);
    for (int k = 0; k < n * density; k++)
        link_rows((int)draw((uint32_t)n), (int)draw((uint32_t)n));
    if (draw(3) == 0)
        link_most((int)draw((uint32_t)n), (int)draw(2));
    if (n > 3 && draw(3) == 0)
        link_alike();
}

/* What a routine reads, and what it leaves. */
struct call {
    int iwlen, pfree, ncmpa, iw[WORDS], pe[ROWS], len[ROWS], nv[ROWS], next[ROWS], last[ROWS], head[ROWS], elen[ROWS];
    int degree[ROWS], w[ROWS];
};

static struct call calls[2];

/* The lists of row i, from pfree on; at times in a drawn order. */
static void lay_row(struct call *call, int i, int shuffled)
{
    call->len[i] = 0;
    call->pe[i] = call->pfree;
    for (int j = 0; j < n; j++)
        if (edge[i][j]) {
            int place = shuffled ? (int)draw((uint32_t)call->len[i] + 1) : call->len[i];
            int *list = call->iw + call->pe[i] - 1;
            list[call->len[i]++] = list[place];
            list[place] = j + 1;
        }
    call->pfree += call->len[i];
    if (call->len[i] == 0)
        call->pe[i] = 0;
}

static void lay(struct call *call)
{
    int shuffled = (int)draw(2);

    memset(call, 0, sizeof *call);
    call->pfree = 1;
    call->ncmpa = -1;
    for (int i = 0; i < n; i++)
        lay_row(call, i, shuffled);
    call->iwlen = call->pfree - 1 + n + (draw(2) ? call->pfree / 5 : 0);
}

static void run(routine *routine, struct call *call)
{
    int largest = INT32_MAX;
    routine(&n, call->pe, call->iw, call->len, &call->iwlen, &call->pfree, call->nv, call->next, call->last, call->head,
            call->elen, call->degree, &call->ncmpa, call->w, &largest);
}

static int different(const int *one, const int *other)
{
    return memcmp(one, other, (size_t)n * sizeof(int)) != 0;
}

static int is_permutation(const struct call *call)
{
    for (int k = 0; k < n; k++)
        if (call->last[k] < 1 || call->last[k] > n || call->elen[call->last[k] - 1] != k + 1)
            return 0;
    return 1;
}

/* Whether the rows that went with an element stand directly before it, and each element before its parent. */
static int lists_tree(const struct call *call)
{
    for (int k = 0; k < n; k++) {
        int row = call->last[k], above = -call->pe[row - 1];
        if (above != 0 && call->elen[above - 1] <= k + 1)
            return 0;
        if (call->nv[row - 1] == 0 && call->last[k + 1] != above && -call->pe[call->last[k + 1] - 1] != above)
            return 0;
    }
    return 1;
}

/* Links each two later rows that have an edge to a row, and returns how many have. */
static long eliminate(char graph[ROWS][ROWS], const int *place, int row)
{
    int later[ROWS], count = 0;
    for (int i = 0; i < n; i++)
        if (graph[row][i] && place[i] > place[row])
            later[count++] = i;
    for (int a = 0; a < count; a++)
        for (int b = 0; b < count; b++)
            graph[later[a]][later[b]] = 1;
    return count;
}

/* The entries of the factor below the diagonal, in the order of a permutation. */
static long fill(const struct call *call)
{
    static char graph[ROWS][ROWS];
    long sum = 0;
    memcpy(graph, edge, sizeof graph);
    for (int k = 0; k < n; k++)
        sum += eliminate(graph, call->elen, call->last[k] - 1);
    return sum;
}

static void compare_fill(void)
{
    long more = fill(&calls[1]) - fill(&calls[0]);
    fill_differs += more != 0;
    most_more = more > most_more ? more : most_more;
    most_less = -more > most_less ? -more : most_less;
}

static void compare(void)
{
    parent_differs += different(calls[0].pe, calls[1].pe);
    front_differs += different(calls[0].nv, calls[1].nv);
    order_differs += different(calls[0].last, calls[1].last);
    compactions_differ += calls[0].ncmpa != calls[1].ncmpa;
    if (!is_permutation(&calls[1])) {
        no_permutation++;
        return;
    }
    no_listing += !lists_tree(&calls[0]) || !lists_tree(&calls[1]);
    compare_fill();
}

static void open_library(int which, const char *path)
{
    void *handle = dlopen(path, RTLD_NOW | RTLD_LOCAL);
    for (int k = 0; k < 2; k++) {
        void *found = handle == NULL ? NULL : dlsym(handle, names[k]);
        if (found == NULL) {
            fprintf(stderr, "%s\n", dlerror());
            exit(2);
        }
        memcpy(&routines[which][k], &found, sizeof found);
    }
}

int main(int count, char **arguments)
{
    long rounds;

    if (count != 5)
        return 2;
    open_library(0, arguments[1]);
    open_library(1, arguments[2]);
    state = strtoull(arguments[3], NULL, 10);
    rounds = strtol(arguments[4], NULL, 10);
    for (long t = 0; t < 2 * rounds; t++) {
        if (t % 2 == 0)
            draw_pattern((int)(t / 2 % 10));
        lay(&calls[0]);
        calls[1] = calls[0];
        for (int k = 0; k < 2; k++)
            run(routines[k][t % 2], &calls[k]);
        compare();
    }
    printf("%ld matrices through amd_ and amdbar_; what differs: parents %ld, fronts %ld; no permutation %ld, no "
           "listing of the tree %ld; listed otherwise %ld, entries of the factor %ld (at most %ld more, %ld less); "
           "compactions %ld\n",
           rounds, parent_differs, front_differs, no_permutation, no_listing, order_differs, fill_differs, most_more,
           most_less, compactions_differ);
    return parent_differs + front_differs + no_permutation + no_listing != 0;
}

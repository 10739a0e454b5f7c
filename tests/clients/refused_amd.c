/* Each request for memory of each call of SuiteSparse's AMD is refused in turn, until a call meets no refusal. amd_order must return
 * AMD_OUT_OF_MEMORY; the calls without a status must leave a permutation, or what amd.c says; and no block may be left. Linked with
 * -Wl,--wrap=malloc,--wrap=realloc,--wrap=free. */
#include <stdio.h>
#include <string.h>

#define RIMOPAKU_AMD_SYMBOLS
#include "amd.h"

enum { ROWS = 30, WORDS = 400 };

size_t amd_aat(int n, const int Ap[], const int Ai[], int Len[], int Tp[], double Info[]);
void amd_1(int n, const int Ap[], const int Ai[], int P[], int Pinv[], int Len[], int slen, int S[], double Control[], double Info[]);
void amd_preprocess(int n, const int Ap[], const int Ai[], int Rp[], int Ri[], int W[], int Flag[]);
void amd_postorder(int nn, int Parent[], int Npiv[], int Fsize[], int Order[], int Child[], int Sibling[], int Stack[]);

void amd_(const int *N, int PE[], int IW[], int LEN[], const int *IWLEN, int *PFREE, int NV[], int NEXT[], int LAST[], int HEAD[],
          int ELEN[], int DEGREE[], int *NCMPA, int W[], const int *IOVFLO);

void *__real_malloc(size_t size);
void *__real_realloc(void *block, size_t size);
void __real_free(void *block);

static size_t asked, refused, blocks;

void *__wrap_malloc(size_t size)
{
    void *block = ++asked == refused ? NULL : __real_malloc(size);
    if (block)
        blocks++;
    return block;
}

void *__wrap_realloc(void *old, size_t size)
{
    void *block = ++asked == refused ? NULL : __real_realloc(old, size);
    if (block && !old)
        blocks++;
    return block;
}

void __wrap_free(void *block)
{
    if (block)
        blocks--;
    __real_free(block);
}

static int begins[ROWS + 1], lists[WORDS], lengths[ROWS], work[7][ROWS], p[ROWS], p_inv[ROWS], words[4 * WORDS];
static double info[AMD_INFO];

/* The lists of a band of a matrix, with `gap` places between two of them. */
static int lay(int gap)
{
    int next = 0;
    memset(lists, 0, sizeof lists);
    for (int j = 0; j < ROWS; j++) {
        begins[j] = next;
        for (int i = 0; i < ROWS; i++)
            if (i - j == 1 || j - i == 1 || i - j == 5 || j - i == 5)
                lists[next++] = i;
        lengths[j] = next - begins[j];
        next += gap;
    }
    begins[ROWS] = next;
    return next;
}

/* Whether p is a permutation, and p_inv its inverse. */
static int permutes(void)
{
    int seen[ROWS] = {0};
    for (int k = 0; k < ROWS; k++)
        if (p[k] < 0 || p[k] >= ROWS || seen[p[k]]++ || p_inv[p[k]] != k)
            return 0;
    return 1;
}

/* Each of these makes one call, and says whether it left what it must, with and without a refusal. */
static int lists_packed(int met)
{
    int next = lay(0);
    amd_2(ROWS, begins, lists, lengths, WORDS, next, work[0], p_inv, p, work[1], work[2], work[3], work[4], NULL, info);
    return permutes() && (info[AMD_STATUS] == AMD_OUT_OF_MEMORY) == met;
}

static int lists_apart(int met)
{
    int next = lay(2);
    amd_2(ROWS, begins, lists, lengths, WORDS, next, work[0], p_inv, p, work[1], work[2], work[3], work[4], NULL, info);
    return permutes() && (info[AMD_STATUS] == AMD_OUT_OF_MEMORY) == met;
}

/* The same by the Fortran routine, from 1 on. It has no status, so a refusal leaves a permutation as well. */
static int lists_of_fortran(int met)
{
    int n = ROWS, words = WORDS, end = lay(0) + 1, compactions = -1, largest = INT32_MAX;
    (void)met;
    for (int k = 0; k < end - 1; k++)
        lists[k]++;
    for (int j = 0; j < n; j++)
        begins[j]++;
    amd_(&n, begins, lists, lengths, &words, &end, work[0], work[1], p, work[2], p_inv, work[3], &compactions, work[4], &largest);
    for (int j = 0; j < n; j++) {
        p[j]--;
        p_inv[j]--;
    }
    return permutes() && compactions >= 0;
}

static int columns(int met)
{
    lay(0);
    amd_1(ROWS, begins, lists, p, p_inv, lengths, 4 * WORDS, words, NULL, info);
    return permutes() && (info[AMD_STATUS] == AMD_OUT_OF_MEMORY) == met;
}

static int order(int met)
{
    int status;
    lay(0);
    status = amd_order(ROWS, begins, lists, p, NULL, info);
    return status == (met ? AMD_OUT_OF_MEMORY : AMD_OK) && info[AMD_STATUS] == status;
}

static int degrees(int met)
{
    size_t sum;
    lay(0);
    sum = amd_aat(ROWS, begins, lists, lengths, work[0], info);
    return sum == (met ? 0 : (size_t)begins[ROWS]) && (info[AMD_STATUS] == AMD_OUT_OF_MEMORY) == met;
}

static int row_form(int met)
{
    int r_p[ROWS + 1], r_i[WORDS];
    lay(0);
    amd_preprocess(ROWS, begins, lists, r_p, r_i, work[0], work[1]);
    return r_p[ROWS] == (met ? 0 : begins[ROWS]);
}

static int postorder(int met)
{
    int parent[ROWS], nv[ROWS], f_size[ROWS], place[ROWS], seen[ROWS] = {0}, found = 1;
    (void)met;
    for (int e = 0; e < ROWS; e++) {
        parent[e] = e + 1 < ROWS ? e + 1 : -1;
        nv[e] = f_size[e] = 1;
    }
    amd_postorder(ROWS, parent, nv, f_size, place, work[0], work[1], work[2]);
    for (int e = 0; e < ROWS; e++)
        found &= place[e] >= 0 && place[e] < ROWS && !seen[place[e]]++;
    return found;
}

static void refuse_each(const char *name, int (*call)(int met))
{
    for (refused = 1;; refused++) {
        int good, met;
        info[AMD_STATUS] = asked = 0;
        good = call(0);
        met = asked >= refused;
        if (met) {
            info[AMD_STATUS] = asked = 0;
            good = call(1);
        }
        if (!good || blocks != 0)
            printf("%s: wrong at request %d\n", name, (int)refused);
        if (!met)
            break;
    }
    printf("%s: %d requests refused\n", name, (int)refused - 1);
    refused = 0;
}

int main(void)
{
    refuse_each("amd_order", order);
    refuse_each("amd_2, lists one after another", lists_packed);
    refuse_each("amd_2, lists apart", lists_apart);
    refuse_each("amd_, the Fortran routine", lists_of_fortran);
    refuse_each("amd_1", columns);
    refuse_each("amd_aat", degrees);
    refuse_each("amd_preprocess", row_form);
    refuse_each("amd_postorder", postorder);
    return 0;
}

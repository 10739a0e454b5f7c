/* amd_fortran.h: the part of amd.c that Fortran calls, the routines AMD and AMDBAR, which SuiteSparse 7 has in its
 * library beside the calls for C. They are amd_2 with rows and places that count from 1 and arguments by address.
 * Neither has dense rows, and AMDBAR absorbs no element aggressively.
 *
 * N rows come as lists: list I has the rows IW (PE (I)) to IW (PE (I) + LEN (I) - 1) without I itself, each pair of
 * rows stands in both lists, and the last list ends before IW (PFREE). Afterwards LAST has the permutation, ELEN its
 * inverse, and PE and NV the assembly tree: for an element I, NV (I) is the number of the rows of its front, and
 * -PE (I) its parent, or 0; for any other row, NV (I) is 0 and -PE (I) the element with which it went. Parents and
 * fronts are those of SuiteSparse's routines, and LAST may list the tree in another order. NCMPA is the number of
 * compactions of this library's workspace. N, IWLEN, PFREE, NEXT, HEAD, W and IOVFLO stay as they are, and what IW, LEN
 * and DEGREE then hold is not said. There is no status: where amd_2 leaves the identity, these do too. */

/* The arguments of both routines. */
#define FORTRAN_ARGUMENTS \
    const int32_t *N, int32_t PE[], int32_t IW[], int32_t LEN[], const int32_t *IWLEN, int32_t *PFREE, int32_t NV[], \
        int32_t NEXT[], int32_t LAST[], int32_t HEAD[], int32_t ELEN[], int32_t DEGREE[], int32_t *NCMPA, int32_t W[], \
        const int32_t *IOVFLO

void amd_(FORTRAN_ARGUMENTS);
void amdbar_(FORTRAN_ARGUMENTS);

/* A dense row parameter with which no row is dense: times a square root of rows it is more than there are rows. */
#define NO_ROW_IS_DENSE 1e300

/* Turns numbers that count from 1 into numbers that count from 0. One that is below 1 becomes EMPTY. */
static void count_from_0(int32_t numbers[], int32_t size)
{
    for (int32_t i = 0; i < size; i++)
        numbers[i] = numbers[i] > 0 ? numbers[i] - 1 : EMPTY;
}

/* Turns what amd_2 leaves into what Fortran expects: a permutation and its inverse, parents, and fronts. EMPTY becomes
 * 0. */
static void tell_fortran(int32_t n, int32_t LAST[], int32_t ELEN[], int32_t PE[], int32_t NV[])
{
    for (int32_t i = 0; i < n; i++) {
        LAST[i]++;
        ELEN[i]++;
        PE[i] = -(PE[i] + 1);
        NV[i] = NV[i] == EMPTY ? 0 : NV[i];
    }
}

/* Orders the rows of lists. Of what amd_2 leaves, its Next is in ELEN, its Elen in NV, and its Nv in DEGREE. */
static void order_lists(int32_t n, int32_t PE[], int32_t IW[], int32_t LEN[], int32_t iwlen, int32_t pfree,
                        int32_t NV[], int32_t LAST[], int32_t ELEN[], int32_t DEGREE[], int32_t *NCMPA, bool aggressive)
{
    double Control[AMD_CONTROL] = {NO_ROW_IS_DENSE, aggressive}, Info[AMD_INFO] = {0};

    *NCMPA = 0;
    if (n <= 0)
        return;
    count_from_0(PE, n);
    count_from_0(IW, pfree - 1);
    amd_2(n, PE, IW, LEN, iwlen, pfree - 1, DEGREE, ELEN, LAST, NULL, NV, NULL, NULL, Control, Info);
    tell_fortran(n, LAST, ELEN, PE, NV);
    *NCMPA = (int32_t)Info[AMD_NCMPA];
}

void amd_(FORTRAN_ARGUMENTS)
{
    (void)NEXT, (void)HEAD, (void)W, (void)IOVFLO;
    order_lists(*N, PE, IW, LEN, *IWLEN, *PFREE, NV, LAST, ELEN, DEGREE, NCMPA, true);
}

void amdbar_(FORTRAN_ARGUMENTS)
{
    (void)NEXT, (void)HEAD, (void)W, (void)IOVFLO;
    order_lists(*N, PE, IW, LEN, *IWLEN, *PFREE, NV, LAST, ELEN, DEGREE, NCMPA, false);
}

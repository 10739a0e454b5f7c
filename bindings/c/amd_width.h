/* amd_width.h: the part of amd.c that is the same in both widths of integer, read once for each. INT is the integer, CALL(order) the proved
 * call, NAME(aat) is amd_aat or amd_l_aat, and SHORT_NAME(2) is amd_2 or amd_l2. It has no guard, since it is read twice. */

void SHORT_NAME(1)(INT n, const INT Ap[], const INT Ai[], INT P[], INT Pinv[], INT Len[], INT slen, INT S[], double Control[],
                   double Info[]);
size_t NAME(aat)(INT n, const INT Ap[], const INT Ai[], INT Len[], INT Tp[], double Info[]);
void NAME(preprocess)(INT n, const INT Ap[], const INT Ai[], INT Rp[], INT Ri[], INT W[], INT Flag[]);
void NAME(postorder)(INT nn, INT Parent[], INT Npiv[], INT Fsize[], INT Order[], INT Child[], INT Sibling[], INT Stack[]);
INT NAME(post_tree)(INT root, INT k, INT Child[], const INT Sibling[], INT Order[], INT Stack[]);

/* An array of `count` integers, or NULL. */
static INT *NAME(array)(size_t count)
{
    if (count > SIZE_MAX / sizeof(INT))
        return NULL;
    return (INT *)malloc((count > 0 ? count : 1) * sizeof(INT));
}

/* The identity, with a status. */
static void NAME(refuse)(INT n, INT Last[], INT Next[], double Info[], int32_t status)
{
    for (INT i = 0; i < n; i++)
        Last[i] = Next[i] = i;
    if (Info != NULL)
        Info[AMD_STATUS] = status;
}

/* Orders a matrix into P and Pinv, and writes what amd_2 writes into Info. After an error P and Pinv hold the identity: this is a
 * permutation, and the calls that use it have no other way to tell. */
static void NAME(order_columns)(INT n, const INT Ap[], const INT Ai[], INT P[], INT Pinv[], const double Control[], double Info[])
{
    struct rimopaku_parameters parameters = rimopaku_amd_parameters(Control, n);
    struct rimopaku_statistics told;
    size_t size = (size_t)n, entries = Ap[n] > 0 ? (size_t)Ap[n] : 0;
    int32_t status = CALL(order)(n, Ap, size + 1, Ai, entries, &parameters, P, size, Pinv, size, &told);

    if (status >= 0) {
        tell_elimination(Info, &told);
        return;
    }
    NAME(refuse)(n, P, Pinv, Info, status);
}

/* Where each list begins if all stand one after another, from 0 on, and how long they are in all. Returns whether they are lists: none has
 * a negative length or place, and their length is one that this width can count. */
static bool NAME(count)(INT n, const INT Pe[], const INT Len[], INT begins[])
{
    const int64_t most = sizeof(INT) == sizeof(int32_t) ? INT32_MAX : (int64_t)1 << 56;
    int64_t next = 0;

    for (INT i = 0; i < n; i++) {
        if (Len[i] < 0 || (Len[i] > 0 && Pe[i] < 0) || Len[i] > most - next)
            return false;
        begins[i] = (INT)next;
        next += Len[i];
    }
    begins[n] = (INT)next;
    return true;
}

/* The lists one after another, and how many places there are: those of Iw where they stand there so, and 64-bit integers have n places to
 * spare; else a copy with the places that SuiteSparse's AMD asks for, which must be freed, or NULL. */
static INT *NAME(lay)(INT n, const INT Pe[], INT Iw[], const INT Len[], INT iwlen, INT pfree, const INT begins[], size_t *places)
{
    bool stand = Iw != NULL && (sizeof(INT) == sizeof(int32_t) || (pfree == begins[n] && iwlen >= n && iwlen - n >= pfree));
    size_t words = (size_t)begins[n];
    INT *copy;

    for (INT i = 0; i < n; i++)
        stand = stand && (Len[i] == 0 || Pe[i] == begins[i]);
    *places = stand ? (size_t)iwlen : words + words / 5 + (size_t)n;
    if (stand)
        return Iw;
    copy = NAME(array)(*places);
    if (copy == NULL)
        return NULL;
    for (INT i = 0; i < n; i++)
        if (Len[i] > 0)
            memcpy(copy + begins[i], Iw + Pe[i], (size_t)Len[i] * sizeof(INT));
    memset(copy + words, 0, (*places - words) * sizeof(INT));
    return copy;
}

/* RIMOPAKU_OK where each list has all neighbours of its row in the pattern of all lists, each once. That is so where no row is in its own
 * list, none is there twice, and each list is as long as its row has neighbours. `degrees` has n places. */
static int32_t NAME(test)(INT n, const INT begins[], const INT lists[], const INT Len[], INT degrees[])
{
    size_t size = (size_t)n, entries = (size_t)begins[n];
    struct rimopaku_statistics told;
    INT *rows = NULL;
    int32_t status = CALL(aat)(n, begins, size + 1, lists, entries, degrees, size, &told);

    if (status == RIMOPAKU_INVALID && CALL(valid)(n, n, begins, size + 1, lists, entries) == RIMOPAKU_OK_BUT_JUMBLED) {
        rows = NAME(array)(size + 1 + entries);
        if (rows == NULL)
            return RIMOPAKU_OUT_OF_MEMORY;
        status = CALL(preprocess)(n, begins, size + 1, lists, entries, rows, size + 1, rows + size + 1, entries);
        if (status == RIMOPAKU_OK && (size_t)rows[n] != entries)
            status = RIMOPAKU_INVALID;
        if (status == RIMOPAKU_OK)
            status = CALL(aat)(n, rows, size + 1, rows + size + 1, entries, degrees, size, &told);
    }
    if (status == RIMOPAKU_OK && (told.nz_diag > 0 || memcmp(degrees, Len, size * sizeof(INT)) != 0))
        status = RIMOPAKU_INVALID;
    free(rows);
    return status;
}

#if WIDTH == 64
/* Eliminates the rows of lists that passed the test, in their own places. `begins` is used up. */
static int32_t NAME(eliminate)(INT n, INT begins[], INT lists[], size_t places, INT Len[], INT Pe[], INT Nv[], INT Next[], INT Last[],
                               INT Elen[], const struct rimopaku_parameters *parameters, struct rimopaku_statistics *told)
{
    size_t size = (size_t)n, words = (size_t)begins[n];
    int32_t status = RIMOPAKU_OUT_OF_MEMORY;

    if (has_memory(size, 104, 0))
        status = rimopaku_amd_2_i64(n, begins, size, lists, places, (size_t *)Len, size, words, parameters, Nv, size, Next, size, Last,
                                    size, Elen, size, told);
    memcpy(Pe, begins, size * sizeof(INT));
    return status;
}
#else
/* Eliminates the rows of lists that passed the test, in copies of 64 bits, which are one block. */
static int32_t NAME(eliminate_wide)(INT n, const INT begins[], const INT lists[], const INT Len[], INT Pe[], INT Nv[], INT Next[],
                                    INT Last[], INT Elen[], const struct rimopaku_parameters *parameters, struct rimopaku_statistics *told)
{
    size_t size = (size_t)n, words = (size_t)begins[n], room = words + words / 5 + size, bytes = (6 * size + room) * sizeof(int64_t);
    int64_t *pe = has_memory(size, 104, bytes) ? (int64_t *)malloc(bytes) : NULL;
    int64_t *len, *nv, *next, *last, *e_len, *iw;
    int32_t status;

    if (pe == NULL)
        return RIMOPAKU_OUT_OF_MEMORY;
    len = pe + size;
    nv = len + size;
    next = nv + size;
    last = next + size;
    e_len = last + size;
    iw = e_len + size;
    for (INT i = 0; i < n; i++) {
        pe[i] = begins[i];
        len[i] = Len[i];
    }
    for (size_t k = 0; k < words; k++)
        iw[k] = lists[k];
    memset(iw + words, 0, (room - words) * sizeof(int64_t));
    status = rimopaku_amd_2_i64(n, pe, size, iw, room, (size_t *)len, size, words, parameters, nv, size, next, size, last, size, e_len,
                                size, told);
    for (INT i = 0; i < n && status == RIMOPAKU_OK; i++) {
        Pe[i] = (INT)pe[i];
        Nv[i] = (INT)nv[i];
        Next[i] = (INT)next[i];
        Last[i] = (INT)last[i];
        Elen[i] = (INT)e_len[i];
    }
    free(pe);
    return status;
}

/* Eliminates the rows of lists that passed the test, in copies of 32 bits, or of 64 where 32 do not count a word for each row beside those
 * of the lists. `begins` is used up. */
static int32_t NAME(eliminate)(INT n, INT begins[], INT lists[], size_t places, INT Len[], INT Pe[], INT Nv[], INT Next[], INT Last[],
                               INT Elen[], const struct rimopaku_parameters *parameters, struct rimopaku_statistics *told)
{
    size_t size = (size_t)n, words = (size_t)begins[n];
    int32_t status = RIMOPAKU_OUT_OF_MEMORY;
    (void)places;

    if (size + 2 > INT32_MAX || words + size > INT32_MAX)
        return NAME(eliminate_wide)(n, begins, lists, Len, Pe, Nv, Next, Last, Elen, parameters, told);
    if (has_memory(size, 48, (words + words / 5 + size) * sizeof(INT)))
        status = rimopaku_amd_2_i32(n, begins, size, lists, words, (const uint32_t *)Len, size, parameters, Nv, size, Next, size, Last,
                                    size, Elen, size, told);
    memcpy(Pe, begins, size * sizeof(INT));
    return status;
}
#endif

/* The forest in which each row is an element by itself. */
static void NAME(part)(INT n, INT Pe[], INT Nv[], INT Elen[])
{
    for (INT i = 0; i < n; i++) {
        Pe[i] = EMPTY;
        Nv[i] = Elen[i] = 1;
    }
}

/* Orders the rows of lists. Lists that are no symmetric pattern without its diagonal are ordered as the columns of a matrix: SuiteSparse's
 * AMD tests nothing. */
void SHORT_NAME(2)(INT n, INT Pe[], INT Iw[], INT Len[], INT iwlen, INT pfree, INT Nv[], INT Next[], INT Last[], INT Head[],
                   INT Elen[], INT Degree[], INT W[], double Control[], double Info[])
{
    struct rimopaku_parameters parameters = rimopaku_amd_parameters(Control, n);
    struct rimopaku_statistics told;
    int32_t status = RIMOPAKU_OUT_OF_MEMORY;
    INT *begins, *lists = NULL;
    size_t places = 0;
    (void)Head, (void)Degree, (void)W;

    if (n <= 0)
        return;
    begins = NAME(array)(2 * (size_t)n + 1);
    if (begins != NULL && !NAME(count)(n, Pe, Len, begins))
        status = RIMOPAKU_INVALID;
    else if (begins != NULL && (lists = NAME(lay)(n, Pe, Iw, Len, iwlen, pfree, begins, &places)) != NULL)
        status = NAME(test)(n, begins, lists, Len, begins + n + 1);
    if (status == RIMOPAKU_OK)
        status = NAME(eliminate)(n, begins, lists, places, Len, Pe, Nv, Next, Last, Elen, &parameters, &told);
    if (status == RIMOPAKU_OK) {
        tell_elimination(Info, &told);
    } else {
        NAME(part)(n, Pe, Nv, Elen);
        if (status == RIMOPAKU_INVALID && lists != NULL)
            NAME(order_columns)(n, begins, lists, Last, Next, Control, Info);
        else
            NAME(refuse)(n, Last, Next, Info, status);
    }
    if (lists != Iw)
        free(lists);
    free(begins);
}

/* Orders a matrix with sorted columns. Len and S are workspace of SuiteSparse's AMD, and stay as they are. */
void SHORT_NAME(1)(INT n, const INT Ap[], const INT Ai[], INT P[], INT Pinv[], INT Len[], INT slen, INT S[], double Control[],
                   double Info[])
{
    (void)Len, (void)slen, (void)S;
    if (n > 0)
        NAME(order_columns)(n, Ap, Ai, P, Pinv, Control, Info);
}

/* Writes the degrees of the rows of a matrix with sorted columns into Len, and returns their sum. Where malloc refuses memory, or the input
 * is none, Len gets zeros, the sum is 0, and Info [AMD_STATUS] tells; SuiteSparse's AMD takes no memory here, and tests nothing. */
size_t NAME(aat)(INT n, const INT Ap[], const INT Ai[], INT Len[], INT Tp[], double Info[])
{
    struct rimopaku_statistics told;
    size_t size = n > 0 ? (size_t)n : 0, entries = n > 0 && Ap[n] > 0 ? (size_t)Ap[n] : 0;
    int32_t status = CALL(aat)(n, Ap, size + 1, Ai, entries, Len, size, &told);
    (void)Tp;

    if (status == RIMOPAKU_OK) {
        tell_pattern(Info, (double)n, &told);
        return told.nz_a_plus_at;
    }
    if (size > 0)
        memset(Len, 0, size * sizeof(INT));
    rimopaku_amd_begin(Info, (double)n);
    rimopaku_amd_end(Info, status);
    return 0;
}

/* Writes the row form of a matrix into Rp and Ri. Where malloc refuses memory, or the input is none, the row form is empty: Rp gets
 * zeros. */
void NAME(preprocess)(INT n, const INT Ap[], const INT Ai[], INT Rp[], INT Ri[], INT W[], INT Flag[])
{
    size_t size = n > 0 ? (size_t)n : 0, entries = n > 0 && Ap[n] > 0 ? (size_t)Ap[n] : 0;
    (void)W, (void)Flag;

    if (CALL(preprocess)(n, Ap, size + 1, Ai, entries, Rp, size + 1, Ri, entries) != RIMOPAKU_OK)
        memset(Rp, 0, (size + 1) * sizeof(INT));
}

/* Writes the number of each element in the postorder of its forest, and EMPTY for what is none. A forest that is none, and one for which
 * malloc refuses memory, gets the numbers of its elements in ascending order. */
void NAME(postorder)(INT nn, INT Parent[], INT Npiv[], INT Fsize[], INT Order[], INT Child[], INT Sibling[], INT Stack[])
{
    size_t size = nn > 0 ? (size_t)nn : 0;
    INT next = 0;
    (void)Child, (void)Sibling, (void)Stack;

    if (CALL(postorder)(nn, Parent, size, Npiv, size, Fsize, size, Order, size) == RIMOPAKU_OK)
        return;
    for (INT e = 0; e < nn; e++)
        Order[e] = Npiv[e] > 0 ? next++ : EMPTY;
}

/* Numbers the nodes of the tree below `root` from k on in postorder, along the links to a first child and a next sibling, and returns the
 * number after the last. Child is used up. */
INT NAME(post_tree)(INT root, INT k, INT Child[], const INT Sibling[], INT Order[], INT Stack[])
{
    INT height = 1;

    Stack[0] = root;
    while (height > 0) {
        INT node = Stack[height - 1], child = Child[node];
        if (child == EMPTY) {
            Order[node] = k++;
            height--;
        } else {
            Child[node] = Sibling[child];
            Stack[height++] = child;
        }
    }
    return k;
}

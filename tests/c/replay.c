/* Answers the cases of standard input by the calls of rimopaku.h, in the format of the program amd_replay, whose stored input and output
 * it is run on: orderings, and the columns of factors. The argument is 32 or 64: the width of the integers. The arrays are as long as
 * they must be and no longer, and after an error they must be as they were. */
#include <stdio.h>
#include <stdlib.h>
#include <string.h>

#include "rimopaku.h"

enum { MOST = 4096 };

struct list {
    size_t len;
    int64_t *numbers;
};

static void fail(const char *what)
{
    fprintf(stderr, "replay: %s\n", what);
    exit(1);
}

static void *room(size_t count, size_t size)
{
    void *block = malloc(count * size + 1);
    if (block == NULL)
        fail("no memory");
    return block;
}

/* Reads the numbers that stand in a line behind its keyword. */
static struct list read_list(char *text)
{
    struct list list = {0, NULL};
    char *end;
    int64_t number;
    list.numbers = (int64_t *)room(strlen(text), sizeof(int64_t));
    for (;;) {
        number = strtoll(text, &end, 10);
        if (end == text)
            return list;
        list.numbers[list.len++] = number;
        text = end;
    }
}

static void write_list(const char *keyword, const int64_t *numbers, size_t len)
{
    size_t k;
    printf("%s", keyword);
    for (k = 0; k < len; k++)
        printf(" %lld", (long long)numbers[k]);
    printf("\n");
}

static int32_t *narrow(const int64_t *numbers, size_t len)
{
    int32_t *out = (int32_t *)room(len, sizeof(int32_t));
    size_t k;
    for (k = 0; k < len; k++) {
        if (numbers[k] < INT32_MIN || numbers[k] > INT32_MAX)
            fail("a number has more than 32 bits");
        out[k] = (int32_t)numbers[k];
    }
    return out;
}

static int32_t order_32(int64_t n, struct list a_p, struct list a_i, const struct rimopaku_parameters *parameters, const bool *hold,
                        size_t hold_len, int64_t *p, int64_t *p_inv, size_t len, struct rimopaku_statistics *told)
{
    int32_t *ap = narrow(a_p.numbers, a_p.len), *ai = narrow(a_i.numbers, a_i.len), *rows = narrow(p, len), *places = narrow(p_inv, len);
    int32_t status;
    size_t k;
    if (hold != NULL)
        status = rimopaku_order_holding_i32((int32_t)n, ap, a_p.len, ai, a_i.len, parameters, hold, hold_len, rows, len, places, len, told);
    else
        status = rimopaku_order_i32((int32_t)n, ap, a_p.len, ai, a_i.len, parameters, rows, len, places, len, told);
    if (hold == NULL && n != 0 && rimopaku_valid_i32((int32_t)n, (int32_t)n, ap, a_p.len, ai, a_i.len) != status)
        fail("another class by rimopaku_valid_i32");
    for (k = 0; k < len; k++) {
        p[k] = rows[k];
        p_inv[k] = places[k];
    }
    free(ap), free(ai), free(rows), free(places);
    return status;
}

static int32_t order_64(int64_t n, struct list a_p, struct list a_i, const struct rimopaku_parameters *parameters, const bool *hold,
                        size_t hold_len, int64_t *p, int64_t *p_inv, size_t len, struct rimopaku_statistics *told)
{
    if (hold != NULL)
        return rimopaku_order_holding_i64(n, a_p.numbers, a_p.len, a_i.numbers, a_i.len, parameters, hold, hold_len, p, len, p_inv, len, told);
    if (n != 0 && rimopaku_valid_i64(n, n, a_p.numbers, a_p.len, a_i.numbers, a_i.len)
                      != rimopaku_order_i64(n, a_p.numbers, a_p.len, a_i.numbers, a_i.len, parameters, p, len, p_inv, len, told))
        fail("another class by rimopaku_valid_i64");
    return rimopaku_order_i64(n, a_p.numbers, a_p.len, a_i.numbers, a_i.len, parameters, p, len, p_inv, len, told);
}

static void answer(int width, int64_t n, struct list a_p, struct list a_i, const struct rimopaku_parameters *parameters, struct list marks)
{
    size_t len = n < 0 ? 0 : (size_t)n, k;
    int64_t *p = (int64_t *)room(len, sizeof(int64_t)), *p_inv = (int64_t *)room(len, sizeof(int64_t));
    bool *hold = marks.numbers == NULL ? NULL : (bool *)room(marks.len, sizeof(bool));
    struct rimopaku_statistics told;
    int32_t status;
    memset(&told, 0, sizeof told);
    told.n = 77;
    for (k = 0; k < len; k++)
        p[k] = p_inv[k] = -9;
    for (k = 0; k < marks.len; k++)
        hold[k] = marks.numbers[k] != 0;
    status = (width == 32 ? order_32 : order_64)(n, a_p, a_i, parameters, hold, marks.len, p, p_inv, len, &told);
    if (status < 0) {
        for (k = 0; k < len; k++)
            if (p[k] != -9 || p_inv[k] != -9)
                fail("an array was written beside an error");
        if (told.n != 77)
            fail("the statistics were written beside an error");
        printf("STATUS %s\n", status == RIMOPAKU_INVALID ? "Invalid" : "OutOfMemory");
    } else {
        printf("STATUS %s\n", status == RIMOPAKU_OK ? "OK" : "OkButJumbled");
        write_list("P", p, len);
        write_list("PINV", p_inv, len);
        printf("INFO %zu %zu %d %zu %zu %zu %zu %zu %zu %zu %zu\n", told.n, told.nz, told.symmetry, told.nz_diag, told.nz_a_plus_at,
               told.n_dense, told.lnz, told.n_div, told.n_mult_subs_ldl, told.n_mult_subs_lu, told.d_max);
    }
    free(p), free(p_inv), free(hold);
}

/* What an array of a factor holds before the call. */
enum { UNTOUCHED = -9 };

/* The arrays of the columns of a factor. */
struct factor {
    struct list ptr, rows, parent;
};

static struct list untouched(size_t len)
{
    struct list list = {len, (int64_t *)room(len, sizeof(int64_t))};
    size_t k;
    for (k = 0; k < len; k++)
        list.numbers[k] = UNTOUCHED;
    return list;
}

static bool is_untouched(struct list list, size_t from)
{
    size_t k;
    for (k = from; k < list.len; k++)
        if (list.numbers[k] != UNTOUCHED)
            return false;
    return true;
}

static void widen(struct list list, int32_t *numbers)
{
    size_t k;
    for (k = 0; k < list.len; k++)
        list.numbers[k] = numbers[k];
    free(numbers);
}

static int32_t columns_32(int64_t n, struct list a_p, struct list a_i, struct list p, struct factor factor)
{
    int32_t *ap = narrow(a_p.numbers, a_p.len), *ai = narrow(a_i.numbers, a_i.len), *order = narrow(p.numbers, p.len);
    int32_t *ptr = narrow(factor.ptr.numbers, factor.ptr.len), *rows = narrow(factor.rows.numbers, factor.rows.len);
    int32_t *parent = narrow(factor.parent.numbers, factor.parent.len);
    int32_t status = rimopaku_columns_i32((int32_t)n, ap, a_p.len, ai, a_i.len, order, p.len, ptr, factor.ptr.len, rows, factor.rows.len,
                                          parent, factor.parent.len);
    widen(factor.ptr, ptr), widen(factor.rows, rows), widen(factor.parent, parent);
    free(ap), free(ai), free(order);
    return status;
}

static int32_t columns_64(int64_t n, struct list a_p, struct list a_i, struct list p, struct factor factor)
{
    return rimopaku_columns_i64(n, a_p.numbers, a_p.len, a_i.numbers, a_i.len, p.numbers, p.len, factor.ptr.numbers, factor.ptr.len,
                                factor.rows.numbers, factor.rows.len, factor.parent.numbers, factor.parent.len);
}

static const char *fault_of(int32_t status)
{
    switch (status) {
    case RIMOPAKU_OK:
        return "Ok";
    case RIMOPAKU_INVALID:
        return "NotColumnForm";
    case RIMOPAKU_NOT_PERMUTATION:
        return "NotPermutation";
    case RIMOPAKU_ROOM_TOO_SMALL:
        return "RoomTooSmall";
    default:
        return "OutOfMemory";
    }
}

/* Answers a case that asks for the columns of the factor under the order p, where they have no more than `most` entries. */
static void answer_columns(int width, int64_t n, struct list a_p, struct list a_i, struct list p, size_t most)
{
    size_t len = n < 0 ? 0 : (size_t)n, entries = 0;
    struct factor factor = {untouched(len + 1), untouched(most), untouched(len)};
    int32_t status = (width == 32 ? columns_32 : columns_64)(n, a_p, a_i, p, factor);
    printf("FAULT %s\n", fault_of(status));
    if (status == RIMOPAKU_OK)
        entries = (size_t)factor.ptr.numbers[len];
    else if (!is_untouched(factor.ptr, 0) || !is_untouched(factor.parent, 0))
        fail("an array was written beside an error");
    if (status != RIMOPAKU_ROOM_TOO_SMALL && (entries > most || !is_untouched(factor.rows, entries)))
        fail("an array was written behind the entries");
    write_list("PTR", factor.ptr.numbers, status == RIMOPAKU_OK ? len + 1 : 0);
    write_list("ROWS", factor.rows.numbers, entries);
    write_list("PARENT", factor.parent.numbers, status == RIMOPAKU_OK ? len : 0);
    free(factor.ptr.numbers), free(factor.rows.numbers), free(factor.parent.numbers);
}

int main(int argc, char **argv)
{
    static char line[MOST * 16];
    struct list a_p = {0, NULL}, a_i = {0, NULL}, hold = {0, NULL}, p = {0, NULL};
    struct rimopaku_parameters parameters;
    long long n = 0, most = 0, number;
    int width = argc == 2 ? atoi(argv[1]) : 0;

    if (width != 32 && width != 64)
        fail("the argument is 32 or 64");
    while (fgets(line, sizeof line, stdin) != NULL) {
        if (sscanf(line, "CASE %lld", &number) == 1) {
            printf("CASE %lld\n", number);
            rimopaku_defaults(&parameters);
        } else if (sscanf(line, "N %lld", &number) == 1) {
            n = number;
        } else if (sscanf(line, "T %lld", &number) == 1) {
            parameters.dense = (int32_t)number;
        } else if (sscanf(line, "AGG %lld", &number) == 1) {
            parameters.aggressive = number != 0;
        } else if (strncmp(line, "AP", 2) == 0) {
            a_p = read_list(line + 2);
        } else if (strncmp(line, "AI", 2) == 0) {
            a_i = read_list(line + 2);
        } else if (strncmp(line, "HOLD", 4) == 0) {
            hold = read_list(line + 4);
        } else if (strncmp(line, "PERM", 4) == 0) {
            p = read_list(line + 4);
        } else if (sscanf(line, "ROOM %lld", &number) == 1 && number >= 0) {
            most = number;
        } else if (strncmp(line, "END", 3) == 0) {
            if (p.numbers != NULL)
                answer_columns(width, n, a_p, a_i, p, (size_t)most);
            else
                answer(width, n, a_p, a_i, &parameters, hold);
            printf("END\n");
            free(a_p.numbers), free(a_i.numbers), free(hold.numbers), free(p.numbers);
            a_p.numbers = a_i.numbers = hold.numbers = p.numbers = NULL;
            hold.len = 0;
        } else {
            fail("a line that is at fault");
        }
    }
    return 0;
}

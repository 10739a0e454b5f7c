/* The dense row parameter: for each n up to RIMOPAKU_AMD_EXACT_ROWS and drawn parameters, the thousandths must give the number of entries
 * that SuiteSparse's AMD computes with doubles. Linked with -lm, whose square root is compared too. */
#include <math.h>
#include <stdio.h>

#include "amd.h"

static uint64_t state = 7;

static double draw(void)
{
    state = state * 6364136223846793005u + 1442695040888963407u;
    return (double)(state >> 11) / 9007199254740992.0;
}

/* The number of entries above which a row is dense, as amd_2 of SuiteSparse has it. */
static int64_t by_doubles(double dense, int64_t n)
{
    double rows = dense < 0 ? (double)(n - 2) : dense * sqrt((double)n);
    int64_t threshold = rows >= (double)n ? n : (int64_t)rows;
    threshold = threshold > 16 ? threshold : 16;
    return threshold < n ? threshold : n;
}

/* The same for thousandths, as this library has it: in integers. */
static int64_t by_thousandths(int32_t dense, int64_t n)
{
    int64_t rows = n - 2;
    if (dense >= 0) {
        uint64_t square = (uint64_t)dense * (uint64_t)dense * (uint64_t)n;
        if (dense > 1000000)
            return n;
        rows = (int64_t)(sqrt((double)square) / 1000);
        while ((uint64_t)rows * 1000 * (uint64_t)rows * 1000 > square)
            rows--;
        while ((uint64_t)(rows + 1) * 1000 * (uint64_t)(rows + 1) * 1000 <= square)
            rows++;
    }
    rows = rows > 16 ? rows : 16;
    return rows < n ? rows : n;
}

int main(void)
{
    static const double fixed[] = {10, 0, 1, 3.5, -1, 0.1, 1e300, 5};
    long tried = 0, wrong = 0;

    for (int64_t n = 1; n <= RIMOPAKU_AMD_EXACT_ROWS; n++) {
        if (rimopaku_amd_root((double)n) != sqrt((double)n))
            wrong++;
        for (int q = 0; q < 12; q++) {
            double dense = q < 8 ? fixed[q] : q < 10 ? 20 * draw() : draw() * sqrt((double)n);
            tried++;
            if (by_doubles(dense, n) != by_thousandths(rimopaku_amd_thousandths(dense, n), n))
                wrong++;
        }
    }
    printf("%ld dense row parameters, %ld wrong\n", tried, wrong);
    return wrong != 0;
}

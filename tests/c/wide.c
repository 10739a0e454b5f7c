/* wide.c: the division of bindings/c/wide.c beside the compiler's own, at the ends of the range and on drawn numbers of each length. */
#include <stdio.h>

typedef unsigned __int128 wide;

wide rimopaku_divide(wide number, wide divisor);

static unsigned long long state = 88172645463325252u;

static unsigned long long drawn(void)
{
    state ^= state << 13;
    state ^= state >> 7;
    state ^= state << 17;
    return state;
}

int main(void)
{
    const wide all = ~(wide)0;
    const wide ends[] = {0, 1, 2, 3, (wide)1 << 63, ((wide)1 << 64) - 1, (wide)1 << 64, ((wide)1 << 64) + 1, (wide)1 << 127, all >> 1, all - 1, all};
    const int count = sizeof ends / sizeof *ends;
    int wrong = 0;

    for (int i = 0; i < count; i++)
        for (int k = 1; k < count; k++)
            wrong += rimopaku_divide(ends[i], ends[k]) != ends[i] / ends[k];
    for (int i = 0; i < 1000000; i++) {
        wide number = ((wide)drawn() << 64 | drawn()) >> drawn() % 128, divisor = ((wide)drawn() << 64 | drawn()) >> drawn() % 128;
        wrong += divisor != 0 && rimopaku_divide(number, divisor) != number / divisor;
    }
    printf("%d quotients are others\n", wrong);
    return 0;
}

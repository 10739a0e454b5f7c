/* wide.c: the quotient of two numbers of 128 bits, which the library's code takes from the compiler's own library. The shared library that
 * the Rattle kit links has this one in its place, since the kit has no such library for aarch64. tools/build compiles it; the name is hidden
 * in what it links. The divisor is never 0. */
typedef unsigned __int128 wide;

wide __udivti3(wide number, wide divisor);

/* Long division, a bit at a time, unless both have 64 bits. */
wide __udivti3(wide number, wide divisor)
{
    wide quotient = 0, rest = 0;

    if ((number | divisor) >> 64 == 0)
        return (unsigned long)number / (unsigned long)divisor;
    for (int bit = 127; bit >= 0; bit--) {
        /* Twice the rest may have 129 bits: then it is more than the divisor, and the difference has 128. */
        int is_long = (int)(rest >> 127);
        rest = rest << 1 | (number >> bit & 1);
        if (is_long || rest >= divisor) {
            rest -= divisor;
            quotient |= (wide)1 << bit;
        }
    }
    return quotient;
}

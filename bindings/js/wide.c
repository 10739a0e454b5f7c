/* The arithmetic of 128 bits that the compiler calls by name where the machine has none. A compiler's own library has these functions, but
 * Debian has none for wasm64. A number of 128 bits is passed as its two halves, the lower one first, and returned through a pointer. */
typedef unsigned long long word;

struct wide {
    word low, high;
};

void __multi3(struct wide *product, word a_low, word a_high, word b_low, word b_high)
{
    const word half = 0xffffffff;
    word a0 = a_low & half, a1 = a_low >> 32, b0 = b_low & half, b1 = b_low >> 32;
    word bottom = a0 * b0;
    word middle = a1 * b0 + (bottom >> 32);
    word other = a0 * b1 + (middle & half);
    product->low = (other << 32) | (bottom & half);
    product->high = a1 * b1 + (middle >> 32) + (other >> 32) + a_high * b_low + a_low * b_high;
}

/* Shifts are by 0 to 127. */
void __ashlti3(struct wide *shifted, word low, word high, int by)
{
    if (by >= 64) {
        shifted->high = low << (by - 64);
        shifted->low = 0;
    } else {
        shifted->high = by == 0 ? high : (high << by) | (low >> (64 - by));
        shifted->low = low << by;
    }
}

void __lshrti3(struct wide *shifted, word low, word high, int by)
{
    if (by >= 64) {
        shifted->low = high >> (by - 64);
        shifted->high = 0;
    } else {
        shifted->low = by == 0 ? low : (low >> by) | (high << (64 - by));
        shifted->high = high >> by;
    }
}

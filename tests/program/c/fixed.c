/* Roots and logarithms of whole numbers. */
#include "entry.h"
static NOINLINE u64 root(u64 x) {
    u64 low = 0;
    for (int bit = 31; bit >= 0; bit--) {
        u64 more = low | 1ul << bit;
        if (more * more <= x)
            low = more;
    }
    return low;
}
static NOINLINE u32 logarithm(u64 x) {
    u32 n = 0;
    while (x >>= 1)
        n++;
    return n;
}
long entry(const u8 *bytes, u64 count) {
    u64 x = 1, sum = 0;
    for (u64 i = 0; i < count; i++) {
        x = x * 257 + bytes[i];
        sum += root(x) * (logarithm(x) + 1) + x % (bytes[i] + 1);
    }
    return sum;
}

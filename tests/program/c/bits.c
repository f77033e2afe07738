/* Bits: how many are set, the highest of them, and words turned round. */
#include "entry.h"
static NOINLINE u32 ones(u32 x) {
    u32 n = 0;
    for (; x; x &= x - 1)
        n++;
    return n;
}
static NOINLINE u32 turned(u32 x) {
    u32 y = 0;
    for (int i = 0; i < 32; i++)
        y = y << 1 | (x >> i & 1);
    return y;
}
long entry(const u8 *bytes, u64 count) {
    u64 sum = 0;
    for (u64 i = 0; i < count; i++)
        sum = sum * 7 + ones(bytes[i]) + (turned(bytes[i] * 0x01010101u) >> 13);
    return sum;
}

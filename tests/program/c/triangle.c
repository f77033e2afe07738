/* Rows of Pascal's triangle, and Fibonacci's numbers. */
#include "entry.h"
static u32 row[24];
static NOINLINE void next_row(u32 n) {
    row[n] = 1;
    for (u32 i = n - 1; i > 0; i--)
        row[i] += row[i - 1];
}
static NOINLINE u64 fibonacci(u32 n) {
    u64 a = 0, b = 1;
    while (n--) {
        u64 c = a + b;
        a = b;
        b = c;
    }
    return a;
}
long entry(const u8 *bytes, u64 count) {
    u64 sum = 0;
    row[0] = 1;
    for (u32 n = 1; n < 24; n++) {
        next_row(n);
        sum = sum * 3 + row[n / 2] * fibonacci(n + (n < count ? bytes[n] & 15 : 0));
    }
    return sum;
}

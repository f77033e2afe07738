/* The place of a value in a sorted table, by halves. */
#include "entry.h"
static const u16 primes[] = { 2, 3, 5, 7, 11, 13, 17, 19, 23, 29, 31, 37, 41, 43, 47, 53, 59, 61, 67, 71, 73, 79, 83, 89, 97, 101, 103, 107, 109, 113, 127 };
static NOINLINE u32 place(u32 value) {
    u32 low = 0, high = sizeof primes / sizeof *primes;
    while (low < high) {
        u32 middle = (low + high) / 2;
        if (primes[middle] < value)
            low = middle + 1;
        else
            high = middle;
    }
    return low;
}
long entry(const u8 *bytes, u64 count) {
    u64 sum = 0;
    for (u64 i = 0; i < count; i++)
        sum = sum * 37 + place(bytes[i]);
    return sum;
}

/* Constants that take more than 32,768 bytes, of which some are far from the first. */
#include "entry.h"
static const u64 large[5000] = { [0] = 1, [1] = 2, [4095] = 3, [4096] = 4, [4097] = 5, [4999] = 0x0102030405060708 };
long entry(const u8 *bytes, u64 count) {
    long sum = 0;
    for (u64 i = 0; i < 5000; i++)
        sum = sum * 3 + large[i] * (i + count);
    return sum;
}

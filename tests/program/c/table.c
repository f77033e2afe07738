/* A table of constants. */
#include "entry.h"
static const u32 squares[8] = { 0, 1, 4, 9, 16, 25, 36, 49 };
long entry(const u8 *bytes, u64 count) {
    long sum = 0;
    for (u64 i = 0; i < count; i++)
        sum += squares[bytes[i] & 7];
    return sum;
}

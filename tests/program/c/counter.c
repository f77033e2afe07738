/* Variables that have a value at the start, and that have none. */
#include "entry.h"
static long total = 1000, last[3];
static u64 calls;
static NOINLINE void add(long n) {
    last[calls++ % 3] = n;
    total += n;
}
long entry(const u8 *bytes, u64 count) {
    for (u64 i = 0; i < count; i++)
        add(bytes[i]);
    return total * 100 + calls + last[0] - last[2];
}

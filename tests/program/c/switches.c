/* A switch with many cases, and values with signs. */
#include "entry.h"
static NOINLINE int weight(int c) {
    switch (c) {
    case 'a': return -1;
    case 'b': return 20;
    case 'c': return -300;
    case ' ': return 4;
    case '0': return 5000;
    case '1': return -60000;
    case '2': return 700000;
    case '9': return -8000000;
    case 'z': return 90000000;
    default: return -c;
    }
}
long entry(const u8 *bytes, u64 count) {
    long sum = 0;
    for (u64 i = 0; i < count; i++)
        sum = sum * 3 + weight(bytes[i]);
    return sum;
}

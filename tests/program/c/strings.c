/* Strings, by way of a table of pointers. */
#include "entry.h"
static const char *const names[] = { "tcp", "udp", "icmp", "unknown protocol" };
static NOINLINE u64 length(const char *text) {
    u64 n = 0;
    while (text[n])
        n++;
    return n;
}
long entry(const u8 *bytes, u64 count) {
    long sum = 0;
    for (u64 i = 0; i < count; i++) {
        const char *name = names[bytes[i] & 3];
        sum = sum * 31 + length(name) + name[bytes[i] % 3];
    }
    return sum;
}

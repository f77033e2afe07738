/* A checksum by a table that the program fills first. */
#include "entry.h"
static u32 table[256];
static int filled;
static NOINLINE void fill(void) {
    for (u32 i = 0; i < 256; i++) {
        u32 n = i;
        for (int k = 0; k < 8; k++)
            n = n & 1 ? 0xedb88320 ^ n >> 1 : n >> 1;
        table[i] = n;
    }
    filled = 1;
}
long entry(const u8 *bytes, u64 count) {
    u32 sum = ~0u;
    if (!filled)
        fill();
    for (u64 i = 0; i < count; i++)
        sum = table[(sum ^ bytes[i]) & 255] ^ sum >> 8;
    return ~sum;
}

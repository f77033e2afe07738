/* Base64, by a table of letters. */
#include "entry.h"
static const char letters[] = "ABCDEFGHIJKLMNOPQRSTUVWXYZabcdefghijklmnopqrstuvwxyz0123456789+/";
static NOINLINE u32 four(u32 three) {
    return letters[three >> 18 & 63] | letters[three >> 12 & 63] << 8 | letters[three >> 6 & 63] << 16 | (u32)letters[three & 63] << 24;
}
long entry(const u8 *bytes, u64 count) {
    u64 sum = 0;
    for (u64 i = 0; i + 3 <= count; i += 3)
        sum = sum * 31 + four(bytes[i] << 16 | bytes[i + 1] << 8 | bytes[i + 2]);
    return sum;
}

/* UTF-8, by a table of lengths: code points, and bytes that belong to none. */
#include "entry.h"
static const u8 lengths[16] = { 1, 1, 1, 1, 1, 1, 1, 1, 0, 0, 0, 0, 2, 2, 3, 4 };
static const u8 masks[5] = { 0, 0x7f, 0x1f, 0x0f, 0x07 };
static u32 wrong;
static NOINLINE u64 point(const u8 *bytes, u64 left, u32 *taken) {
    u32 length = lengths[bytes[0] >> 4];
    if (length == 0 || length > left) {
        wrong++;
        *taken = 1;
        return 0xfffd;
    }
    u32 code = bytes[0] & masks[length];
    for (u32 i = 1; i < length; i++) {
        if ((bytes[i] & 0xc0) != 0x80) {
            wrong++;
            *taken = i;
            return 0xfffd;
        }
        code = code << 6 | (bytes[i] & 0x3f);
    }
    *taken = length;
    return code;
}
long entry(const u8 *bytes, u64 count) {
    static const u8 own[] = "a\xc3\xa9\xe2\x82\xac\xf0\x9f\x90\x9d\x80\xc3";
    u64 sum = 0;
    u32 taken;
    for (u64 i = 0; i < sizeof own - 1; i += taken)
        sum = sum * 33 + point(own + i, sizeof own - 1 - i, &taken);
    for (u64 i = 0; i < count; i += taken)
        sum = sum * 33 + point(bytes + i, count - i, &taken);
    return sum + wrong;
}

/* Variables of each width, with sign and without, beside each other. */
#include "entry.h"
static signed char a = -3;
static u8 b = 200;
static short c = -300;
static u16 d = 60000;
static int e = -70000;
static u32 f = 4000000000u;
static long g = -5000000000;
static u64 h = 0x8070605040302010;
long entry(const u8 *bytes, u64 count) {
    a += count, b += count, c += count, d += count, e += count, f += count, g += count, h += count;
    return a ^ (long)b << 3 ^ (long)c << 5 ^ (long)d << 7 ^ (long)e << 9 ^ (long)f << 11 ^ g << 13 ^ (long)h;
}

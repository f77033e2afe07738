/* A union, fields of bits, and a struct within a struct. */
#include "entry.h"
union word {
    u32 whole;
    u8 bytes[4];
};
struct flags {
    u32 low : 3, middle : 7, high : 22;
};
struct both {
    struct flags flags;
    union word word;
};
static NOINLINE void filled(struct both *both, u32 x) {
    both->flags.low = x;
    both->flags.middle = x >> 2;
    both->flags.high = x * 1000;
    both->word.whole = x * 0x9e3779b1u;
}
long entry(const u8 *bytes, u64 count) {
    struct both both = { { 1, 2, 3 }, { 4 } };
    u64 sum = both.flags.high + both.word.bytes[0];
    for (u64 i = 0; i < count; i++) {
        filled(&both, bytes[i] + i);
        sum = sum * 17 + both.flags.low + both.flags.middle + both.flags.high + both.word.bytes[3];
    }
    return sum;
}

/* A ring of words: it is filled and emptied, and loses the oldest ones. */
#include "entry.h"
struct ring {
    u32 words[8];
    u32 first, count, lost;
};
static struct ring ring;
static NOINLINE void give(struct ring *r, u32 word) {
    if (r->count == 8) {
        r->first = (r->first + 1) % 8;
        r->count--;
        r->lost++;
    }
    r->words[(r->first + r->count++) % 8] = word;
}
static NOINLINE u32 take(struct ring *r) {
    if (!r->count)
        return 0;
    u32 word = r->words[r->first];
    r->first = (r->first + 1) % 8;
    r->count--;
    return word;
}
long entry(const u8 *bytes, u64 count) {
    u64 sum = 0;
    for (u64 i = 0; i < count + 9; i++) {
        give(&ring, i < count ? bytes[i] : i * i);
        if (i % 3 == 2)
            sum = sum * 9 + take(&ring);
    }
    while (ring.count)
        sum = sum * 3 + take(&ring);
    return sum * 100 + ring.lost;
}

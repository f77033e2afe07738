/* Rounds of SipHash, over words that the bytes are gathered into. */
#include "entry.h"
struct state {
    u64 a, b, c, d;
};
static const struct state start = { 0x736f6d6570736575ul, 0x646f72616e646f6dul, 0x6c7967656e657261ul, 0x7465646279746573ul };
#define TURNED(x, n) ((x) << (n) | (x) >> (64 - (n)))
static NOINLINE void round(struct state *s) {
    s->a += s->b, s->b = TURNED(s->b, 13), s->b ^= s->a, s->a = TURNED(s->a, 32);
    s->c += s->d, s->d = TURNED(s->d, 16), s->d ^= s->c;
    s->a += s->d, s->d = TURNED(s->d, 21), s->d ^= s->a;
    s->c += s->b, s->b = TURNED(s->b, 17), s->b ^= s->c, s->c = TURNED(s->c, 32);
}
long entry(const u8 *bytes, u64 count) {
    struct state s = start;
    for (u64 i = 0; i <= count / 8; i++) {
        u64 word = 0;
        for (u64 k = 0; k < 8 && 8 * i + k < count; k++)
            word |= (u64)bytes[8 * i + k] << 8 * k;
        s.d ^= word;
        round(&s), round(&s);
        s.a ^= word;
    }
    s.c ^= 0xff;
    round(&s), round(&s), round(&s), round(&s);
    return s.a ^ s.b ^ s.c ^ s.d;
}

/* A local that is copied from constants. */
#include "entry.h"
struct pair { long a, b; };
static NOINLINE long sum(const struct pair *q, long n) { return q->a * n + q->b; }
long entry(const u8 *bytes, u64 count) {
    struct pair q = { 9, 7 };
    u8 order[8] = { 3, 1, 4, 1, 5, 9, 2, 6 };
    return sum(&q, count) * 10 + order[count & 7];
}

/* What two.c includes: functions of .text, of which one is inlined. */
static inline __attribute__((always_inline)) long twice(long n)
{
    asm volatile("%0 ^= 11" : "+r"(n));
    return n;
}

static __attribute__((noinline)) long added(long n)
{
    n = twice(n);
    asm volatile("%0 ^= 33" : "+r"(n));
    return n;
}

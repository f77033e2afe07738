/* A branch that goes by a variable: why was `drop` not called? */
typedef unsigned long long u64;

static volatile u64 mode = 2;

static __attribute__((noinline)) u64 drop(u64 n)
{
    return n * mode;
}

__attribute__((section("prog"), used)) u64 entry(void *context)
{
    if (mode == 3)
        return drop(5);
    return 7;
}

/* A loop that is one line, of instructions and of calls. */
typedef unsigned char u8;
typedef unsigned long long u64;

static __attribute__((noinline)) u64 twist(u64 value)
{
	return value * 3 + 1;
}

__attribute__((section("filter"))) u64 entry(const u8 *p, u64 size)
{
	u64 sum = size;

	for (u64 i = 0; i < 20000; i++) sum = sum * 3 + (sum ^ p[i & 7]);
	for (u64 i = 0; i < 2000; i++) sum = twist(sum ^ p[i & 7]);
	return sum;
}

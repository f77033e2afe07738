/* Programs in sections of their own: what one of them stores another finds. */
typedef unsigned long long u64;

#define SECTION(name) __attribute__((section("prog/" name), used))

static u64 (*bpf_ktime_get_ns)(void) = (void *)5;

u64 kept;
u64 times = 40;

struct fields {
	int one, two;
} __attribute__((preserve_access_index));

/* (in .text, which each of them may call) */
static __attribute__((noinline)) u64 twice(u64 n)
{
	return 2 * n;
}

SECTION("one") u64 store(u64 *context, u64 size)
{
	kept = twice(context[0]);
	return 7;
}

SECTION("two") u64 take(u64 *context, u64 size)
{
	return kept + 100 * context[0] + 10000 * size;
}

SECTION("two") u64 count(void)
{
	return ++times;
}

/* (one that is known outside is called by its symbol) */
SECTION("two") __attribute__((noinline)) u64 plus(u64 n)
{
	return n + 100;
}

SECTION("two") u64 call(void)
{
	return plus(kept);
}

/* (of this section only the second function is called, and of .text the same one) */
SECTION("three") u64 unused(void)
{
	return bpf_ktime_get_ns();
}

SECTION("three") u64 double_kept(void)
{
	kept = twice(kept);
	return kept;
}

SECTION("timed") u64 begin(void)
{
	kept = bpf_ktime_get_ns();
	return 0;
}

SECTION("timed too") u64 end(void)
{
	return 100 * bpf_ktime_get_ns() + kept;
}

SECTION("field") int field(struct fields *it)
{
	return it->one;
}

SECTION("fields") int fields(struct fields *it)
{
	return it->one + 10 * it->two;
}

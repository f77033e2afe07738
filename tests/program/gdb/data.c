static const unsigned long table[4] = { 2, 3, 5, 7 };
static unsigned long calls = 40;

static __attribute__((noinline)) unsigned long twice(unsigned long n)
{
	calls++;
	return table[n & 3] * 2;
}

__attribute__((section("filter"))) unsigned long entry(const unsigned char *p, unsigned long size)
{
	return twice(size) + calls;
}

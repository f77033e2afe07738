static long total;

__attribute__((section("one"))) long first(const unsigned char *p, unsigned long size)
{
	total += p[0];
	return total;
}

__attribute__((section("two"))) long second(const unsigned char *p, unsigned long size)
{
	total += 2 * p[0];
	return total;
}

/* Functions whose names aren't UTF-8. */
int three_more(int a) asm("f\233");
int entry(void *p, int size) asm("e\233");

__attribute__((noinline)) int three_more(int a)
{
	return a + 3;
}

__attribute__((section("filter"))) int entry(void *p, int size)
{
	return three_more(size) + 1;
}

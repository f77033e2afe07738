/* A program that needs nothing. */
__attribute__((section("prog"))) int entry(unsigned char *context)
{
	return context[0] + context[1];
}

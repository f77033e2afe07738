typedef unsigned int u32;
typedef unsigned long u64;

static volatile u64 seed = 77;

static __attribute__((noinline)) void add(u64 *sum, const u32 *part)
{
	*sum += *part;
}

__attribute__((section("left"))) u64 other(void)
{
	return seed;
}

__attribute__((section("taken"))) u64 first(void)
{
	return 1;
}

__attribute__((section("taken"))) u64 second(const u64 *size)
{
	u64 sum = seed;
	u32 part = 3;
	u32 *place = &part;

	add(&sum, place);
	part = 4;
	add(&sum, &part);
	return sum + *size;
}

/* A unit of debug information with nothing in it, beside that of this file: objects of several files have several. */
asm(".pushsection .debug_info\n .long 8\n .short 4\n .long 0\n .byte 8, 0\n .popsection");

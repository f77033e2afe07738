struct map {
	unsigned type, key_size, value_size, max_entries, flags;
};

struct map small __attribute__((section("maps"))) = { 2, 4, 3, 2 };
struct map counts __attribute__((section("maps"))) = { 2, 4, 8, 3 };

static void *(*lookup)(const void *map, const void *key) = (void *) 1;

__attribute__((section("filter"))) unsigned long entry(void)
{
	unsigned key = 2;
	unsigned long *count = lookup(&counts, &key);
	char *bytes;

	key = 0;
	bytes = lookup(&small, &key);
	if (!count || !bytes)
		return 1;
	*count += 7;
	bytes[2] = 'x';
	return *count;
}

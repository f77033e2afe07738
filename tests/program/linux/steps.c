/* A table of as many entries as the context's first number says, and as many looks as its second one does. */
#include "linux.h"

MAP(table, BPFDB_HASH, 16384, u32, u32);

TEST(steps)
{
	const u32 *asked = context;
	u32 found = 0;

	for (u32 i = 0; i < asked[0]; i++) {
		u32 key = i * 7919;

		if (map_update(&table, &key, &i, NOEXIST))
			return -1;
	}
	for (u32 i = 0; i < asked[1]; i++) {
		u32 key = i * 7919, *value = map_lookup(&table, &key);

		found += value && *value == i;
	}
	return found;
}

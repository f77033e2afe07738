/* A program that the context steers: each four bytes are a call of a helper, and its result goes out as 8 bytes. model.py says what comes. */
#include "linux.h"

struct address { u32 bits; u8 bytes[4]; };
struct call { u8 what, key, value, flags; };
MAP(hash, BPFDB_HASH, 8, u32, u64);
MAP(recent, BPFDB_LRU_HASH, 8, u32, u64);
TRIE(trie, 12, struct address, u64);
MAP_WITHOUT_KEY(queue, BPFDB_QUEUE, 3, u64);
MAP_WITHOUT_KEY(stack, BPFDB_STACK, 3, u64);
MAP(array, BPFDB_ARRAY, 5, u32, u64);
MAP(sent, BPFDB_PERF_EVENT_ARRAY, 1, u32, u32);

static __attribute__((always_inline)) s64 at(const u64 *found)
{
	return found ? (s64)*found : -1000;
}

static __attribute__((always_inline)) s64 taken(long result, u64 value)
{
	return result ? result : (s64)value;
}

static __attribute__((noinline)) s64 done(const struct call *call)
{
	struct address prefix = { call->value % 34, { call->key & 0xc3, call->key << 3 } };
	u32 key = call->key % 12;
	u64 value = call->value, flags = call->flags % 4;

	switch (call->what % 15) {
	case 0: return map_update(&hash, &key, &value, flags);
	case 1: return at(map_lookup(&hash, &key));
	case 2: return map_delete(&hash, &key);
	case 3: return map_update(&recent, &key, &value, flags);
	case 4: return at(map_lookup(&recent, &key));
	case 5: return map_delete(&recent, &key);
	case 6: return map_update(&trie, &prefix, &value, flags);
	case 7: return at(map_lookup(&trie, &prefix));
	case 8: return map_delete(&trie, &prefix);
	case 9: return map_push(&queue, &value, flags);
	case 10: return map_push(&stack, &value, flags);
	case 11: return call->flags & 1 ? taken(map_pop(&queue, &value), value) : taken(map_peek(&queue, &value), value);
	case 12: return call->flags & 1 ? taken(map_pop(&stack, &value), value) : taken(map_peek(&stack, &value), value);
	case 13: return map_update(&array, &key, &value, flags);
	default: return at(map_lookup(&array, &key));
	}
}

#ifdef FOR_KERNEL
/* There one call is a run, whose result is the call's, and the maps stay. */
TEST(steered)
{
	u64 word = *(u64 *)context;
	struct call call = { word, word >> 8, word >> 16, word >> 24 };

	return done(&call);
}
#else
TEST(steered)
{
	const struct call *calls = context;

	for (u64 i = 0; i < size / sizeof(struct call); i++) {
		s64 result = done(calls + i);

		if (perf_event_output(context, &sent, 0, &result, sizeof(result)))
			return -1;
	}
	return 0;
}
#endif

/* A packet of orders, two bytes each: what to do with one of four maps, and a key. The last digit of each answer in base 16 is one of r0's. The end of the
   packet is read anew in each round, so clang keeps the struct's address in the frame, where keys and values lie, too, and merges calls, so that an
   address of a key is one of two. */
typedef unsigned char u8;
typedef unsigned short u16;
typedef unsigned int u32;
typedef unsigned long long u64;

struct xdp_md {
	u32 data, data_end, data_meta, ingress_ifindex, rx_queue_index, egress_ifindex;
};

#define MAP(NAME, TYPE, KEY, VALUE, ENTRIES) \
	struct { \
		int (*type)[TYPE]; \
		int (*max_entries)[ENTRIES]; \
		KEY *key; \
		VALUE *value; \
	} NAME __attribute__((section(".maps"), used))

MAP(wholes, 1, u16, u64, 5);
MAP(words, 5, u32, u32, 3);
MAP(table, 2, u32, u16, 7);
MAP(recent, 9, u32, u32, 100);

static void *(*lookup)(void *map, const void *key) = (void *)1;
static long (*update)(void *map, const void *key, const void *value, u64 flags) = (void *)2;
static long (*delete)(void *map, const void *key) = (void *)3;

__attribute__((section("xdp"))) int orders(struct xdp_md *ctx)
{
	u8 *at = (u8 *)(u64)ctx->data;
	u32 answers = 0;

	for (int i = 1; i < 20; i++, at += 2) {
		if (at + 2 > (u8 *)(u64)ctx->data_end)
			break;
		u32 key = at[1], *word;
		u64 value = i, *whole;
		u16 half = key, *entry;
		long answer = 9;

		switch (at[0]) {
		case 0:
			answer = update(&wholes, &half, &value, 0);
			break;
		case 1:
			whole = lookup(&wholes, &half);
			if (whole)
				answer = (*whole)++;
			break;
		case 2:
			answer = delete(&wholes, &half);
			break;
		case 3:
			answer = update(&words, &key, &value, 0);
			break;
		case 4:
			word = lookup(&words, &key);
			if (word)
				answer = *word;
			break;
		case 5:
			answer = delete(&words, &key);
			break;
		case 6:
			answer = update(&table, &key, &value, 0);
			break;
		case 7:
			entry = lookup(&table, &key);
			if (entry)
				answer = *entry;
			break;
		case 8:
			answer = update(&recent, &key, &value, 0);
			break;
		case 10:
			word = lookup(&recent, &key);
			if (word)
				answer = *word;
			break;
		}
		answers = answers << 4 | (answer & 15);
	}
	return answers;
}

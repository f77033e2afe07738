typedef unsigned char u8;
typedef unsigned int u32;
typedef unsigned long u64;

struct flow {
	u64 packets;
	u64 bytes;
};

struct {
	int (*type)[2];
	u32 *key;
	struct flow *value;
	int (*max_entries)[2];
} flows __attribute__((section(".maps")));

struct {
	int (*type)[2];
	u32 *key;
	u64 *value;
	int (*max_entries)[3];
} sizes __attribute__((section(".maps")));

static void *(*lookup)(const void *map, const void *key) = (void *) 1;
static u64 total;

__attribute__((section("filter"))) u64 entry(const u8 *packet, u64 size)
{
	u32 key = 1;
	struct flow *flow = lookup(&flows, &key);
	u64 *last = lookup(&sizes, &key);

	if (!flow || !last)
		return 1;
	flow->packets++;
	flow->bytes += size;
	*last = size;
	total += size;
	return total;
}

/* Programs of sections of their own, each of which one option says how it is linked. What they give, is worked out in tests/program/options.sh. */
typedef unsigned int u32;
typedef unsigned long long u64;
#define SEC(name) __attribute__((section(name), used))

struct {
	int (*type)[2];
	int (*max_entries)[2];
	u32 *key;
	u64 *value;
} few SEC(".maps");

struct xdp_md {
	u32 data, data_end, data_meta, ingress_ifindex, rx_queue_index, egress_ifindex;
};

static void *(*map_lookup_elem)(void *map, const void *key) = (void *)1;
static u64 (*ktime_get_ns)(void) = (void *)5;
static long (*fib_lookup)(void *ctx, void *params, int size, u32 flags) = (void *)69;

SEC("one") u64 eleven(void) { return 11; }

SEC("several") u64 two(void) { return 22; }
SEC("several") u64 three(void) { return 33; }

/* The time. */
SEC("time") u64 now(void) { return ktime_get_ns(); }

/* 1 where the map has more than three entries. */
SEC("map") u64 has_three(void)
{
	u32 key = 3;

	return map_lookup_elem(&few, &key) != 0;
}

/* 4 where no route is found. */
SEC("xdp") int routed(struct xdp_md *ctx)
{
	u64 params[8] = {};

	return fib_lookup(ctx, params, sizeof(params), 0);
}

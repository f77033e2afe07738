/* A program for XDP as it is written for the kernel, with a hash of its own: it counts frames by their type, drops the first one of each, and passes the
   others. `routed` asks for a route, which isn't known here. */
typedef unsigned char u8;
typedef unsigned short u16;
typedef unsigned int u32;
typedef unsigned long long u64;

struct xdp_md {
	u32 data, data_end, data_meta, ingress_ifindex, rx_queue_index, egress_ifindex;
};

struct {
	int (*type)[1];
	int (*max_entries)[16];
	u16 *key;
	u64 *value;
} seen __attribute__((section(".maps"), used));

static void *(*lookup)(void *map, const void *key) = (void *)1;
static long (*update)(void *map, const void *key, const void *value, u64 flags) = (void *)2;
static long (*fib_lookup)(void *ctx, void *params, int size, u32 flags) = (void *)69;

__attribute__((section("xdp"))) int first(struct xdp_md *ctx)
{
	u8 *data = (u8 *)(u64)ctx->data, *end = (u8 *)(u64)ctx->data_end;
	u64 one = 1, *count;
	u16 type;

	if (data + 14 > end)
		return 0;
	type = data[12] << 8 | data[13];
	count = lookup(&seen, &type);
	if (count) {
		*count += 1;
		return 2;
	}
	update(&seen, &type, &one, 0);
	return 1;
}

__attribute__((section("xdp"))) int routed(struct xdp_md *ctx)
{
	u64 params[8] = { 2 };

	return fib_lookup(ctx, params, sizeof params, 0);
}

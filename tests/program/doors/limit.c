/* Passes the first packet of each protocol and drops further ones: for XDP, as the kernel loads it, with a hash. */
struct xdp_md {
	unsigned data, data_end;
};

struct {
	int (*type)[1];
	int (*max_entries)[64];
	unsigned *key;
	unsigned long *value;
} seen __attribute__((section(".maps")));

static void *(*lookup)(const void *map, const void *key) = (void *)1;
static long (*update)(const void *map, const void *key, const void *value, unsigned long flags) = (void *)2;

static __attribute__((noinline)) int is_known(unsigned protocol)
{
	unsigned long one = 1, *count = lookup(&seen, &protocol);

	if (count)
		return ++*count > 1;
	update(&seen, &protocol, &one, 0);
	return 0;
}

__attribute__((section("xdp"))) int limit(struct xdp_md *ctx)
{
	unsigned char *data = (void *)(unsigned long)ctx->data;
	void *end = (void *)(unsigned long)ctx->data_end;

	if (data + 14 > (unsigned char *)end)
		return 0;
	return is_known(data[12] << 8 | data[13]) ? 1 : 2;
}

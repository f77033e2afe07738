/* Programs that answer the first four bytes of their packet, whatever verdict that is. */
typedef unsigned int u32;
typedef unsigned long long u64;

struct xdp_md {
	u32 data, data_end, data_meta, ingress_ifindex, rx_queue_index, egress_ifindex;
};

/* (data stands at 76) */
struct __sk_buff {
	u32 others[19], data, data_end;
};

static __attribute__((always_inline)) int first(u32 data, u32 end)
{
	int *word = (int *)(u64)data;

	return word + 1 > (int *)(u64)end ? 77 : *word;
}

__attribute__((section("xdp"))) int xdp_word(struct xdp_md *ctx)
{
	return first(ctx->data, ctx->data_end);
}

__attribute__((section("tc"))) int tc_word(struct __sk_buff *ctx)
{
	return first(ctx->data, ctx->data_end);
}

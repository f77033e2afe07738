/* A program of the kernel's for packets, to be compiled without types, so that no type tells its struct: the packet's first byte and its length. */
typedef unsigned int u32;
struct xdp_md { u32 data, data_end, data_meta, ingress_ifindex, rx_queue_index, egress_ifindex; };

__attribute__((section("xdp"), used)) int first_byte(struct xdp_md *ctx)
{
	unsigned char *data = (void *)(long)ctx->data, *end = (void *)(long)ctx->data_end;

	if (data + 1 > end)
		return -1;
	return data[0] * 16 + (end - data);
}

/* Two programs of the kernel's for XDP: each reads its byte of the packet, and the second one knows what the first one read. */
struct xdp_md {
	unsigned data, data_end, data_meta, ingress_ifindex, rx_queue_index, egress_ifindex;
};

static int seen;

__attribute__((section("xdp/one"), used)) int one(struct xdp_md *context)
{
	char *data = (char *)(long)context->data, *end = (char *)(long)context->data_end;

	if (data + 1 > end)
		return 1;
	seen = data[0];
	return 2;
}

__attribute__((section("xdp/two"), used)) int two(struct xdp_md *context)
{
	char *data = (char *)(long)context->data, *end = (char *)(long)context->data_end;

	if (data + 2 > end)
		return 1;
	return seen + 10 * data[1];
}

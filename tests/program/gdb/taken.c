struct xdp_md {
	unsigned data, data_end;
};

__attribute__((section("xdp"))) int length_of(struct xdp_md *ctx)
{
	return ctx->data_end - ctx->data;
}

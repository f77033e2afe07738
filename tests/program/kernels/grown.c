#include "kernel.h"

static long (*adjust_tail)(struct xdp_md *, int) = (void *)65;

/* Ten bytes more than there were: -EINVAL, 22. Four less, and four more again. In the last byte how many there are then. */
SEC("xdp")
int grown(struct xdp_md *ctx)
{
	long more = adjust_tail(ctx, 10), less = adjust_tail(ctx, -4), again = adjust_tail(ctx, 4);

	return -more | -less << 8 | -again << 16 | (ctx->data_end - ctx->data) << 24;
}

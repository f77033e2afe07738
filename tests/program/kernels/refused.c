#include "kernel.h"

struct xdp_md *kept = 0;

SEC("xdp")
int part(struct xdp_md *ctx)
{
	return *(volatile __u16 *)&ctx->data;
}

SEC("xdp")
int behind(struct xdp_md *ctx)
{
	return *(volatile __u32 *)(ctx + 1);
}

SEC("xdp")
int stored_field(struct xdp_md *ctx)
{
	*(volatile __u32 *)&ctx->data_end = 0;
	return 0;
}

SEC("xdp")
int mixed(struct xdp_md *ctx)
{
	__u32 *data = (__u32 *)(long)ctx->data;

	if (data + 1 > (__u32 *)(long)ctx->data_end)
		data = (__u32 *)ctx;
	return *(volatile __u32 *)data;
}

/* Each round has the address four bytes further on. */
SEC("xdp")
int walks(struct xdp_md *ctx)
{
	volatile __u32 *field = (__u32 *)ctx;
	int sum = 0;

#pragma clang loop unroll(disable)
	for (int k = 0; k < 6; k++) {
		sum += *field++;
		asm volatile("" : "+r"(field));
	}
	return sum;
}

SEC("xdp")
int indexed(struct xdp_md *ctx)
{
	__u8 *data = (__u8 *)(long)ctx->data;

	return data + 1 > (__u8 *)(long)ctx->data_end ? 0 : ((volatile __u32 *)ctx)[data[0]];
}

SEC("xdp")
int or_of(struct xdp_md *ctx)
{
	long bits = 0;

	asm volatile("%0 |= %1" : "+r"(bits) : "r"(ctx));
	return bits != 0;
}

SEC("xdp")
int keeps(struct xdp_md *ctx)
{
	kept = ctx;
	return 0;
}

SEC("xdp")
int passes(struct xdp_md *ctx)
{
	return ((long (*)(void *))64)(ctx);
}

/* The fourth register of an update, its flags. */
SEC("xdp")
int as_flags(struct xdp_md *ctx)
{
	return ((long (*)(void *, void *, void *, void *))2)(0, 0, 0, ctx);
}

SEC("xdp")
long returns(struct xdp_md *ctx)
{
	return (long)ctx;
}

static __attribute__((noinline)) int deep(struct xdp_md *ctx)
{
	return *(volatile __u16 *)&ctx->data_meta;
}

SEC("xdp")
int in_text(struct xdp_md *ctx)
{
	return deep(ctx);
}

/* A function finds the context's address in its caller's frame. */
struct pair {
	int add;
	struct xdp_md *ctx;
};

static __attribute__((noinline)) int of_pair(struct pair *pair)
{
	asm volatile("");
	return pair->ctx->data_end - pair->ctx->data + pair->add;
}

SEC("xdp")
int through_frame(struct xdp_md *ctx)
{
	struct pair pair = { 1000, ctx };

	return of_pair(&pair);
}

/* One finds it by an address that it finds there, in a struct above or below. */
struct holder {
	int add;
	struct pair *pair;
};

static __attribute__((noinline)) int of_holder(struct holder *holder)
{
	asm volatile("");
	return of_pair(holder->pair) + holder->add;
}

SEC("xdp")
int through_address(struct xdp_md *ctx)
{
	struct holder holder;
	struct pair pair = { 1000, ctx };

	holder.add = 2000;
	holder.pair = &pair;
	return of_holder(&holder);
}

/* Another register loads it from the frame, and another one stores over it there. */
SEC("xdp")
int loads_copy(struct xdp_md *ctx)
{
	struct pair pair = { 1000, ctx }, *copy = &pair;

	asm volatile("" : "+r"(copy)::"memory");
	return copy->ctx->data_end - copy->ctx->data;
}

SEC("xdp")
int stores_over(struct xdp_md *ctx)
{
	volatile int number = 1000;
	struct pair pair = { 1000, ctx }, *copy = &pair;

	asm volatile("" : "+r"(copy)::"memory");
	copy->ctx = (void *)&number;
	asm volatile("" ::: "memory");
	return *(volatile int *)pair.ctx;
}

/* Another register has one of two addresses of the frame, of which the latter lies behind or before. */
SEC("xdp")
int chosen(struct xdp_md *ctx)
{
	struct pair above = { 1000, ctx }, below = { 2000, ctx };
	struct pair *pair = ctx->ingress_ifindex ? &above : &below;

	asm volatile("" : "+r"(pair)::"memory");
	return pair->ctx->data_end - pair->ctx->data + pair->add;
}

SEC("xdp")
int chosen_other(struct xdp_md *ctx)
{
	struct pair above = { 1000, ctx }, below = { 2000, ctx };
	struct pair *pair = ctx->ingress_ifindex ? &below : &above;

	asm volatile("" : "+r"(pair)::"memory");
	return pair->ctx->data_end - pair->ctx->data + pair->add;
}

SEC("tc")
int socket(struct __sk_buff *skb)
{
	return skb->sk != 0;
}

SEC("tc")
int stored_len(struct __sk_buff *skb)
{
	skb->len = 5;
	return 0;
}

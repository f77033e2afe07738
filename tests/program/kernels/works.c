#include "kernel.h"

/* TCP to port 23 is dropped, behind options of IPv4 too. */
SEC("xdp")
int firewall(struct xdp_md *ctx)
{
	void *data = (void *)(long)ctx->data, *data_end = (void *)(long)ctx->data_end;
	struct ethhdr *eth = data;
	struct iphdr *ip = (void *)(eth + 1);
	struct tcphdr *tcp;

	if ((void *)(ip + 1) > data_end || eth->h_proto != bpf_htons(0x0800) || ip->protocol != 6)
		return XDP_PASS;
	tcp = (void *)ip + ip->ihl * 4;
	if ((void *)(tcp + 1) > data_end)
		return XDP_PASS;
	return tcp->dest == bpf_htons(23) ? XDP_DROP : XDP_PASS;
}

/* The number of bytes, the metadata's too, and three numbers, which are zero. */
SEC("xdp")
int length(struct xdp_md *ctx)
{
	return ctx->data_end - ctx->data_meta + ctx->ingress_ifindex + ctx->rx_queue_index + ctx->egress_ifindex;
}

/* The context's address is kept in the frame, where r6 to r9 are in use. */
SEC("xdp")
int spilled(struct xdp_md *ctx)
{
	__u8 *data;

	asm volatile("r6 = 1\nr7 = 2\nr8 = 3\nr9 = 4\nr1 = 5\nr2 = 6\nr3 = 7\nr4 = 8\nr5 = 9\nr0 = 10" ::: "r0", "r1", "r2", "r3",
		     "r4", "r5", "r6", "r7", "r8", "r9");
	data = (__u8 *)(long)ctx->data;
	if (data + 1 > (__u8 *)(long)ctx->data_end)
		return -1;
	return data[0];
}

/* Functions get the context's address, and one within it. */
static __attribute__((noinline)) int first(int add, struct xdp_md *ctx)
{
	__u8 *data = (__u8 *)(long)ctx->data;

	return data + 1 > (__u8 *)(long)ctx->data_end ? -1 : data[0] + add;
}

static __attribute__((noinline)) __u64 end(__u32 *end_field)
{
	asm volatile("");
	return *end_field;
}

SEC("xdp")
int called(struct xdp_md *ctx)
{
	int sum = first(1000, ctx);

	return sum + first(2000, ctx) + (int)(end(&ctx->data_end) - ctx->data);
}

/*
 * A compare-exchange leaves in r0, which had the context's address, what was in the frame: an address four bytes before the number 77. (The bytes
 * are `atomic_cmpxchg64 [r10-8], r3`, for which clang asks for a newer processor.)
 */
SEC("xdp")
int exchanged(struct xdp_md *ctx)
{
	long number;

	asm volatile("r3 = 77\n*(u32 *)(r10 - 12) = r3\n"
		     "r2 = r10\nr2 += -16\n*(u64 *)(r10 - 8) = r2\n"
		     "r0 = %1\nr3 = 0\n.byte 0xdb, 0x3a, 0xf8, 0xff, 0xf1, 0, 0, 0\n"
		     "%0 = *(u32 *)(r0 + 4)" : "=r"(number) : "r"(ctx) : "r0", "r2", "r3", "memory");
	return number;
}

/* A verdict is 32 bits, with a sign. */
SEC("xdp")
int negative(struct xdp_md *ctx)
{
	return ctx->data == ctx->data_end ? 1 : -5;
}

/* Of a context that no instruction reads nothing is asked. */
SEC("xdp")
int unread(struct xdp_md *ctx)
{
	return XDP_PASS;
}

/* A function gets a piece of the frame, while the context's address is kept in another one. */
static __attribute__((noinline)) int of_number(int *number)
{
	asm volatile("r6 = 1\nr7 = 2\nr8 = 3\nr9 = 4" ::: "r6", "r7", "r8", "r9", "memory");
	return *number;
}

SEC("xdp")
int beside(struct xdp_md *ctx)
{
	int number = 1000, sum = of_number(&number);

	asm volatile("r6 = 1\nr7 = 2\nr8 = 3\nr9 = 4" ::: "r6", "r7", "r8", "r9");
	return sum + ctx->data_end - ctx->data;
}

/* A register goes through an array in the frame, while the context's address is kept behind it. */
SEC("xdp")
int walked(struct xdp_md *ctx)
{
	volatile __u64 numbers[4];
	__u64 sum = 0;

	for (int k = 0; k < 4; k++)
		numbers[k] = k + 1;
	asm volatile("r6 = 1\nr7 = 2\nr8 = 3\nr9 = 4\nr1 = 5\nr2 = 6\nr3 = 7\nr4 = 8\nr5 = 9\nr0 = 10" ::: "r0", "r1", "r2", "r3",
		     "r4", "r5", "r6", "r7", "r8", "r9");
#pragma clang loop unroll(disable)
	for (int k = 0; k < 4; k++)
		sum += numbers[k];
	return sum + ctx->data_end - ctx->data;
}

/* Others go through it upwards and downwards, and store there. */
SEC("xdp")
int sorted(struct xdp_md *ctx)
{
	volatile __u64 numbers[4];

#pragma clang loop unroll(disable)
	for (int k = 0; k < 4; k++)
		numbers[k] = 4 - k;
	asm volatile("r6 = 1\nr7 = 2\nr8 = 3\nr9 = 4\nr1 = 5\nr2 = 6\nr3 = 7\nr4 = 8\nr5 = 9\nr0 = 10" ::: "r0", "r1", "r2", "r3",
		     "r4", "r5", "r6", "r7", "r8", "r9");
#pragma clang loop unroll(disable)
	for (int first = 0; first < 3; first++) {
#pragma clang loop unroll(disable)
		for (int k = 3; k > first; k--) {
			__u64 number = numbers[k];

			if (numbers[k - 1] > number) {
				numbers[k] = numbers[k - 1];
				numbers[k - 1] = number;
			}
		}
	}
	return numbers[0] + numbers[1] * 10 + numbers[2] * 100 + numbers[3] * 1000 + ctx->data_end - ctx->data;
}

SEC("tc")
int classify(struct __sk_buff *skb)
{
	__u8 *data = (__u8 *)(long)skb->data, *data_end = (__u8 *)(long)skb->data_end;

	if (skb->protocol != bpf_htons(0x0800))
		return TC_ACT_UNSPEC;
	return data + 34 <= data_end && data[23] == 6 ? TC_ACT_SHOT : TC_ACT_OK;
}

SEC("tc")
int protocol(struct __sk_buff *skb)
{
	return bpf_htons(skb->protocol);
}

SEC("tc")
int stores(struct __sk_buff *skb)
{
	skb->mark = 7;
	skb->priority = 20;
	skb->cb[4] = 300;
	skb->tc_classid = 4000;
	asm volatile("" ::: "memory");
	return skb->mark + skb->priority + skb->cb[4] + skb->tc_classid + skb->len + skb->ifindex + *(__u8 *)&skb->cb[4]
		+ (skb->data_meta != skb->data);
}

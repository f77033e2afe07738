/* A classifier with a frame of 504 bytes, of the 512 that it may have: twice the packet's length. */
#include <linux/bpf.h>
#include <bpf/bpf_helpers.h>

static __attribute__((noinline)) __u32 length_of(struct __sk_buff *skb)
{
	return skb->len;
}

SEC("tc")
int whole_frame(struct __sk_buff *skb)
{
	volatile __u64 frame[63];

	for (int i = 0; i < 63; i++)
		frame[i] = length_of(skb);
	return frame[0] + frame[62];
}

char LICENSE[] SEC("license") = "GPL";

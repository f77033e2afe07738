/* Drops packets that are too long for their class of service, the highest three bits of the DSCP. */
#include <linux/bpf.h>
#include <linux/if_ether.h>
#include <linux/ip.h>
#include <linux/pkt_cls.h>
#include <bpf/bpf_endian.h>
#include <bpf/bpf_helpers.h>

#define CLASSES 8

struct {
	__uint(type, BPF_MAP_TYPE_ARRAY);
	__uint(max_entries, CLASSES);
	__type(key, __u32);
	__type(value, __u64);
} dropped SEC(".maps");

/* The most bytes of a packet of each class: 3 is for video, 5 for voice. */
const volatile __u16 longest[CLASSES] = { 1500, 1500, 1500, 1200, 1500, 64, 1500, 1500 };

static __always_inline __u32 class_of(struct iphdr *ip)
{
	return ip->tos >> 3 & 7;
}

static __always_inline void count(__u32 class)
{
	__u64 *packets = bpf_map_lookup_elem(&dropped, &class);

	if (packets)
		__sync_fetch_and_add(packets, 1);
}

SEC("tc")
int precedence(struct __sk_buff *skb)
{
	void *data = (void *)(long)skb->data;
	void *end = (void *)(long)skb->data_end;
	struct ethhdr *eth = data;
	struct iphdr *ip = (void *)(eth + 1);
	__u32 class;

	if ((void *)(ip + 1) > end || eth->h_proto != bpf_htons(ETH_P_IP))
		return TC_ACT_OK;
	class = class_of(ip);
	if (bpf_ntohs(ip->tot_len) <= longest[class])
		return TC_ACT_OK;
	count(class);
	return TC_ACT_SHOT;
}

char LICENSE[] SEC("license") = "GPL";

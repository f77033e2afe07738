/* A classifier for tc: drops IPv4 of more than 60 bytes, and marks what is shorter. */
#include <linux/bpf.h>
#include <linux/if_ether.h>
#include <linux/pkt_cls.h>
#include <bpf/bpf_endian.h>
#include <bpf/bpf_helpers.h>

SEC("tc")
int classify(struct __sk_buff *skb)
{
	void *data = (void *)(long)skb->data;
	void *data_end = (void *)(long)skb->data_end;
	struct ethhdr *eth = data;

	if (data + sizeof(*eth) > data_end)
		return TC_ACT_UNSPEC;
	if (eth->h_proto != bpf_htons(ETH_P_IP))
		return TC_ACT_OK;
	if (skb->len > 60) {
		bpf_printk("%d bytes", skb->len);
		return TC_ACT_SHOT;
	}
	skb->mark = skb->len;
	return TC_ACT_RECLASSIFY;
}

char LICENSE[] SEC("license") = "GPL";

/* Two programs in a file: what is in each field. The results have a bit for each that isn't what docs/XDP.md says; `told` has the length (from bit 8 on)
   and the protocol (from bit 32 on). */
#include <linux/bpf.h>
#include <bpf/bpf_helpers.h>

SEC("xdp")
int of_xdp(struct xdp_md *ctx)
{
	return (ctx->data != 0x100000000) | (ctx->data_meta != ctx->data) << 1 | (ctx->data_end - ctx->data != 60) << 2 |
	       (ctx->ingress_ifindex || ctx->rx_queue_index || ctx->egress_ifindex) << 3;
}

__u64 told;

SEC("tc/ingress")
int of_tc(struct __sk_buff *skb)
{
	__u64 others = skb->pkt_type | skb->mark | skb->queue_mapping | skb->vlan_present | skb->vlan_tci | skb->vlan_proto | skb->priority |
		       skb->ingress_ifindex | skb->ifindex | skb->tc_index | skb->hash | skb->tc_classid | skb->napi_id | skb->family | skb->remote_ip4 |
		       skb->local_ip4 | skb->remote_port | skb->local_port | skb->wire_len | skb->gso_segs | skb->gso_size | skb->tstamp | skb->hwtstamp |
		       skb->tstamp_type | (__u64)skb->flow_keys | (__u64)skb->sk;

	for (int i = 0; i < 5; i++)
		others |= skb->cb[i];
	for (int i = 0; i < 4; i++)
		others |= skb->remote_ip6[i] | skb->local_ip6[i];
	told = (__u64)skb->protocol << 32 | skb->len << 8;
	return (skb->data != 0x100000000) | (skb->data_meta != skb->data) << 1 | (skb->data_end - skb->data != skb->len) << 2 | (others != 0) << 3;
}

char LICENSE[] SEC("license") = "GPL";

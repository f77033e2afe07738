/* Drops what only a server of DHCP sends (UDP from port 67): on this port there is none. */
#include <linux/bpf.h>
#include <linux/if_ether.h>
#include <linux/in.h>
#include <linux/ip.h>
#include <linux/udp.h>
#include <bpf/bpf_endian.h>
#include <bpf/bpf_helpers.h>

#define MOST_TAGS 2

struct vlan_hdr {
	__be16 tci;
	__be16 proto;
};

static __always_inline int is_tag(__be16 proto)
{
	return proto == bpf_htons(ETH_P_8021Q);
}

/* The header behind the tags of VLANs, of which there are two at most, and its type. */
static __always_inline void *behind_tags(struct ethhdr *eth, void *end, __be16 *proto)
{
	struct vlan_hdr *vlan = (void *)(eth + 1);

	*proto = eth->h_proto;
	for (int i = 0; i < MOST_TAGS && is_tag(*proto); i++) {
		if ((void *)(vlan + 1) > end)
			return end;
		*proto = vlan->proto;
		vlan++;
	}
	return vlan;
}

SEC("xdp")
int offers(struct xdp_md *ctx)
{
	void *data = (void *)(long)ctx->data;
	void *end = (void *)(long)ctx->data_end;
	struct ethhdr *eth = data;
	struct iphdr *ip;
	struct udphdr *udp;
	__be16 proto;

	if ((void *)(eth + 1) > end)
		return XDP_PASS;
	ip = behind_tags(eth, end, &proto);
	if (proto != bpf_htons(ETH_P_IP) || (void *)(ip + 1) > end)
		return XDP_PASS;
	udp = (void *)ip + ip->ihl * 4;
	if (ip->protocol != IPPROTO_UDP || (void *)(udp + 1) > end)
		return XDP_PASS;
	return udp->source == bpf_htons(67) ? XDP_DROP : XDP_PASS;
}

char LICENSE[] SEC("license") = "GPL";

/* Drops what comes through a tunnel of GRE for the machines' own net, 10.9.0.0/16. */
#include <linux/bpf.h>
#include <linux/if_ether.h>
#include <linux/in.h>
#include <linux/ip.h>
#include <bpf/bpf_endian.h>
#include <bpf/bpf_helpers.h>

struct gre {
	__be16 flags;
	__be16 protocol;
};

static const __be32 net = bpf_htonl(0x0a090000), mask = bpf_htonl(0xffff0000);

SEC("xdp")
int tunnel(struct xdp_md *ctx)
{
	void *data = (void *)(long)ctx->data;
	void *end = (void *)(long)ctx->data_end;
	struct ethhdr *eth = data;
	struct iphdr *outer = (void *)(eth + 1), *inner;
	struct gre *gre;

	if ((void *)(outer + 1) > end || eth->h_proto != bpf_htons(ETH_P_IP))
		return XDP_PASS;
	if (outer->protocol != IPPROTO_GRE)
		return XDP_PASS;

	gre = (void *)outer + outer->ihl * 4;
	if ((void *)(gre + 1) > end || gre->protocol != bpf_htons(ETH_P_IP))
		return XDP_PASS;

	inner = (void *)(gre + 1);
	if ((void *)(inner + 1) > end)
		return XDP_PASS;
	if ((inner->daddr & mask) == net)
		return XDP_DROP;
	return XDP_PASS;
}

char LICENSE[] SEC("license") = "GPL";

/* Drops advertisements of routers that don't come from the router, fe80::1. */
#include <linux/bpf.h>
#include <linux/if_ether.h>
#include <linux/in.h>
#include <linux/ipv6.h>
#include <linux/pkt_cls.h>
#include <bpf/bpf_endian.h>
#include <bpf/bpf_helpers.h>

#define ROUTER_ADVERTISEMENT 134

static __always_inline long load_header(struct __sk_buff *skb, struct ipv6hdr *ip)
{
	return bpf_skb_load_bytes(skb, ETH_HLEN, ip, sizeof(ip));
}

static __always_inline int is_advertisement(struct __sk_buff *skb, struct ipv6hdr *ip)
{
	__u8 type;

	if (ip->nexthdr != IPPROTO_ICMPV6)
		return 0;
	if (bpf_skb_load_bytes(skb, ETH_HLEN + sizeof(*ip), &type, sizeof(type)))
		return 0;
	return type == ROUTER_ADVERTISEMENT;
}

static __always_inline int is_router(const struct in6_addr *a)
{
	return a->s6_addr32[0] == bpf_htonl(0xfe800000) && !a->s6_addr32[1] &&
	       !a->s6_addr32[2] && a->s6_addr32[3] == bpf_htonl(1);
}

SEC("tc")
int guard(struct __sk_buff *skb)
{
	struct ipv6hdr ip = {};

	if (skb->protocol != bpf_htons(ETH_P_IPV6) || load_header(skb, &ip))
		return TC_ACT_OK;
	if (!is_advertisement(skb, &ip))
		return TC_ACT_OK;
	if (is_router(&ip.saddr))
		return TC_ACT_OK;
	return TC_ACT_SHOT;
}

char LICENSE[] SEC("license") = "GPL";

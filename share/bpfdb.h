/* Compiles a program for XDP or tc as it stands, with the kernel's and libbpf's headers, for bpfdb:
     clang -include bpfdb.h -DBPFDB_XDP=NAME .. (or -DBPFDB_TC=NAME), with the name of the program's function
     bpfdb link --entry bpfdb ..
   The entry `bpfdb` gives the program the context's bytes as its packet. It has to lie in the program's section: where
   that isn't `xdp` or `tc`, -DBPFDB_SECTION=xdp.frags names it. A program that includes "vmlinux.h" wants
   -DBPFDB_VMLINUX, and -I with the folder of that file. `data`, `data_end` and `data_meta` have 64 bits here, as
   bpfdb's addresses need, and 32 in the kernel: what is compiled with this is no program for the kernel. */
#if defined BPFDB_XDP == defined BPFDB_TC
#error "bpfdb.h: which program? -DBPFDB_XDP=NAME or -DBPFDB_TC=NAME"
#endif
#define xdp_md kernel_xdp_md
#define __sk_buff kernel_sk_buff
#ifdef BPFDB_VMLINUX
#include "vmlinux.h"
#else
#if !__has_include(<linux/bpf.h>)
#error "bpfdb.h: there are no headers of the kernel (in Debian: linux-libc-dev, and libbpf-dev for those of libbpf)"
#elif !__has_include(<asm/types.h>)
#error "bpfdb.h: add -I/usr/include/$(uname -m)-linux-gnu: Debian has <asm/types.h> there"
#endif
#include <linux/bpf.h>
#endif
#undef xdp_md
#undef __sk_buff

struct xdp_md {
	__u64 data, data_end, data_meta;
	__u32 ingress_ifindex, rx_queue_index, egress_ifindex;
};

struct bpf_flow_keys;
struct bpf_sock;

struct __sk_buff {
	__u64 data, data_end, data_meta;
	__u32 len, pkt_type, mark, queue_mapping, protocol, vlan_present, vlan_tci, vlan_proto, priority;
	__u32 ingress_ifindex, ifindex, tc_index, cb[5], hash, tc_classid, napi_id, family;
	__u32 remote_ip4, local_ip4, remote_ip6[4], local_ip6[4], remote_port, local_port;
	__u32 wire_len, gso_segs, gso_size;
	__u64 tstamp, hwtstamp;
	__u8 tstamp_type;
	struct bpf_flow_keys *flow_keys;
	struct bpf_sock *sk;
};

#define BPFDB_TEXT(NAME) #NAME
#define BPFDB_IN(SECTION) __attribute__((section(BPFDB_TEXT(SECTION)), used))

/* The program isn't inlined: so it has a frame of its own, and is a function to a debugger. */
#ifdef BPFDB_XDP
#ifndef BPFDB_SECTION
#define BPFDB_SECTION xdp
#endif
__attribute__((noinline)) int BPFDB_XDP(struct xdp_md *);
BPFDB_IN(BPFDB_SECTION)
long bpfdb(const unsigned char *packet, __u64 size)
{
	__u64 data = (__u64)packet;
	struct xdp_md ctx = { .data = data, .data_end = data + size, .data_meta = data };

	return BPFDB_XDP(&ctx);
}
#else
#ifndef BPFDB_SECTION
#define BPFDB_SECTION tc
#endif
__attribute__((noinline)) int BPFDB_TC(struct __sk_buff *);
BPFDB_IN(BPFDB_SECTION)
long bpfdb(const unsigned char *packet, __u64 size)
{
	__u64 data = (__u64)packet;
	struct __sk_buff ctx = { .data = data, .data_end = data + size, .data_meta = data, .len = size };

	/* (the type behind the two addresses of Ethernet; for a length, below 0x600, Linux has ETH_P_802_3, 1, where
	   ffff is next, else ETH_P_802_2, 4) */
	if (size >= 14 && packet[12] >= 6)
		ctx.protocol = packet[12] | packet[13] << 8;
	else if (size >= 14)
		ctx.protocol = (size >= 16 && packet[14] == 0xff && packet[15] == 0xff ? 1 : 4) << 8;
	return BPFDB_TC(&ctx);
}
#endif

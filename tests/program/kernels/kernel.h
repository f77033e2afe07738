/* The structs of packets as Linux 6.1 has them in <linux/bpf.h>, and what the programs here need of its other headers. */
typedef unsigned char __u8;
typedef unsigned short __u16;
typedef unsigned int __u32;
typedef unsigned long long __u64;

#define SEC(NAME) __attribute__((section(NAME), used))
#define bpf_htons(N) ((__u16)__builtin_bswap16(N))

enum { XDP_ABORTED, XDP_DROP, XDP_PASS };
enum { TC_ACT_UNSPEC = -1, TC_ACT_OK, TC_ACT_SHOT = 2 };

struct xdp_md {
	__u32 data, data_end, data_meta;
	__u32 ingress_ifindex, rx_queue_index, egress_ifindex;
};

struct __sk_buff {
	__u32 len, pkt_type, mark, queue_mapping, protocol, vlan_present, vlan_tci, vlan_proto, priority;
	__u32 ingress_ifindex, ifindex, tc_index, cb[5], hash, tc_classid, data, data_end, napi_id, family;
	__u32 remote_ip4, local_ip4, remote_ip6[4], local_ip6[4], remote_port, local_port, data_meta;
	__u64 flow_keys, tstamp;
	__u32 wire_len, gso_segs;
	__u64 sk;
	__u32 gso_size;
	__u8 tstamp_type;
	__u64 hwtstamp;
};

struct ethhdr {
	__u8 h_dest[6], h_source[6];
	__u16 h_proto;
};

struct iphdr {
	__u8 ihl : 4, version : 4, tos;
	__u16 tot_len, id, frag_off;
	__u8 ttl, protocol;
	__u16 check;
	__u32 saddr, daddr;
} __attribute__((packed, aligned(2)));

struct tcphdr {
	__u16 source, dest;
	__u32 seq, ack_seq;
	__u16 flags, window, check, urg_ptr;
} __attribute__((packed, aligned(2)));

/* Helpers of packets, as a packet asks: its first bytes are the arguments, and the result is the helper's. Each program is
   compiled twice, for the kernel as it stands, and for bpfdb with bpfdb.h; tests/kernel.sh holds the results and what
   becomes of the packet against each other. */
#include <linux/bpf.h>
#include <linux/pkt_cls.h>
#include <bpf/bpf_helpers.h>
#if defined BPFDB_TC || defined BPFDB_XDP
#include "bpfdb-linux.h"
#endif

struct asked {
	__s16 first, second;
	__u8 size, flags;
	__u32 place, from, to;
} __attribute__((packed));

#define ASKED \
	struct asked asked; \
	{ \
		struct asked *start = (void *)(long)ctx->data; \
		if ((void *)(start + 1) > (void *)(long)ctx->data_end) \
			return 99; \
		asked = *start; \
	}
/* A result of an error and another. */
#define BOTH(ONE, OTHER) ((-(ONE) & 0xff) | (-(OTHER) & 0xff) << 8)

#define MAP(NAME, TYPE, KEY, VALUE) \
	struct { \
		__uint(type, TYPE); \
		__uint(max_entries, 4); \
		__type(key, KEY); \
		__type(value, VALUE); \
	} NAME SEC(".maps")

MAP(devices, BPF_MAP_TYPE_DEVMAP, __u32, __u32);
MAP(named_devices, BPF_MAP_TYPE_DEVMAP_HASH, __u32, __u32);
MAP(processors, BPF_MAP_TYPE_CPUMAP, __u32, __u32);
MAP(sockets, BPF_MAP_TYPE_XSKMAP, __u32, __u32);
MAP(buffers, BPF_MAP_TYPE_PERF_EVENT_ARRAY, __u32, __u32);

/* Forward by the first number, if that is none below 0, and back by the second, at most to where it was. */
SEC("xdp")
int head(struct xdp_md *ctx)
{
	int one, other;
	ASKED;

	if (asked.first < 0 || asked.second > 0)
		return 98;
	if (asked.second < -asked.first)
		asked.second = -asked.first;
	one = bpf_xdp_adjust_head(ctx, asked.first);
	other = one ? 0 : bpf_xdp_adjust_head(ctx, asked.second);
	return BOTH(one, other);
}

/* Shorter by the first number, and longer by the second, at most as it was. */
SEC("xdp")
int tail(struct xdp_md *ctx)
{
	int one, other;
	ASKED;

	if (asked.first > 0 || asked.second < 0)
		return 98;
	if (asked.second > -asked.first)
		asked.second = -asked.first;
	one = bpf_xdp_adjust_tail(ctx, asked.first);
	other = one ? 0 : bpf_xdp_adjust_tail(ctx, asked.second);
	return BOTH(one, other);
}

/* Metadata of as many bytes as the second number says below 0, before a packet that begins 20 bytes later. */
SEC("xdp")
int metadata(struct xdp_md *ctx)
{
	int one, other = 0;
	__u8 *meta;
	ASKED;

	if (asked.second < -16 || bpf_xdp_adjust_head(ctx, 20))
		return 98;
	one = bpf_xdp_adjust_meta(ctx, asked.second);
	meta = (void *)(long)ctx->data_meta;
	if ((void *)(meta + 1) <= (void *)(long)ctx->data) {
		*meta = 0x55;
		/* (metadata go with the head, which has no room then) */
		other = bpf_xdp_adjust_head(ctx, -4);
		meta = (void *)(long)ctx->data_meta;
		if ((void *)(meta + 1) > (void *)(long)ctx->data || *meta != 0x55)
			return 97;
	}
	return BOTH(one, other);
}

SEC("xdp")
int load(struct xdp_md *ctx)
{
	__u8 bytes[16] = { 1, 2, 3 };
	__u32 size;
	int error, sum = 0;
	ASKED;

	size = (asked.size & 7) + 1;
	error = bpf_xdp_load_bytes(ctx, asked.place, bytes, size);
	for (int i = 0; i < 16; i++)
		sum = sum * 3 + bytes[i];
	return (error & 0xff) | (sum & 0x7fffff) << 8;
}

SEC("xdp")
int store(struct xdp_md *ctx)
{
	__u8 bytes[16] = { 1, 2, 3, 4, 5, 6, 7, 8, 9 };
	__u32 size;
	ASKED;

	size = (asked.size & 7) + 1;
	return bpf_xdp_store_bytes(ctx, asked.place, bytes, size);
}

SEC("xdp")
int length(struct xdp_md *ctx)
{
	return bpf_xdp_get_buff_len(ctx);
}

SEC("xdp")
int redirect(struct xdp_md *ctx)
{
	ASKED;

	return bpf_redirect(asked.place, asked.flags);
}

#define REDIRECT_BY(NAME) \
	SEC("xdp") \
	int to_##NAME(struct xdp_md *ctx) \
	{ \
		ASKED; \
		return bpf_redirect_map(&NAME, asked.place, asked.flags); \
	}

REDIRECT_BY(devices)
REDIRECT_BY(named_devices)
REDIRECT_BY(processors)
REDIRECT_BY(sockets)

SEC("xdp")
int sent(struct xdp_md *ctx)
{
	__u32 value = 7;
	ASKED;

	return bpf_perf_event_output(ctx, &buffers, (__u64)asked.place << 32 | asked.from, &value, sizeof(value));
}

SEC("xdp")
int routed(struct xdp_md *ctx)
{
	struct bpf_fib_lookup wanted = { .ifindex = 1 };
	int answer;
	ASKED;

	wanted.family = asked.place & 1 ? 2 : asked.place & 2 ? 10 : asked.place >> 2;
	answer = asked.size & 1 ? bpf_fib_lookup(ctx, &wanted, sizeof(wanted) - 1, asked.flags) :
		bpf_fib_lookup(ctx, &wanted, sizeof(wanted), asked.flags);
	/* (why there is no route is each network's own) */
	return answer > 0 ? 1 : answer;
}

/* What a checksum of 16 bits changes by, of up to 16 bytes each. */
#define DIFFERENCE \
	__u32 from[4] = { asked.from, asked.place, asked.from + 1 }, to[4] = { asked.to, asked.place * 3, asked.to }; \
	__u64 sum = bpf_csum_diff(from, asked.size & 12, to, asked.flags & 12, asked.place); \
	if ((__s64)sum < 0) \
		return -1; \
	sum = (sum & 0xffff) + (sum >> 16); \
	return (sum & 0xffff) + (sum >> 16)

SEC("xdp")
int difference(struct xdp_md *ctx)
{
	ASKED;
	DIFFERENCE;
}

SEC("tc")
int difference_of_tc(struct __sk_buff *ctx)
{
	ASKED;
	DIFFERENCE;
}

SEC("tc")
int load_of_tc(struct __sk_buff *ctx)
{
	__u8 bytes[16] = { 1, 2, 3 };
	__u32 size;
	int error, sum = 0;
	ASKED;

	size = (asked.size & 7) + 1;
	error = bpf_skb_load_bytes(ctx, asked.place, bytes, size);
	for (int i = 0; i < 16; i++)
		sum = sum * 3 + bytes[i];
	return (error & 0xff) | (sum & 0x7fffff) << 8;
}

SEC("tc")
int store_of_tc(struct __sk_buff *ctx)
{
	__u8 bytes[16] = { 1, 2, 3, 4, 5, 6, 7, 8, 9 };
	__u32 size;
	ASKED;

	size = (asked.size & 7) + 1;
	return bpf_skb_store_bytes(ctx, asked.place, bytes, size, asked.flags);
}

SEC("tc")
int sum_of_header(struct __sk_buff *ctx)
{
	ASKED;

	return bpf_l3_csum_replace(ctx, asked.place, asked.from, asked.to, asked.flags);
}

SEC("tc")
int sum_of_segment(struct __sk_buff *ctx)
{
	ASKED;

	return bpf_l4_csum_replace(ctx, asked.place, asked.from, asked.to, asked.flags);
}

SEC("tc")
int pulled(struct __sk_buff *ctx)
{
	ASKED;

	return bpf_skb_pull_data(ctx, asked.place);
}

SEC("tc")
int told(struct __sk_buff *ctx)
{
	return ctx->len << 16 | ctx->protocol;
}

SEC("tc")
int redirect_of_tc(struct __sk_buff *ctx)
{
	ASKED;
#ifdef BPFDB_TC
	bpfdb_world.is_tc = 1;
#endif

	return bpf_redirect(asked.place, asked.flags);
}

#define LOOK_FOR_SOCKET(KIND) \
	struct bpf_sock_tuple tuple = {}; \
	struct bpf_sock *found; \
	ASKED; \
	tuple.ipv4.saddr = asked.from; \
	tuple.ipv4.daddr = asked.to; \
	tuple.ipv4.dport = asked.first; \
	found = bpf_##KIND(ctx, &tuple, sizeof(tuple.ipv4), -1, 0); \
	if (found) \
		bpf_sk_release(found); \
	return !!found

SEC("xdp")
int no_socket_of_tcp(struct xdp_md *ctx)
{
	LOOK_FOR_SOCKET(sk_lookup_tcp);
}

SEC("tc")
int no_socket_of_udp(struct __sk_buff *ctx)
{
	LOOK_FOR_SOCKET(sk_lookup_udp);
}

SEC("tc")
int no_socket_at_all(struct __sk_buff *ctx)
{
	LOOK_FOR_SOCKET(skc_lookup_tcp);
}

SEC("tc")
int sent_of_tc(struct __sk_buff *ctx)
{
	__u32 value = 7;
	ASKED;

	return bpf_perf_event_output(ctx, &buffers, (__u64)asked.place << 32 | asked.from, &value, sizeof(value));
}

/* The programs that follow change what an skb has. Each makes it shorter by 40 bytes first, so that it has room for as
   many in bpfdb, too. Their result tells of all that comes of it: numbers of errors, fields, bytes, and where the network
   header lies. */
enum { ROOM = 40, LONGEST = 160, NONE_ENOUGH = 98, IPV4 = 0x0008, IPV6 = 0xdd86, TAG = 0x0081, SERVICE_TAG = 0xa888 };

static __always_inline __u32 joined(__u32 sum, __u32 number)
{
	return sum * 31 + number;
}

static __always_inline __u32 whole(struct __sk_buff *ctx, __u32 sum)
{
	__u8 byte;

	sum = joined(joined(sum, ctx->len), ctx->protocol);
	sum = joined(joined(joined(sum, ctx->vlan_present), ctx->vlan_tci), ctx->vlan_proto);
	for (int i = 0; i < LONGEST; i++) {
		if (bpf_skb_load_bytes(ctx, i, &byte, 1))
			break;
		sum = joined(sum, byte);
	}
	bpf_skb_load_bytes_relative(ctx, 0, &byte, 1, BPF_HDR_START_NET);
	return joined(sum, byte) & 0x7fffffff;
}

#define SHORTER \
	ASKED; \
	if (ctx->len < ROOM + 34 || bpf_skb_change_tail(ctx, ctx->len - ROOM, 0)) \
		return NONE_ENOUGH

SEC("tc")
int ends(struct __sk_buff *ctx)
{
	__u32 sum = 0, length;
	SHORTER;

	length = asked.flags & 128 ? asked.to | 1 << 20 : asked.size % 21;
	sum = joined(sum, bpf_skb_change_head(ctx, length, asked.flags & 1));
	length = asked.place % 3 ? ctx->len - 10 + asked.place % 30 : asked.place % 50;
	if (asked.flags & 64)
		length = asked.from | 1 << 20;
	sum = joined(sum, bpf_skb_change_tail(ctx, length, asked.flags & 2));
	return whole(ctx, sum);
}

SEC("tc")
int room(struct __sk_buff *ctx)
{
	__u64 flags;
	__u32 sum = 0;
	int more;
	SHORTER;

	more = asked.to & 1 ? (int)asked.place | 4096 : (asked.first & 31) - 10;
	flags = asked.from & 1 ? asked.size & 127 : (__u64)(asked.from & 30) << 55;
	sum = joined(sum, bpf_skb_adjust_room(ctx, more, asked.flags & 3, flags | (asked.from & 6)));
	sum = joined(sum, bpf_skb_adjust_room(ctx, (asked.second & 31) - 12, asked.flags >> 2 & 1, asked.flags & 32));
	sum = joined(sum, bpf_skb_change_tail(ctx, ctx->len - 1, 0));
	return whole(ctx, sum);
}

SEC("tc")
int tags(struct __sk_buff *ctx)
{
	__u32 sum = 0;
	SHORTER;

	for (int i = 0; i < 8; i++) {
		__u16 type = asked.first >> i & 1 ? TAG : asked.second >> i & 1 ? SERVICE_TAG : IPV4;

		if (asked.size >> i & 1)
			sum = joined(sum, bpf_skb_vlan_push(ctx, type, asked.place >> i));
		else
			sum = joined(sum, bpf_skb_vlan_pop(ctx));
		sum = joined(joined(joined(joined(sum, ctx->vlan_tci), ctx->vlan_proto), ctx->vlan_present), ctx->protocol);
	}
	return whole(ctx, sum);
}

SEC("tc")
int translated(struct __sk_buff *ctx)
{
	__u32 sum = 0;
	SHORTER;

	sum = joined(sum, bpf_skb_change_proto(ctx, asked.flags & 1 ? IPV6 : IPV4, asked.flags & 128));
	sum = joined(sum, bpf_skb_change_proto(ctx, asked.flags & 2 ? IPV6 : asked.flags & 4 ? IPV4 : 0x0608, 0));
	return whole(ctx, sum);
}

SEC("tc")
int relative(struct __sk_buff *ctx)
{
	__u8 bytes[16] = { 1, 2, 3 };
	int error, sum = 0;
	ASKED;

	error = bpf_skb_load_bytes_relative(ctx, asked.place, bytes, (asked.size & 7) + 1, asked.flags & 3);
	for (int i = 0; i < 16; i++)
		sum = sum * 3 + bytes[i];
	return (error & 0xff) | (sum & 0x7fffff) << 8;
}

SEC("tc")
int typed(struct __sk_buff *ctx)
{
	int one, other;
	ASKED;

	/* (which type it has at first is the network's) */
	one = bpf_skb_change_type(ctx, asked.size & 3);
	other = bpf_skb_change_type(ctx, asked.flags & 7);
	return BOTH(one, other) | ctx->pkt_type << 16;
}

#ifdef BPFDB_TC
#define AS_LOOPBACK bpfdb_world.is_tc = 1, bpfdb_network.mtu = 65536
#elif defined BPFDB_XDP
#define AS_LOOPBACK bpfdb_network.mtu = 65536
#else
#define AS_LOOPBACK (void)0
#endif
/* Of interface 0, 1 or one that isn't there. */
#define MTU \
	__u32 mtu; \
	int answer, more; \
	ASKED; \
	AS_LOOPBACK; \
	mtu = asked.flags & 4 ? 0 : asked.from % 70000; \
	more = asked.flags & 32 ? 0 : asked.flags & 64 ? (int)asked.to : asked.to % 70000; \
	answer = bpf_check_mtu(ctx, asked.flags & 8 ? 0x80000000 : asked.flags >> 4 & 1, &mtu, more, asked.flags & 3); \
	return (answer & 0xff) | mtu << 8

SEC("xdp")
int largest(struct xdp_md *ctx)
{
	MTU;
}

SEC("tc")
int largest_of_tc(struct __sk_buff *ctx)
{
	MTU;
}

/* (Behind a tag Linux looks for the header at the tag's place.) */
SEC("tc")
int congested(struct __sk_buff *ctx)
{
	__u32 sum = 0;
	ASKED;

	if (ctx->protocol == TAG || ctx->protocol == SERVICE_TAG)
		return NONE_ENOUGH;
	sum = joined(sum, bpf_skb_ecn_set_ce(ctx));
	sum = joined(sum, bpf_skb_ecn_set_ce(ctx));
	return whole(ctx, sum);
}

SEC("tc")
int levels(struct __sk_buff *ctx)
{
	__u32 sum = 0;
	SHORTER;

	for (int i = 0; i < 8; i++) {
		sum = joined(sum, bpf_csum_level(ctx, asked.place >> 4 * i & (asked.flags & 1 ? 7 : 3)));
		sum = joined(sum, bpf_csum_level(ctx, BPF_CSUM_LEVEL_QUERY));
	}
	sum = joined(sum, bpf_skb_adjust_room(ctx, 0, 0, asked.flags & 32));
	sum = joined(sum, bpf_csum_level(ctx, BPF_CSUM_LEVEL_QUERY));
	sum = joined(sum, bpf_csum_update(ctx, 1));
	return sum & 0x7fffffff;
}

SEC("tc")
int hashed(struct __sk_buff *ctx)
{
	__u32 sum = 0, first;
	ASKED;

	asked.from |= 1;
	sum = joined(sum, bpf_set_hash(ctx, asked.from));
	sum = joined(joined(sum, bpf_get_hash_recalc(ctx)), ctx->hash);
	bpf_set_hash_invalid(ctx);
	sum = joined(sum, ctx->hash);
	first = bpf_get_hash_recalc(ctx);
	/* (which number that is, is each kernel's own) */
	return joined(joined(joined(sum, !first), first == ctx->hash), first == bpf_get_hash_recalc(ctx)) & 0x7fffffff;
}

/* Sets a key of one of its sizes, as the packet asks. */
static __always_inline long set_key(struct __sk_buff *ctx, struct bpf_tunnel_key *key, const struct asked *asked)
{
	switch (asked->size >> 5) {
	case 0: return bpf_skb_set_tunnel_key(ctx, key, 8, asked->flags & 15);
	case 1: return bpf_skb_set_tunnel_key(ctx, key, 22, asked->flags & 15);
	case 2: return bpf_skb_set_tunnel_key(ctx, key, 24, asked->flags & 15);
	case 3: return bpf_skb_set_tunnel_key(ctx, key, 28, asked->flags & 15);
	case 4: return bpf_skb_set_tunnel_key(ctx, key, 32, asked->flags & 15);
	default: return bpf_skb_set_tunnel_key(ctx, key, sizeof(*key), asked->flags & 47);
	}
}

static __always_inline long get_key(struct __sk_buff *ctx, struct bpf_tunnel_key *key, const struct asked *asked)
{
	switch (asked->size & 7) {
	case 0: return bpf_skb_get_tunnel_key(ctx, key, 8, asked->flags & 17);
	case 1: return bpf_skb_get_tunnel_key(ctx, key, 22, asked->flags & 17);
	case 2: return bpf_skb_get_tunnel_key(ctx, key, 28, asked->flags & 17);
	case 3: return bpf_skb_get_tunnel_key(ctx, key, 32, asked->flags & 17);
	default: return bpf_skb_get_tunnel_key(ctx, key, sizeof(*key), asked->flags & 0x53);
	}
}

/* A key is set, with options, and both are looked for. */
SEC("tc")
int tunnelled(struct __sk_buff *ctx)
{
	struct bpf_tunnel_key key = {}, got = {};
	__u8 options[24] = {};
	__u32 sum = 0;
	ASKED;

	key.tunnel_id = asked.place;
	key.remote_ipv6[0] = asked.from, key.remote_ipv6[1] = asked.to, key.remote_ipv6[3] = asked.place;
	key.local_ipv6[0] = asked.to, key.local_ipv6[2] = asked.from;
	key.tunnel_tos = asked.size, key.tunnel_ttl = asked.flags;
	key.tunnel_ext = (asked.first & 7) == 1;
	key.tunnel_label = asked.second & 3 ? 0 : asked.place;
	sum = joined(sum, bpf_skb_get_tunnel_key(ctx, &got, sizeof(got), 0));
	sum = joined(sum, bpf_skb_set_tunnel_opt(ctx, options, 4));
	sum = joined(sum, set_key(ctx, &key, &asked));
	sum = joined(sum, bpf_skb_get_tunnel_opt(ctx, options, sizeof(options)));
	for (int i = 0; i < 16; i++)
		options[i] = asked.to + i;
	if (asked.from & 1)
		sum = joined(sum, bpf_skb_set_tunnel_opt(ctx, options, asked.from & 2 ? 16 : asked.from & 4 ? 7 : 8));
	if (asked.from & 8)
		sum = joined(sum, bpf_skb_get_tunnel_opt(ctx, options, sizeof(options)));
	else
		sum = joined(sum, bpf_skb_get_tunnel_opt(ctx, options, 8));
	sum = joined(sum, get_key(ctx, &got, &asked));
	for (int i = 0; i < 24; i++)
		sum = joined(sum, options[i]);
	for (int i = 0; i < sizeof(got) / 4; i++)
		sum = joined(sum, ((__u32 *)&got)[i]);
	return sum & 0x7fffffff;
}

SEC("tc")
int neighbour(struct __sk_buff *ctx)
{
	struct bpf_redir_neigh next = {};
	ASKED;

	switch (asked.flags & 6) {
	case 0: return bpf_redirect_peer(asked.place, asked.flags & 1);
	case 2: return bpf_redirect_neigh(asked.place, &next, sizeof(next) - 1, asked.flags & 1);
	case 4: return bpf_redirect_neigh(asked.place, NULL, 0, asked.flags & 1);
	default: return bpf_redirect_neigh(asked.place, &next, sizeof(next), asked.flags & 1);
	}
}

/* Numbers in the packet's bytes. */
#define READ_BY(NAME, TYPE) \
	SEC("tc") \
	int read_##NAME(struct __sk_buff *ctx) \
	{ \
		char text[24] = {}; \
		TYPE number = 1; \
		__u64 base; \
		int taken; \
		ASKED; \
		for (int i = 0; i < 24; i++) { \
			__u32 word = i & 1 ? asked.from : asked.to; \
			const char *digits = asked.flags & 4 ? "0123456789abcdef" : "0123456707654321"; \
			text[i] = i < asked.size % 6 ? " \t-0x0\n5"[asked.place >> 2 * i & 7] : digits[word >> i & 15]; \
		} \
		text[23] = asked.flags & 8 ? 'g' : '1'; \
		base = asked.flags & 3 ? (asked.flags & 1 ? 10 : 16) : asked.flags >> 5; \
		if (asked.flags & 16) \
			taken = bpf_##NAME(text, sizeof(text), base, &number); \
		else \
			taken = bpf_##NAME(text, (asked.place & 15) + 1, base, &number); \
		return joined(joined(joined(0, taken), number), (__u64)number >> 32) & 0x7fffffff; \
	}

READ_BY(strtol, long)
READ_BY(strtoul, unsigned long)

char LICENSE[] SEC("license") = "GPL";

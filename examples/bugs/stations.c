/* Admits the frames of stations that have said by ARP who they are, and drops those of all others. */
#include <linux/bpf.h>
#include <linux/if_ether.h>
#include <bpf/bpf_endian.h>
#include <bpf/bpf_helpers.h>

struct arp_frame {
	struct ethhdr eth;
	__be16 types[2];
	__u8 lengths[2];
	__be16 operation;
	__u8 sender[ETH_ALEN];
	__u8 sender_ip[4];
	__u8 target[ETH_ALEN];
	__u8 target_ip[4];
};

struct station {
	__u8 address[ETH_ALEN];
	__u32 port;
};

struct {
	__uint(type, BPF_MAP_TYPE_HASH);
	__uint(max_entries, 1024);
	__type(key, struct station);
	__type(value, __u64);
} stations SEC(".maps");

/* The address is copied by eight bytes: the last two fall into the padding. */
static __always_inline void make_key(struct station *key, const __u8 *address, __u32 port)
{
	*(__u64 *)key = *(const __u64 *)address;
	key->port = port;
}

static __always_inline void learn(struct arp_frame *frame, __u32 port)
{
	struct station key = {};
	__u64 frames = 0;

	make_key(&key, frame->sender, port);
	bpf_map_update_elem(&stations, &key, &frames, BPF_NOEXIST);
}

SEC("xdp")
int admit(struct xdp_md *ctx)
{
	void *data = (void *)(long)ctx->data;
	void *end = (void *)(long)ctx->data_end;
	struct arp_frame *frame = data;
	struct station key = {};
	__u64 *frames;

	if ((void *)(&frame->eth + 1) > end)
		return XDP_DROP;
	if (frame->eth.h_proto == bpf_htons(ETH_P_ARP) && (void *)(frame + 1) <= end)
		learn(frame, ctx->ingress_ifindex);

	make_key(&key, frame->eth.h_source, ctx->ingress_ifindex);
	frames = bpf_map_lookup_elem(&stations, &key);
	if (!frames)
		return XDP_DROP;
	__sync_fetch_and_add(frames, 1);
	return XDP_PASS;
}

char LICENSE[] SEC("license") = "GPL";

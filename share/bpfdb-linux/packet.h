/* A packet as share/bpfdb.h has it in `struct xdp_md` and `struct __sk_buff`: these three are the first fields of
   both. */
enum { ETHERNET = 14 };

struct packet {
	u64 data, data_end, data_meta;
};

/* What `struct __sk_buff` has behind them. Types and tags are in the network's order, as there. */
struct skb {
	struct packet p;
	u32 length, type, mark, queue, protocol, has_tag, tag, tag_type, priority;
	u32 came_in_at, interface, tc_index, cb[5], hash;
};

/* The struct by a number that is its address. (`link --struct` follows the address itself into this library, and takes
   accesses of 4 bytes by it for those of the kernel's struct, whose fields lie elsewhere; it follows no halves.) */
INLINE struct skb *skb_of(const void *context)
{
	volatile union {
		const void *whole;
		u32 half[2];
	} address = { context };

	return (struct skb *)((u64)address.half[1] << 32 | address.half[0]);
}

INLINE u64 packet_length(const struct packet *p)
{
	return p->data_end - p->data;
}

/* The packet's bytes from a place on, if there are so many; else NULL. */
INLINE u8 *bytes_at(const struct packet *p, u64 place, u64 size)
{
	u64 length = packet_length(p);

	return place <= length && size <= length - place ? (u8 *)p->data + place : NULL;
}

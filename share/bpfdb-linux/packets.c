/* Helpers of programs for XDP and tc. The packet is the context's bytes: there is no room before the first one, and none
   behind the last. */
enum { MOST_META = 32, LONGEST_PACKET = 0xffff };

/* How far into the context packets may grow: as far as it goes, where somebody said so; else as far as one has reached.
   (Whatever moves an end asks this before, so the first that it sees is where the packet ended.) */
INLINE u32 farthest_end(const struct packet *p)
{
	if (bpfdb_packet_end < (u32)p->data_end)
		bpfdb_packet_end = (u32)p->data_end;
	return bpfdb_context_len < MOST_CONTEXT ? (u32)bpfdb_context_len : bpfdb_packet_end;
}

HELPER long bpf_xdp_adjust_head(struct packet *p, s32 delta)
{
	u64 data = p->data + (s64)delta, meta = p->data - p->data_meta;

	if (data < CONTEXT + meta || data > p->data_end - ETHERNET)
		return -EINVAL;
	shift((u8 *)data - meta, (u8 *)p->data_meta, meta);
	p->data_meta = data - meta;
	p->data = data;
	return 0;
}

HELPER long bpf_xdp_adjust_tail(struct packet *p, s32 delta)
{
	u64 end = p->data_end + (s64)delta;

	if (end < p->data + ETHERNET || (u32)end > farthest_end(p))
		return -EINVAL;
	if (delta > 0)
		clear((u8 *)p->data_end, delta);
	p->data_end = end;
	return 0;
}

HELPER long bpf_xdp_adjust_meta(struct packet *p, s32 delta)
{
	u64 meta = p->data_meta + (s64)delta;

	if (meta < CONTEXT || meta > p->data)
		return -EINVAL;
	if ((p->data - meta) % 4 || p->data - meta > MOST_META)
		return -EACCES;
	p->data_meta = meta;
	return 0;
}

HELPER u64 bpf_xdp_get_buff_len(struct packet *p)
{
	return packet_length(p);
}

HELPER long bpf_xdp_load_bytes(struct packet *p, u32 place, void *to, u32 size)
{
	const u8 *from = bytes_at(p, place, size);

	if (place > LONGEST_PACKET || size > LONGEST_PACKET)
		return -EFAULT;
	if (!from)
		return -EINVAL;
	copy(to, from, size);
	return 0;
}

HELPER long bpf_xdp_store_bytes(struct packet *p, u32 place, const void *from, u32 size)
{
	u8 *to = bytes_at(p, place, size);

	if (place > LONGEST_PACKET || size > LONGEST_PACKET)
		return -EFAULT;
	if (!to)
		return -EINVAL;
	copy(to, from, size);
	return 0;
}

HELPER long bpf_skb_load_bytes(struct packet *p, u32 place, void *to, u32 size)
{
	const u8 *from = bytes_at(p, place, size);

	if (!from) {
		clear(to, size);
		return -EFAULT;
	}
	copy(to, from, size);
	return 0;
}

HELPER long bpf_skb_store_bytes(struct packet *p, u32 place, const void *from, u32 size, u64 flags)
{
	enum { NEW_SUM = 1, NEW_HASH = 2 };
	u8 *to = bytes_at(p, place, size);

	if (flags & ~(u64)(NEW_SUM | NEW_HASH))
		return -EINVAL;
	if (!to)
		return -EFAULT;
	copy(to, from, size);
	return 0;
}

/* All bytes are where a program can reach them. */
HELPER long bpf_skb_pull_data(struct packet *p, u32 size)
{
	return size > packet_length(p) ? -ENOMEM : 0;
}

/* A world without routes. What is asked begins with the family of the address. */
HELPER long bpf_fib_lookup(void *context UNUSED, const u8 *asked, s32 size, u32 flags)
{
	enum { ASKED = 64, FLAGS = 31, NOT_FORWARDED = 4, IPV4 = 2, IPV6 = 10 };

	if (size < ASKED || flags & ~(u32)FLAGS)
		return -EINVAL;
	return *asked == IPV4 || *asked == IPV6 ? NOT_FORWARDED : -EAFNOSUPPORT;
}

/* A world without sockets: none is found, so none that is found is given back. */
HELPER void *bpf_sk_lookup_tcp(void *context UNUSED, void *tuple UNUSED, u32 size UNUSED)
{
	return NULL;
}

HELPER void *bpf_sk_lookup_udp(void *context UNUSED, void *tuple UNUSED, u32 size UNUSED)
{
	return NULL;
}

HELPER void *bpf_skc_lookup_tcp(void *context UNUSED, void *tuple UNUSED, u32 size UNUSED)
{
	return NULL;
}

HELPER long bpf_sk_release(void *socket UNUSED)
{
	return 0;
}

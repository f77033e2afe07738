/* Helpers of tc that change what an skb has: its headers, its ends, its tag, its type. It grows into room before it, else
   behind it: where there is none, that is a want of memory. */
enum { LONGEST_SKB = 16064, ADDRESSES = 12, TAG = 4, IPV4_HEADER = 20, IPV6_HEADER = 40 };
/* Types of Ethernet's, as they lie in a packet. */
enum { IPV4 = 0x0008, IPV6 = 0xdd86, TAGGED = 0x0081, TAGGED_BY_SERVICE = 0xa888, OF_802_3 = 0x0100, OF_802_2 = 0x0400 };

INLINE u16 swapped(u16 word)
{
	return word << 8 | word >> 8;
}

/* Whether there is room for so many bytes more; then they lie behind the first `place` ones, and are zero. These move
   down, or what is behind them up. */
SHARED int has_widened(struct skb *s, u64 place, u64 size)
{
	u64 length = packet_length(&s->p);
	u8 *data = (u8 *)s->p.data;

	if (place > length)
		place = length;
	if (s->p.data >= CONTEXT + size) {
		shift(data - size, data, place);
		s->p.data -= size;
	} else if (s->p.data && (u32)s->p.data_end + size <= farthest_end(&s->p)) {
		shift(data + place + size, data + place, length - place);
		s->p.data_end += size;
	} else {
		return 0;
	}
	clear((u8 *)s->p.data + place, size);
	s->p.data_meta = s->p.data;
	s->length += size;
	return 1;
}

/* Takes out so many bytes behind the first `place` ones, which move up. */
SHARED void narrow(struct skb *s, u64 place, u64 size)
{
	u8 *data = (u8 *)s->p.data;

	shift(data + size, data, place);
	s->p.data += size;
	s->p.data_meta = s->p.data;
	s->length -= size;
}

HELPER long bpf_skb_change_head(void *context, u32 size, u64 flags)
{
	struct skb *s = skb_of(context);
	if (flags || packet_length(&s->p) + size > LONGEST_SKB)
		return -EINVAL;
	if (!has_widened(s, 0, size))
		return -ENOMEM;
	bpfdb_network.header += size;
	return 0;
}

HELPER long bpf_skb_change_tail(void *context, u32 length, u64 flags)
{
	struct skb *s = skb_of(context);
	u64 present = packet_length(&s->p);

	if (flags || length > LONGEST_SKB || length < bpfdb_network.header)
		return -EINVAL;
	if (bpfdb_network.is_encapsulated)
		return -ENOTSUPP;
	if (length > present)
		return has_widened(s, present, length - present) ? 0 : -ENOMEM;
	farthest_end(&s->p);
	s->p.data_end -= present - length;
	s->length = length;
	return 0;
}

HELPER long bpf_skb_change_type(void *context, u32 type)
{
	enum { OF_ANOTHER_HOST = 3 };
	struct skb *s = skb_of(context);

	if (s->type > OF_ANOTHER_HOST || type > OF_ANOTHER_HOST)
		return -EINVAL;
	s->type = type;
	return 0;
}

/* From IPv4 to IPv6 and back: the header has 20 bytes more or less, which the program fills. */
HELPER long bpf_skb_change_proto(void *context, u32 protocol, u64 flags)
{
	enum { MORE = IPV6_HEADER - IPV4_HEADER };
	struct skb *s = skb_of(context);
	u32 header = bpfdb_network.header;
	u16 type = protocol;

	if (flags)
		return -EINVAL;
	if (s->protocol == IPV4 && type == IPV6) {
		if (!has_widened(s, header, MORE))
			return -ENOMEM;
	} else if (s->protocol == IPV6 && type == IPV4) {
		if (!bytes_at(&s->p, header, MORE))
			return -ENOMEM;
		narrow(s, header, MORE);
	} else {
		return -ENOTSUPP;
	}
	s->protocol = type;
	s->hash = 0;
	return 0;
}

/* Flags of room: for fixed segments, in what the packet is put, and how many bytes of a header of Ethernet go with it. */
enum {
	FIXED_SEGMENTS = 1, IN_IPV4 = 2, IN_IPV6 = 4, IN_GRE = 8, IN_UDP = 16, KEEPS_CHECKSUM = 32, IN_ETHERNET = 64,
	ROOM_FLAGS = 127, INNER_SHIFT = 56
};

/* What Linux says of flags by which a packet is put into another one. */
INLINE long refusal_of_room(u64 flags, u32 size)
{
	u32 inner = flags >> INNER_SHIFT;

	if (!(flags & (IN_IPV4 | IN_IPV6)))
		return 0;
	if ((flags & IN_IPV4 && flags & IN_IPV6) || (flags & IN_GRE && flags & IN_UDP) ||
	    (flags & IN_ETHERNET && inner < ETHERNET))
		return -EINVAL;
	if (bpfdb_network.is_encapsulated)
		return -EALREADY;
	return inner > size ? -EINVAL : 0;
}

INLINE long make_room(struct skb *s, u32 place, u32 size, u64 flags)
{
	long refusal = refusal_of_room(flags, size);

	if (refusal)
		return refusal;
	if (!has_widened(s, place, size))
		return -ENOMEM;
	if (flags & (IN_IPV4 | IN_IPV6)) {
		bpfdb_network.is_encapsulated = 1;
		s->protocol = flags & IN_IPV6 ? IPV6 : IPV4;
	}
	return 0;
}

INLINE long take_room(struct skb *s, u32 place, u32 size, u64 flags)
{
	if (flags & ~(u64)(FIXED_SEGMENTS | KEEPS_CHECKSUM))
		return -EINVAL;
	narrow(s, place, size);
	return 0;
}

/* Room behind the header of Ethernet, or behind the one of IP. */
HELPER long bpf_skb_adjust_room(void *context, s32 more, u32 mode, u64 flags)
{
	enum { BEHIND_IP = 0, BEHIND_ETHERNET = 1, MOST_ROOM = 0xfff };
	struct skb *s = skb_of(context);
	u32 ip = s->protocol == IPV4 ? IPV4_HEADER : IPV6_HEADER, size = more < 0 ? -more : more;
	u32 place = bpfdb_network.header + (mode == BEHIND_IP ? ip : 0);
	u64 length = packet_length(&s->p), behind = length > bpfdb_network.header ? length - bpfdb_network.header : 0;
	long refusal;

	if (flags & ~(ROOM_FLAGS | 0xffull << INNER_SHIFT))
		return -EINVAL;
	if (size > MOST_ROOM)
		return -EFAULT;
	if ((s->protocol != IPV4 && s->protocol != IPV6) || mode > BEHIND_ETHERNET)
		return -ENOTSUPP;
	if (more < 0 ? size >= behind || behind - size < ip : length + size > LONGEST_SKB)
		return -ENOTSUPP;
	refusal = more < 0 ? take_room(s, place, size, flags) : make_room(s, place, size, flags);
	if (!refusal && !(flags & KEEPS_CHECKSUM))
		bpfdb_network.checksum = 0;
	return refusal;
}

INLINE int is_tag(u16 type)
{
	return type == TAGGED || type == TAGGED_BY_SERVICE;
}

/* Tags: one lies beside the packet, any others in it. */
HELPER long bpf_skb_vlan_push(void *context, u32 type, u32 tag)
{
	struct skb *s = skb_of(context);
	if (s->has_tag) {
		if (!has_widened(s, ADDRESSES, TAG))
			return -ENOMEM;
		((u16 *)(s->p.data + ADDRESSES))[0] = s->tag_type;
		((u16 *)(s->p.data + ADDRESSES))[1] = swapped(s->tag);
		s->protocol = s->tag_type;
		bpfdb_network.header += TAG;
	}
	s->has_tag = 1;
	s->tag = (u16)tag;
	s->tag_type = is_tag(type) ? (u16)type : TAGGED;
	return 0;
}

/* Takes the packet's first tag out of it: its number, or below 0 where the packet ends before. */
INLINE long taken_tag(struct skb *s)
{
	const u16 *words = (const u16 *)bytes_at(&s->p, ADDRESSES, TAG + sizeof(u16));
	u64 length = packet_length(&s->p);
	u16 tag;

	if (!words)
		return -ENOMEM;
	tag = swapped(words[1]);
	s->protocol = words[2];
	if (swapped(words[2]) < 0x600)
		s->protocol = length >= ETHERNET + TAG + sizeof(u16) && words[3] == 0xffff ? OF_802_3 : OF_802_2;
	narrow(s, ADDRESSES, TAG);
	if (bpfdb_network.header < ETHERNET + TAG)
		bpfdb_network.header = ETHERNET;
	else
		bpfdb_network.header -= TAG;
	return tag;
}

HELPER long bpf_skb_vlan_pop(void *context)
{
	struct skb *s = skb_of(context);
	u16 type;
	long tag;

	/* (the tag that goes is still told, as in Linux 6.1) */
	if (s->has_tag) {
		s->has_tag = 0;
	} else {
		if (!is_tag(s->protocol))
			return 0;
		tag = taken_tag(s);
		if (tag < 0)
			return tag;
	}
	if (!is_tag(s->protocol))
		return 0;
	type = s->protocol;
	tag = taken_tag(s);
	if (tag < 0)
		return tag;
	s->has_tag = 1;
	s->tag = tag;
	s->tag_type = type;
	return 0;
}

HELPER long bpf_skb_load_bytes_relative(void *context, u32 place, void *to, u32 size, u32 start)
{
	enum { OF_FRAME = 0, OF_NETWORK = 1 };
	struct skb *s = skb_of(context);
	const u8 *from = bytes_at(&s->p, (u64)place + (start == OF_NETWORK ? bpfdb_network.header : 0), size);

	if (place > LONGEST_PACKET || start > OF_NETWORK || !from) {
		clear(to, size);
		return -EFAULT;
	}
	copy(to, from, size);
	return 0;
}

/* "Congestion experienced", where a header of IP says that its ends know it: 1 if it says so then. */
HELPER long bpf_skb_ecn_set_ce(void *context)
{
	enum { ECN = 3 };
	struct skb *s = skb_of(context);
	u8 *header = bytes_at(&s->p, bpfdb_network.header, s->protocol == IPV4 ? IPV4_HEADER : IPV6_HEADER);
	u16 *sum = (u16 *)(header + 10), more;
	u32 ecn;

	if (!header || (s->protocol != IPV4 && s->protocol != IPV6))
		return 0;
	if (s->protocol == IPV6) {
		if (!(header[1] >> 4 & ECN))
			return 0;
		header[1] |= ECN << 4;
		return 1;
	}
	ecn = header[1] & ECN;
	if (!ecn || ecn == ECN)
		return ecn == ECN;
	more = swapped(0xfffb) + swapped(ecn + 1);
	*sum += more;
	*sum += *sum < more;
	header[1] |= ECN;
	return 1;
}

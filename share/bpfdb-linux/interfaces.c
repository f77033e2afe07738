/* Interfaces, and what is known of a packet beside its bytes. Each number but 0 is that of an interface. */
INLINE int has_interface(u32 number)
{
	return number && number <= 0x7fffffff;
}

/* A copy of the packet goes out at once, and the packet stays. */
HELPER long bpf_clone_redirect(const void *context, u32 interface, u64 flags)
{
	enum { INGRESS = 1 };
	const struct packet *p = &skb_of(context)->p;
	u64 length = packet_length(p);
	struct bpfdb_record *record;

	if (flags & ~(u64)INGRESS || !has_interface(interface))
		return -EINVAL;
	record = new_record(BPFDB_NO_MAP, BPFDB_PACKET, length);
	if (!record)
		return -ENOMEM;
	record->index = interface;
	copy(record->data, (const void *)p->data, length);
	return 0;
}

/* Redirects that tc alone has: to a neighbour, and to the other end of a pair of interfaces. */
INLINE long redirected(u32 interface, int is_refused)
{
	enum { SHOT = 2, REDIRECT = 7 };

	if (is_refused)
		return SHOT;
	bpfdb_world.redirected_to = interface;
	return REDIRECT;
}

HELPER long bpf_redirect_neigh(u32 interface, void *neighbour UNUSED, s32 size, u64 flags)
{
	enum { NEIGHBOUR = 20 };

	return redirected(interface, flags || (size && (u32)size < NEIGHBOUR));
}

HELPER long bpf_redirect_peer(u32 interface, u64 flags)
{
	return redirected(interface, flags != 0);
}

/* Whether a packet, longer by so many bytes, is short enough for an interface: of 0 for that on which it is. What is asked
   may be of another length, which counts without the header of Ethernet. */
HELPER long bpf_check_mtu(const void *context, u32 interface, u32 *mtu, s32 more, u64 flags)
{
	enum { SEGMENTS = 1, FITS = 0, MUST_BE_CUT = 1 };
	s32 length = *mtu ? *mtu + ETHERNET : packet_length(&skb_of(context)->p);
	long answer = FITS;

	if (flags & ~(u64)(bpfdb_world.is_tc ? SEGMENTS : 0) || (flags && (more || *mtu)))
		answer = -EINVAL;
	else if (interface && !has_interface(interface))
		answer = -ENODEV;
	else if (length + more > (s32)bpfdb_network.mtu + ETHERNET)
		answer = MUST_BE_CUT;
	*mtu = answer < 0 ? 0 : bpfdb_network.mtu;
	return answer;
}

/* The hash of a packet's flow, that is here of its addresses: what the field has, once it is there. */
HELPER u64 bpf_get_hash_recalc(void *context)
{
	enum { PLACE_4 = 12, SIZE_4 = 8, PLACE_6 = 8, SIZE_6 = 32 };
	struct skb *s = skb_of(context);
	int is_6 = s->protocol == IPV6, has_addresses = is_6 || s->protocol == IPV4;
	u32 size = is_6 ? SIZE_6 : SIZE_4;
	const u8 *addresses = bytes_at(&s->p, bpfdb_network.header + (is_6 ? PLACE_6 : PLACE_4), size);

	if (!s->hash)
		s->hash = has_addresses && addresses ? hash_of(addresses, size) | 1 : 1;
	return s->hash;
}

HELPER long bpf_set_hash_invalid(void *context)
{
	struct skb *s = skb_of(context);
	s->hash = 0;
	return 0;
}

HELPER long bpf_set_hash(void *context, u32 hash)
{
	struct skb *s = skb_of(context);
	s->hash = hash;
	return 0;
}

/* How many checksums of a packet are known to be right, one within the other: none at first. */
HELPER long bpf_csum_level(void *context UNUSED, u64 level)
{
	enum { ASK = 0, MORE = 1, LESS = 2, NONE = 3, MOST = 4 };
	u32 *known = &bpfdb_network.checksum;

	if (level == ASK)
		return *known ? (long)*known - 1 : -EACCES;
	if (level > NONE)
		return -EINVAL;
	if (level == MORE && *known < MOST)
		++*known;
	else if (level == LESS && *known)
		--*known;
	else if (level == NONE)
		*known = 0;
	return 0;
}

/* (no checksum of the whole packet is the device's) */
HELPER s64 bpf_csum_update(void *context UNUSED, u32 sum UNUSED)
{
	return -ENOTSUPP;
}

/* No route, so no realm of one; and nothing of IPsec. */
HELPER u64 bpf_get_route_realm(void *context UNUSED)
{
	return 0;
}

HELPER long bpf_skb_get_xfrm_state(void *context UNUSED, u32 index UNUSED, void *to, u32 size, u64 flags UNUSED)
{
	clear(to, size);
	return -EINVAL;
}

/* Tunnels: the key and the options that a packet came with, or that it is to go out with. A program that looks for what it
   has set finds, as in Linux, its own end as the other one's, and the other way round. */
enum { FOR_IPV6 = 1, WITHOUT_SUM = 2, WHOLE = 4, COUNTED = 8, WITH_FLAGS = 16, HAS_OPTIONS = 0xd8 };

/* As `struct bpf_tunnel_key` has it; before there were all fields it ended sooner. */
struct key {
	u32 id;
	u32 remote[4];
	u8 tos, ttl;
	u16 flags;
	u32 label;
	u32 local[4];
};

enum { TO_LOCAL = 28, TO_LABEL = 24, TO_FLAGS = 22, TO_REMOTE_6 = 8 };

INLINE int is_size_of_key(u32 size)
{
	return size == sizeof(struct key) || size == TO_LOCAL || size == TO_LABEL || size == TO_FLAGS ||
	       size == TO_REMOTE_6;
}

HELPER long bpf_skb_get_tunnel_key(void *context UNUSED, void *to, u32 size, u64 flags)
{
	const struct bpfdb_tunnel *t = &bpfdb_network.tunnel;
	struct key key = { .id = t->id, .tos = t->tos, .ttl = t->ttl, .flags = flags & WITH_FLAGS ? t->flags : 0 };
	u32 addresses = t->is_ipv6 ? sizeof(key.remote) : sizeof(u32);
	long error = 0;

	if (t->key == BPFDB_NO_KEY || flags & ~(u64)(FOR_IPV6 | WITH_FLAGS))
		error = -EINVAL;
	else if (!t->is_ipv6 != !(flags & FOR_IPV6))
		error = -EPROTO;
	else if (!is_size_of_key(size) || (size == TO_REMOTE_6 && t->is_ipv6))
		error = -EINVAL;
	copy(key.remote, t->source, addresses);
	copy(key.local, t->target, addresses);
	key.label = t->is_ipv6 ? t->label : 0;
	if (error)
		clear(to, size);
	else
		copy(to, &key, size);
	return error;
}

HELPER long bpf_skb_set_tunnel_key(void *context UNUSED, const void *from, u32 size, u64 flags)
{
	enum { MOST_LABEL = 0xfffff };
	/* (in the network's order: a sum, a key, no cache; a number in order; whole) */
	enum { SUM_FLAG = 0x0100, KEY_FLAGS = 0x0420, NUMBER_FLAG = 0x0800, WHOLE_FLAG = 0x0001 };
	struct bpfdb_tunnel *t = &bpfdb_network.tunnel;
	u32 addresses = flags & FOR_IPV6 ? sizeof(t->source) : sizeof(u32);
	struct key key = {};

	if (flags & ~(u64)(FOR_IPV6 | WITHOUT_SUM | WHOLE | COUNTED) || !is_size_of_key(size))
		return -EINVAL;
	copy(&key, from, size);
	if (key.flags || (key.label && !(flags & FOR_IPV6)))
		return -EINVAL;
	clear(t, sizeof(*t));
	t->key = BPFDB_KEY_SET;
	t->is_ipv6 = flags & FOR_IPV6;
	t->id = key.id;
	t->label = key.label & MOST_LABEL;
	t->tos = key.tos;
	t->ttl = key.ttl;
	t->flags = KEY_FLAGS | (flags & WITHOUT_SUM ? 0 : SUM_FLAG) | (flags & COUNTED ? NUMBER_FLAG : 0) |
		   (flags & WHOLE ? WHOLE_FLAG : 0);
	copy(t->source, key.local, addresses);
	copy(t->target, key.remote, addresses);
	return 0;
}

HELPER long bpf_skb_get_tunnel_opt(void *context UNUSED, void *to, u32 size)
{
	const struct bpfdb_tunnel *t = &bpfdb_network.tunnel;
	u32 length = t->options_length;
	long error = 0;

	if (t->key == BPFDB_NO_KEY || !(t->flags & HAS_OPTIONS))
		error = -ENOENT;
	else if (size < length || length > BPFDB_TUNNEL_OPTIONS)
		error = -ENOMEM;
	clear(to, size);
	if (error)
		return error;
	copy(to, t->options, length);
	return length;
}

/* (of a key that the program has set) */
HELPER long bpf_skb_set_tunnel_opt(void *context UNUSED, const void *from, u32 size)
{
	enum { MOST_OPTIONS = 255 };
	struct bpfdb_tunnel *t = &bpfdb_network.tunnel;

	if (t->key != BPFDB_KEY_SET || size % sizeof(u32))
		return -EINVAL;
	if (size > MOST_OPTIONS)
		return -ENOMEM;
	copy(t->options, from, size);
	t->options_length = size;
	t->flags |= HAS_OPTIONS;
	return 0;
}

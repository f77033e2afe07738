/* Sockets. There is none but one that a program has from its context or from a map of its own, and of that its address is
   all that is known. */
#define NO_SOCKET(NAME) \
	HELPER void *NAME(void *socket UNUSED) { return NULL; }

NO_SOCKET(bpf_tcp_sock)
NO_SOCKET(bpf_get_listener_sock)
NO_SOCKET(bpf_sock_from_file)
NO_SOCKET(bpf_skc_to_tcp6_sock)
NO_SOCKET(bpf_skc_to_tcp_sock)
NO_SOCKET(bpf_skc_to_tcp_timewait_sock)
NO_SOCKET(bpf_skc_to_tcp_request_sock)
NO_SOCKET(bpf_skc_to_udp6_sock)
NO_SOCKET(bpf_skc_to_unix_sock)
NO_SOCKET(bpf_skc_to_mptcp_sock)

HELPER void *bpf_sk_fullsock(void *socket)
{
	return socket;
}

/* The socket that a packet goes to, or NULL for the kernel's own choice. */
HELPER long bpf_sk_assign(void *context UNUSED, void *socket, u64 flags)
{
	enum { REPLACES = 1, ALONE = 2 };

	if (flags & ~(u64)(bpfdb_world.is_tc ? 0 : REPLACES | ALONE) || (bpfdb_world.is_tc && !socket))
		return -EINVAL;
	if (bpfdb_network.assigned && !bpfdb_world.is_tc && !(flags & REPLACES))
		return -EEXIST;
	bpfdb_network.assigned = (u64)socket;
	return 0;
}

HELPER u64 bpf_get_socket_cookie(void *context UNUSED)
{
	return bpfdb_network.socket_cookie;
}

HELPER u64 bpf_get_netns_cookie(void *context UNUSED)
{
	return bpfdb_network.netns_cookie;
}

/* What is asked of a packet's socket, where it has none. */
HELPER u64 bpf_get_socket_uid(void *context UNUSED)
{
	enum { NOBODY = 65534 };

	return NOBODY;
}

HELPER u64 bpf_skb_cgroup_id(void *context UNUSED)
{
	return 0;
}

HELPER u64 bpf_skb_ancestor_cgroup_id(void *context UNUSED, s32 level UNUSED)
{
	return 0;
}

HELPER u64 bpf_skb_cgroup_classid(void *context UNUSED)
{
	return 0;
}

HELPER u64 bpf_get_cgroup_classid(void *context UNUSED)
{
	return 0;
}

HELPER long bpf_skb_under_cgroup(void *context UNUSED, struct map *m UNUSED, u32 index UNUSED)
{
	return -ENOENT;
}

/* (A socket is in the one cgroup.) */
HELPER u64 bpf_sk_cgroup_id(void *socket UNUSED)
{
	return bpfdb_world.cgroup;
}

HELPER u64 bpf_sk_ancestor_cgroup_id(void *socket UNUSED, s32 level)
{
	return ancestor_of(bpfdb_world.cgroup, level);
}

/* No socket is in a map of them, and none listens. */
HELPER long bpf_sk_redirect_map(void *context UNUSED, struct map *m UNUSED, u32 key UNUSED, u64 flags UNUSED)
{
	return 0;
}

HELPER long bpf_sk_redirect_hash(void *context UNUSED, struct map *m UNUSED, void *key UNUSED, u64 flags UNUSED)
{
	return 0;
}

HELPER long bpf_msg_redirect_map(void *context UNUSED, struct map *m UNUSED, u32 key UNUSED, u64 flags UNUSED)
{
	return 0;
}

HELPER long bpf_msg_redirect_hash(void *context UNUSED, struct map *m UNUSED, void *key UNUSED, u64 flags UNUSED)
{
	return 0;
}

HELPER long bpf_sock_map_update(void *context UNUSED, struct map *m UNUSED, void *key UNUSED, u64 flags UNUSED)
{
	return -EOPNOTSUPP;
}

HELPER long bpf_sock_hash_update(void *context UNUSED, struct map *m UNUSED, void *key UNUSED, u64 flags UNUSED)
{
	return -EOPNOTSUPP;
}

HELPER long bpf_sk_select_reuseport(void *context UNUSED, struct map *m UNUSED, void *key UNUSED, u64 flags UNUSED)
{
	return -ENOENT;
}

HELPER s64 bpf_tcp_gen_syncookie(void *socket UNUSED, void *ip UNUSED, u32 ip_size UNUSED, void *tcp UNUSED)
{
	return -EINVAL;
}

HELPER long bpf_tcp_check_syncookie(void *socket UNUSED, void *ip UNUSED, u32 ip_size UNUSED, void *tcp UNUSED)
{
	return -EINVAL;
}

/* Which calls of its kind a program of sockets wants: those of its bits that there are, in the context's own field. */
HELPER long bpf_sock_ops_cb_flags_set(void *context, s32 flags)
{
	enum { KNOWN = 127, IS_FULL = 72, FLAGS = 84 };
	u8 *fields = context;

	if (!*(any32 *)(fields + IS_FULL))
		return -EINVAL;
	*(any32 *)(fields + FLAGS) = flags & KNOWN;
	return flags & ~KNOWN;
}

/* Options of the one socket: those that were set, by level and name. */
struct option {
	u32 next, room;
	u32 level, name, length;
	u8 value[];
};

enum { OF_IP = 0, OF_SOCKET = 1, OF_TCP = 6, OF_IPV6_LEVEL = 41 };
enum { CONGESTION = 13, DEVICE = 25, FIRST_BPF = 1001, LAST_BPF = 1004 };

/* The names of those that are a number of four bytes, a bit each. */
#define NUMBERS_OF_SOCKET 0x4000801000049384ull
#define NUMBERS_OF_TCP 0x0a0504f6ull

/* Whether Linux lets programs have such an option, with a value so long. */
INLINE int is_option(u32 level, u32 name, u32 length)
{
	enum { TYPE_OF_SERVICE = 1, REHASH = 74, CLASS_OF_IPV6 = 67, FLOW_LABEL = 70 };
	u32 bit = name < 64 ? name : 63;

	if (level == OF_SOCKET && name == DEVICE)
		return 1;
	if (level == OF_TCP && name == CONGESTION)
		return length >= 2;
	if (length != sizeof(u32))
		return 0;
	if (level == OF_SOCKET)
		return name == REHASH || NUMBERS_OF_SOCKET >> bit & 1;
	if (level == OF_TCP)
		return (name >= FIRST_BPF && name <= LAST_BPF) || NUMBERS_OF_TCP >> bit & 1;
	if (level == OF_IP)
		return name == TYPE_OF_SERVICE;
	return level == OF_IPV6_LEVEL && (name == CLASS_OF_IPV6 || name == FLOW_LABEL);
}

INLINE struct option *option_of(u32 level, u32 name)
{
	u32 place = bpfdb_network.options;
	struct option *o;

	for (; place; place = o->next) {
		o = at(place);
		if (o->level == level && o->name == name)
			return o;
	}
	return NULL;
}

/* A new one, with room for so many bytes, or NULL where the heap has none. */
INLINE struct option *new_option(u32 level, u32 name, u32 room)
{
	u32 place = take(sizeof(struct option) + room);
	struct option *o = at(place);

	if (!place)
		return NULL;
	*o = (struct option){ .next = bpfdb_network.options, .room = room, .level = level, .name = name };
	bpfdb_network.options = place;
	return o;
}

HELPER long bpf_setsockopt(void *context UNUSED, u32 level, u32 name, const void *value, u32 length)
{
	struct option *o;

	if (!is_option(level, name, length))
		return -EINVAL;
	o = option_of(level, name);
	if (o && o->room < length)
		o->level = o->name = ~0u, o = NULL;
	if (!o)
		o = new_option(level, name, length);
	if (!o)
		return -ENOMEM;
	o->length = length;
	copy(o->value, value, length);
	return 0;
}

/* (The name of an algorithm ends with a NUL.) */
HELPER long bpf_getsockopt(void *context UNUSED, u32 level, u32 name, void *to, u32 length)
{
	const struct option *o = option_of(level, name);
	u32 most = level == OF_TCP && name == CONGESTION ? length - 1 : length;
	int is_asked = (level != OF_SOCKET || name != DEVICE) && (level != OF_TCP || name < FIRST_BPF);

	clear(to, length);
	if (!o || !is_asked || !is_option(level, name, length))
		return -EINVAL;
	copy(to, o->value, o->length < most ? o->length : most);
	return 0;
}

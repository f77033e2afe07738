/* Sockets, of which there are none but those of the context. */
#include "linux.h"

MAP(groups, BPFDB_CGROUP_ARRAY, 2, u32, u32);
MAP(some, 15 /* BPF_MAP_TYPE_SOCKMAP */, 2, u32, u32);
MAP(named, 18 /* BPF_MAP_TYPE_SOCKHASH */, 2, u32, u32);

OWN_TEST(sockets_of_no_kind)
{
	WANT(!tcp_sock(context) && !get_listener_sock(context) && !sock_from_file(context) &&
	     sk_fullsock(context) == context);
	WANT(!skc_to_tcp6_sock(context) && !skc_to_tcp_sock(context) && !skc_to_tcp_timewait_sock(context) &&
	     !skc_to_tcp_request_sock(context));
	WANT(!skc_to_udp6_sock(context) && !skc_to_unix_sock(context) && !skc_to_mptcp_sock(context));
	WANT(tcp_gen_syncookie(context, context, 20, context, 20) == -EINVAL &&
	     tcp_check_syncookie(context, context, 20, context, 20) == -EINVAL);
	return 0;
}

OWN_TEST(packets_without_a_socket)
{
	WANT(get_socket_cookie(context) == 0 && get_netns_cookie(NULL) == 1 && get_socket_uid(context) == 65534);
	bpfdb_network.socket_cookie = 12;
	bpfdb_network.netns_cookie = 13;
	WANT(get_socket_cookie(context) == 12 && get_netns_cookie(context) == 13);
	WANT(skb_cgroup_id(context) == 0 && skb_ancestor_cgroup_id(context, 0) == 0 &&
	     skb_cgroup_classid(context) == 0 && get_cgroup_classid(context) == 0);
	WANT(skb_under_cgroup(context, &groups, 0) == -ENOENT);
	return 0;
}

OWN_TEST(maps_without_a_socket)
{
	u32 key = 0;

	WANT(sk_redirect_map(context, &some, 0, 0) == 0 && msg_redirect_map(context, &some, 0, 0) == 0);
	WANT(sk_redirect_hash(context, &named, &key, 0) == 0 && msg_redirect_hash(context, &named, &key, 1) == 0);
	WANT(sock_map_update(context, &some, &key, 0) == -EOPNOTSUPP &&
	     sock_hash_update(context, &named, &key, 0) == -EOPNOTSUPP);
	WANT(sk_select_reuseport(context, &some, &key, 0) == -ENOENT);
	return 0;
}

/* Of a program that looks for a socket, which may take its choice back; and of one of tc. */
OWN_TEST(socket_that_is_chosen)
{
	WANT(sk_assign(context, context, 4) == -EINVAL && sk_assign(context, NULL, 0) == 0 &&
	     bpfdb_network.assigned == 0);
	WANT(sk_assign(context, context, 2) == 0 && bpfdb_network.assigned == (u64)context);
	WANT(sk_assign(context, context + 1, 0) == -EEXIST && sk_assign(context, context + 1, 1) == 0 &&
	     bpfdb_network.assigned == (u64)context + 1);
	WANT(sk_assign(context, NULL, 1) == 0 && bpfdb_network.assigned == 0);
	bpfdb_world.is_tc = 1;
	WANT(sk_assign(context, context, 1) == -EINVAL && sk_assign(context, NULL, 0) == -EINVAL &&
	     sk_assign(context, context, 0) == 0);
	WANT(sk_assign(context, context + 2, 0) == 0 && bpfdb_network.assigned == (u64)context + 2);
	return 0;
}

/* (As <linux/bpf.h> has them: whether the socket is a full one at 72, what it calls for at 84.) */
OWN_TEST(calls_of_a_program_of_sockets)
{
	u32 fields[48] = {};

	WANT(sock_ops_cb_flags_set(fields, 1) == -EINVAL && !fields[21]);
	fields[18] = 1;
	WANT(sock_ops_cb_flags_set(fields, 5) == 0 && fields[21] == 5);
	WANT(sock_ops_cb_flags_set(fields, 0x83) == 0x80 && fields[21] == 3);
	return 0;
}

enum { IP = 0, SOCKET = 1, TCP = 6, UDP = 17, IPV6 = 41 };

#define NUMBER(LEVEL, NAME, VALUE) do { \
		u32 set = VALUE, got = 1; \
		WANT(getsockopt(context, LEVEL, NAME, &got, 4) == -EINVAL && got == 0); \
		WANT(setsockopt(context, LEVEL, NAME, &set, 4) == 0); \
		WANT(getsockopt(context, LEVEL, NAME, &got, 4) == 0 && got == set); \
		WANT(setsockopt(context, LEVEL, NAME, &set, 2) == -EINVAL); \
		WANT(getsockopt(context, LEVEL, NAME, &got, 2) == -EINVAL); \
	} while (0)
#define NONE(LEVEL, NAME) do { \
		u32 set = 1; \
		WANT(setsockopt(context, LEVEL, NAME, &set, 4) == -EINVAL); \
		WANT(getsockopt(context, LEVEL, NAME, &set, 4) == -EINVAL && set == 0); \
	} while (0)

/* The numbers of options are those of <asm-generic/socket.h>, <linux/tcp.h>, <linux/in.h> and <linux/in6.h>. */
OWN_TEST(options_of_a_socket)
{
	u32 set = 8;

	NUMBER(SOCKET, 8 /* SO_RCVBUF */, 5);
	NUMBER(SOCKET, 36 /* SO_MARK */, 6);
	NUMBER(SOCKET, 62 /* SO_BINDTOIFINDEX */, 7);
	NUMBER(SOCKET, 74 /* SO_TXREHASH */, 8);
	NUMBER(TCP, 1 /* TCP_NODELAY */, 9);
	NUMBER(TCP, 27 /* TCP_SAVE_SYN */, 10);
	NUMBER(IP, 1 /* IP_TOS */, 11);
	NUMBER(IPV6, 67 /* IPV6_TCLASS */, 12);
	NUMBER(IPV6, 70 /* IPV6_AUTOFLOWLABEL */, 13);
	NONE(SOCKET, 1 /* SO_DEBUG */);
	NONE(SOCKET, 63);
	NONE(SOCKET, 0xffffffff);
	NONE(TCP, 8 /* TCP_LINGER2 */);
	NONE(TCP, 1000);
	NONE(TCP, 1005);
	NONE(IP, 2 /* IP_TTL */);
	NONE(IPV6, 1);
	NONE(UDP, 1);
	/* (these are only set) */
	WANT(setsockopt(context, TCP, 1001 /* TCP_BPF_IW */, &set, 4) == 0 &&
	     getsockopt(context, TCP, 1001, &set, 4) == -EINVAL && !set);
	WANT(setsockopt(context, SOCKET, 25 /* SO_BINDTODEVICE */, "eth0", 5) == 0 &&
	     getsockopt(context, SOCKET, 25, &set, 4) == -EINVAL);
	set = 0xffffffff;
	WANT(setsockopt(context, TCP, 1, &set, 4) == 0 && getsockopt(context, TCP, 1, &set, 4) == 0 &&
	     set == 0xffffffff);
	WANT(getsockopt(context, SOCKET, 8, &set, 4) == 0 && set == 5);
	return 0;
}

/* The name of how a socket avoids congestion. */
OWN_TEST(option_that_is_a_text)
{
	char name[16] = { 1 }, few[4];

	WANT(getsockopt(context, TCP, 13, name, 16) == -EINVAL && !name[0] &&
	     setsockopt(context, TCP, 13, "r", 1) == -EINVAL);
	WANT(setsockopt(context, TCP, 13, "reno", 5) == 0 && getsockopt(context, TCP, 13, name, 16) == 0);
	WANT(name[0] == 'r' && name[3] == 'o' && !name[4] && !name[15]);
	WANT(setsockopt(context, TCP, 13, "dctcp-reno", 11) == 0 && getsockopt(context, TCP, 13, name, 16) == 0 &&
	     name[9] == 'o' && !name[10]);
	WANT(setsockopt(context, TCP, 13, "cubic", 6) == 0 && getsockopt(context, TCP, 13, name, 16) == 0 &&
	     name[4] == 'c' && !name[5] && !name[9]);
	WANT(getsockopt(context, TCP, 13, few, 4) == 0 && few[2] == 'b' && !few[3] &&
	     getsockopt(context, TCP, 13, few, 1) == -EINVAL);
	return 0;
}

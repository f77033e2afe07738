/* Keys and options of tunnels. */
#include "linux.h"

struct key {
	u32 id, remote[4];
	u8 tos, ttl;
	u16 ext;
	u32 label, local[4];
};

enum { FOR_IPV6 = 1, WITHOUT_SUM = 2, WHOLE = 4, COUNTED = 8, WITH_FLAGS = 16 };

/* (Programs of tests/kernel.sh do this in a kernel.) */
OWN_TEST(key_of_a_packet)
{
	struct key key = { .id = 1 };
	u8 bytes[8] = { 1 };

	WANT(skb_get_tunnel_key(context, &key, 44, 0) == -EINVAL && !key.id);
	WANT(skb_get_tunnel_opt(context, bytes, 8) == -ENOENT && !bytes[0]);
	/* 10.0.0.1 sent it to 10.0.0.2 */
	bpfdb_network.tunnel = (struct bpfdb_tunnel){
		.key = BPFDB_KEY_CAME, .id = 42, .tos = 3, .ttl = 64, .flags = 0x0400,
		.source = { 0x0a000001 }, .target = { 0x0a000002 }
	};
	WANT(skb_get_tunnel_key(context, &key, 44, 0) == 0 && key.id == 42 && key.tos == 3 && key.ttl == 64 &&
	     key.ext == 0);
	WANT(key.remote[0] == 0x0a000001 && !key.remote[1] && key.local[0] == 0x0a000002 && !key.local[3] &&
	     !key.label);
	WANT(skb_get_tunnel_key(context, &key, 44, WITH_FLAGS) == 0 && key.ext == 0x0400);
	key.id = 1;
	WANT(skb_get_tunnel_key(context, &key, 44, FOR_IPV6) == -EPROTO && !key.id);
	WANT(skb_get_tunnel_key(context, &key, 44, 2) == -EINVAL &&
	     skb_get_tunnel_key(context, &key, 43, 0) == -EINVAL);
	/* As it was in kernels before: up to the address, to the last byte of four, to the label, to this end's address. */
	for (u32 i = 0; i < 4; i++) {
		const u32 sizes[4] = { 8, 22, 24, 28 };
		u8 *all = (u8 *)&key;

		for (u32 place = 0; place < 44; place++)
			all[place] = 0x55;
		WANT(skb_get_tunnel_key(context, &key, sizes[i], 0) == 0 && key.id == 42 &&
		     all[sizes[i] - 1] != 0x55 && all[sizes[i]] == 0x55);
	}
	/* (options are a program's own to set with a key) */
	WANT(skb_set_tunnel_opt(context, bytes, 8) == -EINVAL);
	return 0;
}

OWN_TEST(key_that_is_set)
{
	struct key key = { .id = 7, .remote = { 0xc0a80001 }, .local = { 0xc0a80002 }, .tos = 1, .ttl = 2 }, got;

	WANT(skb_set_tunnel_key(context, &key, 44, 0) == 0);
	/* (Linux tells the two ends the other way round then) */
	WANT(skb_get_tunnel_key(context, &got, 44, WITH_FLAGS) == 0 && got.id == 7 && got.remote[0] == 0xc0a80002 &&
	     got.local[0] == 0xc0a80001);
	/* a sum 1, a key 4, no cache 2000, in the network's order */
	WANT(got.tos == 1 && got.ttl == 2 && got.ext == 0x0520);
	WANT(skb_set_tunnel_key(context, &key, 44, WITHOUT_SUM | WHOLE | COUNTED) == 0);
	/* whole 100, a number 8, a key 4, no cache 2000 */
	WANT(skb_get_tunnel_key(context, &got, 44, WITH_FLAGS) == 0 && got.ext == 0x0c21);
	key.label = 1;
	WANT(skb_set_tunnel_key(context, &key, 44, 0) == -EINVAL);
	key.label = 0x12345678;
	WANT(skb_set_tunnel_key(context, &key, 44, FOR_IPV6) == 0 &&
	     skb_get_tunnel_key(context, &got, 44, FOR_IPV6) == 0);
	WANT(got.label == 0x45678 && got.remote[0] == 0xc0a80002 &&
	     skb_get_tunnel_key(context, &got, 44, 0) == -EPROTO);
	WANT(skb_get_tunnel_key(context, &got, 8, FOR_IPV6) == -EINVAL &&
	     skb_get_tunnel_key(context, &got, 28, FOR_IPV6) == 0);
	key.ext = 1;
	WANT(skb_set_tunnel_key(context, &key, 44, FOR_IPV6) == -EINVAL &&
	     skb_set_tunnel_key(context, &key, 44, WITH_FLAGS) == -EINVAL);
	key.ext = 0;
	WANT(skb_set_tunnel_key(context, &key, 27, FOR_IPV6) == -EINVAL &&
	     skb_set_tunnel_key(context, &key, 22, 0) == 0);
	WANT(skb_get_tunnel_key(context, &got, 44, 0) == 0 && got.remote[0] == 0 && got.local[0] == 0xc0a80001);
	return 0;
}

OWN_TEST(options_of_a_tunnel)
{
	struct key key = { .id = 7 }, got;
	u8 options[12] = { 1, 2, 3, 4, 5, 6, 7, 8, 9 }, to[16] = { 9 };

	WANT(skb_set_tunnel_opt(context, options, 8) == -EINVAL);
	WANT(skb_set_tunnel_key(context, &key, 44, 0) == 0 && skb_get_tunnel_opt(context, to, 16) == -ENOENT && !to[0]);
	WANT(skb_set_tunnel_opt(context, options, 9) == -EINVAL &&
	     skb_set_tunnel_opt(context, bpfdb_network.tunnel.options, 256) == -ENOMEM);
	WANT(skb_set_tunnel_opt(context, options, 8) == 0);
	to[8] = 9;
	WANT(skb_get_tunnel_opt(context, to, 16) == 8 && to[0] == 1 && to[7] == 8 && !to[8]);
	WANT(skb_get_tunnel_opt(context, to, 4) == -ENOMEM && !to[0] && !to[3] && to[7] == 8);
	/* (options of whatever kind: 800, 1000, 4000, 8000) */
	WANT(skb_get_tunnel_key(context, &got, 44, WITH_FLAGS) == 0 && got.ext == 0x05f8);
	WANT(skb_set_tunnel_key(context, &key, 44, 0) == 0 && skb_get_tunnel_opt(context, to, 16) == -ENOENT);
	return 0;
}

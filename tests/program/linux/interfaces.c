/* Interfaces, and what is known of a packet beside its bytes. The context of these tests has 60 bytes. */
#include "linux.h"

struct skb {
	u64 data, data_end, data_meta;
	u32 len, pkt_type, mark, queue, protocol, vlan_present, vlan_tci, vlan_proto, priority;
	u32 ingress, ifindex, tc_index, cb[5], hash;
};
#define SKB struct skb s = { .data = (u64)context, .data_end = (u64)context + size, .data_meta = (u64)context, \
		.len = size, .protocol = 0x0008 }

OWN_TEST(largest_packet_of_an_interface)
{
	u32 mtu = 0;
	SKB;

	WANT(check_mtu(&s, 0, &mtu, 0, 0) == 0 && mtu == 1500);
	/* 1,500 bytes and 14 of Ethernet: a packet of 60 may be longer by 1,454 */
	mtu = 0;
	WANT(check_mtu(&s, 3, &mtu, 1454, 0) == 0);
	mtu = 0;
	WANT(check_mtu(&s, 3, &mtu, 1455, 0) == 1 && mtu == 1500);
	mtu = 1500;
	WANT(check_mtu(&s, 0, &mtu, 0, 0) == 0);
	mtu = 1501;
	WANT(check_mtu(&s, 0, &mtu, 0, 0) == 1 && mtu == 1500);
	mtu = 1501;
	WANT(check_mtu(&s, 0, &mtu, -1, 0) == 0);
	mtu = 100;
	WANT(check_mtu(&s, 0x80000000, &mtu, 0, 0) == -ENODEV && mtu == 0);
	/* (flags are tc's alone, and then of segments without a length) */
	mtu = 100;
	WANT(check_mtu(&s, 0, &mtu, 0, 1) == -EINVAL && mtu == 0 && check_mtu(&s, 0, &mtu, 0, 2) == -EINVAL);
	bpfdb_world.is_tc = 1;
	bpfdb_network.mtu = 50;
	WANT(check_mtu(&s, 0, &mtu, 0, 1) == 0 && mtu == 50);
	WANT(check_mtu(&s, 0, &mtu, 0, 1) == -EINVAL && mtu == 0);
	WANT(check_mtu(&s, 0, &mtu, 1, 1) == -EINVAL && check_mtu(&s, 0, &mtu, 0, 2) == -EINVAL);
	mtu = 0;
	WANT(check_mtu(&s, 0, &mtu, 5, 0) == 1 && mtu == 50);
	return 0;
}

OWN_TEST(redirects_of_tc)
{
	u8 neighbour[20] = {};

	WANT(redirect_peer(3, 0) == 7 && bpfdb_world.redirected_to == 3 && redirect_peer(4, 1) == 2 &&
	     bpfdb_world.redirected_to == 3);
	WANT(redirect_neigh(5, NULL, 0, 0) == 7 && bpfdb_world.redirected_to == 5 &&
	     redirect_neigh(6, neighbour, 20, 0) == 7);
	WANT(redirect_neigh(7, neighbour, 19, 0) == 2 && redirect_neigh(7, NULL, 0, 1) == 2 &&
	     bpfdb_world.redirected_to == 6);
	return 0;
}

OWN_TEST(hash_of_a_flow)
{
	u64 first, other;
	SKB;

	first = get_hash_recalc(&s);
	WANT(first && s.hash == first && get_hash_recalc(&s) == first);
	/* (a byte of its address is another one) */
	((u8 *)context)[29] ^= 1;
	WANT(get_hash_recalc(&s) == first && set_hash_invalid(&s) == 0 && s.hash == 0);
	other = get_hash_recalc(&s);
	WANT(other && other != first);
	((u8 *)context)[29] ^= 1;
	WANT(set_hash_invalid(&s) == 0 && get_hash_recalc(&s) == first);
	WANT(set_hash(&s, 0x12345678) == 0 && get_hash_recalc(&s) == 0x12345678);
	s.hash = 0, s.protocol = 0xdd86;
	WANT(get_hash_recalc(&s) && s.hash != first);
	s.hash = 0, s.protocol = 0x0608;
	WANT(get_hash_recalc(&s));
	s = (struct skb){ .protocol = 0x0008 };
	WANT(get_hash_recalc(&s));
	return 0;
}

/* Checksums that are known to be right: none, then up to four, one within the other. */
OWN_TEST(levels_of_checksums)
{
	SKB;

	WANT(csum_level(&s, 0) == -EACCES && csum_level(&s, 2) == 0 && csum_level(&s, 0) == -EACCES);
	WANT(csum_level(&s, 1) == 0 && csum_level(&s, 0) == 0);
	for (u32 i = 1; i < 6; i++)
		WANT(csum_level(&s, 1) == 0 && csum_level(&s, 0) == (i < 3 ? i : 3));
	WANT(csum_level(&s, 2) == 0 && csum_level(&s, 0) == 2);
	/* (what changes the headers forgets them, if it isn't told not to) */
	WANT(skb_adjust_room(&s, -4, 0, 32) == 0 && csum_level(&s, 0) == 2);
	WANT(skb_adjust_room(&s, -4, 0, 0) == 0 && csum_level(&s, 0) == -EACCES);
	WANT(csum_level(&s, 1) == 0 && csum_level(&s, 3) == 0 && csum_level(&s, 0) == -EACCES &&
	     csum_level(&s, 4) == -EINVAL);
	WANT(csum_update(&s, 1) == -ENOTSUPP);
	return 0;
}

OWN_TEST(no_route_and_no_state)
{
	u8 state[28] = { 1 };

	WANT(get_route_realm(context) == 0);
	WANT(skb_get_xfrm_state(context, 0, state, 28, 0) == -EINVAL && !state[0]);
	return 0;
}

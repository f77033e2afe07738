/* Headers, ends, tags and types of a packet of tc. The context of these tests has 60 bytes, of which each is its number;
   a packet of 40 of them has 10 before it and 10 behind. (tests/kernel/packets.c holds the same calls against a kernel.) */
#include "linux.h"

struct skb {
	u64 data, data_end, data_meta;
	u32 len, pkt_type, mark, queue, protocol, vlan_present, vlan_tci, vlan_proto, priority;
	u32 ingress, ifindex, tc_index, cb[5], hash;
};
#define SKB(BEGIN, END, TYPE) struct skb s = { .data = (u64)context + BEGIN, .data_end = (u64)context + END, \
		.data_meta = (u64)context + BEGIN, .len = END - BEGIN, .protocol = TYPE }; \
	bpfdb_context_len = size
#define BYTE(PLACE) ((u8 *)s.data)[PLACE]
/* Where the packet lies, and that its length is known. */
#define LIES(BEGIN, END) \
	(s.data == 0x100000000 + BEGIN && s.data_end == 0x100000000 + END && s.data_meta == s.data && s.len == END - BEGIN)
/* That so many bytes from a place on are those of the context from another on. */
#define SAME(PLACE, SIZE, FIRST) ({ int all = 1; for (u32 i = 0; i < SIZE; i++) all &= BYTE(PLACE + i) == FIRST + i; all; })
#define ZERO(PLACE, SIZE) ({ int all = 1; for (u32 i = 0; i < SIZE; i++) all &= !BYTE(PLACE + i); all; })

enum { IPV4 = 0x0008, IPV6 = 0xdd86, ARP = 0x0608, VLAN = 0x0081, SERVICE = 0xa888 };

OWN_TEST(head_of_a_packet)
{
	SKB(10, 50, IPV4);

	WANT(skb_change_head(&s, 8, 0) == 0 && LIES(2, 50) && ZERO(0, 8) && SAME(8, 40, 10));
	/* (the network header stays where it was) */
	WANT(bpfdb_network.header == 22);
	/* two bytes are left before it, and ten behind: there all of it moves up */
	WANT(skb_change_head(&s, 10, 0) == 0 && LIES(2, 60) && ZERO(0, 18) && SAME(18, 40, 10));
	WANT(skb_change_head(&s, 3, 0) == -ENOMEM && LIES(2, 60));
	WANT(skb_change_head(&s, 1, 1) == -EINVAL && skb_change_head(&s, 17000, 0) == -EINVAL);
	WANT(skb_change_head(&s, 0xffffffff, 0) == -EINVAL);
	WANT(skb_change_head(&s, 2, 0) == 0 && LIES(0, 60));
	return 0;
}

OWN_TEST(tail_of_a_packet)
{
	SKB(10, 50, IPV4);

	WANT(skb_change_tail(&s, 30, 0) == 0 && LIES(10, 40));
	WANT(skb_change_tail(&s, 45, 0) == 0 && s.len == 45 && SAME(0, 30, 10) && ZERO(30, 15));
	/* (ten bytes before it and five behind are no room for fifteen) */
	WANT(skb_change_tail(&s, 60, 0) == -ENOMEM && skb_change_tail(&s, 55, 0) == 0 && LIES(0, 55) &&
	     SAME(0, 30, 10));
	WANT(skb_change_tail(&s, 60, 0) == 0 && LIES(0, 60) && skb_change_tail(&s, 61, 0) == -ENOMEM);
	WANT(skb_change_tail(&s, 14, 0) == 0 && skb_change_tail(&s, 13, 0) == -EINVAL &&
	     skb_change_tail(&s, 20000, 0) == -EINVAL);
	WANT(skb_change_tail(&s, 20, 1) == -EINVAL && LIES(0, 14));
	bpfdb_network.is_encapsulated = 1;
	WANT(skb_change_tail(&s, 20, 0) == -ENOTSUPP);
	return 0;
}

/* Where nobody says how long the context is, a packet grows to where it ended. */
OWN_TEST(tail_where_no_length_is_known)
{
	SKB(0, 40, IPV4);

	bpfdb_context_len = 65536;
	WANT(skb_change_tail(&s, 41, 0) == -ENOMEM && skb_change_head(&s, 1, 0) == -ENOMEM);
	WANT(skb_change_tail(&s, 30, 0) == 0 && skb_change_tail(&s, 41, 0) == -ENOMEM &&
	     skb_change_tail(&s, 40, 0) == 0 && LIES(0, 40));
	s = (struct skb){};
	WANT(skb_change_head(&s, 1, 0) == -ENOMEM && skb_change_tail(&s, 20, 0) == -ENOMEM && skb_vlan_pop(&s) == 0);
	return 0;
}

OWN_TEST(room_in_a_packet)
{
	SKB(10, 58, IPV4);

	/* (14 bytes of Ethernet and 20 of IPv4 go down by 4) */
	WANT(skb_adjust_room(&s, 4, 0, 0) == 0 && LIES(6, 58) && SAME(0, 34, 10) && ZERO(34, 4) && SAME(38, 14, 44));
	WANT(skb_adjust_room(&s, -4, 0, 0) == 0 && LIES(10, 58) && SAME(0, 48, 10));
	/* behind Ethernet alone; what is taken out there are the first bytes of the header of IP */
	WANT(skb_adjust_room(&s, 4, 1, 0) == 0 && SAME(0, 14, 10) && ZERO(14, 4) && SAME(18, 34, 24));
	WANT(skb_adjust_room(&s, -8, 1, 0) == 0 && LIES(14, 58) && SAME(0, 14, 10) && SAME(14, 30, 28));
	WANT(bpfdb_network.header == 14 && skb_adjust_room(&s, -1, 0, 2) == -EINVAL);
	/* a header of IP stays: here 20 bytes of the 30 */
	WANT(skb_adjust_room(&s, -11, 0, 0) == -ENOTSUPP && skb_adjust_room(&s, -10, 0, 0) == 0 && LIES(24, 58));
	WANT(skb_adjust_room(&s, 1, 2, 0) == -ENOTSUPP && skb_adjust_room(&s, 4096, 0, 0) == -EFAULT &&
	     skb_adjust_room(&s, -4096, 0, 0) == -EFAULT);
	WANT(skb_adjust_room(&s, 1, 0, 128) == -EINVAL && skb_adjust_room(&s, 27, 0, 0) == -ENOMEM);
	s.protocol = ARP;
	WANT(skb_adjust_room(&s, 1, 0, 0) == -ENOTSUPP && LIES(24, 58));
	return 0;
}

enum { IN_IPV4 = 2, IN_IPV6 = 4, IN_GRE = 8, IN_UDP = 16, IN_ETHERNET = 64 };
#define INNER(BYTES) ((u64)BYTES << 56)

OWN_TEST(packet_in_another_one)
{
	SKB(10, 50, IPV4);

	WANT(skb_adjust_room(&s, 4, 1, IN_IPV4 | IN_IPV6) == -EINVAL &&
	     skb_adjust_room(&s, 4, 1, IN_IPV4 | IN_GRE | IN_UDP) == -EINVAL);
	WANT(skb_adjust_room(&s, 10, 1, IN_IPV4 | IN_ETHERNET | INNER(13)) == -EINVAL);
	WANT(skb_adjust_room(&s, 10, 1, IN_IPV4 | INNER(11)) == -EINVAL && LIES(10, 50));
	WANT(skb_adjust_room(&s, 10, 1, IN_IPV6 | INNER(4)) == 0 && LIES(0, 50) && s.protocol == IPV6);
	WANT(skb_adjust_room(&s, 1, 1, IN_IPV4) == -EALREADY && skb_change_tail(&s, 55, 0) == -ENOTSUPP);
	return 0;
}

OWN_TEST(protocol_of_a_packet)
{
	SKB(5, 55, IPV4);

	s.hash = 7;
	WANT(skb_change_proto(&s, IPV6, 1) == -EINVAL && skb_change_proto(&s, IPV4, 0) == -ENOTSUPP &&
	     skb_change_proto(&s, ARP, 0) == -ENOTSUPP);
	WANT(skb_change_proto(&s, IPV6, 0) == -ENOMEM && s.protocol == IPV4 && s.hash == 7);
	s = (struct skb){ .data = (u64)context + 20, .data_end = (u64)context + 60, .len = 40, .protocol = IPV4 };
	s.hash = 7;
	WANT(skb_change_proto(&s, IPV6, 0) == 0 && LIES(0, 60) && SAME(0, 14, 20) && ZERO(14, 20) && SAME(34, 26, 34));
	WANT(s.protocol == IPV6 && s.hash == 0);
	BYTE(34) = 99;
	WANT(skb_change_proto(&s, IPV4, 0) == 0 && LIES(20, 60) && SAME(0, 14, 20) && BYTE(14) == 99 &&
	     s.protocol == IPV4);
	s.protocol = IPV6;
	s.data = (u64)context + 30;
	WANT(skb_change_proto(&s, IPV4, 0) == -ENOMEM);
	return 0;
}

OWN_TEST(type_of_a_packet)
{
	SKB(0, 40, IPV4);

	WANT(skb_change_type(&s, 3) == 0 && s.pkt_type == 3 && skb_change_type(&s, 4) == -EINVAL && s.pkt_type == 3);
	WANT(skb_change_type(&s, 0) == 0 && s.pkt_type == 0);
	s.pkt_type = 4;
	WANT(skb_change_type(&s, 0) == -EINVAL);
	return 0;
}

OWN_TEST(tags_beside_and_in_a_packet)
{
	SKB(10, 50, IPV4);

	BYTE(12) = 8, BYTE(13) = 0;
	/* The first lies beside the packet, which stays. */
	WANT(skb_vlan_push(&s, VLAN, 0x2064) == 0 && LIES(10, 50) && s.vlan_present && s.vlan_tci == 0x2064 &&
	     s.vlan_proto == VLAN);
	WANT(s.protocol == IPV4);
	/* Another one puts it in; a type that is none of a tag is taken for the usual one. */
	WANT(skb_vlan_push(&s, SERVICE, 5) == 0 && LIES(6, 50) && SAME(0, 12, 10) && s.protocol == VLAN &&
	     s.vlan_proto == SERVICE);
	WANT(BYTE(12) == 0x81 && BYTE(13) == 0 && BYTE(14) == 0x20 && BYTE(15) == 0x64 && BYTE(16) == 8 &&
	     SAME(18, 26, 24));
	WANT(skb_vlan_push(&s, ARP, 6) == 0 && LIES(2, 50) && s.vlan_proto == VLAN && s.protocol == SERVICE &&
	     bpfdb_network.header == 22);
	WANT(BYTE(12) == 0x88 && BYTE(13) == 0xa8 && BYTE(14) == 0 && BYTE(15) == 5 && BYTE(16) == 0x81);
	/* Back again: the one beside goes, the next one comes out. */
	WANT(skb_vlan_pop(&s) == 0 && LIES(6, 50) && s.vlan_tci == 5 && s.vlan_proto == SERVICE &&
	     s.protocol == VLAN && bpfdb_network.header == 18);
	WANT(skb_vlan_pop(&s) == 0 && LIES(10, 50) && s.vlan_tci == 0x2064 && s.vlan_proto == VLAN &&
	     s.protocol == IPV4);
	WANT(skb_vlan_pop(&s) == 0 && LIES(10, 50) && !s.vlan_present && s.vlan_tci == 0x2064 &&
	     s.vlan_proto == VLAN && s.protocol == IPV4);
	WANT(SAME(0, 12, 10) && BYTE(12) == 8 && SAME(14, 26, 24) && bpfdb_network.header == 14);
	WANT(skb_vlan_pop(&s) == 0 && LIES(10, 50));
	return 0;
}

/* Behind a tag may be a length in place of a type; and a packet that ends has no tag to take. */
OWN_TEST(tags_of_other_frames)
{
	SKB(0, 40, VLAN);

	BYTE(14) = 0x0f, BYTE(15) = 0xff, BYTE(16) = 5, BYTE(17) = 0xff;
	WANT(skb_vlan_pop(&s) == 0 && LIES(4, 40) && s.protocol == 0x0400 && !s.vlan_present &&
	     bpfdb_network.header == 14);
	s = (struct skb){ .data = (u64)context, .data_end = (u64)context + 40, .len = 40, .protocol = VLAN };
	BYTE(16) = 0, BYTE(17) = 0, BYTE(18) = 0xff, BYTE(19) = 0xff;
	WANT(skb_vlan_pop(&s) == 0 && s.protocol == 0x0100);
	s = (struct skb){ .data = (u64)context, .data_end = (u64)context + 17, .len = 17, .protocol = VLAN };
	WANT(skb_vlan_pop(&s) == -ENOMEM && s.data == (u64)context && s.len == 17);
	/* (no room for one that goes in) */
	WANT(skb_vlan_push(&s, VLAN, 1) == 0 && skb_change_tail(&s, 60, 0) == 0 &&
	     skb_vlan_push(&s, VLAN, 2) == -ENOMEM && s.vlan_tci == 1);
	return 0;
}

OWN_TEST(bytes_from_a_header_on)
{
	u8 bytes[4] = { 9, 9, 9, 9 };
	SKB(0, 40, IPV4);

	WANT(skb_load_bytes_relative(&s, 2, bytes, 4, 0) == 0 && bytes[0] == 2 && bytes[3] == 5);
	WANT(skb_load_bytes_relative(&s, 22, bytes, 4, 1) == 0 && bytes[0] == 36 && bytes[3] == 39);
	WANT(skb_load_bytes_relative(&s, 23, bytes, 4, 1) == -EFAULT && !bytes[0] && !bytes[3]);
	bytes[0] = 9;
	WANT(skb_load_bytes_relative(&s, 0, bytes, 4, 2) == -EFAULT && !bytes[0]);
	bytes[0] = 9;
	WANT(skb_load_bytes_relative(&s, 65536, bytes, 4, 0) == -EFAULT && !bytes[0]);
	WANT(skb_change_head(&s, 4, 0) == 0 && skb_load_bytes_relative(&s, 0, bytes, 1, 1) == 0 && bytes[0] == 14);
	return 0;
}

/* RFC 3168: of the four codes 0 is of ends that don't know it, 3 says that there is congestion. */
OWN_TEST(congestion_is_told)
{
	/* The header of IPv4 that is known from books, with the code 1: its checksum b861 is one less. */
	static const u8 header[20] = {
		0x45, 1, 0, 0x73, 0, 0, 0x40, 0, 0x40, 0x11, 0xb8, 0x60, 192, 168, 0, 1, 192, 168, 0, 199
	};
	SKB(0, 60, IPV4);

	for (u32 i = 0; i < 20; i++)
		BYTE(14 + i) = header[i];
	WANT(skb_ecn_set_ce(&s) == 1 && BYTE(15) == 3 && BYTE(24) == 0xb8 && BYTE(25) == 0x5e);
	WANT(skb_ecn_set_ce(&s) == 1 && BYTE(15) == 3 && BYTE(25) == 0x5e);
	BYTE(15) = 2, BYTE(25) = 0x5f;
	WANT(skb_ecn_set_ce(&s) == 1 && BYTE(15) == 3 && BYTE(25) == 0x5e);
	BYTE(15) = 0;
	WANT(skb_ecn_set_ce(&s) == 0 && BYTE(15) == 0);
	s.protocol = IPV6;
	BYTE(14) = 0x60, BYTE(15) = 0x05;
	WANT(skb_ecn_set_ce(&s) == 0 && BYTE(15) == 5);
	BYTE(15) = 0x25;
	WANT(skb_ecn_set_ce(&s) == 1 && BYTE(15) == 0x35);
	s.data_end = (u64)context + 53;
	WANT(skb_ecn_set_ce(&s) == 0);
	s.protocol = ARP;
	WANT(skb_ecn_set_ce(&s) == 0);
	return 0;
}

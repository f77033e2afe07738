/* Packets of XDP and tc: the context of these tests has 60 bytes, of which each is its number. */
#include "linux.h"

struct packet { u64 data, data_end, data_meta; };
#define PACKET struct packet p = { (u64)context, (u64)context + size, (u64)context }
#define BYTE(PLACE) ((u8 *)p.data)[PLACE]

TEST(head_of_a_packet)
{
	PACKET;

	WANT(xdp_adjust_head(&p, 14) == 0 && p.data == 0x10000000e && p.data_meta == p.data && BYTE(0) == 14);
	WANT(xdp_adjust_head(&p, -14) == 0 && p.data == 0x100000000);
	/* (there is no room before it; and an Ethernet header stays) */
	WANT(xdp_adjust_head(&p, -1) == -EINVAL && p.data == 0x100000000);
	WANT(xdp_adjust_head(&p, 46) == 0 && p.data_end - p.data == 14);
	WANT(xdp_adjust_head(&p, 1) == -EINVAL);
	return 0;
}

TEST(tail_of_a_packet)
{
	PACKET;

	bpfdb_context_len = size;
	WANT(xdp_get_buff_len(&p) == 60);
	WANT(xdp_adjust_tail(&p, -20) == 0 && p.data_end == 0x100000028 && xdp_get_buff_len(&p) == 40);
	/* (what it grows by is zero; it doesn't grow beyond its room, nor shrink below an Ethernet header) */
	WANT(xdp_adjust_tail(&p, 10) == 0 && BYTE(39) == 39 && BYTE(40) == 0 && BYTE(49) == 0 && BYTE(50) == 50);
	WANT(xdp_adjust_tail(&p, 11) == -EINVAL && p.data_end == 0x100000032);
	WANT(xdp_adjust_tail(&p, -36) == 0);
	WANT(xdp_adjust_tail(&p, -1) == -EINVAL);
	return 0;
}

/* Where nobody says how long the context is, a packet grows to where it ended, and no byte further: neither as the
   first thing that is done, nor later, nor where one that begins elsewhere is looked at next. */
TEST(tail_where_no_length_is_known)
{
	PACKET;

	WANT(xdp_adjust_tail(&p, 1) == -EINVAL && p.data_end == 0x10000003c);
	WANT(xdp_adjust_tail(&p, 65536) == -EINVAL && xdp_adjust_tail(&p, 0x7fffffff) == -EINVAL);
	WANT(xdp_adjust_tail(&p, -1) == 0 && xdp_adjust_tail(&p, 2) == -EINVAL);
	WANT(xdp_adjust_tail(&p, 1) == 0 && p.data_end == 0x10000003c && BYTE(58) == 58 && BYTE(59) == 0);
	WANT(bpfdb_context_len == 65536);
	p = (struct packet){ (u64)context, (u64)context + 20, (u64)context };
	WANT(xdp_adjust_tail(&p, 41) == -EINVAL);
	return 0;
}

/* One that ends nearer is shortened first; the next one ends further on. */
TEST(tails_of_two_packets)
{
	struct packet first = { (u64)context, (u64)context + 20, (u64)context };
	PACKET;

	WANT(xdp_adjust_tail(&first, 1) == -EINVAL && xdp_adjust_tail(&first, -3) == 0);
	WANT(xdp_adjust_tail(&first, 4) == -EINVAL && xdp_adjust_tail(&first, 3) == 0);
	WANT(xdp_adjust_tail(&p, 1) == -EINVAL && xdp_adjust_tail(&p, -40) == 0 && xdp_adjust_tail(&p, 40) == 0);
	return 0;
}

/* (As an empty context gives one: its address is 0.) */
TEST(tail_of_no_packet)
{
	struct packet p = { 0, 0, 0 };

	WANT(xdp_adjust_tail(&p, 20) == -EINVAL && xdp_adjust_tail(&p, 0) == -EINVAL);
	return 0;
}

TEST(metadata_of_a_packet)
{
	PACKET;

	WANT(xdp_adjust_meta(&p, -4) == -EINVAL);
	WANT(xdp_adjust_head(&p, 40) == 0);
	WANT(xdp_adjust_meta(&p, -3) == -EACCES);
	WANT(xdp_adjust_meta(&p, -36) == -EACCES);
	WANT(xdp_adjust_meta(&p, -32) == 0 && xdp_adjust_meta(&p, 32) == 0 && p.data_meta == p.data);
	WANT(xdp_adjust_meta(&p, -8) == 0 && p.data_meta == p.data - 8);
	*(u8 *)p.data_meta = 0x99;
	WANT(xdp_adjust_meta(&p, 9) == -EINVAL);
	WANT(xdp_adjust_meta(&p, 8) == 0 && p.data_meta == p.data);
	WANT(xdp_adjust_meta(&p, -8) == 0 && p.data_meta == p.data - 8);
	/* (metadata go with the head) */
	WANT(xdp_adjust_head(&p, -2) == 0 && p.data_meta == p.data - 8 && *(u8 *)p.data_meta == 0x99);
	WANT(xdp_adjust_head(&p, -31) == -EINVAL);
	return 0;
}

TEST(bytes_of_a_packet_of_xdp)
{
	u8 bytes[4] = { 0xa, 0xb, 0xc, 0xd };
	PACKET;

	WANT(xdp_load_bytes(&p, 56, bytes, 4) == 0 && bytes[0] == 56 && bytes[3] == 59);
	WANT(xdp_load_bytes(&p, 57, bytes, 4) == -EINVAL);
	WANT(xdp_load_bytes(&p, 65536, bytes, 4) == -EFAULT);
	bytes[0] = 0xa;
	WANT(xdp_store_bytes(&p, 1, bytes, 1) == 0 && BYTE(1) == 0xa && BYTE(2) == 2);
	WANT(xdp_store_bytes(&p, 60, bytes, 1) == -EINVAL);
	return 0;
}

TEST(bytes_of_a_packet_of_tc)
{
	u8 bytes[4] = { 0xa, 0xb, 0xc, 0xd };
	PACKET;

	WANT(skb_load_bytes(&p, 57, bytes, 4) == -EFAULT && !bytes[0] && !bytes[3]);
	WANT(skb_load_bytes(&p, 0xffffffff, bytes, 4) == -EFAULT);
	WANT(skb_load_bytes(&p, 56, bytes, 4) == 0 && bytes[0] == 56 && bytes[3] == 59);
	WANT(skb_store_bytes(&p, 2, bytes, 2, 1) == 0 && BYTE(2) == 56 && BYTE(3) == 57 && BYTE(4) == 4);
	WANT(skb_store_bytes(&p, 59, bytes, 2, 0) == -EFAULT && BYTE(59) == 59);
	WANT(skb_store_bytes(&p, 2, bytes, 2, 4) == -EINVAL);
	WANT(skb_pull_data(&p, 0) == 0 && skb_pull_data(&p, 60) == 0 && skb_pull_data(&p, 61) == -ENOMEM);
	return 0;
}

/* The header of IPv4 that is known from books: its checksum is b861. */
static const u8 header[20] = { 0x45, 0, 0, 0x73, 0, 0, 0x40, 0, 0x40, 0x11, 0xb8, 0x61, 192, 168, 0, 1, 192, 168, 0, 199 };

static __attribute__((always_inline)) u32 sum_of(const u8 *at)
{
	u32 sum = 0;

	for (u32 i = 0; i < 20; i += 2)
		sum += at[i] << 8 | at[i + 1];
	sum = (sum & 0xffff) + (sum >> 16);
	return (sum & 0xffff) + (sum >> 16);
}

#define HEADER for (u32 i = 0; i < 20; i++) BYTE(i) = header[i]

TEST(checksum_of_a_header)
{
	PACKET;

	HEADER;
	WANT(sum_of((u8 *)p.data) == 0xffff);
	/* TTL 64 and protocol 17 become 63 and 6: the words 4011 and 3f06, as they lie in memory. */
	BYTE(8) = 0x3f;
	BYTE(9) = 6;
	WANT(l3_csum_replace(&p, 10, 0x1140, 0x063f, 2) == 0);
	WANT(sum_of((u8 *)p.data) == 0xffff);
	/* 4011 - 3f06 = 010b, and b861 + 010b = b96c */
	WANT(BYTE(10) == 0xb9 && BYTE(11) == 0x6c);
	/* 192.168.0.199 becomes 10.0.0.1. */
	BYTE(16) = 10, BYTE(17) = 0, BYTE(18) = 0, BYTE(19) = 1;
	WANT(l3_csum_replace(&p, 10, 0xc700a8c0, 0x0100000a, 4) == 0);
	WANT(sum_of((u8 *)p.data) == 0xffff);
	WANT(l3_csum_replace(&p, 11, 0, 0, 2) == -EFAULT);
	WANT(l3_csum_replace(&p, 60, 0, 0, 2) == -EFAULT);
	WANT(l3_csum_replace(&p, 10, 0, 0, 3) == -EINVAL);
	WANT(l3_csum_replace(&p, 10, 1, 0, 0) == -EINVAL);
	WANT(l3_csum_replace(&p, 10, 0, 0, 0x12) == -EINVAL);
	return 0;
}

TEST(checksum_by_a_difference)
{
	u32 from = 0xc700a8c0, to = 0x0100000a, ones[2] = { 0xffffffff, 0xffffffff };
	PACKET;

	HEADER;
	BYTE(16) = 10, BYTE(17) = 0, BYTE(18) = 0, BYTE(19) = 1;
	WANT(l3_csum_replace(&p, 10, 0, csum_diff(&from, 4, &to, 4, 0), 0) == 0);
	WANT(sum_of((u8 *)p.data) == 0xffff);
	WANT(csum_diff(&from, 3, &to, 4, 0) == -EINVAL);
	WANT(csum_diff(&from, 0, &to, 4, 0) == 0x0100000a);
	WANT(csum_diff(&from, 0, &to, 4, 5) == 0x0100000f);
	WANT(csum_diff(&from, 4, &to, 0, 0) == 0x38ff573f);
	/* (the carry comes in below, and may carry again) */
	from = 0xffffffff;
	WANT(csum_diff(&from, 0, &from, 4, 2) == 2);
	WANT(csum_diff(&from, 0, ones, 8, 1) == 1);
	WANT(csum_diff(&from, 0, ones, 8, 0) == 0xffffffff);
	return 0;
}

TEST(checksum_of_a_segment)
{
	PACKET;

	HEADER;
	BYTE(8) = 0x3f;
	WANT(l4_csum_replace(&p, 10, 0x1140, 0x113f, 0x10 | 2) == 0 && sum_of((u8 *)p.data) == 0xffff);
	WANT(l4_csum_replace(&p, 10, 0, 0, 0x80 | 2) == 0 && l4_csum_replace(&p, 10, 0, 0, 0x100 | 2) == -EINVAL);
	WANT(l4_csum_replace(&p, 10, 0, 0, 3) == -EINVAL && l4_csum_replace(&p, 10, 1, 0, 0) == -EINVAL);
	WANT(l4_csum_replace(&p, 9, 0, 0, 2) == -EFAULT && l4_csum_replace(&p, 59, 0, 0, 2) == -EFAULT);
	/* UDP's checksum 0 is none, and stays; one that comes to 0 is written as ffff. */
	BYTE(30) = 0, BYTE(31) = 0;
	WANT(l4_csum_replace(&p, 30, 1, 2, 0x20 | 2) == 0 && BYTE(30) == 0 && BYTE(31) == 0);
	BYTE(30) = 0, BYTE(31) = 1;
	WANT(l4_csum_replace(&p, 30, 0, 0x0100, 0x20 | 2) == 0 && BYTE(30) == 0xff && BYTE(31) == 0xff);
	return 0;
}

/* Of the two zeros that a sum may be, Linux writes 0, but for a field of two bytes of a header as it was: of unturned
   0, ~0 and 0 come to 0xffff, whose turned bits are 0; of unturned 0xffff alone, too. */
TEST(checksum_of_zero)
{
	PACKET;

	BYTE(10) = 0xff, BYTE(11) = 0xff;
	WANT(l3_csum_replace(&p, 10, 0, 0, 0) == 0 && BYTE(10) == 0 && BYTE(11) == 0);
	BYTE(10) = 0xff, BYTE(11) = 0xff;
	WANT(l3_csum_replace(&p, 10, 0xffffffff, 0, 4) == 0 && BYTE(10) == 0 && BYTE(11) == 0);
	BYTE(10) = 0xff, BYTE(11) = 0xff;
	WANT(l4_csum_replace(&p, 10, 0xffffffff, 0, 2) == 0 && BYTE(10) == 0 && BYTE(11) == 0);
	BYTE(10) = 0xff, BYTE(11) = 0xff;
	WANT(l3_csum_replace(&p, 10, 0xffff, 0, 2) == 0 && BYTE(10) == 0xff && BYTE(11) == 0xff);
	return 0;
}

MAP(devices, BPFDB_DEVMAP, 4, u32, u32);
MAP(named_devices, BPFDB_DEVMAP_HASH, 4, u32, u32);
MAP(processors, BPFDB_CPUMAP, 4, u32, u32);
MAP(sockets, BPFDB_XSKMAP, 4, u32, u32);

#define TARGETS(NAME) \
	WANT(map_lookup(&NAME, &key) == NULL); \
	WANT(redirect_map(&NAME, 2, 0) == 0 && redirect_map(&NAME, 2, 2) == 2); \
	WANT(map_update(&NAME, &key, &value, ANY) == 0); \
	WANT(map_lookup(&NAME, &key)); \
	WANT(redirect_map(&NAME, 2, 2) == 4 && bpfdb_world.redirected_to == 2); \
	WANT(redirect_map(&NAME, 3, 1) == 1); \
	WANT(redirect_map(&NAME, 2, 32) == 0); \
	WANT(map_delete(&NAME, &key) == 0 && redirect_map(&NAME, 2, 2) == 2)

TEST(redirect_by_maps)
{
	u32 key = 2, value = 5;

	TARGETS(devices);
	TARGETS(named_devices);
	TARGETS(processors);
	TARGETS(sockets);
	key = 4;
	WANT(map_update(&devices, &key, &value, ANY) == -E2BIG);
	WANT(map_delete(&devices, &key) == -EINVAL);
	WANT(map_update(&devices, &key, &value, 3) == -EINVAL);
	key = 1;
	WANT(map_update(&devices, &key, &value, NOEXIST) == -EEXIST);
	/* To all: of a map of devices alone. */
	WANT(redirect_map(&devices, 0, 8) == 4);
	WANT(redirect_map(&processors, 0, 8) == 0);
	return 0;
}

TEST(redirect_to_an_interface)
{
	WANT(redirect(3, 0) == 4 && bpfdb_world.redirected_to == 3);
	WANT(redirect(4, 1) == 0 && bpfdb_world.redirected_to == 3);
	bpfdb_world.is_tc = 1;
	WANT(redirect(5, 0) == 7 && redirect(6, 1) == 7 && bpfdb_world.redirected_to == 6);
	WANT(redirect(7, 2) == 2 && bpfdb_world.redirected_to == 6);
	return 0;
}

TEST(routes)
{
	u8 asked[64] = { 2 };

	WANT(fib_lookup(context, asked, 64, 0) == 4);
	WANT(fib_lookup(context, asked, 63, 0) == -EINVAL);
	WANT(fib_lookup(context, asked, 64, 31) == 4 && fib_lookup(context, asked, 64, 32) == -EINVAL);
	asked[0] = 10;
	WANT(fib_lookup(context, asked, 64, 0) == 4);
	asked[0] = 3;
	WANT(fib_lookup(context, asked, 64, 0) == -97);
	return 0;
}

TEST(no_sockets)
{
	u8 tuple[12] = { 127, 0, 0, 1, 127, 0, 0, 1, 0, 80, 0, 80 };

	WANT(!sk_lookup_tcp(context, tuple, 12, -1, 0) && !sk_lookup_udp(context, tuple, 12, -1, 0));
	WANT(!skc_lookup_tcp(context, tuple, 12, -1, 0));
	WANT(sk_release(NULL) == 0);
	return 0;
}

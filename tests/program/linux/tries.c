/* Tries of prefixes: an address finds the longest prefix that it begins with. */
#include "linux.h"

struct address { u32 bits; u8 bytes[4]; };
struct long_address { u32 bits; u8 bytes[16]; };
TRIE(routes, 4, struct address, u32);
TRIE(networks, 300, struct address, u32);
TRIE(longer, 10, struct long_address, u64);

#define PREFIX(BITS, ...) &(struct address){ BITS, { __VA_ARGS__ } }
#define SET(BITS, VALUE, ...) map_update(&routes, PREFIX(BITS, __VA_ARGS__), &(u32){ VALUE }, ANY)

static __attribute__((always_inline)) u32 route(const struct address *key)
{
	u32 *found = map_lookup(&routes, key);

	return found ? *found : 0;
}

TEST(trie_begins_empty)
{
	WANT(route(PREFIX(32, 10, 0, 0, 1)) == 0);
	WANT(map_delete(&routes, PREFIX(8, 10)) == -ENOENT);
	return 0;
}

TEST(trie_finds_the_longest)
{
	WANT(SET(16, 1, 192, 168) == 0);
	WANT(SET(24, 2, 192, 168, 0) == 0);
	WANT(route(PREFIX(32, 192, 168, 0, 5)) == 2);
	WANT(route(PREFIX(32, 192, 168, 1, 5)) == 1);
	WANT(route(PREFIX(24, 192, 168, 0)) == 2);
	WANT(route(PREFIX(23, 192, 168, 0)) == 1);
	WANT(route(PREFIX(15, 192, 168)) == 0);
	WANT(route(PREFIX(32, 10, 0, 0, 1)) == 0);
	WANT(SET(0, 3, 0) == 0);
	WANT(route(PREFIX(32, 10, 0, 0, 1)) == 3);
	WANT(route(PREFIX(0, 0)) == 3);
	WANT(route(PREFIX(32, 192, 168, 1, 5)) == 1);
	WANT(SET(32, 4, 192, 168, 1, 5) == 0);
	WANT(route(PREFIX(32, 192, 168, 1, 5)) == 4);
	WANT(route(PREFIX(32, 192, 168, 1, 4)) == 1);
	return 0;
}

TEST(trie_parts_within_a_byte)
{
	/* 10.128.0.0/9 and 10.192.0.0/10 part from 10.64.0.0/10 in the ninth bit. */
	WANT(SET(10, 1, 10, 64) == 0);
	WANT(SET(10, 2, 10, 192) == 0);
	WANT(SET(9, 3, 10, 128) == 0);
	WANT(route(PREFIX(32, 10, 127, 0, 1)) == 1);
	WANT(route(PREFIX(32, 10, 255, 0, 1)) == 2);
	WANT(route(PREFIX(32, 10, 191, 0, 1)) == 3);
	WANT(route(PREFIX(32, 10, 63, 0, 1)) == 0);
	return 0;
}

TEST(trie_refuses)
{
	u32 value = 1;

	WANT(map_update(&routes, PREFIX(33, 10), &value, ANY) == -EINVAL);
	WANT(map_update(&routes, PREFIX(8, 10), &value, 3) == -EINVAL);
	WANT(map_lookup(&routes, PREFIX(33, 10)) == NULL);
	WANT(map_delete(&routes, PREFIX(33, 10)) == -EINVAL);
	WANT(map_update(&routes, PREFIX(8, 10), &value, EXIST) == -ENOENT);
	WANT(map_update(&routes, PREFIX(8, 10), &value, NOEXIST) == 0);
	WANT(map_update(&routes, PREFIX(8, 10), &value, NOEXIST) == -EEXIST);
	WANT(map_update(&routes, PREFIX(8, 10), &value, EXIST) == 0);
	WANT(SET(8, 1, 11) == 0 && SET(8, 1, 12) == 0 && SET(8, 1, 13) == 0);
	WANT(SET(8, 1, 14) == -ENOSPC);
	WANT(SET(8, 2, 13) == 0);
	WANT(map_delete(&routes, PREFIX(8, 12)) == 0);
	WANT(map_delete(&routes, PREFIX(8, 12)) == -ENOENT);
	WANT(map_delete(&routes, PREFIX(9, 13)) == -ENOENT);
	WANT(map_delete(&routes, PREFIX(7, 12)) == -ENOENT);
	WANT(SET(8, 1, 14) == 0);
	WANT(route(PREFIX(32, 12, 0, 0, 1)) == 0);
	WANT(route(PREFIX(32, 13, 0, 0, 1)) == 2);
	return 0;
}

/* 256 networks 10.N.0.0/16, N in an order without order; then every other one goes. */
TEST(trie_of_many)
{
	u32 *found;

	for (u32 i = 0; i < 256; i++) {
		u32 value = i * 77 % 256;

		WANT(map_update(&networks, PREFIX(16, 10, value), &value, NOEXIST) == 0);
	}
	for (u32 i = 0; i < 256; i += 2)
		WANT(map_delete(&networks, PREFIX(16, 10, i)) == 0);
	for (u32 i = 0; i < 256; i++) {
		found = map_lookup(&networks, PREFIX(32, 10, i, 1, 1));
		WANT(i % 2 ? found && *found == i : !found);
	}
	return 0;
}

TEST(trie_of_long_addresses)
{
	struct long_address key = { 64, { 0x20, 0x01, 0x0d, 0xb8 } };
	u64 value = 7, *found;

	WANT(map_update(&longer, &key, &value, ANY) == 0);
	key.bits = 128;
	key.bytes[15] = 1;
	found = map_lookup(&longer, &key);
	WANT(found && *found == 7);
	key.bytes[7] = 1;
	WANT(map_lookup(&longer, &key) == NULL);
	key.bits = 129;
	WANT(map_update(&longer, &key, &value, ANY) == -EINVAL);
	return 0;
}

/* Hash tables, LRU tables and arrays. */
#include "linux.h"

MAP(words, BPFDB_HASH, 3, u32, u64);
MAP(many, BPFDB_HASH, 2000, u32, u32);
MAP(open, BPFDB_HASH, 0, u64, u32);
MAP(of_cpu, BPFDB_PERCPU_HASH, 2, u32, u64);
MAP(recent, BPFDB_LRU_HASH, 3, u32, u32);
MAP(recent_of_cpu, BPFDB_LRU_PERCPU_HASH, 1, u32, u32);
MAP(values, BPFDB_ARRAY, 5, u32, u64);
MAP(values_of_cpu, BPFDB_PERCPU_ARRAY, 2, u32, u32);
MAP(wide, BPFDB_ARRAY, 100000, u32, u64);
MAP(unsized, BPFDB_ARRAY, 0, u32, u32);
MAP(heavy, BPFDB_HASH, 100, u32, u8[60000]);

struct three { u8 bytes[3]; };
struct long_key { u8 bytes[23]; };
MAP(odd, BPFDB_HASH, 8, struct three, struct three);
MAP(longer, BPFDB_HASH, 8, struct long_key, u8);

TEST(table_begins_empty)
{
	u32 key = 1;

	WANT(map_lookup(&words, &key) == NULL);
	WANT(map_delete(&words, &key) == -ENOENT);
	return 0;
}

TEST(table_keeps_what_was_stored)
{
	u32 key = 1, other = 2;
	u64 value = 0x1122334455667788;
	u64 *found;

	WANT(map_update(&words, &key, &value, ANY) == 0);
	found = map_lookup(&words, &key);
	WANT(found && *found == 0x1122334455667788);
	WANT(map_lookup(&words, &other) == NULL);
	/* (a value is a place: what is written there stays) */
	*found = 7;
	found = map_lookup(&words, &key);
	WANT(found && *found == 7);
	value = 9;
	WANT(map_update(&words, &key, &value, EXIST) == 0);
	/* (an old place of a value is the new one's here; Linux gives the entry another) */
	OWN_WANT(*found == 9);
	found = map_lookup(&words, &key);
	WANT(found && *found == 9);
	return 0;
}

TEST(table_update_flags)
{
	u32 key = 1;
	u64 value = 5;

	WANT(map_update(&words, &key, &value, EXIST) == -ENOENT);
	WANT(map_update(&words, &key, &value, NOEXIST) == 0);
	WANT(map_update(&words, &key, &value, NOEXIST) == -EEXIST);
	WANT(map_update(&words, &key, &value, 3) == -EINVAL);
	WANT(map_update(&words, &key, &value, 1ull << 32) == -EINVAL);
	return 0;
}

TEST(table_full)
{
	u64 value = 5;
	u32 key;

	for (u32 i = 0; i < 3; i++) {
		key = i;
		WANT(map_update(&words, &key, &value, ANY) == 0);
	}
	key = 3;
	WANT(map_update(&words, &key, &value, ANY) == -E2BIG);
	key = 2;
	WANT(map_update(&words, &key, &value, ANY) == 0);
	WANT(map_delete(&words, &key) == 0);
	WANT(map_lookup(&words, &key) == NULL);
	WANT(map_delete(&words, &key) == -ENOENT);
	key = 3;
	WANT(map_update(&words, &key, &value, ANY) == 0);
	return 0;
}

/* (2,000 entries, of which every third goes and comes back as another) */
TEST(table_of_many)
{
	u32 *found;

	for (u32 i = 0; i < 2000; i++) {
		u32 key = i * 2654435761u, value = i;

		WANT(map_update(&many, &key, &value, NOEXIST) == 0);
	}
	for (u32 i = 0; i < 2000; i += 3) {
		u32 key = i * 2654435761u, value = i + 1;

		WANT(map_delete(&many, &key) == 0);
		key ^= 1;
		WANT(map_update(&many, &key, &value, NOEXIST) == 0);
	}
	for (u32 i = 0; i < 2000; i++) {
		u32 key = i * 2654435761u;

		found = map_lookup(&many, &key);
		if (i % 3) {
			WANT(found && *found == i);
			continue;
		}
		WANT(!found);
		key ^= 1;
		found = map_lookup(&many, &key);
		WANT(found && *found == i + 1);
	}
	return 0;
}

TEST(table_without_a_size)
{
	u32 *found;

	/* (numbers of 8 bytes that differ in their high half alone) */
	for (u64 i = 0; i < 1200; i++) {
		u64 key = i << 32;
		u32 value = i;

		WANT(map_update(&open, &key, &value, NOEXIST) == 0);
	}
	for (u64 i = 0; i < 1200; i++) {
		u64 key = i << 32;

		found = map_lookup(&open, &key);
		WANT(found && *found == i);
		if (i % 2)
			WANT(map_delete(&open, &key) == 0);
	}
	for (u64 i = 0; i < 1201; i++) {
		u64 key = i << 32;

		found = map_lookup(&open, &key);
		WANT(i < 1200 && i % 2 == 0 ? found && *found == i : !found);
	}
	return 0;
}

TEST(table_with_odd_keys)
{
	struct three key = { { 1, 2, 3 } }, value = { { 4, 5, 6 } }, *found;
	struct long_key name = { "twenty-two characters.." };
	u8 one = 1, *there;

	WANT(map_update(&odd, &key, &value, ANY) == 0);
	key.bytes[2] = 4;
	WANT(map_lookup(&odd, &key) == NULL);
	value.bytes[0] = 9;
	WANT(map_update(&odd, &key, &value, ANY) == 0);
	found = map_lookup(&odd, &key);
	WANT(found && found->bytes[0] == 9 && found->bytes[1] == 5 && found->bytes[2] == 6);
	WANT(map_update(&longer, &name, &one, ANY) == 0);
	name.bytes[22] ^= 1;
	WANT(map_lookup(&longer, &name) == NULL);
	name.bytes[22] ^= 1;
	there = map_lookup(&longer, &name);
	WANT(there && *there == 1);
	return 0;
}

MAP(crowd, BPFDB_HASH, 64, struct three, u32);

/* (so many that some share a bucket) */
TEST(table_with_many_odd_keys)
{
	struct three key = { { 0, 7, 9 } };
	u32 *found;

	for (u32 i = 0; i < 64; i++) {
		u32 value = i;

		key.bytes[0] = i * 5;
		WANT(map_update(&crowd, &key, &value, NOEXIST) == 0);
	}
	for (u32 i = 0; i < 64; i += 2) {
		key.bytes[0] = i * 5;
		WANT(map_delete(&crowd, &key) == 0);
	}
	for (u32 i = 0; i < 64; i++) {
		key.bytes[0] = i * 5;
		found = map_lookup(&crowd, &key);
		WANT(i % 2 ? found && *found == i : !found);
	}
	return 0;
}

TEST(table_of_a_processor)
{
	u32 key = 4;
	u64 value = 8, *found;

	WANT(map_update(&of_cpu, &key, &value, NOEXIST) == 0);
	found = map_lookup(&of_cpu, &key);
	WANT(found && *found == 8);
	WANT(map_lookup_percpu(&of_cpu, &key, 0) == found);
	OWN_WANT(map_lookup_percpu(&of_cpu, &key, 1) == NULL);
	WANT(map_lookup_percpu(&of_cpu, &key, 9999) == NULL);
	WANT(map_update(&of_cpu, &key, &value, NOEXIST) == -EEXIST && map_update(&of_cpu, &key, &value, 3) == -EINVAL);
	WANT(map_delete(&of_cpu, &key) == 0 && map_delete(&of_cpu, &key) == -ENOENT);
	WANT(map_lookup(&of_cpu, &key) == NULL && map_lookup_percpu(&of_cpu, &key, 0) == NULL);
	WANT(map_update(&of_cpu, &key, &value, EXIST) == -ENOENT);
	WANT(map_update(&of_cpu, &key, &value, ANY) == 0);
	key = 5;
	WANT(map_update(&of_cpu, &key, &value, ANY) == 0);
	key = 6;
	WANT(map_update(&of_cpu, &key, &value, ANY) == -E2BIG);
	return 0;
}

/* A table of LRU takes a new entry always. (Which one goes is the kernel's own choice; here it is the one that wasn't
   used for longest.) */
OWN_TEST(table_of_what_is_recent)
{
	u32 value = 1, key;

	for (key = 0; key < 3; key++)
		WANT(map_update(&recent, &key, &value, NOEXIST) == 0);
	key = 0;
	WANT(map_lookup(&recent, &key));
	key = 9;
	WANT(map_update(&recent, &key, &value, ANY) == 0);
	WANT(map_lookup(&recent, &key));
	key = 1;
	WANT(map_lookup(&recent, &key) == NULL);
	key = 0;
	WANT(map_lookup(&recent, &key));
	key = 2;
	WANT(map_delete(&recent, &key) == 0);
	WANT(map_delete(&recent, &key) == -ENOENT);
	for (key = 20; key < 40; key++)
		WANT(map_update(&recent, &key, &value, NOEXIST) == 0);
	for (key = 20; key < 40; key++)
		WANT(!map_lookup(&recent, &key) == (key < 37));
	key = 1;
	WANT(map_update(&recent_of_cpu, &key, &value, ANY) == 0);
	key = 2;
	WANT(map_update(&recent_of_cpu, &key, &value, EXIST) == -ENOENT);
	WANT(map_update(&recent_of_cpu, &key, &value, NOEXIST) == 0);
	WANT(map_lookup(&recent_of_cpu, &key));
	return 0;
}

/* What Linux says of such tables, whichever entries go. (It frees one before it looks whether the key is there, so only
   while there is room do its errors say what is in the table.) */
MAP(much_recent, BPFDB_LRU_HASH, 64, u32, u32);
MAP(much_recent_of_cpu, BPFDB_LRU_PERCPU_HASH, 64, u32, u32);

#define RECENT(NAME) \
	for (u32 i = 50; i < 70; i++) { \
		key = i; \
		WANT(map_update(&NAME, &key, &value, EXIST) == -ENOENT); \
		WANT(map_update(&NAME, &key, &value, NOEXIST) == 0); \
		WANT(map_update(&NAME, &key, &value, NOEXIST) == -EEXIST); \
		found = map_lookup(&NAME, &key); \
		WANT(found && *found == 1); \
	} \
	value = 2; \
	WANT(map_update(&NAME, &key, &value, EXIST) == 0); \
	found = map_lookup(&NAME, &key); \
	WANT(found && *found == 2); \
	WANT(map_update(&NAME, &key, &value, 3) == -EINVAL); \
	WANT(map_delete(&NAME, &key) == 0 && map_lookup(&NAME, &key) == NULL && map_delete(&NAME, &key) == -ENOENT); \
	for (u32 i = 0; i < 300; i++) { \
		key = 1000 + i; \
		WANT(map_update(&NAME, &key, &value, ANY) == 0); \
		WANT(map_lookup(&NAME, &key)); \
	}

TEST(table_that_forgets)
{
	u32 value = 1, key, *found;

	RECENT(much_recent);
	return 0;
}

TEST(table_of_a_processor_that_forgets)
{
	u32 value = 1, key, *found;

	RECENT(much_recent_of_cpu);
	return 0;
}

TEST(array_is_all_there)
{
	u64 value = 3, *found;
	u32 key;

	for (u32 i = 0; i < 5; i++) {
		key = i;
		found = map_lookup(&values, &key);
		WANT(found && *found == 0);
	}
	key = 5;
	WANT(map_lookup(&values, &key) == NULL);
	WANT(map_update(&values, &key, &value, ANY) == -E2BIG);
	key = 0xffffffff;
	WANT(map_lookup(&values, &key) == NULL);
	key = 4;
	WANT(map_update(&values, &key, &value, NOEXIST) == -EEXIST);
	WANT(map_update(&values, &key, &value, 4) == -EINVAL);
	WANT(map_update(&values, &key, &value, EXIST) == 0);
	found = map_lookup(&values, &key);
	WANT(found && *found == 3);
	WANT(map_delete(&values, &key) == -EINVAL);
	key = 3;
	found = map_lookup(&values, &key);
	WANT(found && *found == 0);
	return 0;
}

TEST(array_of_a_processor)
{
	u32 key = 1, value = 6, *found;

	WANT(map_update(&values_of_cpu, &key, &value, ANY) == 0);
	found = map_lookup(&values_of_cpu, &key);
	WANT(found && *found == 6);
	WANT(map_lookup_percpu(&values_of_cpu, &key, 0) == found);
	WANT(map_lookup_percpu(&values_of_cpu, &key, 9999) == NULL);
	WANT(map_update(&values_of_cpu, &key, &value, NOEXIST) == -EEXIST);
	WANT(map_update(&values_of_cpu, &key, &value, 3) == -EINVAL && map_delete(&values_of_cpu, &key) == -EINVAL);
	key = 2;
	WANT(map_lookup(&values_of_cpu, &key) == NULL && map_update(&values_of_cpu, &key, &value, ANY) == -E2BIG);
	WANT(map_lookup_percpu(&values_of_cpu, &key, 0) == NULL);
	return 0;
}

/* (Of 800,000 bytes, which no map of the machine has.) */
TEST(array_that_is_large)
{
	u64 value = 3, *found;
	u32 key = 99999;

	found = map_lookup(&wide, &key);
	WANT(found && *found == 0);
	WANT(map_update(&wide, &key, &value, ANY) == 0);
	WANT(*found == 3);
	key = 100000;
	WANT(map_lookup(&wide, &key) == NULL);
	WANT(map_update(&wide, &key, &value, ANY) == -E2BIG);
	key = 77;
	found = map_lookup(&unsized, &key);
	WANT(found && *(u32 *)found == 0);
	return 0;
}

MAP(cgroups, BPFDB_CGROUP_ARRAY, 2, u32, u32);

/* (The kernel's verifier refuses programs that ask this.) */
OWN_TEST(helpers_of_other_kinds)
{
	u32 key = 0;
	u64 value = 0;

	WANT(map_lookup(&cgroups, &key) == NULL);
	WANT(map_update(&cgroups, &key, &key, ANY) == -EOPNOTSUPP);
	WANT(map_delete(&cgroups, &key) == -EOPNOTSUPP);
	WANT(map_push(&words, &value, ANY) == -EOPNOTSUPP);
	WANT(map_pop(&words, &value) == -EOPNOTSUPP && map_peek(&words, &value) == -EOPNOTSUPP);
	WANT(map_lookup_percpu(&words, &key, 0) == NULL);
	WANT(ringbuf_output(&words, &value, 8, 0) == -EAGAIN && ringbuf_reserve(&words, 8, 0) == NULL);
	WANT(redirect_map(&words, 0, 2) == 0);
	return 0;
}

static u8 bytes[60000];

/* The heap has room for three values of 60,000 bytes: a fourth is refused as for want of memory, and that is counted. */
OWN_TEST(heap_without_room)
{
	u64 value = 1;
	u32 key;

	WANT(map_update(&words, &(u32){ 0 }, &value, ANY) == 0);
	for (key = 0; key < 3; key++)
		WANT(map_update(&heavy, &key, bytes, ANY) == 0);
	WANT(bpfdb_world.no_room == 0);
	WANT(map_update(&heavy, &key, bytes, ANY) == -ENOMEM);
	WANT(bpfdb_world.no_room == 1);
	WANT(map_update(&words, &key, &value, ANY) == 0);
	return 0;
}

/* Counts packets by their class, 1 to 4, and answers how many of the class have come. */
typedef unsigned char u8;
typedef unsigned int u32;
typedef unsigned long long u64;

static void *(*bpf_map_lookup_elem)(void *map, const void *key) = (void *)1;

struct {
	int (*type)[2]; /* BPF_MAP_TYPE_ARRAY */
	int (*max_entries)[4];
	u32 *key;
	u64 *value;
} counts __attribute__((section(".maps")));

struct packet {
	u8 version;
	u8 class;
};

__attribute__((section("filter"))) u64 count(const struct packet *p, u64 size)
{
	u32 key = p->class;
	u64 *value = bpf_map_lookup_elem(&counts, &key);

	if (!value)
		return 0;
	return ++*value;
}

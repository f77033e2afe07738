/* A program of one section among two, which calls a helper and reads a map; each option of linking changes what it gives. What that is, is worked out in
 * tests/program/target.sh. */
typedef unsigned int u32;
typedef unsigned long long u64;
#define SEC(name) __attribute__((section(name), used))
#define __uint(name, value) int (*name)[value]
#define __type(name, value) typeof(value) *name

struct {
	__uint(type, 2);
	__uint(max_entries, 1);
	__type(key, u32);
	__type(value, u64);
} few SEC(".maps");

static u64 (*bpf_ktime_get_ns)(void) = (void *)5;
static u64 *(*bpf_map_lookup_elem)(void *map, const void *key) = (void *)1;

/* 100 times the clock, and 1 where the map has more than three entries. */
SEC("first") u64 clock(void *context)
{
	u32 key = 3;

	return 100 * bpf_ktime_get_ns() + (bpf_map_lookup_elem(&few, &key) != 0);
}

SEC("second") u64 two(unsigned char *context) { return context[0] + 2; }
SEC("second") u64 three(unsigned char *context) { return context[0] + 3; }

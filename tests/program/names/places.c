/* Maps and data of each form that a type has: what lies at each byte of them is written out in tests/program/names.sh, or found by tests/trials/names.py. */
typedef unsigned char u8;
typedef unsigned short u16;
typedef unsigned int u32;
typedef unsigned long long u64;

static void *(*bpf_map_lookup_elem)(void *map, const void *key) = (void *)1;

struct limit {
	u32 rate;
	u16 burst;
	u8 on;
};

enum state { CLOSED, OPEN };

typedef struct limit limits_t[2];

/* A struct with padding, arrays of structs, a union, members without names, bits, pointers, and names for types. */
struct class {
	u64 packets;
	u8 flag;
	limits_t limits;
	const volatile enum state state;
	union {
		u32 word;
		u8 bytes[4];
	};
	struct {
		u16 low, high;
	} parts[2];
	u32 first : 3, second : 9, third : 20;
	void *next;
	u32 matrix[2][3];
	struct { } nothing;
	u8 rest[0];
};

struct {
	int (*type)[2]; /* BPF_MAP_TYPE_ARRAY */
	int (*max_entries)[4];
	u32 *key;
	struct class *value;
} classes __attribute__((section(".maps")));

struct {
	int (*type)[6]; /* BPF_MAP_TYPE_PERCPU_ARRAY */
	int (*max_entries)[3];
	u32 *key;
	u64 *value;
} counters __attribute__((section(".maps")));

/* The sizes alone. */
struct {
	int (*type)[2];
	int (*max_entries)[2];
	int (*key_size)[4];
	int (*value_size)[12];
} flows __attribute__((section(".maps")));

u64 seed = 7;
static volatile u32 hits;
struct limit slow = { .rate = 3 };
static u64 table[4] = { 1, 2, 3, 4 };
const volatile u32 level = 5;
struct class one __attribute__((section(".data.one")));

__attribute__((section("prog"), used)) u64 entry(const u8 *context, u64 size)
{
	static u32 calls;
	u32 key = 3;
	struct class *class = bpf_map_lookup_elem(&classes, &key);
	u64 *count;
	u32 *flow;

	hits++;
	calls++;
	if (!class)
		return 1;
	class->packets++;
	class->limits[1].rate = slow.rate + level + seed;
	class->matrix[1][2] = calls;
	one.next = 0;
	key = 2;
	count = bpf_map_lookup_elem(&counters, &key);
	if (!count)
		return 2;
	*count += class->limits[1].rate;
	key = 1;
	flow = bpf_map_lookup_elem(&flows, &key);
	if (!flow)
		return 3;
	flow[1] = *count;
	table[hits & 3]++;
	return *count + flow[1];
}

/* Programs that call what bpfdb doesn't have: each in a section of its own. What each gives is worked out in tests/program/join.sh. */
typedef unsigned char u8;
typedef unsigned int u32;
typedef unsigned long long u64;
#define SEC(name) __attribute__((section(name), used))
static void *(*bpf_map_lookup_elem)(void *map, const void *key) = (void *)1;
static long (*bpf_map_update_elem)(void *map, const void *key, const void *value, u64 flags) = (void *)2;
static u64 (*bpf_ktime_get_ns)(void) = (void *)5;
static u32 (*bpf_get_prandom_u32)(void) = (void *)7;
static u32 (*bpf_get_smp_processor_id)(void) = (void *)8;
static u64 (*bpf_trace)(u64 word) = (void *)64;

struct {
    int (*type)[1];
    u32 *key;
    u64 *value;
    int (*max_entries)[128];
} flows SEC(".maps");
struct {
    int (*type)[27];
    int (*max_entries)[4096];
} events SEC(".maps");

extern int sum(int a, int b);
extern u64 seed;

SEC("time") u64 at_time(void *context) { return bpf_ktime_get_ns() * 100 + bpf_ktime_get_ns(); }

/* a function of .text that calls a helper, too */
static __attribute__((noinline)) u64 later(u64 by) { return bpf_ktime_get_ns() + by; }
SEC("text") u64 in_text(void *context) { return later(10) * 100 + later(20); }

SEC("trace") u64 traced(void *context)
{
    bpf_trace(7);
    return bpf_get_prandom_u32();
}

SEC("extern") u64 outside(void *context) { return sum(40, 2) + seed; }

SEC("cells") u64 mapped(void *context)
{
    u32 key = 7;
    u64 value = 41, *found;
    if (bpf_map_lookup_elem(&flows, &key))
        return 1;
    if (bpf_map_update_elem(&flows, &key, &value, 0))
        return 2;
    found = bpf_map_lookup_elem(&flows, &key);
    return found ? *found : 3;
}

SEC("kind") u64 of_kind(void *context)
{
    u32 key = 0;
    return bpf_map_update_elem(&events, &key, &key, 9) * 1000 + bpf_map_update_elem(&flows, &key, &key, 9);
}

SEC("unanswered") u64 missing(void *context) { return bpf_get_smp_processor_id(); }

/* what this object lacks: of one function two symbols, of the other one alone */
extern u64 elsewhere(void);
SEC("lacking") u64 lacks_two(void *context) { return elsewhere() + sum(1, 2) + elsewhere(); }
SEC("lacking") u64 lacks_one(void *context) { return sum(1, 2); }

/* the kernel's helpers 14, 5, 130 and 5 again, one without a name, and 211, the last one with a name */
#define HELPER(number) ((u64 (*)(void))(long)(number))()
SEC("several") u64 unknown(void *context)
{
    return HELPER(14) + HELPER(5) + HELPER(130) + HELPER(5) + HELPER(1000) + HELPER(211);
}

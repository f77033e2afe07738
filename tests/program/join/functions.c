/* Functions that answer what program.c calls. */
typedef unsigned int u32;
typedef unsigned long long u64;
static u64 (*bpf_trace)(u64 word) = (void *)64;

struct map {
    u32 kind, key_size, value_size, entries;
    u64 key, value, rest[4];
};

u64 seed = 1000;
static u64 now;
static __attribute__((noinline)) u64 step(u64 by) { return now += by; }

u64 bpf_ktime_get_ns(void) { return step(1); }
int sum(int a, int b) { return a + b; }

/* calls the machine's own helper 64, which this object has a function for */
u32 bpf_get_prandom_u32(void)
{
    bpf_trace(8);
    return 9;
}
u64 bpf_bind(u64 word) { return bpf_trace(word + 100); }

/* one entry a map; with flags of 9 the map's kind, sizes and entries */
void *bpf_map_lookup_elem(struct map *map, const u32 *key) { return map->key == *key + 1u ? &map->value : 0; }
long bpf_map_update_elem(struct map *map, const u32 *key, const u64 *value, u64 flags)
{
    if (flags == 9)
        return map->kind + map->key_size * 100ull + map->value_size * 10ull + map->entries;
    map->key = *key + 1u;
    map->value = *value;
    return 0;
}

static u32 bpf_get_smp_processor_id(void) { return 3; }
u32 keep(void) { return bpf_get_smp_processor_id(); }

/* Maps whose sizes are told by --entries. Where none is told, `few` and `many` have 4 entries, of one type, and the others none: `open` has no
   number of entries at all, `zero` says 0, and `hash` is no array. */
typedef unsigned int u32;
typedef unsigned long long u64;
#define SEC(name) __attribute__((section(name), used))
#define __uint(name, value) int (*name)[value]
#define __type(name, value) __typeof__(value) *name

static void *(*bpf_map_lookup_elem)(void *map, const void *key) = (void *)1;

struct four {
    __uint(type, 2);
    __uint(max_entries, 4);
    __type(key, u32);
    __type(value, u64);
};

struct four few SEC(".maps"), many SEC(".maps");

struct {
    __uint(type, 2);
    __uint(key_size, 4);
    __uint(value_size, 8);
} open SEC(".maps");

struct {
    __uint(max_entries, 0);
    __type(key, u32);
    __type(value, u64);
    __uint(type, 6);
} zero SEC(".maps");

typedef struct {
    __uint(type, 1);
    __type(key, u64);
    __type(value, char[20]);
    __uint(max_entries, 0);
    __uint(map_flags, 1);
} named_hash;
typedef named_hash hash_map;
hash_map hash SEC(".maps");

static __attribute__((noinline)) u64 has(void *map, u32 key) { return bpf_map_lookup_elem(map, &key) != 0; }

/* bits 0 to 3: whether keys 3 and 4 are in `few`, and in `many` */
SEC("prog/shared") u64 shared(void *context)
{
    return has(&few, 3) + has(&few, 4) * 2 + has(&many, 3) * 4 + has(&many, 4) * 8;
}
SEC("prog/open") u64 opened(void *context) { return has(&open, 0) + has(&open, 6) * 2 + has(&open, 7) * 4 + has(&few, 3) * 8; }
SEC("prog/zero") u64 zeros(void *context) { return has(&zero, 0) + has(&zero, 1) * 2; }

/* with library.c: 1,000,000 times the kind, 10,000 times the size of a key, 100 times that of a value, and the entries */
SEC("prog/hash") u64 hashed(void *context) { return (u64)bpf_map_lookup_elem(&hash, context) + 1000000000ull * (u64)bpf_map_lookup_elem(&few, context); }

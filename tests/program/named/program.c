/* Programs of which files of tests name one each. What each gives is worked out in tests/program/named.sh. */
typedef unsigned char u8;
typedef unsigned int u32;
typedef unsigned long long u64;
#define SEC(name) __attribute__((section(name), used))
static u64 (*bpf_ktime_get_ns)(void) = (void *)5;

static u32 counted[2];

SEC("first") u64 first_byte(u8 *context) { return *context; }

SEC("two") u64 first_of_two(void *context) { return 1; }
SEC("two") u64 second(void *context) { return 2; }

SEC("count") u64 counting(void *context)
{
    counted[1]++;
    return *(volatile u32 *)&counted[1];
}

SEC("time") u64 now(void *context) { return bpf_ktime_get_ns(); }

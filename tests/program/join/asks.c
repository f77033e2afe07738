/* Programs that call one helper each. What each gives is worked out in tests/program/join.sh. */
typedef unsigned int u32;
typedef unsigned long long u64;
#define SEC(name) __attribute__((section(name), used))
static u64 (*bpf_ktime_get_ns)(void) = (void *)5;
static u32 (*bpf_get_smp_processor_id)(void) = (void *)8;
static long (*bpf_cgrp_storage_delete)(void *map, void *cgroup) = (void *)211;

SEC("named") u64 at_named(void *context) { return bpf_ktime_get_ns(); }
SEC("inside") u64 at_inside(void *context) { return bpf_get_smp_processor_id(); }
SEC("latest") u64 at_latest(void *context) { return bpf_cgrp_storage_delete(0, 0); }

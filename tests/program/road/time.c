/* A helper, as a function of --with, one of whose functions reads what nothing wrote. */
typedef unsigned long long u64;

static __attribute__((noinline)) u64 look(volatile u64 *at)
{
	return at[1]; /* look */
}

u64 bpf_ktime_get_ns(void)
{
	volatile u64 never[2];

	return look(never) + 1; /* helper */
}

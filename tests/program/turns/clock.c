/* The time of bpf_ktime_get_ns: 1 at the first call, 2 at the second. */
static unsigned long long calls;

unsigned long long bpf_ktime_get_ns(void)
{
	return ++calls;
}

/* An answer of one's own: the first call of bpf_get_current_pid_tgid tells of 42, later ones of 43. */
typedef unsigned long long u64;

static u64 calls = 1;

u64 bpf_get_current_pid_tgid(void)
{
	return calls++ == 1 ? 42 : 43;
}

/* A function that asks for the same helper: what it answers is twice the answer of an object behind this one. */
static unsigned long long (*ktime_get_ns)(void) = (void *)5;
unsigned long long bpf_ktime_get_ns(void) { return 2 * ktime_get_ns(); }

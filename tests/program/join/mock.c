/* A function that wins over the one of functions.c, since it is joined first. */
unsigned long long bpf_ktime_get_ns(void) { return 5; }

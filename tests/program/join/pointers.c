/* Data with an address. */
const char *name = "name";
unsigned long long bpf_ktime_get_ns(void) { return name[0]; }

/* Functions for helpers. The name of the second one is made that of the first, and the third is made to begin inside of a slot (tests/trials/symbols.py). */
unsigned long long bpf_ktime_get_ns(void) { return 7; }
unsigned long long bpf_ktime_get_xx(void) { return 9; }
unsigned int bpf_get_smp_processor_id(void) { return 6; }
long bpf_cgrp_storage_delete(void *map, void *cgroup) { return 3; }

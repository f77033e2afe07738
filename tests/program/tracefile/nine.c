/* A function that answers the helper of its name. */
unsigned int bpf_get_prandom_u32(void) { return 9; }

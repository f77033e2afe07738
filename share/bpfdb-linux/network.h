/* Interfaces, sockets and tunnels: bpfdb_network says what is asked of them. It lies in a section of its own, so that a
   program has that map only where it reaches a helper of these. */
#if HAS_DATA
struct bpfdb_network bpfdb_network __attribute__((section(".data.network"))) = {
	.mtu = 1500,
	.header = ETHERNET,
	.netns_cookie = 1,
};
#endif

_Static_assert(__builtin_offsetof(struct bpfdb_network, tunnel) == 48, "fields are where bpfdb-linux.h says");

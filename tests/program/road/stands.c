/* Programs for tracing, each of which ends in a way of its own, in one line: it exits, follows a bad pointer, never ends, reads what nothing wrote in its
   frame, or has a helper do so. One for XDP, and a static function, have that helper, too. */
typedef unsigned int u32;
typedef unsigned long long u64;

struct xdp_md {
	u32 data, data_end, data_meta, ingress_ifindex, rx_queue_index, egress_ifindex;
};

static u64 (*now)(void) = (void *)5;

#define PROGRAM(NAME) __attribute__((section("tp/" #NAME))) int NAME(void *ctx)

PROGRAM(exits)
{
	return 5; /* exits */
}

PROGRAM(faults)
{
	return *(volatile int *)16; /* faults */
}

PROGRAM(loops)
{
	for (;;) __asm__ volatile("r1 += 1"); /* loops */
}

PROGRAM(reads)
{
	volatile u64 never[2];

	return never[1]; /* reads */
}

PROGRAM(asks)
{
	return now() + 1; /* asks */
}

static __attribute__((noinline)) u64 twice(u64 a)
{
	return now() + a; /* twice */
}

PROGRAM(through)
{
	return twice(1) + twice(2); /* through */
}

__attribute__((section("xdp"))) int on_packet(struct xdp_md *ctx)
{
	return now() + 2; /* on_packet */
}

/* Answers how many packets a sender may have in flight: its rate, and a burst on top, which is 16 where the packet has none. */
typedef unsigned char u8;
typedef unsigned int u32;
typedef unsigned long long u64;

struct packet {
	u8 rate;
	u8 options;
	u8 burst;
};

struct limits {
	u32 rate;
	u32 burst;
};

static __attribute__((noinline)) void read_limits(struct limits *limits, const struct packet *p)
{
	limits->rate = p->rate;
	if (p->options & 1)
		limits->burst = p->burst;
}

__attribute__((section("filter"))) u64 in_flight(const struct packet *p, u64 size)
{
	struct limits limits;

	read_limits(&limits, p);
	return limits.rate + limits.burst;
}

/* Drops packets of more than 1,500 bytes, and counts them. */
typedef unsigned char u8;
typedef unsigned short u16;
typedef unsigned long long u64;

enum verdict { PASS, DROP };

struct packet {
	u8 kind;
	u8 flags;
	u16 length; /* in the order of the network */
};

u64 dropped;

__attribute__((section("filter"))) u64 verdict_on(const struct packet *p, u64 size)
{
	short length = __builtin_bswap16(p->length);

	if (length > 1500) {
		dropped++;
		return DROP;
	}
	return PASS;
}

/* Answers how many bytes of a packet come behind its header. */
typedef unsigned char u8;
typedef unsigned long long u64;

struct header {
	u8 version;
	u8 header_length;
	u8 total_length;
	u8 reserved;
};

__attribute__((section("filter"))) u64 payload(const struct header *h, u64 size)
{
	return h->total_length - h->header_length;
}

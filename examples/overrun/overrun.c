/* Notes the name that a packet carries, and answers the packet's size from the note. A name longer than its array spoils the note. */
typedef unsigned char u8;
typedef unsigned long long u64;

struct packet {
	u8 size;
	u8 len;
	u8 name[];
};

struct note {
	u8 name[8];
	const struct packet *packet;
};

static __attribute__((noinline)) void copy(u8 *to, const u8 *from, u64 len)
{
	u64 i;

	for (i = 0; i < len; i++)
		to[i] = from[i];
}

static __attribute__((noinline)) u64 size_of(const struct note *note)
{
	return note->packet->size;
}

__attribute__((section("filter"))) u64 entry(const struct packet *p, u64 size)
{
	struct note note = { .packet = p };

	copy(note.name, p->name, p->len);
	return size_of(&note);
}

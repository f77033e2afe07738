/* Output to perf buffers and ring buffers, of remote controls, and signals. */

/* Flags of a perf buffer: the processor, or the present one, and how many bytes of the packet come with it. */
#define INDEX_MASK 0xffffffffull
#define PACKET_MASK (0xfffffull << 32)

INLINE long to_perf(void *context, struct map *m, u64 flags, const void *data, u64 size)
{
	u64 of_packet = (flags & PACKET_MASK) >> 32;
	u32 index = flags & INDEX_MASK;
	struct bpfdb_record *record;

	if (flags & ~(INDEX_MASK | PACKET_MASK))
		return -EINVAL;
	if (of_packet > (of_packet ? packet_length(context) : 0))
		return -EFAULT;
	if (index == (u32)INDEX_MASK)
		index = bpfdb_world.cpu;
	else if (m->max_entries && index >= m->max_entries)
		return -E2BIG;
	/* (a reader has opened the buffer of the one processor that there is) */
	if (index != bpfdb_world.cpu)
		return -ENOENT;
	record = new_record(number_of(m), BPFDB_TO_PERF, size + of_packet);
	if (!record)
		return -ENOSPC;
	record->index = index;
	copy(record->data, data, size);
	if (of_packet)
		copy(record->data + size, bytes_at(context, 0, of_packet), of_packet);
	return 0;
}

HELPER long bpf_perf_event_output(void *context, struct map *m, u64 flags, const void *data, u64 size)
{
	return to_perf(context, m, flags, data, size);
}

/* Those of a program that traces one for XDP or tc. (Where the packet lies is told by the kernel's own structs.) */
HELPER long bpf_xdp_output(void *context, struct map *m, u64 flags, const void *data, u64 size)
{
	if (flags & PACKET_MASK)
		return -EOPNOTSUPP;
	return to_perf(context, m, flags, data, size);
}

HELPER long bpf_skb_output(void *context, struct map *m, u64 flags, const void *data, u64 size)
{
	if (flags & PACKET_MASK)
		return -EOPNOTSUPP;
	return to_perf(context, m, flags, data, size);
}

/* A record in a ring buffer takes 8 bytes before its data there, and nobody reads: the buffer is full when all its bytes
   but one are taken. */
INLINE struct bpfdb_record *in_ring(struct map *m, u64 size)
{
	u64 produced = m->produced + rounded(size + 8);
	struct bpfdb_record *record;

	if (m->kind != BPFDB_RINGBUF || (m->max_entries && produced >= m->max_entries))
		return NULL;
	record = new_record(number_of(m), BPFDB_TO_RING, size);
	if (record)
		m->produced = produced;
	return record;
}

INLINE struct bpfdb_record *record_of(void *data)
{
	return (struct bpfdb_record *)data - 1;
}

HELPER void *bpf_ringbuf_reserve(struct map *m, u64 size, u64 flags)
{
	struct bpfdb_record *record;

	if (flags)
		return NULL;
	record = in_ring(m, size);
	if (!record)
		return NULL;
	record->state = BPFDB_RESERVED;
	return record->data;
}

HELPER void bpf_ringbuf_submit(void *data, u64 flags UNUSED)
{
	record_of(data)->state = BPFDB_SENT;
}

HELPER void bpf_ringbuf_discard(void *data, u64 flags UNUSED)
{
	record_of(data)->state = BPFDB_DISCARDED;
}

HELPER long bpf_ringbuf_output(struct map *m, const void *data, u64 size, u64 flags)
{
	enum { WAKE_UP = 1 | 2 };
	struct bpfdb_record *record;

	if (flags & ~(u64)WAKE_UP)
		return -EINVAL;
	record = in_ring(m, size);
	if (!record)
		return -EAGAIN;
	copy(record->data, data, size);
	return 0;
}

HELPER u64 bpf_ringbuf_query(struct map *m, u64 flags)
{
	enum { UNREAD = 0, SIZE = 1, READ_TO = 2, WRITTEN_TO = 3 };

	switch (flags) {
	case UNREAD:
	case WRITTEN_TO:
		return m->produced;
	case SIZE:
		return m->max_entries;
	default:
		return 0;
	}
}

/* A record of no map, with room for so many numbers of four bytes. */
INLINE u32 *told(u16 kind, u32 numbers)
{
	struct bpfdb_record *record = new_record(BPFDB_NO_MAP, kind, numbers * sizeof(u32));

	return record ? (u32 *)record->data : NULL;
}

/* What a decoder of a remote control found. (Where the output has no room, that is counted there: Linux has no error.) */
HELPER long bpf_rc_keydown(void *context UNUSED, u32 protocol, u64 scancode, u32 toggle)
{
	u32 *to = told(BPFDB_KEY_DOWN, 4);

	if (to)
		*(any64 *)to = scancode, to[2] = protocol, to[3] = toggle != 0;
	return 0;
}

HELPER long bpf_rc_repeat(void *context UNUSED)
{
	told(BPFDB_KEY_AGAIN, 0);
	return 0;
}

HELPER long bpf_rc_pointer_rel(void *context UNUSED, s32 to_right, s32 down)
{
	u32 *to = told(BPFDB_POINTER, 2);

	if (to)
		to[0] = to_right, to[1] = down;
	return 0;
}

/* A signal for the task, but for that which nobody signals. (Number 0 only asks whether one may.) */
INLINE long send_signal(u32 number)
{
	enum { FIRST_TASK = 1, MOST_SIGNALS = 64 };
	u32 *to;

	if (bpfdb_world.tgid == FIRST_TASK)
		return -EPERM;
	if (number > MOST_SIGNALS)
		return -EINVAL;
	to = number ? told(BPFDB_SIGNAL, 1) : NULL;
	if (to)
		*to = number;
	return number && !to ? -EAGAIN : 0;
}

HELPER long bpf_send_signal(u32 number)
{
	return send_signal(number);
}

HELPER long bpf_send_signal_thread(u32 number)
{
	return send_signal(number);
}

/* Dynptrs, as Linux lays them out: 16 bytes, all zero of one that leads nowhere. */
struct dynptr {
	u8 *data;
	u32 size;		/* in its low 24 bits; above them the kind */
	u32 offset;
};

enum { MOST_DYNPTR = (1 << 24) - 1, OF_MEMORY = 1 << 28, OF_RING = 2 << 28 };

INLINE void set_dynptr(struct dynptr *d, void *data, u32 size)
{
	d->data = data;
	d->size = size;
	d->offset = 0;
}

/* Where so many bytes lie, or NULL where there aren't as many. */
INLINE u8 *bytes_of(const struct dynptr *d, u32 offset, u32 size)
{
	u32 all = d->size & MOST_DYNPTR;

	return size <= all && offset <= all - size ? d->data + d->offset + offset : NULL;
}

HELPER long bpf_dynptr_from_mem(void *data, u32 size, u64 flags, struct dynptr *d)
{
	long error = size > MOST_DYNPTR ? -E2BIG : flags ? -EINVAL : 0;

	set_dynptr(d, error ? NULL : data, error ? 0 : size | OF_MEMORY);
	return error;
}

HELPER long bpf_dynptr_read(void *to, u32 size, const struct dynptr *d, u32 offset, u64 flags)
{
	const u8 *from = bytes_of(d, offset, size);

	if (!d->data || flags)
		return -EINVAL;
	if (!from)
		return -E2BIG;
	copy(to, from, size);
	return 0;
}

HELPER long bpf_dynptr_write(const struct dynptr *d, u32 offset, const void *from, u32 size, u64 flags)
{
	u8 *to = bytes_of(d, offset, size);

	if (!d->data || flags)
		return -EINVAL;
	if (!to)
		return -E2BIG;
	copy(to, from, size);
	return 0;
}

HELPER void *bpf_dynptr_data(const struct dynptr *d, u32 offset, u32 size)
{
	return d->data ? bytes_of(d, offset, size) : NULL;
}

/* (One that leads nowhere is submitted or discarded all the same: the kernel's verifier wants it.) */
HELPER long bpf_ringbuf_reserve_dynptr(struct map *m, u32 size, u64 flags, struct dynptr *d)
{
	struct bpfdb_record *record = NULL;
	long error = flags ? -EINVAL : size > MOST_DYNPTR ? -E2BIG : 0;

	if (!error)
		record = in_ring(m, size);
	set_dynptr(d, record ? record->data : NULL, record ? size | OF_RING : 0);
	if (!record)
		return error ? error : -EINVAL;
	record->state = BPFDB_RESERVED;
	return 0;
}

INLINE void end_dynptr(struct dynptr *d, u16 state)
{
	if (d->data)
		record_of(d->data)->state = state;
	set_dynptr(d, NULL, 0);
}

HELPER void bpf_ringbuf_submit_dynptr(struct dynptr *d, u64 flags UNUSED)
{
	end_dynptr(d, BPFDB_SENT);
}

HELPER void bpf_ringbuf_discard_dynptr(struct dynptr *d, u64 flags UNUSED)
{
	end_dynptr(d, BPFDB_DISCARDED);
}

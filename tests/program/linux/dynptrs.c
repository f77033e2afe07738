/* Dynptrs of memory and of ring buffers. */
#include "linux.h"

struct dynptr { u64 words[2]; } __attribute__((aligned(8)));
MAP(values, BPFDB_ARRAY, 1, u32, u8[32]);
RING(ring, 4096);

TEST(bytes_by_a_dynptr)
{
	u8 bytes[4] = { 1, 2, 3, 4 }, *at, *seen;
	struct dynptr d;
	u32 key = 0;

	at = map_lookup(&values, &key);
	WANT(at && dynptr_from_mem(at, 32, 0, &d) == 0);
	WANT(dynptr_write(&d, 28, bytes, 4, 0) == 0 && at[28] == 1 && at[31] == 4);
	WANT(dynptr_write(&d, 29, bytes, 4, 0) == -E2BIG && dynptr_write(&d, 0xffffffff, bytes, 4, 0) == -E2BIG);
	WANT(dynptr_write(&d, 0, bytes, 4, 1) == -EINVAL && !at[0]);
	WANT(dynptr_read(bytes, 2, &d, 30, 0) == 0 && bytes[0] == 3 && bytes[1] == 4 && bytes[2] == 3);
	WANT(dynptr_read(bytes, 3, &d, 30, 0) == -E2BIG && dynptr_read(bytes, 1, &d, 0, 2) == -EINVAL);
	seen = dynptr_data(&d, 28, 4);
	WANT(seen && seen[0] == 1 && seen[3] == 4);
	seen = dynptr_data(&d, 29, 4);
	WANT(!seen);
	return 0;
}

/* (The kernel's verifier takes memory of the size that is said, and lets nobody look into a dynptr.) */
OWN_TEST(memory_of_no_dynptr)
{
	u8 bytes[4], *at;
	struct dynptr d;
	u32 key = 0;

	at = map_lookup(&values, &key);
	WANT(at && dynptr_from_mem(at, 1 << 24, 0, &d) == -E2BIG && !d.words[0] && !d.words[1]);
	WANT(dynptr_from_mem(at, 32, 1, &d) == -EINVAL && !d.words[0]);
	WANT(dynptr_read(bytes, 0, &d, 0, 0) == -EINVAL && dynptr_write(&d, 0, bytes, 0, 0) == -EINVAL &&
	     !dynptr_data(&d, 0, 0));
	WANT(dynptr_from_mem(at, 0xffffff, 0, &d) == 0 && dynptr_data(&d, 28, 4) == at + 28 &&
	     !dynptr_data(&d, 0xffffff, 1));
	return 0;
}

TEST(record_by_a_dynptr)
{
	u8 bytes[2] = { 8, 9 };
	long reserved, written, beyond;
	struct dynptr d;

	reserved = ringbuf_reserve_dynptr(&ring, 3, 0, &d);
	written = dynptr_write(&d, 1, bytes, 2, 0);
	beyond = dynptr_write(&d, 2, bytes, 2, 0);
	ringbuf_submit_dynptr(&d, 0);
	WANT(reserved == 0 && written == 0 && beyond == -E2BIG && ringbuf_query(&ring, 0) == 16);
	reserved = ringbuf_reserve_dynptr(&ring, 5000, 0, &d);
	written = dynptr_write(&d, 0, bytes, 1, 0);
	ringbuf_discard_dynptr(&d, 0);
	WANT(reserved == -EINVAL && written == -EINVAL && ringbuf_query(&ring, 0) == 16);
	return 0;
}

OWN_TEST(records_by_a_dynptr)
{
	u8 bytes[2] = { 8, 9 };
	struct bpfdb_record *record;
	struct dynptr d;

	WANT(ringbuf_reserve_dynptr(&ring, 2, 0, &d) == 0 && dynptr_write(&d, 0, bytes, 2, 0) == 0);
	record = (struct bpfdb_record *)dynptr_data(&d, 0, 2) - 1;
	WANT(record->length == 2 && record->map == 1 && record->kind == BPFDB_TO_RING &&
	     record->state == BPFDB_RESERVED && record->data[1] == 9);
	ringbuf_submit_dynptr(&d, 0);
	WANT(!d.words[0] && !dynptr_data(&d, 0, 1) && record->state == BPFDB_SENT);
	WANT(ringbuf_reserve_dynptr(&ring, 1, 0, &d) == 0);
	record = (struct bpfdb_record *)dynptr_data(&d, 0, 1) - 1;
	ringbuf_discard_dynptr(&d, 0);
	WANT(record->state == BPFDB_DISCARDED);
	WANT(ringbuf_reserve_dynptr(&ring, 5000, 0, &d) == -EINVAL && !d.words[0] && !d.words[1]);
	ringbuf_discard_dynptr(&d, 0);
	WANT(ringbuf_reserve_dynptr(&ring, 1, 1, &d) == -EINVAL &&
	     ringbuf_reserve_dynptr(&ring, 1 << 24, 0, &d) == -E2BIG);
	ringbuf_submit_dynptr(&d, 0);
	WANT(ringbuf_query(&ring, 0) == 32);
	return 0;
}

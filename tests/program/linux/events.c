/* Output to perf buffers and ring buffers, and texts: what goes out is held against linux.sh's own rows. */
#include "linux.h"

MAP(perf, BPFDB_PERF_EVENT_ARRAY, 4, u32, u32);
MAP(open, BPFDB_PERF_EVENT_ARRAY, 0, u32, u32);
RING(ring, 4096);
RING(small, 4096);
MAP(filler, BPFDB_ARRAY, 1, u32, u8[60000]);

TEST(perf_buffer)
{
	const u64 present = 0xffffffff;
	u8 event[5] = { 1, 2, 3, 4, 5 };

	WANT(perf_event_output(context, &perf, present, event, 5) == 0);
	WANT(perf_event_output(context, &perf, 0, event, 3) == 0);
	WANT(perf_event_output(context, &perf, 4, event, 3) == -E2BIG);
	/* (another processor's buffer) */
	WANT(perf_event_output(context, &perf, 1, event, 3) == -ENOENT);
	WANT(perf_event_output(context, &perf, 1ull << 52, event, 3) == -EINVAL);
	OWN(bpfdb_world.cpu = 2);
	WANT(perf_event_output(context, &open, present, event, 1) == 0);
	return 0;
}

OWN_TEST(perf_buffer_with_a_packet)
{
	struct { u64 data, data_end, data_meta; } packet = { (u64)context, (u64)context + size, (u64)context };
	u8 event[2] = { 0xaa, 0xbb };

	WANT(perf_event_output(&packet, &open, 3ull << 32 | 0xffffffff, event, 2) == 0);
	WANT(perf_event_output(&packet, &open, 17ull << 32 | 0xffffffff, event, 2) == -EFAULT);
	WANT(xdp_output(&packet, &open, 0xffffffff, event, 1) == 0);
	WANT(skb_output(&packet, &open, 0xffffffff, event, 1) == 0);
	WANT(skb_output(&packet, &open, 3ull << 32 | 0xffffffff, event, 1) == -EOPNOTSUPP);
	return 0;
}

/* (The kernel's verifier wants each record submitted or discarded.) */
#define WANT_NONE(RING, SIZE, FLAGS) do { \
		record = ringbuf_reserve(RING, SIZE, FLAGS); \
		if (record) { \
			ringbuf_discard(record, 0); \
			return __LINE__; \
		} \
	} while (0)

TEST(ring_buffer)
{
	u8 event[3] = { 7, 8, 9 };
	u8 *record;

	WANT(ringbuf_query(&ring, 1) == 4096 && ringbuf_query(&ring, 0) == 0);
	WANT(ringbuf_output(&ring, event, 3, 0) == 0);
	WANT(ringbuf_query(&ring, 3) == 16 && ringbuf_query(&ring, 0) == 16 && ringbuf_query(&ring, 2) == 0);
	WANT(ringbuf_output(&ring, event, 3, 4) == -EINVAL);
	record = ringbuf_reserve(&ring, 2, 0);
	WANT(record);
	record[1] = 0x44;
	ringbuf_submit(record, 0);
	record = ringbuf_reserve(&ring, 1, 0);
	WANT(record);
	ringbuf_discard(record, 0);
	WANT_NONE(&ring, 1, 1);
	WANT_NONE(&ring, 5000, 0);
#ifndef FOR_KERNEL
	record = ringbuf_reserve(&ring, 1, 0);
	WANT(record && *record == 0);
	*record = 0x55;
#endif
	return 0;
}

/* A buffer of 4,096 bytes has room for 4,095: fifteen records of 256 bytes and one of 112, each with 8 before it. */
TEST(ring_buffer_full)
{
	u8 event[256] = { 1 }, *record;

	for (u32 i = 0; i < 15; i++)
		WANT(ringbuf_output(&small, event, 256, i % 3) == 0);
	WANT(ringbuf_output(&small, event, 128, 2) == -EAGAIN);
	WANT(ringbuf_output(&small, event, 112, 0) == 0);
	WANT(ringbuf_output(&small, event, 8, 0) == -EAGAIN);
	record = ringbuf_reserve(&small, 0, 0);
	WANT(record);
	ringbuf_submit(record, 0);
	WANT_NONE(&small, 0, 0);
	return 0;
}

/* The output has 65,536 bytes in all. */
OWN_TEST(output_full)
{
	u32 key = 0;
	u8 *bytes = map_lookup(&filler, &key);

	WANT(bytes);
	WANT(perf_event_output(context, &open, 0, bytes, 60000) == 0);
	WANT(perf_event_output(context, &open, 0, bytes, 6000) == -ENOSPC);
	WANT(bpfdb_world.no_room == 1);
	WANT(perf_event_output(context, &open, 0, bytes, 5000) == 0);
	return 0;
}

/* What a decoder of a remote control sends. */
OWN_TEST(keys_and_pointers)
{
	WANT(rc_keydown(context, 0x40, 0x1122334455667788, 2) == 0);
	WANT(rc_repeat(context) == 0);
	WANT(rc_pointer_rel(context, -1, 5) == 0);
	return 0;
}

OWN_TEST(signals)
{
	WANT(send_signal(9) == 0 && send_signal_thread(64) == 0);
	WANT(send_signal(65) == -EINVAL && send_signal_thread(0xffffffff) == -EINVAL);
	/* (number 0 asks whether one may) */
	WANT(send_signal(0) == 0);
	bpfdb_world.tgid = 1;
	WANT(send_signal(9) == -EPERM && send_signal_thread(0) == -EPERM);
	return 0;
}

/* A copy of the packet, which stays as it is. */
OWN_TEST(packet_to_an_interface)
{
	struct { u64 data, data_end, data_meta; } packet = { (u64)context + 1, (u64)context + 6, (u64)context + 1 };

	WANT(clone_redirect(&packet, 3, 0) == 0 && clone_redirect(&packet, 4, 1) == 0);
	WANT(clone_redirect(&packet, 3, 2) == -EINVAL && clone_redirect(&packet, 0, 0) == -EINVAL &&
	     clone_redirect(&packet, 0x80000000, 0) == -EINVAL);
	WANT(packet.data == (u64)context + 1 && bpfdb_world.redirected_to == 0);
	return 0;
}

#define SEQ(FORMAT, ...) ({ \
		u64 arguments[] = { __VA_ARGS__ }; \
		seq_printf(NULL, FORMAT, sizeof(FORMAT), arguments, sizeof(arguments)); \
	})

OWN_TEST(file_of_an_iterator)
{
	u8 bytes[3] = { 'x', 0, '\n' };

	WANT(seq_printf(NULL, "name pid\n", 10, NULL, 0) == 0);
	WANT(SEQ("%s %5d\n", (u64)"init", 1) == 0);
	WANT(seq_write(NULL, bytes, 3) == 0 && seq_write(NULL, bytes, 0) == 0);
	WANT(SEQ("%d %d", 1) == -EINVAL && SEQ("%z", 1) == -EINVAL && seq_printf(NULL, "%d", 3, bytes, 7) == -EINVAL);
	WANT(seq_printf(NULL, "%d", 3, NULL, 8) == -EINVAL && seq_printf(NULL, "no end", 4, NULL, 0) == -EINVAL);
	return 0;
}

/* One call writes at most 1,023 bytes; and the output has an end. */
OWN_TEST(file_without_room)
{
	u32 key = 0;
	u8 *bytes = map_lookup(&filler, &key);

	WANT(SEQ("%1023d", 1) == 0 && SEQ("%1024d", 1) == -EOVERFLOW);
	WANT(bytes && seq_write(NULL, bytes, 60000) == 0 && seq_write(NULL, bytes, 6000) == -EOVERFLOW);
	WANT(bpfdb_world.no_room == 1 && seq_write(NULL, bytes, 2800) == 0);
	WANT(SEQ("%d", 1) == -EOVERFLOW && rc_keydown(context, 1, 2, 0) == 0 && bpfdb_world.no_room == 2);
	return 0;
}

#define PRINT(FORMAT, ...) trace_printk(FORMAT, sizeof(FORMAT), ##__VA_ARGS__)

TEST(texts)
{
	static const char open_end[3] = { 'a', 'b', 'c' };
	u64 four[4] = { 1, 2, 3 };

	four[3] = (u64)"four";
	WANT(PRINT("hello") == 5);
	WANT(PRINT("%d %u %x\n", -1, -1, 255) == 17);
	WANT(PRINT("%lld %lu %llx", -1ll, -1l, -1ll) == 40);
	WANT(PRINT("%5d|%-5d|%05d|", 42, 42, -42) == 18);
	WANT(PRINT("%s of %c%%", "100", 'x') == 9);
	WANT(PRINT("%X %+d", 0xabc, 5) == 6);
	WANT(PRINT("%px", 0x1234) == 16);
	WANT(PRINT("%s", NULL) == 0);
	WANT(PRINT("%8s|%-8s|", "ab", "cd") == 18);
	WANT(PRINT("%pks", "kernel") == 6);
	OWN_WANT(PRINT("%pus", "user") == 4);
	WANT(PRINT("%p ", 1) == 17);
	OWN_WANT(PRINT("%pI4", "addr") == -EOPNOTSUPP && PRINT("%ps", "symbol") == -EOPNOTSUPP &&
	     PRINT("%pk", 1) == -EOPNOTSUPP);
	WANT(PRINT("%z", 1) == -EINVAL);
	WANT(trace_printk("%d %d %d %d", 12, 1, 2, 3) == -EINVAL);
	WANT(trace_printk(open_end, 3) == -EINVAL);
	WANT(PRINT("\001") == -EINVAL);
	WANT(trace_vprintk("%d %d %d %s", 12, four, 32) == 10);
	WANT(trace_vprintk("%d", 3, four, 31) == -EINVAL);
	OWN_WANT(trace_vprintk("%d", 3, NULL, 8) == -EINVAL);
	return 0;
}

TEST(text_into_a_buffer)
{
	u64 arguments[2] = { 12 };
	char to[8] = {};

	arguments[1] = (u64)"ab";
	WANT(snprintf(to, 8, "%d:%s", arguments, 16) == 6);
	WANT(to[0] == '1' && to[1] == '2' && to[2] == ':' && to[4] == 'b' && to[5] == 0);
	WANT(snprintf(to, 4, "%d:%s", arguments, 16) == 6);
	WANT(to[2] == ':' && to[3] == 0);
	WANT(snprintf(to, 4, "", NULL, 0) == 1 && to[0] == 0);
	to[0] = 'x';
	WANT(snprintf(to, 0, "%d", arguments, 8) == 3 && to[0] == 'x');
	WANT(snprintf(to, 1, "%d", arguments, 8) == 3 && to[0] == 0);
	OWN_WANT(snprintf(to, 4, "%d:%s", arguments, 8) == -EINVAL);
	OWN_WANT(snprintf(to, 4, "%d:%s", arguments, 9) == -EINVAL);
	return 0;
}

/* Reads of memory, which the machine doesn't give, are refused and leave zeros. */
#include "linux.h"

MAP(values, BPFDB_HASH, 4, u32, u8[16]);

static const char text[] = "reverse";

static __attribute__((always_inline)) int all(const u8 *bytes, u32 size, u8 wanted)
{
	for (u32 i = 0; i < size; i++)
		if (bytes[i] != wanted)
			return 0;
	return 1;
}

/* (What the kernel gives where a user's address is read as its own is another error on x86.) */
#define REFUSED(CALL) ({ long error = CALL; error == -EFAULT OWN_OR_ERANGE; })
#ifdef FOR_KERNEL
#define OWN_OR_ERANGE || error == -34
#else
#define OWN_OR_ERANGE
#endif

/* The context of these tests has 16 bytes: 0 to 15. */
#define BYTES(READ) \
	OWN(bpfdb_context_len = size); \
	for (u32 i = 0; i < 16; i++) \
		to[i] = 0xaa; \
	WANT(READ(to, 4, context + 8) == 0 && to[0] == 8 && to[3] == 11 && to[4] == 0xaa); \
	WANT(READ(to, 16, context) == 0 && to[15] == 15); \
	WANT(READ(to, 0, context) == 0 && to[0] == 0); \
	WANT(REFUSED(READ(to, 8, NULL)) && all(to, 8, 0) && to[8] == 8); \
	OWN_WANT(READ(to, 3, context + 14) == -EFAULT && all(to, 3, 0)); \
	OWN_WANT(READ(to, 1, context + 16) == -EFAULT); \
	OWN_WANT(READ(to, 8, (void *)0xffffffff81000000) == -EFAULT); \
	WANT(REFUSED(READ(to, 8, (void *)-4))); \
	WANT(READ(to, 2, context + 14) == 0 && to[1] == 15)

TEST(bytes_of_the_kernel)
{
	u8 to[16];

	BYTES(probe_read_kernel);
	return 0;
}

OWN_TEST(bytes_of_a_user)
{
	u8 to[16];

	BYTES(probe_read_user);
	return 0;
}

TEST(bytes_of_either)
{
	u8 to[16];

	BYTES(probe_read);
	return 0;
}

OWN_TEST(bytes_that_may_sleep)
{
	u8 to[16];

	BYTES(copy_from_user);
	return 0;
}

#define COPY_OF_TASK(TO, SIZE, FROM) copy_from_user_task(TO, SIZE, FROM, context, 0)

OWN_TEST(bytes_of_a_task)
{
	u8 to[16];

	BYTES(COPY_OF_TASK);
	WANT(copy_from_user_task(to, 2, context, context, 1) == -EINVAL && to[0] == 14);
	return 0;
}

/* Frames are read up to the reader's own, and maps, wherever values lie. */
OWN_TEST(bytes_of_frames_and_maps)
{
	u8 from[16] = { 1, 2, 3 }, to[16];
	u32 key = 1;
	u8 *value;

	WANT(probe_read_kernel(to, 16, from) == 0 && to[2] == 3);
	WANT(map_update(&values, &key, from, ANY) == 0);
	value = map_lookup(&values, &key);
	WANT(value && probe_read_kernel(to, 16, value) == 0 && to[2] == 3);
	WANT(probe_read_kernel(to, 8, (void *)0x200000000) == 0 && probe_read_kernel(to, 8, (void *)0x300000000) == 0);
	WANT(probe_read_kernel(to, 8, (void *)0x200001c00) == -EFAULT);
	WANT(probe_read_kernel(to, 8, (void *)0x2000001fc) == -EFAULT);
	WANT(probe_read_kernel(to, 8, (void *)0x301000000) == -EFAULT);
	return 0;
}

#define TEXT(READ) \
	OWN(bpfdb_context_len = size); \
	for (u32 i = 0; i < 16; i++) \
		to[i] = 0xaa; \
	WANT(READ(to, 16, text) == 8 && to[0] == 'r' && to[6] == 'e' && to[7] == 0 && to[8] == 0xaa); \
	WANT(READ(to, 8, text) == 8 && to[7] == 0); \
	WANT(READ(to, 4, text) == 4 && to[2] == 'v' && to[3] == 0 && to[4] == 'r'); \
	WANT(READ(to, 1, text) == 1 && to[0] == 0); \
	WANT(READ(to, 0, text) == 0); \
	WANT(READ(to, 4, text + 7) == 1 && to[0] == 0); \
	WANT(REFUSED(READ(to, 8, NULL)) && all(to, 8, 0)); \
	/* (a text that doesn't end where it can be read) */ \
	OWN_WANT(READ(to, 16, context + 1) == -EFAULT && all(to, 16, 0)); \
	WANT(READ(to, 4, context + 1) == 4 && to[2] == 3 && to[3] == 0); \
	WANT(READ(to, 4, context) == 1)

TEST(texts_of_the_kernel)
{
	u8 to[16];

	TEXT(probe_read_kernel_str);
	return 0;
}

OWN_TEST(texts_of_a_user)
{
	u8 to[16];

	TEXT(probe_read_user_str);
	return 0;
}

TEST(texts_of_either)
{
	u8 to[16];

	TEXT(probe_read_str);
	return 0;
}

OWN_TEST(bytes_to_a_user)
{
	u8 bytes[2] = { 0x77, 0x78 };

	bpfdb_context_len = size;
	WANT(probe_write_user(context + 3, bytes, 2) == 0);
	WANT(((u8 *)context)[3] == 0x77 && ((u8 *)context)[4] == 0x78 && ((u8 *)context)[5] == 5);
	WANT(probe_write_user(context + 15, bytes, 2) == -EFAULT && ((u8 *)context)[15] == 15);
	WANT(probe_write_user(NULL, bytes, 2) == -EFAULT);
	return 0;
}

TEST(comparison_of_texts)
{
	char short_one[8] = "rev";

	WANT(strncmp(text, 8, "reverse") == 0);
	WANT(strncmp(text, 3, "rev") == 0);
	WANT(strncmp(short_one, 8, "reverse") < 0);
	WANT(strncmp(text, 8, "revel") > 0);
	OWN_WANT(strncmp(short_one, 0, "x") == 0);
	return 0;
}


/* What compilers call for copies and comparisons whose length they don't know. */
extern void *copied(void *, const void *, unsigned long) __asm__("memcpy");
extern void *moved(void *, const void *, unsigned long) __asm__("memmove");
extern void *filled(void *, int, unsigned long) __asm__("memset");
extern int compared(const void *, const void *, unsigned long) __asm__("memcmp");

OWN_TEST(bytes_for_compilers)
{
	u8 to[24] = {};

	WANT(copied(to, context, 11) == to && to[0] == 0 && to[8] == 8 && to[10] == 10 && to[11] == 0);
	WANT(compared(to, context, 11) == 0 && compared(to, context, 0) == 0);
	WANT(compared(to, context, 12) < 0 && compared(context, to, 12) > 0);
	/* (up by two, over itself, and down again) */
	WANT(moved(to + 2, to, 11) == to + 2 && to[1] == 1 && to[2] == 0 && to[12] == 10 && to[13] == 0);
	WANT(moved(to, to + 2, 11) == to && to[0] == 0 && to[10] == 10 && to[11] == 9);
	WANT(filled(to + 1, 0x1aa, 3) == to + 1 && to[0] == 0 && to[1] == 0xaa && to[3] == 0xaa && to[4] == 4);
	return 0;
}

/* Where nothing sets the length, all that a context may have is taken for there. */
OWN_TEST(length_of_the_context)
{
	u8 to[8];

	WANT(probe_read_kernel(to, 8, context + 8) == 0 && to[7] == 15);
	WANT(probe_read_kernel(to, 1, (void *)0x100010000) == -EFAULT);
	bpfdb_context_len = 0;
	WANT(probe_read_kernel(to, 1, context) == -EFAULT);
	return 0;
}

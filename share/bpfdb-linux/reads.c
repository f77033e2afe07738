/* Reads of the kernel's and of a user's memory: both are the machine's, and an address that is none of it can't be
   read. */
INLINE long read_bytes(void *to, u32 size, const void *from)
{
	if (size > readable_from((u64)from)) {
		clear(to, size);
		return -EFAULT;
	}
	copy(to, from, size);
	return 0;
}

/* A text and its NUL, cut to size; the bytes behind it stay as they are. */
INLINE long read_text(void *to, u32 size, const void *from)
{
	u64 most = readable_from((u64)from);
	const u8 *f = from;
	u8 *t = to;
	u32 length = 0;

	if (most > size)
		most = size;
	while (length < most) {
		t[length] = f[length];
		STAY_A_LOOP();
		if (!t[length++])
			return length;
	}
	if (length < size) {
		clear(to, size);
		return -EFAULT;
	}
	if (length)
		t[length - 1] = 0;
	return length;
}

#define READ(NAME) \
	HELPER long NAME(void *to, u32 size, const void *from) { return read_bytes(to, size, from); }
#define READ_TEXT(NAME) \
	HELPER long NAME(void *to, u32 size, const void *from) { return read_text(to, size, from); }

READ(bpf_probe_read)
READ(bpf_probe_read_kernel)
READ(bpf_probe_read_user)
READ_TEXT(bpf_probe_read_str)
READ_TEXT(bpf_probe_read_kernel_str)
READ_TEXT(bpf_probe_read_user_str)

HELPER long bpf_copy_from_user(void *to, u32 size, const void *from)
{
	return read_bytes(to, size, from);
}

/* (A user's memory is the same for each task.) */
HELPER long bpf_copy_from_user_task(void *to, u32 size, const void *from, void *task UNUSED, u64 flags)
{
	return flags ? -EINVAL : read_bytes(to, size, from);
}

HELPER long bpf_probe_write_user(void *to, const void *from, u32 size)
{
	if (size > readable_from((u64)to))
		return -EFAULT;
	copy(to, from, size);
	return 0;
}

HELPER long bpf_strncmp(const char *text, u32 size, const char *other)
{
	for (u32 i = 0; i < size; i++) {
		const u8 a = text[i], b = other[i];

		if (a != b)
			return a < b ? -1 : 1;
		if (!a)
			break;
	}
	return 0;
}

/* What clang calls for long copies and comparisons. */
HELPER void *memcpy(void *to, const void *from, unsigned long size)
{
	copy(to, from, size);
	return to;
}

HELPER void *memmove(void *to, const void *from, unsigned long size)
{
	shift(to, from, size);
	return to;
}

HELPER void *memset(void *to, int byte, unsigned long size)
{
	u8 *t = to;

	for (; size > 0; size--, t++) {
		*t = byte;
		STAY_A_LOOP();
	}
	return to;
}

HELPER int memcmp(const void *one, const void *other, unsigned long size)
{
	const u8 *a = one, *b = other;

	for (; size > 0; size--, a++, b++)
		if (*a != *b)
			return *a - *b;
	return 0;
}

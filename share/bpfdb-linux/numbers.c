/* Numbers out of texts. */
enum { LONGEST_NUMBER = 63, BASE = 31 };

INLINE int is_blank(u8 byte)
{
	return byte == ' ' || (byte >= '\t' && byte <= '\r') || byte == 0xa0;
}

/* What a digit is worth, or more than any base. */
INLINE u32 worth_of(u8 byte)
{
	u8 letter = byte | 0x20;

	if (is_digit(byte))
		return byte - '0';
	return letter >= 'a' && letter <= 'f' ? letter - 'a' + 10 : 99;
}

/* A text's byte, or 0 behind its end. */
INLINE u8 byte_at(const u8 *text, u64 place, u64 end)
{
	return place < end ? text[place] : 0;
}

/* Reads a number: how many bytes it and what stands before it take, or an error. Base 0 is that of C. */
SHARED long read_number(const u8 *text, u64 length, u64 flags, u64 *number, int *is_negative)
{
	u64 base = flags & BASE, place = 0, start, end;
	int is_wide, is_over = 0;

	if (!length || flags & ~(u64)BASE || (base && base != 8 && base != 10 && base != 16))
		return -EINVAL;
	while (place < length && is_blank(text[place]))
		place++;
	*is_negative = byte_at(text, place, length) == '-';
	place += *is_negative;
	end = length - place > LONGEST_NUMBER ? place + LONGEST_NUMBER : length;
	is_wide = byte_at(text, place, end) == '0' && (byte_at(text, place + 1, end) | 0x20) == 'x';
	if (!base && byte_at(text, place, end) == '0')
		base = is_wide && worth_of(byte_at(text, place + 2, end)) < 16 ? 16 : 8;
	base = base ? base : 10;
	place += is_wide && base == 16 ? 2 : 0;
	start = place;
	*number = 0;
	for (; place < end && worth_of(text[place]) < base; place++) {
		u32 worth = worth_of(text[place]);

		is_over |= *number > (~0ull - worth) / base;
		*number = *number * base + worth;
	}
	if (is_over)
		return -ERANGE;
	return place == start ? -EINVAL : (long)place;
}

HELPER long bpf_strtol(const u8 *text, u64 length, u64 flags, s64 *to)
{
	int is_negative;
	u64 number;
	long taken;

	*to = 0;
	taken = read_number(text, length, flags, &number, &is_negative);
	if (taken < 0)
		return taken;
	if (is_negative)
		number = -number;
	if (is_negative ? (s64)number > 0 : (s64)number < 0)
		return -ERANGE;
	*to = number;
	return taken;
}

HELPER long bpf_strtoul(const u8 *text, u64 length, u64 flags, u64 *to)
{
	int is_negative;
	u64 number;
	long taken;

	*to = 0;
	taken = read_number(text, length, flags, &number, &is_negative);
	if (taken < 0)
		return taken;
	if (is_negative)
		return -EINVAL;
	*to = number;
	return taken;
}

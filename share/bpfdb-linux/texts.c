/* Texts by a format, as bpf_trace_printk and bpf_snprintf write them. */
enum { MOST_ARGUMENTS = 12, LONGEST_TEXT = 1024, ZEROS = 1, LEFT = 2, PLUS = 4, BLANK = 8 };

/* Where a text is written: what has no room is counted all the same. */
struct text {
	u8 *to;
	u32 room, length;
};

INLINE void put(struct text *t, u8 byte)
{
	if (t->length < t->room)
		t->to[t->length] = byte;
	t->length++;
}

INLINE int is_digit(u8 byte)
{
	return byte >= '0' && byte <= '9';
}

/* A number of up to 20 digits, with its sign, in a field that is as wide. */
INLINE void put_number(struct text *t, u64 number, int is_negative, u32 base, u8 first_letter, u32 flags, u32 width)
{
	u8 digits[20];
	u32 count = 0, length;
	u8 sign = is_negative ? '-' : flags & PLUS ? '+' : flags & BLANK ? ' ' : 0;

	do {
		u8 digit = number % base;

		digits[count++] = digit < 10 ? '0' + digit : first_letter + digit - 10;
		number /= base;
	} while (number);
	length = count + !!sign;
	if (!(flags & (ZEROS | LEFT)))
		for (; length < width; length++)
			put(t, ' ');
	if (sign)
		put(t, sign);
	if (flags & ZEROS && !(flags & LEFT))
		for (; length < width; length++)
			put(t, '0');
	while (count)
		put(t, digits[--count]);
	for (; length < width; length++)
		put(t, ' ');
}

INLINE void put_text(struct text *t, u64 from, u32 flags, u32 width)
{
	const u8 *bytes = (const u8 *)from;
	u64 most = readable_from(from);
	u32 length = 0;

	while (length < most && length < LONGEST_TEXT && bytes[length])
		length++;
	if (!(flags & LEFT))
		for (u32 i = length; i < width; i++)
			put(t, ' ');
	for (u32 i = 0; i < length; i++)
		put(t, bytes[i]);
	if (flags & LEFT)
		for (u32 i = length; i < width; i++)
			put(t, ' ');
}

/* What stands behind a '%': how an argument is written, and as what. */
struct conversion {
	u32 flags, width, longs;
	u8 kind;
};

/* Reads a conversion from a place on, and says where its kind stands. */
INLINE u32 read_conversion(const u8 *format, u32 place, struct conversion *c)
{
	*c = (struct conversion){};
	for (;; place++) {
		if (format[place] == '0')
			c->flags |= ZEROS;
		else if (format[place] == '-')
			c->flags |= LEFT;
		else if (format[place] == '+')
			c->flags |= PLUS;
		else if (format[place] == ' ')
			c->flags |= BLANK;
		else
			break;
	}
	for (; is_digit(format[place]) && c->width <= LONGEST_TEXT; place++)
		c->width = c->width * 10 + format[place] - '0';
	for (; format[place] == 'l' && c->longs < 2; place++)
		c->longs++;
	c->kind = format[place];
	return place;
}

/* Writes an argument that is a pointer, whose kind ends the format or goes on from a place: how many bytes of the format
   that took, or an error. (Kinds but those of texts aren't told apart from an address.) */
INLINE long put_pointer(struct text *t, const u8 *kind, const struct conversion *c, u64 argument)
{
	if ((kind[0] == 'k' || kind[0] == 'u') && kind[1] == 's') {
		put_text(t, argument, c->flags, c->width);
		return 2;
	}
	if (kind[0] != 'x' && kind[0] != 'K' && (is_digit(kind[0]) || ((kind[0] | 0x20) >= 'a' && (kind[0] | 0x20) <= 'z')))
		return -EOPNOTSUPP;
	put_number(t, argument, 0, 16, 'a', c->width ? c->flags : ZEROS, c->width ? c->width : 16);
	return kind[0] == 'x' || kind[0] == 'K';
}

/* Writes an argument that is a number, a text or a byte; an error where the kind is none of these. */
INLINE long put_argument(struct text *t, const struct conversion *c, u64 argument)
{
	s64 number = c->longs ? (s64)argument : (s32)argument;

	if (c->kind == 's' && !c->longs)
		put_text(t, argument, c->flags, c->width);
	else if (c->kind == 'c' && !c->longs)
		put(t, argument);
	else if (c->kind == 'd' || c->kind == 'i')
		put_number(t, number < 0 ? -(u64)number : (u64)number, number < 0, 10, 'a', c->flags, c->width);
	else if (c->kind == 'u' || c->kind == 'x' || c->kind == 'X')
		put_number(t, c->longs ? argument : (u32)argument, 0, c->kind == 'u' ? 10 : 16, c->kind == 'X' ? 'A' : 'a',
			   c->flags & ~(u32)(PLUS | BLANK), c->width);
	else
		return -EINVAL;
	return 0;
}

/* Writes a text by a format that ends with a NUL within its size, from so many arguments: the text's length without a
   NUL, or an error. */
SHARED long formatted(struct text *t, const u8 *format, u32 size, const u64 *arguments, u32 count)
{
	struct conversion c;
	u32 taken = 0, place = 0;
	long result;

	while (place < size && format[place])
		place++;
	if (place >= size)
		return -EINVAL;
	for (place = 0; format[place]; place++) {
		u8 byte = format[place];

		if (byte >= 0x7f || (byte < ' ' && (byte < '\t' || byte > '\r')))
			return -EINVAL;
		if (byte != '%' || format[place + 1] == '%') {
			put(t, byte);
			place += byte == '%';
			continue;
		}
		place = read_conversion(format, place + 1, &c);
		if (taken >= count || c.width > LONGEST_TEXT)
			return -EINVAL;
		if (c.kind == 'p' && !c.longs)
			result = put_pointer(t, format + place + 1, &c, arguments[taken++]);
		else
			result = put_argument(t, &c, arguments[taken++]);
		if (result < 0)
			return result;
		place += result;
	}
	return t->length;
}

/* Sends a text out: it is written into a record that has just the room that there is, and then has its length. */
INLINE long send_text(u16 kind, const u8 *format, u32 size, const u64 *arguments, u32 count)
{
	struct bpfdb_record *record = new_record(BPFDB_NO_MAP, kind, LONGEST_TEXT);
	struct text t = { record ? record->data : NULL, record ? LONGEST_TEXT - 1 : 0, 0 };
	long length = formatted(&t, format, size, arguments, count);
	u32 kept = t.length < t.room ? t.length : t.room;

	if (!record)
		return length;
	if (length < 0) {
		clear(record, sizeof(struct bpfdb_record) + kept);
		bpfdb_output.head.used -= sizeof(struct bpfdb_record) + LONGEST_TEXT;
		return length;
	}
	record->length = kept;
	bpfdb_output.head.used -= LONGEST_TEXT - rounded(kept);
	return length;
}

HELPER long bpf_trace_printk(const void *format, u32 size, u64 one, u64 two, u64 three)
{
	u64 arguments[3] = { one, two, three };

	return send_text(BPFDB_TO_TRACE, format, size, arguments, 3);
}

/* Whether so many bytes are arguments of a text. */
INLINE int are_arguments(const void *arguments, u32 length)
{
	return length % sizeof(u64) == 0 && length / sizeof(u64) <= MOST_ARGUMENTS && (!length || arguments);
}

HELPER long bpf_trace_vprintk(const void *format, u32 size, const void *arguments, u32 length)
{
	if (!are_arguments(arguments, length))
		return -EINVAL;
	return send_text(BPFDB_TO_TRACE, format, size, arguments, length / sizeof(u64));
}

/* What an iterator's file has: the output is its buffer. */
HELPER long bpf_seq_printf(void *file UNUSED, const void *format, u32 size, const void *arguments, u32 length)
{
	u32 lost = bpfdb_output.head.lost;
	long sent;

	if (!are_arguments(arguments, length))
		return -EINVAL;
	sent = send_text(BPFDB_TO_FILE, format, size, arguments, length / sizeof(u64));
	if (sent < 0)
		return sent;
	return sent < LONGEST_TEXT && lost == bpfdb_output.head.lost ? 0 : -EOVERFLOW;
}

HELPER long bpf_seq_write(void *file UNUSED, const void *data, u32 size)
{
	struct bpfdb_record *record = new_record(BPFDB_NO_MAP, BPFDB_TO_FILE, size);

	if (!record)
		return -EOVERFLOW;
	copy(record->data, data, size);
	return 0;
}

HELPER long bpf_snprintf(void *to, u32 room, const void *format, const void *arguments, u32 length)
{
	struct text t = { to, room ? room - 1 : 0, 0 };
	u32 size = 0;
	long ended;

	if (!are_arguments(arguments, length))
		return -EINVAL;
	while (((const u8 *)format)[size])
		size++;
	ended = formatted(&t, format, size + 1, arguments, length / sizeof(u64));
	if (room && ended >= 0)
		((u8 *)to)[t.length < t.room ? t.length : t.room] = 0;
	return ended < 0 ? ended : ended + 1;
}

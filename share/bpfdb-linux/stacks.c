/* Stacks: the addresses that bpfdb_world has for the kernel's and the user's. */
enum { SKIPPED = 0xff, OF_USER = 1 << 8, COMPARE_HASH = 1 << 9, REPLACE = 1 << 10 };

INLINE const u64 *stack_of(u64 flags, u32 *depth)
{
	const struct bpfdb_world *w = &bpfdb_world;

	*depth = flags & OF_USER ? w->user_depth : w->kernel_depth;
	if (*depth > BPFDB_DEEPEST_STACK)
		*depth = BPFDB_DEEPEST_STACK;
	return flags & OF_USER ? w->user_stack : w->kernel_stack;
}

/* A stack has its number by its hash, as in Linux, where the numbers are others. A value has as many addresses as it has
   room for, and zeros behind them. */
HELPER long bpf_get_stackid(void *context UNUSED, struct map *m, u64 flags)
{
	u32 depth, most = m->value_size / sizeof(u64), buckets = 1, number;
	const u64 *stack = stack_of(flags, &depth);
	const u8 *place;
	u8 *node;

	if (flags & ~(u64)(SKIPPED | OF_USER | COMPARE_HASH | REPLACE))
		return -EINVAL;
	if (depth <= (flags & SKIPPED))
		return -EFAULT;
	stack += flags & SKIPPED;
	depth -= flags & SKIPPED;
	if (depth > most)
		depth = most;
	while (buckets < MOST_BUCKETS && (!m->max_entries || buckets < m->max_entries))
		buckets *= 2;
	number = hash_of((const u8 *)stack, depth * sizeof(u64)) & (buckets - 1);
	if (!has_table(m))
		return -ENOMEM;
	node = found(m, (const u8 *)&number);
	if (node) {
		place = value_in(m, node);
		if (is_equal(place, stack, depth * sizeof(u64)) && (depth == most || !((const any64 *)place)[depth]))
			return number;
		if (!(flags & REPLACE))
			return -EEXIST;
	} else {
		node = added(m, (const u8 *)&number);
	}
	if (!node)
		return -ENOMEM;
	copy(value_in(m, node), stack, depth * sizeof(u64));
	clear(value_in(m, node) + depth * sizeof(u64), m->value_size - depth * sizeof(u64));
	return number;
}

HELPER long bpf_get_stack(void *context UNUSED, void *to, u32 size, u64 flags)
{
	u32 depth, length;
	const u64 *stack = stack_of(flags, &depth);

	if (flags & ~(u64)(SKIPPED | OF_USER) || size % sizeof(u64)) {
		clear(to, size);
		return -EINVAL;
	}
	if (!depth || depth < (flags & SKIPPED)) {
		clear(to, size);
		return -EFAULT;
	}
	length = (depth - (flags & SKIPPED)) * sizeof(u64);
	if (length > size)
		length = size;
	copy(to, stack + (flags & SKIPPED), length);
	clear((u8 *)to + length, size - length);
	return length;
}

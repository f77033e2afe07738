/* Queues and stacks: nodes without a key, in the order in which they came. */
HELPER long bpf_map_push_elem(struct map *m, const void *value, u64 flags)
{
	struct ranked *node;

	if (!is_of(m, KIND(QUEUE) | KIND(STACK)))
		return -EOPNOTSUPP;
	if (flags != ANY && flags != EXIST)
		return -EINVAL;
	if (is_full(m)) {
		if (flags != EXIST)
			return -E2BIG;
		/* (Linux' stack loses its oldest value, too) */
		node = at(m->oldest);
		leave_rank(m, node);
		end_node(m, node);
	}
	node = new_node(m);
	if (!node)
		return -ENOMEM;
	enter_rank(m, node);
	copy(value_in(m, node), value, m->value_size);
	return 0;
}

/* The value that is next, which may be taken out. */
INLINE long next_value(struct map *m, void *value, int is_taken)
{
	u32 next = m->kind == BPFDB_QUEUE ? m->oldest : m->newest;

	if (!is_of(m, KIND(QUEUE) | KIND(STACK)))
		return -EOPNOTSUPP;
	if (!next) {
		clear(value, m->value_size);
		return -ENOENT;
	}
	copy(value, value_in(m, at(next)), m->value_size);
	if (is_taken) {
		leave_rank(m, at(next));
		end_node(m, at(next));
	}
	return 0;
}

HELPER long bpf_map_pop_elem(struct map *m, void *value)
{
	return next_value(m, value, 1);
}

HELPER long bpf_map_peek_elem(struct map *m, void *value)
{
	return next_value(m, value, 0);
}

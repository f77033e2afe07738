/* Maps, and the nodes that hold their entries: a key and a value each. */

/* A bpfdb_map, with what its room holds. */
struct map {
	u32 kind, key_size, value_size, max_entries;
	u32 table;		/* a table's buckets, an array's values, or a trie's topmost node */
	u32 mask;		/* a table's buckets, less one */
	u32 spare;		/* nodes that were deleted, by their links */
	u32 count;		/* entries */
	u32 newest, oldest;	/* of ranked nodes */
	u64 produced;		/* bytes that went into a ring buffer */
	u64 unused[2];
};

_Static_assert(sizeof(struct map) == sizeof(struct bpfdb_map), "a map is a record of bpfdb-map.h");

/* What a node begins with; those of LRU tables, queues and stacks stand in a rank, too. Then come the key, and at a
   multiple of 8 the value. */
struct node {
	u32 link;
};

struct ranked {
	u32 link, newer, older;
};

/* Whether a map's kind is one of these, a bit each. */
INLINE int is_of(const struct map *m, u32 kinds)
{
	return m->kind < 32 && kinds >> m->kind & 1;
}

#define KIND(NAME) (1u << BPFDB_##NAME)
#define RANKED (KIND(LRU_HASH) | KIND(LRU_PERCPU_HASH) | KIND(QUEUE) | KIND(STACK))

INLINE int is_ranked(const struct map *m)
{
	return is_of(m, RANKED);
}

/* Where in a node its key and its value begin. */
INLINE u64 key_place(const struct map *m)
{
	return is_ranked(m) ? sizeof(struct ranked) : sizeof(struct node);
}

INLINE u64 value_place(const struct map *m)
{
	return rounded(key_place(m) + m->key_size);
}

INLINE u8 *key_in(const struct map *m, void *node)
{
	return (u8 *)node + key_place(m);
}

INLINE u8 *value_in(const struct map *m, void *node)
{
	return (u8 *)node + value_place(m);
}

INLINE int is_full(const struct map *m)
{
	return m->max_entries && m->count >= m->max_entries;
}

/* A node that isn't in use, or NULL where the heap has no room. */
INLINE void *new_node(struct map *m)
{
	u32 node = m->spare;

	if (node)
		m->spare = ((struct node *)at(node))->link;
	else
		node = take(value_place(m) + m->value_size);
	if (!node)
		return NULL;
	m->count++;
	return at(node);
}

INLINE void end_node(struct map *m, void *node)
{
	((struct node *)node)->link = m->spare;
	m->spare = piece_of(node);
	m->count--;
}

/* The rank: the newest node is that which was used last. */
INLINE void enter_rank(struct map *m, struct ranked *node)
{
	node->newer = 0;
	node->older = m->newest;
	if (m->newest)
		((struct ranked *)at(m->newest))->newer = piece_of(node);
	else
		m->oldest = piece_of(node);
	m->newest = piece_of(node);
}

INLINE void leave_rank(struct map *m, struct ranked *node)
{
	if (node->newer)
		((struct ranked *)at(node->newer))->older = node->older;
	else
		m->newest = node->older;
	if (node->older)
		((struct ranked *)at(node->older))->newer = node->newer;
	else
		m->oldest = node->newer;
}

/* Tables of nodes by the hash of their keys, and arrays. A look costs what lies in one bucket. */
enum {
	MOST_BUCKETS = 2048,
	/* An array of at most so many bytes is in one piece; a larger one is a table, whose values are made as they are
	   looked at. */
	DENSE = 16384,
};

INLINE u32 hash_of(const u8 *key, u32 size)
{
	const u64 odd = 0x9e3779b97f4a7c15ull;
	u64 hash = size;

	/* (most keys are numbers) */
	if (size == 4)
		return *(const any32 *)key * odd >> 32;
	if (size == 8)
		return *(const any64 *)key * odd >> 32;
	for (; size >= 8; size -= 8, key += 8)
		hash = (hash ^ *(const any64 *)key) * odd, hash ^= hash >> 32;
	if (size >= 4) {
		hash = (hash ^ *(const any32 *)key) * odd, hash ^= hash >> 32;
		size -= 4, key += 4;
	}
	for (; size > 0; size--, key++)
		hash = (hash ^ *key) * odd, hash ^= hash >> 32;
	return hash;
}

/* Whether there are buckets, which the first entry makes. */
INLINE int has_table(struct map *m)
{
	u32 buckets = 16;

	if (m->table)
		return 1;
	while (buckets < MOST_BUCKETS && (!m->max_entries || buckets < m->max_entries))
		buckets *= 2;
	m->mask = buckets - 1;
	m->table = take(buckets * sizeof(u32));
	return m->table != 0;
}

INLINE u32 *bucket_of(const struct map *m, const u8 *key)
{
	return (u32 *)at(m->table) + (hash_of(key, m->key_size) & m->mask);
}

/* From a bucket on, the link to the node of a key; where there is none, the link that is 0. (A node begins with its
   link.) */
INLINE u32 *link_to(const struct map *m, u32 *link, const u8 *key)
{
	u64 place = key_place(m);

	if (m->key_size == 4) {
		u32 number = *(const any32 *)key;

		while (*link && *(any32 *)(at(*link) + place) != number)
			link = at(*link);
	} else if (m->key_size == 8) {
		u64 number = *(const any64 *)key;

		while (*link && *(any64 *)(at(*link) + place) != number)
			link = at(*link);
	} else {
		while (*link && !is_equal(at(*link) + place, key, m->key_size))
			link = at(*link);
	}
	return link;
}

/* Takes a node out, by the link to it. */
INLINE void take_out(struct map *m, u32 *link)
{
	struct ranked *node = at(*link);

	*link = node->link;
	if (is_ranked(m))
		leave_rank(m, node);
	end_node(m, node);
}

/* The node of a key, or NULL. */
INLINE void *found(struct map *m, const u8 *key)
{
	u32 node;

	if (!m->table)
		return NULL;
	node = *link_to(m, bucket_of(m, key), key);
	if (!node)
		return NULL;
	if (is_ranked(m) && m->newest != node) {
		leave_rank(m, at(node));
		enter_rank(m, at(node));
	}
	return at(node);
}

/* A new node for a key that the table hasn't, whatever the map's most entries; NULL where the heap has no room. */
INLINE void *added(struct map *m, const u8 *key)
{
	struct ranked *node = new_node(m);
	u32 *bucket;

	if (!node)
		return NULL;
	copy(key_in(m, node), key, m->key_size);
	bucket = bucket_of(m, key);
	node->link = *bucket;
	*bucket = piece_of(node);
	if (is_ranked(m))
		enter_rank(m, node);
	return node;
}

/* Deletes the entry that wasn't used for longest. */
INLINE void end_oldest(struct map *m)
{
	const u8 *key = key_in(m, at(m->oldest));

	take_out(m, link_to(m, bucket_of(m, key), key));
}

INLINE long update_table(struct map *m, const u8 *key, const u8 *value, u64 flags)
{
	void *node;

	if (flags > EXIST)
		return -EINVAL;
	if (!has_table(m))
		return -ENOMEM;
	node = found(m, key);
	if (node && flags == NOEXIST)
		return -EEXIST;
	if (!node && flags == EXIST)
		return -ENOENT;
	if (!node) {
		if (is_full(m)) {
			if (!is_ranked(m))
				return -E2BIG;
			end_oldest(m);
		}
		node = added(m, key);
	}
	if (!node)
		return -ENOMEM;
	copy(value_in(m, node), value, m->value_size);
	return 0;
}

INLINE long delete_from_table(struct map *m, const u8 *key)
{
	u32 *link;

	if (!m->table)
		return -ENOENT;
	link = link_to(m, bucket_of(m, key), key);
	if (!*link)
		return -ENOENT;
	take_out(m, link);
	return 0;
}

/* An array's value: NULL behind its end, or where the heap has no room. */
INLINE u8 *value_of_array(struct map *m, const u8 *key)
{
	u64 stride = rounded(m->value_size), size = m->max_entries * stride;
	u32 index = *(const any32 *)key;
	void *node;

	if (m->max_entries && index >= m->max_entries)
		return NULL;
	if (size && size <= DENSE) {
		if (!m->table)
			m->table = take(size);
		return m->table ? (u8 *)at(m->table) + index * stride : NULL;
	}
	if (!has_table(m))
		return NULL;
	node = found(m, key);
	if (!node)
		node = added(m, key);
	return node ? value_in(m, node) : NULL;
}

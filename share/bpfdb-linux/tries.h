/* Tries of prefixes (LPM): a node for each prefix, below the longest other one that it begins with, and a node without a
   value where two part. A look goes down one path. A prefix that is deleted leaves its node, for when it comes back. */
struct branch {
	u32 below[2];		/* by the bit that follows the prefix */
	u32 bits;		/* of the prefix */
	u32 has_value;
	u8 prefix[];		/* as many bytes as the map's keys have; then, at a multiple of 8, the value */
};

struct prefix {
	u32 bits;
	u8 bytes[];
};

INLINE u64 branch_value_place(const struct map *m)
{
	return sizeof(struct branch) + rounded(m->key_size - sizeof(u32));
}

INLINE u8 *value_in_branch(const struct map *m, struct branch *b)
{
	return (u8 *)b + branch_value_place(m);
}

INLINE u32 most_bits(const struct map *m)
{
	return (m->key_size - sizeof(u32)) * 8;
}

INLINE u32 bit(const u8 *bytes, u32 place)
{
	return bytes[place / 8] >> (7 - place % 8) & 1;
}

/* How many bits two prefixes have in common, at most so many. */
INLINE u32 common_bits(const u8 *a, const u8 *b, u32 most)
{
	u32 bits = 0;

	while (bits + 8 <= most && a[bits / 8] == b[bits / 8])
		bits += 8;
	while (bits < most && bit(a, bits) == bit(b, bits))
		bits++;
	return bits;
}

INLINE u32 least(u32 a, u32 b)
{
	return a < b ? a : b;
}

/* The longest prefix in the trie that the key begins with. */
INLINE struct branch *longest(const struct map *m, const struct prefix *key)
{
	struct branch *best = NULL;
	u32 next = m->table;

	if (key->bits > most_bits(m))
		return NULL;
	while (next) {
		struct branch *b = at(next);

		if (b->bits > key->bits || common_bits(b->prefix, key->bytes, b->bits) < b->bits)
			break;
		if (b->has_value)
			best = b;
		if (b->bits == key->bits)
			break;
		next = b->below[bit(key->bytes, b->bits)];
	}
	return best;
}

/* The link in the trie at which the prefix is or would be: to its own node, to a longer one, or to one that parts from
   it. */
INLINE u32 *place_of(struct map *m, const struct prefix *key, u32 *common)
{
	u32 *link = &m->table;

	*common = 0;
	while (*link) {
		struct branch *b = at(*link);

		*common = common_bits(b->prefix, key->bytes, least(b->bits, key->bits));
		if (*common < b->bits || b->bits == key->bits)
			break;
		link = &b->below[bit(key->bytes, b->bits)];
	}
	return link;
}

INLINE struct branch *new_branch(const struct map *m, const u8 *bytes, u32 bits)
{
	u32 piece = take(branch_value_place(m) + m->value_size);
	struct branch *b = at(piece);

	if (!piece)
		return NULL;
	b->bits = bits;
	copy(b->prefix, bytes, m->key_size - sizeof(u32));
	return b;
}

/* The node of a prefix that the trie has none for; NULL where the heap has no room. */
INLINE struct branch *enter_prefix(struct map *m, const struct prefix *key, u32 *link, u32 common)
{
	struct branch *above = at(*link), *own, *parting;

	own = new_branch(m, key->bytes, key->bits);
	if (!own)
		return NULL;
	if (*link && common == key->bits) {
		own->below[bit(above->prefix, common)] = *link;
	} else if (*link) {
		parting = new_branch(m, key->bytes, common);
		if (!parting)
			return NULL;
		parting->below[bit(above->prefix, common)] = *link;
		parting->below[bit(key->bytes, common)] = piece_of(own);
		*link = piece_of(parting);
		return own;
	}
	*link = piece_of(own);
	return own;
}

INLINE long update_trie(struct map *m, const struct prefix *key, const u8 *value, u64 flags)
{
	u32 common, *link;
	struct branch *b;
	int is_there;

	if (flags > EXIST || key->bits > most_bits(m))
		return -EINVAL;
	link = place_of(m, key, &common);
	b = at(*link);
	is_there = *link && b->bits == key->bits && common == key->bits;
	if (is_there && b->has_value && flags == NOEXIST)
		return -EEXIST;
	if (!(is_there && b->has_value)) {
		if (flags == EXIST)
			return -ENOENT;
		if (is_full(m))
			return -ENOSPC;
	}
	if (!is_there)
		b = enter_prefix(m, key, link, common);
	if (!b)
		return -ENOMEM;
	m->count += !b->has_value;
	b->has_value = 1;
	copy(value_in_branch(m, b), value, m->value_size);
	return 0;
}

INLINE long delete_from_trie(struct map *m, const struct prefix *key)
{
	u32 common, *link;
	struct branch *b;

	if (key->bits > most_bits(m))
		return -EINVAL;
	link = place_of(m, key, &common);
	b = at(*link);
	if (!*link || b->bits != key->bits || common < key->bits || !b->has_value)
		return -ENOENT;
	b->has_value = 0;
	m->count--;
	return 0;
}

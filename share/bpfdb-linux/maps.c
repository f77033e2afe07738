/* Helpers of maps that have keys. */

/* What the kinds of maps are to these helpers; the others have no keys. */
#define TABLES (KIND(HASH) | KIND(PERCPU_HASH) | KIND(LRU_HASH) | KIND(LRU_PERCPU_HASH) | KIND(DEVMAP_HASH))
#define ARRAYS (KIND(ARRAY) | KIND(PERCPU_ARRAY))
#define TARGETS (KIND(DEVMAP) | KIND(CPUMAP) | KIND(XSKMAP))

/* Whether a map of targets has room for a key at all. */
INLINE int is_within(const struct map *m, const void *key)
{
	return !m->max_entries || *(const any32 *)key < m->max_entries;
}

HELPER void *bpf_map_lookup_elem(struct map *m, const void *key)
{
	struct branch *branch;
	void *node;

	if (is_of(m, TABLES | TARGETS)) {
		node = found(m, key);
		return node ? value_in(m, node) : NULL;
	}
	if (is_of(m, ARRAYS))
		return value_of_array(m, key);
	if (!is_of(m, KIND(LPM_TRIE)))
		return NULL;
	branch = longest(m, key);
	return branch ? value_in_branch(m, branch) : NULL;
}

HELPER void *bpf_map_lookup_percpu_elem(struct map *m, const void *key, u32 cpu)
{
	void *node;

	/* (there is one processor) */
	if (cpu != bpfdb_world.cpu)
		return NULL;
	if (is_of(m, KIND(PERCPU_ARRAY)))
		return value_of_array(m, key);
	if (!is_of(m, KIND(PERCPU_HASH) | KIND(LRU_PERCPU_HASH)))
		return NULL;
	node = found(m, key);
	return node ? value_in(m, node) : NULL;
}

HELPER long bpf_map_update_elem(struct map *m, const void *key, const void *value, u64 flags)
{
	u8 *place;

	if (is_of(m, TABLES))
		return update_table(m, key, value, flags);
	if (is_of(m, KIND(LPM_TRIE)))
		return update_trie(m, key, value, flags);
	if (!is_of(m, ARRAYS | TARGETS))
		return -EOPNOTSUPP;
	if (flags > EXIST)
		return -EINVAL;
	if (!is_within(m, key))
		return -E2BIG;
	if (flags == NOEXIST)
		return -EEXIST;
	if (is_of(m, TARGETS))
		return update_table(m, key, value, ANY);
	place = value_of_array(m, key);
	if (!place)
		return -ENOMEM;
	copy(place, value, m->value_size);
	return 0;
}

HELPER long bpf_map_delete_elem(struct map *m, const void *key)
{
	if (is_of(m, TABLES))
		return delete_from_table(m, key);
	if (is_of(m, KIND(LPM_TRIE)))
		return delete_from_trie(m, key);
	if (!is_of(m, ARRAYS | TARGETS))
		return -EOPNOTSUPP;
	if (is_of(m, ARRAYS) || !is_within(m, key))
		return -EINVAL;
	/* (a target that isn't there is deleted, too) */
	delete_from_table(m, key);
	return 0;
}

/* The storage of the cgroup that there is: one value a map, which the first look makes. (NULL only where the heap has no
   room: in Linux there always is one.) */
HELPER void *bpf_get_local_storage(struct map *m, u64 flags UNUSED)
{
	if (!is_of(m, KIND(CGROUP_STORAGE) | KIND(PERCPU_CGROUP_STORAGE)))
		return NULL;
	if (!m->table)
		m->table = take(m->value_size);
	return m->table ? at(m->table) : NULL;
}

/* A program that redirects to a key of such a map. */
HELPER long bpf_redirect_map(struct map *m, u64 key, u64 flags)
{
	enum { PASSED = 3, BROADCAST = 1 << 3, NOT_BACK = 1 << 4, REDIRECT = 4 };
	int is_dev = is_of(m, KIND(DEVMAP) | KIND(DEVMAP_HASH));
	u32 index = key;

	if (flags & ~(u64)(PASSED | (is_dev ? BROADCAST | NOT_BACK : 0)))
		return 0;
	if (!is_dev && !is_of(m, TARGETS))
		return 0;
	if (!found(m, (const u8 *)&index) && !(flags & BROADCAST))
		return flags & PASSED;
	bpfdb_world.redirected_to = index;
	return REDIRECT;
}

/* A lock is a word that is 1 while it is held. (The kernel's verifier sees that a program doesn't wait for itself.) */
HELPER long bpf_spin_lock(u32 *lock)
{
	*lock = 1;
	return 0;
}

HELPER long bpf_spin_unlock(u32 *lock)
{
	*lock = 0;
	return 0;
}

/* A pointer in a map's value goes out, and another one in. */
HELPER void *bpf_kptr_xchg(void **place, void *other)
{
	void *old = *place;

	*place = other;
	return old;
}

/* No program is ever in such a map, as nobody puts one there: a tail call goes on behind itself. */
HELPER long bpf_tail_call(void *context UNUSED, struct map *m UNUSED, u32 index UNUSED)
{
	return -ENOENT;
}

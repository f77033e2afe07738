/* Storage of tasks, sockets, inodes and cgroups: values by the address of what owns them, in a list. (The key that such a
   map declares is a descriptor, for users.) */
struct owned {
	u32 link, unused;
	u64 owner;
	u8 value[];
};

/* The link to an owner's value; where there is none, the link that is 0. */
INLINE u32 *link_to_owned(struct map *m, const void *owner)
{
	u32 *link = &m->table;

	while (*link && ((struct owned *)at(*link))->owner != (u64)owner)
		link = &((struct owned *)at(*link))->link;
	return link;
}

/* The value of an owner, which is made where flags say so: of the bytes that are given, or of zeros. */
SHARED void *owned_by(struct map *m, const void *owner, const void *value, u64 flags)
{
	enum { CREATE = 1 };
	struct owned *o;
	u32 node;

	if (!owner || flags & ~(u64)CREATE)
		return NULL;
	node = *link_to_owned(m, owner);
	if (node || !flags)
		return node ? ((struct owned *)at(node))->value : NULL;
	node = m->spare;
	if (node)
		m->spare = ((struct owned *)at(node))->link;
	else
		node = take(sizeof(struct owned) + m->value_size);
	if (!node)
		return NULL;
	o = at(node);
	o->link = m->table;
	o->owner = (u64)owner;
	m->table = node;
	if (value)
		copy(o->value, value, m->value_size);
	else
		clear(o->value, m->value_size);
	return o->value;
}

SHARED long end_owned(struct map *m, const void *owner)
{
	u32 *link = link_to_owned(m, owner), node = *link;

	if (!owner)
		return -EINVAL;
	if (!node)
		return -ENOENT;
	*link = ((struct owned *)at(node))->link;
	((struct owned *)at(node))->link = m->spare;
	m->spare = node;
	return 0;
}

HELPER void *bpf_task_storage_get(struct map *m, void *task, void *value, u64 flags)
{
	return owned_by(m, task, value, flags);
}

HELPER long bpf_task_storage_delete(struct map *m, void *task)
{
	return end_owned(m, task);
}

HELPER void *bpf_sk_storage_get(struct map *m, void *socket, void *value, u64 flags)
{
	return owned_by(m, socket, value, flags);
}

HELPER long bpf_sk_storage_delete(struct map *m, void *socket)
{
	return end_owned(m, socket);
}

HELPER void *bpf_inode_storage_get(struct map *m, void *inode, void *value, u64 flags)
{
	return owned_by(m, inode, value, flags);
}

HELPER long bpf_inode_storage_delete(struct map *m, void *inode)
{
	return end_owned(m, inode);
}

HELPER void *bpf_cgrp_storage_get(struct map *m, void *cgroup, void *value, u64 flags)
{
	return owned_by(m, cgroup, value, flags);
}

HELPER long bpf_cgrp_storage_delete(struct map *m, void *cgroup)
{
	return end_owned(m, cgroup);
}

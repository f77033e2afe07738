/* Storage of tasks, sockets, inodes and cgroups. */
#include "linux.h"

enum { CREATE = 1 };

STORAGE(of_tasks, BPFDB_TASK_STORAGE, u64);
STORAGE(others, BPFDB_TASK_STORAGE, u64);
STORAGE(of_sockets, BPFDB_SK_STORAGE, u8[12]);
STORAGE(of_inodes, BPFDB_INODE_STORAGE, u64);
#ifndef FOR_KERNEL
/* (since Linux 6.2) */
STORAGE(of_cgroups, BPFDB_CGRP_STORAGE, u64);
#endif

/* What is done with a value: it is made when that is asked, keeps what is stored in it, and goes. */
#define VALUE(KIND, MAP, OWNER) \
	WANT(KIND##_storage_get(&MAP, OWNER, NULL, 0) == NULL && KIND##_storage_delete(&MAP, OWNER) == -ENOENT); \
	WANT(KIND##_storage_get(&MAP, OWNER, NULL, 2) == NULL && KIND##_storage_get(&MAP, OWNER, NULL, 3) == NULL); \
	found = KIND##_storage_get(&MAP, OWNER, &value, CREATE); \
	WANT(found && *found == 5); \
	*found = 6; \
	found = KIND##_storage_get(&MAP, OWNER, &value, CREATE); \
	WANT(found && *found == 6); \
	found = KIND##_storage_get(&MAP, OWNER, &value, 0); \
	WANT(found && *found == 6); \
	WANT(KIND##_storage_delete(&MAP, OWNER) == 0 && KIND##_storage_get(&MAP, OWNER, NULL, 0) == NULL); \
	found = KIND##_storage_get(&MAP, OWNER, NULL, CREATE); \
	WANT(found && *found == 0)

TEST(value_of_a_task)
{
	u64 value = 5, *found;
	void *task;

	OWN(bpfdb_world.task = (u64)context);
	task = (void *)get_current_task_btf();
	VALUE(task, of_tasks, task);
	/* (another map knows nothing of it) */
	WANT(task_storage_get(&others, task, NULL, 0) == NULL);
	WANT(task_storage_delete(&of_tasks, task) == 0);
	return 0;
}

#ifndef FOR_KERNEL
OWN_TEST(values_of_any_owner)
{
	u64 value = 5, *found;

	VALUE(inode, of_inodes, context);
	VALUE(cgrp, of_cgroups, context);
	WANT(inode_storage_get(&of_inodes, NULL, &value, CREATE) == NULL &&
	     inode_storage_delete(&of_inodes, NULL) == -EINVAL);
	WANT(cgrp_storage_get(&of_cgroups, NULL, &value, CREATE) == NULL &&
	     cgrp_storage_delete(&of_cgroups, NULL) == -EINVAL);
	/* (no task is told of, and its address is 0) */
	WANT(task_storage_get(&of_tasks, (void *)get_current_task_btf(), &value, CREATE) == NULL);
	WANT(task_storage_delete(&of_tasks, NULL) == -EINVAL);
	return 0;
}
#endif

/* (An owner is an address of 64 bits: those whose low halves are the same differ.) */
OWN_TEST(values_of_many_sockets)
{
	u8 value[12] = { 0 }, *found;

	for (u64 i = 1; i <= 40; i++) {
		value[11] = i;
		found = sk_storage_get(&of_sockets, (void *)(i << 32 | 7), value, CREATE);
		WANT(found && found[11] == i);
	}
	for (u64 i = 1; i <= 40; i += 2)
		WANT(sk_storage_delete(&of_sockets, (void *)(i << 32 | 7)) == 0);
	for (u64 i = 1; i <= 40; i++) {
		found = sk_storage_get(&of_sockets, (void *)(i << 32 | 7), NULL, 0);
		WANT(i % 2 ? !found : found && found[11] == i && !found[0]);
	}
	WANT(sk_storage_delete(&of_sockets, (void *)(1ull << 32 | 7)) == -ENOENT &&
	     sk_storage_delete(&of_sockets, NULL) == -EINVAL);
	WANT(sk_storage_get(&of_sockets, NULL, value, CREATE) == NULL);
	/* (a value of one that was deleted is all zero when it is made anew) */
	found = sk_storage_get(&of_sockets, (void *)9, NULL, CREATE);
	WANT(found && !found[11]);
	return 0;
}

STORAGE(heavy, BPFDB_SK_STORAGE, u8[60000]);

OWN_TEST(storage_without_room)
{
	for (u64 i = 1; i <= 3; i++)
		WANT(sk_storage_get(&heavy, (void *)i, NULL, CREATE));
	WANT(sk_storage_get(&heavy, (void *)4, NULL, CREATE) == NULL && bpfdb_world.no_room == 1);
	WANT(sk_storage_delete(&heavy, (void *)2) == 0 && sk_storage_get(&heavy, (void *)4, NULL, CREATE));
	return 0;
}

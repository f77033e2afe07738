/* The world: what it is at first, and what it is made. */
#include "linux.h"

MAP(groups, BPFDB_CGROUP_ARRAY, 2, u32, u32);
MAP(counters, BPFDB_PERF_EVENT_ARRAY, 4, u32, u32);
MAP(programs, BPFDB_PROG_ARRAY, 4, u32, u32);

OWN_TEST(time_passes)
{
	u64 first = ktime_get_ns(), second;

	WANT(first == 1000001000);
	second = ktime_get_boot_ns();
	WANT(second == 1000002000);
	WANT(ktime_get_coarse_ns() == second);
	bpfdb_world.time = 5000000000;
	bpfdb_world.time_step = 0;
	WANT(ktime_get_ns() == 5000000000 && ktime_get_tai_ns() == 5000000000 && jiffies64() == 1250);
	return 0;
}

OWN_TEST(task_is_told)
{
	char comm[16], few[4];

	WANT(get_current_pid_tgid() == (1234ull << 32 | 1234));
	WANT(get_current_uid_gid() == 0);
	bpfdb_world.tgid = 7;
	bpfdb_world.pid = 8;
	bpfdb_world.uid = 9;
	bpfdb_world.gid = 10;
	WANT(get_current_pid_tgid() == (7ull << 32 | 8));
	WANT(get_current_uid_gid() == (10ull << 32 | 9));
	comm[15] = 1;
	WANT(get_current_comm(comm, 16) == 0 && comm[0] == 'b' && comm[4] == 'b' && comm[5] == 0 && comm[15] == 0);
	WANT(get_current_comm(few, 4) == 0 && few[2] == 'f' && few[3] == 0);
	WANT(get_current_task() == 0 && get_current_task_btf() == 0);
	bpfdb_world.task = (u64)context;
	WANT(get_current_task() == 0x100000000 && get_current_task_btf() == 0x100000000);
	return 0;
}

OWN_TEST(rest_is_told)
{
	u32 first, second, third;

	WANT(get_smp_processor_id() == 0 && get_numa_node_id() == 0);
	bpfdb_world.cpu = 3;
	bpfdb_world.node = 1;
	WANT(get_smp_processor_id() == 3 && get_numa_node_id() == 1);
	WANT(get_current_cgroup_id() == 1);
	bpfdb_world.cgroup = 77;
	WANT(get_current_cgroup_id() == 77);
	WANT(current_task_under_cgroup(&groups, 1) == 1);
	WANT(current_task_under_cgroup(&groups, 2) == -E2BIG);
	bpfdb_world.under_cgroup = 0;
	WANT(current_task_under_cgroup(&groups, 0) == 0);
	bpfdb_world.func_ip = 0xffffffff81000010;
	bpfdb_world.cookie = 55;
	WANT(get_func_ip(context) == 0xffffffff81000010 && get_attach_cookie(context) == 55);
	first = get_prandom_u32();
	second = get_prandom_u32();
	third = get_prandom_u32();
	WANT(first != second && second != third);
	/* (the first number of Marsaglia's xorshift64 from his own seed) */
	WANT(first == (u32)8748534153485358512ull);
	bpfdb_world.random = 88172645463325252;
	WANT(get_prandom_u32() == first);
	return 0;
}

/* A cgroup that isn't the root is right below it. */
OWN_TEST(ancestors_of_the_cgroup)
{
	WANT(get_current_ancestor_cgroup_id(0) == 1 && get_current_ancestor_cgroup_id(1) == 0 &&
	     get_current_ancestor_cgroup_id(-1) == 0);
	bpfdb_world.cgroup = 77;
	WANT(get_current_ancestor_cgroup_id(0) == 1 && get_current_ancestor_cgroup_id(1) == 77 &&
	     get_current_ancestor_cgroup_id(2) == 0);
	WANT(sk_cgroup_id(context) == 77 && sk_ancestor_cgroup_id(context, 1) == 77 &&
	     sk_ancestor_cgroup_id(context, 2) == 0);
	return 0;
}

OWN_TEST(task_in_a_namespace)
{
	u32 found[2] = { 1, 2 };

	bpfdb_world.tgid = 7;
	bpfdb_world.pid = 8;
	WANT(get_ns_current_pid_tgid(4, 0xeffffffc, found, 8) == 0 && found[0] == 8 && found[1] == 7);
	WANT(get_ns_current_pid_tgid(4, 0xeffffffc, found, 4) == -EINVAL && !found[0] && found[1] == 7);
	WANT(get_ns_current_pid_tgid(1ull << 32, 1, found, 8) == -EINVAL && !found[1]);
	return 0;
}

/* (the root's number is 1, and nothing is above it) */
TEST(world_of_any_cgroup)
{
	u32 found[2] = { 1, 2 };

	WANT(get_current_ancestor_cgroup_id(0) == 1 && get_current_ancestor_cgroup_id(-1) == 0 &&
	     get_current_ancestor_cgroup_id(100) == 0);
	WANT(get_ns_current_pid_tgid(1ull << 32, 1, found, 8) == -EINVAL && !found[0] && !found[1]);
	return 0;
}

/* (`ax` is the eleventh of the registers, of 8 bytes each) */
OWN_TEST(result_of_a_probed_function)
{
	u64 registers[21] = { 0 };

	WANT(override_return(registers, -12) == 0 && registers[10] == (u64)-12 && !registers[9] && !registers[11] &&
	     !registers[16]);
	return 0;
}

OWN_TEST(no_counter_and_no_branches)
{
	u64 counts[3] = { 1, 2, 3 };

	WANT(perf_prog_read_value(context, counts, 24) == -EOPNOTSUPP && !counts[0] && !counts[2]);
	counts[1] = 2;
	WANT(perf_prog_read_value(context, counts, 16) == -EINVAL && !counts[1]);
	WANT(read_branch_records(context, counts, 24, 0) == -ENOENT &&
	     read_branch_records(context, NULL, 0, 1) == -ENOENT);
	WANT(read_branch_records(context, counts, 24, 2) == -EINVAL);
	WANT(get_branch_snapshot(counts, 24, 0) == -ENOENT && get_branch_snapshot(counts, 24, 1) == -EINVAL);
	WANT(ima_inode_hash(context, counts, 24) == -EOPNOTSUPP && ima_file_hash(context, counts, 24) == -EOPNOTSUPP);
	return 0;
}

OWN_TEST(variables_of_a_processor)
{
	WANT(this_cpu_ptr(context) == context && per_cpu_ptr(context, 0) == context && per_cpu_ptr(context, 1) == NULL);
	bpfdb_world.cpu = 1;
	WANT(this_cpu_ptr(context) == context && per_cpu_ptr(context, 1) == context && per_cpu_ptr(context, 0) == NULL);
	return 0;
}

MAP(pointers, BPFDB_ARRAY, 1, u32, void *);

OWN_TEST(pointers_are_exchanged)
{
	u32 key = 0;
	void **place = map_lookup(&pointers, &key);

	WANT(place && kptr_xchg(place, context) == NULL && *place == context && kptr_xchg(place, NULL) == context &&
	     !*place);
	return 0;
}

/* (what any kernel on its first processor says) */
TEST(world_of_any_kernel)
{
	u64 first = ktime_get_ns(), second = ktime_get_ns();
	char comm[4] = { 1, 1, 1, 1 };

	WANT(first && second >= first && ktime_get_boot_ns() && jiffies64());
	WANT(get_smp_processor_id() == 0 && get_numa_node_id() == 0);
	WANT(get_current_comm(comm, 4) == 0 && comm[3] == 0);
	WANT(get_current_pid_tgid() >> 32 && get_current_uid_gid() == 0);
	return 0;
}

TEST(nobody_put_one_there)
{
	u64 read[3] = { 1, 2, 3 };

	WANT(perf_event_read(&counters, 1) == (u64)-ENOENT);
	WANT(perf_event_read(&counters, 4) == (u64)-E2BIG && perf_event_read(&counters, 1ull << 32) == (u64)-EINVAL);
	WANT(perf_event_read_value(&counters, 1, read, 24) == -ENOENT && !read[0] && !read[2]);
	read[0] = 1;
	WANT(perf_event_read_value(&counters, 1, read, 16) == -EINVAL && !read[0]);
	WANT(perf_event_read_value(&counters, 9, read, 24) == -E2BIG);
	WANT(perf_event_read_value(&counters, 1ull << 40, read, 24) == -EINVAL);
	OWN_WANT(perf_event_read(&counters, 0) == (u64)-ENOENT &&
	     perf_event_read(&counters, 0xffffffff) == (u64)-ENOENT);
	/* (nothing is told of what a tail call leaves in r0 where it leads to no program) */
	tail_call(context, &programs, 0);
	return 0;
}

extern int LINUX_KERNEL_VERSION __attribute__((section(".kconfig")));
extern _Bool LINUX_HAS_BPF_COOKIE __attribute__((section(".kconfig")));
extern u64 CONFIG_HZ __attribute__((section(".kconfig")));
extern _Bool CONFIG_BPF_SYSCALL __attribute__((section(".kconfig")));
extern _Bool CONFIG_CGROUP_PIDS __attribute__((section(".kconfig")));
extern u32 CONFIG_IPV6_SUBTREES __attribute__((section(".kconfig")));
extern _Bool CONFIG_PREEMPT __attribute__((section(".kconfig")));
extern _Bool CONFIG_SECURITY_SELINUX __attribute__((section(".kconfig")));

OWN_TEST(configuration_is_told)
{
	WANT(LINUX_KERNEL_VERSION == (6 << 16 | 1 << 8));
	WANT(LINUX_HAS_BPF_COOKIE == 1);
	/* (of Debian's kernel; what is y is 1 in whatever type, what isn't set is 0) */
	WANT(CONFIG_HZ == 250 && CONFIG_BPF_SYSCALL && CONFIG_CGROUP_PIDS && CONFIG_IPV6_SUBTREES == 1);
	WANT(!CONFIG_PREEMPT && CONFIG_SECURITY_SELINUX);
	return 0;
}

/* (A number of an error is an int.) */
OWN_TEST(result_of_a_system_call)
{
	WANT(get_retval() == 0);
	WANT(set_retval(-13) == 0 && get_retval() == -13);
	WANT(set_retval(0x1ffffffffull) == 0 && get_retval() == -1);
	WANT(set_retval(0) == 0 && get_retval() == 0);
	return 0;
}

struct storage_key { u64 cgroup; u32 kind; };
MAP(storage, BPFDB_CGROUP_STORAGE, 0, struct storage_key, u64);
MAP(storage_of_cpu, BPFDB_PERCPU_CGROUP_STORAGE, 0, struct storage_key, u32);

/* (Each map has one value for the one cgroup: it is zero at first, and the same at each look.) */
OWN_TEST(storage_of_a_cgroup)
{
	u64 *found = get_local_storage(&storage, 0);
	u32 *other = get_local_storage(&storage_of_cpu, 0);

	WANT(found && *found == 0 && other && *other == 0 && (void *)other != (void *)found);
	*found = 0x1122334455667788;
	*other = 7;
	found = get_local_storage(&storage, 0);
	other = get_local_storage(&storage_of_cpu, 0);
	WANT(found && *found == 0x1122334455667788 && other && *other == 7);
	WANT(get_local_storage(&programs, 0) == NULL);
	return 0;
}

MAP(locked, BPFDB_ARRAY, 1, u32, u64);

OWN_TEST(locks_are_taken)
{
	u32 key = 0, *lock = map_lookup(&locked, &key);

	WANT(lock);
	spin_lock(lock);
	lock[1] = 5;
	WANT(*lock != 0);
	spin_unlock(lock);
	WANT(*lock == 0 && lock[1] == 5);
	return 0;
}

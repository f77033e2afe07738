/* What the world is: bpfdb_world says it. */

/* What the kernel's configuration is, for those who ask (`__kconfig` of libbpf): version 6.1, on x86-64, as Debian has
   it. (Programs have numbers of whatever size for it: each has 8 bytes.) */
#if HAS_DATA
int LINUX_KERNEL_VERSION WORLD = 0x060100;
_Bool LINUX_HAS_BPF_COOKIE WORLD = 1;
_Bool LINUX_HAS_SYSCALL_WRAPPER WORLD = 1;
/* (This one stands where there are bytes left between two others.) How far into the context a packet has reached. */
u32 bpfdb_packet_end WORLD = 0;
u64 CONFIG_HZ WORLD = 250;
u64 CONFIG_BPF_SYSCALL WORLD = 1;
u64 CONFIG_CGROUP_PIDS WORLD = 1;
u64 CONFIG_IPV6_SUBTREES WORLD = 1;
u64 CONFIG_PREEMPT WORLD = 0;
u64 CONFIG_SECURITY_SELINUX WORLD = 1;

/* What the system call gives where a program of a cgroup refuses it: 0 before one says so. */
s64 bpfdb_retval WORLD = 0;
#else
extern u32 bpfdb_packet_end;
extern s64 bpfdb_retval;
#endif

INLINE u64 look_at_time(void)
{
	bpfdb_world.time += bpfdb_world.time_step;
	return bpfdb_world.time;
}

HELPER u64 bpf_ktime_get_ns(void)
{
	return look_at_time();
}

HELPER u64 bpf_ktime_get_boot_ns(void)
{
	return look_at_time();
}

HELPER u64 bpf_ktime_get_coarse_ns(void)
{
	return bpfdb_world.time;
}

HELPER u64 bpf_ktime_get_tai_ns(void)
{
	return look_at_time();
}

/* (of a kernel that counts 250 a second) */
HELPER u64 bpf_jiffies64(void)
{
	return bpfdb_world.time / 4000000;
}

HELPER u64 bpf_get_current_pid_tgid(void)
{
	return (u64)bpfdb_world.tgid << 32 | bpfdb_world.pid;
}

HELPER u64 bpf_get_current_uid_gid(void)
{
	return (u64)bpfdb_world.gid << 32 | bpfdb_world.uid;
}

HELPER long bpf_get_current_comm(void *to, u32 size)
{
	u8 *t = to;
	u32 i = 0;

	if (!size)
		return -EINVAL;
	for (; i < size - 1 && i < BPFDB_COMM && bpfdb_world.comm[i]; i++) {
		t[i] = bpfdb_world.comm[i];
		STAY_A_LOOP();
	}
	clear(t + i, size - i);
	return 0;
}

HELPER u64 bpf_get_smp_processor_id(void)
{
	return bpfdb_world.cpu;
}

HELPER u64 bpf_get_numa_node_id(void)
{
	return bpfdb_world.node;
}

/* A variable of each processor is there once, as there is one of them. */
HELPER void *bpf_this_cpu_ptr(void *variable)
{
	return variable;
}

HELPER void *bpf_per_cpu_ptr(void *variable, u32 cpu)
{
	return cpu == bpfdb_world.cpu ? variable : NULL;
}

HELPER u64 bpf_get_current_task(void)
{
	return bpfdb_world.task;
}

HELPER u64 bpf_get_current_task_btf(void)
{
	return bpfdb_world.task;
}

HELPER u64 bpf_get_current_cgroup_id(void)
{
	return bpfdb_world.cgroup;
}

/* A cgroup's ancestor at a level: the root, whose number is 1, is at level 0, and any other cgroup at level 1. */
INLINE u64 ancestor_of(u64 cgroup, s32 level)
{
	enum { ROOT = 1 };

	if (level == 0)
		return ROOT;
	return level == 1 && cgroup != ROOT ? cgroup : 0;
}

HELPER u64 bpf_get_current_ancestor_cgroup_id(s32 level)
{
	return ancestor_of(bpfdb_world.cgroup, level);
}

/* (The task is in each namespace that it is asked of.) */
HELPER long bpf_get_ns_current_pid_tgid(u64 device, u64 inode UNUSED, u32 *to, u32 size)
{
	enum { TWO_NUMBERS = 8 };

	if (size != TWO_NUMBERS || device >> 32) {
		clear(to, size);
		return -EINVAL;
	}
	to[0] = bpfdb_world.pid;
	to[1] = bpfdb_world.tgid;
	return 0;
}

/* What the function that is probed returns at once: `ax` of the context's registers. (Where it goes on, `ip`, isn't
   told.) */
HELPER long bpf_override_return(void *registers, u64 result)
{
	enum { AX = 80 };

	*(any64 *)((u8 *)registers + AX) = result;
	return 0;
}

HELPER long bpf_get_retval(void)
{
	return bpfdb_retval;
}

HELPER long bpf_set_retval(int result)
{
	bpfdb_retval = result;
	return 0;
}

HELPER long bpf_current_task_under_cgroup(struct map *m, u32 index)
{
	if (m->max_entries && index >= m->max_entries)
		return -E2BIG;
	return bpfdb_world.under_cgroup;
}

/* (xorshift64) */
HELPER u64 bpf_get_prandom_u32(void)
{
	u64 random = bpfdb_world.random;

	random ^= random << 13;
	random ^= random >> 7;
	random ^= random << 17;
	bpfdb_world.random = random;
	return (u32)random;
}

HELPER u64 bpf_get_func_ip(void *context UNUSED)
{
	return bpfdb_world.func_ip;
}

HELPER u64 bpf_get_attach_cookie(void *context UNUSED)
{
	return bpfdb_world.cookie;
}

/* What is asked of perf events: nobody opened one. */
INLINE long no_event(struct map *m, u64 flags)
{
	const u32 present = 0xffffffff;
	u32 index = flags == present ? bpfdb_world.cpu : flags;

	if (flags > present)
		return -EINVAL;
	return m->max_entries && index >= m->max_entries ? -E2BIG : -ENOENT;
}

HELPER long bpf_perf_event_read(struct map *m, u64 flags)
{
	return no_event(m, flags);
}

HELPER long bpf_perf_event_read_value(struct map *m, u64 flags, void *to, u32 size)
{
	enum { COUNTS = 24 };

	clear(to, size);
	return size == COUNTS ? no_event(m, flags) : -EINVAL;
}

/* (of the event that the program is attached to: one that may not be read there) */
HELPER long bpf_perf_prog_read_value(void *context UNUSED, void *to, u32 size)
{
	enum { COUNTS = 24 };

	clear(to, size);
	return size == COUNTS ? -EOPNOTSUPP : -EINVAL;
}

/* No processor records its branches. */
HELPER long bpf_read_branch_records(void *context UNUSED, void *to UNUSED, u32 size UNUSED, u64 flags)
{
	enum { ASKS_SIZE = 1 };

	return flags & ~(u64)ASKS_SIZE ? -EINVAL : -ENOENT;
}

HELPER long bpf_get_branch_snapshot(void *to UNUSED, u32 size UNUSED, u64 flags)
{
	return flags ? -EINVAL : -ENOENT;
}

/* No file is measured. */
HELPER long bpf_ima_inode_hash(void *inode UNUSED, void *to UNUSED, u32 size UNUSED)
{
	return -EOPNOTSUPP;
}

HELPER long bpf_ima_file_hash(void *file UNUSED, void *to UNUSED, u32 size UNUSED)
{
	return -EOPNOTSUPP;
}

/* A redirect to an interface. XDP has no flags, tc one; what a program of the other kind gets is of no use to it. */
HELPER long bpf_redirect(u32 interface, u64 flags)
{
	enum { XDP_ABORTED = 0, XDP_REDIRECT = 4, TC_SHOT = 2, TC_REDIRECT = 7, INGRESS = 1 };

	if (flags & ~(u64)(bpfdb_world.is_tc ? INGRESS : 0))
		return bpfdb_world.is_tc ? TC_SHOT : XDP_ABORTED;
	bpfdb_world.redirected_to = interface;
	return bpfdb_world.is_tc ? TC_REDIRECT : XDP_REDIRECT;
}

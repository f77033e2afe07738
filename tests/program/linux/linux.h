/* What the tests of share/bpfdb-linux.c are written with. Each test is a program of its own; its result is 0, or the
   number of the line whose check doesn't hold. What is wanted follows from bpf-helpers(7) and from the kernel's
   sources. With FOR_KERNEL, the size of the context, each is a program for the kernel, of the kind SECTION
   (tests/kernel.sh). An OWN_TEST is none for the kernel: it asks for bpfdb's own world or addresses, or what the
   kernel's verifier refuses. */
#include "bpfdb-linux.h"

typedef unsigned char u8;
typedef unsigned short u16;
typedef unsigned int u32;
typedef unsigned long long u64;
typedef long long s64;

#define NULL ((void *)0)
#ifdef FOR_KERNEL
#ifndef SECTION
#define SECTION "raw_tp"
#endif
#define TEST(NAME) \
	static __attribute__((always_inline)) long NAME##_body(void *context, u64 size); \
	__attribute__((section(SECTION), used)) int NAME(void *context) { return NAME##_body(context, FOR_KERNEL); } \
	static __attribute__((always_inline)) long NAME##_body(void *context, u64 size)
#define OWN_TEST(NAME) static __attribute__((unused)) long NAME(void *context, u64 size)
char LICENSE[] __attribute__((section("license"), used)) = "GPL";
#else
#define TEST(NAME) __attribute__((section("test"), used)) long NAME(void *context, u64 size)
#define OWN_TEST(NAME) TEST(NAME)
#endif
#define WANT(WHAT) do { if (!(WHAT)) return __LINE__; } while (0)
/* What is so here and not in the kernel. */
#ifdef FOR_KERNEL
#define OWN(WHAT) (void)0
#else
#define OWN(WHAT) WHAT
#endif
#define OWN_WANT(WHAT) OWN(WANT(WHAT))

#define __uint(NAME, VALUE) int (*NAME)[VALUE]
#define __type(NAME, TYPE) __typeof__(TYPE) *NAME
#define MAP(NAME, KIND, ENTRIES, KEY, VALUE) \
	struct { __uint(type, KIND); __uint(max_entries, ENTRIES); __type(key, KEY); __type(value, VALUE); } \
		NAME __attribute__((section(".maps"), used))
#define TRIE(NAME, ENTRIES, KEY, VALUE) \
	struct { __uint(type, BPFDB_LPM_TRIE); __uint(map_flags, 1); __uint(max_entries, ENTRIES); \
		__type(key, KEY); __type(value, VALUE); } NAME __attribute__((section(".maps"), used))
#define MAP_WITHOUT_KEY(NAME, KIND, ENTRIES, VALUE) \
	struct { __uint(type, KIND); __uint(max_entries, ENTRIES); __type(value, VALUE); } \
		NAME __attribute__((section(".maps"), used))
#define STORAGE(NAME, KIND, VALUE) \
	struct { __uint(type, KIND); __uint(map_flags, 1); __type(key, int); __type(value, VALUE); } \
		NAME __attribute__((section(".maps"), used))
#define RING(NAME, BYTES) \
	struct { __uint(type, BPFDB_RINGBUF); __uint(max_entries, BYTES); } NAME __attribute__((section(".maps"), used))

enum { ANY, NOEXIST, EXIST };

/* (Before Linux 6.4 these results have but 32 bits that count.) */
#ifdef FOR_KERNEL
typedef int result;
#else
typedef long result;
#endif

/* The numbers of Linux' helpers, from <linux/bpf.h>. */
#define HELPER(NUMBER, RESULT, NAME, ...) static RESULT (*const NAME)(__VA_ARGS__) = (void *)NUMBER

HELPER(1, void *, map_lookup, void *, const void *);
HELPER(2, result, map_update, void *, const void *, const void *, u64);
HELPER(3, result, map_delete, void *, const void *);
HELPER(4, long, probe_read, void *, u32, const void *);
HELPER(5, u64, ktime_get_ns, void);
HELPER(6, long, trace_printk, const char *, u32, ...);
HELPER(7, u32, get_prandom_u32, void);
HELPER(8, u32, get_smp_processor_id, void);
HELPER(9, long, skb_store_bytes, void *, u32, const void *, u32, u64);
HELPER(10, long, l3_csum_replace, void *, u32, u64, u64, u64);
HELPER(11, long, l4_csum_replace, void *, u32, u64, u64, u64);
HELPER(12, long, tail_call, void *, void *, u32);
HELPER(13, long, clone_redirect, void *, u32, u64);
HELPER(14, u64, get_current_pid_tgid, void);
HELPER(15, u64, get_current_uid_gid, void);
HELPER(16, long, get_current_comm, void *, u32);
HELPER(17, u64, get_cgroup_classid, void *);
HELPER(18, long, skb_vlan_push, void *, u16, u16);
HELPER(19, long, skb_vlan_pop, void *);
HELPER(20, long, skb_get_tunnel_key, void *, void *, u32, u64);
HELPER(21, long, skb_set_tunnel_key, void *, const void *, u32, u64);
HELPER(22, u64, perf_event_read, void *, u64);
HELPER(23, long, redirect, u32, u64);
HELPER(24, u64, get_route_realm, void *);
HELPER(25, long, perf_event_output, void *, void *, u64, const void *, u64);
HELPER(26, long, skb_load_bytes, const void *, u32, void *, u32);
HELPER(27, long, get_stackid, void *, void *, u64);
HELPER(28, s64, csum_diff, const void *, u32, const void *, u32, u32);
HELPER(29, long, skb_get_tunnel_opt, void *, void *, u32);
HELPER(30, long, skb_set_tunnel_opt, void *, const void *, u32);
HELPER(31, long, skb_change_proto, void *, u16, u64);
HELPER(32, long, skb_change_type, void *, u32);
HELPER(33, long, skb_under_cgroup, void *, void *, u32);
HELPER(34, u64, get_hash_recalc, void *);
HELPER(35, u64, get_current_task, void);
HELPER(36, long, probe_write_user, void *, const void *, u32);
HELPER(37, long, current_task_under_cgroup, void *, u32);
HELPER(38, long, skb_change_tail, void *, u32, u64);
HELPER(39, long, skb_pull_data, void *, u32);
HELPER(40, s64, csum_update, void *, u32);
HELPER(41, long, set_hash_invalid, void *);
HELPER(42, long, get_numa_node_id, void);
HELPER(43, long, skb_change_head, void *, u32, u64);
HELPER(44, long, xdp_adjust_head, void *, int);
HELPER(45, long, probe_read_str, void *, u32, const void *);
HELPER(46, u64, get_socket_cookie, void *);
HELPER(47, u64, get_socket_uid, void *);
HELPER(48, long, set_hash, void *, u32);
HELPER(49, long, setsockopt, void *, int, int, const void *, int);
HELPER(50, long, skb_adjust_room, void *, int, u32, u64);
HELPER(51, result, redirect_map, void *, u64, u64);
HELPER(52, long, sk_redirect_map, void *, void *, u32, u64);
HELPER(53, long, sock_map_update, void *, void *, void *, u64);
HELPER(54, long, xdp_adjust_meta, void *, int);
HELPER(55, long, perf_event_read_value, void *, u64, void *, u32);
HELPER(56, long, perf_prog_read_value, void *, void *, u32);
HELPER(57, long, getsockopt, void *, int, int, void *, int);
HELPER(58, long, override_return, void *, u64);
HELPER(59, long, sock_ops_cb_flags_set, void *, int);
HELPER(60, long, msg_redirect_map, void *, void *, u32, u64);
HELPER(65, long, xdp_adjust_tail, void *, int);
HELPER(66, long, skb_get_xfrm_state, void *, u32, void *, u32, u64);
HELPER(67, long, get_stack, void *, void *, u32, u64);
HELPER(68, long, skb_load_bytes_relative, const void *, u32, void *, u32, u32);
HELPER(69, long, fib_lookup, void *, void *, int, u32);
HELPER(70, long, sock_hash_update, void *, void *, void *, u64);
HELPER(71, long, msg_redirect_hash, void *, void *, void *, u64);
HELPER(72, long, sk_redirect_hash, void *, void *, void *, u64);
HELPER(77, long, rc_repeat, void *);
HELPER(78, long, rc_keydown, void *, u32, u64, u32);
HELPER(79, u64, skb_cgroup_id, void *);
HELPER(80, u64, get_current_cgroup_id, void);
HELPER(81, void *, get_local_storage, void *, u64);
HELPER(82, long, sk_select_reuseport, void *, void *, void *, u64);
HELPER(83, u64, skb_ancestor_cgroup_id, void *, int);
HELPER(84, void *, sk_lookup_tcp, void *, void *, u32, u64, u64);
HELPER(85, void *, sk_lookup_udp, void *, void *, u32, u64, u64);
HELPER(86, long, sk_release, void *);
HELPER(87, result, map_push, void *, const void *, u64);
HELPER(88, result, map_pop, void *, void *);
HELPER(89, result, map_peek, void *, void *);
HELPER(92, long, rc_pointer_rel, void *, int, int);
HELPER(93, long, spin_lock, void *);
HELPER(94, long, spin_unlock, void *);
HELPER(95, void *, sk_fullsock, void *);
HELPER(96, void *, tcp_sock, void *);
HELPER(97, long, skb_ecn_set_ce, void *);
HELPER(98, void *, get_listener_sock, void *);
HELPER(99, void *, skc_lookup_tcp, void *, void *, u32, u64, u64);
HELPER(100, long, tcp_check_syncookie, void *, void *, u32, void *, u32);
HELPER(105, long, strtol, const char *, unsigned long, u64, long *);
HELPER(106, long, strtoul, const char *, unsigned long, u64, unsigned long *);
HELPER(107, void *, sk_storage_get, void *, void *, void *, u64);
HELPER(108, long, sk_storage_delete, void *, void *);
HELPER(109, long, send_signal, u32);
HELPER(110, s64, tcp_gen_syncookie, void *, void *, u32, void *, u32);
HELPER(111, long, skb_output, void *, void *, u64, const void *, u64);
HELPER(112, long, probe_read_user, void *, u32, const void *);
HELPER(113, long, probe_read_kernel, void *, u32, const void *);
HELPER(114, long, probe_read_user_str, void *, u32, const void *);
HELPER(115, long, probe_read_kernel_str, void *, u32, const void *);
HELPER(117, long, send_signal_thread, u32);
HELPER(118, u64, jiffies64, void);
HELPER(119, long, read_branch_records, void *, void *, u32, u64);
HELPER(120, long, get_ns_current_pid_tgid, u64, u64, void *, u32);
HELPER(121, long, xdp_output, void *, void *, u64, const void *, u64);
HELPER(122, u64, get_netns_cookie, void *);
HELPER(123, u64, get_current_ancestor_cgroup_id, int);
HELPER(124, long, sk_assign, void *, void *, u64);
HELPER(125, u64, ktime_get_boot_ns, void);
HELPER(126, long, seq_printf, void *, const char *, u32, const void *, u32);
HELPER(127, long, seq_write, void *, const void *, u32);
HELPER(128, u64, sk_cgroup_id, void *);
HELPER(129, u64, sk_ancestor_cgroup_id, void *, int);
HELPER(130, long, ringbuf_output, void *, const void *, u64, u64);
HELPER(131, void *, ringbuf_reserve, void *, u64, u64);
HELPER(132, void, ringbuf_submit, void *, u64);
HELPER(133, void, ringbuf_discard, void *, u64);
HELPER(134, u64, ringbuf_query, void *, u64);
HELPER(135, long, csum_level, void *, u64);
HELPER(136, void *, skc_to_tcp6_sock, void *);
HELPER(137, void *, skc_to_tcp_sock, void *);
HELPER(138, void *, skc_to_tcp_timewait_sock, void *);
HELPER(139, void *, skc_to_tcp_request_sock, void *);
HELPER(140, void *, skc_to_udp6_sock, void *);
HELPER(145, void *, inode_storage_get, void *, void *, void *, u64);
HELPER(146, long, inode_storage_delete, void *, void *);
HELPER(148, long, copy_from_user, void *, u32, const void *);
HELPER(151, u64, skb_cgroup_classid, void *);
HELPER(152, long, redirect_neigh, u32, void *, int, u64);
HELPER(153, void *, per_cpu_ptr, const void *, u32);
HELPER(154, void *, this_cpu_ptr, const void *);
HELPER(155, long, redirect_peer, u32, u64);
HELPER(156, void *, task_storage_get, void *, void *, void *, u64);
HELPER(157, long, task_storage_delete, void *, void *);
HELPER(158, u64, get_current_task_btf, void);
HELPER(160, u64, ktime_get_coarse_ns, void);
HELPER(161, long, ima_inode_hash, void *, void *, u32);
HELPER(162, void *, sock_from_file, void *);
HELPER(163, long, check_mtu, void *, u32, u32 *, int, u64);
HELPER(165, long, snprintf, char *, u32, const char *, const u64 *, u32);
HELPER(173, u64, get_func_ip, void *);
HELPER(174, u64, get_attach_cookie, void *);
HELPER(176, long, get_branch_snapshot, void *, u32, u64);
HELPER(177, long, trace_vprintk, const char *, u32, const void *, u32);
HELPER(178, void *, skc_to_unix_sock, void *);
HELPER(182, long, strncmp, const char *, u32, const char *);
HELPER(186, long, get_retval, void);
HELPER(187, long, set_retval, u64);
HELPER(188, u64, xdp_get_buff_len, void *);
HELPER(189, long, xdp_load_bytes, void *, u32, void *, u32);
HELPER(190, long, xdp_store_bytes, void *, u32, void *, u32);
HELPER(191, long, copy_from_user_task, void *, u32, const void *, void *, u64);
HELPER(193, long, ima_file_hash, void *, void *, u32);
HELPER(194, void *, kptr_xchg, void *, void *);
HELPER(195, void *, map_lookup_percpu, void *, const void *, u32);
HELPER(196, void *, skc_to_mptcp_sock, void *);
HELPER(197, long, dynptr_from_mem, void *, u32, u64, void *);
HELPER(198, long, ringbuf_reserve_dynptr, void *, u32, u64, void *);
HELPER(199, void, ringbuf_submit_dynptr, void *, u64);
HELPER(200, void, ringbuf_discard_dynptr, void *, u64);
HELPER(201, long, dynptr_read, void *, u32, const void *, u32, u64);
HELPER(202, long, dynptr_write, const void *, u32, const void *, u32, u64);
HELPER(203, void *, dynptr_data, const void *, u32, u32);
HELPER(208, u64, ktime_get_tai_ns, void);
HELPER(210, void *, cgrp_storage_get, void *, void *, void *, u64);
HELPER(211, long, cgrp_storage_delete, void *, void *);

#define EPERM 1
#define ENOENT 2
#define E2BIG 7
#define EAGAIN 11
#define ENOMEM 12
#define EACCES 13
#define EFAULT 14
#define EEXIST 17
#define ENODEV 19
#define EINVAL 22
#define ENOSPC 28
#define ERANGE 34
#define EPROTO 71
#define EOVERFLOW 75
#define EOPNOTSUPP 95
#define EALREADY 114
#define ENOTSUPP 524

/* The world that the helpers of bpfdb-linux.c tell of, and what programs send out. An object of one's own may include
   this, and set what it likes: docs/LINUX.md describes it. */
#ifndef BPFDB_LINUX_H
#define BPFDB_LINUX_H

#include "bpfdb-map.h"

enum {
	BPFDB_COMM = 16,		/* bytes of a name of a task */
	BPFDB_DEEPEST_STACK = 16,	/* addresses of a stack */
};

/* What is asked of the kernel about the time, the task, the processor and so on. It begins at the first byte of its
   map, and each field is where it stands here. */
struct bpfdb_world {
	unsigned long long time;	/* 0: nanoseconds since the start */
	unsigned long long time_step;	/* 8: what each look at the time adds to it */
	unsigned int pid;		/* 16: the thread */
	unsigned int tgid;		/* 20: the process */
	unsigned int uid;		/* 24 */
	unsigned int gid;		/* 28 */
	char comm[BPFDB_COMM];		/* 32 */
	unsigned int cpu;		/* 48: the processor, the one that there is */
	unsigned int node;		/* 52: its NUMA node */
	unsigned long long cgroup;	/* 56: the cgroup's id */
	unsigned long long task;	/* 64: where the task_struct lies, 0 where there is none */
	unsigned long long random;	/* 72: from which random numbers come; not 0 */
	unsigned long long func_ip;	/* 80: the address of the function that is traced */
	unsigned long long cookie;	/* 88: the cookie of what is attached */
	unsigned int under_cgroup;	/* 96: whether the task is in the cgroup of a map: 1 or 0 */
	unsigned int is_tc;		/* 100: bpf_redirect answers a program of 0: XDP, 1: tc */
	unsigned int kernel_depth;	/* 104: the addresses in kernel_stack */
	unsigned int user_depth;	/* 108: those in user_stack */
	unsigned long long kernel_stack[BPFDB_DEEPEST_STACK]; /* 112: the innermost first */
	unsigned long long user_stack[BPFDB_DEEPEST_STACK];   /* 240 */
	unsigned int redirected_to;	/* 368: the last interface, or key, of a redirect */
	unsigned int no_room;		/* 372: how often the heap or the output had no room */
};

extern struct bpfdb_world bpfdb_world;

/* How many bytes the context has. At 65,536, the most, a read behind its end is a fault of the machine; where it is
   right, bpf_probe_read_kernel and its like answer -EFAULT as Linux does. */
extern unsigned long long bpfdb_context_len;

enum { BPFDB_TUNNEL_OPTIONS = 256 };	/* bytes of room */

/* What a tunnel's packet came with, or what a program set. An address is that of IPv4, in the processor's order, or 16
   bytes of one of IPv6. */
struct bpfdb_tunnel {
	unsigned int key;		/* 0: enum bpfdb_tunnel_key */
	unsigned int is_ipv6;		/* 4 */
	unsigned int id;		/* 8 */
	unsigned int label;		/* 12: of IPv6 */
	unsigned char tos;		/* 16 */
	unsigned char ttl;		/* 17 */
	unsigned short flags;		/* 18: as Linux has them, in the network's order */
	unsigned int options_length;	/* 20: of the bytes in options */
	unsigned int source[4];		/* 24 */
	unsigned int target[4];		/* 40 */
	unsigned char options[BPFDB_TUNNEL_OPTIONS]; /* 56 */
};

enum bpfdb_tunnel_key {
	BPFDB_NO_KEY = 0,
	BPFDB_KEY_CAME = 1,		/* with the packet */
	BPFDB_KEY_SET = 2,		/* by bpf_skb_set_tunnel_key */
};

/* What is asked of interfaces, sockets and tunnels. It begins at the first byte of a map of its own, which a program has
   that reaches a helper of them. */
struct bpfdb_network {
	unsigned int mtu;		/* 0: of each interface */
	unsigned int header;		/* 4: where in a packet of tc its network header begins */
	unsigned int is_encapsulated;	/* 8: bpf_skb_adjust_room made it so */
	unsigned int checksum;		/* 12: 0: not checked, else how many are known to be right */
	unsigned long long netns_cookie;	/* 16 */
	unsigned long long socket_cookie;	/* 24: 0 where there is no socket */
	unsigned long long assigned;	/* 32: the address of the socket that bpf_sk_assign chose */
	unsigned int options;		/* 40: the first of those that bpf_setsockopt set; the library's own */
	unsigned int unused;		/* 44 */
	struct bpfdb_tunnel tunnel;	/* 48 */
};

extern struct bpfdb_network bpfdb_network;

/* What went out: a map that begins with the struct, and then holds a record after the other, each at a multiple of 8
   bytes. */
struct bpfdb_output {
	unsigned long long mark;	/* BPFDB_MARK once there is a record */
	unsigned int used;		/* bytes from the map's first one to behind the last record */
	unsigned int lost;		/* records for which there was no room */
};

#define BPFDB_MARK 0x74756f6264667062ull /* "bpfdbout" */

struct bpfdb_record {
	unsigned int length;		/* bytes of data */
	unsigned int map;		/* the number of the map, 0 the first; BPFDB_NO_MAP */
	unsigned short kind;		/* enum bpfdb_record_kind */
	unsigned short state;		/* enum bpfdb_record_state */
	unsigned int index;		/* of a perf buffer: the processor, of a packet: the interface; else 0 */
	unsigned char data[];
};

#define BPFDB_NO_MAP 0xffffffffu

enum bpfdb_record_kind {
	BPFDB_TO_PERF = 1,		/* bpf_perf_event_output and its like */
	BPFDB_TO_RING = 2,		/* bpf_ringbuf_output, bpf_ringbuf_reserve */
	BPFDB_TO_TRACE = 3,		/* bpf_trace_printk: the text, without a NUL */
	BPFDB_TO_FILE = 4,		/* bpf_seq_printf, bpf_seq_write: what an iterator's file has */
	BPFDB_PACKET = 5,		/* bpf_clone_redirect: the packet's bytes */
	BPFDB_KEY_DOWN = 6,		/* bpf_rc_keydown: scancode (8 bytes), protocol, toggle (4 each) */
	BPFDB_KEY_AGAIN = 7,		/* bpf_rc_repeat: nothing */
	BPFDB_POINTER = 8,		/* bpf_rc_pointer_rel: to the right, down (4 bytes each) */
	BPFDB_SIGNAL = 9,		/* bpf_send_signal, bpf_send_signal_thread: its number (4 bytes) */
};

enum bpfdb_record_state {
	BPFDB_SENT = 0,
	BPFDB_RESERVED = 1,		/* neither submitted nor discarded yet */
	BPFDB_DISCARDED = 2,
};

#endif

/* A map as `bpfdb link --with` lays it out: where one of the objects that are linked in has the function
   `bpf_map_lookup_elem`, each map of the program is such a record, in the order of the maps in the object. They lie one
   behind the other in one map of the machine, and the program has the record's address where Linux has the map's. */
#ifndef BPFDB_MAP_H
#define BPFDB_MAP_H

struct bpfdb_map {
	unsigned int kind;		/* as Linux numbers kinds: enum bpfdb_kind */
	unsigned int key_size;		/* in bytes */
	unsigned int value_size;	/* in bytes */
	unsigned int max_entries;	/* 0 where the object leaves it to whoever loads it */
	unsigned long long room[6];	/* zero at first, and the library's own */
};

enum bpfdb_kind {
	BPFDB_HASH = 1,
	BPFDB_ARRAY = 2,
	BPFDB_PROG_ARRAY = 3,
	BPFDB_PERF_EVENT_ARRAY = 4,
	BPFDB_PERCPU_HASH = 5,
	BPFDB_PERCPU_ARRAY = 6,
	BPFDB_STACK_TRACE = 7,
	BPFDB_CGROUP_ARRAY = 8,
	BPFDB_LRU_HASH = 9,
	BPFDB_LRU_PERCPU_HASH = 10,
	BPFDB_LPM_TRIE = 11,
	BPFDB_DEVMAP = 14,
	BPFDB_CPUMAP = 16,
	BPFDB_XSKMAP = 17,
	BPFDB_CGROUP_STORAGE = 19,
	BPFDB_PERCPU_CGROUP_STORAGE = 21,
	BPFDB_QUEUE = 22,
	BPFDB_STACK = 23,
	BPFDB_SK_STORAGE = 24,
	BPFDB_DEVMAP_HASH = 25,
	BPFDB_RINGBUF = 27,
	BPFDB_INODE_STORAGE = 28,
	BPFDB_TASK_STORAGE = 29,
	BPFDB_CGRP_STORAGE = 32,
};

#endif

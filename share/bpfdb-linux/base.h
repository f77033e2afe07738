/* Types, numbers of errors, and bytes: what all of the library stands on. */
typedef unsigned char u8;
typedef unsigned short u16;
typedef unsigned int u32;
typedef unsigned long long u64;
typedef int s32;
typedef long long s64;
/* Bytes of whatever kind, eight and four at a time. */
typedef u64 __attribute__((may_alias)) any64;
typedef u32 __attribute__((may_alias)) any32;

#define NULL ((void *)0)
/* A helper: the linker finds it by its name. A part of the library has one alone: the others are inline there, and of
   those that nothing calls no code is made (C11, 6.7.4). */
#ifdef BPFDB_PART
#define HELPER inline
#pragma clang diagnostic ignored "-Wstatic-in-inline"
#else
#define HELPER __attribute__((noinline, used))
#endif
/* Helpers share their data: these stand in the part of bpf_map_lookup_elem, which is joined behind the other parts. */
#if !defined BPFDB_PART || defined BPFDB_SHARED
#define HAS_DATA 1
#else
#define HAS_DATA 0
#endif
#define INLINE static inline __attribute__((always_inline))
/* What several helpers call, so that it stands once: they take two frames. */
#define SHARED static __attribute__((noinline))
/* The one section of what isn't zero at first. */
#define WORLD __attribute__((section(".data.world")))
#define UNUSED __attribute__((unused))

enum {
	EPERM = 1,
	ENOENT = 2,
	E2BIG = 7,
	EAGAIN = 11,
	ENOMEM = 12,
	EACCES = 13,
	EFAULT = 14,
	EEXIST = 17,
	ENODEV = 19,
	EINVAL = 22,
	ENOSPC = 28,
	ERANGE = 34,
	EPROTO = 71,
	EOVERFLOW = 75,
	EOPNOTSUPP = 95,
	EAFNOSUPPORT = 97,
	EALREADY = 114,
	/* (the kernel's own, which system calls don't give) */
	ENOTSUPP = 524,
};

/* Flags of an update: any, only a new key, only one that is there. */
enum { ANY = 0, NOEXIST = 1, EXIST = 2 };

/* Where the regions of the machine's memory lie (docs/MACHINE.md). */
#define CONTEXT 0x100000000ull
#define FRAMES 0x200000000ull
#define MAPS 0x300000000ull
enum { FRAME_STRIDE = 1024, FRAME_SIZE = 512, MOST_FRAMES = 8, MAP_STRIDE = 0x100000, MOST_MAPS = 16, MAP_SIZE = 65536 };

/* The most bytes that a context has. */
enum { MOST_CONTEXT = 65536 };

#if HAS_DATA
struct bpfdb_world bpfdb_world WORLD = {
	.time = 1000000000ull,
	.time_step = 1000,
	.pid = 1234,
	.tgid = 1234,
	.comm = "bpfdb",
	.cgroup = 1,
	.random = 88172645463325252ull,
	.under_cgroup = 1,
};

u64 bpfdb_context_len WORLD = MOST_CONTEXT;
#endif

/* Loops over bytes must stay loops: clang would make them calls of memcpy and memset, and so a frame more. */
#define STAY_A_LOOP() asm volatile("" ::: "memory")

INLINE u64 rounded(u64 size)
{
	return (size + 7) & ~7ull;
}

INLINE void copy(void *to, const void *from, u64 size)
{
	u8 *t = to;
	const u8 *f = from;

	for (; size >= 8; size -= 8, t += 8, f += 8) {
		*(any64 *)t = *(const any64 *)f;
		STAY_A_LOOP();
	}
	for (; size > 0; size--, t++, f++) {
		*t = *f;
		STAY_A_LOOP();
	}
}

INLINE void clear(void *to, u64 size)
{
	u8 *t = to;

	for (; size >= 8; size -= 8, t += 8) {
		*(any64 *)t = 0;
		STAY_A_LOOP();
	}
	for (; size > 0; size--, t++) {
		*t = 0;
		STAY_A_LOOP();
	}
}

/* A copy where the places may overlap. */
INLINE void shift(void *to, const void *from, u64 size)
{
	u8 *t = to;
	const u8 *f = from;

	if ((u64)t - (u64)f >= size) {
		copy(to, from, size);
		return;
	}
	while (size > 0) {
		size--;
		t[size] = f[size];
		STAY_A_LOOP();
	}
}

INLINE int is_equal(const void *one, const void *other, u32 size)
{
	const u8 *a = one, *b = other;

	for (; size >= 8; size -= 8, a += 8, b += 8)
		if (*(const any64 *)a != *(const any64 *)b)
			return 0;
	if (size >= 4) {
		if (*(const any32 *)a != *(const any32 *)b)
			return 0;
		size -= 4, a += 4, b += 4;
	}
	for (; size > 0; size--, a++, b++)
		if (*a != *b)
			return 0;
	return 1;
}

/* How many bytes the machine lets a helper read from an address on: of the context, of the frames up to its own, and of
   maps, of which each is taken for one of 65,536 bytes. (One that ends before is a fault of the machine's, behind its
   end.) */
INLINE u64 readable_from(u64 address)
{
	u64 within, size, own;

	if (address < CONTEXT || address >= MAPS + (u64)MOST_MAPS * MAP_STRIDE)
		return 0;
	if (address < FRAMES) {
		within = address - CONTEXT;
		size = bpfdb_context_len;
	} else if (address < MAPS) {
		asm("%0 = r10" : "=r"(own));
		within = (address - FRAMES) % FRAME_STRIDE;
		size = address < own ? FRAME_SIZE : 0;
	} else {
		within = (address - MAPS) % MAP_STRIDE;
		size = MAP_SIZE;
	}
	return within < size ? size - within : 0;
}

/* The heap: three maps of the machine, from which pieces are taken and never given back. (A map keeps what it no longer
   needs for itself.) A piece is known by the low half of its address, as all lie in maps; 0 is none. (What has a value
   has its section where it stands, so the machine's maps keep their order whichever helper comes first.) */
#if HAS_DATA
u8 bpfdb_heap0[MAP_SIZE] __attribute__((section(".bss.heap0"), aligned(8))) = {};
u8 bpfdb_heap1[MAP_SIZE] __attribute__((section(".bss.heap1"), aligned(8))) = {};
u8 bpfdb_heap2[MAP_SIZE] __attribute__((section(".bss.heap2"), aligned(8))) = {};

/* How much of each is taken. (The first bytes of the first might have the number 0.) */
u32 bpfdb_heap_used[3] WORLD = { 8, 0, 0 };
#else
extern u8 bpfdb_heap0[MAP_SIZE], bpfdb_heap1[MAP_SIZE], bpfdb_heap2[MAP_SIZE];
extern u32 bpfdb_heap_used[3];
#endif

INLINE void *at(u32 piece)
{
	return (void *)(MAPS | piece);
}

INLINE u32 piece_of(const void *place)
{
	return (u32)(u64)place;
}

/* A piece of so many bytes, all zero; none where no map has room for it. */
INLINE u32 take(u64 size)
{
	u32 *used = bpfdb_heap_used;
	u8 *place;

	size = rounded(size);
	if (used[0] + size <= MAP_SIZE)
		place = bpfdb_heap0 + used[0], used[0] += size;
	else if (used[1] + size <= MAP_SIZE)
		place = bpfdb_heap1 + used[1], used[1] += size;
	else if (used[2] + size <= MAP_SIZE)
		place = bpfdb_heap2 + used[2], used[2] += size;
	else {
		bpfdb_world.no_room++;
		return 0;
	}
	return piece_of(place);
}

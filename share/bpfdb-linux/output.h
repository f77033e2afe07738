/* The output: records that went out, one behind the other, as bpfdb-linux.h lays them out. */
struct output {
	struct bpfdb_output head;
	u8 records[MAP_SIZE - sizeof(struct bpfdb_output)];
};

#if HAS_DATA
struct output bpfdb_output __attribute__((section(".bss.output"), aligned(8))) = {};
#else
extern struct output bpfdb_output;
#endif

/* What the records of a program's maps are numbered by: they are in one map of the machine. */
INLINE u32 number_of(const struct map *m)
{
	return (u64)m % MAP_STRIDE / sizeof(struct map);
}

/* A new record with room for so many bytes of data, all zero; NULL where there is no room, which is counted. */
INLINE struct bpfdb_record *new_record(u32 map, u16 kind, u64 length)
{
	struct bpfdb_output *head = &bpfdb_output.head;
	struct bpfdb_record *record;

	if (!head->used) {
		head->mark = BPFDB_MARK;
		head->used = sizeof(struct bpfdb_output);
	}
	if (length > MAP_SIZE || head->used + sizeof(struct bpfdb_record) + rounded(length) > MAP_SIZE) {
		head->lost++;
		bpfdb_world.no_room++;
		return NULL;
	}
	record = (void *)((u8 *)&bpfdb_output + head->used);
	head->used += sizeof(struct bpfdb_record) + rounded(length);
	record->length = length;
	record->map = map;
	record->kind = kind;
	return record;
}

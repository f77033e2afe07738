/* Where values come from, by docs/COMMANDS.md alone: on which moves, and on what was there at the opening, the value at each place depends.
   It goes forwards beside the second machine, which `bpfdb origin` doesn't: its answers begin at the end. */
enum {
    MOST_MOVES = 512, MOST_CONTEXT = 256, MOST_CELLS = 2048,
    /* places: r0 to r9 of the function at each depth, traced words, bytes of the context, of the frames and of the maps */
    FIRST_WORD = 80, FIRST_BYTE = FIRST_WORD + 256, FIRST_FRAME = FIRST_BYTE + MOST_CONTEXT, FIRST_CELL = FIRST_FRAME + 8 * 512,
    MOST_PLACES = FIRST_CELL + MOST_CELLS,
    MOST_PARTS = 1024,
};

/* Sets of moves and of places. */
struct origins {
    u64 moves[MOST_MOVES / 64], left[(MOST_PLACES + 63) / 64];
};

static struct origins origins_of[MOST_PLACES];

/* The places that a step reads and those that it writes. */
struct places {
    int count, place[MOST_PARTS];
};

static int has(const u64 *set, int i) { return set[i / 64] >> i % 64 & 1; }
static void take_in(u64 *set, int i) { set[i / 64] |= (u64)1 << i % 64; }

static void join(struct origins *all, const struct origins *some) {
    u64 i;
    for (i = 0; i < sizeof some->moves / 8; i++)
        all->moves[i] |= some->moves[i];
    for (i = 0; i < sizeof some->left / 8; i++)
        all->left[i] |= some->left[i];
}

static void put_place_in(struct places *some, int place) {
    if (some->count < MOST_PARTS)
        some->place[some->count++] = place;
}

/* A register of the function that runs: r6 to r9 are its own, and r10 is no place. */
static int register_place(const struct machine *m, int number) { return number < 6 ? number : 10 * (int)m->depth + number; }

static void put_register(const struct machine *m, struct places *some, int number) {
    if (number < 10)
        put_place_in(some, register_place(m, number));
}

/* The place of the byte at an address, -1 where there is none. */
static int byte_place(const struct machine *m, u64 address) {
    u64 i, size, at = FIRST_CELL;
    if (address - 0x100000000 < m->context_length)
        return FIRST_BYTE + (int)(address - 0x100000000);
    for (i = 0; i < 8; i++)
        if (address - 0x200000000 - 1024 * i < 512)
            return FIRST_FRAME + 512 * (int)i + (int)(address - 0x200000000 - 1024 * i);
    for (i = 0; i < (u64)m->map_count; i++, at += size) {
        size = m->maps[i].value * m->maps[i].entries;
        if (address - 0x300000000 - 0x100000 * i < size)
            return (int)(at + (address - 0x300000000 - 0x100000 * i));
    }
    return -1;
}

static void put_bytes(const struct machine *m, struct places *some, u64 address, u64 count) {
    u64 i;
    for (i = 0; i < count; i++)
        if (byte_place(m, address + i) >= 0)
            put_place_in(some, byte_place(m, address + i));
}

/* Whether all places of a machine have a number. */
static int fits_origins(const struct machine *m) {
    u64 size = 0;
    int i;
    for (i = 0; i < m->map_count; i++)
        size += m->maps[i].value * m->maps[i].entries;
    return m->context_length <= MOST_CONTEXT && size <= MOST_CELLS;
}

/* At the opening each place depends on itself. */
static void open_origins(void) {
    int i;
    memset(origins_of, 0, sizeof origins_of);
    for (i = 0; i < MOST_PLACES; i++)
        take_in(origins_of[i].left, i);
}

/* The registers that make the address of an access, or of what a helper is given. */
static void put_bases(const struct machine *m, struct places *some) {
    const u8 *p = m->program;
    int opcode = opcode_at(p, m->pc), class = opcode & 7;
    if (class == 1)
        put_register(m, some, src_at(p, m->pc));
    else if (class == 2 || class == 3)
        put_register(m, some, dst_at(p, m->pc));
    else if (opcode == 0x85 && src_at(p, m->pc) == 0 && imm_at(p, m->pc) != 64) {
        put_register(m, some, 2);
        if (imm_at(p, m->pc) == 2)
            put_register(m, some, 3);
    }
}

/* What a step by arithmetic or a wide load reads and writes. */
static void look_at_arithmetic(const struct machine *m, struct places *reads, struct places *writes) {
    const u8 *p = m->program;
    int opcode = opcode_at(p, m->pc), kind = opcode >> 4, dst = dst_at(p, m->pc);
    if ((opcode & 7) != 0) {
        if (kind != 11)
            put_register(m, reads, dst);
        if (kind != 8 && kind != 13 && opcode & 8)
            put_register(m, reads, src_at(p, m->pc));
    }
    put_register(m, writes, dst);
}

static void look_at_memory(struct machine *m, struct places *reads, struct places *writes) {
    const u8 *p = m->program;
    int opcode = opcode_at(p, m->pc), class = opcode & 7, dst = dst_at(p, m->pc), src = src_at(p, m->pc), imm = imm_at(p, m->pc);
    int width = (opcode & 0x18) == 0 ? 4 : (opcode & 0x18) == 8 ? 2 : (opcode & 0x18) == 0x10 ? 1 : 8, is_atomic = opcode == 0xc3 || opcode == 0xdb;
    u64 address = m->r[class == 1 ? src : dst] + (u64)(i64)off_at(p, m->pc);
    u8 *at = reach(m, address, width);
    if (!at)
        return;
    if (class == 1) {
        put_bytes(m, reads, address, width);
        put_register(m, writes, dst);
        return;
    }
    if (class == 3)
        put_register(m, reads, src);
    if (is_atomic) {
        put_bytes(m, reads, address, width);
        if (imm == 0xf1)
            put_register(m, reads, 0);
        if (imm & 1)
            put_register(m, writes, imm == 0xf1 ? 0 : src);
        if (imm == 0xf1 && load(at, width) != (width == 8 ? m->r[0] : (u32)m->r[0]))
            return;
    }
    put_bytes(m, writes, address, width);
}

/* A helper's call, which ended in no fault, seen from behind: whether an update wrote its cell says r0. */
static void look_at_helper(struct machine *before, const struct machine *after, struct places *reads, struct places *writes) {
    int which = imm_at(before->program, before->pc);
    u64 map = before->r[1] - 0x400000000;
    put_register(before, reads, 1);
    put_register(before, writes, 0);
    if (which == 64) {
        if (after->traced > before->traced)
            put_place_in(writes, FIRST_WORD + before->traced);
        return;
    }
    put_bytes(before, reads, before->r[2], 4);
    if (which == 1)
        return;
    put_register(before, reads, 4);
    if (after->r[0] == 0) {
        u64 index = load(reach(before, before->r[2], 4), 4), size = before->maps[map].value;
        put_bytes(before, reads, before->r[3], size);
        put_bytes(before, writes, 0x300000000 + 0x100000 * map + index * size, size);
    }
}

/* A step, with what it does to origins: the move of this number. The state before it is `before`, which is written anew. */
static void step_origins(struct machine *m, struct machine *before, int number, int with_addresses) {
    static struct places reads, writes;
    static struct origins sum;
    int opcode = opcode_at(m->program, m->pc), class = opcode & 7, src = src_at(m->program, m->pc), i;
    int is_call = opcode == 0x85 && src == 1, is_helper = opcode == 0x85 && src == 0;
    reads.count = writes.count = 0;
    memcpy(before, m, sizeof *m);
    if (class == 0 || class == 4 || class == 7)
        look_at_arithmetic(m, &reads, &writes);
    else if (class < 4)
        look_at_memory(m, &reads, &writes);
    if (with_addresses)
        put_bases(m, &reads);
    step(m);
    if (m->ended)
        return;
    if (is_helper)
        look_at_helper(before, m, &reads, &writes);
    if (is_call) {
        put_bytes(m, &writes, 0x200000000 + 1024 * m->depth, 512);
        for (i = 6; i < 10; i++)
            memcpy(&origins_of[10 * m->depth + i], &origins_of[10 * before->depth + i], sizeof *origins_of);
    }
    memset(&sum, 0, sizeof sum);
    take_in(sum.moves, number);
    for (i = 0; i < reads.count; i++)
        join(&sum, &origins_of[reads.place[i]]);
    for (i = 0; i < writes.count; i++)
        memcpy(&origins_of[writes.place[i]], &sum, sizeof sum);
}

/* An edit is a move, too, of which the places that it writes come. */
static void edit_origins(const struct places *writes, int number) {
    int i;
    for (i = 0; i < writes->count; i++) {
        memset(&origins_of[writes->place[i]], 0, sizeof *origins_of);
        take_in(origins_of[writes->place[i]].moves, number);
    }
}

/* What is asked about where nothing is named: at a failed access the registers of its address, else r0. */
static void put_asked(const struct machine *m, struct places *some) {
    if (m->ended == 2)
        put_bases(m, some);
    else
        put_register(m, some, 0);
}

/* The place that a line of what is left names, of bytes the first one; -1 where it names none. */
static int place_named(const struct machine *m, const char *text) {
    u64 n = 0;
    int digit;
    if (text[0] == 'r' && text[1] >= '0' && text[1] <= '9' && text[2] == ' ' && text[3] == '=')
        return text[1] - '0';
    if (strncmp(text, "0x", 2))
        return -1;
    for (text += 2; (digit = strchr("0123456789abcdef", *text) && *text ? *text <= '9' ? *text - '0' : *text - 'a' + 10 : -1) >= 0; text++)
        n = n << 4 | (u64)digit;
    return *text == ':' ? byte_place(m, n) : -1;
}

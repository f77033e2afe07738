/* Random programs, listings, contexts, lists of maps, scripts and command lines through the built program. Each trial is made of its seed
   alone. What runs, refusals, sessions and answers of origin come to is held against the second machine; where there is no such answer, a status of 0, 1 or 2,
   one line on standard error, and what has to come back does. Words: the program to try, the number of this process and how many there
   are, the first seed and the last one, and after how many seconds no further trial begins. What fails is told with its seed and its command line. */
#include "trial.h"
#include "model.h"
#include "origins.h"

static struct outcome left;
static struct machine machine;
static u8 bytes[PROGRAM_ROOM + 64];
static char line[200], maps_word[400], wanted[TEXT_ROOM], script[TEXT_ROOM];
static u64 seed, failures, state;
static int is_steady; /* whether a program's accesses are mostly of a few bytes below r10 */

/* Numbers without a pattern (splitmix64). */
static u64 any(void) {
    u64 z = state += 0x9e3779b97f4a7c15;
    z = (z ^ z >> 30) * 0xbf58476d1ce4e5b9;
    z = (z ^ z >> 27) * 0x94d049bb133111eb;
    return z ^ z >> 31;
}
static u64 below(u64 n) { return any() % n; }
static int chance(int percent) { return below(100) < (u64)percent; }

static u64 odd_number(void) {
    static const u64 odd[] = { 0, 1, 2, 7, 8, 31, 32, 63, 64, 127, 128, 255, 256, 511, 512, 1023, 1024, 32767, 32768, 65535, 65536, 0x7fffffff,
        0x80000000, 0xffffffff, 0x100000000, 0x100000008, 0x200000000, 0x2000001f8, 0x200000200, 0x200000400, 0x300000000, 0x300100000,
        0x400000000, 0x400000001, 0x7fffffffffffffff, 0x8000000000000000, 0xfffffffffffffff8, 0xffffffffffffffff };
    u64 n = odd[below(sizeof odd / sizeof *odd)];
    return chance(20) ? any() : chance(20) ? n + below(17) - 8 : n;
}

/* Tells of a failure. */
static int fails(const char *why) {
    int i;
    failures++;
    printf("FAILED: seed %lu: %s:", seed, why);
    for (i = 1; i < word_count; i++)
        printf(" '%s'", words[i]);
    printf("\n  status %d; output %.200s; errors %.200s\n", left.status, left.output, left.errors);
    fflush(0);
    return 0;
}

static int lines_of(const char *text) {
    int n = 0;
    for (; *text; text++)
        n += *text == '\n';
    return n;
}

/* Runs the command line; whether its status, its output and standard error go together. */
static int sound(void) {
    run_words(&left);
    if (left.status > 2)
        return fails("no status");
    if (left.status == 0 && left.error_length)
        return fails("words on standard error");
    if (left.status == 2 && left.length)
        return fails("output with a refusal");
    if (left.status == 1 && strcmp(words[1], "run") && strcmp(words[1], "origin"))
        return fails("status 1 is for run and origin alone");
    if (left.status && !left.length && strncmp(left.errors, "error: ", 7) && (lines_of(left.errors) != 1 || left.errors[left.error_length - 1] != '\n'))
        return fails("more or less than a line on standard error");
    return 1;
}

/* Runs it, and holds it against a status and a text, of the output where the status is 0 and else of standard error. */
static int gives(int status, const char *text) {
    if (!sound())
        return 0;
    if (left.status != status || strcmp(status ? left.errors : left.output, text))
        return printf("  wanted status %d: %.300s\n", status, text), fails("another answer");
    return 1;
}

/* The command line of a subcommand over the file `program` and what else the trial has. */
static void words_for(char *subcommand, int with_context) {
    first_word(words[0], subcommand);
    if (machine.map_count) {
        add_word("--maps");
        add_word(maps_word);
    }
    if (with_context && machine.context_length) {
        add_word("-m");
        add_word("context");
    }
}

/* Random maps and a random context. */
static void make_surroundings(void) {
    int i, at = 0;
    machine.map_count = chance(50) ? 0 : 1 + below(chance(90) ? 3 : 16);
    for (i = 0; i < machine.map_count; i++) {
        machine.maps[i].value = chance(40) ? 8 : 1 + below(256);
        machine.maps[i].entries = 1 + below(chance(80) ? 4 : 65536 / machine.maps[i].value);
        if (machine.maps[i].entries > 4096)
            machine.maps[i].entries = 4096;
        at += snprintf(maps_word + at, sizeof maps_word - at, "%s%ux%u", i ? "," : "", machine.maps[i].value, machine.maps[i].entries);
    }
    machine.context_length = chance(40) ? 0 : chance(95) ? 1 + below(64) : 65536 - below(8);
    for (i = 0; i < (int)machine.context_length; i++)
        machine.context[i] = any();
    put_file("context", machine.context, machine.context_length);
}

static void put_word(u64 slot, int opcode, int dst, int src, int off, u32 imm) {
    u8 word[8] = { opcode, dst | src << 4, off, off >> 8, imm, imm >> 8, imm >> 16, imm >> 24 };
    memcpy(bytes + 8 * slot, word, 8);
}

/* One instruction at a slot, of the first so many of these kinds; a jump goes to `target`. Returns its slots. */
static int make_insn(u64 slot, i64 target, int kinds) {
    static const u8 sizes[] = { 0x00, 0x08, 0x10, 0x18 };
    static const u8 atomics[] = { 0, 1, 0x40, 0x41, 0x50, 0x51, 0xa0, 0xa1, 0xe1, 0xf1 };
    static const u8 steady_kinds[] = { 0, 3, 3, 4, 6, 6, 6, 7, 7, 7, 8, 8, 10, 10, 10, 11 };
    int dst = below(10), src = below(11), kind, off = is_steady ? -(int)(8 + below(16)) : chance(70) ? -(int)(8 + below(40)) : (int)odd_number();
    u32 imm = odd_number();
    switch (is_steady ? steady_kinds[below(16)] : below(kinds)) {
    case 0: case 1: case 2: /* arithmetic */
        kind = below(13);
        if (kind == 8)
            put_word(slot, chance(50) ? 0x87 : 0x84, dst, 0, 0, 0);
        else if (chance(50))
            put_word(slot, (chance(50) ? 7 : 4) | kind << 4, dst, 0, (kind == 3 || kind == 9) && chance(50), imm);
        else if (kind == 11 && chance(50))
            put_word(slot, chance(50) ? 0xbf : 0xbc, dst, src, 8 << below(2), 0);
        else
            put_word(slot, (chance(50) ? 15 : 12) | kind << 4, dst, src, (kind == 3 || kind == 9) && chance(50), 0);
        return 1;
    case 3: /* byte swaps, and small numbers */
        if (chance(50))
            put_word(slot, chance(33) ? 0xd4 : chance(50) ? 0xdc : 0xd7, dst, 0, 0, 16 << below(3));
        else
            put_word(slot, 0xb7, dst, 0, 0, below(17));
        return 1;
    case 4: case 5: /* a jump */
        if (chance(20)) {
            put_word(slot, 5, 0, 0, target - (i64)slot - 1, 0);
        } else {
            static const u8 kinds[] = { 1, 2, 3, 4, 5, 6, 7, 10, 11, 12, 13 };
            kind = kinds[below(11)] << 4 | (chance(50) ? 5 : 6);
            if (chance(50))
                put_word(slot, kind, below(11), 0, target - (i64)slot - 1, imm);
            else
                put_word(slot, kind | 8, below(11), src, target - (i64)slot - 1, 0);
        }
        return 1;
    case 6: /* a load */
        kind = sizes[below(4)];
        put_word(slot, kind != 0x18 && chance(30) ? 0x81 | kind : 0x61 | kind, dst, is_steady || chance(60) ? 10 : src, off, 0);
        return 1;
    case 7: /* a store */
        if (chance(50))
            put_word(slot, 0x62 | sizes[below(4)], is_steady || chance(60) ? 10 : dst, 0, off, imm);
        else
            put_word(slot, 0x63 | sizes[below(4)], is_steady || chance(60) ? 10 : dst, src, off, 0);
        return 1;
    case 8: /* an atomic operation */
        put_word(slot, chance(50) ? 0xdb : 0xc3, is_steady || chance(60) ? 10 : dst, below(10), off, atomics[below(10)]);
        return 1;
    case 9: /* a wide load */
        kind = machine.map_count ? below(3) : 0;
        put_word(slot, 0x18, dst, kind == 0 ? 0 : 4 + kind, 0, kind ? below(machine.map_count) : (u32)any());
        put_word(slot + 1, 0, 0, 0, 0, kind == 0 ? odd_number() : kind == 1 ? 0 : below(machine.maps[imm_at(bytes, slot)].value));
        return 2;
    case 10: /* a call */
        if (chance(50))
            put_word(slot, 0x85, 0, 1, 0, target - (i64)slot - 1);
        else
            put_word(slot, 0x85, 0, 0, 0, is_steady || chance(30) ? 64 : 1 + below(2));
        return 1;
    default:
        put_word(slot, chance(50) ? 0x95 : 0xbf, 0, 0, 0, 0);
        return 1;
    }
}

/* What a helper is called with, in front of its call. */
static u64 make_arguments(u64 slot) {
    put_word(slot, 0x18, 1, 5, 0, below(machine.map_count));
    put_word(slot + 1, 0, 0, 0, 0, 0);
    put_word(slot + 2, 0xbf, 2, 10, 0, 0);
    put_word(slot + 3, 0x07, 2, 0, 0, -(int)(4 + below(10)));
    put_word(slot + 4, 0xbf, 3, 10, 0, 0);
    put_word(slot + 5, 0x07, 3, 0, 0, -(int)(1 + below(300)));
    put_word(slot + 6, 0xb7, 4, 0, 0, below(4));
    put_word(slot + 7, 0x85, 0, 0, 0, 1 + below(2));
    return slot + 8;
}

/* A random program, its length in bytes. */
static u64 make_program(void) {
    u64 starts[600], count = 1 + below(chance(90) ? 30 : 400), n = 0, slot = 0, i;
    int is_sum = !is_steady && chance(50); /* of arithmetic and jumps alone, on numbers at edges */
    for (i = 0; is_sum && i < 10; i++, slot += 2) {
        starts[n++] = slot;
        put_word(slot, 0x18, i, 0, 0, odd_number());
        put_word(slot + 1, 0, 0, 0, 0, chance(50) ? 0 : chance(50) ? 0xffffffff : odd_number());
    }
    for (i = 0; i < count; i++) {
        starts[n++] = slot;
        if (machine.map_count && !is_sum && chance(10))
            slot = make_arguments(slot);
        else
            slot += make_insn(slot, slot, is_sum ? 6 : 12);
    }
    starts[n++] = slot;
    put_word(slot++, 0x95, 0, 0, 0, 0);
    for (i = 0; i < n; i++) {
        i64 distance;
        u64 at = starts[i], target = starts[chance(70) ? i + below(n - i) : below(n)];
        if (opcode_at(bytes, at) != 0x18 && unused(bytes, at) >= 0 && jumps(bytes, at, &distance)) {
            if (opcode_at(bytes, at) == 0x85 || opcode_at(bytes, at) == 6)
                put_word(at, opcode_at(bytes, at), 0, src_at(bytes, at), 0, target - at - 1);
            else
                put_word(at, opcode_at(bytes, at), dst_at(bytes, at), src_at(bytes, at), target - at - 1, imm_at(bytes, at));
        }
    }
    return 8 * slot;
}

/* Changes bytes by chance: of a program, a listing, a script. Returns the new length. */
static u64 mutate(u8 *text, u64 length, u64 room) {
    int changes = 1 + below(4);
    while (changes-- > 0 && length > 0) {
        u64 at = below(length), some = 1 + below(length - at < 16 ? length - at : 16);
        switch (below(6)) {
        case 0: text[at] ^= 1 << below(8); break;
        case 1: text[at] = any(); break;
        case 2: text[at] = " ,:;[]+-0xr\n\t\r"[below(14)]; break;
        case 3: /* bytes are left out */
            memmove(text + at, text + at + some, length - at - some);
            length -= some;
            break;
        case 4: /* and doubled */
            if (length + some < room) {
                memmove(text + at + some, text + at, length - at);
                length += some;
            }
            break;
        default: /* slots or lines change places */
            if (length >= 16) {
                u8 kept[8];
                u64 from = below(length / 8) * 8, to = below(length / 8) * 8;
                memcpy(kept, text + from, 8);
                memcpy(text + from, text + to, 8);
                memcpy(text + to, kept, 8);
            }
        }
    }
    return length;
}

/* Writes the program, and judges it. */
static int judged(u64 length) {
    machine.program = bytes;
    machine.length = length;
    put_file("program", bytes, length);
    return judge(&machine, line, sizeof line);
}

/* What shows a machine: the commands, or the replies of the second machine behind the text so far. */
static char show_commands[4000];
static void make_show(void) {
    int at = snprintf(show_commands, sizeof show_commands, "info regs\ninfo frames\ninfo trace\n"), i;
    if (machine.context_length)
        at += snprintf(show_commands + at, sizeof show_commands - at, "x 0x100000000 %lu\n", machine.context_length < 256 ? machine.context_length : 256);
    for (i = 0; i < 8; i++)
        at += snprintf(show_commands + at, sizeof show_commands - at, "x 0x%lx 256\nx 0x%lx 256\n", 0x200000000 + 1024 * (u64)i, 0x200000100 + 1024 * (u64)i);
    for (i = 0; i < machine.map_count; i++) {
        u64 size = machine.maps[i].value * machine.maps[i].entries;
        at += snprintf(show_commands + at, sizeof show_commands - at, "x 0x%lx %lu\n", 0x300000000 + 0x100000 * (u64)i, size < 256 ? size : 256);
    }
}

static u64 put_run(u64 at, u64 address, const u8 *from, u64 count) {
    u64 i;
    at += snprintf(wanted + at, TEXT_ROOM - at, "0x%lx: ", address);
    for (i = 0; i < count; i++)
        at += snprintf(wanted + at, TEXT_ROOM - at, "%02x", from[i]);
    wanted[at++] = '\n';
    return at;
}

/* The text of the instruction at pc ends a place of a machine that runs; it is taken from the program's own answer. */
static u64 put_place(u64 at, const char **found) {
    const char *end;
    at += place(&machine, wanted + at, TEXT_ROOM - at);
    if (machine.ended)
        return at;
    wanted[at] = 0;
    if (strlen(*found) < at || !(end = strchr(*found + at, '\n')))
        return at;
    memcpy(wanted + at, *found + at, end + 1 - *found - at);
    return end + 1 - *found;
}

static u64 put_show(u64 at, const char *found) {
    u64 i;
    for (i = 0; i < 11; i++)
        at += snprintf(wanted + at, TEXT_ROOM - at, "%sr%lu=0x%lx", i ? " " : "", i, machine.r[i]);
    wanted[at++] = '\n';
    at = put_place(at, &found);
    at += snprintf(wanted + at, TEXT_ROOM - at, "depth %lu\n", machine.depth);
    for (i = machine.depth; i-- > 0;)
        at += snprintf(wanted + at, TEXT_ROOM - at, "returns to %lu r6=0x%lx r7=0x%lx r8=0x%lx r9=0x%lx\n", machine.returns[i],
            machine.saved[i][0], machine.saved[i][1], machine.saved[i][2], machine.saved[i][3]);
    at += snprintf(wanted + at, TEXT_ROOM - at, "trace %d", machine.traced);
    for (i = 0; i < (u64)machine.traced; i++)
        at += snprintf(wanted + at, TEXT_ROOM - at, " 0x%lx", machine.trace[i]);
    wanted[at++] = '\n';
    if (machine.context_length)
        at = put_run(at, 0x100000000, machine.context, machine.context_length < 256 ? machine.context_length : 256);
    for (i = 0; i < 8; i++) {
        at = put_run(at, 0x200000000 + 1024 * i, machine.frames[i], 256);
        at = put_run(at, 0x200000100 + 1024 * i, machine.frames[i] + 256, 256);
    }
    for (i = 0; i < (u64)machine.map_count; i++) {
        u64 size = machine.maps[i].value * machine.maps[i].entries;
        at = put_run(at, 0x300000000 + 0x100000 * i, machine.cells[i], size < 256 ? size : 256);
    }
    return at;
}

/* Reloads the context, which runs change. */
static void reopen(void) {
    get_file("context", (char *)machine.context, CONTEXT_ROOM);
    open_machine(&machine);
}

/* A run, and a session that goes to the end of the run, back, there again, back, and there by `redo`: both are those of the second machine. */
static int runs_alike(u64 limit) {
    static char steps[24];
    const char *found = left.output;
    u64 at, times;
    snprintf(steps, sizeof steps, "%lu", limit);
    reopen();
    while (!machine.ended && machine.steps < limit)
        step(&machine);
    words_for("run", 1);
    add_word("--steps");
    add_word(steps);
    add_word("program");
    at = machine.ended == 1 ? (u64)snprintf(wanted, 100, "0x%lx\n", machine.r[0]) : machine.ended ? (u64)place(&machine, wanted, 100)
        : (u64)snprintf(wanted, 100, "step limit %lu reached at %lu\n", limit, machine.pc);
    if (!gives(machine.ended == 1 ? 0 : 1, wanted))
        return 0;
    make_show();
    at = snprintf(script, TEXT_ROOM, "%scontinue\n%sundo\n%scontinue\n%sundo\n%sredo 1000000000\n%s", show_commands, show_commands, show_commands,
        show_commands, show_commands, show_commands);
    put_file("script", script, at);
    words_for("debug", 1);
    add_word("--journal=16777216");
    add_word("--steps");
    add_word(steps);
    add_word("program");
    if (!sound())
        return 0;
    at = 0;
    for (times = 0; times < 3; times++) {
        reopen();
        at = put_show(at, found);
        while (!machine.ended && machine.steps < limit)
            step(&machine);
        at += snprintf(wanted + at, 100, times == 2 ? "%lu redone; all; " : "%lu forward; %s; ", machine.steps, machine.ended ? "end" : "limit");
        at = put_place(at, &found);
        at = put_show(at, found);
        if (times < 2) {
            u64 steps_taken = machine.steps;
            reopen();
            at += snprintf(wanted + at, 100, "%lu back; done; ", steps_taken);
            at = put_place(at, &found);
        }
    }
    wanted[at] = 0;
    put_file("wanted", wanted, at);
    return left.length == at && !memcmp(left.output, wanted, at) ? 1 : fails("a session is not that of the second machine (see the file wanted)");
}

/* A number in hexadecimal digits, with 0x in front. */
static u64 number_at(const char *text) {
    u64 n = 0;
    for (text += 2; (*text >= '0' && *text <= '9') || (*text >= 'a' && *text <= 'f'); text++)
        n = n << 4 | (u64)(*text <= '9' ? *text - '0' : *text - 'a' + 10);
    return n;
}

/* What is asked of `origin`: nothing, a register, or bytes. The word for it, 0 for nothing; and its places at the end of the run. */
static char *make_question(struct places *asked) {
    static char what[60];
    int number = below(10);
    u64 i, address, count, room;
    asked->count = 0;
    if (chance(40)) {
        put_asked(&machine, asked);
        return 0;
    }
    if (chance(50)) {
        put_register(&machine, asked, number);
        snprintf(what, sizeof what, "r%d", number);
        return what;
    }
    i = machine.map_count ? below(machine.map_count) : 0;
    address = machine.context_length && chance(40) ? 0x100000000 : machine.map_count && chance(40) ? 0x300000000 + 0x100000 * i
        : 0x200000000 + 1024 * (u64)(chance(70) ? machine.depth : below(8));
    room = address == 0x100000000 ? machine.context_length : address >= 0x300000000 ? machine.maps[i].value * machine.maps[i].entries : 512;
    count = chance(30) ? 1 : 1 + below(chance(60) && room > 16 ? 16 : room < 256 ? room : 256);
    address += room < 512 ? below(room - count + 1) : chance(60) ? 512 - count : below(room - count + 1);
    put_bytes(&machine, asked, address, count);
    if (count == 1 && chance(50))
        snprintf(what, sizeof what, "%lu", address);
    else
        snprintf(what, sizeof what, chance(50) ? "0x%lx:%lu" : "0x%lx:0x%lx", address, count);
    return what;
}

/* Whether the lines of an answer are the moves and the places that the second machine found; of each place its value at the opening. */
static int tells(const struct origins *wanted_origins, u64 steps, const char *text) {
    u64 last = 0, moves = 0, left_places = 0, behind = 0, i, count, value;
    const char *said;
    int at;
    for (; *text; text = strchr(text, '\n') + 1) {
        if (*text == '-') {
            u64 back = (u64)atoi(text + 1);
            if (back <= last || back > steps || !has(wanted_origins->moves, (int)(steps - back)))
                return fails("origin tells a move that the value doesn't depend on");
            last = back;
            moves++;
        } else {
            at = strncmp(text, "left ", 5) ? -1 : place_named(&machine, text + 5);
            count = at < FIRST_BYTE ? 1 : (u64)(strchr(text, ':')[1] - '0');
            if (at < 0 || count < 1 || count > 8)
                return fails("origin leaves something else than a place");
            if (at >= FIRST_BYTE && number_at(text + 5) == behind)
                return fails("origin leaves bytes that follow one another on two lines");
            for (i = 0, value = 0; i < count; i++) {
                if (!has(wanted_origins->left, at + (int)i))
                    return fails("origin leaves a place that the value doesn't depend on");
                value |= (at == 1 && machine.context_length ? 0x100000000 : at == 2 ? machine.context_length
                    : at >= FIRST_BYTE && at < FIRST_FRAME ? machine.context[at - FIRST_BYTE + (int)i] : 0) << 8 * i;
            }
            if (number_at(strstr(text, " = ") + 3) != value)
                return fails("origin leaves a place with another value than at the opening");
            said = at >= FIRST_FRAME && at < FIRST_FRAME + 512 ? "; not written since the call\n" : "; at the opening\n";
            if (strncmp(strchr(text, '\n') + 1 - strlen(said), said, strlen(said)))
                return fails("origin tells otherwise since when a place that is left has its value");
            behind = at >= FIRST_BYTE && count < 8 ? number_at(text + 5) + count : 0;
            left_places += count;
        }
    }
    for (i = 0; i < MOST_MOVES; i++)
        moves -= has(wanted_origins->moves, (int)i);
    for (i = 0; i < MOST_PLACES; i++)
        left_places -= has(wanted_origins->left, (int)i);
    return moves || left_places ? fails("origin leaves out what the value depends on") : 1;
}

/* Where values came from at the end of a run: `origin` tells the moves and the places on which they depend. */
static int traces_back(u64 limit) {
    static struct machine before;
    static struct places asked;
    static struct origins all;
    static char steps[24];
    char *what, *end;
    int with_addresses = chance(50), i;
    u64 taken;
    if (!fits_origins(&machine))
        return 1;
    limit = limit < MOST_MOVES ? limit : MOST_MOVES;
    snprintf(steps, sizeof steps, "%lu", limit);
    reopen();
    open_origins();
    while (!machine.ended && machine.steps < limit)
        step_origins(&machine, &before, (int)machine.steps, with_addresses);
    taken = machine.steps;
    what = make_question(&asked);
    memset(&all, 0, sizeof all);
    for (i = 0; i < asked.count; i++)
        join(&all, &origins_of[asked.place[i]]);
    words_for("origin", 1);
    add_word("--steps");
    add_word(steps);
    if (with_addresses)
        add_word("--addresses");
    add_word("program");
    if (what)
        add_word(what);
    place(&machine, wanted, TEXT_ROOM);
    if (!sound())
        return 0;
    if (left.status)
        return strstr(left.output, "cut: ") ? 1 : fails("origin answers nothing");
    if (strncmp(left.output, wanted, strlen(wanted)) || !(end = strchr(left.output, '\n')))
        return fails("origin stands elsewhere than the second machine");
    reopen();
    return tells(&all, taken, end + 1);
}

/* The moves of a session, those that were taken back among them: which of them are edits, with the registers, bytes or slots that they wrote. */
struct move {
    enum { STEP, SET_REGISTER, SET_BYTES, SET_PC } kind;
    int is_marked, number, count;
    u64 address, value;
    u8 bytes[16];
};
static struct move tape[MOST_MOVES];
static int moves_made, moves_kept;

/* Makes a move again, and follows what it does to origins: by values, or by addresses too. */
enum { NOT_AT_ALL, BY_VALUES, BY_ADDRESSES };
static void replay(int number, int follows) {
    static struct machine before;
    static struct places writes;
    const struct move *move = &tape[number];
    writes.count = 0;
    switch (move->kind) {
    case STEP:
        if (follows == NOT_AT_ALL)
            step(&machine);
        else
            step_origins(&machine, &before, number, follows == BY_ADDRESSES);
        return;
    case SET_REGISTER:
        machine.r[move->number] = move->value;
        put_register(&machine, &writes, move->number);
        break;
    case SET_BYTES:
        memcpy(reach(&machine, move->address, move->count), move->bytes, move->count);
        put_bytes(&machine, &writes, move->address, move->count);
        break;
    case SET_PC:
        machine.pc = move->value;
        machine.ended = 0;
    }
    edit_origins(&writes, number);
}

/* Goes to the state behind so many of the moves. */
static void go_to(int moves, int follows) {
    int i;
    reopen();
    open_origins();
    for (i = 0; i < moves; i++)
        replay(i, follows);
    moves_made = moves;
}

/* A new move, which forgets those that were taken back. */
static void add_move(const struct move *move) {
    tape[moves_made] = *move;
    replay(moves_made, NOT_AT_ALL);
    moves_kept = ++moves_made;
}

/* The text of a random edit, which is made; 0 where there is none. */
static int edit(char *text, u64 room) {
    struct move move = { SET_REGISTER, 1, below(10), 1 + below(16), 0, odd_number(), { 0 } };
    u64 at, slot;
    int i;
    switch (below(5)) {
    case 0: case 1:
        at = snprintf(text, room, "set reg r%d %lu\n", move.number, move.value);
        break;
    case 2: case 3:
        move.kind = SET_BYTES;
        move.address = machine.context_length && chance(30) ? 0x100000000 + below(machine.context_length)
            : machine.map_count && chance(30) ? 0x300000000 + below(8) : 0x2000001f0 + 1024 * machine.depth - below(32);
        if (!reach(&machine, move.address, move.count))
            return 0;
        at = snprintf(text, room, "set mem 0x%lx ", move.address);
        for (i = 0; i < move.count; i++) {
            move.bytes[i] = any();
            at += snprintf(text + at, room - at, "%02x", move.bytes[i]);
        }
        at += snprintf(text + at, room - at, "\n");
        break;
    default:
        move.kind = SET_PC;
        move.value = slot = 0;
        for (i = below(30); i-- > 0 && slot < machine.length / 8; slot += opcode_at(bytes, slot) == 0x18 ? 2 : 1)
            move.value = slot;
        at = snprintf(text, room, "set pc %lu\n", move.value);
    }
    add_move(&move);
    return (int)at;
}

/* The text of a random command that goes back or makes moves again, which is obeyed; 0 where it would be refused. */
static int go_back(char *text, u64 room) {
    int is_undo = chance(50), all = 0, count, found, i;
    if (chance(30)) {
        if (moves_made == moves_kept)
            return 0;
        count = 1 + below(chance(50) ? moves_kept : 3);
        go_to(moves_made + count < moves_kept ? moves_made + count : moves_kept, NOT_AT_ALL);
        return snprintf(text, room, "redo %d\n", count);
    }
    for (i = 0; i < moves_made; i++)
        all += is_undo ? tape[i].is_marked : tape[i].kind == STEP;
    if (!all)
        return 0;
    count = found = 1 + below(chance(50) ? all : 1);
    for (i = moves_made; found && i-- > 0;)
        found -= is_undo ? tape[i].is_marked : tape[i].kind == STEP;
    go_to(i, NOT_AT_ALL);
    return snprintf(text, room, is_undo ? "undo %d\n" : "reverse-stepi %d\n", count);
}

/* A random session, of which each command is obeyed: its script is written. */
static void make_session(u64 limit) {
    static const struct move a_step;
    u64 at = 0, count, i;
    int commands = 1 + below(12);
    moves_kept = 0;
    go_to(0, NOT_AT_ALL);
    while (commands-- > 0 && moves_made < MOST_MOVES - 1) {
        if (chance(30)) {
            at += edit(script + at, TEXT_ROOM - at);
        } else if (chance(40)) {
            at += go_back(script + at, TEXT_ROOM - at);
        } else if (!machine.ended) {
            count = chance(30) ? limit : 1 + below(20);
            if (moves_made + count > MOST_MOVES - 1)
                break;
            at += count == limit ? (u64)snprintf(script + at, 100, "continue\n") : (u64)snprintf(script + at, 100, "stepi %lu\n", count);
            for (i = 0; !machine.ended && i < count && i < limit; i++) {
                add_move(&a_step);
                tape[moves_made - 1].is_marked = i == 0;
            }
        }
    }
    put_file("session", script, at);
}

/* Where values came from where a session stands: the same, over the moves that led there. */
static int session_traces_back(u64 limit) {
    static struct places asked;
    static struct origins all;
    static char steps[24];
    char *what, *end;
    int with_addresses = chance(50), taken, i;
    if (!fits_origins(&machine))
        return 1;
    snprintf(steps, sizeof steps, "%lu", limit);
    make_session(limit);
    taken = moves_made;
    go_to(taken, with_addresses ? BY_ADDRESSES : BY_VALUES);
    what = make_question(&asked);
    memset(&all, 0, sizeof all);
    for (i = 0; i < asked.count; i++)
        join(&all, &origins_of[asked.place[i]]);
    words_for("origin", 1);
    add_word("--steps");
    add_word(steps);
    add_word("--journal=16777216");
    add_word("--script");
    add_word("session");
    if (with_addresses)
        add_word("--addresses");
    add_word("program");
    if (what)
        add_word(what);
    place(&machine, wanted, TEXT_ROOM);
    if (!sound())
        return 0;
    if (left.status)
        return strstr(left.output, "cut: ") ? 1 : fails("origin of a session answers nothing");
    if (strncmp(left.output, wanted, strlen(wanted)) || !(end = strchr(left.output, '\n')))
        return fails("origin of a session stands elsewhere than the second machine");
    reopen();
    return tells(&all, (u64)taken, end + 1);
}

/* A program and its listing: asm gives the words back. */
static int returns(void) {
    char accepted[sizeof line];
    memcpy(accepted, line, sizeof line);
    words_for("disasm", 0);
    add_word("program");
    if (!sound() || left.status)
        return fails("an accepted program has no listing");
    put_file("listing", left.output, left.length);
    first_word(words[0], "asm");
    add_word("listing");
    run_words(&left);
    if (left.status || left.length != machine.length || memcmp(left.output, bytes, left.length))
        return fails("asm of a listing gives other words");
    words_for("check", 0);
    add_word("--listing");
    add_word("listing");
    return gives(0, accepted);
}

/* A program that is refused is refused so by each subcommand. */
static int refuses_all(const char *text, char *listing, char *file) {
    static char *subcommands[] = { "check", "disasm", "run", "debug" };
    int i;
    for (i = 0; i < 4; i++) {
        words_for(subcommands[i], i > 1);
        if (listing)
            add_word(listing);
        add_word(file);
        if (!gives(2, text))
            return 0;
    }
    return 1;
}

static int try_program(void) {
    u64 length;
    make_surroundings();
    length = make_program();
    if (chance(40))
        length = mutate(bytes, length, PROGRAM_ROOM);
    put_file("script", "", 0);
    if (!judged(length))
        return refuses_all(line, 0, "program");
    words_for("check", 0);
    add_word("program");
    return gives(0, line) && returns() && runs_alike(1 + below(chance(50) ? 3000 : 20)) && traces_back(1 + below(chance(50) ? 3000 : 20));
}

/* Where values came from in a program that moves them about below r10, from one function to the next, and through maps. */
static int try_origin(void) {
    int is_accepted;
    make_surroundings();
    put_file("script", "", 0);
    is_steady = 1;
    is_accepted = judged(make_program());
    is_steady = 0;
    return !is_accepted || (traces_back(1 + below(chance(50) ? 400 : 40)) && session_traces_back(1 + below(chance(50) ? 100 : 40)));
}

/* Bytes that were never a program. */
static int try_bytes(void) {
    u64 length = below(100), i;
    make_surroundings();
    for (i = 0; i < length; i++)
        bytes[i] = chance(50) ? 0 : any();
    put_file("script", "", 0);
    if (judged(length))
        return returns();
    return refuses_all(line, 0, "program");
}

/* The listing of a random program, changed: where it is still one, its words and their listing go together. */
static int try_listing(void) {
    u64 length;
    make_surroundings();
    put_file("script", "", 0);
    if (!judged(make_program()))
        return 1;
    words_for("disasm", 0);
    add_word("program");
    if (!sound())
        return 0;
    memcpy(script, left.output, left.length);
    length = mutate((u8 *)script, left.length, TEXT_ROOM);
    put_file("listing", script, length);
    first_word(words[0], "asm");
    add_word("listing");
    run_words(&left);
    if (left.status == 2 && !strncmp(left.errors, "refused A", 9) && lines_of(left.errors) == 1 && !left.length) {
        memcpy(line, left.errors, left.error_length + 1);
        return refuses_all(line, "--listing", "listing");
    }
    if (left.status || left.length % 8 || left.error_length)
        return fails("asm");
    memcpy(bytes, left.output, left.length);
    if (!judged(left.length))
        return refuses_all(line, "--listing", "listing");
    words_for("check", 0);
    add_word("--listing");
    add_word("listing");
    return gives(0, line) && returns();
}

/* A list of maps, and what is wrong with it (docs/COMMANDS.md, M1 to M5). */
static int try_maps(void) {
    static const char *texts[] = { "", "value size not 1 to 256", "entries not 1 to 4096", "map larger than 65536 bytes", "more than 16 maps", "malformed map list" };
    static const u64 numbers[] = { 0, 1, 2, 8, 255, 256, 257, 4095, 4096, 4097, 65536, 99999999999 };
    int at = 0, i, count = 1 + below(chance(80) ? 4 : 18), fault = 0, malformed = 0;
    machine.map_count = 0;
    for (i = 0; i < count; i++) {
        u64 value = chance(70) ? 1 + below(16) : numbers[below(12)], entries = chance(70) ? 1 + below(16) : numbers[below(12)];
        at += snprintf(maps_word + at, 60, "%s%s%lux%s%lu", i ? "," : "", chance(5) ? "000" : "", value, chance(5) ? "00" : "", entries);
        if (!fault)
            fault = value < 1 || value > 256 ? 1 : entries < 1 || entries > 4096 ? 2 : value * entries > 65536 ? 3 : i >= 16 ? 4 : 0;
    }
    if (chance(30)) {
        static const char *wrong[] = { ",", "x", "8", " ", "8x", "x8", "8x8x8", ",,8x8", "+1x1", "-1x1", "1X1", "1x1 ", "0x0x", "\xc3\xa9" };
        snprintf(maps_word + at, 60, ",%s", wrong[below(14)]);
        malformed = 1;
    }
    put_word(0, 0x95, 0, 0, 0, 0);
    put_file("program", bytes, 8);
    put_file("script", "", 0);
    first_word(words[0], "check");
    add_word("--maps");
    add_word(maps_word);
    add_word("program");
    fault = malformed ? 5 : fault;
    snprintf(line, sizeof line, "refused M%d: %s\n", fault, texts[fault]);
    return fault ? gives(2, line) : gives(0, "ok 1 instructions in 1 slots\n");
}

/* A context of about the greatest length. */
static int try_context(void) {
    u64 length = 65536 + below(5) - 2;
    machine.map_count = 0;
    put_word(0, 0xbf, 0, 2, 0, 0);
    put_word(1, 0x95, 0, 0, 0, 0);
    put_file("program", bytes, 16);
    memset(wanted, 'c', length);
    put_file("context", wanted, length);
    put_file("script", "", 0);
    first_word(words[0], "run");
    add_word("-m");
    add_word("context");
    add_word("program");
    snprintf(line, sizeof line, "0x%lx\n", length);
    return length > 65536 ? gives(2, "refused O1: context too long\n") : gives(0, line);
}

/* A command of a script, sometimes with a wrong word. */
static u64 put_command(char *to, u64 room) {
    static const char *plain[] = { "stepi", "nexti", "continue", "finish", "undo", "reverse-stepi", "reverse-nexti", "reverse-continue", "rc",
        "reverse-finish", "redo", "redo 3", "info regs", "info frames", "info breaks", "info history", "info trace", "stepi 7", "stepi 1000000000", "undo 2", "reverse-stepi 5",
        "redo 1000000000" };
    static const char *numbered[] = { "stepi", "undo", "reverse-stepi", "redo", "set pc", "break", "delete", "watch", "unwatch", "last-write", "x", "disas", "set reg r0",
        "set reg r1", "set reg r6", "set reg r10", "set mem", "set cell 0" };
    const char *word;
    u64 at, i, n = odd_number();
    if (chance(60))
        return snprintf(to, room, "%s\n", plain[below(sizeof plain / sizeof *plain)]);
    word = numbered[below(sizeof numbered / sizeof *numbered)];
    if (chance(50))
        n = chance(50) ? below(40) : (chance(50) ? 0x100000000 : 0x200000000 + 1024 * below(2)) + below(600);
    at = snprintf(to, room, chance(50) ? "%s %lu" : "%s 0x%lx", word, n);
    if (!strcmp(word, "x") || !strcmp(word, "disas"))
        at += snprintf(to + at, room - at, " %lu", below(chance(90) ? 257 : 400));
    if (strstr(word, "mem") || strstr(word, "cell")) {
        to[at++] = ' ';
        for (i = chance(80) ? 1 + below(9) : below(258); i > 0; i--)
            at += snprintf(to + at, room - at, "%02x", (int)below(256));
    }
    to[at++] = '\n';
    return at;
}

/* The text between two marks, the n-th last and the one behind it, or the end. Returns its length. */
static const char mark[] = "refused Q2: wrong argument\n";
static u64 marked(int n, const char **from) {
    const char *at = left.output + left.length, *end = at;
    for (; n > 0; n--) {
        end = at;
        do {
            if (at == left.output)
                return 0;
            at--;
        } while (strncmp(at, mark, sizeof mark - 1));
    }
    *from = at + sizeof mark - 1;
    return end - *from;
}

/* A random script. All that it moved is taken back by as many `undo`, where no move was dropped; the machine is then as it was. All that was
   taken back is made again by `redo`, also where moves were dropped; the machine is then as it was before. */
static int try_script(void) {
    u64 length, at = 0, count = 1 + below(40), i, first, shown;
    const char *before, *again;
    make_surroundings();
    if (!judged(make_program()))
        return 1;
    make_show();
    at = snprintf(script, TEXT_ROOM, "%s", show_commands);
    first = at;
    for (i = 0; i < count; i++)
        at += put_command(script + at, TEXT_ROOM - at);
    if (chance(30))
        at = first + mutate((u8 *)script + first, at - first, 100000);
    length = at;
    at += snprintf(script + at, TEXT_ROOM - at, "\nredo 1000000000\nundo now\n%sundo now\n", show_commands);
    for (i = 0; i <= count + 8; i++)
        at += snprintf(script + at, TEXT_ROOM - at, "undo\n");
    at += snprintf(script + at, TEXT_ROOM - at, "undo now\n%sundo now\nredo 1000000000\nundo now\n%s", show_commands, show_commands);
    put_file("script", script, at);
    words_for("debug", 1);
    add_word(chance(80) ? "--journal=16777216" : "--journal=1024");
    add_word("--steps=1000");
    add_word("program");
    if (!sound())
        return 0;
    if (left.status)
        return fails("a script ends a session");
    if (script[length] = 0, strstr(script + first, "quit"))
        return 1;
    at = marked(5, &before);
    if (at == 0 || marked(1, &again) != at || memcmp(before, again, at))
        return fails("a script that is taken back does not come again");
    if (!strcmp(words[word_count - 3], "--journal=1024"))
        return 1;
    reopen();
    shown = put_show(0, left.output);
    if (left.length < shown || memcmp(left.output, wanted, shown) || marked(3, &again) != shown || memcmp(again, wanted, shown))
        return fails("a script that is taken back leaves something");
    return 1;
}

/* A random command line. */
static int try_words(void) {
    static char *some[] = { "run", "trace", "debug", "origin", "asm", "disasm", "lines", "check", "link", "help", "r0", "-m", "--mem", "--maps", "--journal", "--steps", "--from", "--count", "--branches", "--profile", "--listing", "-h", "--help",
        "program", "context", "missing", "1024", "0", "-1", "8x2", "", "--", "-", "--steps=7", "--journal=1024", "--maps=8x2", "-mcontext", "--mem=context",
        "--listing=1", "--frob", "-x", "frob", "\xc3\xa9", "\xff", "a b", "--steps=0", "18446744073709551616", "--version", "-V", "\n", "\033[1m" };
    int count = below(7);
    machine.context_length = 3;
    machine.map_count = 0;
    put_word(0, 0x95, 0, 0, 0, 0);
    put_file("program", bytes, 8);
    put_file("context", "abc", 3);
    put_file("script", "stepi\n", 6);
    word_count = 1;
    while (count-- > 0)
        add_word(some[chance(25) && word_count == 1 ? below(8) : below(sizeof some / sizeof *some)]);
    run_words(&left);
    if (left.status > 2 || (left.status == 0 && left.error_length) || (left.status && (left.length || !left.error_length)))
        return fails("a command line");
    if (left.status && strncmp(left.errors, "error: ", 7) && strncmp(left.errors, "cannot read ", 12) && lines_of(left.errors) != 1)
        return fails("more than a line on standard error");
    return 1;
}

int main(int count, char **arguments) {
    u64 last, distance, trials = 0;
    long end;
    if (count != 7)
        give_up("fuzz PROGRAM PROCESS PROCESSES FIRST LAST SECONDS");
    words[0] = arguments[1];
    distance = atoi(arguments[3]);
    last = atoi(arguments[5]);
    end = time(0) + atoi(arguments[6]);
    for (seed = atoi(arguments[4]) + atoi(arguments[2]); seed <= last && time(0) < end; seed += distance, trials++) {
        state = seed * 0x2545f4914f6cdd1d;
        switch (below(20)) {
        case 0: try_bytes(); break;
        case 1: try_maps(); break;
        case 2: try_context(); break;
        case 3: case 4: try_words(); break;
        case 5: case 6: case 7: try_listing(); break;
        case 8: case 9: case 10: case 11: try_script(); break;
        case 12: case 13: case 14: case 15: try_origin(); break;
        default: try_program();
        }
        if (failures >= 10)
            break;
    }
    printf("%lu trials, %lu failed\n", trials, failures);
    return failures != 0;
}

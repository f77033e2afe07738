"""bpfdb in gdb 13 or later; bpfdb-gdb.py, which gdb sources, imports it.

It shows frames of local calls and instructions as bpfdb has them, and adds commands, whose names begin with bpf- but for last-write. What it asks
of bpfdb are lines of its script, as gdb's 'monitor' does; docs/COMMANDS.md has them."""

import gdb
import gdb.disassembler
import gdb.unwinder
import os
import re
import shlex
import shutil
import struct
import subprocess
import tempfile

from bpfdb.foreign import Unfit, command, for_shell, is_name, script
from bpfdb.options import CommandLine, Refused
from bpfdb.places import slots_of_line
from bpfdb.session import Hint
from bpfdb.subjects import Told
from bpfdb.texts import plain, plain_lines
from bpfdb.verdicts import VERDICTS

# Where pc, and r0 to r10, stand among the registers of the machine that gdb takes this one for.
COUNTERS = {"i386:x86-64": "rip", "riscv:rv64": "pc"}
REGISTERS = {
    "i386:x86-64": "rax rdx rcx rbx rsi rdi rbp rsp r8 r9 r10".split(),
    "riscv:rv64": "zero ra sp gp tp t0 t1 t2 fp s1 a0".split(),
}
# The register that says how many moves lie before the state, and its number.
MOVES, MOVES_NUMBER = "moves", 64
# The bytes that a journal may have. (docs/JOURNAL.md)
LARGEST_JOURNAL = 16777216
# r10 at depth 0, and what a call adds to it.
FIRST_POINTER, POINTER_STRIDE = 0x200000200, 0x400
# Where bpfdb lets calls' frames be read, the outermost first: where each returns to, and its r6 to r9.
FRAMES, FRAME = 0x500000000, "<5Q"
SLOT = 8
# How gdb shows an address before the entry, by what bpfdb-symbols names there.
BEFORE_ENTRY = re.compile(r"<_(start|setup)[+>]")
WIDE_LOAD = b"\x18"
# The token of the first map, the address of its values, and how far apart maps lie.
FIRST_TOKEN, FIRST_MAP, MAP_STRIDE = 0x400000000, 0x300000000, 0x100000
# Kinds of watches that stop at reads; and how the header of an object for BPF tells its kind and machine.
READ_WATCHES = (gdb.BP_READ_WATCHPOINT, gdb.BP_ACCESS_WATCHPOINT)
OBJECT_FOR_BPF = b"\x01\x00\xf7\x00"
# How many lines of a listing are asked for at once: the reply has at most 8,192 bytes.
PART = 100
NOT_CONNECTED = "bpfdb isn't connected: bpf-load FILE starts a program"
# Where programs are looked for that belong to this package: around it, or in 'bin' of where it is installed, and then as the shell does.
HERE = os.path.dirname(os.path.abspath(__file__))
PLACES = os.pathsep.join([os.path.join(HERE, ".."), os.path.join(HERE, "..", "..", "bin"), os.environ.get("PATH", "")])


class Commands:
    """How many moves lay before the state behind each command of gdb's user, in ascending order: of those that stand, and of those that were taken
    back and can be made again."""

    def __init__(self, begin=0, entry=None):
        self.begin, self.now, self.entry, self.ends, self.most = begin, begin, entry, [], begin

    def stop(self, event):
        """Notes where a command stopped. At the journal's start, where moves were dropped before it, it says what would keep more."""
        if is_connected():
            count = int(gdb.newest_frame().read_register(MOVES))
            self.note(count, count > self.now)
            # (what is asked where a breakpoint stopped, its commands would be executed behind)
            if 0 < count < self.most and not isinstance(event, (gdb.BreakpointEvent, gdb.SignalEvent)) and history()[0] == 0:
                gdb.write("%s moves\n" % larger_journal(count, history()[1]))
            if count < self.begin:
                gdb.write("this is before the entry: advance *0x%x goes on to it\n" % self.entry)

    def edit(self, event):
        """Notes an edit, of which gdb has no new count of moves."""
        if is_connected():
            self.note(moves(), True)

    def note(self, end, is_new):
        """Notes where a command ended. Behind new moves none can be made again."""
        self.ends = sorted({end, *(other for other in self.ends if other <= self.now or not is_new)})
        self.now = end
        self.most = max(self.most, end)

    def start(self, now):
        """How many moves lay before the last command."""
        return max((end for end in self.ends if end < now), default=min(self.begin, now))

    def end(self, now):
        """How many moves lay behind the command that was taken back last, one more where none is known."""
        return min((end for end in self.ends if end > now), default=now + 1)


commands = Commands()
# What was asked of machines and of the debug information: whether a machine is bpfdb's, where the functions of instructions begin, and what the
# frame that was looked at last holds, by its bytes.
known_machines, known_functions, known_frames = {}, {}, {}


def is_bpf(architecture):
    """Whether a machine is one that bpfdb has described: it has r0 beside its own registers."""
    if architecture not in known_machines:
        known_machines[architecture] = architecture.name() in REGISTERS and architecture.registers().find("r0") is not None
    return known_machines[architecture]


def connection():
    """The connection to bpfdb, None where there is none."""
    inferior = gdb.selected_inferior()
    return inferior.connection if inferior.pid and isinstance(inferior.connection, gdb.RemoteTargetConnection) else None


def is_connected():
    return connection() is not None and is_bpf(gdb.selected_inferior().architecture())


def answer_to(packet):
    """What bpfdb answers to a packet."""
    if not is_connected():
        raise gdb.GdbError(NOT_CONNECTED)
    # (gdb's own way to send a packet forgets the frames that it is about to find)
    answer = re.search('received: "(.*)"', gdb.execute(command("maintenance packet", packet), to_string=True)).group(1)
    if answer.startswith("E"):
        raise gdb.GdbError("bpfdb answers %s" % answer)
    return answer


def ask(line):
    """What bpfdb answers to a line of its script."""
    answer = answer_to("qRcmd," + line.encode().hex())
    return "" if answer == "OK" else bytes.fromhex(answer).decode()


def moves():
    """How many moves lie before the state now."""
    return int.from_bytes(bytes.fromhex(answer_to("p%x" % MOVES_NUMBER)), "little")


def history():
    """How many moves are kept, and how many bytes the journal has."""
    words = ask("info history").split()
    return int(words[0]), int(words[-2])


def larger_journal(dropped, size):
    """How many moves the largest journal would keep, by those that one of this size held."""
    if size >= LARGEST_JOURNAL:
        return "this journal has the most bytes that it may have, and held %s" % format(commands.most - dropped, ",")
    held = LARGEST_JOURNAL * (max(commands.most, moves()) - dropped) // size
    return "--journal %d would keep some %s" % (LARGEST_JOURNAL, format(int(float("%.1e" % held)), ","))


def dropped_moves():
    """Says how many moves the journal dropped, and what would keep more."""
    kept, size = history()
    dropped = moves() - kept
    return "the journal dropped %s moves: %s" % (format(dropped, ","), larger_journal(dropped, size))


def forget():
    """Lets gdb forget what it has read of the machine: registers, memory, and the old values of watches."""
    gdb.execute("maintenance flush register-cache", to_string=True)
    gdb.execute("maintenance flush dcache", to_string=True)
    for stop in gdb.breakpoints():
        if stop.type in (gdb.BP_WATCHPOINT, gdb.BP_HARDWARE_WATCHPOINT) and stop.enabled:
            stop.enabled = False
            stop.enabled = True


class FrameId:
    """What tells frames apart: where a frame lies, and where its function begins."""

    def __init__(self, sp, pc):
        self.sp = sp
        self.pc = pc


def function_start(counter):
    """Where the function of an instruction begins, 0 where no debug information says so."""
    place = int(counter)
    if place not in known_functions:
        block = gdb.block_for_pc(place)
        while block and block.superblock and not block.superblock.is_static:
            block = block.superblock
        known_functions[place] = block.start if block else 0
    return gdb.Value(known_functions[place]).cast(counter.type)


def saved_by(depth, architecture):
    """What comes back where the call that made this depth returns: registers with their values."""
    size = struct.calcsize(FRAME)
    content = bytes(gdb.selected_inferior().read_memory(FRAMES + size * (depth - 1), size))
    name = architecture.name()
    if (name, content) not in known_frames:
        # (steps within a function ask for the same again and again)
        known_frames.clear()
        known_frames[name, content] = values_of(name, content, architecture)
    return known_frames[name, content]


def values_of(name, content, architecture):
    """The same, of these bytes."""
    counter, *saved = struct.unpack(FRAME, content)
    # (r6 to r9 under the name that BPF has for each, too, where that is a register of its own)
    pairs = [(COUNTERS[name], counter), *zip(REGISTERS[name][6:10], saved), *zip(("r6", "r7", "r8", "r9"), saved)]
    word, known = architecture.integer_type(64), architecture.registers()
    return [(register, gdb.Value(value).cast(word)) for register, value in pairs if known.find(register)]


def is_before_entry(counter):
    """Whether an instruction lies before the entry, where no function of the object has it."""
    try:
        return BEFORE_ENTRY.search(counter.format_string(symbols=True)) is not None
    except UnicodeDecodeError:
        return False


class Unwinder(gdb.unwinder.Unwinder):
    """Frames of local calls: r10 says how deep one is, and bpfdb where each returns to, and its r6 to r9. It reads r10, pc, the count of moves
    and memory alone: what gdb executes here, it would execute the commands of a breakpoint behind."""

    def __init__(self):
        super().__init__("bpfdb")

    def __call__(self, pending):
        architecture = pending.architecture()
        if not is_bpf(architecture):
            return None
        name = architecture.name()
        registers = REGISTERS[name]
        pointer = pending.read_register(registers[10])
        counter = pending.read_register(COUNTERS[name])
        depth, rest = divmod(int(pointer) - FIRST_POINTER, POINTER_STRIDE)
        if depth < -1 or rest:
            return None
        # (gdb takes stacks to grow down, and these grow up)
        place = gdb.Value(2 * FIRST_POINTER - int(pointer)).cast(pointer.type)
        frame = pending.create_unwind_info(FrameId(place, function_start(counter)))
        if depth > 0:
            count = pending.read_register(MOVES)
            frame.add_saved_register(MOVES, count)
            for register, value in saved_by(depth, architecture):
                frame.add_saved_register(register, value)
        else:
            frame.add_saved_register(COUNTERS[name], counter)
        # The outermost frame has no caller. Where a file of symbols is loaded gdb knows by its entry, and asks only for a frame that differs.
        # Elsewhere, and before the entry, it stops at one that doesn't.
        has_caller = depth > 0 or depth == 0 and gdb.current_progspace().filename and not is_before_entry(counter)
        steps = 1 if has_caller else 0
        frame.add_saved_register(registers[10], gdb.Value(int(pointer) - steps * POINTER_STRIDE).cast(pointer.type))
        return frame


class Listing:
    """The program's instructions, as bpfdb's listings have them, by their slots. They are read where a connection begins, and not while gdb shows
    where a breakpoint stopped: behind what is asked then gdb would execute its commands."""

    def __init__(self):
        self.connection, self.texts = None, {}

    def read(self, event=None):
        """Reads the listing of a program that isn't known yet, a part at a time, and counts commands anew."""
        if not is_connected() or self.connection is connection():
            return
        commands.__init__()
        self.connection, self.texts, slot, count = connection(), {}, 0, 0
        while count in (0, PART):
            lines = [line.partition(": ") for line in ask("disas %d %d" % (slot, PART)).splitlines()]
            self.texts.update((int(place), text.strip()) for place, _, text in lines)
            slot, count = max(self.texts), len(lines)


listing = Listing()


class Disassembler(gdb.disassembler.Disassembler):
    """Instructions as bpfdb's listings have them."""

    def __init__(self):
        super().__init__("bpfdb")

    def __call__(self, info):
        # (the windows of gdb's text interface ask with the machine of the file)
        if not is_bpf(info.architecture) and not is_connected():
            return None
        length = 2 * SLOT if bytes(info.read_memory(1)) == WIDE_LOAD else SLOT
        slot, rest = divmod(info.address, SLOT)
        listing.read()
        if rest or slot not in listing.texts:
            return gdb.disassembler.DisassemblerResult(SLOT, "(no instruction)")
        return gdb.disassembler.DisassemblerResult(length, listing.texts[slot])


class Asker(gdb.Command):
    """A command that is answered by bpfdb. What gdb refuses of it is said as of a command of gdb's own."""

    def invoke(self, argument, from_tty):
        try:
            self.obey(argument)
        except (gdb.error, Unfit) as fault:
            raise gdb.GdbError(str(fault))


class Mover(Asker):
    """A command of bpfdb that moves."""

    def __init__(self, name):
        super().__init__(name, gdb.COMMAND_RUNNING)

    def tell(self, reply):
        """Shows what bpfdb replied, and where the machine stands then."""
        print(reply, end="")
        forget()
        commands.note(moves(), False)
        gdb.execute("frame")


class Undo(Mover):
    """bpf-undo [COUNT]: takes back the last command, as a whole next or continue, or the last COUNT commands of bpfdb; edits too."""

    def obey(self, argument):
        now = moves()
        start = commands.start(now)
        if argument:
            self.tell(ask("undo " + argument))
            return
        if start == now:
            raise gdb.GdbError("nothing to take back")
        if history()[0] < now - start:
            raise gdb.GdbError("moves of that command aren't kept: " + dropped_moves())
        reply = ask("reverse-stepi %d" % (now - start))
        left = moves() - start
        # (edits before the first step are left, and among the steps they came back with them)
        if left > 0:
            reply = ask("undo %d" % left)
        elif left < 0:
            reply = ask("redo %d" % -left)
        self.tell("%d back; done; %s" % (now - start, reply.split("; ", 2)[2]))


class Redo(Mover):
    """bpf-redo [COUNT]: repeats the command that was taken back last, as a whole next or continue, or the next COUNT undone moves; edits too."""

    def obey(self, argument):
        now = moves()
        self.tell(ask("redo %s" % (argument or commands.end(now) - now)))


class LastWrite(Asker):
    """last-write EXPRESSION: shows how many moves ago the byte at an address was changed."""

    def __init__(self):
        super().__init__("last-write", gdb.COMMAND_DATA)

    def obey(self, argument):
        address = int(gdb.parse_and_eval(argument)) % 2**64
        print(ask("last-write 0x%x" % address), end="")


class PastAsker(Asker):
    """A command that asks about the moves that are kept, as a line of 'monitor' does. The machine stays where it is."""

    # whether one asks now: then gdb needn't forget the machine
    asks = False

    def __init__(self, name, completion):
        super().__init__(name, gdb.COMMAND_DATA, completion)

    def obey(self, argument):
        lines = self.lines(argument.strip())
        for line in lines:
            print(line + self.source_of(line))
        if any(line.endswith(("; before the kept history", " before what is kept")) for line in lines):
            print(dropped_moves())

    def lines(self, text):
        """The lines of the answer."""
        if not is_connected():
            raise gdb.GdbError(NOT_CONNECTED)
        PastAsker.asks = True
        try:
            return gdb.execute(command("monitor", *self.what(text)), to_string=True).splitlines()
        finally:
            PastAsker.asks = False

    def source_of(self, line):
        """The line of the source of a move, behind its own, where bpfdb doesn't tell it: of a program that it has no object of."""
        slot = None if re.search(r"; in .* \(.*:\d+\)$", line) else re.match(r"(?:made: )?-\d+ (?:.*?; )?(\d+): ", line)
        place = gdb.find_pc_line(SLOT * int(slot.group(1))) if slot else None
        return " (%s:%d)" % (plain(os.path.basename(place.symtab.filename)), place.line) if place and place.symtab else ""


class Forget(Asker):
    """Lets gdb forget the machine behind a line of 'monitor', which may have changed it, unless that only asked."""

    def __init__(self):
        super().__init__("maintenance bpf-forget", gdb.COMMAND_MAINTENANCE)

    def obey(self, argument):
        if not PastAsker.asks:
            forget()


class Origin(PastAsker):
    """bpf-origin [EXPRESSION]: tells where a value came from, move by move: of a register ($r3), of a variable (note.packet), or of ADDRESS:COUNT;
    left out, of the address of an access that failed, or of r0. It is 'monitor origin', over the moves that are kept."""

    def __init__(self):
        super().__init__("bpf-origin", gdb.COMPLETE_EXPRESSION)

    def what(self, text):
        """What is asked, in bpfdb's words."""
        if re.fullmatch(r"\$r[0-9]", text) and gdb.selected_frame() == gdb.newest_frame():
            return ["origin", text[1:]]
        address, colon, count = text.rpartition(":")
        if colon:
            return ["origin", "0x%x:%d" % (int(gdb.parse_and_eval(address)) % 2**64, int(gdb.parse_and_eval(count)))]
        if not text:
            return ["origin"]
        value = gdb.parse_and_eval(text)
        if value.address is None:
            return ["origin", self.register(text)]
        return ["origin", "0x%x:%d" % (int(value.address) % 2**64, value.type.sizeof)]

    def register(self, text):
        """The register of a variable that isn't in memory. That it lies there is told first."""
        if text.startswith("$"):
            raise gdb.GdbError("bpf-origin tells of r0 to r9, in the innermost frame")
        frame = gdb.selected_frame()
        register = register_of(text, frame)
        if not register:
            raise gdb.GdbError("%s has no place here: ask for a register, as $r3, or for ADDRESS:COUNT" % text)
        if frame != gdb.newest_frame():
            raise gdb.GdbError("%s lies in %s: that is told of in the innermost frame alone" % (text, register))
        print("%s lies in %s" % (text, register))
        return register


def register_of(name, frame):
    """The register in which a variable of a frame lies, None where it lies in none."""
    if not is_name(name):
        return None
    try:
        lines = gdb.execute(command("info address", name), to_string=True).splitlines()
    except (gdb.error, UnicodeDecodeError):
        return None
    # (of a caller the place is asked for at its call)
    place = frame.pc() - (frame != gdb.newest_frame())
    for line in lines:
        begin, end = re.search(r"Range (0x\w+)-(0x\w+):|$", line).groups(default="")
        found = re.search(r"a variable in \$(\w+)", line)
        names = REGISTERS[frame.architecture().name()]
        if found and found[1] in names and (not begin or int(begin, 16) <= place < int(end, 16)):
            return "r%d" % names.index(found[1])
    return None


class Whynot(PastAsker):
    """bpf-whynot WHAT: tells why the program did not come to a place, and what decided it: to a slot (12) or slots (12,15), a function (size_of), a
    label, or any instruction of a line (FILE:LINE); or why it did not make a value (=2, XDP_DROP, an enumerator). It is 'monitor whynot', over the
    moves that are kept."""

    def __init__(self):
        super().__init__("bpf-whynot", gdb.COMPLETE_LOCATION)

    def what(self, text):
        """What is asked, in bpfdb's words."""
        # (-1 and +1 would be lines to gdb, and slots to a reader)
        if not text or text[0] in "-+":
            raise gdb.GdbError("bpf-whynot WHAT: a slot, a function or FILE:LINE")
        # (what begins as a number has a meaning in bpfdb alone, or is refused there; so has a value, by its number)
        if text[0].isdigit():
            return ["whynot", text]
        if text[0] == "=":
            return ["whynot", self.value(text[1:]) or text]
        try:
            return ["whynot", ",".join(str(slot) for slot in self.slots(text))]
        except gdb.error:
            value = self.value(text)
            if not value:
                raise
            return ["whynot", value]

    def value(self, name):
        """The value that an enumerator, or else a verdict, has by its name, as it is asked about; None without one."""
        if not is_name(name):
            return None
        symbol = gdb.lookup_static_symbol(name) or gdb.lookup_global_symbol(name)
        if symbol and symbol.is_constant and symbol.type.code == gdb.TYPE_CODE_ENUM:
            # (a negative one as a number of 32 bits or of 64)
            value = int(symbol.value())
            return "=%d" % (value % 2 ** (32 if -2**31 <= value < 0 else 64))
        return "=%d" % VERDICTS[name] if name in VERDICTS else None

    def slots(self, text):
        """The slots of a place: the first one of a function, or all of a line, which has some."""
        line = re.fullmatch(r"(.+?)\s*:\s*(\d+)", text)
        if line:
            file = os.path.normpath(line[1].strip("'\""))
            try:
                return slots_of_line(file, int(line[2]), self.lines_of(file))
            except Hint as hint:
                raise gdb.GdbError(str(hint))
        rest, places = gdb.decode_line(text)
        if rest or not places:
            raise gdb.GdbError("bpf-whynot WHAT: a slot, a function or FILE:LINE")
        return [place.pc // SLOT for place in places]

    def lines_of(self, file):
        """The lines of a file's slots. It may be named by the end of its path, as gdb takes it."""
        listing.read()
        places = [(slot, gdb.find_pc_line(SLOT * slot)) for slot in listing.texts]
        return {slot: place.line for slot, place in places if place.symtab and ("/" + place.symtab.fullname()).endswith("/" + file)}


class Registers(Asker):
    """bpf-registers: shows r0 to r10 and pc of the present frame."""

    def __init__(self):
        super().__init__("bpf-registers", gdb.COMMAND_DATA)

    def obey(self, argument):
        gdb.execute("info registers r0 r1 r2 r3 r4 r5 r6 r7 r8 r9 r10 pc")


class Map(Asker):
    """bpf-map NAME [INDEX]: shows the values of a map, or the one of an index, by the type that the map's definition gives them."""

    def __init__(self):
        super().__init__("bpf-map", gdb.COMMAND_DATA, gdb.COMPLETE_SYMBOL)

    def obey(self, argument):
        name, _, index = argument.strip().partition(" ")
        if not name:
            raise gdb.GdbError("bpf-map NAME [INDEX]")
        number = int(gdb.parse_and_eval("&" + name)) - FIRST_TOKEN
        shapes = shapes_of(connection().details or "") if is_connected() else []
        if not 0 <= number < len(shapes):
            raise gdb.GdbError("%s is no map of the program that runs" % name)
        size, count = shapes[number]
        kind = value_type(name, size)
        place, most = FIRST_MAP + MAP_STRIDE * number, count - 1
        if index:
            chosen = int(gdb.parse_and_eval(index))
            if not 0 <= chosen <= most:
                raise gdb.GdbError("%s has no value %d: its last is %d" % (name, chosen, most))
            shown, place = kind, place + size * chosen
        else:
            shown = kind.array(most)
        gdb.set_convenience_variable("bpf_map", gdb.Value(place).cast(shown.pointer()).dereference())
        gdb.execute("with print array-indexes on -- print $bpf_map")


def shapes_of(details):
    """The shapes of the maps of the program that a command starts."""
    words = shlex.split(details.lstrip("|"))
    if "gdb" not in words:
        return []
    line = CommandLine(found("bpfdb"), ["gdb"], words[words.index("gdb") + 1:])
    return Told(called("bpfdb", ["load", "--json", *line.of("load"), "--", line.file or ""]).stdout.decode(errors="replace")).shapes()


def value_type(name, size):
    """The type of a map's values: what the definition says, or else a number of their size, or else bytes."""
    for definition in (name, "(struct ____btf_map_%s *) 0" % name):
        try:
            kind = gdb.parse_and_eval(definition).type
            kind = kind.target() if kind.code == gdb.TYPE_CODE_PTR else kind
            kind = next(field.type for field in kind.strip_typedefs().fields() if field.name == "value")
        except (gdb.error, TypeError, StopIteration):
            continue
        kind = kind.target() if kind.strip_typedefs().code == gdb.TYPE_CODE_PTR else kind
        if kind.sizeof == size:
            return kind
    architecture = gdb.selected_inferior().architecture()
    if size in (1, 2, 4, 8):
        return architecture.integer_type(8 * size, False)
    return architecture.integer_type(8, False).array(size - 1)


class Load(Asker):
    """bpf-load FILE [OPTIONS]: loads the symbols of an object of clang or of a listing, and starts it in bpfdb. OPTIONS are those of 'bpfdb gdb'.
    Without words it starts the same program again. Breakpoints stay."""

    def __init__(self):
        super().__init__("bpf-load", gdb.COMMAND_RUNNING, gdb.COMPLETE_FILENAME)
        self.words = []
        self.folder = None

    def obey(self, argument):
        words = [os.path.expanduser(word) for word in gdb.string_to_argv(argument)] or self.words
        if not words:
            raise gdb.GdbError("bpf-load FILE [OPTIONS]")
        self.start(words)

    def start(self, words):
        """Starts the program of these words."""
        # (what can't be part of a command is refused before a program that runs is killed)
        command(*words)
        line = CommandLine(found("bpfdb"), ["gdb"], words)
        try:
            line.check()
        except Refused as refusal:
            raise gdb.GdbError(plain_lines(refusal.said.rstrip()))
        if line.file is None:
            raise gdb.GdbError("bpf-load FILE [OPTIONS]")
        inferior = gdb.selected_inferior()
        if inferior.pid and not is_connected():
            raise gdb.GdbError("gdb runs another program: kill it first")
        if not self.folder:
            self.folder = tempfile.TemporaryDirectory(prefix="bpfdb-")
        # (a folder for each time, since gdb takes a file of the same name and second for the one that it knows)
        base = os.path.join(tempfile.mkdtemp(dir=self.folder.name), os.path.splitext(os.path.basename(line.file))[0])
        options = (load_object if is_object(line.file) else load_listing)(line, base)
        # (without a packet bpfdb ends at once, or says what it refuses)
        called("bpfdb", ["gdb", *options])
        if inferior.pid:
            gdb.execute("with confirm off -- kill", to_string=True)
        gdb.execute(command("with confirm off -- file", re.sub(r"([\\\s'\"])", r"\\\1", base + ".sym")), to_string=True)
        self.words = words
        quietly = "with suppress-cli-notifications on --"
        # (on a busy machine a large object takes longer to link than the 2 seconds that gdb waits)
        patiently = "with remotetimeout 60 --"
        gdb.execute(command(quietly, patiently, "target remote |", for_shell([found("bpfdb"), "gdb", *options])), to_string=True)
        entry = entry_of(base + ".sym")
        if entry:
            # (before it lie a jump and, it may be, a setup of data)
            gdb.execute(command(quietly, "advance *%d" % entry))
        if has_stored_arguments():
            entry = behind_prologue(entry)
            gdb.execute(command(quietly, "advance *%d" % entry))
        gdb.execute("frame")
        commands.__init__(moves(), entry)


def has_stored_arguments():
    """Whether the function that begins keeps arguments in memory, as code does that isn't optimized: they have their values behind its prologue."""
    frame = gdb.newest_frame()
    try:
        block = frame.block()
    except RuntimeError:
        return False
    return any(symbol.is_argument and symbol.value(frame).address is not None for symbol in block)


def behind_prologue(place):
    """Where gdb has a breakpoint of the function that begins at a place: where its second line begins in the table of lines, or else the place."""
    symtab, block = gdb.find_pc_line(place).symtab, gdb.block_for_pc(place)
    while block and not block.function:
        block = block.superblock
    if not symtab or not block or block.start != place:
        return place
    rows = [row for row in symtab.linetable() if place <= row.pc < block.end]
    at = 1
    while at < len(rows) and rows[at].line < rows[at - 1].line:
        at += 1
    return rows[at].pc if at < len(rows) else place


def is_object(file):
    """Whether a file is an object, not a listing. (What can't be read is left to who reads it next.)"""
    try:
        with open(file, "rb") as opened:
            return opened.read(4) == b"\x7fELF"
    except OSError:
        return True


def entry_of(file):
    """The address of the entry, as the header of a file of symbols tells it."""
    with open(file, "rb") as opened:
        return int.from_bytes(opened.read(32)[24:], "little")


def load_object(line, base):
    """Makes the symbols of an object. Answers the words with which bpfdb starts it: as it is now, since it may be compiled anew; or its own words, where
    --maps tells its maps, since bpfdb takes these of words alone, and an object may lack the sizes of its maps."""
    linking = [*line.of("link"), "--", line.file]
    if line.has("--maps"):
        with open(base + ".bin", "wb") as output:
            output.write(called("bpfdb", ["link", *linking]).stdout)
    else:
        # (what is no object, or can't be linked, is refused before anything else)
        called("bpfdb", ["load", *line.of("load"), "--", line.file])
        shutil.copyfile(line.file, base + ".o")
    make_symbols(line, linking, base)
    if line.has("--maps"):
        return [*line.of("gdb", without={"--object", *line.taken("link")}), "--", base + ".bin"]
    return [*line.of("gdb"), "--", base + ".o"]


def load_listing(line, base):
    """Makes the symbols of a listing. Answers the words with which bpfdb starts it."""
    make_symbols(line, ["--listing", "--", line.file], base)
    return [*line.of("gdb", without=("--listing",)), "--listing", "--", line.file]


def make_symbols(line, words, base):
    """Lets bpfdb-symbols make the symbols of a file, for the machine that gdb takes bpfdb for."""
    os.environ.setdefault("BPFDB", found("bpfdb"))
    machine = line.value("--registers")
    told = called("bpfdb-symbols", [*(["--registers=" + machine] if machine else []), *words, base + ".sym"])
    gdb.write(plain_lines(told.stderr.decode(errors="replace")), gdb.STDERR)


def found(name):
    """Where a program stands."""
    place = (os.environ.get("BPFDB") if name == "bpfdb" else None) or shutil.which(name, path=PLACES)
    if place is None:
        raise gdb.GdbError("there is no program %s" % name)
    return place


def called(name, words):
    """What a program wrote. A refusal of it is an error."""
    done = subprocess.run([found(name), *words], stdin=subprocess.DEVNULL, capture_output=True)
    if done.returncode:
        raise gdb.GdbError(plain_lines(done.stderr.decode(errors="replace").strip()))
    return done


class Break(Asker):
    """hbreak, thbreak: set a breakpoint, as break and tbreak do: bpfdb has one kind."""

    def __init__(self, name, meant):
        super().__init__(name, gdb.COMMAND_BREAKPOINTS, gdb.COMPLETE_LOCATION)
        self.meant = meant

    def obey(self, argument):
        gdb.execute(command(self.meant, argument))


class Refuse(Asker):
    """Refuses a command of gdb's, before which it is called, where a program stands in bpfdb."""

    def __init__(self, name, why):
        super().__init__("maintenance bpf-refuse-" + name, gdb.COMMAND_MAINTENANCE)
        self.why = why
        gdb.execute(script("define hook-" + name, "maintenance bpf-refuse-" + name, "end"))

    def obey(self, argument):
        if is_connected():
            raise gdb.GdbError(self.why)


def refuse_reads(stop):
    """Takes a watch of reads away as soon as it is set: bpfdb stops at changes alone, and each way on would fail."""
    if stop.type in READ_WATCHES and is_bpf(gdb.selected_inferior().architecture()):
        gdb.write("bpfdb stops where bytes change, not where they are read: use watch\n", gdb.STDERR)
        gdb.post_event(stop.delete)


def look_at_file(event):
    """Says so where an object is loaded in place of what bpfdb-symbols makes of it: gdb would show other names and lines."""
    known_functions.clear()
    try:
        with open(event.new_objfile.filename, "rb") as file:
            head = file.read(20)
    except OSError:
        return
    if head[:4] == b"\x7fELF" and head[16:20] == OBJECT_FOR_BPF:
        gdb.write("this is an object for BPF: load what bpfdb-symbols makes of it\n", gdb.STDERR)


gdb.events.stop.connect(listing.read)
gdb.events.stop.connect(commands.stop)
gdb.events.memory_changed.connect(commands.edit)
gdb.events.register_changed.connect(commands.edit)
gdb.events.breakpoint_created.connect(refuse_reads)
gdb.events.new_objfile.connect(look_at_file)
listing.read()
gdb.unwinder.register_unwinder(None, Unwinder(), replace=True)
gdb.disassembler.register_disassembler(Disassembler())
load = Load()
Undo("bpf-undo")
Redo("bpf-redo")
LastWrite()
origin = Origin()
whynot = Whynot()
Registers()
Map()
Break("hbreak", "break")
Break("thbreak", "tbreak")
for name in ("run", "start", "starti"):
    Refuse(name, "the program runs in bpfdb: continue goes on, and bpf-load starts it anew")
Refuse("return", "BPF has no way to leave a call early: finish goes on to its end, and bpf-undo goes back")
Forget()
gdb.execute("define hookpost-monitor\nmaintenance bpf-forget\nend")
# bpfdb watches four bytes; gdb compares what is wider, and further watches, by itself, step by step.
gdb.execute("set remote hardware-watchpoint-limit 1")
gdb.execute("set remote hardware-watchpoint-length-limit 4")
# A function can't be called: gdb would put its arguments and a return address where BPF has none of them, and not take them away.
gdb.execute("set may-call-functions off")

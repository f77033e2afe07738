"""A machine of bpfdb as a debugger sees it: its state, its memory by regions, its history by commands, and the lines that lead there."""

import bisect
import re

from bpfdb.session import MOVE, PLACE, WIDE, Hint

# Where the regions of memory lie (docs/MACHINE.md).
CONTEXT, FRAMES, FRAME_STRIDE, FRAME_SIZE, DEEPEST = 0x100000000, 0x200000000, 0x400, 512, 7
MAPS, MAP_STRIDE, TOKENS = 0x300000000, 0x100000, 0x400000000
# The bytes of a slot, by which editors count instructions.
SLOT = 8
# How many bytes bpfdb shows or writes at once, and how many instructions are asked for.
MOST_BYTES, PART = 256, 100
RETURNS = re.compile(r'returns to (\d+) r6=(\w+) r7=(\w+) r8=(\w+) r9=(\w+)')
ADDRESS = re.compile(r'fault access (0x[0-9a-f]+) at')


class Move:
    """What a command that moves replied: how many moves, why it stopped, and where; and what a strict session says behind that."""

    def __init__(self, line, reply):
        found = MOVE.match(reply[0])
        self.line, self.count, self.kind, self.why, self.place = line, int(found[1]), found[2], found[3], found[4]
        self.said = '\n'.join(reply[1:])

    def at(self):
        """The slot of the next instruction, and its text; none where the program has ended."""
        found = PLACE.match(self.place)
        return int(found[1] or found[3]), found[2] or ''


class History:
    """How many moves lie before the state, where bpfdb's commands began and where the editor's did, each of which may be many of bpfdb's."""

    def __init__(self):
        self.now, self.top, self.commands, self.groups, self.edits, self.begins = 0, 0, [], [], [], True

    def begin(self):
        """What moves next belongs to a new command of the editor."""
        self.begins = True

    def note(self, line, reply):
        """Notes what a line of bpfdb did, by its reply."""
        move = MOVE.match(reply[0]) if reply else None
        if move and move[2] == 'forward':
            self.forward(int(move[1]))
        elif move:
            self.now += int(move[1]) if move[2] == 'redone' else -int(move[1])
        elif reply[:1] == ['ok'] and line.split()[:1] == ['set']:
            self.forward(1, True)

    def forward(self, count, is_edit=False):
        """New moves: what was undone is forgotten."""
        for places in (self.commands, self.edits):
            del places[bisect.bisect_left(places, self.now):]
        self.commands.append(self.now)
        if is_edit:
            self.edits.append(self.now)
        if self.begins:
            del self.groups[bisect.bisect_left(self.groups, self.now):]
            self.groups.append(self.now)
            self.begins = False
        self.now += count
        self.top = self.now

    def retract(self, count):
        """Notes edits that were made and taken back at once. What was undone before is forgotten by them, and they are not to be made again."""
        for _ in range(count):
            self.forward(1, True)
        self.now -= count
        self.top = self.now

    def has_edits(self):
        """Whether a move before the state is an edit."""
        return bool(self.edits) and self.edits[0] < self.now

    def undo(self, count):
        """How many commands of bpfdb the last commands of the editor are, as far as they aren't taken back; 0 if there are fewer."""
        starts = self.groups[:bisect.bisect_left(self.groups, self.now)]
        if len(starts) < count:
            return 0
        return bisect.bisect_left(self.commands, self.now) - bisect.bisect_left(self.commands, starts[-count])

    def redo(self, count):
        """How many moves the next commands of the editor are that were taken back; all if there are fewer."""
        ends = [*self.groups[bisect.bisect_right(self.groups, self.now):], self.top]
        return ends[min(count, len(ends)) - 1] - self.now


class Machine:
    """The machine of a session. What is asked of its state is kept until it moves."""

    def __init__(self, program, loaded):
        self.program, self.loaded, self.history = program, loaded, History()
        self.kept, self.code, self.slots, self.starts, self.functions, self.traces = {}, {}, [], [], {}, False

    def ask(self, line):
        """The lines of bpfdb's reply."""
        reply = self.program.ask(line)
        before = self.history.now, self.history.top
        self.history.note(line, reply)
        if before != (self.history.now, self.history.top) or line.startswith('set '):
            self.kept = {}
        return reply

    def demand(self, line):
        """The lines of the reply; a refusal is an error in bpfdb's own words."""
        reply = self.ask(line)
        if reply and reply[0].startswith('refused '):
            raise Hint(reply[0])
        return reply

    def move(self, line):
        """What a command that moves came to."""
        return Move(line, self.demand(line))

    def cached(self, name, find):
        if name not in self.kept:
            self.kept[name] = find()
        return self.kept[name]

    # where it stands

    def registers(self):
        """r0 to r10 and pc, of the innermost frame."""
        return self.cached('registers', self.find_registers)

    def find_registers(self):
        line, place = self.ask('info regs')
        found = {name: int(text, 16) for name, text in (part.split('=') for part in line.split())}
        at = PLACE.match(place)
        self.kept['place'] = place
        found['pc'] = int(at[1] or at[3])
        return found

    def place(self):
        """Where it stands, as replies say it."""
        self.registers()
        return self.kept['place']

    def slot(self):
        return self.registers()['pc']

    def has_ended(self):
        return not self.place().startswith('at ')

    def is_faulty(self):
        return self.place().startswith('fault ')

    def callers(self):
        """Of each call that has not returned, the innermost first: where it returns to, and its r6 to r9."""
        return self.cached('callers', self.find_callers)

    def find_callers(self):
        found = (RETURNS.match(line) for line in self.ask('info frames')[1:])
        return [(int(row[1]), [int(row[at], 16) for at in range(2, 6)]) for row in found]

    def depth(self):
        return len(self.callers())

    def registers_of(self, level):
        """The registers of a frame, 0 for the innermost: of callers those that come back, r10, and pc at the call."""
        if level == 0:
            return self.registers()
        returns, saved = self.callers()[level - 1]
        own = {f'r{6 + at}': value for at, value in enumerate(saved)}
        depth = self.depth() - level
        return {**own, 'r10': FRAMES + FRAME_SIZE + FRAME_STRIDE * depth, 'pc': self.before(returns)}

    # its program

    def read_code(self):
        """Reads the program's instructions."""
        slot = 0
        while True:
            reply = self.ask(f'disas {slot} {PART}')
            if reply[0].startswith('refused '):
                break
            self.code.update((int(at), text) for at, _, text in (line.partition(': ') for line in reply))
            last = int(reply[-1].partition(':')[0])
            slot = last + (2 if self.code[last].split()[0] in WIDE else 1)
            if len(reply) < PART:
                break
        self.slots = sorted(self.code)
        self.functions = self.loaded.source.function_starts(self.code)
        self.starts = sorted(self.functions)
        self.traces = 'call 64' in self.code.values()

    def before(self, slot):
        """The slot of the instruction before one."""
        at = bisect.bisect_left(self.slots, slot)
        return self.slots[at - 1] if at else slot

    def after(self, slot):
        """The slot of the instruction behind one."""
        at = bisect.bisect_right(self.slots, slot)
        return self.slots[at] if at < len(self.slots) else slot

    def slots_of(self, start):
        """The slots of the function that begins there."""
        at = bisect.bisect_right(self.starts, start)
        end = self.starts[at] if at < len(self.starts) else self.slots[-1] + 1
        return self.slots[bisect.bisect_left(self.slots, start):bisect.bisect_left(self.slots, end)]

    def start_of(self, slot):
        """Where the function of a slot begins."""
        at = bisect.bisect_right(self.starts, slot)
        return self.starts[at - 1] if at else 0

    def function(self, slot):
        """The name of the function of a slot."""
        return self.functions.get(self.start_of(slot), f'slot {slot}')

    # its memory

    def regions(self):
        """Each region: its name, its first address, and how many bytes it has."""
        maps = [(name, MAPS + MAP_STRIDE * at, size * count)
                for at, (name, (size, count)) in enumerate(zip(self.loaded.map_names, self.loaded.maps))]
        frames = [(f'frame {at}', FRAMES + FRAME_STRIDE * at, FRAME_SIZE) for at in range(DEEPEST + 1)]
        context = [('the context', CONTEXT, self.loaded.context_size)] if self.loaded.context_size else []
        return context + frames + maps

    def where(self, address):
        """In words where an address lies."""
        best = None
        for name, first, size in self.regions():
            if first <= address < first + size:
                return f'{address:#x} is byte {address - first} of {name}'
            if address >= first + size:
                best = name, first, size
        for at, name in enumerate(self.loaded.map_names):
            if address == TOKENS + at:
                return f'{address:#x} is the token of {name}, and no address'
        if best is None:
            return f'{address:#x} lies below all regions'
        name, first, size = best
        return f'{address:#x} lies in no region, {address - first - size:#x} bytes behind {name} ({size} bytes at {first:#x})'

    def present(self, address, size):
        """How many of the bytes from an address on are there, in one region."""
        return next((min(size, first + length - address) for _, first, length in self.regions() if first <= address < first + length), 0)

    def read(self, address, size):
        """Bytes of memory; an error in bpfdb's words if some aren't there."""
        content = b''
        while len(content) < size:
            part = min(size - len(content), MOST_BYTES)
            content += bytes.fromhex(self.demand(f'x {address + len(content):#x} {part}')[0].partition(': ')[2])
        return content

    def write(self, address, content):
        """Writes bytes, each piece an edit; none where the first isn't there."""
        for at in range(0, len(content), MOST_BYTES):
            self.demand(f'set mem {address + at:#x} {content[at:at + MOST_BYTES].hex()}')

"""What names mean in a stopped program: by bpfdb alone registers, labels and addresses; by a gdb with Python all of C."""

import json
import os
import re
import shutil
import subprocess
import tempfile

from bpfdb import foreign
from bpfdb.expressions import REGISTER, Expression
from bpfdb.protocol import Failed
from bpfdb.session import Ended, Hint
from bpfdb.texts import plain
from bpfdb.views import View, row

HERE = os.path.dirname(os.path.realpath(__file__))
GDBS = ('gdb', 'gdb-multiarch')
IN_GDB = ("python import os, sys; sys.dont_write_bytecode = True; sys.path.append(os.environ['BPFDB_PACKAGE']); "
          "import bpfdb.in_gdb; bpfdb.in_gdb.main()")
# A register of bpfdb among words of C, which gdb knows with a `$`.
BARE = re.compile(r'(?<![\w$.>])r(10|[0-9])\b')
# What is a register whatever names the program has.
OWN = re.compile(r'\$?(?:r10|r[0-9])|\$(?:pc|sp|fp)')
WRITES = "it would write, which is for the console and for what is set"
# A name that is neither a register nor a type of bpfdb's own expressions.
WORD = re.compile(r'(?<![\w$])(?!(?:r10|r[0-9]|pc|[us](?:8|16|32|64))\b)[A-Za-z_]')
# What goes elsewhere than to the next instruction.
LEAVES = re.compile('j|call|exit')
# The most rows of a value.
MOST_ROWS = 1000


class Frame:
    """A frame: its function, its slot (in a caller the call's), the machine's frame in which it is, and its line where that is known otherwise."""

    def __init__(self, name, slot, level, path=None, line=None):
        self.name, self.slot, self.level, self.path, self.line = name, slot, level, path, line


class OwnNames:
    """Names by bpfdb alone."""

    def __init__(self, machine):
        self.machine = machine

    def moved(self):
        """The state is another one."""

    def frames(self):
        """The frames, the innermost first."""
        machine = self.machine
        slots = [machine.slot(), *(machine.before(returns) for returns, _ in machine.callers())]
        return [Frame(machine.function(slot), slot, level) for level, slot in enumerate(slots)]

    def body(self, slot):
        """Where a function that begins at a slot is stopped in: there, since the registers have its arguments."""
        return slot

    def scopes(self, number):
        """Further parts of the tree of variables, with their names."""
        return []

    def expression(self, text, number):
        machine = self.machine
        return Expression(text, machine.registers_of(number), machine.loaded.source.labels, machine.read)

    def evaluate(self, text, number, may_write=False):
        """The value of an expression in a frame, as the protocol has it."""
        value = self.expression(text, number).value()
        place = self.expression(text, number).place()
        return {'value': f'{value.bits:#x}' + (f' ({value.number()})' if value.signed or 9 < value.bits < 1 << 32 else ''),
                'type': 's64' if value.signed else 'u64', 'memoryReference': f'{place[0] if place else value.bits:#x}'}

    def holds(self, condition):
        """Whether an expression isn't 0, in the innermost frame."""
        return self.expression(condition, 0).value().bits != 0

    def place(self, text, number):
        """The address and the size of what an expression names; of an address a byte there; None of a register."""
        if REGISTER.fullmatch(text):
            return None
        address, colon, count = text.rpartition(':')
        if colon and count.isdecimal() and len(count) < 4:
            return self.expression(address, number).value().bits, int(count)
        return self.expression(text, number).place() or (self.expression(text, number).value().bits, 1)

    def assign(self, text, value, number):
        """Sets a register or bytes. The value that it has then, as text."""
        bits = self.expression(value, number).value().bits
        register = REGISTER.fullmatch(text)
        if register:
            if number:
                raise Failed('the registers of a caller are set where it goes on')
            name = {'sp': 'r10', 'fp': 'r10'}.get(register[1], register[1])
            self.machine.demand(f'set pc {bits}' if name == 'pc' else f'set reg {name} {bits:#x}')
            return f'{bits:#x}'
        place = self.expression(text, number).place()
        if not place:
            raise Failed(f'{text} is nothing to set: a register, or bytes as *(u32 *)r1')
        self.machine.write(place[0], (bits & ((1 << 8 * place[1]) - 1)).to_bytes(place[1], 'little'))
        return f'{bits & ((1 << 8 * place[1]) - 1):#x}'

    def asked(self, words):
        """What `origin` is asked about, in bpfdb's words."""
        text = ' '.join(words)
        register = REGISTER.fullmatch(text)
        if register or not text:
            return [register[1]] if register else []
        address, size = self.place(text, 0)
        return [f'{address:#x}:{size}']

    def origin(self, words):
        """The lines of `origin`."""
        return unless_refused(self.machine.program.origin(self.asked(words))[1])

    def whynot(self, slots):
        """The lines of `whynot`."""
        return unless_refused(self.machine.program.asked('whynot', [slots])[1])

    def known(self):
        """Names that may stand in an expression."""
        return {f'r{at}' for at in range(11)} | {'pc'} | set(self.machine.loaded.source.labels)


def unless_refused(lines):
    """The lines of an answer, which is no refusal."""
    if lines and lines[0].startswith('refused '):
        raise Hint(lines[0])
    return lines


class Written(Hint):
    """A call wrote that was to write nothing: it is refused, and its edits were taken back."""

    def __init__(self, count):
        super().__init__(WRITES)
        self.count = count


class Gdb:
    """gdb with bpfdb behind it, to which the adapter's lines go. (in_gdb.py answers there.)"""

    def __init__(self, program, name):
        asked, answered = os.pipe(), os.pipe()
        # (by its own locale gdb may read no names but those of ASCII)
        environment = dict(os.environ, BPFDB=shutil.which(program) or program, DEBUGINFOD_URLS='', BPFDB_CHANNEL=f'{asked[0]},{answered[1]}',
                           BPFDB_PACKAGE=os.path.dirname(HERE), LC_ALL='C.UTF-8')
        self.errors = tempfile.TemporaryFile()
        # (a group of its own: an interrupt doesn't end it)
        self.child = subprocess.Popen([name, '-q', '-nx', '-batch', '-ex', IN_GDB], stdin=subprocess.DEVNULL,
                                      stdout=subprocess.DEVNULL, stderr=self.errors, pass_fds=[asked[0], answered[1]], env=environment,
                                      preexec_fn=os.setpgrp)
        os.close(asked[0])
        os.close(answered[1])
        self.to, self.of = os.fdopen(asked[1], 'w', encoding='utf-8'), os.fdopen(answered[0], encoding='utf-8', errors='replace')
        self.moves = 0

    def call(self, name, *words):
        """What a function of in_gdb.py answers; an error of gdb's in its own words."""
        try:
            self.to.write(json.dumps([name, *words]) + '\n')
            self.to.flush()
            line = self.of.readline()
        except OSError:
            raise Ended from None
        if not line:
            raise Ended
        answer = json.loads(line)
        if 'lost' in answer:
            raise Ended
        if 'written' in answer:
            raise Written(answer['written'])
        if 'error' in answer:
            raise Hint(answer['error'])
        return answer['done']

    def ask(self, line):
        """The lines of bpfdb's reply."""
        return self.call('ask', line)

    def end(self):
        """Its status, and why it ended."""
        status = self.kill()
        self.errors.seek(0)
        return status, self.errors.read(4096).decode(errors='replace') or 'gdb, or bpfdb behind it, has ended'

    def kill(self):
        for stream in (self.to, self.of):
            try:
                stream.close()
            except OSError:
                pass
        try:
            return self.child.wait(5)
        except subprocess.TimeoutExpired:
            self.child.kill()
            return self.child.wait()


class GdbNames(OwnNames):
    """Names by gdb, and where it has none by bpfdb."""

    def __init__(self, machine, gdb, version):
        super().__init__(machine)
        self.gdb, self.version, self.bodies = gdb, version, {}

    def moved(self):
        self.gdb.call('moved')

    def frames(self):
        before = self.machine.before
        return [Frame(name or self.machine.function(slot), before(slot) if level else slot, level, path, line or None)
                for name, slot, level, path, line in self.gdb.call('frames')]

    def body(self, slot):
        """The same by gdb: behind its prologue, where variables in memory have the arguments too, if each way through the function leads there."""
        machine = self.machine
        if slot not in machine.functions or machine.loaded.source.of_instructions:
            return slot
        if slot not in self.bodies:
            behind = self.gdb.call('behind', slot)
            before = [machine.code[other] for other in machine.slots_of(slot) if other < behind]
            self.bodies[slot] = slot if any(LEAVES.match(text) for text in before) else behind
        return self.bodies[slot]

    def scopes(self, number):
        return [('Locals', Locals(self, number))]

    def call(self, name, *words):
        """What gdb answers. What it wrote against the rule, and what is taken back of it, is in the history no more."""
        try:
            return self.gdb.call(name, *words)
        except Written as fault:
            self.machine.history.retract(fault.count)
            self.machine.kept = {}
            raise

    def in_c(self, text, may_write=False):
        """An expression as gdb has it."""
        if not may_write and foreign.assigns(text):
            raise Hint(WRITES)
        return BARE.sub(r'$r\1', foreign.expression(text))

    def evaluate(self, text, number, may_write=False):
        if OWN.fullmatch(text):
            return super().evaluate(text, self.level(number))
        try:
            found, moves = self.call('evaluate' if may_write else 'look', self.in_c(text, may_write), number)
        except Written:
            raise
        except Hint as refusal:
            try:
                return super().evaluate(text, self.level(number))
            except Hint:
                raise refusal from None
        self.count(moves)
        return self.shown(found, number)

    def count(self, moves):
        """Counts edits that gdb made."""
        for _ in range(moves):
            self.machine.history.forward(1, True)
        if moves:
            self.machine.kept = {}

    def level(self, number):
        """The machine's frame of one of gdb's, of which several may be in one where functions are inlined."""
        frames = self.frames()
        return frames[number].level if number < len(frames) else 0

    def shown(self, found, number):
        """A value of gdb's as the protocol has it."""
        view = Members(self, found['path'], number) if found['members'] else None
        kept = {name: found[name] for name in ('value', 'type', 'memoryReference') if name in found}
        return {**kept, **({'view': view} if view else {})}

    def holds(self, condition):
        """The same. What has no names of C means what it means by bpfdb alone, and takes a twentieth of the time."""
        if not WORD.search(condition):
            return super().holds(condition)
        return self.call('holds', self.in_c(condition))

    def place(self, text, number):
        try:
            found = self.place_at([['text', self.in_c(text)]], number)
        except Written:
            raise
        except Hint:
            found = None
        return found or super().place(text, self.level(number))

    def place_at(self, path, number):
        """The address and the size of what is at a path; None of what has no address."""
        found = self.call('place', path, number)
        return tuple(found) if found else None

    def assign(self, text, value, number):
        if OWN.fullmatch(text):
            return super().assign(text, str(self.call('number', self.in_c(value), number)), self.level(number))
        try:
            return self.assign_at([['text', self.in_c(text)]], value, number)
        except Hint as refusal:
            try:
                return super().assign(text, value, self.level(number))
            except (Hint, Failed):
                raise refusal from None

    def assign_at(self, path, value, number):
        """Sets what is at a path. The value that it has then, as text."""
        shown, moves = self.call('assign', path, self.in_c(value), number)
        self.count(moves)
        return shown

    def origin(self, words):
        text = ' '.join(words)
        return unless_refused(self.gdb.call('origin', self.in_c(text)))

    def whynot(self, slots):
        return unless_refused(self.gdb.call('whynot', slots))

    def known(self):
        return super().known() | set(self.gdb.call('known'))


class Locals(View):
    """The variables of a frame, by gdb."""

    def __init__(self, names, number):
        super().__init__(names.machine)
        self.names, self.number = names, number

    def found(self):
        return self.names.call('locals', self.number)

    def rows(self, first, count, hold):
        made = []
        for one in self.found():
            view = hold(Members(self.names, one['path'], self.number)) if one['members'] else 0
            made.append(row(one['name'], one['value'], one['type'], view, expression=one['expression'],
                            **({'memoryReference': one['memoryReference']} if 'memoryReference' in one else {})))
        return made[first:first + count if count else MOST_ROWS]

    def one(self, name):
        """The path of a row, which has the name that is shown."""
        found = next((one['path'] for one in self.found() if plain(one['name']) == name), None)
        if found is None:
            raise Failed(f'there is no {name}')
        return found

    def assign(self, name, text, evaluate):
        return self.names.assign_at(self.one(name), text, self.number)

    def place(self, name):
        return self.names.place_at(self.one(name), self.number)


class Members(Locals):
    """What a value of C consists of."""

    def __init__(self, names, path, number):
        super().__init__(names, number)
        self.path = path

    def found(self):
        return self.names.call('members', self.path, self.number)


def gdb_for(program):
    """A gdb that has what is needed, and its version; none where there is none."""
    for name in GDBS:
        if shutil.which(name):
            gdb = Gdb(program, name)
            try:
                return gdb, gdb.call('version')
            except (Ended, Hint, ValueError):
                gdb.kill()
    return None, None

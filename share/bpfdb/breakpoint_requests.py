"""What an editor asks of breakpoints: of lines, functions, instructions and data."""

import os
import re

from bpfdb.foreign import Unfit
from bpfdb.machine import SLOT
from bpfdb.protocol import NOTHING, Failed
from bpfdb.session import Hint
from bpfdb.stops import BRACES, MOST_WATCHES, Breakpoint


DATA = re.compile(r'(0x[0-9a-f]+):(\d+)')
# The number by which an editor asks for the list of instructions.
INSTRUCTIONS = 1


class BreakpointRequests:
    """Those of an adapter."""

    def told(self, stop, line=None, slot=None):
        """A breakpoint as the protocol has it."""
        found = {'id': stop.number, 'verified': bool(stop.slots or stop.data) and not stop.problem}
        if stop.problem:
            found['message'] = stop.problem
        if line is not None:
            found['line'] = line - 1 + self.lines_from_1
        if slot is not None:
            found['instructionReference'] = f'{SLOT * slot:#x}'
        return found

    def breakpoint(self, asked, slots, data=None):
        return Breakpoint(self.stops.number(), slots, data, asked.text('condition', '').strip(), asked.text('hitCondition', '').strip(),
                          asked.text('logMessage', ''))

    def do_setBreakpoints(self, arguments):
        source, made = arguments.part('source'), []
        group = self.key_of(source)
        asked = arguments.items('breakpoints')
        for one in asked:
            line = one.number('line') + 1 - self.lines_from_1
            at, slots = self.slots_of(group, line)
            stop = self.breakpoint(one, slots)
            stop.problem = stop.problem or ('' if slots else f'there is no instruction at line {line} or behind it')
            made.append((stop, at if slots else line))
        self.stops.replace(group, [stop for stop, _ in made])
        self.stops.settle(self.machine)
        return {'breakpoints': [self.told(stop, at, stop.slots[0] if stop.slots else None) for stop, at in made]}

    def key_of(self, source):
        """The file of a source, or the number by which its text is asked for."""
        path = source.text('path', '')
        if source.number('sourceReference', 0) == INSTRUCTIONS and not path:
            return INSTRUCTIONS
        if not path:
            raise Failed('source: a path is wanted')
        known = self.paths()
        if path in known:
            return path
        same = os.path.realpath(path)
        return next((one for one in known if os.path.realpath(one) == same), path)

    def paths(self):
        """The files of the program's lines."""
        return sorted(set(self.machine.loaded.source.paths.values()))

    def slots_of(self, group, line):
        """The line, or the next one that has instructions, and of each function that has some of it the first slot."""
        machine = self.machine
        if group == INSTRUCTIONS:
            return line, machine.slots[line - 1:line] if line > 0 else []
        source = machine.loaded.source
        lines = {slot: at for slot, (_, at, _) in source.lines.items() if source.paths[slot] == group}
        later = [at for at in lines.values() if at >= line]
        if not later:
            return line, []
        wanted, firsts = min(later), {}
        for slot in sorted(slot for slot, at in lines.items() if at == wanted):
            firsts.setdefault(machine.start_of(slot), slot)
        return wanted, list(map(self.names.body, firsts.values()))

    def do_setFunctionBreakpoints(self, arguments):
        made = []
        for one in arguments.items('breakpoints'):
            name = one.text('name').strip()
            named = [slot for slot, function in self.machine.functions.items() if function == name]
            slots = named or ([self.machine.loaded.source.labels[name]] if name in self.machine.loaded.source.labels else [])
            stop = self.breakpoint(one, map(self.names.body, slots))
            stop.problem = stop.problem or ('' if slots else f'there is no function and no label {name}')
            made.append(stop)
        return self.set_stops('functions', made)

    def do_setInstructionBreakpoints(self, arguments):
        made = []
        for one in arguments.items('breakpoints'):
            address = self.address_of(one.text('instructionReference')) + one.number('offset', 0)
            stop = self.breakpoint(one, [address // SLOT] if address % SLOT == 0 and address // SLOT in self.machine.code else [])
            stop.problem = stop.problem or ('' if stop.slots else f'no instruction starts at {address:#x}')
            made.append(stop)
        return self.set_stops('instructions', made)

    def set_stops(self, group, made):
        self.stops.replace(group, made)
        self.stops.settle(self.machine)
        return {'breakpoints': [self.told(stop, slot=stop.slots[0] if stop.slots else None) for stop in made]}

    def do_setExceptionBreakpoints(self, arguments):
        return {'breakpoints': []}

    def do_dataBreakpointInfo(self, arguments):
        name, size = arguments.text('name'), arguments.number('bytes', NOTHING)
        try:
            if arguments.number('variablesReference', 0):
                place = self.view(arguments.number('variablesReference')).place(name)
            elif arguments.flag('asAddress'):
                place = self.address_of(name), 1
            else:
                place = self.names.place(name, self.level(arguments))
        except (Hint, Unfit) as why:
            return {'dataId': None, 'description': str(why)}
        if place is None:
            return {'dataId': None, 'description': f'{name} is in no memory: bytes are watched, not registers'}
        address, size = place[0], place[1] if size is None else size
        if not size or size < 1 or self.machine.present(address, size) < min(size, MOST_WATCHES):
            return {'dataId': None, 'description': f'{address:#x} is no address of {size} bytes that are there'}
        cut = min(size, MOST_WATCHES)
        return {'dataId': f'{address:#x}:{cut}', 'accessTypes': ['write'], 'canPersist': False,
                'description': name if cut == size else f'{name}: the first {cut} of its {size} bytes (bpfdb watches no more)'}

    def do_setDataBreakpoints(self, arguments):
        made = []
        for one in arguments.items('breakpoints'):
            found = DATA.fullmatch(one.text('dataId'))
            size = int(found[2]) if found and len(found[2]) < 3 else 0
            stop = self.breakpoint(one, (), (int(found[1], 16), size) if 0 < size <= MOST_WATCHES else None)
            stop.problem = stop.problem or ('' if stop.data else f'no data: {one.text("dataId")}')
            if one.text('accessType', 'write') != 'write':
                stop.problem, stop.data = 'bpfdb stops where bytes change, not where they are read', None
            made.append(stop)
        return self.set_stops('data', made)

    def holds(self, stop):
        """Whether a breakpoint's condition holds. One that has no value does, and the editor is told why it has none."""
        try:
            return self.names.holds(stop.condition)
        except (Hint, Failed, Unfit) as fault:
            self.say(f'the condition {stop.condition}: {fault}\n', 'important')
            return True

    def tell(self, stop):
        """Prints a breakpoint's line, in which what stands between braces has its value."""
        def value(found):
            try:
                return self.names.evaluate(found[1], 0)['value']
            except (Hint, Failed, Unfit) as fault:
                return f'<{fault}>'
        self.say(BRACES.sub(value, stop.message) + '\n', 'stdout')

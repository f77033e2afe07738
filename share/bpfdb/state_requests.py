"""What an editor asks of the state: frames, variables, memory, instructions and sources."""

import base64
import binascii
import bisect
import os

from bpfdb.breakpoint_requests import INSTRUCTIONS
from bpfdb.machine import SLOT
from bpfdb.protocol import Failed
from bpfdb.views import Context, Maps, Registers, Stack


THREAD, MOST_READ = 1, 1 << 20


class StateRequests:
    """Those of an adapter."""

    def do_threads(self, arguments):
        return {'threads': [{'id': THREAD, 'name': os.path.basename(self.wanted.file)}]}

    def source_at(self, slot):
        """The source and the line of a slot: of the program's own lines, or else of the list of its instructions."""
        source = self.machine.loaded.source
        if slot in source.lines:
            path = source.paths[slot]
            return {'name': os.path.basename(path), 'path': path}, source.lines[slot][1]
        return self.list_of_instructions(), bisect.bisect_right(self.machine.slots, slot)

    def list_of_instructions(self):
        return {'name': self.instructions, 'sourceReference': INSTRUCTIONS, 'presentationHint': 'deemphasize'}

    def do_stackTrace(self, arguments):
        self.frames = self.frames or self.names.frames()
        first, count = arguments.number('startFrame', 0), arguments.number('levels', 0) or len(self.frames)
        if first < 0 or count < 0:
            raise Failed('startFrame and levels: numbers from 0 on are wanted')
        found = []
        for at, frame in list(enumerate(self.frames))[first:first + count]:
            source, line = self.source_at(frame.slot)
            if frame.line is not None:
                source, line = {'name': os.path.basename(frame.path), 'path': frame.path}, frame.line
            found.append({'id': at, 'name': frame.name, 'source': source, 'line': line - 1 + self.lines_from_1, 'column': self.columns_from_1,
                          'instructionPointerReference': f'{SLOT * frame.slot:#x}'})
        return {'stackFrames': found, 'totalFrames': len(self.frames)}

    def frame(self, number):
        self.frames = self.frames or self.names.frames()
        if not 0 <= number < len(self.frames):
            raise Failed(f'frameId: there is no frame {number}')
        return self.frames[number]

    def level(self, arguments):
        """The number of the frame that is asked about, 0 if none is."""
        number = arguments.number('frameId', 0)
        self.frame(number)
        return number

    def hold(self, view):
        self.views.append(view)
        return len(self.views) - 1

    def view(self, number):
        if not 0 < number < len(self.views):
            raise Failed('variablesReference: nothing is known by it now')
        return self.views[number]

    def do_scopes(self, arguments):
        number = arguments.number('frameId')
        frame, machine = self.frame(number), self.machine
        depth = machine.depth() - frame.level
        parts = [(name, view, 'locals', False) for name, view in self.names.scopes(number)]
        parts += [('Registers', Registers(machine, frame.level), 'registers', False), ('Stack', Stack(machine, depth), '', False)]
        parts += [('Context', Context(machine), '', False)] if machine.loaded.context_size else []
        parts += [('Maps', Maps(machine), '', False)] if machine.loaded.maps else []
        return {'scopes': [{'name': name, 'variablesReference': self.hold(view), 'expensive': expensive,
                            **({'presentationHint': hint} if hint else {}), **({'indexedVariables': view.count()} if view.count() else {})}
                           for name, view, hint, expensive in parts]}

    def do_variables(self, arguments):
        view = self.view(arguments.number('variablesReference'))
        first, count = arguments.number('start', 0), arguments.number('count', 0)
        if first < 0 or count < 0:
            raise Failed('start and count: numbers from 0 on are wanted')
        if arguments.text('filter', 'named' if not view.count() else 'indexed') == ('named' if view.count() else 'indexed'):
            return {'variables': []}
        return {'variables': view.rows(first, count or view.count(), self.hold)}

    def number_of(self, text):
        """The number that a text comes to."""
        return self.names.expression(text, 0).value().bits

    def do_setVariable(self, arguments):
        self.machine.history.begin()
        view = self.view(arguments.number('variablesReference'))
        value = view.assign(arguments.text('name'), arguments.text('value').strip(), self.number_of)
        self.changed()
        return {'value': value}

    def do_setExpression(self, arguments):
        self.machine.history.begin()
        value = self.names.assign(arguments.text('expression').strip(), arguments.text('value').strip(), self.level(arguments))
        self.changed()
        return {'value': value}

    def do_readMemory(self, arguments):
        address, count = self.address_of(arguments.text('memoryReference')) + arguments.number('offset', 0), arguments.number('count')
        if not 0 <= count <= MOST_READ or address < 0:
            raise Failed(f'count: at most {MOST_READ} bytes are wanted')
        present = self.machine.present(address, count)
        content = self.machine.read(address, present) if present else b''
        return {'address': f'{address:#x}', **({'data': base64.b64encode(content).decode()} if content else {}),
                **({'unreadableBytes': count - present} if count > present else {})}

    def do_writeMemory(self, arguments):
        address = self.address_of(arguments.text('memoryReference')) + arguments.number('offset', 0)
        try:
            content = base64.b64decode(arguments.text('data'), validate=True)
        except (binascii.Error, ValueError):
            raise Failed('data: text in base 64 is wanted') from None
        present = self.machine.present(address, len(content))
        if present < len(content) and (not arguments.flag('allowPartial') or not present):
            raise Failed('refused Q6: address not present')
        self.machine.history.begin()
        self.machine.write(address, content[:present])
        self.changed()
        return {'bytesWritten': present}

    def do_disassemble(self, arguments):
        slots = self.machine.slots
        address = self.address_of(arguments.text('memoryReference')) + arguments.number('offset', 0)
        count, first = arguments.number('instructionCount'), arguments.number('instructionOffset', 0)
        if not 0 <= count <= 65536 or abs(first) > 1 << 24:
            raise Failed('instructionCount: at most 65536 are wanted')
        at, found, last = bisect.bisect_left(slots, address // SLOT) + first, [], None
        for place in range(at, at + count):
            if not 0 <= place < len(slots):
                # (there is nothing there; addresses go on upwards all the same)
                beyond = SLOT * (slots[-1] + 2 + place - len(slots)) if place >= 0 else (1 << 64) + SLOT * place
                found.append({'address': f'{beyond:#x}', 'instruction': '(no instruction)', 'presentationHint': 'invalid'})
                continue
            slot = slots[place]
            row = {'address': f'{SLOT * slot:#x}', 'instruction': self.machine.code[slot]}
            if slot in self.machine.functions:
                row['symbol'] = self.machine.functions[slot]
            source, line = self.source_at(slot)
            if 'path' in source and (source['path'], line) != last:
                row['location'], row['line'] = source, line - 1 + self.lines_from_1
                last = source['path'], line
            found.append(row)
        return {'instructions': found}

    def do_loadedSources(self, arguments):
        own = [{'name': os.path.basename(path), 'path': path} for path in self.paths()]
        return {'sources': own + [self.list_of_instructions()]}

    def do_source(self, arguments):
        if (arguments.number('sourceReference', 0) or arguments.part('source').number('sourceReference', 0)) != INSTRUCTIONS:
            raise Failed('sourceReference: nothing is known by it')
        rows = []
        for slot in self.machine.slots:
            rows.append(f'{slot:5} {self.machine.code[slot]}' + (f'  ; {self.machine.functions[slot]}' if slot in self.machine.functions else ''))
        return {'content': '\n'.join(rows) + '\n', 'mimeType': 'text/x-bpfdb'}

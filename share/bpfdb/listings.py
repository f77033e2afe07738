"""The program at the prompt: its instructions and lines, its functions and labels, and the calls that have not returned."""

import re

from bpfdb.session import WIDE, Hint
from bpfdb.texts import number


class Listings:
    """The commands about the program: part of the Shell."""

    def instructions(self):
        """Each instruction's text by its slot."""
        if self.code is None:
            self.code, slot = {}, 0
            while True:
                reply = self.program.ask(f'disas {slot} 256')
                if reply[0].startswith('refused '):
                    break
                for line in reply:
                    at, _, text = line.partition(': ')
                    self.code[int(at)] = text
                slot = max(self.code) + (2 if self.code[max(self.code)].split()[0] in WIDE else 1)
        return self.code

    def list(self, name, rest, form):
        if rest:
            return self.disassemble(name, rest, form)
        slots = sorted(self.instructions())
        if self.next_listed is None:
            pc = self.registers()['pc']
            start = max(sum(slot < pc for slot in slots) - 4, 0)
        else:
            start = sum(slot < self.next_listed for slot in slots)
        if start >= len(slots):
            raise Hint("the program ends there; 'l 0' begins anew")
        self.disassemble(name, f'{slots[start]}, 10', form)

    def disassemble(self, name, rest, form):
        parts = re.split(r'\s*,\s*|\s+', rest) if rest else []
        if not parts:
            self.next_listed = None
            return self.list('list', '', '')
        slot = self.slot(parts[0])
        asked = f'disas {slot} {self.word(parts[1]) if len(parts) > 1 else 10}' if len(parts) < 3 else f'disas {rest}'
        reply = self.send(asked, quiet=True)
        if self.is_refused(asked, reply):
            return
        if name != 'x':
            self.next_listed = int(reply[-1].partition(':')[0]) + 1
        pc = self.registers()['pc'] if self.terminal else None
        told = None
        for line in reply:
            at, _, text = line.partition(': ')
            if not self.terminal:
                self.say(line)
                continue
            here = self.source.lines.get(int(at))
            if here and not self.source.of_instructions and here != told:
                self.say(self.source.line_of(int(at)))
            told = here
            shown = f'{at}: {self.source.line_of(int(at))}' if here and self.source.of_instructions else line
            self.say(('=> ' if int(at) == pc else '   ') + shown, '1' if int(at) == pc else '')

    def place(self, part, place):
        """The functions or labels with their slots; or the line, or the name, of the next instruction or of a place."""
        if part in ('functions', 'labels'):
            for name, slot in sorted(self.source.labels.items(), key=lambda one: one[1]):
                self.say(f'{slot}: {name}')
            return
        slot = number(self.slot(place or '$pc'))
        name = '' if slot is None else self.source.name(slot)
        if part == 'symbol' and name:
            self.say(f'{slot}: {name}')
        elif part == 'line' and slot in self.source.lines:
            self.say(f'{slot}: {self.source.line_of(slot)}')
        else:
            raise Hint(f'no {part} is known of {place or slot}')

    def frames(self, name, rest, form):
        """The calls that have not returned, each with its function and its line where these are known."""
        reply = self.send('info frames', quiet=True)
        returns = [int(line.split()[2]) for line in reply[1:]]
        slots = sorted(self.instructions())
        # (of a caller the call counts, which stands before the place where it returns to)
        places = [self.registers()['pc'], *(max((slot for slot in slots if slot < place), default=place) for place in returns)]
        for line, slot in zip(reply, places):
            self.say(line + self.function_of(slot))

    def function_of(self, slot):
        """A slot's function and line, as they stand behind a line; empty where names aren't known."""
        starts = self.source.function_starts(self.instructions()) if self.source.labels or self.source.lines else {}
        start = max((start for start in starts if start <= slot), default=None)
        file, at, _ = self.source.lines.get(slot, ('', 0, ''))
        return (f', in {starts[start]}' if start is not None else '') + (f' ({file}:{at})' if file else '')

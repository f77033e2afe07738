"""Ways at the prompt that are more than a command of bpfdb: to a place, to the start, and a command as often as is said."""

import re

from bpfdb.session import MOVE
from bpfdb.texts import number


class Ways:
    """The commands that go further than one of bpfdb's: part of the Shell."""

    def until(self, name, rest, form):
        if rest:
            return self.advance(name, rest, form)
        pc = self.registers()['pc']
        code = self.instructions()
        back = re.search(r'\bL(\d+)$', code[pc])
        if back and int(back[1]) <= pc and not code[pc].startswith('callf'):
            return self.advance(name, str(pc + 1), form)
        return self.send('nexti')

    def advance(self, name, rest, form):
        slot = self.slot(rest or '')
        fresh = self.send(f'break {slot}', quiet=True)
        if not fresh[0].startswith('refused Q11') and self.is_refused(f'break {slot}', fresh):
            return
        self.send('continue')
        if fresh == ['ok']:
            self.send(f'delete {slot}', quiet=True)

    def jump(self, name, rest, form):
        if self.send(f'set pc {self.slot(rest)}')[:1] == ['ok']:
            self.send('continue')

    def rewind(self):
        """Goes back to the first kept step; where there is none, the session is there."""
        reply = self.program.ask('reverse-stepi 1000000000')
        if not reply[0].startswith('refused '):
            self.announce('reverse-stepi 1000000000')
            self.say(reply[0])
            self.moved = True
        self.tell_dropped()

    def start(self, name, rest, form):
        self.rewind()
        entry = self.source.entry(self.instructions()) if self.source.has_setup() else None
        if entry is not None:
            self.advance(name, str(entry), form)
        if not self.moved:
            self.stand()

    def run(self, name, rest, form):
        self.rewind()
        self.send('continue')

    def repeated(self, name, rest, form):
        """A command without a count in bpfdb, as many times as gdb would: until one of them stops for another reason."""
        count = number(rest) if rest else 1
        if count is None or count < 1:
            return self.send(f'{name} {rest}')
        expected = ('done',) if 'nexti' in name else ('break', 'watch')
        for _ in range(count):
            move = MOVE.match(self.send(name)[0])
            if self.interrupted or not move or move[3] not in expected:
                return

"""Breakpoints and watches at the prompt."""

import re

from bpfdb.habits import HINTS
from bpfdb.meanings import REGISTER
from bpfdb.session import Hint
from bpfdb.texts import number


class Halts:
    """The commands that set and remove them: part of the Shell."""

    def set_break(self, name, rest, form):
        place, _, condition = rest.partition(' if ')
        if condition:
            raise Hint(HINTS['condition'])
        return self.send(f'break {self.slot(place or "$pc")}')

    def break_once(self, name, rest, form):
        if self.set_break(name, rest, form) == ['ok']:
            self.once.add(number(self.slot(rest or '$pc')))

    def delete(self, name, rest, form):
        rest = re.sub(r'^breakpoints?\b\s*', '', rest)
        if rest:
            for place in rest.split():
                self.send(f'delete {self.slot(place)}')
            return
        for line in self.program.ask('info breaks'):
            stop, _, at = line.partition(' ')
            if at:
                self.send(f'{ {"break": "delete", "watch": "unwatch"}[stop]} {at}')
        self.once.clear()

    def watch(self, name, rest, form):
        if REGISTER.fullmatch(rest):
            raise Hint('bytes are watched, not registers; `watch *$r1` watches the byte that r1 points at')
        address, width = self.pointed(rest)
        if width is None:
            return self.send(f'watch {address}'.strip())
        if width == 8 or number(address) is None:
            raise Hint('there are four watches, of a byte each' if width == 8 else f'no address: {rest}')
        for at in range(width):
            self.send(f'watch {number(address) + at:#x}')

    def unwatch(self, name, rest, form):
        self.send(f'unwatch {self.pointed(rest)[0]}' if rest else 'unwatch')

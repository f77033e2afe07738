"""Breakpoints of an editor: those of lines, functions and instructions, and those of data, with their conditions and counts of hits."""

import re

from bpfdb.session import Hint

# A count of hits: `5` is the fifth, `>= 5` the fifth and those that follow, `% 5` each fifth.
HITS = re.compile(r'\s*(==|>=|>|<=|<|%)?\s*(\d{1,18})\s*')
# What a line that is printed at a hit has between braces is an expression.
BRACES = re.compile(r'\{([^{}]*)\}')
# How many bytes bpfdb watches.
MOST_WATCHES = 4


class Breakpoint:
    """One of the editor's breakpoints: the slots or the bytes that it stands for, when it stops, and how often it was met."""

    def __init__(self, number, slots=(), data=None, condition='', hits='', message=''):
        self.number, self.slots, self.data = number, tuple(slots), data
        self.condition, self.hits, self.message, self.count, self.problem = condition, hits, message, 0, ''
        if hits and not HITS.fullmatch(hits):
            self.problem, self.hits = f'no count of hits: {hits} (as 5, >= 5 or % 5)', ''

    def is_met(self):
        """Counts a hit that goes forwards; whether its number is one at which to stop."""
        self.count += 1
        if not self.hits:
            return True
        sign, number = HITS.fullmatch(self.hits).groups()
        number = int(number)
        return {None: self.count == number, '==': self.count == number, '>=': self.count >= number, '>': self.count > number,
                '<=': self.count <= number, '<': self.count < number, '%': number > 0 and self.count % number == 0}[sign]


class Stops:
    """All breakpoints, by where they come from: a file, 'functions', 'instructions' or 'data'."""

    def __init__(self):
        # (those that a way sets for itself, and takes away at its end, are marks)
        self.groups, self.last, self.marks = {}, 0, set()

    def number(self):
        self.last += 1
        return self.last

    def replace(self, group, breakpoints):
        """Puts these in the place of those that a group had. What stays the same keeps its count of hits."""
        old = {(stop.slots, stop.data, stop.condition, stop.hits): stop.count for stop in self.groups.get(group, [])}
        for stop in breakpoints:
            stop.count = old.get((stop.slots, stop.data, stop.condition, stop.hits), 0)
        self.groups[group] = breakpoints

    def all(self):
        return [stop for group in self.groups.values() for stop in group]

    def at(self, slot):
        return [stop for stop in self.all() if slot in stop.slots]

    def data(self):
        return self.groups.get('data', [])

    def bytes(self):
        """Each byte that is to be watched."""
        return {address for stop in self.data() if stop.data for address in range(stop.data[0], stop.data[0] + stop.data[1])}

    def settle(self, machine):
        """Lets bpfdb have just these. (What was set by hand, by its own commands, goes too.) What it refuses is told at the breakpoint."""
        shown = [line.partition(' ')[::2] for line in machine.ask('info breaks')]
        slots = {int(at) for kind, at in shown if kind == 'break'}
        watched = {int(at, 16) for kind, at in shown if kind == 'watch'}
        wanted, bytes_wanted = {slot for stop in self.all() for slot in stop.slots}, self.bytes()
        for slot in slots - wanted - self.marks:
            machine.ask(f'delete {slot}')
        for address in watched - bytes_wanted:
            machine.ask(f'unwatch {address:#x}')
        for stop in self.all():
            try:
                for slot in stop.slots:
                    if slot not in slots:
                        machine.demand(f'break {slot}')
                        slots.add(slot)
                for address in sorted(set(self.data_of(stop)) - watched):
                    machine.demand(f'watch {address:#x}')
                    watched.add(address)
            except Hint as refusal:
                stop.problem, stop.slots, stop.data = str(refusal), (), None

    def mark(self, machine, slots):
        """Sets breakpoints for a way, if there is room; whether there is."""
        for slot in slots:
            reply = machine.ask(f'break {slot}')
            if reply == ['ok']:
                self.marks.add(slot)
            elif not reply[0].startswith('refused Q11'):
                self.unmark(machine)
                return False
        return True

    def unmark(self, machine):
        """Takes them away, but for those that the editor has set meanwhile."""
        for slot in self.marks - {slot for stop in self.all() for slot in stop.slots}:
            machine.ask(f'delete {slot}')
        self.marks = set()

    def data_of(self, stop):
        return range(stop.data[0], stop.data[0] + stop.data[1]) if stop.data else ()

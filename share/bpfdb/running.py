"""How a machine runs for an editor: on and back, by lines and by instructions, in pieces, between which the editor is heard.

Each way to run is a generator. It yields behind each command of bpfdb, and returns the Stop at which it ended."""

from bpfdb.flow import Line
from bpfdb.session import Hint

# The steps of a piece, for which bpfdb takes some 7 ms.
PIECE = 250000
# How many steps within a line are made one by one.
FEW = 100
# Why a stop is no end of what was asked for.
WAYS = ('done', 'limit')


class Stop:
    """Why and where a run ended, in the protocol's words and in bpfdb's."""

    def __init__(self, reason, description='', hits=()):
        self.reason, self.description, self.hits = reason, description, list(hits)


class Runner:
    """Runs a machine. `holds` says whether a condition holds, `tell` shows a line, and `body` says where a function that begins is stopped in."""

    def __init__(self, machine, stops, limit, holds, tell, body):
        self.machine, self.stops, self.limit, self.holds, self.tell, self.body, self.with_lines = machine, stops, limit, holds, tell, body, {}

    # lines

    def line(self, slot):
        """What tells lines apart: file and line; the slot itself in a function without lines; None between lines."""
        source = self.machine.loaded.source
        if slot in source.lines:
            return source.paths[slot], source.lines[slot][1]
        return None if self.has_lines(self.machine.start_of(slot)) else ('', slot)

    def has_lines(self, start):
        """Whether the function that begins there has lines."""
        machine = self.machine
        if not self.with_lines:
            self.with_lines = dict.fromkeys(machine.starts, False)
            self.with_lines.update((machine.start_of(slot), True) for slot in machine.loaded.source.lines)
        return self.with_lines.get(start, False)

    # why a command of bpfdb stopped

    def stop(self, move, reason='step'):
        """The stop that a move comes to; None if a breakpoint is met that doesn't hold, and the way goes on."""
        if move.why == 'end':
            return self.end()
        if move.why == 'start':
            return self.beginning()
        if move.why == 'strict':
            return Stop('strict', move.said)
        if move.why == 'memory':
            return Stop('pause', 'no memory is left to keep a further move')
        if move.why in ('break', 'watch'):
            return self.met(move)
        return Stop(reason)

    def end(self):
        """The stop at the program's end, or at a fault."""
        place = self.machine.place()
        return Stop('exception' if place.startswith('fault ') else 'exited', place)

    def beginning(self):
        """The stop where the history begins."""
        dropped = self.machine.history.now
        return Stop('entry', 'the history begins here' + (f': {dropped} older moves were dropped (a larger journal keeps more)' if dropped else ''))

    def met(self, move):
        """The stop at a breakpoint or a watch whose condition holds; None if there is none."""
        back = move.kind == 'back'
        stops = self.stops.at(move.at()[0]) if move.why == 'break' else []
        hit = [stop for stop in stops if self.is_hit(stop, back)]
        if hit:
            return Stop('breakpoint', '', [stop.number for stop in hit])
        if move.why == 'break' and not stops:
            # (set by one of bpfdb's own commands)
            return Stop('breakpoint')
        changed = self.changed(back) if self.stops.data() else []
        hit = [stop for stop in changed if self.is_hit(stop, back)]
        if hit or move.why == 'watch' and not changed:
            return Stop('data breakpoint', '', [stop.number for stop in hit])
        return None

    def is_hit(self, stop, back):
        """Whether a breakpoint that is met stops. Counts of hits and lines to print are for the way forwards."""
        if stop.condition and not self.holds(stop):
            return False
        if back:
            stop.count = max(stop.count - 1, 0)
            return not stop.message
        if not stop.is_met():
            return False
        if stop.message:
            self.tell(stop)
        return not stop.message

    def changed(self, back):
        """The breakpoints of data whose bytes the last step changed, or behind a way back the next one."""
        if back:
            self.machine.move('redo 1')
        found = [stop for stop in self.stops.data() if any(self.is_last(address) for address in self.stops.data_of(stop))]
        if back:
            self.machine.move('reverse-stepi 1')
        return found

    def is_last(self, address):
        return self.machine.demand(f'last-write {address:#x}')[0].startswith('changed 1 moves back')

    # ways

    def on(self):
        """Goes on to a stop."""
        taken = 0
        while self.limit is None or taken < self.limit:
            piece = PIECE if self.limit is None else min(PIECE, self.limit - taken)
            move = self.machine.move(f'stepi {piece}')
            taken += move.count
            stop = None if move.why in WAYS else self.stop(move)
            if stop:
                return stop
            yield
        return Stop('pause', f'limit of {self.limit} steps: continue goes on')

    def back(self):
        """Goes back to a stop, or to where the history begins."""
        while True:
            stop = self.stop(self.machine.move('reverse-continue'))
            if stop:
                return stop
            yield

    def instruction(self, command):
        """Takes a step of one instruction, or a whole call."""
        if command == 'nexti':
            return (yield from self.over(self.machine.depth()))[1] or Stop('step')
        return self.stop(self.machine.move(command)) or Stop('step')

    def over(self, depth):
        """Takes a step, and the whole call if it makes one. Answers the last move, and the stop if there was one on the way."""
        move = self.machine.move('nexti')
        while True:
            yield
            stop = None if move.why in WAYS else self.stop(move)
            if stop or move.why == 'done' and move.line == 'nexti' or self.machine.depth() <= depth:
                return move, stop
            move = self.machine.move('finish')

    def out(self):
        """Goes on until the function has returned."""
        depth = self.machine.depth()
        while True:
            move = self.machine.move('finish')
            stop = None if move.why in WAYS else self.stop(move)
            if stop or self.machine.depth() < depth:
                return stop or Stop('step')
            yield

    def next_line(self, into):
        """Goes to the next line: in this function, in its caller where it returns, and if `into` in what it calls."""
        depth, slot, steps = self.machine.depth(), self.machine.slot(), 0
        start, text = self.line(slot), self.machine.code[slot]
        while True:
            steps += 1
            if steps % FEW == 0:
                stop = yield from self.leap(self.line_at(slot, start).exits(into), depth)
                if stop:
                    return stop
                slot, text = self.machine.slot(), self.machine.code[self.machine.slot()]
                if self.line(slot) not in (None, start):
                    return Stop('step')
            calls, returns = text.startswith('callf'), text == 'exit'
            if calls and not into:
                move, stop = yield from self.over(depth)
            else:
                move = self.machine.move('stepi')
                stop = None if move.why == 'done' else self.stop(move)
                yield
            if calls and into and not stop:
                return (yield from self.into_body())
            if stop or returns:
                return stop or Stop('step')
            slot, text = move.at()
            line = self.line(slot)
            if line is not None and line != start:
                return Stop('step')

    def into_body(self):
        """Goes on from the first instruction of a function through its prologue."""
        body = self.body(self.machine.slot())
        while self.machine.slot() < body:
            move = self.machine.move('stepi')
            stop = None if move.why == 'done' else self.stop(move)
            if stop:
                return stop
            yield
        return Stop('step')

    def line_back(self):
        """Goes back to where the line before this one began, or the present line if it has begun before; calls are passed. A step too far
        is made again."""
        machine, depth, line, steps = self.machine, self.machine.depth(), None, 0
        while True:
            steps += 1
            if steps == FEW and line is not None:
                stop = yield from self.leap_back(self.line_at(machine.slot(), line), depth)
                if stop:
                    return stop
            try:
                move = machine.move('reverse-nexti')
            except Hint:
                return self.beginning()
            yield
            if move.why == 'start':
                return self.beginning()
            slot, text = move.at()
            # (back from a function's first step, to the call)
            leaves = text.startswith('callf') and machine.depth() < depth
            if line is None and leaves:
                return Stop('step')
            now = self.line(slot)
            if line is not None and (leaves or now is not None and now != line):
                machine.move(f'redo {move.count}')
                return self.begun()
            line = line or now

    def begun(self):
        """The stop behind a step back, where a line begins: instructions between lines before it are made again."""
        while self.line(self.machine.slot()) is None:
            self.machine.move('redo 1')
        slot = self.machine.slot()
        if self.machine.depth() and self.body(slot) > slot:
            # (a prologue isn't stopped in: before it is the call)
            self.machine.move('reverse-stepi')
        return Stop('step')

    # many steps within a line

    def line_at(self, slot, line):
        """The instructions of a line in the function of a slot, with those between lines."""
        start = self.machine.start_of(slot)
        return Line(self.machine, start, [other for other in self.machine.slots_of(start) if self.line(other) in (line, None)])

    def leap(self, slots, depth):
        """Goes on to one of these slots at this depth. The stop if there is another one before; None there, or where there is no room."""
        try:
            has_room = self.stops.mark(self.machine, slots)
            while has_room:
                move = self.machine.move(f'stepi {PIECE}')
                at, _ = move.at()
                stop = None if move.why in WAYS or move.why == 'break' and not self.stops.at(at) and at in slots else self.stop(move)
                if stop or move.why == 'break' and at in slots and self.machine.depth() == depth:
                    return stop
                yield
        finally:
            self.stops.unmark(self.machine)

    def leap_back(self, line, depth):
        """Goes back to where a line was entered. None where that can't be told, or there is no room: then it stays."""
        entries = line.entries()
        try:
            has_room = entries and not self.machine.history.has_edits() and self.stops.mark(self.machine, entries)
            while has_room:
                move = self.machine.move('reverse-continue')
                if move.why == 'start':
                    return self.beginning()
                at, text = move.at()
                if move.why == 'break' and at in entries and self.machine.depth() == depth - text.startswith('callf'):
                    self.machine.move('redo 1')
                    return self.begun()
                yield
        finally:
            self.stops.unmark(self.machine)

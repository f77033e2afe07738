"""What an editor asks of the way that the program takes: steps and runs, both ways, and jumps."""

from bpfdb.breakpoint_requests import INSTRUCTIONS
from bpfdb.machine import SLOT
from bpfdb.protocol import Failed
from bpfdb.running import Stop



class WayRequests:
    """Those of an adapter."""

    def forward(self, way):
        """Runs forwards, where the program hasn't ended."""
        if self.machine.has_ended():
            raise Failed('refused Q3: the machine has ended')
        self.later = [lambda: self.run(way())]

    def by_instruction(self, arguments):
        granularity = arguments.text('granularity', 'statement')
        if granularity not in ('statement', 'line', 'instruction'):
            raise Failed('granularity: statement, line or instruction is wanted')
        return granularity == 'instruction'

    def do_continue(self, arguments):
        self.forward(self.runner.on)
        return {'allThreadsContinued': True}

    def do_next(self, arguments):
        by_one = self.by_instruction(arguments)
        self.forward((lambda: self.runner.instruction('nexti')) if by_one else (lambda: self.runner.next_line(False)))

    def do_stepIn(self, arguments):
        by_one = self.by_instruction(arguments)
        self.forward((lambda: self.runner.instruction('stepi')) if by_one else (lambda: self.runner.next_line(True)))

    def do_stepOut(self, arguments):
        if self.machine.depth() == 0:
            raise Failed('refused Q9: outermost frame')
        self.forward(self.runner.out)

    def do_stepBack(self, arguments):
        by_one = self.by_instruction(arguments)
        self.later = [lambda: self.run(self.runner.instruction('reverse-nexti') if by_one else self.runner.line_back())]

    def do_reverseContinue(self, arguments):
        self.later = [lambda: self.run(self.runner.back())]

    def do_pause(self, arguments):
        self.pause = self.way is not None

    def do_gotoTargets(self, arguments):
        line = arguments.number('line') + 1 - self.lines_from_1
        group = self.key_of(arguments.part('source'))
        source = self.machine.loaded.source
        if group == INSTRUCTIONS:
            slots = self.slots_of(group, line)[1]
        else:
            own = {slot for slot, (_, at, _) in source.lines.items() if at == line and source.paths[slot] == group}
            # (where the line begins, each time)
            slots = sorted(slot for slot in own if self.machine.before(slot) not in own or self.machine.before(slot) == slot)
        return {'targets': [{'id': slot, 'label': f'{slot}: {self.machine.code[slot]}', 'line': arguments.number('line'),
                             'instructionPointerReference': f'{SLOT * slot:#x}'} for slot in slots]}

    def do_goto(self, arguments):
        slot = arguments.number('targetId')
        self.machine.history.begin()
        if slot < 0:
            raise Failed('targetId: a slot is wanted')
        self.machine.demand(f'set pc {slot}')
        self.changed()
        self.later = [lambda: self.stopped(Stop('goto'))]

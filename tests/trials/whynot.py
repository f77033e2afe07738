"""Why a program did not come to a slot, or did not make a value: small programs at random, each run or script, each of their slots and values, against a model.

whynot.py BPFDB COUNT [SEED]: so many programs of two to six slots. Tells where an answer is another than the model's; the last line counts. The
model goes forwards: from each state it follows all ways of the program, with the slots to which functions return, until it finds the slot or
nothing more is new. It is written by RFC 9669 and docs/COMMANDS.md, and asks bpfdb for nothing but what it compares."""
import os
import random
import struct
import subprocess
import sys
import tempfile

FRAMES = 8
CONDITIONS = {0x15: ('jeq', lambda a, b: a == b), 0x55: ('jne', lambda a, b: a != b), 0xa5: ('jlt', lambda a, b: a < b)}


class Program:
    """The instruction of each slot: its kind, number, distance."""

    def __init__(self, insns):
        self.insns = insns

    def word(self, slot):
        kind, number, distance = self.insns[slot]
        if kind == 'mov':
            return struct.pack('<BBhi', 0xb7, 0, 0, number)
        if kind == 'add':
            return struct.pack('<BBhi', 0x07, 0, 0, number)
        if kind == 'load':
            return struct.pack('<BBhi', 0x71, 0x20, 0, 0)
        if kind == 'exit':
            return struct.pack('<BBhi', 0x95, 0, 0, 0)
        if kind == 'ja':
            return struct.pack('<BBhi', 0x05, 0, distance, 0)
        if kind == 'call':
            return struct.pack('<BBhi', 0x85, 0x10, 0, distance)
        if kind == 'wide':
            return struct.pack('<BBhi', 0x18, 0, 0, number)
        if kind == 'rest':
            return bytes(8)
        return struct.pack('<BBhi', kind, 0, distance, number)

    def words(self):
        return b''.join(self.word(slot) for slot in range(len(self.insns)))

    def is_start(self, slot):
        return 0 <= slot < len(self.insns) and self.insns[slot][0] != 'rest'

    def text(self, slot):
        kind, number, distance = self.insns[slot]
        to = f'L{slot + 1 + distance}'
        if kind in ('mov', 'add'):
            return f'{slot}: {kind} r0, {number}'
        if kind == 'wide':
            return f'{slot}: lddw r0, {number:#x}'
        if kind == 'load':
            return f'{slot}: ldxb r0, [r2+0]'
        if kind == 'exit':
            return f'{slot}: exit'
        if kind == 'ja':
            return f'{slot}: ja {to}'
        if kind == 'call':
            return f'{slot}: callf {to}'
        return f'{slot}: {CONDITIONS[kind][0]} r0, {number}, {to}'

    def size(self, slot):
        return 2 if self.insns[slot][0] == 'wide' else 1

    def is_accepted(self):
        for slot in range(len(self.insns)):
            kind, _, distance = self.insns[slot]
            if kind == 'rest':
                continue
            if kind not in ('ja', 'exit') and not self.is_start(slot + self.size(slot)):
                return False
            if (kind in ('ja', 'call') or kind in CONDITIONS) and not self.is_start(slot + 1 + distance):
                return False
        return True

    def ways(self, slot, returns):
        """Where a program may go on, whatever conditions decide."""
        kind, _, distance = self.insns[slot]
        if kind == 'exit':
            return [(returns[0], returns[1:])] if returns else []
        if kind == 'ja':
            return [(slot + 1 + distance, returns)]
        if kind == 'call':
            return [(slot + 1 + distance, (slot + 1,) + returns)] if len(returns) + 1 < FRAMES else []
        if kind in CONDITIONS:
            return [(slot + 1, returns), (slot + 1 + distance, returns)]
        return [(slot + self.size(slot), returns)]


def can_come(program, goals, slot, returns):
    found, open_ones = {(slot, returns)}, [(slot, returns)]
    while open_ones:
        at = open_ones.pop()
        if at[0] in goals:
            return True
        for way in program.ways(*at):
            if way not in found:
                found.add(way)
                open_ones.append(way)
    return False


class Machine:
    """A state: slot, slots of return, r0, how it ended; and the moves that led to it: the state before, a step or an edit, the first of a command (of
    an edit what it set)."""

    def __init__(self, program):
        self.program, self.state, self.moves = program, (0, (), 0, None), []

    def step(self, mark):
        slot, returns, r0, ended = before = self.state
        kind, number, distance = self.program.insns[slot]
        if kind in ('mov', 'wide'):
            after = (slot + self.program.size(slot), returns, number, None)
        elif kind == 'add':
            after = (slot + 1, returns, (r0 + number) % 2 ** 64, None)
        elif kind == 'load':
            after = (slot, returns, r0, f'fault access 0x0 at {slot}')
        elif kind == 'exit':
            after = (returns[0], returns[1:], r0, None) if returns else (slot, returns, r0, f'exited at {slot}: r0 {r0:#x}')
        elif kind == 'call':
            after = (slot + 1 + distance, (slot + 1,) + returns, r0, None) if len(returns) + 1 < FRAMES else (slot, returns, r0, f'fault depth at {slot}')
        elif kind == 'ja':
            after = (slot + 1 + distance, returns, r0, None)
        else:
            after = (slot + 1 + (distance if CONDITIONS[kind][1](r0, number) else 0), returns, r0, None)
        self.moves.append((before, True, mark))
        self.state = after

    def set(self, what, value):
        before = self.state
        self.moves.append((before, False, what))
        self.state = (value if what == 'pc' else before[0], before[1], value if what == 'reg' else before[2], None)

    def back(self):
        before, _, mark = self.moves.pop()
        self.state = before
        return mark

    def place(self):
        return self.state[3] or 'at ' + self.program.text(self.state[0])

    def answer(self, goals):
        """The lines of the answer without where values came from; and the number of steps before the branch, if it compared r0."""
        can = lambda state: state[3] is None and can_come(self.program, goals, state[0], state[1])
        after = self.state
        if can(after):
            return 'it can still be reached', None
        for back, (before, is_step, _) in enumerate(reversed(self.moves), 1):
            if can(before):
                if is_step and before[0] in goals:
                    return f'it was reached {back} moves back', None
                if not is_step:
                    return f'-{back} edit; then at {after[0]}', None
                went = 'faulted' if after[3] else 'went on' if after[0] == before[0] + 1 else f'jumped to {after[0]}'
                compared = self.program.insns[before[0]][0] in CONDITIONS
                value = f'; r0 = {before[2]:#x}' if compared else ''
                return f'-{back} {self.program.text(before[0])}{value}; {went}', back if compared else None
            after = before
        return 'it was out of reach from the opening', None

    def made(self, goals):
        """The line of the newest move that made a value at one of these slots, how many moves it lies back, and the slots at which none did."""
        line, newest, left = '', 0, set(goals)
        for back, (before, is_step, _) in enumerate(reversed(self.moves), 1):
            if is_step and before[0] in goals:
                line = line or f'made: -{back} r0 = {self.program.insns[before[0]][1]:#x}; {self.program.text(before[0])}\n'
                newest = newest or back
                left.discard(before[0])
        return line, newest, left

    def overwritten(self, newest):
        """The same as an answer, where each slot made it: going forwards from that move in its call, the last branch before r0 is written again."""
        states = [before for before, _, _ in self.moves] + [self.state]
        maker = len(self.moves) - newest
        branch = None
        for at in range(maker + 1, len(self.moves)):
            (slot, returns, r0, _), is_step = self.moves[at][0], self.moves[at][1]
            if len(returns) < len(states[maker][1]):
                break
            if is_step and len(returns) == len(states[maker][1]):
                kind = self.program.insns[slot][0]
                if kind in ('mov', 'wide', 'add'):
                    if branch is None:
                        break
                    at = branch
                    slot, r0, to, back = states[at][0], states[at][2], states[at + 1][0], len(self.moves) - at
                    went = 'went on' if to == slot + 1 else f'jumped to {to}'
                    return f'overwritten: -{back} {self.program.text(slot)}; r0 = {r0:#x}; {went}', back
                if kind in CONDITIONS:
                    branch = at
        return 'each instruction that makes it ran', None

    def questions(self, starts, some):
        """What is asked: slots, some of them together, and each value that an instruction makes; what is told before the answer, and the goals of each."""
        for goals in [[s] for s in starts] + [some]:
            yield ','.join(map(str, goals)), '', 0, set(goals)
        for value in range(4):
            makers = [s for s in starts if self.program.insns[s][0] in ('mov', 'wide') and self.program.insns[s][1] == value]
            if makers:
                yield f'={value}', *self.made(makers)


def some_program(random):
    while True:
        slots, insns = random.randint(2, 6), []
        while len(insns) < slots:
            kind = random.choice(['mov', 'add', 'add', 'exit', 'exit', 'ja', 'call', 'call', 'load', 'wide'] + 2 * list(CONDITIONS))
            if kind == 'wide' and len(insns) + 2 > slots:
                continue
            insns.append((kind, random.randint(0, 3), random.randint(-len(insns) - 1, slots - len(insns) - 2)))
            if kind == 'wide':
                insns.append(('rest', 0, 0))
        program = Program(insns)
        if program.is_accepted():
            return program


def some_script(random, machine):
    """A script, and what it does with the machine. Nothing of it is refused."""
    script = []
    for _ in range(random.randint(0, 8)):
        command = random.choice(['stepi', 'stepi', 'set pc', 'set reg', 'reverse-stepi', 'undo'])
        if command == 'undo' and not machine.moves or command == 'reverse-stepi' and not any(is_step for _, is_step, _ in machine.moves) or machine.state[3] and command in ('stepi', 'set pc', 'set reg'):
            continue
        if command == 'stepi':
            count = random.randint(1, 6)
            script.append(f'stepi {count}')
            for k in range(count):
                if machine.state[3] is None:
                    machine.step(k == 0)
        elif command == 'set pc':
            slot = random.choice([s for s in range(len(machine.program.insns)) if machine.program.is_start(s)])
            script.append(f'set pc {slot}')
            machine.set('pc', slot)
        elif command == 'set reg':
            r0 = random.randint(0, 3)
            script.append(f'set reg r0 {r0}')
            machine.set('reg', r0)
        elif command == 'reverse-stepi':
            count = random.randint(1, 4)
            script.append(f'reverse-stepi {count}')
            # (so many steps, or up to the first kept one, and the edits behind them)
            for _ in range(min(count, sum(is_step for _, is_step, _ in machine.moves))):
                while not machine.moves[-1][1]:
                    machine.back()
                machine.back()
        else:
            script.append('undo')
            while not machine.back():
                pass
    return script


def some_machine(random, words, path, runs):
    """A machine at the end of a run or a script, with the program and the script in files; how bpfdb comes there, and the limit of a run."""
    program = some_program(random)
    with open(words, 'wb') as file:
        file.write(program.words())
    machine = Machine(program)
    if random.random() < runs:
        limit = random.choice([1, 3, 8, 40])
        for k in range(limit):
            if machine.state[3] is None:
                machine.step(k == 0)
        return machine, ['--steps', str(limit)], True
    script = some_script(random, machine)
    with open(path, 'w') as file:
        file.write(''.join(line + '\n' for line in script))
    return machine, ['--script', path], False


def trials(words):
    """For the words of a call each seed, with its own chance."""
    count = int(words[2])
    first = int(words[3]) if len(words) > 3 else 1
    return ((seed, random.Random(seed)) for seed in range(first, first + count))


def run(bpfdb, *words):
    done = subprocess.run([bpfdb, *words], stdin=subprocess.DEVNULL, capture_output=True, text=True)
    return done.stdout if done.returncode == 0 else f'status {done.returncode}: {done.stdout}{done.stderr}'


def main():
    bpfdb, count = sys.argv[1], int(sys.argv[2])
    asked = failed = 0
    kinds = {}
    with tempfile.TemporaryDirectory() as folder:
        words, path = os.path.join(folder, 'words'), os.path.join(folder, 'script')
        for seed, chance in trials(sys.argv):
            machine, how, is_run = some_machine(chance, words, path, 0.5)
            program = machine.program
            starts = [s for s in range(len(program.insns)) if program.is_start(s)]
            for what, line, newest, goals in machine.questions(starts, sorted(chance.sample(starts, min(2, len(starts))))):
                text, back = machine.answer(goals) if goals else machine.overwritten(newest)
                kinds[text.split(' ')[0] if text[0] != '-' else text.split('; ')[-1].split(' ')[0]] = 1
                wanted = machine.place() + '\n' + line + text + '\n'
                asked += 1
                found = run(bpfdb, 'whynot', '--alone', *how, words, what)
                if found == wanted:
                    found = run(bpfdb, 'whynot', *how, words, what)
                    if back and is_run and len(machine.moves) > back:
                        wanted += run(bpfdb, 'origin', '--steps', str(len(machine.moves) - back), words, 'r0')
                    elif back:
                        found = found[:len(wanted)]
                if found != wanted:
                    failed += 1
                    print(f'FAILED: whynot, seed {seed}, about {what}: {how} {machine.program.insns}\n{wanted!r}\n{found!r}')
    print(f'{asked} questions about {count} programs, kinds of answers {len(kinds)}: {failed} failed')
    sys.exit(failed > 0)


if __name__ == '__main__':
    main()

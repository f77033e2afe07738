"""Strict runs: small programs at random, against a model over the trace of a run that isn't strict.

strict.py BPFDB COUNT [SEED]: so many programs. Tells where the answer is another than the model's; the last line counts. The model reads what `trace`
prints of a plain run: it follows the registers and the depth of calls by its lines, works out what each instruction reads by docs/MACHINE.md, and keeps a set
of the addresses that were written. It asks nothing else of bpfdb."""
import os
import random
import re
import subprocess
import sys
import tempfile

SIZES = {'b': 1, 'h': 2, 'w': 4, 'dw': 8}
STACK, STRIDE, FRAME = 0x2_0000_0000, 1024, 512
MASK = 2 ** 64 - 1


def access(rng):
    """A place of a frame near its end, at which accesses of any width meet; now and then one past it, or another base."""
    base = rng.choice(['r10'] * 16 + ['r6', 'r7'] * 3 + ['r1'])
    return f'[{base}-{rng.choice([1, 2, 3, 4, 5, 6, 7, 8, 8, 8, 12, 16, 16])}]'


def program(rng):
    """Functions one after another: stores and loads of each width, atomic operations, calls with an address of the caller's stack, helpers, jumps."""
    size = rng.randint(4, 24)
    lines = ['mov r6, r10', 'mov r7, r10']
    while len(lines) < size:
        kind, width = rng.random(), rng.choice(['b', 'h', 'w', 'dw', 'dw'])
        reg, number = rng.choice([0, 3, 5, 8]), rng.randint(0, 3)
        if kind < 0.36:
            lines.append(rng.choice([f'st{width} {access(rng)}, {number}', f'stx{width} {access(rng)}, r{reg}']))
        elif kind < 0.52:
            lines.append(f'ldx{width} r{reg}, {access(rng)}')
        elif kind < 0.55:
            lines.append(f'ldxs{rng.choice("bhw")} r{reg}, {access(rng)}')
        elif kind < 0.62:
            op = rng.choice(['add', 'or', 'fetch_add', 'xchg', 'cmpxchg'])
            lines.append(f'atomic_{op}{rng.choice([32, 64])} {access(rng)}, r{reg}')
        elif kind < 0.74:
            lines.append(f'callf L{rng.randint(0, size)}')
        elif kind < 0.80:
            lines.append(f'mov r{rng.choice([1, 6, 7])}, r10')
        elif kind < 0.88:
            lines.append(f'{rng.choice(["jeq", "jne", "jlt"])} r{reg}, {number}, L{rng.randint(0, size)}')
        elif kind < 0.92:
            lines += ['ldmap r1, 0', 'mov r2, r10', f'add r2, -{rng.choice([4, 8])}']
            if rng.random() < 0.6:
                lines += ['mov r3, r10', f'add r3, -{rng.choice([8, 12, 16])}', f'mov r4, {rng.choice([0, 0, 0, 1, 3])}', 'call 2']
            else:
                lines.append('call 1')
        elif kind < 0.96:
            lines.append(f'add r{reg}, {number}')
        else:
            lines.append('exit')
    return lines + ['exit']


def listing(lines, rng):
    """The listing: a label stands before each instruction, those of targets past the end before the last one."""
    size = len(lines)
    return ''.join(f'L{at}: {re.sub("L([0-9]+)", lambda m: "L" + str(min(int(m[1]), size - 1)), line)}\n' for at, line in enumerate(lines))


class Machine:
    """The registers and the depth of calls, by the lines of a trace, and the addresses that were written since their frame was entered."""

    def __init__(self, length):
        self.registers = [0, 0x1_0000_0000 if length else 0, length] + [0] * 7
        self.saved = []
        self.written = set()

    def value(self, name):
        number = int(name[1:])
        return STACK + STRIDE * len(self.saved) + FRAME if number == 10 else self.registers[number]

    def reads(self, text, wrote):
        """The runs of bytes that an instruction reads, in order."""
        name, _, rest = text.partition(' ')
        place = re.search(r'\[(r\d+)([+-]\d+)\]', rest)
        at = (self.value(place[1]) + int(place[2])) & MASK if place else 0
        if name.startswith('ldxs'):
            return [(at, SIZES[name[4:]])]
        if name.startswith('ldx'):
            return [(at, SIZES[name[3:]])]
        if name.startswith('atomic_'):
            return [(at, int(name[-2:]) // 8)]
        if name == 'call' and rest in ('1', '2'):
            cells = [run for run in wrote if run[0] >= 0x3_0000_0000]
            return [(self.value('r2'), 4)] + [(self.value('r3'), length) for _, length in cells if rest == '2']
        return []

    def unwritten(self, text, wrote):
        for at, length in self.reads(text, wrote):
            for address in range(at, at + length):
                if STACK <= address < STACK + 8 * STRIDE and address not in self.written:
                    return address
        return None

    def take(self, text, places, wrote):
        name = text.split(' ')[0]
        for at, length in wrote:
            if name == 'callf':
                self.written -= set(range(at, at + length))
            else:
                self.written |= set(range(at, at + length))
        if name == 'callf':
            self.saved.append(self.registers[6:10])
        elif name == 'exit' and self.saved:
            self.registers[6:10] = self.saved.pop()
        for place in places:
            found = re.fullmatch(r'r(\d+)(?: at depth \d+)? = 0x([0-9a-f]+)', place)
            if found:
                self.registers[int(found[1])] = int(found[2], 16)


def expected(trace, length):
    """What a strict run comes to: how many lines of the trace are shown, and the line of the read, if there is one."""
    *steps, end = trace.split('\n')[:-1]
    machine = Machine(length)
    for k, line in enumerate(steps):
        slot, instruction = re.fullmatch(r'\d+ (\d+): (.*)', line).groups()
        text, *places = instruction.split('; ')
        wrote = [(int(found[1], 16), int(found[2])) for found in (re.match(r'0x([0-9a-f]+):(\d+)', place) for place in places) if found]
        if k + 1 == len(steps) and end.startswith('fault'):
            break
        address = machine.unwritten(text, wrote)
        if address is not None:
            return k, f'read of 0x{address:x} at {slot}: not written since the call'
        machine.take(text, places, wrote)
    return len(steps), None


def main():
    bpfdb, count = sys.argv[1], int(sys.argv[2])
    first = int(sys.argv[3]) if len(sys.argv) > 3 else 1
    failed, kinds = 0, {}
    with tempfile.TemporaryDirectory() as work:
        os.chdir(work)
        for seed in range(first, first + count):
            rng = random.Random(seed)
            with open('p.s', 'w') as file:
                file.write(listing(program(rng), rng))
            words = ['--listing', '--maps', '8x2', '--steps', str(rng.choice([3, 20, 200, 200])), 'p.s']
            plain = subprocess.run([bpfdb, 'trace', *words], capture_output=True, text=True)
            run = subprocess.run([bpfdb, 'run', *words], capture_output=True, text=True)
            strict = subprocess.run([bpfdb, 'trace', '--strict', *words], capture_output=True, text=True)
            alone = subprocess.run([bpfdb, 'run', '--strict', *words], capture_output=True, text=True)
            plainly, strictly = (subprocess.run([bpfdb, 'debug', *option, *words], input='continue\n', capture_output=True, text=True).stdout
                                 for option in ([], ['--strict']))
            lines = plain.stdout.split('\n')[:-1]
            steps, line = expected(plain.stdout, 0) if plain.returncode != 2 else (0, None)
            if line is None:
                wanted = (plain.stdout, plain.stderr, plain.returncode, run.stdout, run.stderr, run.returncode)
                kind = 'refused' if plain.returncode == 2 else ' '.join(lines[-1].split(' ')[:2])
                kind = 'exited' if kind.startswith('exited') else kind
            else:
                wanted = ('\n'.join(lines[:steps] + [line]) + '\n', '', 1, '', line + '\n', 1)
                kind = 'read in ' + lines[steps].split(' ')[2][:6]
            kinds[kind] = kinds.get(kind, 0) + 1
            # a session stops there; of a read by the first step it tells behind that
            went = plainly + (line + '\n' if line else '')
            if line and steps:
                went = f'{steps} forward; strict; at {lines[steps].split(" ", 1)[1].split("; ")[0]}\n{line}\n'
            found = (strict.stdout, strict.stderr, strict.returncode, alone.stdout, alone.stderr, alone.returncode, strictly)
            wanted += (went,)
            if found != wanted:
                failed += 1
                print(f'FAILED: seed {seed}: {" ".join(words)}\n{open("p.s").read()}{found}\nwanted\n{wanted}')
    for kind in sorted(kinds):
        print(f'{kinds[kind]} {kind}')
    print(f'{count} programs: {failed} failed')


main()

"""tracefiles.py BPFDB FOLDER: files of tests at random, written into FOLDER, whose programs are moves, sums, loads and jumps. A machine of its own runs
them line by line of the file, and tells what `bpfdb test --cover-info` is to write; nothing of a program's words is known here, but that a wide load has
two slots, by which sections at random tell the lines of sources. Says what differs, and how many were tried."""
import os
import random
import subprocess
import sys

TRIALS, SEED = 1500, 9669
MASK = (1 << 64) - 1
FILES = ['b.c', 'a.c', 'a b:2.c', 'src/a.c', '/usr/a.c', 'ä.c']
TESTS = {'jeq': lambda a, b: a == b, 'jne': lambda a, b: a != b, 'jlt': lambda a, b: a < b, 'jge': lambda a, b: a >= b, 'jset': lambda a, b: a & b != 0}


def listing(chance):
    """Lines of a listing: texts, each with what it says: None, or an instruction whose jumps lead to an index among the instructions."""
    count = chance.randrange(1, 12)
    insns = []
    for at in range(count - 1):
        kind = chance.choice(['mov', 'add', 'ldxb', 'lddw', 'ja', 'jump', 'jump', 'jump'])
        register = chance.choice([0, 0, 2, 3, 4])
        if kind == 'jump':
            insns.append((chance.choice(list(TESTS)), register, chance.choice([0, 1, 2, 3, 7]), chance.randrange(count)))
        elif kind == 'ja':
            insns.append(('ja', chance.randrange(at + 1, count)))
        else:
            insns.append((kind, register, chance.randrange(5)))
    insns.append(('exit',))
    lines = []
    for at, insn in enumerate(insns):
        for _ in range(chance.choice([0, 0, 0, 1, 2])):
            lines.append((chance.choice(['', '  ', '; a comment', f'm{len(lines)}:']), None))
        name = insn[0]
        text = {'mov': 'mov r{1}, {2}', 'add': 'add r{1}, {2}', 'ldxb': 'ldxb r{1}, [r1+{2}]', 'lddw': 'lddw r{1}, {2}', 'ja': 'ja n{1}',
                'exit': 'exit'}.get(name, '{0} r{1}, {2}, n{3}').format(*insn)
        label = chance.choice([f'n{at}: ', f'n{at}:'])
        if chance.random() < 0.3:
            lines.append((f'n{at}:', None))
            label = ''
        lines.append((label + text + chance.choice(['', ' ; so', '\t']), insn))
    return lines


def took(insns, memory, steps):
    """The indices of instructions that ran, each with the way that it took: None, or for a jump with a condition whether it jumped."""
    registers = {0: 0, 2: len(memory), 3: 0, 4: 0}
    at, done = 0, []
    while len(done) < steps:
        insn = insns[at]
        name = insn[0]
        way = None
        behind = at + 1
        if name == 'exit':
            return done + [(at, None)]
        if name in ('mov', 'lddw'):
            registers[insn[1]] = insn[2]
        elif name == 'add':
            registers[insn[1]] = registers[insn[1]] + insn[2] & MASK
        elif name == 'ldxb':
            if insn[2] >= len(memory):
                return done + [(at, None)]
            registers[insn[1]] = memory[insn[2]]
        elif name == 'ja':
            behind = insn[1]
        else:
            way = TESTS[name](registers[insn[1]], insn[2])
            behind = insn[3] if way else behind
        done.append((at, way))
        at = behind
    return done


class Program:
    """A program of a file of tests: its section, and what ran of it by the line of the file."""
    def __init__(self, chance):
        self.is_listing = chance.random() < 0.85
        self.lines = listing(chance) if self.is_listing else []
        self.insns = [insn for _, insn in self.lines if insn] or [('exit',)]
        self.ran, self.met = set(), False
        self.slots, slot = {}, 0
        for at, insn in enumerate(self.insns):
            self.slots[slot] = at
            slot += 2 if insn[0] == 'lddw' else 1
        self.rows = self.table(chance, slot) if chance.random() < 0.4 else None

    def table(self, chance, end):
        """Rows at random: slots, each with its file and its line, or None."""
        rows = []
        for slot in chance.sample(range(end + 2), chance.randrange(end + 3)):
            place = (chance.choice(FILES[:chance.choice([1, 2, 6])]), chance.choice([1, 2, 3, 9, 10, 200]))
            rows.append((slot, None if chance.random() < 0.1 else place))
        return rows

    def put_rows(self, chance, out):
        out.append('-- lines')
        for slot, place in self.rows:
            out.extend([''] * chance.choice([0, 0, 0, 1]))
            word = f'{place[0]}:{place[1]}' if place else '-'
            out.append(f'{chance.choice(["", "", " "])}{chance.choice([str(slot), hex(slot)])} {word} {chance.choice(["f", "-"])}{chance.choice(["", " "])}')

    def records(self):
        """The records of the files of a source, by its rows."""
        files, out = {}, []
        for slot, place in self.rows:
            if place:
                files.setdefault(place[0], {}).setdefault(place[1], []).append(slot)
        for name in sorted(files, key=str.encode):
            out.extend(['TN:', 'SF:' + name])
            hit = ways = taken = 0
            for line, slots in sorted(files[name].items()):
                at_slots = [(slot, self.slots.get(slot)) for slot in sorted(slots)]
                ran = any(index in [at for _, at in at_slots if at is not None] for index, _ in self.ran)
                hit += ran
                out.append(f'DA:{line},{int(ran)}')
                for slot, at in at_slots:
                    if at is not None and self.insns[at][0] in TESTS and self.insns[at][3] != at + 1:
                        all_ways = {way for index, way in self.ran if index == at}
                        for branch, way in enumerate((False, True)):
                            out.append(f'BRDA:{line},{slot},{branch},{int(way in all_ways) if all_ways else "-"}')
                        ways, taken = ways + 2, taken + len(all_ways)
            out.extend([f'LF:{len(files[name])}', f'LH:{hit}', f'BRF:{ways}', f'BRH:{taken}', 'end_of_record'])
        return out

    def put(self, out):
        self.head = len(out) + 1
        if self.is_listing:
            out.append('-- listing')
            out.extend(text for text, _ in self.lines)
        else:
            out.extend(['-- words', '9500000000000000'])

    def run(self, memory, steps):
        self.met = True
        self.ran |= set(took(self.insns, memory, steps))

    def record(self, name):
        if not self.met:
            return []
        if self.rows is not None:
            return self.records()
        if not self.is_listing:
            return [f'# the program in line {self.head} is no listing: it has no lines here']
        out, found, hit, ways, taken, at = ['TN:', 'SF:' + name], 0, 0, 0, 0, 0
        for number, (_, insn) in enumerate(self.lines, self.head + 1):
            if insn is None:
                continue
            all_ways = {way for index, way in self.ran if index == at}
            found, hit = found + 1, hit + bool(all_ways)
            out.append(f'DA:{number},{int(bool(all_ways))}')
            if insn[0] in TESTS and insn[3] != at + 1:
                for branch, way in enumerate((False, True)):
                    out.append(f'BRDA:{number},0,{branch},{int(way in all_ways) if all_ways else "-"}')
                ways, taken = ways + 2, taken + len(all_ways)
            at += 1
        return out + [f'LF:{found}', f'LH:{hit}', f'BRF:{ways}', f'BRH:{taken}', 'end_of_record']


def trial(chance, name):
    """The text of a file of tests, and the tracefile."""
    out = ['# At random.'][:chance.randrange(2)]
    shared = Program(chance) if chance.random() < 0.8 else None
    if shared:
        shared.put(out)
        if shared.rows is not None:
            shared.put_rows(chance, out)
    programs = []
    for number in range(chance.randrange(1, 5)):
        out.extend(['-- name', f't{number}'])
        own = Program(chance) if not shared or chance.random() < 0.3 else None
        refused = chance.random() < 0.15
        memory = bytes(chance.choice([0, 1, 2, 3, 7]) for _ in range(chance.choice([0, 1, 2, 3, 5])))
        steps = chance.choice([1, 2, 3, 5, 100])
        sections = [['-- mem', memory.hex()], ['-- steps', str(steps)], ['-- result', '0']] + ([['-- maps', 'x']] if refused else [])
        chance.shuffle(sections)
        first = chance.randrange(len(sections) + 1)
        for section in sections[:first]:
            out.extend(section)
        if own:
            own.put(out)
            if own.rows is not None:
                own.put_rows(chance, out)
            programs.append(own)
        for section in sections[first:]:
            out.extend(section)
        if not refused:
            (own or shared).run(memory, steps)
    wanted = []
    for program in ([shared] if shared else []) + programs:
        wanted.extend(program.record(name))
    return '\n'.join(out) + '\n', ''.join(line + '\n' for line in wanted)


def main(program, folder):
    chance = random.Random(SEED)
    told = {}
    for number in range(TRIALS):
        text, wanted = trial(chance, 'random.test')
        with open(os.path.join(folder, 'random.test'), 'w') as file:
            file.write(text)
        plain = subprocess.run([program, 'test', 'random.test'], cwd=folder, capture_output=True, timeout=60)
        came = subprocess.run([program, 'test', '--cover-info', 'random.test'], cwd=folder, capture_output=True, timeout=60)
        if came.stdout.decode() != wanted or came.stderr != plain.stdout or came.returncode != plain.returncode:
            print(f'FAILED: tests/trials/tracefiles.py: trial {number}:\n{text}wanted:\n{wanted}came:\n{came.stdout.decode()}{came.stderr.decode()}')
        for word in ('# the program', ',-', ',0,1,1', ',0,1,0', ',0,0,0', 'SF:a b:2.c', 'SF:ä.c'):
            told[word] = told.get(word, 0) + (word in wanted)
    for word, times in told.items():
        if times < 50:
            print(f'FAILED: tests/trials/tracefiles.py: {word} came in {times} trials')
    print(f'{TRIALS} trials')


if __name__ == '__main__':
    main(*sys.argv[1:])

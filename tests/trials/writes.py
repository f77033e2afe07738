"""What two runs leave for one who looks from outside: pairs of small programs at random, or one on two contexts, and builds of the C programs of the tests,
against a model over both traces, and where both values came from against `origin`.

writes.py BPFDB COUNT [SEED]: so many pairs. writes.py BPFDB --builds FOLDER: each program of FOLDER, compiled at -O0 to -O2 for two versions of the
instruction set; builds with one list of maps are held against each other, and each has to leave the same. The model reads what `trace` prints of each run
alone: it plays the bytes that each line tells, and asks nothing else of bpfdb of these. Where a value came from it asks `origin` behind the step that wrote
it, of a traced word about r0, which that step wrote, too. The last line counts."""
import glob
import os
import random
import re
import subprocess
import sys
import tempfile

CONTEXT, MAP, STRIDE = 0x100000000, 0x300000000, 0x100000
SHAPES = [(8, 2), (4, 3)]
REGISTERS = [0, 3, 4, 6]
# r8 is the context's address, r7 that of map 0. The forms of a statement, and how often each comes among a hundred.
FORMS = {
    'mov r{reg}, {number}': 22, 'add r{reg}, r{other}': 6, 'xor r{reg}, r{other}': 4,
    'ldxb r{reg}, [r8+{number}]': 6, 'ldxw r{reg}, [r7+{four}]': 4,
    'stxb [r8+{number}], r{reg}': 8, 'stxh [r8+{number}], r{reg}': 4, 'sth [r8+{number}], {number}': 2,
    'stxb [r7+{byte}], r{reg}': 6, 'stxw [r7+{four}], r{reg}': 6, 'stxdw [r7+{eight}], r{reg}': 6, 'stdw [r7+{eight}], {number}': 2,
    'stxdw [r10-8], r{reg}': 3, 'atomic_add64 [r7+{eight}], r{reg}': 3, 'atomic_xchg32 [r7+{four}], r{reg}': 3,
    'mov r1, r{reg};call 64': 7,
    'stw [r10-4], {number};stw [r10-12], {other};ldmap r1, 1;mov r2, r10;add r2, -4;mov r3, r10;add r3, -12;mov r4, 0;call 2': 4,
    'jeq r{reg}, {number}, L{to}': 2, 'ja L{to}': 1, 'exit': 1,
}


def statement(rng, size):
    form, = rng.choices(list(FORMS), list(FORMS.values()))
    number = rng.randint(0, 3)
    return form.format(reg=rng.choice(REGISTERS), other=rng.choice(REGISTERS), number=number, byte=rng.randint(0, 15), four=4 * number,
                       eight=8 * (number % 2), to=rng.randint(0, size))


def program(rng):
    size = rng.randint(2, 10)
    return [statement(rng, size) for _ in range(size)] + ['exit']


def changed(rng, lines):
    """The program with a line of another one, with two lines in another order, with a line more that is written over, or with one less."""
    lines, last = list(lines), len(lines) - 1
    at, how = rng.randrange(last), rng.randrange(4)
    if how == 0:
        lines[at] = statement(rng, last)
    elif how == 1 and last > 1:
        at = rng.randrange(last - 1)
        lines[at], lines[at + 1] = lines[at + 1], lines[at]
    elif how == 2:
        lines[at] = f'mov r5, {rng.randint(0, 3)};stxb [r7+{rng.randint(0, 15)}], r5;' + lines[at]
    else:
        lines[at] = 'mov r5, r5'
    return lines


def listing(lines):
    text = ['mov r8, r1', 'ldmapval r7, 0, 0'] + [f'L{at}: {line}' for at, line in enumerate(lines)]
    return '\n'.join(text).replace(';', '\n') + '\n'


class Run:
    """A run as `trace` tells it: its lines, what it left, and which line wrote each place last."""

    def __init__(self, text, context, shapes):
        *self.lines, self.end = text.split('\n')[:-1]
        self.given = {CONTEXT + i: byte for i, byte in enumerate(context)}
        self.bytes = dict(self.given)
        self.bytes.update((MAP + STRIDE * i + j, 0) for i, (v, n) in enumerate(shapes) for j in range(v * n))
        self.words, self.by = [], {}
        for line in self.lines:
            for part in line.split('; ')[1:]:
                self.play(part, line)
        found = re.fullmatch(r'exited at \d+: r0 (0x[0-9a-f]+)', self.end)
        self.result = int(found[1], 16) if found else None
        self.reason = 'exited' if found else re.sub(r' at \d+$', '', self.end)

    def play(self, part, line):
        name, _, value = part.partition(' = ')
        value = int(value, 16) if value else None
        if name.startswith('word '):
            assert int(name[5:]) == len(self.words)
            self.by[name] = line
            self.words.append(value)
        elif name.startswith('0x'):
            address, count = name.split(':')
            for i in range(int(count)):
                at = int(address, 16) + i
                if not 0x200000000 <= at < MAP:
                    assert at in self.bytes and value is not None
                    self.bytes[at] = value >> 8 * i & 255
                    self.by[at] = line
        elif name == 'r0':
            self.by[name] = line


def places(one, other, shapes):
    """In their order: the name of each place, its key, and what each run left there, where it counts."""
    for at in sorted(set(one.given) | set(other.given)):
        left = one.bytes.get(at), other.bytes.get(at)
        if left != (one.given.get(at), other.given.get(at)):
            yield f'{at:#x}:1', at, left
    for i, (v, n) in enumerate(shapes):
        for j in range(v * n):
            at = MAP + STRIDE * i + j
            yield f'{at:#x}:1', at, (one.bytes[at], other.bytes[at])
    for i in range(max(len(one.words), len(other.words))):
        yield f'word {i}', f'word {i}', tuple(run.words[i] if i < len(run.words) else None for run in (one, other))
    if one.result is not None and other.result is not None:
        yield 'r0', 'r0', (one.result, other.result)


def expected(one, other, shapes):
    ends = [f'< {one.end}', f'> {other.end}']
    for name, key, left in places(one, other, shapes):
        if left[0] != left[1]:
            values = ', '.join('none' if v is None else hex(v) for v in left)
            return [f'{name} ends otherwise: {values}', '< ' + one.by.get(key, 'not written'), '> ' + other.by.get(key, 'not written')] + ends, 1
    same = one.reason == other.reason and not one.reason.startswith('step limit')
    return ['same writes'] + ends, 0 if same else 1


def sources(bpfdb, options, runs, sides, shapes):
    """Where the values came from at the first place that ends otherwise, of each run that has one there."""
    key, left = next(((key, left) for _, key, left in places(*runs, shapes) if left[0] != left[1]), (None, ()))
    text = ''
    for mark, run, (file, path), value in zip('<>', runs, sides, left):
        if value is not None:
            behind = ['--steps', run.by[key].split(' ')[0]] if key in run.by else ['--script', '/dev/null']
            what = f'{key:#x}:1' if isinstance(key, int) else 'r0'
            found = output(bpfdb, 'origin', *options, *behind, '-m', path, file, what)
            text += ''.join(f'{mark} {line}\n' for line in found.stdout.split('\n')[:-1])
    return text


def output(*words):
    return subprocess.run(words, capture_output=True, text=True)


def held(bpfdb, options, steps, sides, words, shapes):
    """Whether `diff --writes` answers as the model does, and `origin` behind it; what kind of answer that is; and both answers."""
    common = options + steps
    traces = [output(bpfdb, 'trace', *common, '-m', path, file) for file, path in sides]
    found = output(bpfdb, 'diff', '--writes', '--alone', *common, *words)
    if any(trace.returncode == 2 for trace in traces):
        return found.returncode == 2, 'refused', found, ('', 2)
    runs = [Run(trace.stdout, open(path, 'rb').read(), shapes) for trace, (_, path) in zip(traces, sides)]
    lines, status = expected(*runs, shapes)
    wanted = '\n'.join(lines) + '\n'
    kind = re.sub(r'^0x[13]\S*', lambda name: 'context' if name[0][2] == '1' else 'map', lines[0].split(':')[0] if '0x' not in lines[0][:2] else lines[0])
    kind = re.sub(r'otherwise.*', 'otherwise', re.sub(r'^word \d+', 'word', kind))
    if lines[0] != 'same writes':
        kind += ', not written by one' if 'not written' in ' '.join(lines) else ''
    else:
        kind += ', other lines' if runs[0].lines != runs[1].lines else ''
        kind += '' if status == 0 else ', status 1'
    if (found.stdout, found.returncode) == (wanted, status):
        found = output(bpfdb, 'diff', '--writes', *common, *words)
        wanted += sources(bpfdb, options, runs, sides, shapes)
    return (found.stdout, found.returncode) == (wanted, status), kind, found, (wanted, status)


def pairs(bpfdb, count, first):
    failed, kinds = 0, {}
    for seed in range(first, first + count):
        rng = random.Random(seed)
        lines = program(rng)
        on_contexts = rng.random() < 0.3
        other = lines if on_contexts else changed(rng, lines)
        if not on_contexts and rng.random() < 0.3:
            other = changed(rng, other)
        contexts = [bytes(rng.randint(0, 3) for _ in range(rng.choice([4, 5, 6]))) for _ in range(2)]
        for name, data in (('a.s', listing(lines).encode()), ('b.s', listing(other).encode()), ('p', contexts[0]), ('q', contexts[1])):
            with open(name, 'wb') as file:
                file.write(data)
        options = ['--listing', '--maps', ','.join(f'{v}x{n}' for v, n in SHAPES)]
        steps = ['--steps', str(rng.choice([4, 10, 1000, 1000, 1000]))]
        sides = [('a.s', 'p'), ('a.s', 'q')] if on_contexts else [('a.s', 'p'), ('b.s', 'p')]
        words = ['-m', 'p', '--other-mem', 'q', 'a.s'] if on_contexts else ['-m', 'p', 'a.s', 'b.s']
        same, kind, found, wanted = held(bpfdb, options, steps, sides, words, SHAPES)
        kinds[kind] = kinds.get(kind, 0) + 1
        if not same:
            failed += 1
            print(f'FAILED: seed {seed}: {" ".join(options + steps + words)}\n{found.stdout}{found.stderr}status {found.returncode}; wanted\n{wanted[0]}status {wanted[1]}')
    for kind in sorted(kinds):
        print(f'{kinds[kind]} {kind}')
    print(f'{count} pairs: {failed} failed')


def built(bpfdb, source):
    """The builds of a source: of each its words and maps, those that are compiled and linked."""
    builds = []
    for version in ('v2', 'v3'):
        for level in ('-O0', '-O1', '-O2'):
            name = f'{level[1:]}{version}'
            made = output('clang', level, f'-mcpu={version}', '-target', 'bpf', '-c', source, '-o', 'one.o')
            if made.returncode:
                continue
            with open(name, 'wb') as file:
                linked = subprocess.run([bpfdb, 'link', 'one.o'], stdout=file, stderr=subprocess.PIPE)
            if linked.returncode == 0:
                maps = re.search(r'--maps (\S+)', linked.stderr.decode())
                builds.append((name, maps[1] if maps else ''))
    return builds


def builds(bpfdb, folder):
    failed, held_pairs, programs, kinds = 0, 0, 0, {}
    with open('p', 'wb') as file:
        file.write(bytes(range(1, 9)))
    for source in sorted(glob.glob(folder + '/*.c')):
        made = built(bpfdb, source)
        before = held_pairs
        for at, (name, maps) in enumerate(made):
            for other, of_other in made[at + 1:at + 2]:
                if maps != of_other:
                    continue
                shapes = [tuple(map(int, shape.split('x'))) for shape in maps.split(',')] if maps else []
                same, kind, found, wanted = held(bpfdb, ['--maps', maps] if maps else [], [], [(name, 'p'), (other, 'p')], ['-m', 'p', name, other], shapes)
                held_pairs += 1
                kinds[kind] = kinds.get(kind, 0) + 1
                if not same or wanted[1]:
                    failed += 1
                    print(f'FAILED: {os.path.basename(source)}: {name} and {other}\n{found.stdout}{found.stderr}status {found.returncode}; wanted\n{wanted[0]}status {wanted[1]}')
        programs += held_pairs > before
    for kind in sorted(kinds):
        print(f'{kinds[kind]} {kind}')
    print(f'{held_pairs} pairs of builds of {programs} programs: {failed} failed')


def main():
    bpfdb = sys.argv[1]
    with tempfile.TemporaryDirectory() as work:
        os.chdir(work)
        if sys.argv[2] == '--builds':
            builds(bpfdb, sys.argv[3])
        else:
            pairs(bpfdb, int(sys.argv[2]), int(sys.argv[3]) if len(sys.argv) > 3 else 1)


main()

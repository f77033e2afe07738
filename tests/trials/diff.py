"""Where two runs part: pairs of small programs at random, or one on two contexts, against a model over both traces, and where the values came from in which
they differ against `origin`; and where a run and a changed trace of it part, in both forms.

diff.py BPFDB COUNT [SEED]: so many pairs. Tells where the answer is another than the model's; the last line counts. The model reads what `trace` prints
of each run alone, and finds the first differences by docs/COMMANDS.md: of these it asks nothing else of bpfdb. Registers before each step are what the
lines of the steps before it tell of them. Where values came from it asks `origin` of each run, about the first part that the step wrote: the answer is that
about all its parts, since the step is one move. Of a frame that was cleared, 512 bytes, it asks about the first 256."""
import os
import random
import re
import subprocess
import sys
import tempfile

REGISTERS = [0, 3, 4, 6, 7]
# The forms of an instruction, and how often each comes among a hundred.
FORMS = {
    'mov r{reg}, {number}': 25, 'mov r{reg}, r2': 3,
    'add r{reg}, r{other}': 5, 'sub r{reg}, r{other}': 5, 'xor r{reg}, r{other}': 5,
    'ldxb r{reg}, [r1+{number}]': 10, 'ldxb r{reg}, [r{other}+0]': 2,
    'stxb [r10-{byte}], r{reg}': 4, 'stxdw [r10-{word}], r{reg}': 4, 'stb [r1+{number}], {number}': 4,
    'atomic_xchg64 [r10-8], r{reg}': 3, 'atomic_fetch_add64 [r10-8], r{reg}': 1,
    'jeq r{reg}, {number}, L{to}': 6, 'jne r{reg}, {number}, L{to}': 6, 'jlt r{reg}, {number}, L{to}': 6,
    'ja L{to}': 4, 'callf L{to}': 5, 'exit': 2,
}


def program(rng):
    """A listing: arithmetic, loads of the context, stores and fetches, jumps, calls, and faults now and then."""
    size = rng.randint(2, 12)
    lines = []
    for form in rng.choices(list(FORMS), list(FORMS.values()), k=size):
        number = rng.randint(0, 3)
        lines.append(form.format(reg=rng.choice(REGISTERS), other=rng.choice(REGISTERS), number=number, byte=1 + number, word=8 * (1 + number),
                                 to=rng.randint(0, size)))
    return lines + ['exit']


def changed(rng, lines):
    """The program with a line or two of another one."""
    other = program(rng)
    lines = list(lines)
    for _ in range(rng.randint(1, 2)):
        lines[rng.randrange(len(lines) - 1)] = rng.choice(other)
    return lines


def fits(lines):
    """Labels of slots that there are."""
    return all(int(word[1:]) < len(lines) for line in lines for word in line.split() if word[0] == 'L')


def listing(lines):
    return ''.join(f'L{at}: {line}\n' for at, line in enumerate(lines))


class Run:
    """A run as `trace` tells it: of each step its line, its slot and what it wrote, and how the run ended."""

    def __init__(self, text):
        *steps, self.end = text.split('\n')[:-1]
        self.lines = steps
        self.slots = [line.split(' ', 2)[1] for line in steps]
        self.writes = [line.split('; ')[1:] for line in steps]


def both(one, other, k):
    return k < len(one.lines) and k < len(other.lines)


def parting(one, other):
    """How many steps of two runs stand at one slot, and how many of these write the same before one doesn't."""
    steps = max(len(one.lines), len(other.lines))
    parted = next((k for k in range(steps) if not both(one, other, k) or one.slots[k] != other.slots[k]), steps)
    return parted, next((k for k in range(parted) if one.writes[k] != other.writes[k]), parted)


def expected(one, other):
    out, status = [], 1
    steps = max(len(one.lines), len(other.lines))

    def sides(k):
        return [f'{mark} {run.lines[k]}' for mark, run in (('<', one), ('>', other)) if k < len(run.lines)]

    parted, wrote = parting(one, other)
    if wrote < parted:
        out += [f'step {wrote + 1} wrote otherwise'] + sides(wrote)
    if parted < steps:
        out += [f'step {parted + 1} ' + ('went elsewhere' if both(one, other, parted) else 'is in one run alone')] + sides(parted)
    if wrote == parted == steps and one.end == other.end:
        out += [f'same for {parted} steps', one.end]
        status = 1 if one.end.startswith('step limit') else 0
    else:
        out += [f'< {one.end}', f'> {other.end}']
    return '\n'.join(out) + '\n', status


def asked(run, k):
    """WHAT, by which `origin` tells of what step k of a run wrote (or of the registers of its bad access), as words; None where there is nothing to tell."""
    if run.writes[k]:
        part = run.writes[k][0].split(' = ')[0]
        return [re.sub(':512$', ':256', re.sub(' at depth .*', '', part))]
    return [] if k + 1 == len(run.lines) and run.end.startswith('fault access') else None


def sources(bpfdb, runs, sides, options):
    """Where the values came from that the first step wrote otherwise, if one did: for each run the words of its program and context."""
    text = ''
    parted, wrote = parting(*runs)
    for mark, run, words in zip('<>', runs, sides):
        what = asked(run, wrote) if wrote < parted else None
        if what is not None:
            found = subprocess.run([bpfdb, 'origin', '--listing', '--steps', str(wrote + 1), *options, *words, *what], capture_output=True, text=True)
            text += ''.join(f'{mark} {line}\n' for line in found.stdout.split('\n')[:-1])
    return text


def registers(run, length):
    """Of each step the slot and the registers before it, and which step each of these is of: its number, slot and text."""
    shared, own, by = [0, 0x100000000 if length else 0, length, 0, 0, 0], [[0] * 4], {}
    depth, last, rows = 0, None, []
    for line in run.lines:
        number, place = line.split('; ')[0].split(' ', 1)
        values = [int(place.split(':')[0]), *shared, *own[depth], 0x200000200 + 0x400 * depth]
        wrote = [last] + [by.get((0 if r < 6 else depth, r)) for r in range(10)]
        rows.append((values, wrote))
        last = f'step {number}, {place}'
        for text in line.split('; ')[1:]:
            name = re.fullmatch(r'r(\d+)(?: at depth \d+)? = (0x[0-9a-f]+)', text)
            if name:
                r, value = int(name[1]), int(name[2], 16)
                (shared if r < 6 else own[depth])[r if r < 6 else r - 6] = value
                by[0 if r < 6 else depth, r] = last
        if ' callf ' in place and '; ' in line:
            own.append(list(own[depth]))
            depth += 1
            for r in range(6, 10):
                by[depth, r] = by.get((depth - 1, r))
        elif place.endswith(': exit') and depth:
            own.pop()
            depth -= 1
    return rows


def changed_rows(rng, rows):
    """The lines of a trace of registers: a value another one here and there, words that tell nothing, lines too few or too many."""
    lines = [[number if rng.random() > 0.1 else None for number in values] for values, _ in rows]
    if rng.random() < 0.7 and lines:
        for _ in range(rng.randint(1, 3)):
            lines[rng.randrange(len(lines))][rng.randrange(12)] = rng.choice([0, 1, 7, 2 ** 64 - 1, 0x100000001])
    if rng.random() < 0.2:
        lines = lines[:rng.randint(0, len(lines))]
    if rng.random() < 0.2:
        lines.append([rng.randint(0, 3)] * 12)
    return lines


def against_rows(run, rows, lines, texts):
    for k, (values, wrote) in enumerate(rows):
        here = f'< {values[0]} ' + ' '.join(map(hex, values[1:]))
        if k == len(lines):
            return [f'step {k + 1} is not in the trace', here], 1
        other = [i for i in range(12) if lines[k][i] not in (None, values[i])]
        if other:
            out = [f'step {k + 1} is told otherwise', here, f'> {texts[k]}']
            for i in other:
                behind = '' if i == 11 else f'; here by {wrote[i]}' if wrote[i] else '; here since the start'
                both = (values[i], lines[k][i]) if i == 0 else (hex(values[i]), hex(lines[k][i]))
                out.append((f'r{i - 1}' if i else 'slot') + f': {both[0]} here, {both[1]} there' + behind)
            return out, 1
    if len(lines) > len(rows):
        return ['the trace goes on', f'< {run.end}', f'> {texts[len(rows)]}'], 1
    return [f'same for {len(rows)} steps', run.end], int(run.end.startswith('step limit'))


def changed_lines(rng, run):
    """The lines of a trace: of another value, another instruction, another order; too few or too many."""
    lines = run.lines + [run.end]
    for _ in range(rng.choice([0, 1, 1, 2])):
        at = rng.randrange(len(lines))
        lines[at] = rng.choice([lines[at] + '0', lines[at].replace('= 0x', '= 0x1'), lines[at - 1], '1 0: exit'])
    if rng.random() < 0.2:
        lines = lines[:rng.randint(0, len(lines))]
    if rng.random() < 0.2:
        lines.append('exited at 0: r0 0x0')
    return lines


def against_lines(run, lines):
    for k, line in enumerate(run.lines + [run.end]):
        what = f'step {k + 1}' if k < len(run.lines) else 'the end'
        if k == len(lines):
            return [f'{what} is not in the trace', f'< {line}'], 1
        if line != lines[k]:
            return [f'{what} is told otherwise', f'< {line}', f'> {lines[k]}'], 1
    if len(lines) > len(run.lines) + 1:
        return ['the trace goes on', f'< {run.end}', f'> {lines[len(run.lines) + 1]}'], 1
    return [f'same for {len(run.lines)} steps', run.end], int(run.end.startswith('step limit'))


def against(rng, run, length):
    """A changed trace of a run, and what is told of it."""
    if rng.random() < 0.4:
        texts = changed_lines(rng, run)
        wanted = against_lines(run, texts)
    else:
        rows = registers(run, length)
        lines = changed_rows(rng, rows)
        texts = [' '.join('-' if n is None else str(n) if rng.random() < 0.3 else rng.choice(['0x%x', '0x%X', '0x0%x']) % n for n in line) for line in lines]
        wanted = against_rows(run, rows, lines, texts)
        if not lines:
            wanted = against_lines(run, [])
    file = []
    for text in texts:
        file += rng.choice([[], [], [], [''], ['# remark'], [' \t']]) + [rng.choice(['', '', ' ', '\t']) + text + rng.choice(['', '', ' ', '\r'])]
    return '\n'.join(file + [''] * (rng.random() < 0.8)), ('\n'.join(wanted[0]) + '\n', wanted[1])


def main():
    bpfdb, count = sys.argv[1], int(sys.argv[2])
    first = int(sys.argv[3]) if len(sys.argv) > 3 else 1
    failed, kinds = 0, {}
    with tempfile.TemporaryDirectory() as work:
        os.chdir(work)
        for seed in range(first, first + count):
            rng = random.Random(seed)
            lines = program(rng)
            while not fits(lines):
                lines = program(rng)
            on_contexts = rng.random() < 0.5
            other = list(lines)
            while not on_contexts and (other == lines and rng.random() < 0.9 or not fits(other)):
                other = changed(rng, lines)
            contexts = [bytes(rng.randint(0, 3) for _ in range(rng.choice([4, 4, 4, 5, 2]))) for _ in range(2)]
            if rng.random() < 0.1:
                contexts[1] = contexts[0]
            limit = rng.choice([1, 2, 5, 20, 100])
            for name, data in (('a.s', listing(lines).encode()), ('b.s', listing(other).encode()), ('p', contexts[0]), ('q', contexts[1])):
                with open(name, 'wb') as file:
                    file.write(data)
            common = ['--listing', '--steps', str(limit)]
            sides = [['-m', 'p', 'a.s'], ['-m', 'q', 'a.s'] if on_contexts else ['-m', 'p', 'b.s']]
            traces = [subprocess.run([bpfdb, 'trace', *common, *side], capture_output=True, text=True) for side in sides]
            words = ['-m', 'p', '--other-mem', 'q', 'a.s'] if on_contexts else ['-m', 'p', 'a.s', 'b.s']
            options = rng.choice([[], [], ['--lines', '1'], ['--lines', '1', '--addresses'], ['--addresses'], ['--journal', '1024']])
            if any(trace.returncode == 2 for trace in traces):
                wanted, status, came = '', 2, ''
            else:
                runs = [Run(trace.stdout) for trace in traces]
                wanted, status = expected(*runs)
                came = sources(bpfdb, runs, sides, options)
            kind = ' and '.join(sorted({line.split(' ', 2)[-1] for line in wanted.split('\n') if line.startswith(('step', 'same'))})) or 'ends'
            kind = 'refused' if status == 2 else 'same' if wanted.startswith('same') else kind
            kinds[kind] = kinds.get(kind, 0) + 1
            for asking, answer in ((['--alone'], wanted), (options, wanted + came)):
                found = subprocess.run([bpfdb, 'diff', *common, *asking, *words], capture_output=True, text=True)
                if (found.stdout, found.returncode) != (answer, status):
                    failed += 1
                    print(f'FAILED: seed {seed}: {" ".join(asking + words)} --steps {limit}\n{found.stdout}status {found.returncode}; wanted\n{answer}status {status}')
            if came:
                marks = {line[0] for line in came.split('\n')[:-1]}
                kind = 'values' + ', of one run' * (len(marks) == 1) + ', cut' * ('cut: ' in came)
                kinds[kind] = kinds.get(kind, 0) + 1
            if traces[0].returncode == 2:
                continue
            trace, wanted = against(rng, Run(traces[0].stdout), len(contexts[0]))
            with open('trace', 'w', encoding='ascii', newline='') as file:
                file.write(trace)
            found = subprocess.run([bpfdb, 'diff', *common, '-m', 'p', '--trace', 'trace', 'a.s'], capture_output=True, text=True)
            kind = 'trace: ' + re.sub(r'^step \d+|\d+', '..', wanted[0].split('\n')[0])
            kinds[kind] = kinds.get(kind, 0) + 1
            if (found.stdout, found.returncode) != wanted:
                failed += 1
                print(f'FAILED: seed {seed}: diff --steps {limit} --trace\n{found.stdout}{found.stderr}status {found.returncode}; wanted\n{wanted[0]}status {wanted[1]}\n{trace}')
    for kind in sorted(kinds):
        print(f'{kinds[kind]} {kind}')
    print(f'{count} pairs: {failed} failed')


main()

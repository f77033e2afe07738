"""named.py BPFDB FOLDER: files of tests at random whose sections name files of FOLDER (program.o, mock.o, packets.pcap, empty, below/abc), held against
a reader of another form: it puts the words and maps that `bpfdb link` gives, and bytes, where those sections stand, as sections that name none, and
then follows each number of a line back to the file as it was. Says what differs, and how many were tried."""
import os
import random
import re
import struct
import subprocess
import sys

LINES = re.compile(r'(the test in line |the program in line |at line )(\d+)')
PROGRAMS = [['first'], ['two', 'first_of_two'], ['two', 'second'], ['count'], ['time', None, '-- stub 5=7'], ['time', None, '-- with mock.o'],
            [None, 'counting', '-- entry second', '-- entry counting@1'], ['two', 'second@2'], [None, 'now@1', '-- stub 5=7', '-- entry first_byte']]


def run(program, folder, *words):
    return subprocess.run([program, *words], cwd=folder, capture_output=True, timeout=60)


class Model:
    def __init__(self, program, folder):
        self.program, self.folder, self.links = program, folder, {}
        raw, at, self.packets = open(folder + '/packets.pcap', 'rb').read(), 24, []
        while at < len(raw):
            size = struct.unpack_from('<I', raw, at + 8)[0]
            self.packets.append(raw[at + 16:at + 16 + size])
            at += 16 + size

    def linked(self, options):
        """The lines that stand in place of an object, linked with these options."""
        if options not in self.links:
            done = run(self.program, self.folder, 'link', *options, 'program.o')
            assert done.returncode == 0, done
            maps = [line[7:].decode() for line in done.stderr.splitlines() if line.startswith(b'--maps ')]
            self.links[options] = ['-- words', done.stdout.hex()] + (['-- maps'] + maps if maps else [])
        return self.links[options]

    def replaced(self, lines):
        """The lines with what is named put in place, and of each new line the number of the one from which it comes."""
        new, origins, at = [], [], 0
        while at < len(lines):
            start, line = at, lines[at]
            at += 1
            words = line[2:].split() if line.startswith('--') else ['']
            put = [line]
            if words[0] == 'object':
                options = []
                while at < len(lines) and (not lines[at].strip() or lines[at][2:].split()[0] in ('section', 'entry', 'with', 'stub')):
                    if lines[at].strip():
                        word, value = lines[at][2:].split()
                        options += [f'--{word}', value]
                    at += 1
                put = self.linked(tuple(options))
            elif words[0] == 'mem-file':
                put = ['-- mem', open(f'{self.folder}/{words[1]}', 'rb').read().hex()]
            elif words[0] == 'packet':
                put = ['-- mem', self.packets[int(words[2]) - 1].hex()]
            new += put
            origins += [start + 1] * len(put)
        return new, origins


def some_test(random):
    """The lines of a test's own sections, in some order."""
    sections = []
    if random.random() < 0.7:
        section, *more = random.choice(PROGRAMS)
        options = (['-- section ' + section] if section else []) + ['-- entry ' + name for name in more[:1] if name] + more[1:]
        random.shuffle(options)
        for _ in range(random.randrange(3)):
            options.insert(random.randrange(len(options) + 1), random.choice(['', ' ', '\t']))
        sections.append([random.choice(['-- object program.o', '--object  program.o '])] + options)
    elif random.random() < 0.6:
        sections.append(['-- listing', random.choice(['mov r0, r2', 'ldxb r0, [r1+0]', 'frob', 'mov r0, 1']), 'exit'])
    if random.random() < 0.7:
        sections.append([random.choice(['-- mem-file empty', '-- mem-file below/abc', '-- packet packets.pcap 1', '-- packet packets.pcap 3']
                                       + ['-- packet packets.pcap 2'])] + [''] * random.randrange(3))
    if random.random() < 0.95:
        sections.append(random.choice([['-- result', str(random.choice([0, 1, 2, 3, 7, 42, 54, 97, 1000]))], ['-- fault', ''], ['-- limit', ''], ['-- refused', 'A1']]))
    if random.random() < 0.2:
        sections.append(['-- steps', random.choice(['5', '1000', 'x'] if random.random() < 0.2 else ['5', '1000'])])
    if random.random() < 0.05:
        sections.append(random.choice([['-- mem', '00'], ['-- maps', '4x2'], ['-- unknown', 'x'], ['-- words', '95']]))
    random.shuffle(sections)
    return [line for section in sections for line in section]


def some_file(random):
    lines = ['# a file', ''] if random.random() < 0.3 else []
    if random.random() < 0.5:
        lines += some_test(random)
    for number in range(random.randrange(5)):
        lines += ['-- name', f'test {number}'] + some_test(random)
    return lines


def told(done, origins):
    """The report and the fault, with the numbers of lines as they are in the file."""
    def back(found):
        # (a line of a listing is counted from its head)
        return found[1] + str(origins[int(found[2]) - 1])
    out, err = done.stdout.decode(), done.stderr.decode()
    if origins:
        out = '\n'.join(line if line.startswith('# came: refused') else LINES.sub(back, line) for line in out.split('\n'))
        err = LINES.sub(back, err)
    return done.returncode, out, err


def main():
    program, folder = os.path.abspath(sys.argv[1]), sys.argv[2]
    model, seen, differ = Model(program, folder), {0: 0, 1: 0, 2: 0}, 0
    for seed in range(600):
        lines = some_file(random.Random(seed))
        new, origins = model.replaced(lines)
        ends = random.Random(seed).choice(['\n', '\n', '\r\n'])
        os.makedirs(folder + '/model', exist_ok=True)
        with open(folder + '/tests', 'w', newline='') as file:
            file.write(ends.join(lines) + random.Random(seed).choice(['', ends]))
        with open(folder + '/model/tests', 'w', newline='') as file:
            file.write('\n'.join(new) + '\n')
        for options in [], ['--cover']:
            found = told(run(program, folder, 'test', *options, 'tests'), None)
            wanted = told(run(program, folder + '/model', 'test', *options, 'tests'), origins)
            seen[found[0]] += 1
            if found != wanted:
                differ += 1
                print(f'seed {seed} {options}:', *lines, '--- found:', found[1] + found[2], '--- wanted:', wanted[1] + wanted[2], sep='\n')
    print(f'files of tests that name files: {sum(seen.values())}, of which {differ} differ; {seen[0]} pass, {seen[1]} fail, {seen[2]} are refused')
    sys.exit(differ > 0 or min(seen.values()) < 10)


main()

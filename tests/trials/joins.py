#!/usr/bin/env python3
"""joins.py BPFDB FIRST SECOND: what stands in the joined object of two, by another reader of objects; and damaged objects, of which each is refused
in one line or joined. Prints how many rows held."""
import random, struct, subprocess, sys
program, first, second = sys.argv[1:]
held = 0


def hold(right, what):
    global held
    if not right:
        sys.exit(what)
    held += 1


class Elf:
    def __init__(self, data):
        self.data = data
        at, = struct.unpack_from('<Q', data, 40)
        count, names = struct.unpack_from('<HH', data, 60)
        self.sections = [struct.unpack_from('<IIQQQQIIQQ', data, at + 64 * i) for i in range(count)]
        self.names = [self.text(names, s[0]) for s in self.sections]
        self.table = next(i for i, s in enumerate(self.sections) if s[1] == 2)
        link = self.sections[self.table][6]
        raw = self.bytes(self.table)
        self.symbols = []
        for i in range(len(raw) // 24):
            name, info, other, section, value, size = struct.unpack_from('<IBBHQQ', raw, 24 * i)
            self.symbols.append((self.text(link, name), info >> 4, info & 15, section, value, size))

    def bytes(self, i):
        s = self.sections[i]
        return self.data[s[4]:s[4] + s[5]]

    def text(self, section, at):
        s = self.sections[section]
        return self.data[s[4] + at:self.data.index(b'\0', s[4] + at)].decode()

    def relocations(self, section):
        raw = b''.join(self.bytes(i) for i, s in enumerate(self.sections) if s[1] == 9 and s[7] == section)
        return {struct.unpack_from('<Q', raw, k)[0]: struct.unpack_from('<II', raw, k + 8) for k in range(0, len(raw), 16)}


def joined(a, b, section):
    with open('a.o', 'wb') as file:
        file.write(a)
    with open('b.o', 'wb') as file:
        file.write(b)
    done = subprocess.run([program, 'link', '-r', '--with', 'b.o', '--section', section, 'a.o'], capture_output=True, timeout=20)
    return done.returncode, done.stdout, done.stderr


HELPERS = {1: 'bpf_map_lookup_elem', 2: 'bpf_map_update_elem', 5: 'bpf_ktime_get_ns', 7: 'bpf_get_prandom_u32', 64: 'bpf_bind'}
a, b = open(first, 'rb').read(), open(second, 'rb').read()
A, B = Elf(a), Elf(b)
for section in ('time', 'text', 'trace', 'extern', 'cells'):
    status, out, err = joined(a, b, section)
    hold(status == 0 and not err, f'{section}: {err}')
    J = Elf(out)
    chosen = A.names.index(section)
    calls = {A.symbols[symbol][3] for kind, symbol in A.relocations(chosen).values() if kind == 10}
    parts = [(A, chosen)] + [(A, i) for i in calls if A.names[i] == '.text'] + [(B, B.names.index('.text'))]
    begins, whole = {}, b''
    for elf, i in parts:
        begins[elf is A, i] = len(whole)
        whole += elf.bytes(i)
    code, of = J.bytes(chosen), begins[False, B.names.index('.text')]
    hold(len(code) == len(whole), f'{section}: the code has another length')
    answers = {y[0]: y[4] for y in B.symbols if y[1] and y[2] == 2}
    for at in range(0, len(code), 8):
        op, registers, offset, imm = struct.unpack_from('<BBhi', whole, at)
        want = whole[at:at + 8]
        if at < of and op == 0x85 and registers == 0 and HELPERS.get(imm) in answers:
            want = struct.pack('<BBhi', 0x85, 0x10, 0, (of + answers[HELPERS[imm]] - at) // 8 - 1)
        hold(code[at:at + 8] == want, f'{section}: slot {at // 8} is {code[at:at + 8].hex()}, and not {want.hex()}')
    offered = {y[0]: y for y in B.symbols if y[1] and 0 < y[3] < 0xff00}
    records = len(J.sections) - 1
    maps = [y[0] for y in A.symbols if y[2] == 1 and A.names[y[3]] == '.maps']

    def place(elf, y):
        """Where a symbol is to lie: a section of the joined object, and where in it."""
        name, binding, kind, at, value, size = y
        if elf is A and name in maps:
            return records, 64 * maps.index(name)
        if elf is A and at == 0 and name in offered:
            return place(B, offered[name])
        if (elf is A, at) in begins:
            return chosen, begins[elf is A, at] + value
        return (at, value) if elf is A or at in (0, 0xfff1) else (at + len(A.sections), value)

    for k, (elf, y) in enumerate([(A, y) for y in A.symbols] + [(B, y) for y in B.symbols]):
        hold(J.symbols[k][0] == y[0] and J.symbols[k][3:5] == place(elf, y), f'{section}: symbol {k} is {J.symbols[k]}, of {y}')
    wanted = {}
    for elf, i in parts:
        more = 0 if elf is A else len(A.symbols)
        wanted.update({at + begins[elf is A, i]: (kind, symbol + more) for at, (kind, symbol) in elf.relocations(i).items()})
    hold(J.relocations(chosen) == wanted, f'{section}: relocations')
    for i, s in enumerate(A.sections):
        if s[1] in (1, 9) and i not in begins and A.names[i] not in (section, '.text', '.rel.text', '.rel' + section):
            hold(J.names[i] == A.names[i] and J.bytes(i) == A.bytes(i), f'{section}: section {A.names[i]}')
    for i, s in enumerate(B.sections):
        if B.names[i] in ('.data', '.bss', '.rodata'):
            hold(J.sections[i + len(A.sections)][5] == s[5] and (s[1] == 8 or J.bytes(i + len(A.sections)) == B.bytes(i)), f'{section}: data {B.names[i]}')
    table = J.bytes(records)
    hold(table == b''.join(struct.pack('<IIII48x', *{'flows': (1, 4, 8, 128), 'events': (27, 0, 0, 4096)}[name]) for name in maps), f'{section}: records')

random.seed(1)
for k in range(400):
    two = [bytearray(a), bytearray(b)]
    which = two[k % 2]
    for _ in range(random.choice((1, 1, 3))):
        which[random.choice((random.randrange(64), random.randrange(len(which)), len(which) - 1 - random.randrange(64 * 30)))] = random.choice((0, 1, 255, random.randrange(256)))
    status, out, err = joined(bytes(two[0]), bytes(two[1]), 'cells')
    hold((status, err) == (0, b'') or (status == 2 and not out and err.startswith(b'refused E') and err.count(b'\n') == 1), f'damaged object {k}: {status} {err}')
    if status == 0:
        done = subprocess.run([program, 'link', '--section', 'cells', 'j.o'], capture_output=True, timeout=20) if open('j.o', 'wb').write(out) else None
        hold(done.returncode in (0, 2) and (done.returncode == 0 or done.stderr.startswith(b'refused E')), f'damaged object {k}, linked: {done.stderr}')
print(held, 'held')

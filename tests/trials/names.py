#!/usr/bin/env python3
"""The names that `origin --object` tells of places in maps, held against another reader of symbols and BTF:

    names.py PROGRAM whole OBJECT [OPTION..]     each byte of each map of an object as it is
    names.py PROGRAM turned OBJECT STEP [OPTION..]
                                                 the same of objects in each of which one byte of .BTF is another one, each STEP-th byte

Here a type is spread out: the names of all bytes of a value are listed at once. bpfdb goes from a byte inwards. The last line says how many bytes were held."""
import functools
import os
import re
import struct
import subprocess
import sys
import tempfile

PROGRAM = sys.argv[1]
BASE, STRIDE = 0x3_0000_0000, 0x10_0000


def number(data, at, size=4):
    return int.from_bytes(data[at:at + size], 'little')


def text_at(data, at):
    return bytes(data[at:at + 255]).split(b'\0')[0]


# Characters that end a line or steer a terminal, and those of which nothing is seen (Unicode's ignorable ones, DerivedCoreProperties.txt), first to last.
SPELLED = ((0, 0x1f), (0x7f, 0x9f), (0xad, 0xad), (0x34f, 0x34f), (0x61c, 0x61c), (0x115f, 0x1160), (0x17b4, 0x17b5), (0x180b, 0x180f),
           (0x200b, 0x200f), (0x2028, 0x202e), (0x2060, 0x206f), (0x3164, 0x3164), (0xfe00, 0xfe0f), (0xfeff, 0xfeff), (0xffa0, 0xffa0),
           (0xfff0, 0xfffb), (0xfffd, 0xfffd), (0x1bca0, 0x1bca3), (0x1d173, 0x1d17a), (0xe0000, 0xe0fff))


def shown(name):
    """A name as bpfdb shows it."""
    out = ''
    for char in name.decode('utf8', errors='surrogateescape'):
        code = ord(char)
        spelled = any(first <= code <= last for first, last in SPELLED)
        if 0xdc80 <= code <= 0xdcff:
            out += f'\\x{code - 0xdc00:02x}'
        else:
            out += ''.join(f'\\x{byte:02x}' for byte in char.encode()) if spelled else char
    return out


class Types:
    """The types of a section .BTF."""

    def __init__(self, data):
        self.all, self.strings = [None], b''
        if len(data) < 24 or number(data, 0, 2) != 0xeb9f or data[2] != 1 or number(data, 4) < 24:
            return
        head, (at, size, names, length) = number(data, 4), struct.unpack_from('<IIII', data, 8)
        if max(head + at + size, head + names + length) > len(data):
            return
        body, place, found = data[head + at:head + at + size], 0, [None]
        while place < size:
            info = number(body, place + 4)
            kind, count = info >> 24 & 31, info & 0xffff
            rest = {1: 4, 14: 4, 17: 4, 3: 12, 6: 8 * count, 13: 8 * count, 4: 12 * count, 5: 12 * count, 15: 12 * count, 19: 12 * count}.get(kind, 0)
            if not 0 < kind < 20 or place + 12 + rest > size:
                return
            found.append((number(body, place), kind, info, number(body, place + 8), body[place + 12:place + 12 + rest]))
            place += 12 + rest
        self.all, self.strings = found, data[head + names:head + names + length]

    def type(self, index):
        """Name, kind, info, size or type, and what follows; nothing where there is none of this number."""
        return self.all[index] if 0 < index < len(self.all) else (0, 0, 0, 0, b'')

    def named(self, at):
        return text_at(self.strings, at)

    def size(self, index):
        times = 1
        for _ in range(32):
            _, kind, _, of, rest = self.type(index)
            if kind in (8, 9, 10, 11, 18):
                index = of
            elif kind == 3:
                times, index = min(times * number(rest, 8), 1 << 32), number(rest, 0)
        _, kind, _, of, _ = self.type(index)
        if kind in (1, 4, 5, 6, 16, 19):
            return min(times * of, (1 << 32) - 1)
        return min(times * 8, (1 << 32) - 1) if kind == 2 else None

    @functools.lru_cache(None)
    def spread(self, index, count, deep=32):
        """The names of the first bytes of a value, and how far each byte lies behind the beginning of what has the name."""
        whole = [('', k) for k in range(count)]
        if not deep or not count:
            return whole
        _, kind, info, of, rest = self.type(index)
        if kind in (8, 9, 10, 11, 18):
            return self.spread(of, count, deep - 1)
        if kind == 3:
            element, most = number(rest, 0), number(rest, 8)
            size = self.size(element)
            if not size:
                return whole
            one = self.spread(element, min(size, count), deep - 1)
            names = [f'[{i}]{name}' if name is not None else '' for i in range(min(most, (count + size - 1) // size)) for name, _ in one]
            far = [behind for _ in range(min(most, (count + size - 1) // size)) for _, behind in one]
            inside = list(zip(names, far))[:count]
            return inside + whole[len(inside):]
        if kind not in (4, 5) or not 0 < info & 0xffff <= 1024:
            return whole
        members = []
        for i in range(info & 0xffff):
            name, member, place = struct.unpack_from('<III', rest, 12 * i)
            members.append((place % (1 << 24) // 8 if info >> 31 else place // 8, name, member))
        if kind == 5:
            begin, name, member = members[0]
            dotted = '.' + shown(self.named(name)) if self.named(name) else ''
            one = self.spread(member, max(count - begin, 1), deep - 1)
            return [(dotted + one[max(k - begin, 0)][0], one[max(k - begin, 0)][1]) for k in range(count)]
        owner = {}
        for i, (begin, _, _) in enumerate(members):
            for k in range(begin, count):
                owner[k] = i
        names = list(whole)
        for i in sorted(set(owner.values())):
            begin, name, member = members[i]
            dotted = '.' + shown(self.named(name)) if self.named(name) else ''
            mine = [k for k in owner if owner[k] == i]
            one = self.spread(member, max(mine) - begin + 1, deep - 1)
            for k in mine:
                names[k] = (dotted + one[k - begin][0], one[k - begin][1])
        return names


def after(name, behind):
    return name + (f'+{behind}' if behind else '')


class Object:
    def __init__(self, data):
        self.data = data
        start, count, names = number(data, 40, 8), number(data, 60, 2), number(data, 62, 2)
        rows = [struct.unpack_from('<IIQQQQIIQQ', data, start + 64 * i) for i in range(count)]
        self.names = [text_at(data, rows[names][4] + row[0]) for row in rows]
        btf = [data[row[4]:row[4] + row[5]] for row, name in zip(rows, self.names) if name == b'.BTF']
        self.types = Types(btf[0] if len(btf) == 1 else b'')
        table = next(row for row in rows if row[1] == 2)
        strings = data[rows[table[6]][4]:]
        self.symbols = [(text_at(strings, name) if name else b'', info & 15, section, value)
                        for name, info, _, section, value, _ in struct.iter_unpack('<IBBHQQ', data[table[4]:table[4] + table[5]])]

    def variable(self, name, section):
        """The type of the last variable of a name in the last list of a section's variables."""
        lists = [t for t in self.types.all if t and t[1] == 15 and self.types.named(t[0]) == section]
        if not lists:
            return None
        for i in reversed(range(lists[-1][2] & 0xffff)):
            variable = self.types.type(number(lists[-1][4], 12 * i))
            if variable[1] == 14 and self.types.named(variable[0]) == name:
                return variable[3]
        return None

    def value(self, name):
        """The type of the values of a map."""
        index = self.variable(name, b'.maps')
        if index is None:
            return None
        for _ in range(32):
            if self.types.type(index)[1] in (8, 9, 10, 11, 18):
                index = self.types.type(index)[3]
        _, kind, info, _, rest = self.types.type(index)
        found = None
        for i in range(info & 0xffff if kind == 4 else 0):
            if self.types.named(number(rest, 12 * i)) == b'value':
                found = number(rest, 12 * i + 4)
        if found is None:
            return None
        for _ in range(32):
            if self.types.type(found)[1] in (8, 9, 10, 11, 18):
                found = self.types.type(found)[3]
        return self.types.type(found)[3] if self.types.type(found)[1] == 2 else None

    def map_names(self, index, name, size, entries):
        """The name of each byte of a map: by its values' type, or by the symbols of its section."""
        own = name.encode('utf8', errors='surrogateescape')
        section = next((i for i, other in enumerate(self.names) if other == own and not own.endswith(b'maps')), None)
        if section is None or any(s[0] == own and self.names[s[2]] in (b'.maps', b'maps') for s in self.symbols if s[2] < len(self.names)):
            of = self.value(own)
            one = self.types.spread(of, size) if of is not None else [('', k) for k in range(size)]
            return [f'{shown(own)}[{i}]{after(*one[k])}' for i in range(entries) for k in range(size)]
        size *= entries
        names = [after(shown(own), k) for k in range(size)]
        taken = {}
        for symbol, kind, where, value in self.symbols:
            if kind == 1 and where == section and symbol:
                taken[value] = symbol
        begins = sorted(taken)
        for place, end in zip(begins, begins[1:] + [size]):
            of = self.variable(taken[place], own)
            if of is None:
                spread, most = [('', k) for k in range(max(end - place, 0))], size
            else:
                spread, most = self.types.spread(of, max(end - place, 0)), self.types.size(of)
            for k in range(place, min(end, size)):
                if most is None or k - place < most:
                    names[k] = shown(taken[place]) + after(*spread[k - place])
        return names


def held(path, options, starts=range(8)):
    """How many bytes of an object's maps have the names that they should have; None where the object isn't linked. A line has the name of the first of
    its eight bytes: so bytes are asked about from several places on."""
    linked = subprocess.run([PROGRAM, 'link', *options, path], capture_output=True, check=False)
    told = linked.stderr.decode(errors='surrogateescape').split('\n')
    if linked.returncode or not told[0].startswith('--maps '):
        return None
    with open(path, 'rb') as file:
        elf = Object(file.read())
    names = {int(m[1]): m[2] for m in (re.fullmatch(r'map (\d+): (.*)', line) for line in told) if m}
    count = 0
    with tempfile.NamedTemporaryFile() as script:
        for index, shape in enumerate(told[0].split()[1].split(',')):
            size, entries = map(int, shape.split('x'))
            wanted = elf.map_names(index, names.get(index, ''), size, entries)
            for at in (at for start in starts for at in range(start, size * entries, 256)):
                first = BASE + STRIDE * index + at
                asked = min(256, size * entries - at)
                done = subprocess.run([PROGRAM, 'origin', '--script', script.name, '--object', *options, path, f'{first:#x}:{asked}'],
                                      capture_output=True, check=False)
                lines = done.stdout.decode(errors='surrogateescape').split('\n')[1:-1]
                if done.returncode or len(lines) != (asked + 7) // 8:
                    sys.exit(f'{path}: {first:#x}: status {done.returncode}, {len(lines)} lines: {done.stderr}')
                for line in lines:
                    found = re.fullmatch(r'left (0x[0-9a-f]+):[1-8] = 0x[0-9a-f]+; at the opening; in (.*)', line)
                    place = int(found[1], 16) - BASE - STRIDE * index if found else 0
                    if not found or found[2] != wanted[place]:
                        sys.exit(f'{path}: {line}\nand not {wanted[place]}')
                    count += 1
    return count


def turned(path, step, options):
    with open(path, 'rb') as file:
        data = file.read()
    elf = Object(data)
    start = number(data, 40, 8)
    row = struct.unpack_from('<IIQQQQIIQQ', data, start + 64 * elf.names.index(b'.BTF'))
    count = 0
    with tempfile.TemporaryDirectory() as folder:
        for at in range(row[4], row[4] + row[5], step):
            other = bytearray(data)
            other[at] ^= 1 << at % 8
            changed = os.path.join(folder, 'turned.o')
            with open(changed, 'wb') as file:
                file.write(other)
            count += held(changed, options, [at % 8]) or 0
    return count


def main():
    if sys.argv[2] == 'whole':
        print(f'{held(sys.argv[3], sys.argv[4:]) or 0} held')
    else:
        print(f'{turned(sys.argv[3], int(sys.argv[4]), sys.argv[5:])} held')


main()

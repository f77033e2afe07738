#!/usr/bin/env python3
"""`bpfdb lines --object` held against another reader of symbols, .BTF and .BTF.ext, and against the lines that llvm-objdump finds in DWARF:

    lines.py PROGRAM whole OBJECT [OPTION..]     each slot of the program of an object as it is
    lines.py PROGRAM joined OBJECT OTHER,OTHER.. [OPTION..]
                                                 the same, with the functions of others, which are joined in this order
    lines.py PROGRAM broken OBJECT OTHER,OTHER.. [OPTION..]
                                                 the same, where the list of lines of each in turn can't be read
    lines.py PROGRAM dwarf OBJECT SECTION [OPTION..]
                                                 each slot of a section, by llvm-objdump
    lines.py PROGRAM turned OBJECT [OPTION..]    the same of objects in each of which one byte of .BTF.ext is another one

The last line says how many rows, or objects, were held."""
import os
import re
import struct
import subprocess
import sys

PROGRAM = sys.argv[1]


class Malformed(Exception):
    """What E53 tells."""


def number(data, at, size=4):
    return int.from_bytes(data[at:at + size], 'little')


def text_at(data, at):
    return bytes(data[at:at + 255]).split(b'\0')[0]


def shown(name):
    """A name as bpfdb shows it, of those that these objects have."""
    return ''.join(chr(byte) if 32 <= byte < 127 else f'\\x{byte:02x}' for byte in name) or '-'


class Object:
    """An object: its sections by their names, and its symbols."""

    def __init__(self, data):
        start, count, names = number(data, 40, 8), number(data, 60, 2), number(data, 62, 2)
        rows = [struct.unpack_from('<IIQQQQIIQQ', data, start + 64 * i) for i in range(count)]
        self.names = [text_at(data, rows[names][4] + row[0]) for row in rows]
        self.rows = rows
        self.data = [data[row[4]:row[4] + row[5]] if row[1] != 8 else b'' for row in rows]
        table = next(i for i, row in enumerate(rows) if row[1] == 2)
        strings = self.data[rows[table][6]]
        self.symbols = [(text_at(strings, name), info & 15, section, value)
                        for name, info, _, section, value, _ in struct.iter_unpack('<IBBHQQ', self.data[table])]

    def called(self, name):
        found = [data for data, other in zip(self.data, self.names) if other == name]
        return found[0] if len(found) == 1 else None

    def code(self, section):
        """The index of the section that is linked."""
        code = [i for i, row in enumerate(self.rows) if row[1] == 1 and row[2] & 4 and row[5]]
        if section:
            return next(i for i in code if self.names[i] == section.encode())
        return next((i for i in code if self.names[i] != b'.text'), code[0])

    def text(self, code):
        """The index of .text, where the code calls it."""
        for i, row in enumerate(self.rows):
            if row[1] == 9 and row[7] == code:
                for _, kind, symbol in struct.iter_unpack('<QII', self.data[i]):
                    target = self.symbols[symbol][2]
                    if kind == 10 and target != code and self.names[target] == b'.text':
                        return target
        return None


def blocks_of(ext, at, size):
    """The blocks of a list in .BTF.ext, each with where its name stands and its records."""
    if at + size > len(ext):
        raise Malformed
    part, found = ext[at:at + size], []
    if not part:
        return found
    record, place = number(part, 0), 4
    if record < 16:
        raise Malformed
    while place < len(part):
        end = place + 8 + number(part, place + 4) * record
        if end > len(part):
            raise Malformed
        found.append((number(part, place), [part[i:i + record] for i in range(place + 8, end, record)]))
        place = end
    return found


def lines_of(elf, section):
    """The file and line at each place of a section of code that has a record."""
    ext = elf.called(b'.BTF.ext')
    if ext is None:
        return {}
    size = number(ext, 4)
    if len(ext) < 24 or number(ext, 0, 2) != 0xeb9f or ext[2] != 1 or size < 24:
        raise Malformed
    if size >= 32:
        blocks_of(ext, size + number(ext, 24), number(ext, 28))
    btf = elf.called(b'.BTF')
    at = number(btf, 4) + number(btf, 16)
    strings = btf[at:at + number(btf, 20)]

    def is_named(place):
        return strings[place:place + len(section) + 1] == section + b'\0'

    found = [records for name, records in blocks_of(ext, size + number(ext, 16), number(ext, 20)) if is_named(name)]
    return {number(row, 0): (text_at(strings, number(row, 4)), number(row, 12) >> 10) for row in (found[-1] if found else [])}


def rows_of(elf, index, words, first):
    """The rows of a section, whose first slot is one of the program."""
    lines, rows = lines_of(elf, elf.names[index]), []
    starts = {value: name for name, kind, section, value in elf.symbols if kind == 2 and section == index}
    function = line = None
    for place in range(0, len(elf.data[index]), 8):
        if place in starts:
            function, line = starts[place], None
        line = lines.get(place, line)
        if words[8 * first + place]:
            where = f'{shown(line[0])}:{line[1]}' if line and line[1] else '-'
            rows.append(f'{first + place // 8} {where} {shown(function) if function is not None else "-"}')
    return rows


def ran(*words):
    done = subprocess.run([PROGRAM, *words], stdin=subprocess.DEVNULL, capture_output=True, check=False)
    return done.returncode, done.stdout, done.stderr.decode(errors='surrogateescape')


def expected(data, words, section, functions=()):
    """The table of an object that is linked to these words, alone or with the functions of others."""
    elf = Object(data)
    code = elf.code(section)
    text = elf.text(code)
    parts = [(elf, i) for i in (code, text) if i is not None]
    others = [Object(other) for other in functions]
    parts += [(other, other.code('.text')) for other in others]
    first = int(sum(len(each.data[i]) for each, i in parts) != len(words))
    rows = []
    for each, i in parts:
        rows += rows_of(each, i, words, first)
        first += len(each.data[i]) // 8
    return rows


def section_in(options):
    return next((option.partition('=')[2] for option in options if option.startswith('--section=')), '')


def hold(data, path, options, words, functions=()):
    """Holds the answer for an object against what it should be. How many rows it has."""
    status, out, err = ran('lines', '--object', *options, path)
    try:
        want = expected(data, words, section_in(options), functions)
    except Malformed:
        if status != 2 or not err.startswith('refused E53: malformed section .BTF.ext'):
            sys.exit(f'{path}: E53 was to come: {status} {err}')
        return 0
    found = out.decode(errors='surrogateescape').split('\n')[:-1]
    if status or err or found != want:
        differs = next((pair for pair in zip(found, want) if pair[0] != pair[1]), (len(found), len(want)))
        sys.exit(f'{path}: status {status}, {err!r}: {differs}')
    return len(found)


def whole(path, *options):
    with open(path, 'rb') as file:
        data = file.read()
    return hold(data, path, options, ran('link', *options, path)[1])


def bytes_of(path):
    with open(path, 'rb') as file:
        return file.read()


def joined(path, functions, *options):
    others = functions.split(',')
    options = (*(f'--with={other}' for other in others), *options)
    return hold(bytes_of(path), path, options, ran('link', *options, path)[1], [bytes_of(other) for other in others])


def broken(path, functions, *options):
    """Each of the objects in turn has lists of lines whose records are too short: that one is told."""
    count = 0
    for place, broke in enumerate([path, *functions.split(',')]):
        files = [path, *functions.split(',')]
        data = bytes_of(broke)
        elf = Object(data)
        at = elf.rows[elf.names.index(b'.BTF.ext')][4]
        at += number(data, at + 4) + number(data, at + 16)
        files[place] = broke + '.broken'
        with open(files[place], 'wb') as file:
            file.write(data[:at] + bytes([4, 0, 0, 0]) + data[at + 4:])
        whose = ['', ' (--with)'][place] if place < 2 else f' (--with, object {place})'
        told = ran('lines', '--object', *(f'--with={other}' for other in files[1:]), *options, files[0])
        if told != (2, b'', f'refused E53: malformed section .BTF.ext{whose}\n'):
            sys.exit(f'{files[place]}: {told}')
        if ran('link', *(f'--with={other}' for other in files[1:]), *options, files[0])[0]:
            sys.exit(f'{files[place]}: link needs no lines')
        os.remove(files[place])
        count += 1
    return count


def turned(path, *options):
    with open(path, 'rb') as file:
        data = file.read()
    words = ran('link', *options, path)[1]
    elf = Object(data)
    row = elf.rows[elf.names.index(b'.BTF.ext')]
    changed, count = path + '.turned', 0
    for at in range(row[4], row[4] + row[5]):
        for value in {data[at] ^ 1, data[at] ^ 0xff, (data[at] + 8) % 256}:
            other = data[:at] + bytes([value]) + data[at + 1:]
            with open(changed, 'wb') as file:
                file.write(other)
            hold(other, changed, options, words)
            count += 1
    os.remove(changed)
    return count


def dwarf(path, section, *options):
    """The lines by DWARF, as llvm-objdump tells them where another line begins. (Of line 0, which says that there is none, it tells
    nothing. A function begins with the line of its body in DWARF, and with that of its name in BTF.)"""
    said = subprocess.run(['llvm-objdump', '-d', '-l', '--no-show-raw-insn', f'--section={section}', path], capture_output=True, check=True)
    line, want, begun = None, {}, set()
    for row in said.stdout.decode(errors='surrogateescape').split('\n'):
        place = re.match(r'; (.*):(\d+)$', row)
        slot = re.match(r' *(\d+):\t', row)
        if re.match(r'[0-9a-f]+ <[^L]', row):
            lines_told = 0
        if place:
            line, lines_told = f'{place[1]}:{place[2]}', lines_told + 1
        elif slot and line:
            want[int(slot[1])] = line
            if lines_told < 2:
                begun.add(int(slot[1]))
    found, count = {}, 0
    for row in ran('lines', '--object', f'--section={section}', '--as-compiled', *options, path)[1].decode(errors='surrogateescape').split('\n')[:-1]:
        slot, _, rest = row.partition(' ')
        found[int(slot)] = rest.rpartition(' ')[0]
    first = min(found, default=0)
    for slot, place in want.items():
        told = found.get(slot + first)
        if told != '-':
            count += 1
            if told != place and not (slot in begun and told and told < place and told.rpartition(':')[0] == place.rpartition(':')[0]):
                sys.exit(f'{path}, {section}, slot {slot}: {told}, by DWARF {place}')
    return count


print({'whole': whole, 'joined': joined, 'broken': broken, 'turned': turned, 'dwarf': dwarf}[sys.argv[2]](*sys.argv[3:]), 'held')

#!/usr/bin/env python3
"""counts.py BPFDB OBJECT: what 'link -r --entries' makes of OBJECT (tests/program/counts/sized.c), by another reader of ELF and BTF: the map that is
named has its entries, all other maps and the rest of the file are what they were; and damaged objects, of which each is refused in one line or has other
entries. Prints how many rows held."""
import random
import struct
import subprocess
import sys

program, name = sys.argv[1:]
held = 0
MAPS = ['few', 'many', 'open', 'zero', 'hash']
PTR, ARRAY, STRUCT, UNION, ENUM, TYPEDEF, VOLATILE, CONST, PROTO, VAR, DATASEC, TAG, ENUM64 = 2, 3, 4, 5, 6, 8, 9, 10, 13, 14, 15, 17, 19


def hold(right, what):
    global held
    if not right:
        sys.exit(what)
    held += 1


def sections(data):
    """Name, place of the header, offset and size of each section."""
    at, = struct.unpack_from('<Q', data, 40)
    count, names = struct.unpack_from('<HH', data, 60)
    strings = struct.unpack_from('<Q', data, at + 64 * names + 24)[0]
    for i in range(count):
        text, = struct.unpack_from('<I', data, at + 64 * i)
        begin = strings + text
        yield data[begin:data.index(b'\0', begin)].decode(), at + 64 * i, *struct.unpack_from('<QQ', data, at + 64 * i + 24)


class Btf:
    def __init__(self, data):
        magic, version, _, size, types, types_size, strings, strings_size = struct.unpack_from('<HBBIIIII', data)
        assert (magic, version) == (0xeb9f, 1)
        self.raw = data[size + types:size + types + types_size]
        self.strings = data[size + strings:size + strings + strings_size]
        self.types, at = [None], 0
        while at < len(self.raw):
            text, info, of = struct.unpack_from('<III', self.raw, at)
            kind, count = info >> 24 & 31, info & 0xffff
            words = {1: 1, ARRAY: 3, STRUCT: 3 * count, UNION: 3 * count, ENUM: 2 * count, PROTO: 2 * count, VAR: 1, DATASEC: 3 * count, TAG: 1, ENUM64: 3 * count}.get(kind, 0)
            self.types.append((self.text(text), kind, count, of, struct.unpack_from(f'<{words}I', self.raw, at + 12)))
            at += 12 + 4 * words
        assert at == len(self.raw)

    def text(self, at):
        return self.strings[at:self.strings.index(b'\0', at)].decode()

    def bare(self, id):
        while self.types[id] and self.types[id][1] in (TYPEDEF, VOLATILE, CONST):
            id = self.types[id][3]
        return id

    def size(self, id):
        _, kind, _, of, words = self.types[self.bare(id)]
        return words[2] * self.size(words[0]) if kind == ARRAY else 8 if kind == PTR else of

    def map(self, name):
        """Kind, bytes of a key and of a value, entries: as libbpf reads the last variable of that name in the last section .maps."""
        section = [t for t in self.types[1:] if t[1] == DATASEC and t[0] == '.maps'][-1]
        variable = [self.types[id] for id in section[4][::3] if self.types[id][0] == name][-1]
        said = {}
        _, kind, count, _, words = self.types[self.bare(variable[3])]
        assert kind == STRUCT
        for i in range(count):
            to = self.types[self.bare(words[3 * i + 1])]
            assert to[1] == PTR
            said[self.text(words[3 * i])] = to[3]
        number = lambda key: self.types[said[key]][4][2] if key in said else 0
        return number('type'), *((number(size) or (self.size(said[of]) if of in said else 0)) for size, of in (('key_size', 'key'), ('value_size', 'value'))), \
            number('max_entries')


def linked(content, *words):
    with open('counted.o', 'wb') as file:
        file.write(content)
    done = subprocess.run([program, 'link', '-r', '--section', 'prog/shared', *words, 'counted.o'], capture_output=True, timeout=10, check=False)
    return done.returncode, done.stdout, done.stderr


def btf_of(data):
    return Btf(next(data[offset:offset + size] for text, _, offset, size in sections(data) if text == '.BTF'))


content = open(name, 'rb').read()
plain = btf_of(content)
hold(plain.map('few') == (2, 4, 8, 4) and plain.map('hash') == (1, 8, 20, 0), f"the maps of {name}: {[plain.map(m) for m in MAPS]}")
for told in [{m: n} for m in MAPS for n in (1, 5, 4096, 4294967295)] + [{'few': 3, 'hash': 9}, {'hash': 9, 'few': 3}, dict(zip(MAPS, (7, 8, 9, 10, 11)))]:
    status, out, err = linked(content, *(word for m, n in told.items() for word in ('--entries', f'{m}={n}')))
    hold(status == 0 and not err, f'{told}: {err}')
    new = btf_of(out)
    for m in MAPS:
        hold(new.map(m) == plain.map(m)[:3] + (told.get(m, plain.map(m)[3]),), f'{told}: {m} is {new.map(m)}')
    hold(new.raw.startswith(plain.raw) and new.strings.startswith(plain.strings), f'{told}: types or strings of the object are others')
    changed = {at + i for text, at, _, _ in sections(content) if text == '.BTF' for i in range(24, 40)}
    hold(len(out) > len(content) and all(a == b or i in changed for i, (a, b) in enumerate(zip(content, out))), f'{told}: other bytes of the file')
    hold([s[0] for s in sections(out)] == [s[0] for s in sections(content)], f'{told}: other sections')

# Damaged: bytes of the header, of the tables of sections and of .BTF.
random.seed(66)
table, = struct.unpack_from('<Q', content, 40)
places = list(range(64)) + list(range(table, len(content)))
_, _, offset, size = next(s for s in sections(content) if s[0] == '.BTF')
places += list(range(offset, offset + min(size, 4000)))
for at in random.sample(places, min(len(places), 1500)):
    damaged = bytearray(content)
    damaged[at] ^= random.choice([1, 2, 4, 8, 16, 32, 64, 128, 255])
    status, out, err = linked(bytes(damaged), '--entries', 'few=5', '--entries', 'hash=6')
    fine = status == 0 and len(out) > len(content) and not err
    hold(fine or status == 2 and not out and err.startswith(b'refused E') and err.count(b'\n') == 1, f'byte {at}: status {status}, {len(out)} bytes, {err}')
for length in range(0, len(content), 97):
    status, out, err = linked(content[:length], '--entries', 'few=5')
    hold(status == 2 and not out and err.startswith(b'refused E') and err.count(b'\n') == 1, f'{length} bytes: status {status}, {err}')
print(held, 'held')

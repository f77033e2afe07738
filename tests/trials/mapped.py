"""mapped.py BPFDB [FILES [SEED [OTHER]]]: files of tests at random that have maps of their own over one program in front of them, held against a model:
it makes the program of pieces, of each of which it knows what the checker says, looks at these from the front for each test's list of maps, and says
what each test comes to. All tests must pass but one in some files, whose expectation is wrong. OTHER, another bpfdb, must answer to the byte alike.
Says what differs, and how many were tried."""
import random
import struct
import subprocess
import sys


def word(opcode, dst=0, src=0, offset=0, imm=0):
    return struct.pack('<BBhI', opcode, dst | src << 4, offset, imm & 0xffffffff)


def wide(kind, map, offset, dst=1):
    return word(0x18, dst, kind, 0, map) + word(0, imm=offset)


class Piece:
    """Some bytes with the fault that they have with any maps, the map that they want and how many bytes of it."""
    def __init__(self, code, fault=None, map=None, length=0):
        self.code, self.fault, self.map, self.length = code, fault, map, length


def harmless(chance):
    kind = chance.randrange(4)
    if kind == 0:
        return Piece(word(0xb7, chance.randrange(2, 10), imm=chance.randrange(100)))
    if kind == 1:
        return Piece(word(0x18, 3, 0, 0, chance.randrange(9)) + word(0, imm=chance.randrange(9)))
    if kind == 2:
        return Piece(word(0x07, 4, imm=1))
    return Piece(word(0x05))


def faulty(chance):
    """Pieces that are refused with any maps, each by the fault with the least number that it has."""
    map, offset = chance.choice([(0, 0), (3, 70000), (16, 1), (200, 0)])
    return chance.choice([
        Piece(word(0xff), 4), Piece(word(0xb7, 11), 5), Piece(word(0xb7, 1, 1), 6), Piece(word(0xb7, 10), 7),
        Piece(wide(6, map, offset, 10), 7), Piece(word(0x05, offset=3000), 8), Piece(word(0x05, offset=-3000), 8), Piece(word(0x85, imm=3), 11),
        Piece(wide(5, map, 1), 6), Piece(word(0x18, 12, 6, 0, map) + word(0, imm=offset), 5), Piece(word(0x18, 1, 7) + word(0), 4),
    ])


def wanting(chance, sizes):
    """A load of a map, or of a byte of one, often near the end of one that some test has."""
    map = chance.choice([0, 0, 1, 1, 2, 3, 15, 16, 17, 4294967295] if chance.random() < 0.1 else [0, 0, 0, 1, 1, 2, 3, 15])
    if chance.random() < 0.3:
        return Piece(wide(5, map, 0), None, map, 1)
    offset = chance.choice(sizes) + chance.choice([-1, -1, 0, 1]) if chance.random() < 0.8 else chance.choice([0, 65535, 65536, 4294967295])
    return Piece(wide(6, map, max(offset, 0)), None, map, max(offset, 0) + 1)


def program(chance, sizes):
    pieces = [wanting(chance, sizes) if chance.random() < 0.4 else harmless(chance) for _ in range(chance.choice([0, 1, 2, 5, 12, 40]))]
    for _ in range(chance.choice([0, 0, 0, 1, 2])):
        pieces.insert(chance.randrange(len(pieces) + 1), faulty(chance))
    pieces += [Piece(word(0xb7, 0, imm=7)), Piece(word(0x95))]
    end = chance.random()
    if end < 0.06:
        pieces[-1] = Piece(word(0xb7, 0, imm=8), 10)
    elif end < 0.12:
        cut = chance.choice([(0, 1, 9), (5, 1, 9), (6, 1, 9), (6, 10, 7), (8, 1, 4)])
        pieces[-1] = Piece(word(0x18, cut[1], cut[0], 0, chance.choice([0, 1, 99])), cut[2])
    return pieces


def refusal(pieces, maps):
    """The first fault of the pieces with these maps, as it is printed in front of its text."""
    code = b''.join(piece.code for piece in pieces)
    slot = 0
    for piece in pieces:
        if piece.fault:
            return f'C{piece.fault} at slot {slot}'
        if piece.map is not None and piece.length > (maps[piece.map] if piece.map < len(maps) else 0):
            return f'C12 at slot {slot}'
        slot += len(piece.code) // 8
    return 'C1' if not code else None


def listed(chance, shapes):
    """A list of maps as text, and how many bytes each has; or the fault of a text that is no list."""
    if chance.random() < 0.08:
        return chance.choice([('x', 'M5'), ('0x1', 'M1'), ('257x1', 'M1'), ('4x0', 'M2'), ('1x4097', 'M2'), ('256x257', 'M3'), (','.join(['1x1'] * 17), 'M4'),
                              ('1x1,', 'M5'), ('1x1,x', 'M5'), ('0x1,x', 'M5'), ('1x1,0x1', 'M1')])
    maps = [chance.choice(shapes) for _ in range(chance.choice([1, 1, 2, 2, 3, 4, 16]))]
    return ','.join(f'{value}x{entries}' for value, entries in maps), [value * entries for value, entries in maps]


def answer(pieces, maps):
    if isinstance(maps, str):
        return maps
    return refusal(pieces, maps)


def outcome(found):
    return f'-- refused\n{found}\n' if found else '-- result\n7\n'


def file_of(chance):
    """A file of tests, and which of them pass."""
    shapes = [(chance.choice([1, 2, 4, 8, 16, 255, 256]), chance.choice([1, 2, 3, 16, 255, 256])) for _ in range(chance.choice([1, 2, 6]))]
    sizes = [value * entries for value, entries in shapes] + [0]
    pieces = program(chance, sizes)
    text, shared = '', []
    if chance.random() < 0.4:
        line, shared = listed(chance, shapes)
        text += f'-- maps\n{line}\n'
    text = f'{text}-- words\n{b"".join(piece.code for piece in pieces).hex()}\n'
    wrong = chance.random() < 0.2
    count = chance.choice([1, 2, 5, 12])
    passes = [True] * count
    for test in range(count):
        text += f'-- name\ntest {test}\n'
        maps, mine = shared, pieces
        if chance.random() < 0.75:
            line, maps = listed(chance, shapes)
            text += f'-- maps\n{line}\n'
        if chance.random() < 0.1:
            mine = program(chance, sizes)
            text += f'-- words\n{b"".join(piece.code for piece in mine).hex()}\n'
        found = answer(mine, maps)
        if wrong and test == count // 2:
            passes[test] = False
            if not found:
                found = 'C12 at slot 0'
            elif 'slot' in found:
                found = found.rsplit(' ', 1)[0] + f' {int(found.rsplit(" ", 1)[1]) + 1}'
            else:
                found = None
        text += outcome(found)
    return text, passes


def run(bpfdb, name, *words):
    return subprocess.run([bpfdb, 'test', *words, name], capture_output=True, timeout=60)


def main():
    bpfdb = sys.argv[1]
    files, seed = int(sys.argv[2]) if len(sys.argv) > 2 else 500, int(sys.argv[3]) if len(sys.argv) > 3 else 1
    other = sys.argv[4] if len(sys.argv) > 4 else None
    chance, tests, wrong, kinds = random.Random(seed), 0, 0, {}
    for number in range(files):
        text, passes = file_of(chance)
        with open('mapped.test', 'w') as file:
            file.write(text)
        done = run(bpfdb, 'mapped.test')
        lines = [line for line in done.stdout.decode().splitlines() if not line.startswith('#')]
        wanted = [f'1..{len(passes)}'] + [f'{"ok" if ok else "not ok"} {at + 1} - test {at}' for at, ok in enumerate(passes)]
        alike = lines == wanted and done.returncode == (0 if all(passes) else 1) and not done.stderr
        if alike and other:
            covered = number % 4 == 0
            theirs = run(other, 'mapped.test')
            alike = (theirs.stdout, theirs.stderr, theirs.returncode) == (done.stdout, done.stderr, done.returncode)
            if alike and covered:
                mine, theirs = run(bpfdb, 'mapped.test', '--cover'), run(other, 'mapped.test', '--cover')
                alike = (theirs.stdout, theirs.stderr, theirs.returncode) == (mine.stdout, mine.stderr, mine.returncode)
        if not alike:
            wrong += 1
            with open(f'mapped-{seed}-{number}.test', 'w') as file:
                file.write(text)
            print(f'mapped-{seed}-{number}.test: {done.stdout.decode()}{done.stderr.decode()}wanted {wanted}')
        tests += len(passes)
        for line in text.split('-- refused\n')[1:]:
            kind = line.split()[0]
            kinds[kind] = kinds.get(kind, 0) + 1
    print(f'{files} files, {tests} tests, refused: {" ".join(f"{kind} {kinds[kind]}" for kind in sorted(kinds))}; {wrong} differ')
    sys.exit(1 if wrong else 0)


main()

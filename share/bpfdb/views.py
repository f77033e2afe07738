"""What an editor shows in its tree of variables: registers, the stack, the context and maps, each with its values, which can be set."""

from bpfdb.machine import CONTEXT, FRAME_SIZE, FRAME_STRIDE, FRAMES, MAP_STRIDE, MAPS
from bpfdb.protocol import Failed

WORD = 8


def shown(content):
    """Bytes as a number where they are as many as one has, else in hexadecimal digits, and as text where all are printing ASCII."""
    if len(content) in (1, 2, 4, 8):
        return f'{int.from_bytes(content, "little"):#x}'
    return content.hex(' ') + (f' "{content.decode()}"' if content and all(32 <= byte < 127 for byte in content) else '')


def row(name, value, kind='', children=0, memory=None, expression='', **more):
    """A variable as the protocol has it."""
    found = {'name': name, 'value': value, 'variablesReference': children, **more}
    if kind:
        found['type'] = kind
    if memory is not None:
        found['memoryReference'] = f'{memory:#x}'
    if expression:
        found['evaluateName'] = expression
    return found


class View:
    """Part of the tree. Its rows are asked for from one on, and so many."""

    def __init__(self, machine):
        self.machine = machine

    def count(self):
        """How many rows it has where they are numbered, else 0."""
        return 0

    def rows(self, first, count, hold):
        """The rows. `hold` keeps a further view, and gives the number by which it is asked for."""
        raise NotImplementedError

    def assign(self, name, text, evaluate):
        """Gives a row another value. `evaluate` makes a number of a text."""
        raise Failed(f"{name} can't be set")

    def place(self, name):
        """The address and size of a row's bytes, None where it has none."""
        return None


class Registers(View):
    """The registers of a frame."""

    def __init__(self, machine, level):
        super().__init__(machine)
        self.level = level

    def rows(self, first, count, hold):
        found = self.machine.registers_of(self.level)
        return [row(name, str(value) if name == 'pc' else f'{value:#x}', 'slot' if name == 'pc' else 'u64',
                    memory=WORD * value if name == 'pc' else value, expression=name) for name, value in found.items()]

    def assign(self, name, text, evaluate):
        if self.level:
            raise Failed('the registers of a caller are set where it goes on')
        value = evaluate(text)
        self.machine.demand(f'set pc {value}' if name == 'pc' else f'set reg {name} {value:#x}')
        return str(value) if name == 'pc' else f'{value:#x}'


class Bytes(View):
    """Bytes that lie side by side, in rows of so many."""

    def __init__(self, machine, address, size, width):
        super().__init__(machine)
        self.address, self.size, self.width = address, size, width

    def count(self):
        return -(-self.size // self.width)

    def name(self, at):
        return f'[{at}]'

    def at(self, name):
        """The number of the row of a name."""
        digits = name[1:-1]
        at = int(digits) if name[:1] == '[' and digits.isdecimal() and len(digits) < 9 else -1
        if not 0 <= at < self.count():
            raise Failed(f'there is no {name}')
        return at

    def expression(self, address, size):
        kind = {1: 'u8', 2: 'u16', 4: 'u32', 8: 'u64'}.get(size)
        return f'*({kind} *){address:#x}' if kind else ''

    def rows(self, first, count, hold):
        first, last = min(first, self.count()), min(first + count, self.count())
        begin, end = first * self.width, min(last * self.width, self.size)
        content = self.machine.read(self.address + begin, end - begin)
        return [row(self.name(at), shown(content[place:place + self.width]), memory=self.address + begin + place,
                    expression=self.expression(self.address + begin + place, min(self.width, len(content) - place)))
                for at, place in zip(range(first, last), range(0, len(content), self.width))]

    def place(self, name):
        begin = self.at(name) * self.width
        return self.address + begin, min(self.width, self.size - begin)

    def content(self, text, size, evaluate):
        """The bytes that a text stands for: a number, or as many bytes as pairs of hexadecimal digits with blanks between them."""
        digits = text.split()
        if len(digits) == size != 1 and all(len(pair) == 2 for pair in digits):
            try:
                return bytes.fromhex(text)
            except ValueError:
                raise Failed(f'no bytes: {text}') from None
        if size not in (1, 2, 4, 8):
            raise Failed(f'{size} bytes are wanted, as 00 1f ..')
        return (evaluate(text) & ((1 << 8 * size) - 1)).to_bytes(size, 'little')

    def assign(self, name, text, evaluate):
        address, size = self.place(name)
        content = self.content(text, size, evaluate)
        self.machine.write(address, content)
        return shown(content)


class Stack(Bytes):
    """A frame's bytes, as words below r10."""

    def __init__(self, machine, depth):
        super().__init__(machine, FRAMES + FRAME_STRIDE * depth, FRAME_SIZE, WORD)

    def count(self):
        return 0

    def name(self, at):
        return f'r10-{FRAME_SIZE - WORD * at}'

    def at(self, name):
        below = name[4:]
        if name[:4] != 'r10-' or not below.isdecimal() or len(below) > 3 or int(below) % WORD or not 0 < int(below) <= FRAME_SIZE:
            raise Failed(f'there is no {name}')
        return (FRAME_SIZE - int(below)) // WORD

    def rows(self, first, count, hold):
        """The nearest to r10 first."""
        content = self.machine.read(self.address, FRAME_SIZE)
        return [row(self.name(at), shown(content[at * WORD:at * WORD + WORD]), memory=self.address + at * WORD,
                    expression=self.expression(self.address + at * WORD, WORD)) for at in reversed(range(FRAME_SIZE // WORD))]


class Context(Bytes):
    """The context, eight bytes a row."""

    def __init__(self, machine):
        super().__init__(machine, CONTEXT, machine.loaded.context_size, WORD)

    def name(self, at):
        return f'+{at * WORD}'

    def at(self, name):
        if name[:1] != '+' or not name[1:].isdecimal() or len(name) > 6 or int(name) % WORD or int(name) >= self.size:
            raise Failed(f'there is no {name}')
        return int(name) // WORD

    def rows(self, first, count, hold):
        """The bytes themselves, since what a context holds is rarely numbers of eight bytes, and as text what is printing ASCII of them."""
        rows = super().rows(first, count, hold)
        begin = min(first, self.count()) * WORD
        content = self.machine.read(self.address + begin, min(count * WORD, self.size - begin)) if rows else b''
        for at, found in enumerate(rows):
            part = content[at * WORD:at * WORD + WORD]
            found['value'] = part.hex(' ') + f' |{"".join(chr(byte) if 32 <= byte < 127 else "." for byte in part)}|'
        return rows


class Cells(Bytes):
    """The values of a map."""

    def __init__(self, machine, number):
        self.number = number
        size, count = machine.loaded.maps[number]
        super().__init__(machine, MAPS + MAP_STRIDE * number, size * count, size)

    def assign(self, name, text, evaluate):
        content = self.content(text, self.width, evaluate)
        self.machine.demand(f'set cell {self.number} {self.at(name)} {content.hex()}')
        return shown(content)


class Maps(View):
    """The program's maps."""

    def rows(self, first, count, hold):
        loaded = self.machine.loaded
        return [row(name, f'{entries} values of {size} bytes', children=hold(Cells(self.machine, at)), memory=MAPS + MAP_STRIDE * at,
                    indexedVariables=entries)
                for at, (name, (size, entries)) in enumerate(zip(loaded.map_names, loaded.maps))]

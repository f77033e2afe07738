"""A text in the assembly of uBPF and of bpf_conformance, as a listing of bpfdb that has the same words."""

import re

from bpfdb.texts import LONGEST_LINE, Refused

ARITHMETIC = 'add sub mul div sdiv or and lsh rsh mod smod xor mov arsh'.split()
CONDITIONS = 'jeq jgt jge jset jne jsgt jsge jlt jle jslt jsle'.split()
SIZES = 'w h b dw'.split()
REGISTER, NUMBER = re.compile('%?(r(?:10|[0-9]))'), re.compile('([+-]?)(0x[0-9a-fA-F]+|0|[1-9][0-9]*)')
NAME, LABEL = re.compile('[A-Za-z_][A-Za-z_0-9]*'), re.compile('([^ \t\\[\\],]*):')
# The digits that are read of a number (one of more is out of every range), and the ranges of numbers: of 16, of 32 and of 64 bits, with a sign or without one.
DIGITS, OFFSETS, WORDS, WIDES = 40, (-1 << 15, (1 << 15) - 1), (-1 << 31, (1 << 32) - 1), (-1 << 63, (1 << 64) - 1)
# How far a jump reaches from the slot behind it: 16 bits, and 32 of those that have their distance in the number.
REACHES = {'ja32': (-1 << 31, (1 << 31) - 1), 'callf': (-1 << 31, (1 << 31) - 1)}


def forms():
    """Each mnemonic: that of a listing, and what its operands are."""
    table = {'exit': ('exit',), 'lddw': ('lddw', 'register', 'wide'), 'ja': ('ja', 'target'), 'ja32': ('ja32', 'target'),
             'call local': ('callf', 'target')}
    for width in ('', '32'):
        table |= {f'{name}{width}': (f'{name}{width}', 'register', 'value') for name in ARITHMETIC}
        table |= {f'{name}{width}': (f'{name}{width}', 'register', 'value', 'target') for name in CONDITIONS}
        table[f'neg{width}'] = (f'neg{width}', 'register')
    for bits in (16, 32, 64):
        table |= {f'{order}{bits}': (f'{order}{bits}', 'register') for order in ('le', 'be', 'swap')}
        table[f'bswap{bits}'] = (f'swap{bits}', 'register')
    # (the first number is how many bits are taken, the second how many are written)
    for bits, width, name in ((8, 32, '8_32'), (16, 32, '16_32'), (8, 64, '8'), (16, 64, '16'), (32, 64, '32')):
        table[f'movsx{bits}{width}'] = (f'movsx{name}', 'register', 'register')
    for size in SIZES:
        table |= {f'ldx{size}': (f'ldx{size}', 'register', 'memory'), f'stx{size}': (f'stx{size}', 'memory', 'register'),
                  f'st{size}': (f'st{size}', 'memory', 'number')}
    for size in SIZES[:3]:
        table[f'ldx{size}sx'] = table[f'ldxs{size}'] = (f'ldxs{size}', 'register', 'memory')
    for name in ('add', 'or', 'and', 'xor', 'fetch_add', 'fetch_or', 'fetch_and', 'fetch_xor', 'xchg', 'cmpxchg'):
        table[f'lock {name}'] = (f'atomic_{name}64', 'memory', 'register')
        table[f'lock {name}32'] = (f'atomic_{name}32', 'memory', 'register')
    return table


FORMS = forms()


def shown(text):
    """A piece of a text in a refusal: as much as is shown of it."""
    return f"'{text[:LONGEST_LINE]}'"


def number(text, least, most):
    """A number as a listing writes it, which is the same but for a plus, and its value."""
    found = NUMBER.fullmatch(text)
    if not found:
        raise Refused(f'{shown(text)} is no number')
    digits = found[2][2:].lstrip('0') if found[2][:2] == '0x' else found[2]
    value = int(digits[:DIGITS] or '0', 16 if found[2][:2] == '0x' else 10)
    value = -value if found[1] == '-' else value
    if not least <= value <= most:
        raise Refused(f'{shown(text)} is out of range')
    return text.lstrip('+'), value


def register(text):
    found = REGISTER.fullmatch(text)
    if not found:
        raise Refused(f'{shown(text)} is no register')
    return found[1]


def memory(text):
    if text[:1] != '[' or text[-1:] != ']':
        raise Refused(f'{shown(text)} is no place in memory')
    inner = text[1:-1]
    at = min((place for place in (inner.find('+'), inner.find('-')) if place >= 0), default=len(inner))
    _, offset = number(inner[at:at + 1] + inner[at + 1:].strip(), *OFFSETS) if at < len(inner) else ('', 0)
    return f'[{register(inner[:at].strip())}{offset:+d}]'


def value(text):
    return register(text) if REGISTER.fullmatch(text) else number(text, *WORDS)[0]


OPERANDS = {'register': register, 'memory': memory, 'value': value, 'number': lambda text: number(text, *WORDS)[0],
            'wide': lambda text: number(text, *WIDES)[0], 'target': lambda text: text}


def words_of(statement):
    """The mnemonic of a statement, of one word or of two, and its operands."""
    first, _, rest = statement.replace('\t', ' ').partition(' ')
    rest = rest.strip()
    second, _, behind = rest.partition(' ')
    if first == 'lock':
        # (`lock add[%r1], %r2` has no blank in front of its bracket)
        name, bracket, operands = rest.partition('[')
        first, rest = f'lock {name.strip()}', bracket + operands
    elif (first, second) == ('call', 'local'):
        first, rest = 'call local', behind.strip()
    elif first == 'callx' or first == 'call' and REGISTER.fullmatch(rest):
        raise Refused('it calls by register, which bpfdb has not')
    elif first == 'call':
        raise Refused(f'it calls helper {number(rest, *WORDS)[0]} of another machine')
    return first, [operand.strip() for operand in rest.split(',')] if rest else []


class Instruction:
    """An instruction of the text, with its line there and its slot in the program."""

    def __init__(self, line, slot, statement):
        self.line, self.slot = line, slot
        first, given = words_of(statement)
        if first not in FORMS:
            raise Refused(f'{shown(first)} is no mnemonic')
        self.name, *kinds = FORMS[first]
        if len(given) != len(kinds):
            raise Refused(f"'{first}' has {len(kinds)} operands, and {len(given)} are given")
        self.operands = [OPERANDS[kind](text) for kind, text in zip(kinds, given)]
        self.target = self.operands.pop() if kinds[-1:] == ['target'] else None
        self.end = slot + (2 if self.name == 'lddw' else 1)


class Assembly:
    """A text of assembly: its lines, each with its number, become a listing. What would have other words there is refused by its line."""

    def __init__(self, lines):
        self.instructions, self.labels = [], {}
        for self.line, text in lines:
            try:
                self.read(text.partition('#')[0])
            except Refused as refusal:
                raise Refused(f'line {self.line}: {refusal}') from None
        if not self.instructions:
            raise Refused('its program is empty')
        self.starts = {one.slot for one in self.instructions} | {self.end()}
        self.places = {}
        for one in self.instructions:
            if one.target is not None:
                try:
                    one.operands.append(self.named(one))
                except Refused as refusal:
                    raise Refused(f'line {one.line}: {refusal}') from None

    def end(self):
        """The slot behind the last instruction so far."""
        return self.instructions[-1].end if self.instructions else 0

    def read(self, line):
        """The instructions of a line, each of which may stand behind a label."""
        for statement in line.split(';'):
            statement = statement.strip()
            if found := LABEL.match(statement):
                if not NAME.fullmatch(found[1]):
                    raise Refused(f'{shown(found[1])} is no label of a listing')
                if found[1] in self.labels:
                    raise Refused(f'the label {shown(found[1])} is there twice')
                self.labels[found[1]] = self.end()
                statement = statement[found.end():].strip()
            if statement:
                self.instructions.append(Instruction(self.line, self.end(), statement))

    def named(self, one):
        """The label of an instruction's target, which is a label or a distance from the slot behind it."""
        least, most = REACHES.get(one.name, OFFSETS)
        if one.target[:1] in ('+', '-'):
            _, distance = number(one.target, least, most)
        elif one.target in self.labels:
            distance = self.labels[one.target] - one.end
        else:
            raise Refused(f'there is no label {shown(one.target)}')
        slot = one.end + distance
        if not least <= distance <= most:
            raise Refused(f'{shown(one.target)} is out of range')
        if slot not in self.starts:
            raise Refused(f'{shown(one.target)} leads to slot {slot}, where no instruction begins')
        return one.target if one.target in self.labels else self.places.setdefault(slot, f'{self.prefix()}{slot}')

    def prefix(self):
        """What the names of places begin with that have no label in the text: no label has such a name."""
        if not hasattr(self, 'free'):
            taken = {len(name) - len(name.lstrip('L')) for name in self.labels if name.lstrip('L').isdigit()}
            self.free = 'L' * next(count for count in range(1, len(taken) + 2) if count not in taken)
        return self.free

    def listing(self):
        """The lines of the listing: an instruction each, behind its labels."""
        at = {}
        for name, slot in [*self.labels.items(), *((name, slot) for slot, name in self.places.items())]:
            at.setdefault(slot, []).append(f'{name}:')
        lines = []
        for one in self.instructions:
            lines += at.get(one.slot, [])
            lines.append(f'        {one.name} {", ".join(one.operands)}'.rstrip())
        return lines + at.get(self.end(), [])

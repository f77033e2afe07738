"""The types of an object, by the section .BTF that clang -g writes for BPF: their names and sizes, and where the fields of a struct lie."""

import difflib
import heapq
import struct
from typing import NamedTuple

from bpfdb.texts import Refused

# The kinds of types, by the numbers that BTF has for them.
INT, POINTER, ARRAY, STRUCT, UNION, ENUM, DECLARATION, TYPEDEF, VOLATILE, CONST, RESTRICT = range(1, 12)
FUNCTION, PROTOTYPE, VARIABLE, SECTION, FLOAT, TAG, TYPE_TAG, ENUM64 = range(12, 20)
# How many bytes stand behind the head of a type of each kind, and how many more for each of its parts.
BEHIND = {INT: (4, 0), POINTER: (0, 0), ARRAY: (12, 0), STRUCT: (0, 12), UNION: (0, 12), ENUM: (0, 8), DECLARATION: (0, 0), TYPEDEF: (0, 0),
          VOLATILE: (0, 0), CONST: (0, 0), RESTRICT: (0, 0), FUNCTION: (0, 0), PROTOTYPE: (0, 8), VARIABLE: (4, 0), SECTION: (0, 12),
          FLOAT: (0, 0), TAG: (4, 0), TYPE_TAG: (0, 0), ENUM64: (0, 12)}
# Kinds that only lead to another type, and those that have a size of their own; and which a word before a name stands for.
LEADING = (TYPEDEF, VOLATILE, CONST, RESTRICT, TYPE_TAG)
SIZED = (INT, STRUCT, UNION, ENUM, FLOAT, ENUM64)
KEYWORDS = {'struct': (STRUCT,), 'union': (UNION,), 'enum': (ENUM, ENUM64), '': (*SIZED, TYPEDEF)}
# The first bytes of BTF, its version and the least length of its head; the mark of a _Bool; and the bytes of a pointer and of the largest number.
MAGIC, VERSION, HEAD, BOOL, WORD, LARGEST = 0xeb9f, 1, 24, 4, 8, 16
# The most bytes of a name that are read, how deep types may lie in each other, and the most types of an object and fields of a struct: what is
# more is damaged.
LONGEST_NAME, DEEPEST, MOST_TYPES, MOST_FIELDS = 255, 64, 1_000_000, 100_000
# Of so few fields all are named to who looks for another one; and among so many names the nearest is looked for, by so many characters.
FEW, MOST_NAMES, COMPARED = 8, 10_000, 64
# An object's header: of a file of 64 bits, little-endian, for BPF.
ELF, WIDE, LITTLE, BPF = b'\x7fELF', 2, 1, 247


class Damaged(Refused):
    """What can't be, in types that a compiler wrote."""

    def __init__(self, text):
        super().__init__(f'damaged types: {text}')


class Type(NamedTuple):
    """A type: its kind, where its name stands, its number of parts (of an array its elements), whether bit fields have their widths in their
    members, its size or the type that it leads to (of an array its elements' type), and where its parts stand."""

    kind: int
    name: int
    count: int
    has_widths: bool
    value: int
    place: int


class Field(NamedTuple):
    """A field of a struct or a union: its name, its type's number, the bit at which it begins, and its bits if it is a bit field, else 0."""

    name: str
    type: int
    start: int
    bits: int


def section_of(file, wanted):
    """The bytes of the section of this name of an object for BPF."""
    for is_right, text in ((file[:4] == ELF and len(file) >= 64, 'no ELF file'), (file[4:5] == bytes([WIDE]), 'not of 64 bits'),
                           (file[5:6] == bytes([LITTLE]), 'not little-endian'), (file[18:20] == struct.pack('<H', BPF), 'not for BPF')):
        if not is_right:
            raise Refused(text)
    start, = struct.unpack_from('<Q', file, 40)
    size, count, names = struct.unpack_from('<HHH', file, 58)
    if size != 64 or names >= count or start + size * count > len(file):
        raise Refused('malformed section table')
    headers = [struct.unpack_from('<IIQQQQ', file, start + size * at) for at in range(count)]
    strings = headers[names][4]
    for name, _, _, _, place, length in headers:
        if file.startswith(wanted + b'\0', strings + name):
            if place + length > len(file):
                raise Refused(f'cut off in its section {wanted.decode()}')
            return file[place:place + length]
    raise Refused(f'no section {wanted.decode()}: clang -g writes one')


class Types:
    """The types of an object."""

    def __init__(self, data):
        self.data, self.types = data, [Type(0, 0, 0, False, 0, 0)]
        # of each struct, by where its parts stand, the fields by their names as far as they are read, and those that aren't
        self.known = {}
        if len(data) < HEAD:
            raise Damaged('the section .BTF is cut off')
        magic, version, _, head, types, length, strings, size = struct.unpack_from('<HBBIIIII', data)
        if magic != MAGIC or version != VERSION or head < HEAD:
            raise Damaged('the section .BTF begins with something else')
        if max(head + types + length, head + strings + size) > len(data):
            raise Damaged('the section .BTF is cut off')
        self.strings = data[head + strings:head + strings + size]
        place, end = head + types, head + types + length
        while place < end:
            place = self.add(place, end)

    def read(self, layout, place, end):
        if place + struct.calcsize(layout) > end:
            raise Damaged(f'type {len(self.types)} is cut off')
        return struct.unpack_from(layout, self.data, place)

    def add(self, place, end):
        """Takes the type at a place; answers where the next one stands."""
        name, info, value = self.read('<III', place, end)
        kind, count, behind = info >> 24 & 31, info & 0xffff, place + 12
        if kind not in BEHIND:
            raise Damaged(f'type {len(self.types)} is of kind {kind}, and there is none')
        if len(self.types) > MOST_TYPES:
            raise Damaged(f'there are more than {MOST_TYPES}')
        own, each = BEHIND[kind]
        self.read(f'{own + each * count}x', behind, end)
        if kind == ARRAY:
            value, _, count = self.read('<III', behind, end)
        self.types.append(Type(kind, name, count, bool(info >> 31), value, behind))
        return behind + own + each * count

    def name(self, place):
        """A name, as much of it as is read."""
        text = self.strings[place:place + LONGEST_NAME + 1]
        if place >= len(self.strings) or b'\0' not in text and len(text) <= LONGEST_NAME:
            raise Damaged('a name lies outside')
        return text[:LONGEST_NAME].split(b'\0')[0].decode(errors='surrogateescape')

    def bare(self, number):
        """A type without typedefs and qualifiers."""
        found = number
        for _ in range(DEEPEST):
            if found >= len(self.types):
                raise Damaged(f'there is no type {found}')
            if self.types[found].kind not in LEADING:
                return self.types[found]
            found = self.types[found].value
        raise Damaged(f'type {number} leads nowhere')

    def size(self, number):
        """The bytes of a type."""
        inner, count = number, 1
        for _ in range(DEEPEST):
            found = self.bare(inner)
            if found.kind == POINTER:
                return WORD * count
            if found.kind in SIZED:
                return found.value * count
            if found.kind != ARRAY:
                raise Refused(f'{self.shown(found)} has no size')
            inner, count = found.value, found.count * count
        raise Damaged(f'type {number} leads nowhere')

    def shown(self, found):
        """What a type is called."""
        what = {STRUCT: 'struct', UNION: 'union', ENUM: 'enum', ENUM64: 'enum', DECLARATION: 'struct', POINTER: 'a pointer', ARRAY: 'an array',
                INT: '', FLOAT: '', 0: 'void'}.get(found.kind, 'a function')
        return ' '.join(filter(None, (what, self.name(found.name) if found.name else '')))

    def width(self, field):
        """Where the bits of a number begin and how many it has. (Older compilers write widths of bit fields in types of their own.)"""
        found, size = self.bare(field.type), self.size(field.type)
        if not 0 < size <= LARGEST:
            raise Damaged(f'{field.name} is a number of {size} bytes')
        if field.bits or found.kind != INT:
            return field.start, field.bits or 8 * size
        encoding, = self.read('<I', found.place, len(self.data))
        shift, bits = encoding >> 16 & 0xff, encoding & 0xff
        if not bits or shift + bits > 8 * found.value:
            raise Damaged(f'{self.shown(found)} has {bits} bits')
        return field.start + shift, bits

    def is_bool(self, found):
        return found.kind == INT and bool(self.read('<I', found.place, len(self.data))[0] >> 24 & BOOL)

    def array_of(self, number, count):
        """An array of a type, which the object needn't have."""
        self.types.append(Type(ARRAY, 0, count, False, number, 0))
        return len(self.types) - 1

    def members(self, found):
        """The members of a struct or a union as they stand."""
        for place in range(found.place, found.place + 12 * found.count, 12):
            name, number, start = struct.unpack_from('<III', self.data, place)
            bits = start >> 24 if found.has_widths else 0
            yield Field(self.name(name) if name else '', number, start & 0xffffff if found.has_widths else start, bits)

    def fields(self, found):
        """The fields of a struct or a union, and among them those of its members without a name."""
        waiting, passed = [(0, self.members(found))], 0
        while waiting:
            start, members = waiting[-1]
            member = next(members, None)
            if member is None:
                waiting.pop()
                continue
            passed += 1
            if passed > MOST_FIELDS or len(waiting) > DEEPEST:
                raise Damaged(f'{self.shown(found)} has no end')
            if member.name:
                yield member._replace(start=start + member.start)
            elif (inner := self.bare(member.type)).kind in (STRUCT, UNION):
                waiting.append((start + member.start, self.members(inner)))

    def field(self, found, name, whole):
        """The field of this name, the first one; where there is none it is refused. `whole` is what that is a part of, as it was given."""
        # (each field of a struct is read once, as far as one was asked for)
        known, rest = self.known.setdefault(found.place, ({}, self.fields(found)))
        while name not in known and (field := next(rest, None)):
            known.setdefault(field.name, field)
        if name in known:
            return known[name]
        names = [field.name for field in self.fields(found)]
        raise Refused(f'{whole} has no field {name}: {few(names) if len(names) <= FEW else nearest(name, names)}')

    def named(self, keyword, name):
        """The number of the type of this name, of the kind that the keyword tells; where there isn't just one it is refused."""
        kinds, wanted = KEYWORDS[keyword], name.encode(errors='surrogateescape') + b'\0'
        same = [number for number, each in enumerate(self.types) if each.name and self.strings.startswith(wanted, each.name)]
        found = [number for number in same if self.types[number].kind in kinds]
        # (struct and typedef of one name are one type, if the one leads to the other)
        bare = [self.types[number] for number in found if self.types[number].kind != TYPEDEF]
        found = [number for number in found if self.types[number].kind != TYPEDEF or self.bare(number) not in bare]
        if len(found) == 1:
            return found[0]
        shown = f'{keyword} {name}'.strip()
        if found:
            raise Refused(f'{len(found)} types are called {shown}')
        if any(self.types[number].kind == DECLARATION for number in same):
            raise Refused(f'{shown} is only declared there, without its fields')
        names = {self.name(each.name) for each in self.types if each.name and each.kind in kinds}
        raise Refused(f'there is no type {shown}' + (f': {nearest(name, sorted(names))}' if names else ''))


def few(names):
    """The first of some names, as they are told to who looks for another one."""
    return 'there are ' + ', '.join(names[:FEW] + ['..'] * (len(names) > FEW)) if names else 'there is none'


def nearest(name, names):
    """Which of some names is most like one that isn't there."""
    matcher = difflib.SequenceMatcher(b=name[:COMPARED])

    def likeness(other, is_exact=False):
        matcher.set_seq1(other[:COMPARED])
        return matcher.ratio() if is_exact else matcher.quick_ratio()
    best = heapq.nlargest(FEW, names[:MOST_NAMES], likeness)
    return f'the nearest is {max(best, key=lambda other: likeness(other, True))}'

"""Structs of a context, laid one after the other: `NAME:TYPE FIELD=VALUE ..`, by the types of an object."""

import os
import re
from typing import NamedTuple

from bpfdb.btf import ARRAY, ENUM, ENUM64, FLOAT, INT, POINTER, STRUCT, UNION, Damaged, Field, few
from bpfdb.machine import CONTEXT
from bpfdb.texts import Refused

# The most bytes of a context (docs/COMMANDS.md), and at which multiples structs begin.
LONGEST, ALIGNMENT = 65536, 8
# A group's head; a field and its value; a field's path and its steps; of values a number, an address, and what a backslash of a text begins.
HEAD = re.compile(r'([A-Za-z_]\w*):(?:(struct|union|enum)\s+)?([^\s:=\[\]"]+)(?:\[([0-9]{1,9})\])?(?=\s|$)', re.ASCII)
SETTING = re.compile(r'\s+([^\s="]*)=("(?:[^"\\]|\\.)*"|[^\s"]+)(?=\s|$)', re.DOTALL)
PATH = re.compile(r'(?:[^\s.\[\]&]+|\[[0-9]{1,10}\])(?:\.[^\s.\[\]&]+|\[[0-9]{1,10}\])*')
STEP = re.compile(r'\[([0-9]+)\]|\.?([^.\[\]]+)')
NUMBER = re.compile(r'-?(0[xX][0-9a-fA-F]{1,1000}|[0-9]{1,1000})')
ADDRESS = re.compile(r'&([A-Za-z_]\w*)(?:\.?(.+))?', re.ASCII | re.DOTALL)
ESCAPE = re.compile(r'\\(x[0-9a-fA-F]{2}|.)', re.DOTALL)
ESCAPED = {'"': '"', '\\': '\\', 'n': '\n', 't': '\t', 'r': '\r', '0': '\0'}
# The kinds of types whose values are numbers.
NUMBERS = (INT, ENUM, ENUM64, POINTER)


class Struct(NamedTuple):
    """A struct of the context: its name, its type's number, where it begins, its bytes, and pairs of a path and a value, each as it was given."""

    name: str
    type: int
    start: int
    size: int
    settings: list


def parsed(group):
    """The words of a group: name, keyword, type, number of elements (None of what is no array), and its settings."""
    head = HEAD.match(group.strip())
    if not head:
        raise Refused(f"'{group}': NAME:TYPE FIELD=VALUE .. is wanted")
    rest, at, settings = group.strip(), head.end(), []
    while at < len(rest):
        found = SETTING.match(rest, at)
        if not found:
            raise Refused(f"{head[1]}: '{rest[at:].strip()}': FIELD=VALUE is wanted")
        settings.append((found[1], found[2]))
        at = found.end()
    return head[1], head[2] or '', head[3], None if head[4] is None else int(head[4]), settings


def laid(types, groups):
    """The structs of these groups, each at its place."""
    structs, end = {}, 0
    for name, keyword, kind, count, settings in map(parsed, groups):
        if name in structs:
            raise Refused(f'two structs are called {name}')
        number = types.named(keyword, kind)
        if count is not None:
            number = types.array_of(number, count)
        start = (end + ALIGNMENT - 1) // ALIGNMENT * ALIGNMENT
        structs[name] = Struct(name, number, start, types.size(number), settings)
        end = start + structs[name].size
        if end > LONGEST:
            raise Refused(f'with {name} the context has {end} bytes, and at most {LONGEST} are taken')
    return structs


def field_of(types, struct, path):
    """The field of a path in a struct; without a path the whole. It counts from the context's begin."""
    field, whole = Field('', struct.type, 8 * struct.start, 0), struct.name
    if path and not PATH.fullmatch(path):
        raise Refused(f"{whole}: '{path}' is no field: as a, a.b or a.b[2].c it is wanted")
    for index, name in STEP.findall(path):
        found = types.bare(field.type)
        if name:
            if field.bits or found.kind not in (STRUCT, UNION):
                raise Refused(f'{whole} is no struct, and has no field {name}')
            inner = types.field(found, name, whole)
            field, whole = inner._replace(start=field.start + inner.start), f'{whole}.{name}'
        else:
            if field.bits or found.kind != ARRAY:
                raise Refused(f'{whole} is no array, and has no element {index}')
            if int(index) >= found.count:
                raise Refused(f'{whole} has no element {index}: it has {found.count}')
            field = Field('', found.value, field.start + 8 * types.size(found.value) * int(index), 0)
            whole = f'{whole}[{int(index)}]'
    return field._replace(name=whole)


def text_in(value):
    """The bytes of a text between quotes."""
    def character(found):
        if found[1] in ESCAPED:
            return ESCAPED[found[1]].encode()
        if len(found[1]) == 1:
            raise Refused(f'{value}: \\{found[1]} is none of \\", \\\\, \\n, \\t, \\r, \\0 and \\xNN')
        return bytes.fromhex(found[1][1:])
    pieces, at, text = [], 0, value[1:-1]
    for found in ESCAPE.finditer(text):
        pieces += [os.fsencode(text[at:found.start()]), character(found)]
        at = found.end()
    return b''.join([*pieces, os.fsencode(text[at:])])


class Memory:
    """The bytes of a context, and which bits of them were given a value, by which fields."""

    def __init__(self, size):
        self.content, self.taken, self.fields = bytearray(size), bytearray(size), []

    def put(self, name, start, width, value):
        """Gives a field's bits a value: none of them twice."""
        first, last, shift = start // 8, (start + width + 7) // 8, start % 8
        mask = (1 << width) - 1 << shift
        taken = int.from_bytes(self.taken[first:last], 'little')
        if taken & mask:
            other = next(other for other, begin, end in self.fields if begin < start + width and start < end)
            raise Refused(f'{name} is given twice' if other == name else f'{name} has bits of {other}, which has a value already')
        content = int.from_bytes(self.content[first:last], 'little') | value << shift
        self.content[first:last] = content.to_bytes(last - first, 'little')
        self.taken[first:last] = (taken | mask).to_bytes(last - first, 'little')
        self.fields.append((name, start, start + width))


class Layout:
    """Structs by the types of an object, and the memory that they make."""

    def __init__(self, types, groups):
        self.types, self.structs = types, laid(types, groups)
        self.memory = Memory(max((struct.start + struct.size for struct in self.structs.values()), default=0))
        for struct in self.structs.values():
            for path, value in struct.settings:
                self.set(struct, field_of(types, struct, path), value)

    def set(self, struct, field, value):
        """Gives a field a value."""
        found = self.types.bare(field.type)
        if value[0] == '"':
            start, width, number = self.text(field, found, value)
        elif found.kind in NUMBERS:
            start, width, number = self.number(field, found, value)
        else:
            raise Refused(f'{field.name} is {self.what(found)}')
        if start + width > 8 * (struct.start + struct.size):
            raise Damaged(f'{field.name} lies outside {struct.name}')
        self.memory.put(field.name, start, width, number)

    def what(self, found):
        """What a field is that isn't a number."""
        if found.kind in (STRUCT, UNION):
            names = few([field.name for field in self.types.fields(found)])
            return f'a {"struct" if found.kind == STRUCT else "union"}, of which a field is wanted: {names}'
        if found.kind == ARRAY:
            return f'an array of {found.count}, of which an element is wanted'
        return "a floating-point number, and can't be given" if found.kind == FLOAT else 'nothing that has a value'

    def text(self, field, found, value):
        """Where a text goes, its bits and they as a number: zeros follow it to the end of its array."""
        if found.kind != ARRAY or self.types.bare(found.value).kind != INT or self.types.size(found.value) != 1:
            raise Refused(f'{field.name} is no array of char, and {value} no value of it')
        text = text_in(value)
        if len(text) > found.count:
            raise Refused(f'{field.name} has {found.count} bytes, and {value} has {len(text)}')
        return field.start, 8 * found.count, int.from_bytes(text, 'little')

    def number(self, field, found, value):
        """Where a number or an address goes, how many bits it has there, and which."""
        if value[0] == '&':
            number = self.address(field, value)
        elif NUMBER.fullmatch(value):
            number = int(value, 16 if 'x' in value.lower() else 10)
        else:
            raise Refused(f'{field.name}: {value} is neither a number nor &NAME nor a text in quotes')
        start, width = self.types.width(field)
        least, most, what = -(1 << width - 1), (1 << width) - 1, f'{width} bits'
        if self.types.is_bool(found):
            least, most, what = 0, 1, 'a _Bool'
        if not least <= number <= most:
            raise Refused(f"{field.name}: {value} doesn't fit {what}")
        return start, width, number & most

    def address(self, field, value):
        """The address of a struct or of a part of one."""
        found = ADDRESS.fullmatch(value)
        if not found or found[1] not in self.structs:
            raise Refused(f'{field.name}: {value}: there is no struct of this name: {", ".join(self.structs)}')
        target = field_of(self.types, self.structs[found[1]], found[2] or '')
        if target.bits or target.start % 8:
            raise Refused(f'{field.name}: {target.name} is a bit field, and has no address')
        return CONTEXT + target.start // 8

    def places(self):
        """What is told of each struct: its place, its address and its bytes."""
        return [f'{struct.name} at {struct.start}: {CONTEXT + struct.start:#x}, {struct.size} bytes' for struct in self.structs.values()]

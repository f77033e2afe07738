"""Types and captures for the tests of bpfdb-context: odd, wrong and damaged ones.

contexts.py kinds FILE                 writes an object with a type of each kind, and with bit fields of both forms
contexts.py refusals SHARE             lets bpfdb-context take wrong types: tells what isn't refused as wrong() has it (SHARE is the folder of its package)
contexts.py objects SHARE OBJECT WORD..  lets it take the object with bytes of headers and types changed, and cut off, with these groups
contexts.py captures SHARE CAPTURE..     the same of captures, for their first and their third packet
Each tells what ends with other than a line, and at the end how many trials there were, where they were enough."""
import contextlib
import io
import os
import resource
import signal
import struct
import sys
import traceback

# Kinds of types, by Documentation/bpf/btf.rst of the kernel.
INT, POINTER, ARRAY, STRUCT, UNION, ENUM, FORWARD, TYPEDEF, VOLATILE, CONST, RESTRICT = range(1, 12)
FUNCTION, PROTOTYPE, VARIABLE, SECTION, FLOAT, TAG, TYPE_TAG, ENUM64 = range(12, 20)
SIGNED, TRUTH = 1 << 24, 4 << 24
# How many trials are enough, and how many bytes of memory each may take.
ENOUGH, MEMORY = 500, 1 << 28


class Types:
    """A section of types that grows; numbers of types count from 1."""

    def __init__(self):
        self.types, self.strings, self.count = b'', b'\0', 0

    def name(self, text):
        place = len(self.strings)
        self.strings += text.encode('latin-1') + b'\0'
        return place if text else 0

    def add(self, kind, name='', value=0, behind=b'', parts=0, flag=0):
        self.types += struct.pack('<III', self.name(name), flag << 31 | kind << 24 | parts, value) + behind
        self.count += 1
        return self.count

    def struct(self, name, size, members, kind=STRUCT, flag=0):
        """A struct of members: name, type, and the bit at which it begins."""
        behind = b''.join(struct.pack('<III', self.name(text) if isinstance(text, str) else text, number, start) for text, number, start in members)
        return self.add(kind, name, size, behind, len(members), flag)

    def integer(self, name='int', size=4, encoding=SIGNED | 32):
        return self.add(INT, name, size, struct.pack('<I', encoding))

    def array(self, inner, count):
        return self.add(ARRAY, '', 0, struct.pack('<III', inner, inner, count))

    def section(self, **changed):
        head = {'magic': 0xeb9f, 'version': 1, 'flags': 0, 'head': 24, 'types': 0, 'types_size': len(self.types), 'strings': len(self.types),
                'strings_size': len(self.strings), **changed}
        return struct.pack('<HBBIIIII', *head.values()) + self.types + self.strings


def elf(section, name=b'.BTF', machine=247):
    """An object with this section."""
    names = b'\0' + name + b'\0.shstrtab\0'
    place = 64 + len(section)
    headers = bytes(64) + struct.pack('<IIQQQQIIQQ', 1, 1, 0, 0, 64, len(section), 0, 0, 1, 0)
    headers += struct.pack('<IIQQQQIIQQ', len(name) + 2, 3, 0, 0, place, len(names), 0, 0, 1, 0)
    head = struct.pack('<4sBBB9xHHIQQQIHHHHHH', b'\x7fELF', 2, 1, 1, 1, machine, 1, 0, 0, place + len(names), 0, 64, 0, 0, 64, 3, 2)
    return head + section + names + headers


def kinds():
    """A type of each kind, in one struct where they have values."""
    made = Types()
    number, byte = made.integer(), made.integer('byte', 1, 8)
    truth = made.integer('_Bool', 1, TRUTH | 8)
    three, five, shifted = made.integer('three', 4, 3), made.integer('five', 4, 5), made.integer('shifted', 4, 2 << 16 | 6)
    made.struct('old', 4, [('a', three, 0), ('b', five, 3), ('c', shifted, 8)])
    made.struct('new', 4, [('a', number, 3 << 24), ('b', number, 5 << 24 | 3), ('c', number, 6 << 24 | 10)], flag=1)
    small = made.add(ENUM, 'small', 4, struct.pack('<Ii', made.name('ONE'), 1), 1)
    large = made.add(ENUM64, 'large', 8, struct.pack('<III', made.name('HUGE'), 0, 1), 1)
    tagged = made.add(TYPE_TAG, 'user', number)
    pointer = made.add(POINTER, '', made.add(RESTRICT, '', made.add(CONST, '', made.add(VOLATILE, '', tagged))))
    either = made.struct('', 4, [('left', number, 0), ('right', byte, 0)], UNION)
    members = [('small', small, 0), ('is', truth, 32), ('large', large, 64), ('tagged', tagged, 128), ('', either, 160), ('to', pointer, 192),
               ('bytes', made.array(byte, 3), 256), ('ratio', made.add(FLOAT, 'double', 8), 320)]
    made.struct('all', 48, members)
    made.add(FORWARD, 'elsewhere')
    made.add(TYPEDEF, 'nothing')
    call = made.add(PROTOTYPE, '', number, struct.pack('<II', 0, number), 1)
    made.add(FUNCTION, 'called', call)
    made.add(TYPEDEF, 'call', call)
    variable = made.add(VARIABLE, 'stored', number, struct.pack('<I', 1))
    made.add(SECTION, '.data', 4, struct.pack('<III', variable, 0, 4), 1)
    made.add(TAG, 'mark', variable, struct.pack('<i', -1))
    made.struct('od\x1bd', 4, [('fie\x1bld', number, 0)])
    made.struct('none', 0, [])
    return elf(made.section())


def wrong():
    """Wrong types: what they are, the object, a group, and how that is refused."""
    def one(member, name='s', size=8, **changed):
        made = Types()
        number = made.integer()
        made.struct(name, size, [('x', number, 0) if member is None else member(made, number)])
        return elf(made.section(**changed))

    damaged = 'damaged types: '
    nowhere = damaged + 'type 2 leads nowhere'
    yield 'a typedef of itself', one(lambda made, number: ('x', made.add(TYPEDEF, 't', made.count + 1), 0)), 's:s x=1', nowhere
    yield 'an array of itself', one(lambda made, number: ('x', made.array(made.count + 1, 2), 0)), 's:s x[0]=1', nowhere
    yield 'a struct in itself', one(lambda made, number: ('', 2, 0)), 's:s x=1', damaged + 'struct s has no end'
    yield 'no such type', one(lambda made, number: ('x', 77, 0)), 's:s x=1', damaged + 'there is no type 77'
    yield 'a member outside', one(lambda made, number: ('x', number, 33)), 's:s x=1', damaged + 's.x lies outside s'
    yield 'a name outside', one(lambda made, number: (9999, number, 0)), 's:s x=1', damaged + 'a name lies outside'
    yield 'an int without bits', one(lambda made, number: ('x', made.integer('empty', 4, 0), 0)), 's:s x=1', damaged + 'empty has 0 bits'
    yield 'an int of too many bits', one(lambda made, number: ('x', made.integer('full', 4, 1 << 16 | 32), 0)), 's:s x=1', damaged + 'full has 32 bits'
    large = damaged + 's.x is a number of 4294967295 bytes'
    yield 'a number of 4 GB', one(lambda made, number: ('x', made.add(ENUM, 'e', 0xffffffff), 0)), 's:s x=1', large
    yield 'another kind', one(lambda made, number: ('x', made.add(25, ''), 0)), 's:s', damaged + 'type 2 is of kind 25, and there is none'
    yield 'kind 0', one(lambda made, number: ('x', made.add(0, ''), 0)), 's:s', damaged + 'type 2 is of kind 0, and there is none'
    yield 'too many members', one(lambda made, number: ('x', made.add(STRUCT, 't', 0, b'', 65535), 0)), 's:s', damaged + 'type 2 is cut off'
    yield 'other bytes', one(None, magic=0x9feb), 's:s', damaged + 'the section .BTF begins with something else'
    yield 'another version', one(None, version=2), 's:s', damaged + 'the section .BTF begins with something else'
    yield 'a short head', one(None, head=23), 's:s', damaged + 'the section .BTF begins with something else'
    yield 'types outside', one(None, types=4000), 's:s', damaged + 'the section .BTF is cut off'
    yield 'strings outside', one(None, strings_size=4000), 's:s', damaged + 'the section .BTF is cut off'
    yield 'a cut type', one(None, types_size=20), 's:s', damaged + 'type 2 is cut off'
    yield 'a cut name', one(None, strings_size=2), 's:s x=1', damaged + 'a name lies outside'
    yield 'no section', elf(Types().section(), b'.BTF.ext'), 's:s', 'no section .BTF: clang -g writes one'
    yield 'a short section', elf(bytes(23)), 's:s', damaged + 'the section .BTF is cut off'
    yield 'another machine', elf(b'', machine=62), 's:s', 'not for BPF'
    made = Types()
    for _ in range(2):
        made.struct('s', 4, [('x', made.integer(), 0)])
    yield 'two of a name', elf(made.section()), 's:s', '2 types are called s'
    made = Types()
    inner = made.struct('', 4, [(name, made.integer(), 0) for name in 'ab'])
    for _ in range(40):
        inner = made.struct('', 4, [('', inner, 0), ('', inner, 0)])
    made.struct('s', 4, [('', inner, 0)])
    yield 'members without end', elf(made.section()), 's:s x=1', damaged + 'struct s has no end'


def quiet():
    """Gives the output of what is tried away; answers where this tells of it."""
    told = os.fdopen(os.dup(1), 'w')
    os.dup2(os.open(os.devnull, os.O_WRONLY), 1)
    return told


def too_long(*_):
    raise TimeoutError('it takes over 10 seconds')


def refusal(end_with_status, words):
    """How bpfdb-context refuses these words, '' where it takes them."""
    said = io.StringIO()
    sys.argv = ['bpfdb-context', '-o', '/dev/zero', *words]
    signal.alarm(10)
    try:
        with contextlib.redirect_stderr(said):
            end_with_status()
    except SystemExit as end:
        line = said.getvalue()
        return line if end.code == 2 and line.count('\n') == 1 and line.startswith('bpfdb-context: ') else f'status {end.code}: {line}\n'
    except BaseException:
        return traceback.format_exc()
    finally:
        signal.alarm(0)
    return ''


def changes(content, places, kinds):
    """A file with each of these bytes changed, in so many of three ways, and cut off."""
    for place in places:
        for way in range(place, place + kinds):
            byte = content[place] ^ (0xff, 0x01, 0x80)[way % 3]
            yield f'byte {place} is {byte}', content[:place] + bytes([byte]) + content[place + 1:]
    for size in range(0, len(content), 1 + len(content) // 400):
        yield f'cut at {size}', content[:size]


def places_of(content):
    """The bytes of an object's header, of its sections' headers and of its section .BTF."""
    start, = struct.unpack_from('<Q', content, 40)
    count, names = struct.unpack_from('<HH', content, 60)
    headers = [struct.unpack_from('<IIQQQQ', content, start + 64 * at) for at in range(count)]
    _, _, _, _, place, size = next(head for head in headers if content.startswith(b'.BTF\0', headers[names][4] + head[0]))
    return [*range(64), *range(start + 64, len(content), 5), *range(place, place + size)]


def main(what, share, *words):
    if what == 'kinds':
        with open(share, 'wb') as file:
            return file.write(kinds())
    sys.path.insert(0, share)
    sys.dont_write_bytecode = True
    from bpfdb.contexts import end_with_status
    signal.signal(signal.SIGALRM, too_long)
    resource.setrlimit(resource.RLIMIT_AS, (MEMORY, MEMORY))
    told, trials = quiet(), 0

    def put(content):
        with open('changed', 'wb') as file:
            file.write(content)

    if what == 'refusals':
        for name, content, group, wanted in wrong():
            put(content)
            found = refusal(end_with_status, ['struct', 'changed', group])
            if found != f'bpfdb-context: changed: {wanted}\n':
                print(f'{name}: {found}', file=told)
            trials += 1
        return print(f'{trials} trials', file=told)
    taken = 0
    form, files, rests = ('struct', words[:1], [words[1:]]) if what == 'objects' else ('packet', words, [['1'], ['3']])
    for name in files:
        with open(name, 'rb') as file:
            content = file.read()
        for change, changed in changes(content, *((places_of(content), 1) if what == 'objects' else (range(len(content)), 3))):
            put(changed)
            for rest in rests:
                found = refusal(end_with_status, [form, 'changed', *rest])
                if found and not found.startswith('bpfdb-context: '):
                    print(f'{name}: {change}: {found}', file=told)
                trials += 1
                taken += not found
    print(f'{ENOUGH} trials and more' if trials >= ENOUGH and 0 < taken < trials else f'{trials} trials, {taken} taken', file=told)


main(*sys.argv[1:])

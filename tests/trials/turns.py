"""Lets bpfdb link programs in turn of damaged objects: 'turns.py OBJECT PROGRAM'. Bytes of the tables are changed, and the object is cut off: what comes of
it is words or a line of why not, in a moment. Of each byte of .BTF.ext that is changed, another reader of it here says what comes: the relocations of
fields of these programs, which link counts, or E53. At the end it tells how many trials held."""
import os
import struct
import subprocess
import sys
import tempfile

ENOUGH, EACH, CUTS = 600, 9, 97
# The header of a section: its name, kind, offset, size.
SECTION = struct.Struct('<II16xQQ24x')
TABLES = (2, 9)
# Functions of these sections, in turn; and .text, which they call.
ENTRIES = {'store': 'prog/one', 'take@8': 'prog/two', 'double_kept': 'prog/three', 'count': 'prog/two', 'fields': 'prog/fields'}
CALLED = {name.encode() for name in ENTRIES.values()} | {b'.text'}


class Malformed(Exception):
    """What no section .BTF.ext has."""


def sections_of(content):
    """Name, kind, offset and size of each section."""
    start, = struct.unpack_from('<Q', content, 40)
    count, names = struct.unpack_from('<HH', content, 60)
    headers = [SECTION.unpack_from(content, start + 64 * number) for number in range(count)]
    at = headers[names][2]
    return [(content[at + name:content.index(b'\0', at + name)], kind, offset, size) for name, kind, offset, size in headers]


def places_in(content):
    """The places of the header, of the table of sections, and of the tables of symbols and of relocations."""
    start, = struct.unpack_from('<Q', content, 40)
    yield from range(64)
    sections = sections_of(content)
    yield from range(start, start + 64 * len(sections))
    for name, kind, offset, size in sections:
        if kind in TABLES and not name.startswith((b'.rel.debug', b'.rel.BTF')):
            yield from range(offset, offset + size, 5)


def blocks_of(listed):
    """The size of a record of a list, and of each block where its name stands and how many records it has."""
    if not listed:
        return 16, []
    if len(listed) < 4 or struct.unpack_from('<I', listed)[0] < 8:
        raise Malformed
    size, = struct.unpack_from('<I', listed)
    at, blocks = 4, []
    while at < len(listed):
        if at + 8 > len(listed):
            raise Malformed
        name, count = struct.unpack_from('<II', listed, at)
        at += 8 + size * count
        if at > len(listed):
            raise Malformed
        blocks.append((name, count))
    return size, blocks


def fields_in(ext, strings):
    """How many relocations of fields .BTF.ext lists of what is called."""
    magic, version, head = struct.unpack_from('<HBxI', ext)
    if magic != 0xeb9f or version != 1 or head < 24:
        raise Malformed
    size, blocks = 16, []
    for at in range(8, min(head - 7, 25), 8):
        offset, length = struct.unpack_from('<II', ext, at)
        if head + offset + length > len(ext):
            raise Malformed
        size, blocks = blocks_of(ext[head + offset:head + offset + length])
    if head < 32:
        return 0
    if size < 16:
        raise Malformed
    return sum(count for name, count in blocks if strings[name:].split(b'\0')[0] in CALLED and name < len(strings))


def linked(program, changed):
    """What link says of the programs in turn of an object: its status, how many bytes it writes, and what it tells."""
    with tempfile.NamedTemporaryFile() as file:
        file.write(changed)
        file.flush()
        entries = [word for name in ENTRIES for word in ('--entry', name)]
        done = subprocess.run([program, 'link', *entries, file.name], capture_output=True, timeout=10, check=False)
    return done.returncode, len(done.stdout), done.stderr.decode(errors='replace')


def hold(program, changed, what):
    """The object that was changed is linked, or refused in a line."""
    status, size, told = linked(program, changed)
    if not (status == 0 and size and size % 8 == 0 or status == 2 and not size and told.startswith('refused ') and told.count('\n') == 1):
        raise AssertionError(f'{what}: status {status}, {size} bytes: {told}')
    return 1


def hold_ext(program, changed, strings, at, size, what):
    """What comes of an object whose .BTF.ext was changed is what the reader here says."""
    try:
        count = fields_in(bytes(changed[at:at + size]), strings)
        wanted = 0, f'fields left as compiled: {count}\n' if count else ''
    except Malformed:
        wanted = 2, 'refused E53: malformed section .BTF.ext\n'
    status, _, told = linked(program, changed)
    left = told[told.find('fields left'):] if 'fields left' in told else ''
    if status != wanted[0] or (told if status else left) != wanted[1]:
        raise AssertionError(f'{what}: status {status}, and not {wanted}: {told}')
    return 1


def main(name, program):
    program = os.path.abspath(program)
    with open(name, 'rb') as file:
        content = file.read()
    held = 0
    types, ext = (next(section for section in sections_of(content) if section[0] == wanted) for wanted in (b'.BTF', b'.BTF.ext'))
    head, strings, length = struct.unpack_from('<4xI8xII', content, types[2])
    strings = content[types[2] + head + strings:types[2] + head + strings + length]
    at, size = ext[2:]
    held += hold_ext(program, content, strings, at, size, 'as it is')
    # (places of lines in the middle of records change nothing that is told here)
    for place in (place for place in range(at, at + size) if (place - at) < 48 or place % 3 == 0):
        changed = bytearray(content)
        changed[place] ^= 1 << place % 7
        held += hold_ext(program, changed, strings, at, size, f'byte {place} of .BTF.ext')
    for number, place in enumerate(places_in(content)):
        changed = bytearray(content)
        changed[place] = 0xff if number % 2 else content[place] ^ 1
        if number % EACH == 0:
            held += hold(program, changed, f'byte {place}')
    for length in range(0, len(content), CUTS):
        held += hold(program, content[:length], f'{length} bytes')
    if held < ENOUGH:
        raise AssertionError(f'{held} trials are too few')
    print(f'{held} held')


if __name__ == '__main__':
    main(*sys.argv[1:])

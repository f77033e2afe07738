"""What `bpfdb-convert` does: makes files of tests of uBPF and of bpf_conformance to one of bpfdb's own."""

import os
import re
import sys

from bpfdb.assemblies import LONGEST_LINE, Assembly, Refused, number
from bpfdb.texts import MASK, plain, warn

USAGE = """usage: bpfdb-convert FILE..
Writes tests of uBPF (.data) and of bpf_conformance as one file of tests for
'bpfdb test' to standard output: bpfdb-convert *.data > suite.test

  FILE        a test: sections asm or raw, result, and perhaps mem; its name
              becomes that of the test
  -h, --help  writes this

A FILE that can't be a test of bpfdb is left out, with a line on standard error
that says why. The exit status is 2 if one is left out or can't be read, or if
the output can't be written."""
# The sections that are read, those that say nothing of what comes out (C that the assembly was compiled from; which registers a compiler to
# machine code may take), and those that ask for what bpfdb hasn't.
READ, UNUSED = ('asm', 'raw', 'mem', 'result'), ('c', 'no register offset')
WANTING = {'error': 'it wants an error in the words of uBPF', 'error pattern': 'it wants an error in the words of uBPF',
           'reload': 'it loads its program twice', 'unload': 'it unloads its program'}
WORD, OFFSET = re.compile('0x([0-9a-fA-F]{1,16})'), re.compile('([0-9a-fA-F]{1,16}):(.*)', re.DOTALL)
BYTE, PAIRS = re.compile('(?:0x)?([0-9a-fA-F])|0x([0-9a-fA-F]{2})'), re.compile('(?:[0-9a-fA-F]{2})+')
# The opcodes of a call by number, of one by register, and of a wide load, whose second slot is no instruction.
CALL, CALL_REGISTER, WIDE = 0x85, 0x8d, 0x18
# The most bytes that are read of a file, and how many stand in a line of the context.
MOST, WIDTH = 1 << 26, 32


def sections_of(text):
    """The sections of a file by their names: the lines of each with their numbers, and the line of each one's head."""
    sections, heads, body = {}, {}, None
    for line, one in enumerate(text.split('\n'), 1):
        one = one.rstrip()
        if one.startswith('--'):
            name = one[2:].strip()
            if name in sections:
                raise Refused(f"line {line}: section '{name[:LONGEST_LINE]}' is there twice")
            if name not in (*READ, *UNUSED, *WANTING):
                raise Refused(f"line {line}: section '{name[:LONGEST_LINE]}' is unknown")
            body, heads[name] = sections.setdefault(name, []), line
        elif body is not None and '--' in one and name in READ:
            # (a head for bpf_conformance, and none for uBPF)
            raise Refused(f"line {line}: '--' stands within a line")
        elif body is not None and one:
            body.append((line, one))
    return sections, heads


def words(lines):
    """The words of a section raw, as bytes in hexadecimal."""
    found, half = [], False
    for line, text in lines:
        for word in text.partition('#')[0].split():
            digits = WORD.fullmatch(word)
            if not digits:
                raise Refused(f"line {line}: '{word[:LONGEST_LINE]}' is no word, 0x and hexadecimal digits")
            content = int(digits[1], 16).to_bytes(8, 'little')
            if not half and content[0] == CALL_REGISTER:
                raise Refused(f'line {line}: it calls by register, which bpfdb has not')
            if not half and content[0] == CALL and content[1] >> 4 != 1:
                raise Refused(f'line {line}: it calls helper {int.from_bytes(content[4:], "little")} of another machine')
            half = not half and content[0] == WIDE
            found.append(content.hex(' '))
    if not found:
        raise Refused('its program is empty')
    return found


def dumped(text, size):
    """The bytes of a line that begins with its offset. What stands beside the bytes of a dump is none of them."""
    offset, rest = OFFSET.fullmatch(text).groups()
    rest = rest.strip()
    pairs = rest.split()
    if int(offset, 16) != size:
        raise Refused(f"its offset isn't {size:#x}")
    # (a gap in the middle of 16 bytes is no end of them)
    if not all(PAIRS.fullmatch(pair) for pair in pairs) or '  ' in rest and [len(pair) for pair in pairs] != 16 * [2]:
        raise Refused('it has more than bytes')
    return bytes.fromhex(rest)


def context(lines):
    """The bytes of a section mem."""
    content = bytearray()
    for line, text in lines:
        text = text.partition('#')[0].strip()
        try:
            if OFFSET.fullmatch(text):
                content += dumped(text, len(content))
                continue
            for word in text.split():
                byte = BYTE.fullmatch(word)
                if not byte and not PAIRS.fullmatch(word):
                    raise Refused(f"'{word[:LONGEST_LINE]}' is no bytes")
                content += bytes([int(byte[1] or byte[2], 16)]) if byte else bytes.fromhex(word)
        except Refused as refusal:
            raise Refused(f'line {line}: {refusal}') from None
    if not content:
        raise Refused('its mem has no bytes')
    return [content[at:at + WIDTH].hex(' ') for at in range(0, len(content), WIDTH)]


def result(lines, head):
    """The number of a section result."""
    texts = [(line, text.partition('#')[0].strip()) for line, text in lines]
    texts = [one for one in texts if one[1]]
    if len(texts) != 1:
        raise Refused(f'line {head}: its result is no number')
    line, text = texts[0]
    try:
        return [number(text, 0, MASK)[0]]
    except Refused as refusal:
        raise Refused(f'line {line}: {refusal}') from None


def test_of(text):
    """The sections of bpfdb's own form, each with its lines. (Where there are words, uBPF takes them, and not the assembly.)"""
    sections, heads = sections_of(text)
    for name, why in WANTING.items():
        if name in sections:
            raise Refused(f'line {heads[name]}: {why}')
    if 'asm' not in sections and 'raw' not in sections:
        raise Refused('it has no section asm and no section raw')
    if 'result' not in sections:
        raise Refused('it has no section result')
    made = {'words': words(sections['raw'])} if 'raw' in sections else {'listing': Assembly(sections['asm']).listing()}
    if 'mem' in sections:
        made['mem'] = context(sections['mem'])
    return made | {'result': result(sections['result'], heads['result'])}


def content_of(path):
    with open(path, 'rb') as file:
        content = file.read(MOST + 1)
    if len(content) > MOST:
        raise Refused(f'it has more than {MOST} bytes')
    return content.decode(errors='surrogateescape')


def converted(path):
    """A file as a test of bpfdb's: its lines. The name of a test has no '#', and nothing that a terminal obeys."""
    try:
        made = test_of(content_of(path))
    except OSError as fault:
        raise Refused(fault.strerror) from None
    name = plain(os.fsencode(path).decode(errors='surrogateescape')).replace('#', '\\x23')
    return [line for section, body in ({'name': [name]} | made).items() for line in (f'-- {section}', *body)]


def files(words):
    """The files that are named; None for help."""
    rest, words = [], list(words)
    while words:
        word = words.pop(0)
        if word == '--':
            return rest + words
        if word in ('-h', '--help'):
            return None
        if word[:1] == '-':
            raise Refused(f'there is no option {word}; bpfdb-convert --help shows those that there are')
        rest.append(word)
    return rest


def write(lines):
    try:
        with open(1, 'wb', closefd=False) as file:
            file.write(''.join(f'{line}\n' for line in lines).encode())
    except OSError:
        raise Refused('cannot write output') from None


def main(words):
    """Writes the tests, and tells whether every file is one of them."""
    paths = files(words)
    if paths is None:
        write([USAGE])
        return True
    if not paths:
        raise Refused("'bpfdb-convert FILE..' is wanted; bpfdb-convert --help tells more")
    whole = True
    for path in paths:
        try:
            lines = converted(path)
        except Refused as refusal:
            tell(f'{path}: {refusal}')
            whole = False
        else:
            write(lines)
    return whole


def tell(text):
    warn(f'bpfdb-convert: {text}'.replace('\n', '\\x0a'))


def end_with_status():
    """The program: its words are those of the command line, and it ends with a status."""
    try:
        sys.exit(0 if main(sys.argv[1:]) else 2)
    except Refused as refusal:
        tell(refusal)
        sys.exit(2)
    except KeyboardInterrupt:
        sys.exit(130)

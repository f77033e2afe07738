"""What `bpfdb-context` does: makes a context of a packet, of bytes in hexadecimal or of structs, and writes it to a file."""

import contextlib
import os
import re
import sys
import tempfile

from bpfdb.btf import Types, section_of
from bpfdb.captures import packet_of
from bpfdb.machine import CONTEXT
from bpfdb.structs import LONGEST, Layout
from bpfdb.texts import Refused, plain, warn

USAGE = """usage: bpfdb-context -o CTX packet CAPTURE N
       bpfdb-context -o CTX hex TEXT..
       bpfdb-context -o CTX struct OBJECT 'NAME:TYPE FIELD=VALUE ..'..
Writes the context of a run, the bytes that a program gets by r1:
bpfdb run -m CTX FILE.

  packet CAPTURE N   packet N, from 1 on, of a capture (pcap or pcapng, which
                     libpcap reads)
  hex TEXT..         bytes in hexadecimal, with blanks between them; - is
                     standard input
  struct OBJECT ..   structs by the types of an object (clang -g): as
                     sk:sock skc.port=0x50, each VALUE a number, &NAME,
                     &NAME.FIELD or "text"

  -o CTX, --output CTX  the file to write

docs/CONTEXTS.md has the rest."""
# How each form is called, and how many words it takes at least and at most.
FORMS = {'packet': ('packet CAPTURE N', 2, 2), 'hex': ('hex TEXT..', 1, sys.maxsize),
         'struct': ("struct OBJECT 'NAME:TYPE FIELD=VALUE ..'..", 2, sys.maxsize)}
OUTPUT = re.compile(r'(?:-o=?|--output=)(.+)', re.DOTALL)
NUMBER, BYTES = re.compile('[0-9]{1,18}'), re.compile(b'(?:[0-9a-fA-F]{2})+')
# The most bytes that are read of a text and of an object, and of either at once.
MOST_TEXT, MOST_OBJECT, PART = 1 << 26, 1 << 28, 1 << 16


@contextlib.contextmanager
def at(place):
    """Says of what is refused where it is."""
    try:
        yield
    except Refused as refusal:
        raise Refused(f'{place}: {refusal}') from None
    except OSError as fault:
        raise Refused(f'{place}: {fault.strerror}') from None


def content_of(file, most):
    """All that a file has, which is refused where that are more than so many bytes."""
    parts, size = [], 0
    while part := file.read(PART):
        parts.append(part)
        size += len(part)
        if size > most:
            raise Refused(f'it has more than {most} bytes')
    return b''.join(parts)


def command(words):
    """The file to write, the form, and its words; None for help."""
    output, rest, words = '', [], list(words)
    while words:
        word = words.pop(0)
        attached = OUTPUT.fullmatch(word)
        if word == '--':
            rest += words
            break
        if word in ('-h', '--help'):
            return None
        if word in ('-o', '--output') or attached:
            if output:
                raise Refused('-o is given twice')
            output = attached[1] if attached else words.pop(0) if words else ''
        elif word[:1] == '-' and word != '-':
            raise Refused(f'there is no option {word}; bpfdb-context --help shows those that there are')
        else:
            rest.append(word)
    name = rest[0] if rest else ''
    if name and name not in FORMS:
        raise Refused(f"'{name}' is none of {', '.join(FORMS)}")
    form, least, most = FORMS.get(name, ('packet, hex or struct ..', 1, 0))
    if not output or not least <= len(rest) - 1 <= most:
        raise Refused(f"'bpfdb-context -o CTX {form}' is wanted; bpfdb-context --help tells more")
    return output, name, rest[1:]


def packet(name, number):
    """A packet of a capture: its bytes, and what is told of it."""
    if not NUMBER.fullmatch(number) or not int(number):
        raise Refused(f"'{number}' is no number of a packet: they count from 1")
    with at(name), open(name, 'rb') as file:
        content, length, link = packet_of(file, int(number))
    size = f'{len(content)} bytes' if len(content) == length else f'{len(content)} of {length} bytes'
    return content, [plain(f'packet {int(number)} at 0: {CONTEXT:#x}, {size}, {link}')]


def bytes_of(*words):
    """Bytes in hexadecimal. Nothing is told of them."""
    lines, content = [os.fsencode(word) for word in words], bytearray()
    is_read = words == ('-',)
    if is_read:
        with at('standard input'), open(0, 'rb', closefd=False) as file:
            lines = content_of(file, MOST_TEXT).split(b'\n')
    for number, line in enumerate(lines, 1):
        for word in line.split():
            if not BYTES.fullmatch(word):
                place = f'standard input, line {number}' if is_read else 'hex'
                raise Refused(f"{place}: '{os.fsdecode(word)}' is no bytes, each of two hexadecimal digits")
            content += bytes.fromhex(word.decode())
    return bytes(content), []


def structs(name, *groups):
    """Structs by the types of an object, and what is told of each."""
    with at(name):
        with open(name, 'rb') as file:
            content = content_of(file, MOST_OBJECT)
        layout = Layout(Types(section_of(content, b'.BTF')), groups)
    return bytes(layout.memory.content), layout.places()


def tell(lines, stream):
    """Writes lines to standard output or error, if there are any."""
    if not lines:
        return
    try:
        with open(stream, 'w', closefd=False, errors='backslashreplace') as file:
            file.write(''.join(f'{line}\n' for line in lines))
    except OSError:
        raise Refused('cannot write output') from None


def is_same(path, other):
    """Whether two files, by their paths or numbers, are one."""
    with contextlib.suppress(OSError):
        return os.path.samestat(os.stat(path), os.stat(other))
    return False


def write(path, content, lines):
    """Writes a file, and tells of it: one that was there is replaced when all is done, and nothing is left of one that can't be written. Where it
    is standard output itself, that gets nothing else."""
    if is_same(path, 1):
        with open(1, 'wb', closefd=False) as file:
            file.write(content)
        return tell(lines, 2)
    if os.path.exists(path) and not os.path.isfile(path):
        with open(path, 'wb') as file:
            file.write(content)
        return tell(lines, 1)
    path = os.path.realpath(path)
    mask = os.umask(0)
    os.umask(mask)
    handle, made = tempfile.mkstemp(prefix='.bpfdb-context-', dir=os.path.dirname(path))
    try:
        with os.fdopen(handle, 'wb') as file:
            file.write(content)
        os.chmod(made, 0o666 & ~mask)
        tell(lines, 1)
        os.replace(made, path)
    except BaseException:
        os.unlink(made)
        raise


def main(words):
    asked = command(words)
    if asked is None:
        return tell([USAGE], 1)
    output, form, rest = asked
    if form != 'hex' and is_same(output, rest[0]):
        raise Refused(f'{output}: it is read, and would be lost')
    content, lines = {'packet': packet, 'hex': bytes_of, 'struct': structs}[form](*rest)
    if len(content) > LONGEST:
        raise Refused(f'the context has {len(content)} bytes, and at most {LONGEST} are taken')
    try:
        write(output, content, lines)
    except OSError as fault:
        raise Refused(f'{output}: {fault.strerror}') from None


def end_with_status():
    """The program: its words are those of the command line, and it ends with a status."""
    try:
        main(sys.argv[1:])
    except Refused as refusal:
        warn(f'bpfdb-context: {refusal}'.replace('\n', '\\x0a'))
        sys.exit(2)
    except KeyboardInterrupt:
        sys.exit(130)

"""What `bpfdb-events` does: runs a program, and prints what it sent out, as share/bpfdb-linux.h lays that out in a map."""

import os
import shutil
import struct
import sys

from bpfdb.machine import MAP_STRIDE, MAPS, MOST_BYTES
from bpfdb import options
from bpfdb.options import CommandLine
from bpfdb.session import MOVE, Ended, Program
from bpfdb.subjects import Subject
from bpfdb.texts import Refused, beside, plain, warn

USAGE = """usage: bpfdb-events [OPTIONS OF bpfdb debug] FILE
Runs a program that has the helpers of Linux, as an object has by
'--with bpfdb-linux.o', and prints what it sent to perf buffers, ring buffers,
the trace and elsewhere, a line a record.

  -h, --help  writes this

The exit status is 1 if the program ended by a fault or reached the limit of
steps. docs/LINUX.md has the rest."""
# The first bytes of the map of what was sent: a mark, how many bytes it has in use, and how many records had no room.
HEAD, MARK = struct.Struct('<QII'), 0x74756f6264667062
# What a record begins with: the bytes of its data, the number of its map, its kind, its state, and a processor.
RECORD, ALIGNMENT = struct.Struct('<IIHHI'), 8
TO_PERF, TO_RING = 1, 2
# What is a text, and what has a name and no map.
TEXTS = {3: 'trace', 4: 'file'}
NAMES = {6: 'key', 7: 'key again', 8: 'pointer', 9: 'signal'}
PACKET = 5
STATES = {0: '', 1: ', neither submitted nor discarded', 2: ', discarded'}


def bytes_at(program, address, size):
    """Bytes of the machine's memory, which has so many there."""
    content = b''
    while size > len(content):
        reply = program.ask(f'x {address + len(content):#x} {min(size - len(content), MOST_BYTES)}')
        content += bytes.fromhex(reply[0].partition(': ')[2])
    return content


def output_of(program, sizes):
    """Where the map that has the mark lies, of maps of these sizes, its bytes in use, and how many records had no room; no bytes where no map has
    it."""
    for number, size in enumerate(sizes):
        place = MAPS + number * MAP_STRIDE
        if size < HEAD.size:
            continue
        mark, used, lost = HEAD.unpack(bytes_at(program, place, HEAD.size))
        if mark == MARK:
            return place, bytes_at(program, place, min(used, size)), lost
    return MAPS, b'', 0


def records_in(content):
    """The records: the number of a map, the kind, the state and the processor of each, where its data begin, and these."""
    place = HEAD.size
    while place + RECORD.size <= len(content):
        length, number, kind, state, index = RECORD.unpack_from(content, place)
        place += RECORD.size
        yield number, kind, state, index, place, content[place:place + length]
        place += -(-length // ALIGNMENT) * ALIGNMENT


def line_of(number, kind, state, index, address, data):
    """A record as it is printed."""
    size = f'1 byte at {address:#x}' if len(data) == 1 else f'{len(data)} bytes at {address:#x}'
    if kind in TEXTS:
        # (a text's own end of line is none of the record's)
        text = data.removesuffix(b'\n').decode(errors='surrogateescape')
        return f'{TEXTS[kind]}, {size}: {plain(text)}'
    if kind in NAMES or kind == PACKET:
        return f'{NAMES.get(kind, f"packet to interface {index}")}, {size}: {data.hex()}'
    name = {TO_PERF: f'perf of processor {index}', TO_RING: 'ring'}.get(kind, f'kind {kind}')
    return f'map {number}: {name}, {size}{STATES.get(state, "")}: {data.hex()}'


def bpfdb():
    """The program that BPFDB names, or the one beside this, or on the PATH."""
    name = os.environ.get('BPFDB') or beside('bpfdb')
    path = shutil.which(name)
    if path is None:
        raise Refused(f'cannot find {name}')
    return path


def main(words):
    """Prints what was sent; whether the program exited."""
    if sys.stdout is None:
        raise OSError
    sys.stdout.reconfigure(encoding='utf-8')
    if any(word in ('-h', '--help') for word in words):
        print(USAGE)
        return True
    line = CommandLine(bpfdb(), ['debug'], words)
    line.check()
    if line.file is None:
        raise Refused("'bpfdb-events FILE' is wanted; bpfdb-events --help tells more")
    subject = Subject(line)
    # (an object without maps is a program that sends nothing)
    if not subject.is_object and not line.has('--maps'):
        raise Refused('--maps is wanted, as link told it: what was sent lies in a map')
    sizes = [size * entries for size, entries in subject.told.shapes()]
    program = Program(subject)
    try:
        move = MOVE.match(program.ask('continue')[0])
        base, content, lost = output_of(program, sizes)
    except Ended:
        status, said = program.end()
        raise Refused(said.rstrip('\n') or f'bpfdb ended with status {status}') from None
    finally:
        # (which an interrupt doesn't end by itself)
        program.kill()
    for *told, place, data in records_in(content):
        print(line_of(*told, base + place, data))
    if lost:
        warn(f'bpfdb-events: {lost} records had no room')
    if move[3] != 'end' or not move[4].startswith('exited'):
        warn(f'bpfdb-events: {move[4] if move[3] == "end" else "the limit of steps is reached: --steps"}')
        return False
    return True


def end_with_status():
    """The program: its words are those of the command line, and it ends with a status."""
    try:
        status = 0 if main(sys.argv[1:]) else 1
        sys.stdout.flush()
    except (Refused, options.Refused) as refusal:
        warn(f"bpfdb-events: {str(refusal).rstrip()}")
        status = 2
    except OSError as fault:
        warn('bpfdb-events: ' + (f'{fault.strerror}: {fault.filename}' if fault.filename else 'cannot write output'))
        status = 2
        # (what is still held of the output isn't tried again)
        os.dup2(os.open(os.devnull, os.O_WRONLY), 1)
    except KeyboardInterrupt:
        status = 130
    sys.exit(status)

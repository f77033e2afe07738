"""Packets and what the kernel made of them: 'packets.py frames|calls|layouts SEED' writes inputs of runner.c to standard output: the frames of networks, the
arguments of packets.c, or such within frames of 110 bytes. 'packets.py tests INPUTS WORDS MAPS AT < RUNS' makes what the kernel said of each input a test of
bpfdb. AT is where a packet that became shorter has its bytes: `front` or `back`, or `nowhere`, where the program's result tells of them. MAPS is `-`, or the
sizes of maps, of which the kernel's cells are wanted, too."""

import random
import re
import struct
import sys

ETHERNETS = bytes.fromhex('020000000001020000000002')
PORTS = (21, 22, 23, 80, 443, 3389, 5888, 20, 24)


def transport(r):
    """A protocol and its header, with some data."""
    data = r.randbytes(r.choice((0, 0, 1, 8, 40)))
    ports = struct.pack('>HH', r.choice(PORTS), r.choice(PORTS))
    kind = r.choice((6, 6, 6, 17, 1, 58, 47))
    if kind == 6:
        words = r.choice((5, 5, 6, 10, 15))
        return kind, ports + r.randbytes(8) + bytes((words << 4, r.randrange(64))) + r.randbytes(6 + 4 * (words - 5)) + data
    if kind == 17:
        return kind, ports + struct.pack('>HH', 8 + len(data), r.randrange(65536)) + data
    return kind, r.randbytes(8) + data


def version_4(r):
    kind, rest = transport(r)
    options = r.randbytes(4 * r.choice((0, 0, 0, 1, 2, 10)))
    fragment = r.choice((0, 0, 0x4000, 0x2000, 0x2001, 5))
    words = 5 + len(options) // 4 if r.random() < 0.9 else r.randrange(16)
    return struct.pack('>BBHHHBBH', 4 << 4 | words, 0, 20 + len(options) + len(rest), r.randrange(65536), fragment, 64, kind, 0) + r.randbytes(8) + options + rest


def version_6(r):
    kind, rest = transport(r)
    for header in r.sample((0, 43, 44, 60), r.choice((0, 0, 1, 2, 4))):
        length = 0 if header == 44 else r.choice((0, 1, 3))
        rest = bytes((kind, length)) + r.randbytes(6 + 8 * length) + rest
        kind = header
    return struct.pack('>IHBB', 6 << 28 | r.randrange(1 << 20), len(rest), kind, 64) + r.randbytes(32) + rest


def frame(r):
    kind, body = r.choice(((0x800, version_4), (0x800, version_4), (0x86dd, version_6), (0x806, lambda r: r.randbytes(28)),
                           (r.randrange(65536), lambda r: r.randbytes(r.randrange(40)))))
    tags = b''.join(struct.pack('>HH', r.choice((0x8100, 0x88a8)), r.randrange(4096)) for _ in range(r.choice((0, 0, 0, 1, 2))))
    return ETHERNETS + tags + struct.pack('>H', kind) + body(r)


def frames(r):
    """Frames as they are, and some cut at each length that the kernel takes: 14 bytes and more."""
    for _ in range(2000):
        yield frame(r)[:1500]
    for _ in range(20):
        whole = frame(r)
        for length in range(14, min(len(whole), 120)):
            yield whole[:length]


def calls(r):
    for _ in range(1500):
        first = r.choice((r.randrange(0, 70), r.randrange(-70, 1), 0, r.randrange(-400, 400)))
        second = r.choice((r.randrange(0, 30), r.randrange(-36, 1), -4 * r.randrange(10), r.randrange(-400, 400)))
        place = r.choice((r.randrange(80), 2 * r.randrange(40), r.randrange(65530, 65545), r.randrange(1 << 32), 24))
        low, high = r.choice(((0, 0), (r.randrange(65536), r.randrange(65536)), (r.randrange(1 << 32), r.randrange(1 << 32)), (1, 2), (0xffffffff, 0)))
        flags = r.choice((0, 0, 1, 2, 4, r.randrange(8), 0x10, 0x12, 0x14, 0x22, 0x24, 0x62, r.randrange(256)))
        asked = struct.pack('<hhBBIII', first, second, r.randrange(256), flags, place, low, high)
        rest = r.choice((r.randbytes(60), bytes(60), b'\xff' * 60, r.randbytes(r.randrange(60))))
        yield asked + rest[:r.randrange(len(rest) + 1)] if r.random() < 0.5 else asked + rest


def layouts(r):
    """Arguments within the addresses of a frame of 110 bytes, whose type is most often that of a header or of a tag."""
    for _ in range(1500):
        kind = r.choice(('0800', '0800', '0800', '86dd', '86dd', '8100', '88a8', '0806', '0005'))
        body = bytes((0x45 if kind == '0800' else 0x60,)) + r.choice((r.randbytes(95), bytes(95)))
        if kind in ('8100', '88a8'):
            body = r.randbytes(2) + bytes.fromhex(r.choice(('0800', '86dd', '8100', '88a8', '0123', '0123ffff'))) + body
        yield (r.randbytes(12) + bytes.fromhex(kind) + body)[:110]


def inputs_of(path):
    with open(path, 'rb') as source:
        content = source.read()
    at = 0
    while at < len(content):
        size, = struct.unpack_from('<H', content, at)
        yield content[at + 2:at + 2 + size]
        at += 2 + size


def tests(inputs, words, maps, place):
    with open(words, 'rb') as source:
        print(f'-- words\n{source.read().hex()}' + (f'\n-- maps\n{maps}' if maps != '-' else ''))
    for number, (given, line) in enumerate(zip(inputs_of(inputs), sys.stdin, strict=True)):
        # (what the kernel refuses to run: frames of IPv4 and IPv6 without all of their header)
        if line == '= error 22\n':
            continue
        found = re.fullmatch(r'= (\d+) ([0-9a-f]*)((?: \d+:\d+:[0-9a-f]+)*)\n', line)
        if not found:
            sys.exit(f'packets.py: input {number}: {line}')
        result = int(found[1]) - (1 << 32 if int(found[1]) >> 31 else 0)
        missing = '..' * (len(given) - len(found[2]) // 2)
        after = {'front': found[2] + missing, 'back': missing + found[2], 'nowhere': '..' * len(given)}[place]
        cells = ''.join(f'\n{cell.replace(":", " ")}' for cell in found[3].split())
        print(f'-- name\n{number}\n-- mem\n{given.hex()}\n-- result\n{result % (1 << 64):#x}\n-- mem-after\n{after}' + (cells and '\n-- map-after' + cells))


def main(what, *arguments):
    if what == 'tests':
        tests(*arguments)
        return
    for made in {'frames': frames, 'calls': calls, 'layouts': layouts}[what](random.Random(int(arguments[0]))):
        sys.stdout.buffer.write(struct.pack('<H', len(made)) + made)


main(*sys.argv[1:])

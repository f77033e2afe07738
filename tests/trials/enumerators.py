#!/usr/bin/env python3
"""enumerators.py PROGRAM OBJECT: what `whynot =NAME` says where the BTF of OBJECT is cut off at each of its bytes, and where bytes of it are others.
The answer is that of the whole object, or that of another value, or a refusal; names with control characters are data; and of 100,000 enumerators
the last one is found, and a name that isn't there is refused, in little time."""
import os
import random
import struct
import subprocess
import sys
import time

PROGRAM, OBJECT = sys.argv[1:3]


def whynot(what, path="cut.o"):
    """The exit status of a question, and its texts."""
    done = subprocess.run([PROGRAM, "whynot", "--object", path, what], capture_output=True, timeout=60, check=False)
    return done.returncode, done.stdout, done.stderr


def section(bytes_, name):
    """Where the header of a section stands, by its name."""
    table, size, count, strings = struct.unpack_from("<Q10xHHH", bytes_, 40)
    names = struct.unpack_from("<Q", bytes_, table + size * strings + 24)[0]
    for i in range(count):
        at = table + size * i
        begin = names + struct.unpack_from("<I", bytes_, at)[0]
        if bytes_[begin:bytes_.index(0, begin)] == name:
            return at
    sys.exit("no section " + name.decode())


def btf(kinds, names):
    """A section .BTF of enums: a list of (name, value) each."""
    strings, places, types = bytearray(1), {}, bytearray()
    for name in names:
        places[name] = len(strings)
        strings += name + b"\0"
    for entries in kinds:
        types += struct.pack("<III", 0, 6 << 24 | len(entries), 4)
        for name, value in entries:
            types += struct.pack("<II", places[name], value)
    return struct.pack("<HBBIIIII", 0xEB9F, 1, 0, 24, 0, len(types), len(types), len(strings)) + types + strings


def with_btf(whole, new):
    """The object with another section .BTF, behind all else."""
    made = bytearray(whole)
    made += bytes(-len(made) % 8)
    struct.pack_into("<QQ", made, section(whole, b".BTF") + 24, len(made), len(new))
    return bytes(made + new)


def write(bytes_):
    """The object that is asked about."""
    with open("cut.o", "wb") as file:
        file.write(bytes_)


def main():
    with open(OBJECT, "rb") as file:
        whole = file.read()
    header = section(whole, b".BTF")
    begin, size = struct.unpack_from("<QQ", whole, header + 24)
    write(whole)
    right = whynot("=DROP")
    if right[0] != 0:
        sys.exit("the whole object: " + repr(right))
    for end in range(size):
        cut = bytearray(whole)
        struct.pack_into("<Q", cut, header + 32, end)
        write(bytes(cut))
        status, out, err = whynot("=DROP")
        if status != 2 or out or not err.startswith(b"refused "):
            sys.exit(f"cut at {end}: {status} {out!r} {err!r}")
    rng = random.Random(19)
    for _ in range(300):
        other = bytearray(whole)
        for _ in range(rng.randint(1, 3)):
            other[begin + rng.randrange(size)] = rng.choice([0, 1, 6, 19, 0x7F, 0xFF, rng.randrange(256)])
        write(bytes(other))
        for what in "=DROP", "DROP":
            status, out, err = whynot(what)
            if not (status == 0 and out and not err or status == 2 and not out and err.startswith(b"refused ")):
                sys.exit(f"{what}: {status} {out!r} {err!r}")
    steered = b"A\x1b[2J\nB"
    write(with_btf(whole, btf([[(steered, 1)]], [steered])))
    if whynot(os.fsdecode(b"=" + steered)) != right:
        sys.exit("a name with control characters: " + repr(whynot(os.fsdecode(b"=" + steered))))
    names = [b"NAME_%d" % i for i in range(100000)]
    write(with_btf(whole, btf([[(name, 1) for name in names[:50000]], [(name, 1) for name in names[50000:]]], names)))
    since = time.monotonic()
    if whynot("=NAME_99999") != right or whynot("NAME_99999") != right:
        sys.exit("the last of 100,000 enumerators isn't found")
    if whynot("=NAME_100000")[0] != 2:
        sys.exit("a name is found that isn't there")
    if time.monotonic() - since > 20:
        sys.exit(f"100,000 enumerators took {time.monotonic() - since:.1f} s")


main()

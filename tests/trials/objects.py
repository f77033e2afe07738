"""Objects for the tests of bpfdb-symbols: large ones and damaged ones, and what stands in its files.

objects.py names|maps|data COUNT FILE   writes an object that has so many sections of one long name, symbols of maps, or sections of data, each
                                        with the address of the next
objects.py produced OBJECT FILE NAME    writes an object of clang's with another producer, which is no longer than its own
objects.py damaged SCRIPT OBJECT        lets the script take the object with bytes changed, and cut off: tells what ends with other than a line
objects.py sections FILE                the sections of an ELF file, each with its address and its name
objects.py functions FILE               its functions, the same way, by their addresses"""
import contextlib
import importlib.machinery
import importlib.util
import io
import os
import re
import struct
import sys
import traceback

BPF = 247
HEADER, SECTION, SYMBOL, RELOCATION = "<4sBBB9xHHIQQQIHHHHHH", "<IIQQQQIIQQ", "<IBxHQQ", "<QQ"
CONTENTS, SYMBOLS, STRINGS, RELOCATIONS, FUNCTION = 1, 2, 3, 9, 2
IN_MEMORY, CODE = 2, 4
OBJECT, GLOBAL, LOCAL = 1, 16, 0
EXIT = bytes([0x95]) + bytes(7)
LOAD = bytes([0x18, 1]) + bytes(14)


def elf(names, sections):
    """An object of these sections, whose names begin at places of a text: place of the name, kind, flags, link, info, bytes."""
    sections = [(0, 0, 0, 0, 0, b""), *sections, (0, STRINGS, 0, 0, 0, names)]
    file, headers = bytearray(64), bytearray()
    for name, kind, flags, link, info, data in sections:
        headers += struct.pack(SECTION, name, kind, flags, 0, len(file), len(data), link, info, 1, 0)
        file += data
    struct.pack_into(HEADER, file, 0, b"\x7fELF", 2, 1, 1, 1, BPF, 1, 0, 0, len(file), 0, 64, 0, 0, 64, len(sections), len(sections) - 1)
    return file + headers


def symbol(name, kind, section, place=0):
    return struct.pack(SYMBOL, name, kind, section, place, 0)


def names(count):
    """Sections of one name, which is as long as they are many."""
    text = b"\0prog\0" + b"n" * 100 * count + b"\0"
    table = symbol(0, LOCAL, 0) + symbol(1, GLOBAL | 2, 1)
    last = count + 3
    return elf(text, [(1, CONTENTS, IN_MEMORY | CODE, 0, 0, EXIT), *[(6, CONTENTS, 0, 0, 0, b"")] * count, (0, SYMBOLS, 0, last, 1, table)])


def maps(count):
    """Symbols of maps, each of which has another place."""
    table = symbol(0, LOCAL, 0) + symbol(1, GLOBAL | 2, 1) + b"".join(symbol(1, GLOBAL | OBJECT, 2, 20 * at) for at in range(count))
    return elf(b"\0prog\0maps\0", [(1, CONTENTS, IN_MEMORY | CODE, 0, 0, EXIT), (6, CONTENTS, IN_MEMORY, 0, 0, bytes(20 * count)),
                                   (0, SYMBOLS, 0, 4, 1, table)])


def data(count):
    """Sections of data, each of which has the address of the next; the program refers to the first."""
    table = symbol(0, LOCAL, 0) + b"".join(symbol(0, 3, at + 1) for at in range(count + 1)) + symbol(1, GLOBAL | 2, 1)
    parts = [(1, CONTENTS, IN_MEMORY | CODE, 0, 0, LOAD + EXIT), *[(6, CONTENTS, IN_MEMORY, 0, 0, bytes(8))] * count]
    table_number = len(parts) + count + 1
    links = [(0, RELOCATIONS, 0, table_number, 1, struct.pack(RELOCATION, 0, (2 << 32) + 1))]
    links += [(0, RELOCATIONS, 0, table_number, at + 2, struct.pack(RELOCATION, 0, (at + 3 << 32) + 2)) for at in range(count - 1)]
    return elf(b"\0prog\0.data\0", [*parts, *links, (0, SYMBOLS, 0, table_number + 1, count + 2, table)])


def sections_of(file):
    """The sections: name, address, place and size."""
    start, = struct.unpack_from("<Q", file, 40)
    count, last = struct.unpack_from("<HH", file, 60)
    rows = [struct.unpack_from(SECTION, file, start + 64 * at) for at in range(count)]
    strings = rows[last][4]
    return [(bytes(file[strings + row[0]:file.index(0, strings + row[0])]).decode(), row[3], row[4], row[5]) for row in rows]


def functions_of(file):
    """The functions: address and name."""
    parts = {name: (at, size) for name, _, at, size in sections_of(file)}
    (at, size), (strings, _) = parts[".symtab"], parts[".strtab"]
    rows = [struct.unpack_from(SYMBOL, file, place) for place in range(at, at + size, struct.calcsize(SYMBOL))]
    return sorted((row[3], bytes(file[strings + row[0]:file.index(0, strings + row[0])]).decode()) for row in rows if row[1] & 15 == FUNCTION)


def changes(file):
    """The file with a byte of its sections' headers or of its abbreviations changed, and cut off."""
    start, = struct.unpack_from("<Q", file, 40)
    places = [(place, 0xff) for place in range(start, len(file), 4)]
    places += [(at + place, 0x08) for name, _, at, size in sections_of(file) if name == ".debug_abbrev" for place in range(size)]
    for place, byte in places:
        yield "byte %d is %d" % (place, byte), file[:place] + bytes([byte]) + file[place + 1:]
    for size in range(64, len(file), 64):
        yield "cut at %d" % size, file[:size]


def damaged(script, name):
    """What the script makes of changed files is taken, or refused by a line and status 2."""
    loader = importlib.machinery.SourceFileLoader("script", script)
    module = importlib.util.module_from_spec(importlib.util.spec_from_loader("script", loader))
    loader.exec_module(module)
    with open(name, "rb") as opened:
        file = opened.read()
    sys.argv = ["script", "changed.o", "changed.sym"]
    for what, changed in changes(file):
        with open("changed.o", "wb") as opened:
            opened.write(changed)
        said = io.StringIO()
        try:
            with contextlib.redirect_stderr(said):
                module.main()
        except SystemExit as end:
            if end.code != 2 or said.getvalue().count("\n") != 1:
                print("%s: status %s: %s" % (what, end.code, said.getvalue()))
        except Exception:
            print("%s: %s" % (what, traceback.format_exc()))


def produced(name, to, producer):
    """An object with another producer."""
    with open(name, "rb") as opened:
        file = opened.read()
    own = re.search(rb"[^\0]*clang version [^\0]*", file)[0]
    with open(to, "wb") as opened:
        opened.write(file.replace(own, producer.encode().ljust(len(own), b"\0")))


def main(what, *words):
    if what == "produced":
        produced(*words)
    elif what == "damaged":
        damaged(*words)
    elif what == "sections":
        with open(words[0], "rb") as opened:
            for name, address, _, _ in sections_of(opened.read()):
                print("%x %s" % (address, name))
    elif what == "functions":
        with open(words[0], "rb") as opened:
            for address, name in functions_of(opened.read()):
                print("%x %s" % (address, name))
    else:
        made = {"names": names, "maps": maps, "data": data}[what](int(words[0]))
        with open(words[1], "wb") as opened:
            opened.write(made)


main(*sys.argv[1:])

"""Cuts the objects of BPF out of files: 'objects.py FOLDER FILE..' writes each, once, into the folder, whether a file is one or has some in it, and
prints a line for each of its programs: the object's name, the section and the function, with a blank between two."""

import hashlib
import os
import struct
import sys

ELF, MACHINE, HEADER = b'\x7fELF\x02\x01', 247, 64
SYMBOL_TABLE, NO_BITS, EXECUTABLE, FUNCTION, LOCAL = 2, 8, 4, 2, 0
SECTION, SYMBOL = struct.Struct('<IIQQQQIIQQ'), struct.Struct('<IBBHQQ')


def sections_of(image):
    """The headers of an object's sections, and which one has their names."""
    place, = struct.unpack_from('<Q', image, 40)
    size, count, names = struct.unpack_from('<HHH', image, 58)
    return [SECTION.unpack_from(image, place + size * number) for number in range(count)], names, place + size * count


def objects_in(content):
    """Each object in a file's bytes."""
    at = content.find(ELF)
    while at >= 0:
        image = content[at:]
        if len(image) > HEADER and struct.unpack_from('<H', image, 18)[0] == MACHINE:
            sections, _, end = sections_of(image)
            yield image[:max([end] + [header[4] + header[5] for header in sections if header[1] != NO_BITS])]
        at = content.find(ELF, at + 1)


def text_at(image, place):
    return image[place:image.index(0, place)].decode()


def programs_of(image):
    """The section and the name of each function that isn't static, outside of .text."""
    sections, names, _ = sections_of(image)
    for header in sections:
        if header[1] != SYMBOL_TABLE:
            continue
        for place in range(header[4], header[4] + header[5], SYMBOL.size):
            name, info, _, section, _, size = SYMBOL.unpack_from(image, place)
            if info & 15 == FUNCTION and info >> 4 != LOCAL and size and section < len(sections) and sections[section][2] & EXECUTABLE:
                where = text_at(image, sections[names][4] + sections[section][0])
                if where != '.text':
                    yield where, text_at(image, sections[header[6]][4] + name)


def main(folder, *files):
    seen = set()
    for file in files:
        with open(file, 'rb') as source:
            content = source.read()
        for image in objects_in(content):
            digest = hashlib.sha256(image).digest()
            if digest in seen:
                continue
            seen.add(digest)
            name = f'{os.path.basename(file)}-{len(seen)}.o'
            with open(os.path.join(folder, name), 'wb') as target:
                target.write(image)
            for section, function in programs_of(image):
                print(name, section, function)


if __name__ == '__main__':
    main(*sys.argv[1:])

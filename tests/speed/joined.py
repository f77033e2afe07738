#!/usr/bin/env python3
"""joined.py BPFDB: how long `bpfdb link --with` takes over objects of some 1 to 4 MB that are made for it: 256 undefined symbols are looked up among
very many, in one object and in several, and 1,000 maps of large types get a record each. Prints the sizes and the least user time of three runs, in a minute. Needs a clang for BPF."""
import os
import resource
import struct
import subprocess
import sys
import tempfile


def user_time(words):
    """The user time of a command that ends with status 0."""
    before = resource.getrusage(resource.RUSAGE_CHILDREN).ru_utime
    done = subprocess.run(words, stdout=subprocess.DEVNULL, stderr=subprocess.PIPE, check=False)
    if done.returncode:
        sys.exit(f'FAILED: {" ".join(words)}: {done.stderr.decode(errors="replace")[:200]}')
    return resource.getrusage(resource.RUSAGE_CHILDREN).ru_utime - before


def elf(section_name, symbols):
    """An object with `mov r0, 0; exit` in a section, and these symbols: name, section (0 is none, 1 that one), value."""
    code = bytes.fromhex('b700000000000000 9500000000000000')
    strings, table = bytearray(b'\0'), bytearray(24)
    for text, section, value in symbols:
        table += struct.pack('<IBBHQQ', len(strings), 0x12 if section else 0x10, 0, section, value, 0)
        strings += text.encode() + b'\0'
    names = b'\0.symtab\0.strtab\0' + section_name.encode() + b'\0'
    parts = [(17, 1, 6, code, 0, 0, 8, 0), (1, 2, 0, bytes(table), 3, 1, 8, 24), (9, 3, 0, bytes(strings), 0, 0, 1, 0), (9, 3, 0, names, 0, 0, 1, 0)]
    header, body, rows = 64, b'', b'\0' * 64
    for at, kind, flags, data, link, info, align, entry in parts:
        rows += struct.pack('<IIQQQQIIQQ', at, kind, flags, 0, header + len(body), len(data), link, info, align, entry)
        body += data + b'\0' * (-len(data) % 8)
    start = struct.pack('<16sHHIQQQIHHHHHH', b'\x7fELF\2\1\1', 1, 247, 1, 0, 0, header + len(body), 0, 64, 0, 0, 64, 5, 4)
    return start + body + rows


def symbols_of(count, parts):
    """FILE with 256 undefined symbols, the most that there may be, and so many objects of --with with so many functions in all, the last of which they are."""
    names = [f'f{at:07}' for at in range(count)]
    size = count // parts
    return elf('prog', [('entry', 1, 0)] + [(name, 0, 0) for name in names[-256:]]), *(elf('.text', [(name, 1, 0) for name in names[size * k:size * (k + 1)]])
                                                                                       for k in range(parts))


def maps_of(members, folder):
    """FILE with 1,000 maps, whose values are structs of so many pointers to types of their own, and --with with a lookup."""
    source = os.path.join(folder, 'maps.c')
    with open(source, 'w', encoding='ascii') as file:
        for at in range(1000):
            fields = ' '.join(f'struct type_{at}_{k} *of_{k};' for k in range(members))
            file.write(f'struct value_{at} {{ {fields} }};\nstruct {{ int (*type)[1]; int *key; struct value_{at} *value; int (*max_entries)[8]; }} map_{at} __attribute__((section(".maps")));\n')
        file.write('static void *(*look)(void *, const void *) = (void *)1;\n__attribute__((section("prog"))) long entry(void) { int key = 0; long sum = 0;\n')
        file.write(''.join(f'sum += (long)look(&map_{at}, &key);\n' for at in range(1000)) + 'return sum; }\n')
    library = os.path.join(folder, 'library.c')
    with open(library, 'w', encoding='ascii') as file:
        file.write('void *bpf_map_lookup_elem(void *map, const void *key) { return map; }\n')
    found = []
    for name in (source, library):
        subprocess.run(['clang', '-g', '-O2', '-target', 'bpf', '-c', '-o', name + '.o', name], check=True)
        with open(name + '.o', 'rb') as file:
            found.append(file.read())
    return tuple(found)


def main():
    if len(sys.argv) != 2:
        sys.exit(__doc__)
    with tempfile.TemporaryDirectory() as folder:
        for what, sizes, make in (('symbols, among which 256 are looked up', (30000, 60000, 120000), lambda size: symbols_of(size, 1)),
                                  ('symbols in 4 objects', (30000, 60000, 120000), lambda size: symbols_of(size, 4)),
                                  ('symbols in 16 objects', (30000, 60000, 120000), lambda size: symbols_of(size, 16)),
                                  ('types of each of 1,000 maps', (4, 10, 24), lambda size: maps_of(size, folder))):
            for size in sizes:
                files = make(size)
                words = [sys.argv[1], 'link']
                for at, data in enumerate(files):
                    name = os.path.join(folder, f'{at}.o')
                    with open(name, 'wb') as file:
                        file.write(data)
                    words += ['--with', name] if at else []
                least = min(user_time([*words, os.path.join(folder, '0.o')]) for _ in range(3))
                print(f'{size:,} {what}: {len(files[0]) / 1e6:.1f} MB with {sum(map(len, files[1:])) / 1e6:.1f} MB: {least:.2f} s')


main()

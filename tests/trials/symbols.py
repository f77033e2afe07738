#!/usr/bin/env python3
"""symbols.py OBJECT: objects that no compiler makes, of OBJECT (tests/program/join/answers.c): both.o and turned.o, in which two functions have one name,
that which returns 9 behind the other one in the table of symbols, and before it; and inside.o, in which a function begins inside of a slot."""
import struct, sys
data = open(sys.argv[1], 'rb').read()
table, = struct.unpack_from('<Q', data, 40)
sections = [struct.unpack_from('<IIQQQQIIQQ', data, table + 64 * i) for i in range(struct.unpack_from('<H', data, 60)[0])]
symbols = next(s for s in sections if s[1] == 2)
names = sections[symbols[6]][4]
places = {}
for at in range(symbols[4], symbols[4] + symbols[5], 24):
    name = names + struct.unpack_from('<I', data, at)[0]
    places[data[name:data.index(b'\0', name)]] = at


def written(file, values):
    """Writes the object with other values of these symbols, and one name for the two."""
    changed = bytearray(data)
    for name, value in values.items():
        struct.pack_into('<Q', changed, places[name] + 8, value)
    with open(file, 'wb') as out:
        out.write(changed.replace(b'bpf_ktime_get_xx', b'bpf_ktime_get_ns'))


def value_of(name):
    return struct.unpack_from('<Q', data, places[name] + 8)[0]


seven, nine = b'bpf_ktime_get_ns', b'bpf_ktime_get_xx'
first, last = sorted((seven, nine), key=places.get)
written('both.o', {first: value_of(seven), last: value_of(nine)})
written('turned.o', {first: value_of(nine), last: value_of(seven)})
cpu = b'bpf_get_smp_processor_id'
written('inside.o', {cpu: value_of(cpu) + 4})

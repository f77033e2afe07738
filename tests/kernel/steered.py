"""Calls of model.py as inputs of runner.c, and its results held against the kernel's: 'steered.py inputs CONTEXT' writes a call an input to standard output;
'steered.py results CONTEXT WANTED < RUNS' prints each that differs, and how many were held against each other. What asks for LRU tables isn't: which entry
goes is Linux' own choice."""

import struct
import sys

LRU = 3, 4, 5


def calls_of(path):
    with open(path, 'rb') as source:
        content = source.read()
    return [content[at:at + 4] for at in range(0, len(content), 4)]


def results(context, wanted):
    count = 0
    with open(wanted, encoding='ascii') as lines:
        for number, (call, line, run) in enumerate(zip(calls_of(context), lines, sys.stdin, strict=True)):
            if call[0] % 15 in LRU:
                continue
            count += 1
            want = struct.unpack('<Q', bytes.fromhex(line))[0] & 0xffffffff
            if run != f'= {want}\n':
                print(f'call {number}, {call.hex()}: {want} is wanted, {run.strip()}')
    print(count)


if sys.argv[1] == 'inputs':
    for made in calls_of(sys.argv[2]):
        sys.stdout.buffer.write(struct.pack('<H', 8) + made + bytes(4))
else:
    results(*sys.argv[2:])

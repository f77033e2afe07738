"""sources.py BPFDB OBJECT CONTEXT..: the tracefile that `bpfdb test --cover-info` is to write of an object whose program runs on these contexts (hexadecimal),
from three other answers of bpfdb: which lines `lines` tells of its slots, which slots `trace` tells of its steps, and which jumps `disasm` writes."""
import subprocess
import sys


def told(program, *words, data=b''):
    return subprocess.run([program, *words], input=data, capture_output=True, check=True).stdout.decode()


def main(program, path, contexts):
    places, words = {}, subprocess.run([program, 'link', path], capture_output=True, check=True).stdout
    for row in told(program, 'lines', '--object', path).splitlines():
        slot, rest = row.split(' ', 1)
        places[int(slot)] = rest.rsplit(' ', 1)[0]
    with open('words', 'wb') as file:
        file.write(words)
    texts = [text for text in told(program, 'disasm', 'words').splitlines() if not text.endswith(':')]
    jumps = {}
    for slot, text in zip(sorted(places), texts, strict=True):
        if text[0] == 'j' and not text.startswith('ja'):
            jumps[slot] = int(text.rsplit('L', 1)[1])
    steps = set()
    for context in contexts:
        with open('context', 'wb') as file:
            file.write(bytes.fromhex(context))
        taken = [int(line.split()[1].rstrip(':')) for line in told(program, 'trace', '-m', 'context', 'words').splitlines()[:-1]]
        steps |= set(zip(taken, taken[1:] + [None]))
    ran = {slot for slot, _ in steps}
    files = {}
    for slot, place in places.items():
        if place != '-':
            name, line = place.rsplit(':', 1)
            files.setdefault(name, {}).setdefault(int(line), []).append(slot)
    for name in sorted(files):
        print('TN:\nSF:' + name)
        ways = went = 0
        for line in sorted(files[name]):
            print(f'DA:{line},{int(any(slot in ran for slot in files[name][line]))}')
            for slot in sorted(files[name][line]):
                if jumps.get(slot, slot + 1) != slot + 1:
                    for branch, to in enumerate((slot + 1, jumps[slot])):
                        print(f'BRDA:{line},{slot},{branch},{int((slot, to) in steps) if slot in ran else "-"}')
                        ways, went = ways + 1, went + ((slot, to) in steps)
        hit = sum(any(slot in ran for slot in slots) for slots in files[name].values())
        print(f'LF:{len(files[name])}\nLH:{hit}\nBRF:{ways}\nBRH:{went}\nend_of_record')


if __name__ == '__main__':
    main(sys.argv[1], sys.argv[2], sys.argv[3:])

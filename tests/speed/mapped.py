#!/usr/bin/env python3
"""mapped.py BPFDB [MIB..]: how long `bpfdb test` takes over files of so many MiB (1, 2 and 4) whose tests have other maps of their own than the test
before, over one program in front of them: a listing of 64,000 instructions, or as many loads of a map's bytes as a third of the file takes. Prints
processor seconds, of one run each."""
import resource
import subprocess
import sys
import tempfile


def timed(bpfdb, text):
    """The processor time of a run over a file of this text, and its exit status."""
    with tempfile.NamedTemporaryFile('w', suffix='.test') as file:
        file.write(text)
        file.flush()
        before = resource.getrusage(resource.RUSAGE_CHILDREN)
        done = subprocess.run([bpfdb, 'test', file.name], stdout=subprocess.DEVNULL, stderr=subprocess.DEVNULL, check=False)
        after = resource.getrusage(resource.RUSAGE_CHILDREN)
    return after.ru_utime + after.ru_stime - before.ru_utime - before.ru_stime, done.returncode


def main():
    for size in [float(word) for word in sys.argv[2:]] or [1, 2, 4]:
        whole = int(size * 1048576)
        plain = '-- listing\n' + 'exit\n' * min(64000, whole // 16)
        count = min(32000, whole // 3 // 33)
        loads = '-- words\n' + ''.join(f'186100000000000000000000{offset.to_bytes(4, "little").hex()}\n' for offset in range(count)) + '9500000000000000\n'
        enough, short = f'256x{count // 256 + 1}', f'{count - 1}x1' if count <= 256 else f'1x{count - 1}' if count <= 4096 else f'16x{(count - 1) // 16}'
        for name, front, maps, status in (
                ('no load, accepted', plain, ['1x1', '1x2'], 0),
                ('no load, each second test without maps', plain, ['1x1', None], 0),
                ('no load, refused whatever the maps are', plain + 'ja 7\n', ['1x1', '1x2'], 1),
                ('loads, accepted', loads, [enough, enough + ',1x1'], 0),
                ('loads, refused near the end', loads, [short, short + ',1x1'], 1),
                ('loads, accepted and refused in turn', loads, [enough, short], 1)):
            tests, length = [], len(front)
            while length < whole - 60:
                line = maps[len(tests) % 2]
                tests.append('-- name\na\n' + (f'-- maps\n{line}\n' if line else '') + '-- result\n0\n')
                length += len(tests[-1])
            seconds, found = timed(bpfdb, front + ''.join(tests))
            print(f'{size:g} MiB, {name}: {len(tests)} tests, {seconds:.2f} s{"" if found == status else f" (status {found})"}', flush=True)


bpfdb = sys.argv[1]
main()

#!/usr/bin/env python3
"""shared.py BPFDB [MIB..]: how long `bpfdb test` takes over files of so many MiB (0.25, 0.5 and 1) of which one section, that all tests share, is half, and
the tests are the rest. Each section is read once. Prints processor seconds, of one run each."""
import resource
import subprocess
import sys
import tempfile


def timed(bpfdb, text):
    """The processor time of a run over a file of this text, and its exit status."""
    with tempfile.NamedTemporaryFile('w', suffix='.test') as file:
        file.write(text)
        file.flush()
        before = resource.getrusage(resource.RUSAGE_CHILDREN)
        done = subprocess.run([bpfdb, 'test', file.name], stdout=subprocess.DEVNULL, stderr=subprocess.DEVNULL, check=False)
        after = resource.getrusage(resource.RUSAGE_CHILDREN)
    return after.ru_utime + after.ru_stime - before.ru_utime - before.ru_stime, done.returncode


def main():
    ends, zero = '-- listing\nexit\n', '-- result\n0\n'
    for size in [float(word) for word in sys.argv[2:]] or [0.25, 0.5, 1]:
        half = int(size * 1048576) // 2
        sections = (
            ('-- mem, as much as fits', ends + '-- mem\n' + '00' * min(half // 2, 65536) + '\n', [zero], 0),
            ('-- mem, too long from 0.5 MiB on', ends + '-- mem\n' + '00' * (half // 2) + '\n', [zero], int(half // 2 > 65536)),
            ('-- mem-after', ends + '-- mem-after\n' + '..' * (half // 2) + '\n', [zero], 1),
            ('-- regs', ends + '-- regs\n' + 'r1=0\n' * (half // 5), [zero], 0),
            ('-- steps', ends + '-- steps\n' + '0' * half + '1\n', [zero], 0),
            ('-- maps, and others in turn', ends + zero + '-- maps\n' + '0' * half + '1x1\n', ['', '-- maps\n1x1\n'], 0),
            ('-- result', ends + '-- result\n' + '0' * half + '\n', [''], 0),
            ('-- result, with blanks', ends + '-- result\n' + ' ' * half + '0\n', [''], 0),
            ('-- fault, with blanks', '-- listing\nldxb r0, [r3+0]\nexit\n-- fault\n' + ' ' * half + 'access\n', [''], 0),
            ('-- cells, and other maps for each test', ends + '-- cells\n' + '0 0 00\n' * (half // 7), [f'-- maps\n1x{n}\n{zero}' for n in range(1, 4097)], 0))
        for name, front, owns, status in sections:
            tests, length = [], len(front)
            while length < 2 * half - 60:
                tests.append('-- name\na\n' + owns[len(tests) % len(owns)])
                length += len(tests[-1])
            seconds, found = timed(bpfdb, front + ''.join(tests))
            print(f'{size:g} MiB, {name}: {len(tests)} tests, {seconds:.2f} s{"" if found == status else f" (status {found})"}', flush=True)


bpfdb = sys.argv[1]
main()

#!/usr/bin/env python3
"""wasm.py BPFDB FOLDER: how fast bpfdb as WebAssembly, of this folder, is beside the program BPFDB: nanoseconds a step of three loops, plain, kept and in a trace,
by what a long run takes more than a short one, the least of five of each; from start to end in node; and until the page is ready, where there is chromium. Beside each
ratio by the clock stands that of processor time, which other work on the machine changes less. What is more than is wanted is told with it."""
import os
import resource
import subprocess
import sys
import tempfile
import time

sys.path.insert(0, os.path.join(os.path.dirname(os.path.realpath(__file__)), '..', 'trials'))
import browser

ROUNDS = 5
LOOPS = {
    'counting': 'lddw r1, 1000000000\nloop: add r0, 1\njlt r0, r1, loop\nexit\n',
    'memory': 'loop: ldxdw r1, [r10-8]\nadd r1, 1\nstxdw [r10-8], r1\nja loop\n',
    'calls': 'loop: callf f\nja loop\nf: add r6, 1\nexit\n',
}
# What is done with a loop: its words and its script for so many steps, the status, two counts of steps, and the most times the program's own time that are wanted. (The
# lower count is one at which the engine has compiled its code a second time.)
WAYS = {
    'plain': (lambda n: ['run', '--steps', str(n)], lambda n: '', 1, (40_000_000, 100_000_000), 2),
    **{f'kept in {size} bytes': (lambda n, size=size: ['debug', '--steps', '1000000000', '--journal', size], lambda n: f'stepi {n}\n', 0, (20_000_000, 50_000_000), 2)
       for size in ('1024', '65536', '16777216')},
    'a line of trace': (lambda n: ['trace', '--steps', str(n)], lambda n: '', 1, (500_000, 2_500_000), 4),
}
# From start to end in node, and until the page is ready: milliseconds that are wanted at most.
IN_NODE, IN_PAGE = 150, 300
# (the page says that it is ready by a property of its window, when scripts can be run)
READY = ('{ let its; Object.defineProperty(window, "page", { configurable: true, get: () => its, '
         'set: (value) => { its = value; window.readyAfter = performance.now(); } }); }')


def took(words, script, status):
    """What a run takes: seconds by the clock, and of a processor."""
    before, began = resource.getrusage(resource.RUSAGE_CHILDREN), time.perf_counter()
    done = subprocess.run(words, input=script, text=True, stdout=subprocess.DEVNULL, stderr=subprocess.DEVNULL, check=False)
    clock, after = time.perf_counter() - began, resource.getrusage(resource.RUSAGE_CHILDREN)
    if done.returncode != status:
        sys.exit(f'FAILED: {" ".join(words)}: status {done.returncode}')
    return clock, after.ru_utime + after.ru_stime - before.ru_utime - before.ru_stime


def least(runs):
    """Of each run (words, script and status) the least times, of rounds in which each comes once."""
    times = [[took(*run) for run in runs] for _ in range(ROUNDS)]
    return [tuple(min(each[number][kind] for each in times) for kind in (0, 1)) for number in range(len(runs))]


def wanted(found, most):
    return f'; wanted are {most} at most' if found > most else ''


def of_loop(programs, name, file):
    for way, (words, script, status, (few, many), most) in WAYS.items():
        runs = [([*program, *words(count), '--listing', file], script(count), status) for program in programs for count in (few, many)]
        native_few, native_many, node_few, node_many = least(runs)
        native, node = ([(b - a) / (many - few) * 1e9 for a, b in zip(*pair)] for pair in ((native_few, native_many), (node_few, node_many)))
        ratio = node[0] / native[0]
        print(f'{name}, {way}: {native[0]:.2f} ns, in node {node[0]:.2f} ns: {ratio:.2f} times (of a processor {node[1] / native[1]:.2f}){wanted(ratio, most)}', flush=True)


def of_start(programs, file):
    empty, *times = (each[0] * 1000 for each in least([(['node', '-e', '0'], '', 0), *(([*program, 'run', '--listing', file], '', 0) for program in programs)]))
    print(f'from start to end: {times[0]:.1f} ms, in node {times[1]:.1f} ms{wanted(times[1], IN_NODE)} (node by itself {empty:.1f} ms)', flush=True)


def of_page(path):
    try:
        page = browser.Browser()
    except OSError:
        print('the page is left out: there is no chromium')
        return
    try:
        page.ask('Page.addScriptToEvaluateOnNewDocument', source=READY)
        times = []
        for _ in range(ROUNDS):
            page.open(f'file://{path}')
            times.append(page.value('readyAfter'))
    finally:
        page.close()
    print(f'until the page is ready: {min(times):.0f} ms{wanted(min(times), IN_PAGE)} (the most of {ROUNDS} {max(times):.0f} ms)')


def main(bpfdb, folder):
    programs = [bpfdb], ['node', f'{folder}/bpfdb.mjs']
    with tempfile.TemporaryDirectory() as work:
        for name, text in {**LOOPS, 'two': 'mov r0, 2\nexit\n'}.items():
            with open(f'{work}/{name}.s', 'w', encoding='utf-8') as file:
                file.write(text)
        of_start(programs, f'{work}/two.s')
        of_page(os.path.abspath(f'{folder}/bpfdb.html'))
        for name in LOOPS:
            of_loop(programs, name, f'{work}/{name}.s')


if __name__ == '__main__':
    if len(sys.argv) != 3:
        sys.exit(__doc__)
    main(*sys.argv[1:])

#!/usr/bin/env python3
"""Processor seconds of each function of a crate's check: one check by one job, which prints a line as it ends with a function, and the dearest at its end.

seconds.py CRATE [FLAG..]: CRATE is a folder, FLAG one of the prover's, as --only PATH, or --incremental FOLDER, over what an earlier check left there.
Without FLAG all is proved from nothing, and nothing is kept. A line has the seconds so far, those since the line before, and the function. What is proved
between two functions, as files of lemmas and the steps of functions whose turn comes later, counts to the second; the first one has all that comes before. Over
a new FOLDER the times of its files tell these apart. The libraries below have to be built (rt lib)."""
import importlib.machinery
import importlib.util
import os
import re
import subprocess
import sys

# How many of the dearest functions are told at the end.
DEAREST = 20


def rtlib():
    """The toolchain's own module, which knows how a crate is given to the prover."""
    page = subprocess.run(['rt', 'doc'], capture_output=True, text=True, check=True).stdout.strip()
    loader = importlib.machinery.SourceFileLoader('rtlib', f'{os.path.dirname(page)}/bin/rtlib.py')
    module = importlib.util.module_from_spec(importlib.util.spec_from_loader('rtlib', loader))
    sys.modules['rtlib'] = module
    loader.exec_module(module)
    return module


def seconds(process):
    """The processor seconds of a process and of those that it waited for; none where it has ended."""
    try:
        with open(f'/proc/{process.pid}/stat', encoding='utf-8') as file:
            fields = file.read().rpartition(')')[2].split()
    except OSError:
        return None
    return sum(int(field) for field in fields[11:15]) / os.sysconf('SC_CLK_TCK')


def main(folder, *flags):
    """Runs the check, and answers its status."""
    module = rtlib()
    os.chdir(folder)
    crate = module.Crate(os.getcwd(), module.root_above(os.getcwd()), {})
    words = [module.RATTLE, 'check', *crate.words(['--jobs', '1'], keeps=False), '--progress', *flags]
    process = subprocess.Popen(words, stdin=subprocess.DEVNULL, stdout=subprocess.PIPE, stderr=subprocess.STDOUT, text=True)
    last, rows = 0.0, []
    for line in process.stdout:
        found, now = re.match(r'checked (.*), \d+ of \d+', line), seconds(process)
        if found and now is not None:
            rows.append((now - last, found[1]))
            last = now
            print(f'{now:8.2f} {rows[-1][0]:7.2f} {found[1]}', flush=True)
        elif re.search(r'\berror\b|not proved|no proof|^logic=|^rattle: ', line):
            print(line, end='', flush=True)
    _, status, used = os.wait4(process.pid, 0)
    print(f'{used.ru_utime + used.ru_stime:.1f} s in all, of {len(rows)} functions; the dearest:')
    for each, name in sorted(rows, reverse=True)[:DEAREST]:
        print(f'{each:7.2f} {name}')
    return os.waitstatus_to_exitcode(status)


if __name__ == '__main__':
    sys.exit(main(*sys.argv[1:]))

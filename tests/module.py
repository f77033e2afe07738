#!/usr/bin/env python3
"""The LLVM module of a program that is proved: module.py CRATE TO VERDICT. CRATE is the folder of its crate, below which the libraries stand as rt ci built them.

The toolchain proves the crate by itself, and hands the module of the whole program to the clang of the folder that it is told: here a script, which keeps it as
TO and compiles nothing. VERDICT is the line that says that the crate is proved."""
import importlib.machinery
import importlib.util
import os
import re
import shlex
import subprocess
import sys
import tempfile

# The last line of a crate that is proved from nothing, over libraries that were (as rt ci takes it).
PROVED = re.compile(r'logic=proved functions=\d+ .*native=nat,char,string logic-built=trusted libraries-built=trusted statements=trusted')


def rtlib():
    """The toolchain's own module, which knows how a crate is given to the prover."""
    page = subprocess.run(['rt', 'doc'], capture_output=True, text=True, check=True).stdout.strip()
    loader = importlib.machinery.SourceFileLoader('rtlib', f'{os.path.dirname(page)}/bin/rtlib.py')
    module = importlib.util.module_from_spec(importlib.util.spec_from_loader('rtlib', loader))
    sys.modules['rtlib'] = module
    loader.exec_module(module)
    return module


def tools(kit, folder, target):
    """A folder of tools as the kit's, but for a clang that keeps the module. What it leaves as an object is nothing."""
    os.makedirs(f'{folder}/bin')
    os.symlink(f'{kit}/toolchain/lib', f'{folder}/lib')
    for name in os.listdir(f'{kit}/toolchain/bin'):
        if name != 'clang':
            os.symlink(f'{kit}/toolchain/bin/{name}', f'{folder}/bin/{name}')
    with open(f'{folder}/bin/clang', 'w', encoding='utf-8') as file:
        file.write(f'#!/bin/sh\nfor word; do\n    case $word in\n    *.bc) cp "$word" {shlex.quote(target)} || exit 1 ;;\n    *.o) : > "$word" ;;\n    esac\ndone\n')
    os.chmod(f'{folder}/bin/clang', 0o755)


def main(folder, target, verdict):
    target, verdict, toolchain = os.path.abspath(target), os.path.abspath(verdict), rtlib()
    os.chdir(folder)
    crate = toolchain.Crate(os.getcwd(), toolchain.root_above(os.getcwd()), {})
    with tempfile.TemporaryDirectory() as work:
        tools(toolchain.KIT, f'{work}/tools', target)
        words = [toolchain.RATTLE, 'build', *crate.words([], keeps=False), '--toolchain', f'{work}/tools', '-o', f'{work}/object']
        done = subprocess.run(words, stdin=subprocess.DEVNULL, stdout=subprocess.PIPE, stderr=subprocess.STDOUT, text=True, errors='replace')
    last = done.stdout.rstrip('\n').rpartition('\n')[2]
    if done.returncode or not PROVED.fullmatch(last) or not os.path.exists(target):
        sys.exit(f'{done.stdout[-2000:]}\nmodule.py: the toolchain gave no proved module')
    with open(verdict, 'w', encoding='utf-8') as file:
        file.write(last + '\n')


if __name__ == '__main__':
    if len(sys.argv) != 4:
        sys.exit(__doc__)
    main(*sys.argv[1:])

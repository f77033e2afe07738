"""Where texts of others could become commands: in the Python of share/ what gdb executes is a constant, or is made by bpfdb.foreign of checked words, and
no shell is called. What isn't so is told, and the last line counts the calls."""
import ast
import os
import sys

SHARE = os.path.join(os.environ['TOP'], 'share')
# What makes commands of checked words, and what calls a shell.
CHECKED = ('command', 'script')
SHELLS = (('os', 'system'), ('os', 'popen'), ('subprocess', 'getoutput'), ('subprocess', 'getstatusoutput'))


def scripts():
    """Each file of Python: those whose name says so, and programs that begin with its name. (What is named *.sh is a shell's.)"""
    for folder, _, names in os.walk(SHARE):
        for name in sorted(names):
            path = os.path.join(folder, name)
            with open(path, 'rb') as file:
                if name.endswith('.py') or not name.endswith('.sh') and b'python3' in file.read(4096):
                    yield path


def called(call):
    """The names of what is called: of `a.b(..)` both."""
    if isinstance(call.func, ast.Attribute) and isinstance(call.func.value, ast.Name):
        return call.func.value.id, call.func.attr
    return '', call.func.attr if isinstance(call.func, ast.Attribute) else getattr(call.func, 'id', '')


def is_checked(argument):
    return isinstance(argument, ast.Constant) or isinstance(argument, ast.Call) and called(argument)[1] in CHECKED


def faults_of(call):
    """What is wrong with a call."""
    name = called(call)
    if name == ('gdb', 'execute') and not (call.args and is_checked(call.args[0])):
        yield 'gdb executes what is neither constant nor checked'
    if name in SHELLS or any(word.arg == 'shell' for word in call.keywords):
        yield 'a shell is called'


count = failed = 0
for path in scripts():
    with open(path, encoding='utf-8') as file:
        text = file.read()
    if text.startswith('#!/bin/sh') and "''':'" not in text:
        continue
    for call in (node for node in ast.walk(ast.parse(text)) if isinstance(node, ast.Call)):
        count += called(call) == ('gdb', 'execute')
        for fault in faults_of(call):
            failed += 1
            print(f'FAILED: {os.path.relpath(path, SHARE)}:{call.lineno}: {fault}')
failed += count < 10
print(f'{count} trials, {failed} failed')
sys.exit(failed > 0)

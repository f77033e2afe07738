"""What an editor must not send to bpfdb-dap, what happens around it, and how long it takes. What is wrong is told, and the last line counts."""
import os
import random
import shutil
import signal
import subprocess
import socket
import time

import client
from client import Client, Wrong, hold

HERE = os.getcwd()
TRIALS = []
# Each request that the adapter answers, and arguments that it may have.
REQUESTS = {
    'initialize': ['linesStartAt1', 'columnsStartAt1'], 'launch': ['program', 'context', 'maps', 'steps', 'journal', 'over', 'script'], 'attach': [],
    'configurationDone': [], 'setBreakpoints': ['source', 'breakpoints'], 'setFunctionBreakpoints': ['breakpoints'],
    'setInstructionBreakpoints': ['breakpoints'], 'setDataBreakpoints': ['breakpoints'], 'setExceptionBreakpoints': ['filters'],
    'dataBreakpointInfo': ['name', 'variablesReference', 'frameId', 'bytes', 'asAddress'], 'continue': ['threadId'], 'next': ['granularity'],
    'stepIn': ['granularity'], 'stepOut': ['threadId'], 'stepBack': ['granularity'], 'reverseContinue': ['threadId'], 'pause': ['threadId'],
    'gotoTargets': ['source', 'line'], 'goto': ['targetId'], 'threads': [], 'stackTrace': ['startFrame', 'levels'], 'scopes': ['frameId'],
    'variables': ['variablesReference', 'start', 'count', 'filter'], 'setVariable': ['variablesReference', 'name', 'value'],
    'setExpression': ['expression', 'value', 'frameId'], 'evaluate': ['expression', 'context', 'frameId'], 'exceptionInfo': ['threadId'],
    'completions': ['text', 'column'], 'readMemory': ['memoryReference', 'offset', 'count'], 'writeMemory': ['memoryReference', 'offset', 'data'],
    'disassemble': ['memoryReference', 'offset', 'instructionOffset', 'instructionCount'], 'loadedSources': [], 'source': ['source', 'sourceReference'],
    'restart': ['arguments'], 'bpfdb/origin': ['what'], 'bpfdb/whynot': ['what'], 'bpfdb/undo': ['count'], 'bpfdb/redo': ['count'], 'nothing': ['x'], '__init__': [], 'do_next': []}
VALUES = [None, True, 0, 1, -1, 5, 1 << 63, 1 << 64, -(1 << 70), 1.5, 1e300, '', 'r0', 'pc', ':stepi', ':undo', ':origin r0', ':whynot 12', 'overrun.c:21', ':x 0 1', 'x' * 5000, '\0', '\ud800', '0x100000000',
          '0x2000001f8:8', '0x10', '-1', '*(u8 *)r1', '((((', '[0]', 'r10-8', '+0', 'instruction', 'overrun.o', 'gdb', '8x2', [], [{}], [1], ['x'], {}, {'path': 'overrun.c'},
          {'sourceReference': 1}, [{'line': 21}], [{'line': -5}], [{'line': 1 << 80}], [{'name': 'copy'}], [{'instructionReference': '0xa0', 'condition': '1/0'}],
          [{'dataId': '0x2000001f8:4'}], [{'dataId': '0x2000001f8:999'}], [[[[]]]]]


def trial(function):
    TRIALS.append(function)
    return function


def opened(**more):
    editor = Client()
    editor.open('overrun.o', context='context.bin', **{'over': 'bpfdb', **more})
    return editor


def ended(editor, status, *wanted):
    """The adapter ends with a status, and says this on standard error."""
    os.close(editor.to)
    editor.child.stdin = None
    hold((editor.child.stderr.read().decode(), editor.child.wait(client.PATIENCE)), (''.join(line + '\n' for line in wanted), status), 'the end')


@trial
def out_of_order():
    """Requests before there is a program, after it, and twice."""
    editor = Client()
    for name in REQUESTS:
        if name not in ('initialize', 'launch', 'attach', 'nothing', '__init__', 'do_next'):
            hold(editor.refused(name), 'no program is launched', name)
    hold(editor.refused('attach'), 'there is nothing to attach to: launch starts a program', 'attach')
    hold(editor.refused('nothing'), 'there is no request nothing', 'an unknown request')
    hold(editor.refused('launch'), 'program: a text is wanted', 'launch without a program')
    hold(editor.refused('launch', program=7), 'program: a text is wanted', 'launch of a number')
    hold(editor.refused('launch', program='missing.bin'), 'cannot read missing.bin', 'no file')
    hold(editor.refused('launch', program='context.bin'), 'refused C3: length is no multiple of 8', 'no program')
    hold(editor.refused('launch', program='overrun.o', section='nothing'), 'refused E8: no such code section: .text, filter', 'no section')
    hold(editor.refused('launch', program='overrun.o', context='missing.bin', over='bpfdb'), 'cannot read missing.bin', 'no context')
    hold(editor.refused('launch', program='overrun.o', journal=5, over='bpfdb'), 'refused J1: journal size out of range', 'a small journal')
    hold(editor.refused('launch', program='overrun.o', maps='x', over='bpfdb'), 'refused M5: malformed map list', 'no maps')
    hold(editor.refused('launch', program='overrun.o', over='lldb'), 'over: gdb or bpfdb is wanted', 'another debugger')
    hold(editor.refused('launch', program='overrun.o', strict=True, over='gdb'), 'over gdb: no session is strict there; over bpfdb it is', 'strict over gdb')
    for words, why in (({'contex': 'context.bin'}, 'contex: is context meant?'), ({'stopAtEntry': False}, 'stopAtEntry: is stopOnEntry meant?'),
                       ({'': 1}, ''), ({'frob=--steps': 1}, 'frob=--steps'), ({'frob': False}, 'frob'), ({'frob': None}, 'frob'), ({'Over': 'gdb', 'type': 'bpfdb'}, 'Over: is over meant?')):
        hold(editor.refused('launch', program='overrun.o', **words)[:len('launch takes no ' + why)], 'launch takes no ' + why, f'a word that is none: {why}')
    # (what isn't the adapter's is bpfdb's, and is refused by it: names in camel case have hyphens there, and lists give an option several times)
    for words, why in (({'x' * 999: 1}, 'unexpected argument \'--' + 'x' * 999), ({'noSuchWord': True}, "unexpected argument '--no-such-word' found"),
                       ({'args': ['--frob']}, "unexpected argument '--frob' found"), ({'args': ['overrun.o']}, "unexpected argument 'overrun.o' found"),
                       ({'steps': [7, '8']}, "the argument '--steps <N>' cannot be used multiple times"), ({'steps': 'x'}, "invalid value 'x' for '--steps <N>'"),
                       ({'args': ['-m']}, "a value is required for '--mem <PATH>' but none was supplied")):
        hold(editor.refused('launch', program='overrun.o', **words)[:len('error: ' + why)], 'error: ' + why, f'a word for bpfdb: {why[:60]}')
    for words, why in (({'args': '--words'}, 'args: a list of texts is wanted'), ({'args': [7]}, 'args: a list of texts is wanted'),
                       ({'stub': {}}, 'stub: a text, a whole number, true, false or a list of these is wanted'),
                       ({'args': ['a\0']}, 'args: a text without a byte zero and half characters is wanted')):
        hold(editor.refused('launch', program='overrun.o', **words), why, f'another kind: {why}')
    hold(editor.refused('launch', program='overrun.o', cwd='missing')[:len('cwd: No such file')], 'cwd: No such file', 'no folder')
    hold(editor.refused('launch', program='far.s'), 'refused C8 at slot 1: target is no instruction', 'a refused program')
    hold(editor.refused('launch', program='wrong.s'), 'refused A1 at line 1: unknown mnemonic', 'a refused listing')
    # (what VS Code, dap-mode and Kate add)
    own = {'type': 'bpfdb', 'request': 'launch', 'name': 'bpfdb', '__sessionId': '1', '__configurationTarget': 5, '__restart': None, 'noDebug': False,
           'console': 'internalConsole', 'presentation': {'hidden': False}, 'preLaunchTask': 'make', 'internalConsoleOptions': 'neverOpen',
           'adapter': 'bpfdb-dap', 'debugServer': 4711, 'host': 'localhost', 'command': 'launch'}
    hold(editor.open('overrun.o', context='context.bin', over='bpfdb', **own)[0], 'entry', 'then a program')
    hold(editor.refused('restart', arguments={'program': 'overrun.o', 'contxt': 'context.bin'}), 'launch takes no contxt: is context meant?', 'restart')
    hold(editor.refused('launch', program='overrun.o'), 'a program is launched already: restart starts it anew', 'launch twice')
    hold(editor.refused('configurationDone'), 'configurationDone came before', 'configurationDone twice')
    hold(editor.refused('variables', variablesReference=99), 'variablesReference: nothing is known by it now', 'no variables')
    hold(editor.refused('scopes', frameId=99), 'frameId: there is no frame 99', 'no frame')
    hold(editor.refused('scopes'), 'frameId: a whole number is wanted', 'no number')
    hold(editor.refused('exceptionInfo', threadId=1), 'the program stands at no fault', 'no fault')
    editor.ask('terminate')
    editor.event('terminated')
    hold(editor.refused('threads'), 'no program is launched', 'it is over')
    hold(editor.leave(), (0, ''), 'the end')


@trial
def junk():
    """Random arguments for each request: each is answered, none by a fault of the adapter's own, and then it goes on as before."""
    draw = random.Random(17)
    editor = opened()
    names = list(REQUESTS)
    for at in range(1000):
        name = draw.choice(names)
        arguments = {key: draw.choice(VALUES) for key in REQUESTS[name] if draw.random() < 0.9}
        if name in ('launch', 'restart') and draw.random() < 0.9:
            continue
        response = editor.answer(editor.send(name, draw.choice([None, [], 5]) if draw.random() < 0.02 else arguments))
        if not response['success'] and 'internal fault' in response['message']:
            raise Wrong(f'{name} {arguments}: {response["message"]}')
        if name in ('continue', 'next', 'stepIn', 'stepOut', 'stepBack', 'reverseContinue', 'goto', 'restart') and response['success']:
            editor.event('stopped')
        editor.events = []
    editor.events = []
    editor.ask('restart')
    editor.ask('setDataBreakpoints', breakpoints=[])
    editor.ask('setInstructionBreakpoints', breakpoints=[])
    editor.ask('setFunctionBreakpoints', breakpoints=[])
    editor.lines(os.path.join(HERE, 'overrun.c'))
    editor.lines('overrun.c')
    editor.ask('setBreakpoints', source={'sourceReference': 1}, breakpoints=[])
    editor.event('stopped')
    hold(editor.go('continue'), ('exception', 'size_of', 26), 'the fault')
    hold(editor.leave(), (0, ''), 'the end')


@trial
def broken():
    """What is no message, or none of the protocol: the first ends the adapter, the second is told, and the next message is answered."""
    for content, wanted in (
            (b'Content-Length: 50\r\n\r\n{}', 'the input ends within a message'),
            (b'Content-Length: 5', 'the input ends within a header'),
            (b'Content-Length: -1\r\n\r\n{}', 'a header has no Content-Length of at most 16777216'),
            (b'Content-Length: 99999999999999999999\r\n\r\n{}', 'a header has no Content-Length of at most 16777216'),
            (b'Content-Length: 16777217\r\n\r\n{}', 'a header has no Content-Length of at most 16777216'),
            (b'Content-Length: 2\r\nContent-Length: 3\r\n\r\n{}', 'a header has no Content-Length of at most 16777216'),
            (b'Length: 2\r\n\r\n{}', 'a header has no Content-Length of at most 16777216'),
            (b'\r\n\r\n', 'a header has no Content-Length of at most 16777216'),
            (b'x' * 100000, 'a header is too long')):
        editor = Client()
        try:
            editor.raw(content)
        except BrokenPipeError:
            pass
        ended(editor, 2, 'bpfdb-dap: ' + wanted)
    for content in (b'', b'{', b'[]', b'5', b'null', b'{"seq": "1", "command": "threads"}', b'{"seq": 1}', b'{"seq": 1, "command": 7}', b'\xff\xfe', b'[' * 100000):
        editor = Client()
        editor.raw(b'Content-Length: %d\r\n\r\n%s' % (len(content), content))
        hold(editor.event('output')['category'], 'stderr', 'what is told')
        hold(editor.refused('threads'), 'no program is launched', 'the next message')
        ended(editor, 0)
    editor = Client()
    text = b'content-length:%d\r\nX-Other: 1\r\n\r\n{"seq":1,"type":"request","command":"initialize","arguments":{}}'
    for byte in text.replace(b'%d', b'64'):
        editor.raw(bytes([byte]))
    hold(editor.answer(1)['success'], True, 'a message that comes byte by byte')
    ended(editor, 0)
    editor = Client()
    hold(editor.refused('evaluate', expression='1' * (1 << 23)), 'no program is launched', 'a request of 8 MB')
    ended(editor, 0)


@trial
def around():
    """bpfdb isn't there, is killed, or its files are gone; an editor that reads no more, or leaves without a word."""
    editor = Client(env={'BPFDB': '/nowhere/bpfdb'})
    hold(editor.refused('launch', program='overrun.o'), 'cannot find /nowhere/bpfdb; name it by BPFDB', 'no bpfdb')
    ended(editor, 0)
    editor = opened()
    child = next(int(name) for name in os.listdir('/proc') if name.isdigit() and parent(name) == editor.child.pid)
    os.kill(child, signal.SIGKILL)
    hold(editor.refused('evaluate', expression=':info regs', context='repl'), 'bpfdb ended with status -9', 'a bpfdb that was killed')
    editor.event('terminated')
    hold(editor.leave(), (0, ''), 'the end')
    shutil.copy('overrun.o', 'gone.o')
    editor = Client()
    editor.open('gone.o', context='context.bin', over='bpfdb')
    os.unlink('gone.o')
    hold(editor.go('continue')[0], 'exception', 'it runs on without its file')
    hold(editor.refused('restart'), 'cannot read gone.o', 'but it is not started again')
    hold(editor.number('1 + 1'), 2, 'and goes on as it was')
    hold(editor.go('stepBack')[0], 'step', 'back, too')
    hold(editor.leave(), (0, ''), 'the end')
    editor = opened()
    editor.child.stdout.close()
    try:
        for _ in range(1000):
            editor.send('threads', {})
    except BrokenPipeError:
        pass
    hold(editor.child.wait(client.PATIENCE), 0, 'a reader that closes')
    editor = opened()
    children = [int(name) for name in os.listdir('/proc') if name.isdigit() and parent(name) == editor.child.pid]
    ended(editor, 0)
    hold([child for child in children if os.path.isdir(f'/proc/{child}')], [], 'nothing is left')


def parent(name):
    try:
        with open(f'/proc/{name}/stat') as file:
            return int(file.read().rpartition(') ')[2].split()[1])
    except OSError:
        return 0


@trial
def port():
    """The same on a port of the loopback, to one editor."""
    child = subprocess.Popen(client.ADAPTER + ['--port', '0'], stdin=subprocess.DEVNULL, stderr=subprocess.PIPE, text=True)
    number = int(child.stderr.readline().rsplit(' ', 1)[1])
    with socket.create_connection(('127.0.0.1', number)) as there:
        editor = Client.__new__(Client)
        editor.child, editor.to, editor.of = child, there.fileno(), there.fileno()
        editor.sent, editor.held, editor.events, editor.last = 0, b'', [], 0
        hold(editor.open('overrun.o', context='context.bin', over='bpfdb')[0], 'entry', 'the entry')
        editor.ask('disconnect')
        hold(child.wait(client.PATIENCE), 0, 'the end')
    hold(subprocess.run(client.ADAPTER + ['--port', '70000'], capture_output=True).returncode, 2, 'no port')


@trial
def quick():
    """A request over bpfdb takes at most some milliseconds, on busy processors too. (docs/EDITORS.md has what it took on a quiet one.)"""
    editor = opened()
    for name, arguments in (('stackTrace', {'threadId': 1}), ('evaluate', {'expression': 'r1 + 1'}), ('threads', {})):
        times = []
        for _ in range(200):
            begun = time.perf_counter()
            editor.ask(name, **arguments)
            times.append(time.perf_counter() - begun)
        hold(sorted(times)[100] < 0.01, True, f'{name} in {sorted(times)[100] * 1000:.2f} ms')
    hold(editor.leave(), (0, ''), 'the end')


client.play('bpfdb-dap', TRIALS)

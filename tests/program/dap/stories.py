"""Sessions of an editor with bpfdb-dap. `stories.py OVER` plays each one over bpfdb alone, or over gdb; what is wrong is told, and the last line
counts. What is wanted is what README, docs/GDB.md and docs/COMMANDS.md say of the same session."""
import base64
import os
import shutil
import signal
import subprocess
import sys
import time

import client
from client import Client, hold

OVER = sys.argv[1]
HERE = os.getcwd()
OVERRUN, FAULT = os.path.join(HERE, 'overrun.c'), os.path.join(HERE, 'program.s')
# The line where the program of overrun.c begins: of its name by BTF, of its body by DWARF.
ENTRY = 29 if sys.argv[1:] == ['bpfdb'] else 30
LOOP = 'mov r0, 0\nloop: add r0, 1\nja loop\nexit\n'
STORIES = []


def story(function):
    STORIES.append(function)
    return function


def only(over):
    """A story over this alone."""
    return story if OVER == over else lambda function: function


def started(program='overrun.o', **more):
    editor = Client()
    stop = editor.open(program, over=OVER, **{**({'context': 'context.bin'} if program == 'overrun.o' else {}), **more})
    return editor, stop


def left(editor):
    hold(editor.leave(), (0, ''), 'the end')


@story
def readme():
    """README's session, at lines of C: the fault, back to the store, out of the loop, the good end, and both again."""
    editor, stop = started()
    hold(stop, ('entry', 'entry', ENTRY), 'the entry')
    hold(editor.go('continue'), ('exception', 'size_of', 26), 'the fault')
    hold(editor.body['description'], 'fault access 0x10077656d at 25', 'its description')
    information = editor.ask('exceptionInfo', threadId=1)
    hold(information['exceptionId'], 'fault access', 'what it is')
    lines = information['description'].split('\n')
    hold(lines[0], 'fault access 0x10077656d at 25', 'the fault')
    # (the context has 13 bytes; 0x10077656d - 0x10000000d)
    hold(lines[1], '0x10077656d lies in no region, 0x776560 bytes behind the context (13 bytes at 0x100000000)', 'the region')
    hold(lines[2], f'-2 r1 = 0x10077656d; 24: ldxdw r1, [r1+8]; from 0x2000001f8:8; in size_of ({OVERRUN}:26)', 'the origin')
    hold(editor.go('stepBack', granularity='instruction'), ('step', 'size_of', 26), 'a step back')
    hold(editor.number('pc'), 25, 'pc')
    data = editor.ask('dataBreakpointInfo', name='0x2000001f8')
    hold(data['dataId'], '0x2000001f8:1', 'the byte')
    hold(editor.ask('setDataBreakpoints', breakpoints=[{'dataId': data['dataId']}])['breakpoints'][0]['verified'], True, 'the watch')
    hold(editor.go('reverseContinue'), ('data breakpoint', 'copy', 21), 'the store')
    hold(editor.hand('info regs').split('\n')[1], 'at 20: stxb [r5+0], r0', 'its place')
    hold(editor.number('r0'), 0x6d, 'its letter')
    editor.ask('setDataBreakpoints', breakpoints=[])
    registers = editor.scope('Registers')
    hold(editor.ask('setVariable', variablesReference=registers, name='pc', value='23')['value'], '23', 'the edit')
    hold(editor.go('continue'), ('exited', 'entry', 34), 'the good end')
    hold(editor.body['description'], 'exited at 12: r0 0xd', 'the result')
    hold(editor.hand('undo'), '7 back; done; at 23: exit', 'the end is taken back')
    editor.stop()
    hold(editor.hand('undo'), '1 back; done; at 20: stxb [r5+0], r0', 'the edit is taken back')
    editor.stop()
    hold(editor.ask('bpfdb/redo')['reply'], '1 redone; done; at 23: exit', 'the edit is made again')
    editor.stop()
    hold(editor.ask('bpfdb/redo')['reply'], '7 redone; done; exited at 12: r0 0xd', 'the end is made again')
    editor.stop()
    hold(editor.hand('info history').split(' of ')[0].rsplit(',', 1)[0].split(', ')[0], '89 moves', 'the history')
    left(editor)


@story
def firewall():
    """README's second session: the packet to port 23 that passes, where its port is read, a word further on, and back."""
    editor, _ = started('firewall.o', context='packet.bin')
    source = {'path': os.path.join(HERE, 'firewall.c')}
    hold(editor.ask('setBreakpoints', source=source, breakpoints=[{'line': 54}])['breakpoints'][0]['verified'], True, 'the breakpoint')
    hold(editor.go('continue')[::2], ('breakpoint', 54), 'where the port is read')
    hold(editor.hand('info regs').split('\n')[1], 'at 44: ldxh r1, [r1+22]', 'its place')
    before = editor.state()
    header = editor.number('r1')
    editor.ask('setVariable', variablesReference=editor.scope('Registers'), name='r1', value=hex(header + 4))
    hold(editor.go('continue')[0], 'exited', 'the end')
    hold(editor.body['description'], 'exited at 12: r0 0x1', 'XDP_DROP')
    hold(editor.hand('undo'), '19 back; done; at 44: ldxh r1, [r1+22]', 'back to where the port is read')
    editor.stop()
    hold(editor.hand('undo').split(';')[0], '1 back', 'the edit is taken back')
    editor.stop()
    hold(editor.state(), before, 'the state before it')
    hold(editor.go('continue')[0], 'exited', 'the end without it')
    hold(editor.body['description'], 'exited at 12: r0 0x2', 'XDP_PASS')
    # (XDP_PASS is the third of the verdicts that are counted)
    passed = editor.ask('bpfdb/origin', what='0x300000010:8')['lines'][0]['text']
    hold(passed.split('; in ')[1:], ['verdicts[2]', 'firewall (firewall.c:66)'], 'the name of a value of a map, and the place of its store')
    hold(editor.go('reverseContinue')[::2], ('breakpoint', 54), 'back to the breakpoint')
    hold(editor.state(), before, 'the same state')
    left(editor)


@story
def joined():
    """A program with a hash, as the kernel loads it, whose helpers other objects answer: words of bpfdb in a list, as words of the launch, and from
    another folder. (The packet is of IPv6, 0x86dd, and the first of its protocol, so it passes.)"""
    if not os.path.isfile('limit.o'):
        return
    os.makedirs('joined', exist_ok=True)
    for program, words in (('limit.o', {'args': ['--struct', 'xdp', '--with', 'bpfdb-linux.o', '-mipv6.bin']}),
                           ('limit.o', {'struct': 'xdp', 'with': ['mock.o', 'bpfdb-linux.o'], 'context': 'ipv6.bin', 'asCompiled': True, 'object': False}),
                           ('../limit.o', {'cwd': 'joined', 'context': '../ipv6.bin', 'args': ['--with=../mock.o', '--struct=xdp', '--object']})):
        editor, stop = started(program, **words)
        hold(stop[:2], ('entry', 'limit'), f'the entry by {words}')
        hold(editor.lines(os.path.join(HERE, 'limit.c'), 22), [(True, 22)], 'the breakpoint')
        hold(editor.go('continue'), ('breakpoint', 'is_known', 22), 'where an entry is made')
        frames = editor.ask('stackTrace', threadId=1)['stackFrames']
        hold([(frame['name'], frame['line'], frame['source']['name']) for frame in frames[:2]], [('is_known', 22, 'limit.c'), ('limit', 33, 'limit.c')], 'frames')
        if OVER == 'gdb':
            hold(editor.ask('evaluate', expression='protocol', frameId=frames[0]['id'])['result'], '34525', 'a variable')
        if 'mock.o' in str(words):
            hold(editor.go('stepIn'), ('step', 'bpf_map_update_elem', 9), "into a joined object's function")
            hold(editor.go('stepOut')[1], 'is_known', 'out of it')
        hold(editor.go('continue')[0], 'exited', 'the end')
        hold(editor.body['description'], 'exited at 12: r0 0x2', 'XDP_PASS')
        hold(editor.refused('bpfdb/whynot', what='limit.c:32'), 'there is no instruction at limit.c:32: the nearest are at limit.c:31, limit.c:33', 'why not')
        hold(editor.go('reverseContinue'), ('breakpoint', 'is_known', 22), 'back')
        hold(editor.hand('info frames').split('\n')[0], 'depth 2', 'the depth, below what gives the packet')
        editor.ask('restart')
        hold(editor.stop()[:2], ('entry', 'limit'), 'the entry again')
        left(editor)


@story
def whynot():
    """README's packet of IPv6, which doesn't come to the port: the same answer of a line, of a slot, and behind a colon."""
    editor, _ = started('firewall.o', context='ipv6.bin')
    hold(editor.go('continue')[0], 'exited', 'the end')
    before = editor.state()
    branch = '-14 31: jne r5, 8, L52; r5 = 0xdd86; jumped to 52; in firewall (firewall.c:47)'
    for what in ('44', '44,44', 'firewall.c:54'):
        lines = editor.ask('bpfdb/whynot', what=what)['lines']
        hold(lines[0]['text'], branch, f'the branch, of {what}')
        hold((os.path.basename(lines[0]['source']['path']), lines[0]['instructionReference']), ('firewall.c', hex(8 * 31)), 'its place')
    place = f'({os.path.join(HERE, "firewall.c")}:47)'
    hold(editor.hand('whynot firewall.c:54').split('\n')[0], f'{branch.removesuffix(" (firewall.c:47)")} {place}', 'the branch behind a colon, with its line once')
    for what in ('XDP_DROP', '=XDP_DROP', '=1'):
        lines = editor.ask('bpfdb/whynot', what=what)['lines']
        hold([line['text'] for line in lines[:2]], ['made: -7 r1 = 0x1; 59: mov r1, 1; in firewall (firewall.c:65)', branch], f'what made it, and the branch, of {what}')
        hold([(line['source']['name'], line['line']) for line in lines[:2]], [('firewall.c', 65), ('firewall.c', 47)], f'their places, of {what}')
    hold(editor.state(), before, 'the state')
    for what, why in (('nowhere.c:54', 'there is no instruction at nowhere.c:54'),
                      ('nowhere', 'there is no instruction at nowhere: a slot, a function, a label, FILE:LINE or =VALUE'),
                      ('65000', 'refused V4: no instruction starts at the slot')):
        hold(editor.refused('bpfdb/whynot', what=what), why, f'nothing of {what}')
    left(editor)


@story
def without_code():
    """A line without code of its own isn't another line: those next to it that have some are named. A breakpoint moves on."""
    if not os.path.isfile('verdict.o'):
        return
    editor, _ = started('verdict.o', context='kind')
    hold(editor.go('continue')[0], 'exited', 'the end')
    hold(editor.body['description'], 'exited at 8: r0 0x2', 'the verdict')
    for line, why in ((8, 'the nearest are at verdict.c:7, verdict.c:9'), (99, 'the nearest are at verdict.c:9'), (1, 'the nearest are at verdict.c:3')):
        refusal = f'there is no instruction at verdict.c:{line}: {why}'
        hold(editor.refused('bpfdb/whynot', what=f'verdict.c:{line}'), refusal, f'line {line}')
        hold(editor.refused('evaluate', expression=f':whynot verdict.c:{line}', context='repl'), refusal, f'line {line} behind a colon')
    hold(editor.hand('whynot verdict.c:9'), 'it was reached 1 moves back', 'a line with code')
    hold(editor.lines(os.path.join(HERE, 'verdict.c'), 8), [(True, 9)], 'a breakpoint')
    left(editor)


@story
def there_and_back():
    """Each line forwards, and back again: each step back leads to the state before the step, to the first; and the moves are the same."""
    editor, _ = started()
    states, places = [editor.state()], []
    while True:
        stop = editor.go('next')
        states.append(editor.state())
        places.append(stop[1:])
        if stop[0] != 'step':
            break
    hold([line for _, line in places], [31, 33, 34, 26], 'the lines')
    # (the last one ended in a fault, in what the line calls)
    hold(editor.go('stepBack')[1:], ('size_of', 26), 'where that line began')
    hold(editor.go('stepBack')[1:], ('entry', 34), 'its call')
    for state in reversed(states[:-1]):
        editor.go('stepBack')
        hold(editor.state(), state, 'the state before')
    left(editor)


@story
def into_and_back():
    """Into functions, out of them, and back over calls and into the caller."""
    editor, _ = started()
    while editor.go('stepIn')[1] != 'copy':
        pass
    hold(len(editor.ask('stackTrace', threadId=1)['stackFrames']), 2, 'the frames')
    hold(editor.ask('stackTrace', threadId=1)['stackFrames'][1]['line'], 33, 'the line of the call')
    first = editor.state()
    hold(editor.go('stepBack')[1:], ('entry', 33), 'back to the call')
    hold(editor.go('stepIn')[1], 'copy', 'and into it')
    hold(editor.state(), first, 'the state there')
    hold(editor.go('stepOut')[1:], ('entry', 34), 'out of it')
    after = editor.state()
    hold(editor.go('stepBack')[1:], ('entry', 33), 'back over the call')
    hold(editor.go('stepIn', granularity='instruction')[1], 'entry', 'an instruction')
    hold(editor.go('next', granularity='instruction')[1], 'entry', 'another')
    while editor.state() != after:
        hold(editor.go('next', granularity='instruction')[1], 'entry', 'over the call, by instructions')
    hold(editor.refused('stepOut', threadId=1), 'refused Q9: outermost frame', 'no way out')
    left(editor)


@story
def breakpoints():
    """Breakpoints of lines, functions and instructions, with conditions, counts and lines to print, both ways."""
    editor, _ = started()
    hold(editor.lines(OVERRUN, 21), [(True, 21)], 'a line')
    hold([editor.go('continue') for _ in range(3)], [('breakpoint', 'copy', 21)] * 3, 'three times')
    hold(editor.number('*(u8 *)0x2000001f1'), 0x61, 'the second letter')
    third = editor.state()
    hold(editor.go('continue'), ('breakpoint', 'copy', 21), 'the fourth time')
    hold(editor.go('reverseContinue'), ('breakpoint', 'copy', 21), 'and back')
    hold(editor.state(), third, 'the state of the third')
    # Eleven letters: the tenth is e, 0x65, which r0 holds at the store in slot 20.
    editor.lines(OVERRUN)
    hold(editor.ask('setInstructionBreakpoints', breakpoints=[{'instructionReference': '0xa0', 'condition': 'r0 == 0x65 && r3 > 10'}])['breakpoints'][0]['verified'], True, 'slot 20')
    hold(editor.go('continue')[0], 'breakpoint', 'the condition')
    hold(editor.hand('info regs').split('\n')[0].split()[0], 'r0=0x65', 'its letter')
    hold(editor.go('continue')[0], 'exception', 'no other')
    hold(editor.go('reverseContinue')[0], 'breakpoint', 'the condition, going back')
    hold(editor.hand('info regs').split('\n')[0].split()[0], 'r0=0x65', 'its letter')
    editor.go('stepBack', granularity='instruction')
    editor.ask('setInstructionBreakpoints', breakpoints=[])
    hold(editor.go('reverseContinue')[0], 'entry', 'to the beginning')
    hold(editor.body['description'], 'the history begins here', 'which it says')
    # The function, and the count: the store is made eleven times.
    hold(editor.ask('setFunctionBreakpoints', breakpoints=[{'name': 'size_of'}, {'name': 'nothing'}])['breakpoints'][1]['message'],
         'there is no function and no label nothing', 'no function')
    hold(editor.go('continue'), ('breakpoint', 'size_of', 26), 'a function')
    hold(editor.go('reverseContinue')[0], 'entry', 'to the beginning')
    editor.ask('setFunctionBreakpoints', breakpoints=[])
    slot = {'instructionReference': '0xa0'}
    editor.ask('setInstructionBreakpoints', breakpoints=[{**slot, 'hitCondition': '>= 9'}])
    hold(editor.go('continue')[0], 'breakpoint', 'the ninth')
    hold(editor.hand('info regs').split()[0], 'r0=0x6d', 'its letter')
    editor.ask('setInstructionBreakpoints', breakpoints=[])
    editor.go('reverseContinue')
    editor.ask('setInstructionBreakpoints', breakpoints=[{**slot, 'logMessage': 'letter {r0}', 'hitCondition': '% 5'}])
    editor.printed = ''
    hold(editor.go('continue')[0], 'exception', 'lines to print stop nothing')
    hold(editor.printed.count('letter '), 2, 'the fifth and the tenth')
    hold(editor.lines(OVERRUN, 1, 2000), [(True, 20), (False, 2000)], 'lines without instructions')
    many = [{'instructionReference': hex(8 * slot)} for slot in range(26)] + [{'instructionReference': '0x3'}, {'instructionReference': '0x7f8'}]
    hold([one['verified'] for one in editor.ask('setInstructionBreakpoints', breakpoints=many)['breakpoints']][-3:], [True, False, False], 'no instructions')
    left(editor)


@only('bpfdb')
def small_journal():
    """Where the journal has dropped moves, the end of the history says so."""
    editor, _ = started(journal=1024)
    editor.go('continue')
    hold(editor.go('reverseContinue')[0], 'entry', 'the beginning')
    # (105 moves were made, and those that 1,024 bytes have no room for were dropped)
    kept = 105 - int(editor.body['description'].split(': ')[1].split()[0])
    hold(editor.body['description'], f'the history begins here: {105 - kept} older moves were dropped (a larger journal keeps more)', 'what it says')
    hold(0 < kept < 105, True, 'some were kept')
    hold(editor.go('stepBack')[0], 'entry', 'it stays there')
    left(editor)


@story
def edits():
    """What is set, in the tree of variables and by expressions, is a move that is taken back as a whole."""
    editor, _ = started()
    before = editor.state()
    registers, stack, context = (editor.scope(name) for name in ('Registers', 'Stack', 'Context'))
    hold(editor.variables(context)['+0']['value'], '0d 0b 62 61 72 74 68 6f |..bartho|', 'the context')
    hold(editor.variables(context, start=1, count=1)['+8']['value'], '6c 6f 6d 65 77 |lomew|', 'its second row')
    editor.ask('setVariable', variablesReference=registers, name='r3', value='r2 + 4')
    hold(editor.number('r3'), 17, 'r3')
    editor.ask('setVariable', variablesReference=stack, name='r10-8', value='0x1122334455667788')
    hold(editor.variables(stack)['r10-8']['value'], '0x1122334455667788', 'the stack')
    editor.ask('setVariable', variablesReference=context, name='+8', value='00 01 02 03 04')
    hold(editor.variables(context)['+8']['value'], '00 01 02 03 04 |.....|', 'the context')
    editor.ask('setExpression', expression='*(u16 *)0x100000000', value="0x100 + 'a'")
    hold(editor.number('*(unsigned short *)0x100000000'), 0x161, 'two bytes')
    editor.ask('setExpression', expression='r4', value='7')
    content = base64.b64encode(b'bytes').decode()
    hold(editor.ask('writeMemory', memoryReference='0x2000001f0', offset=-16, data=content)['bytesWritten'], 5, 'bytes')
    hold(editor.ask('readMemory', memoryReference='0x2000001f0', offset=-16, count=5)['data'], content, 'these bytes')
    hold(editor.ask('readMemory', memoryReference='0x100000000', count=20)['unreadableBytes'], 7, 'bytes behind the context')
    hold('data' in editor.ask('readMemory', memoryReference='8', count=4), False, 'no bytes')
    hold(editor.refused('writeMemory', memoryReference='0x100000008', data=content, offset=1), 'refused Q6: address not present', 'no room')
    hold(editor.refused('setVariable', variablesReference=registers, name='r10', value='1'), 'refused Q7: register not writable', 'r10')
    hold(editor.refused('setVariable', variablesReference=registers, name='pc', value='99'), 'refused Q8: no instruction starts there', 'pc')
    hold(editor.hand('info history').split(',')[0], '6 moves', 'the history')
    editor.hand('undo 6')
    editor.stop()
    hold(editor.state(), before, 'all is taken back')
    hold(editor.refused('evaluate', expression=':undo', context='repl'), 'refused Q5: fewer kept commands', 'no more')
    left(editor)


@only('bpfdb')
def jump():
    """The next instruction is chosen by a line, and that is taken back."""
    editor, _ = started()
    source = {'path': OVERRUN}
    targets = editor.ask('gotoTargets', source=source, line=34)['targets']
    before = editor.state()
    hold(editor.go('goto', targetId=targets[-1]['id'])[::2], ('goto', 34), 'the line')
    editor.hand('undo')
    hold(editor.stop()[::2], ('step', ENTRY), 'back')
    hold(editor.state(), before, 'the state')
    hold(editor.ask('gotoTargets', source=source, line=5)['targets'], [], 'a line without instructions')
    hold(editor.refused('goto', threadId=1, targetId=4000), 'refused Q8: no instruction starts there', 'no slot')
    left(editor)


@story
def helped():
    """What can be typed behind a colon."""
    editor, _ = started()
    told = dict(line.split(': ', 1) for line in editor.hand('help').split('\n'))
    hold(told['stepi [COUNT]'], 'takes COUNT steps, 1 if left out', 'a command of bpfdb')
    hold(told['whynot PLACE'][:30], 'shows why the program did not ', 'one of the adapter')
    hold('quit' in told, False, 'the end of the session is the editor\'s')
    for usage in told:
        name = usage.split(' [')[0].split(' or ')[0]
        hold('refused Q1' in (editor.refused('evaluate', expression=f':{name} ?', context='repl')), False, f'{name} is a command')
    left(editor)


@only('bpfdb')
def by_hand():
    """Commands of bpfdb behind a colon, completion, and a restart."""
    editor, _ = started()
    hold(editor.hand('stepi 3'), '3 forward; done; at 3: stxdw [r10-8], r2', 'a command that moves')
    hold(editor.stop(), ('step', 'entry', 31), 'which is told')
    hold(editor.refused('evaluate', expression=':stepi x', context='repl'), 'refused Q2: wrong argument', 'a refusal')
    hold(editor.refused('evaluate', expression=':frob', context='repl'), 'refused Q1: unknown command', 'no command')
    hold(editor.refused('evaluate', expression=':stepi', context='hover'), 'only commands that show something are asked for again and again', 'hover')
    hold(editor.refused('evaluate', expression=':quit', context='repl'), 'the editor ends the session', 'quit')
    hold(editor.hand('x 0x100000000 2'), '0x100000000: 0d0b', 'bytes')
    hold(editor.hand('info breaks'), 'none', 'no breakpoints')
    hold({one['label'] for one in editor.ask('completions', text=':rev', column=5)['targets']},
         {'reverse-stepi', 'reverse-nexti', 'reverse-continue', 'reverse-finish'}, 'completion')
    hold('size_of' in {one['label'] for one in editor.ask('completions', text='1 + si', column=7)['targets']}, True, 'completion of a name')
    editor.go('continue')
    editor.ask('restart')
    hold(editor.stop(), ('entry', 'entry', ENTRY), 'the entry again')
    hold(editor.hand('info history').split(',')[0], '0 moves', 'nothing has run')
    hold(editor.ask('threads')['threads'], [{'id': 1, 'name': 'overrun.o'}], 'the thread')
    hold([one['name'] for one in editor.ask('loadedSources')['sources']], ['overrun.c', 'overrun.o (instructions)'], 'sources')
    left(editor)


@only('bpfdb')
def instructions():
    """The list of instructions, which stands for lines where there are none."""
    editor, stop = started('words.bin')
    hold(stop, ('entry', 'entry', 1), 'the entry')
    frame = editor.ask('stackTrace', threadId=1)['stackFrames'][0]
    text = editor.ask('source', sourceReference=frame['source']['sourceReference'])['content'].split('\n')
    hold(text[0].split(), ['0', 'mov', 'r0,', '0', ';', 'entry'], 'its first line')
    hold(editor.ask('setBreakpoints', source=frame['source'], breakpoints=[{'line': 2}])['breakpoints'][0]['verified'], True, 'its second line')
    hold([editor.go('continue')[::2] for _ in range(2)], [('breakpoint', 2)] * 2, 'a breakpoint there')
    hold(editor.go('next')[2], 3, 'a step')
    hold(editor.go('stepBack')[::2], ('step', 2), 'and back')
    found = editor.ask('disassemble', memoryReference='0x8', instructionOffset=-2, instructionCount=5)['instructions']
    hold([one['instruction'] for one in found], ['(no instruction)', 'mov r0, 0', 'add r0, 1', 'ja L1', 'exit'], 'instructions')
    hold([int(one['address'], 16) for one in found][1:], [0, 8, 16, 24], 'their addresses')
    left(editor)


@story
def listing():
    """A listing, by its own lines: the example fault, back to the store that overwrote the address."""
    editor = Client()
    hold(editor.open('program.s', [FAULT, 6], context='fault.bin', over=OVER), ('entry', 'entry', 3), 'the entry')
    editor.lines(FAULT)
    hold(editor.go('continue'), ('exception', 'entry', 12), 'the fault')
    hold(editor.body['description'], 'fault access 0x100000083 at 9', 'its description')
    data = editor.ask('dataBreakpointInfo', name='r10-8', variablesReference=editor.scope('Stack'))
    hold(data['description'], 'r10-8: the first 4 of its 8 bytes (bpfdb watches no more)', 'the bytes')
    editor.ask('setDataBreakpoints', breakpoints=[{'dataId': data['dataId']}])
    hold(editor.go('reverseContinue'), ('data breakpoint', 'entry', 7), 'the store')
    hold(editor.number('r4'), ord('t'), 'its letter')
    hold(editor.go('next'), ('data breakpoint', 'entry', 8), 'forwards it stops behind it')
    left(editor)


@only('bpfdb')
def maps_and_trace():
    """Maps, their values, and what the program traces."""
    editor, _ = started('traces.s', maps='8x2,3x1')
    maps = editor.variables(editor.scope('Maps'))
    hold([one['value'] for one in maps.values()], ['2 values of 8 bytes', '1 values of 3 bytes'], 'the maps')
    first = maps['map 0']['variablesReference']
    hold(editor.ask('setVariable', variablesReference=first, name='[1]', value='0x102')['value'], '0x102', 'a value')
    hold(editor.hand('x 0x300000008 8'), '0x300000008: 0201000000000000', 'its bytes')
    editor.ask('setVariable', variablesReference=maps['map 1']['variablesReference'], name='[0]', value='61 62 63')
    hold(editor.variables(maps['map 1']['variablesReference'])['[0]']['value'], '61 62 63 "abc"', 'three bytes')
    editor.printed = ''
    hold(editor.go('continue')[0], 'exited', 'the end')
    hold(editor.printed, 'trace 0x5\ntrace 0x6\n' + editor.body['description'] + '\n', 'what it traced')
    left(editor)


@only('bpfdb')
def pause():
    """A program without end is stopped, also to set a breakpoint; where the history doesn't reach back that is said."""
    editor, _ = started('endless.s')
    number = editor.send('continue', {'threadId': 1})
    hold(editor.answer(number)['success'], True, 'continue')
    time.sleep(0.3)
    hold(editor.refused('stackTrace', threadId=1), 'the program runs: pause stops it', 'while it runs')
    begun = time.time()
    editor.ask('pause', threadId=1)
    hold(editor.stop()[0], 'pause', 'a pause')
    hold(time.time() - begun < 2, True, 'which comes soon')
    steps = editor.number('r0')
    hold(steps > 1000, True, 'it ran')
    editor.answer(editor.send('continue', {'threadId': 1}))
    hold(editor.ask('setBreakpoints', source={'path': os.path.join(HERE, 'endless.s')}, breakpoints=[{'line': 2}])['breakpoints'][0]['verified'], True, 'a breakpoint')
    hold(editor.stop()[::2], ('breakpoint', 2), 'which is met')
    left(editor)
    # Behind a pause all is there: one undo leads to where the program stood before, which redo makes again.
    editor, _ = started('endless.s', journal=16777216)
    before = editor.state()
    editor.answer(editor.send('continue', {'threadId': 1}))
    time.sleep(0.001)
    editor.ask('pause', threadId=1)
    hold(editor.stop()[0], 'pause', 'another pause')
    paused = editor.state()
    moves = int(editor.hand('info history').split()[0])
    if editor.number('r0') < 400000:
        hold(editor.hand('undo').split(';')[0], f'{moves} back', 'what ran until the pause')
        editor.stop()
        hold(editor.state(), before, 'the state before it')
        hold(editor.hand('redo').split(';')[0], f'{moves} redone', 'and again')
        editor.stop()
        hold(editor.state(), paused, 'the state at the pause')
    left(editor)
    # One continue, many pieces of bpfdb's, which are taken back at once. (A move of the loop takes 7 bytes or 16.)
    editor, _ = started('loop.s', journal=16777216)
    before = editor.state()
    hold(editor.go('continue')[0], 'exited', 'the end')
    hold(editor.hand('undo').split(';')[0], '900002 back', 'all of it')
    editor.stop()
    hold(editor.state(), before, 'the state before')
    left(editor)


@only('bpfdb')
def limit():
    """A limit of steps that is asked for."""
    editor, _ = started('endless.s', steps=1001)
    hold(editor.go('continue')[0], 'pause', 'the limit')
    hold(editor.body['description'], 'limit of 1001 steps: continue goes on', 'which it says')
    hold(editor.number('r0'), 500, 'so far it came')
    left(editor)


@only('bpfdb')
def strict():
    """A read of the stack where nothing was written, of a strict session; behind it the program goes on."""
    editor, _ = started('stack.s', strict=True)
    hold(editor.go('continue'), ('strict', 'entry', 2), 'the read')
    hold(editor.body['description'], 'read of 0x2000001fe at 1: not written since the call', 'which is told')
    hold(editor.go('continue')[0], 'exited', 'the end')
    hold(editor.go('reverseContinue')[0], 'entry', 'and back')
    hold(editor.go('next')[:2], ('strict', 'entry'), 'a step that leads there')
    left(editor)
    editor = Client()
    editor.open('overrun.o', context='context.bin', strict=True)
    hold('bpfdb-dap: overrun.o over bpfdb alone\n' in editor.printed, True, 'an object, too, where nothing says over what')
    left(editor)


@only('bpfdb')
def script():
    """A script to begin with."""
    editor, stop = started('words.bin', script='script')
    hold(stop, ('entry', 'entry', 3), 'where it leads')
    hold('2 forward; done; at 2: ja L1\n' in editor.printed, True, 'its replies')
    left(editor)


@only('bpfdb')
def long_lines():
    """Lines that are loops, too long for steps one by one: over them and back again, with calls in them, and a breakpoint in what they call."""
    if not os.path.isfile('line.o'):
        return
    source = os.path.join(os.environ['TOP'], 'tests/program/c/line.c')
    editor, _ = started('line.o', context='context.bin', journal=16777216)
    while editor.go('next')[2] != 14:
        pass
    first = editor.state()
    begun = time.time()
    hold(editor.go('next')[2], 15, 'over the line')
    second = editor.state()
    hold(editor.go('stepBack')[2], 14, 'back')
    hold(editor.state(), first, 'the state before it')
    hold(editor.hand('info breaks'), 'none', 'no breakpoint is left')
    editor.lines(source, 15)
    hold(editor.go('continue'), ('breakpoint', 'entry', 15), 'on to the next line')
    hold(editor.state(), second, 'the state behind it, by another way')
    editor.lines(source)
    hold(editor.go('next')[2], 16, 'over the line with calls')
    third = editor.state()
    hold(editor.go('stepBack')[2], 15, 'back')
    hold(editor.state(), second, 'the state before it')
    hold(time.time() - begun < 20, True, 'in a short time')
    editor.ask('setFunctionBreakpoints', breakpoints=[{'name': 'twist', 'hitCondition': '1500'}])
    hold(editor.go('next')[:2], ('breakpoint', 'twist'), 'a breakpoint in what it calls')
    editor.ask('setFunctionBreakpoints', breakpoints=[])
    hold(editor.hand('info breaks'), 'none', 'no breakpoint is left')
    while editor.go('stepOut')[2] != 15:
        pass
    hold(editor.go('next')[2], 16, 'on over the rest')
    hold(editor.state(), third, 'the state behind it')
    editor.go('reverseContinue')
    while editor.go('next')[2] != 15:
        pass
    hold(editor.go('stepIn')[1], 'twist', 'into what it calls')
    left(editor)


@only('bpfdb')
def run_alone():
    """A run without debugging ends the session, with what came of it."""
    editor = Client()
    editor.ask('initialize', adapterID='bpfdb')
    editor.ask('launch', program='overrun.o', context='context.bin', over=OVER, noDebug=True)
    editor.event('initialized')
    editor.ask('configurationDone')
    editor.event('terminated')
    hold(editor.printed.split('\n')[1], 'fault access 0x10077656d at 25', 'what it printed')
    left(editor)


def below(process):
    """The processes that one started, and those that these did."""
    for thread in os.listdir(f'/proc/{process}/task'):
        with open(f'/proc/{process}/task/{thread}/children') as file:
            for child in map(int, file.read().split()):
                yield child
                yield from below(child)


def program_of(process):
    """The name of the program that a process runs; of one that has ended nothing, waited for or not."""
    try:
        return os.path.basename(os.readlink(f'/proc/{process}/exe'))
    except OSError:
        return ''


def kill(process, name):
    """Kills the one below a process that runs this program, and waits until it has ended."""
    running = [one for one in below(process) if program_of(one) == name]
    hold(len(running), 1, f'processes of {name}')
    os.kill(running[0], signal.SIGKILL)
    until = time.monotonic() + client.PATIENCE
    while program_of(running[0]):
        hold(time.monotonic() < until, True, f'{name} ends')
        time.sleep(0.01)


@only('gdb')
def killed():
    """bpfdb behind gdb is killed, and gdb itself."""
    for program in (os.environ['BPFDB'], shutil.which('gdb')):
        editor, _ = started()
        kill(editor.child.pid, os.path.basename(os.path.realpath(program)))
        hold('has ended' in editor.refused('evaluate', expression=':info regs', context='repl'), True, 'what is told')
        editor.event('terminated')
        left(editor)


@only('gdb')
def names():
    """Names of C: variables of each frame, structs, expressions, conditions, and edits of variables."""
    editor, _ = started()
    hold(editor.go('continue'), ('exception', 'size_of', 26), 'the fault')
    note = editor.variables(editor.scope('Locals', 1))['note']
    hold(note['value'], '{name = "bartholo", packet = 0x10077656d}', 'the note')
    members = editor.variables(note['variablesReference'])
    hold((members['name']['value'], members['packet']['value']), ('"bartholo"', '0x10077656d'), 'its members')
    hold(editor.variables(members['name']['variablesReference'])['[2]']['value'], "114 'r'", 'a letter of it')
    hold(editor.value('note.packet', 1), '0x10077656d', 'an expression')
    hold(editor.value('sizeof(note) + 1', 1), '17', 'a size')
    hold(editor.value('note.name[0] == 98', 1), '1', 'a comparison')
    # (docs/GDB.md: eight bytes of the note, the upper five of which r1 had)
    lines = editor.ask('bpfdb/origin', what='0x2000001f8:8')['lines']
    hold(lines[0]['text'], '-8 0x2000001fa:1 = 0x77; 20: stxb [r5+0], r0; from r0; in copy (overrun.c:21)', 'the origin')
    hold((lines[0]['source']['path'], lines[0]['line']), (OVERRUN, 21), 'its line')
    hold(len(lines), 12, 'its lines')
    data = editor.ask('dataBreakpointInfo', name='packet', variablesReference=note['variablesReference'])
    hold(data['dataId'], '0x2000001f8:4', 'the pointer')
    editor.ask('setDataBreakpoints', breakpoints=[{'dataId': data['dataId']}])
    hold(editor.go('reverseContinue'), ('data breakpoint', 'copy', 21), 'the store')
    hold(editor.value('i'), '10', 'i')
    hold(editor.ask('dataBreakpointInfo', name='i', variablesReference=editor.scope('Locals'))['dataId'], None, 'no bytes')
    editor.ask('setDataBreakpoints', breakpoints=[])
    editor.lines(OVERRUN, 21, condition='i == 3')
    hold(editor.go('reverseContinue'), ('breakpoint', 'copy', 21), 'a condition')
    hold(editor.value('i'), '3', 'which holds')
    editor.lines(OVERRUN)
    editor.ask('setFunctionBreakpoints', breakpoints=[{'name': 'copy'}])
    hold(editor.go('reverseContinue')[:2], ('breakpoint', 'copy'), 'its beginning')
    editor.ask('setVariable', variablesReference=editor.scope('Locals'), name='len', value='8')
    hold(editor.value('len'), '8', 'an edit')
    hold(editor.go('continue'), ('exited', 'entry', 34), 'the good end')
    hold(editor.body['description'], 'exited at 12: r0 0xd', 'the result')
    hold(editor.hand('undo'), '73 back; done; at 13: jeq r3, 0, L23', 'is taken back')
    editor.stop()
    hold(editor.hand('undo'), '1 back; done; at 13: jeq r3, 0, L23', 'so is the edit')
    editor.stop()
    hold(editor.value('len'), '11', 'the length')
    left(editor)


@only('gdb')
def unoptimized():
    """Code of -O0 keeps its arguments in memory: each way into a function stops where they have their values, and back from there is the call."""
    if not os.path.isfile('local.o'):
        return
    source = os.path.join(os.environ['TOP'], 'tests/program/c/local.c')

    def arguments():
        return editor.number('n'), editor.value('q->a'), editor.value('q->b')
    # (the context has 13 bytes)
    editor, stop = started('local.o', context='context.bin')
    hold(stop, ('entry', 'entry', 6), 'the entry')
    hold((editor.number('count'), editor.number('bytes')), (13, 0x100000000), 'its arguments')
    editor.ask('setFunctionBreakpoints', breakpoints=[{'name': 'sum'}])
    hold(editor.go('continue'), ('breakpoint', 'sum', 4), 'a function')
    hold(arguments(), (13, '9', '7'), 'its arguments')
    editor.ask('setFunctionBreakpoints', breakpoints=[])
    editor.go('reverseContinue')
    hold(editor.lines(source, 4), [(True, 4)], 'the line where it begins')
    hold(editor.go('continue'), ('breakpoint', 'sum', 4), 'is stopped at')
    hold(arguments(), (13, '9', '7'), 'with its arguments')
    editor.lines(source)
    hold(editor.go('stepBack'), ('step', 'entry', 8), 'back is the call')
    call = editor.state()
    hold(editor.go('stepIn'), ('step', 'sum', 4), 'a step into it')
    hold(arguments(), (13, '9', '7'), 'with its arguments')
    editor.hand('undo')
    editor.stop()
    hold(editor.state(), call, 'which is taken back as a whole')
    left(editor)


@story
def registers():
    """A register has the same value, in the same form, over both."""
    editor, _ = started()
    hold([editor.value(text) for text in ('r1', '$r1', 'r2', 'r0', 'pc')], ['0x100000000', '0x100000000', '0xd (13)', '0x0', '0x0'], 'registers')
    left(editor)


client.play(f'bpfdb-dap over {OVER}', STORIES)

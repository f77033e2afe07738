"""Names that would steer what reads them: objects each of whose names is a text for gdb, a shell or a terminal, and files that are called so, taken by
bpfdb-dap over both backends, by gdb, and by each other program of the package. No command is run by a name, no edit is made by one, nothing raises
an exception, and nothing that a terminal obeys or that nobody sees is told. What is wrong is told, and the last line counts."""
import glob
import json
import os
import re
import subprocess
import unicodedata

import client
from client import Client, Refusal, Wrong, hold

SHARE = os.path.join(os.environ['TOP'], 'share')
TRIALS = []
# Each name of this program is a place of 40 letters, where a text can stand instead.
PLACE = re.compile(rb'N([0-9]{2})N{37}')
SOURCE = r'''
typedef unsigned long N01; enum N02 { N03 = 2 };
struct N04 { N01 N05; struct { int N06; } N07; char N08[8]; unsigned N09 : 5; long *N10; enum N02 N11; union { int N12; short N13; }; };
struct { int (*type)[2]; int (*max_entries)[3]; unsigned (*key); struct N04 (*value); } N14 __attribute__((section(".maps"), used));
static void *(*lookup)(void *, const void *) = (void *) 1;
volatile long N15 = 3;
static __attribute__((noinline)) long N16(volatile struct N04 *N17, long N18) { N17->N05 += N18; N17->N08[1] = 7; return N17->N07.N06 + N18 + N15; }
__attribute__((section("N19"))) long N20(struct N04 *N21)
{
	volatile struct N04 N22 = { .N05 = N21->N05, .N11 = N03 };
	unsigned N23 = 1;
	struct N04 *N24 = lookup(&N14, &N23);
	if (N24)
		N24->N05 = N22.N05;
	return N16(&N22, N21->N05);
}
'''
SHELL = b'x%d\nshell touch pwned\n#'
# What a text is, for a terminal, a shell, and gdb's expressions.
ODD = (b'a\x1b]0;T\x07', b'b\xc2\x9b31m', b'c\xe2\x80\xae', b'd\r\x08\x7f', b'e\xc2\xad', b'f\xe2\x80\x8b', b'g\'"\\', b'$(touch pwned)', b'`touch pwned`', b'i, $r5=77',
       b'j) = (1)\nshell touch pwned\n#', b'k\xef\xbb\xbf', b'$_shell("touch pwned")', b'm\xf3\xa0\x81\x81', b';touch pwned;', b'o\xff', b'p\n#', b'%s%n', b'<b>', b'</script>')
# Unicode's own word for what steers or isn't seen, and those letters and marks of no width that it names besides.
STEERS = ('Cc', 'Cf', 'Zl', 'Zp', 'Cs')
WITHOUT_WIDTH = (0x34f, 0x115f, 0x1160, 0x17b4, 0x17b5, 0x180b, 0x180c, 0x180d, 0x180f, 0x3164, 0xffa0, *range(0xfe00, 0xfe10))
TRACES = ('Traceback', 'Python Exception', 'internal fault')


def trial(function):
    TRIALS.append(function)
    return function


def built():
    """The objects: by their names the texts that stand in them."""
    letters = re.sub(r'N([0-9]{2})', lambda found: found[0] + 'N' * 37, SOURCE)
    with open('names.c', 'w') as file:
        file.write(letters)
    subprocess.run(['clang', '-g', '-O1', '-fstack-size-section', '-target', 'bpf', '-c', 'names.c'], check=True)
    with open('names.o', 'rb') as file:
        content = file.read()

    def put(name, text_of):
        def put_text(found):
            text = text_of(int(found[1]))
            return text + bytes(40 - len(text))
        with open(name, 'wb') as file:
            file.write(PLACE.sub(put_text, content))
    put('shell.o', lambda number: SHELL % number)
    for at in range(len(ODD)):
        put(f'odd{at}.o', lambda number: ODD[(number + at) % len(ODD)] + b'%d' % number)


def unseen(text, line_feeds):
    """The first character of a text that steers, or that nobody sees; empty if there is none."""
    return next((ascii(char) for char in text if (unicodedata.category(char) in STEERS or ord(char) in WITHOUT_WIDTH) and not (line_feeds and char == '\n')), '')


def held(what, told):
    """What a program told: its text, with nothing in it that steers, of no exception."""
    text = told.decode(errors='surrogateescape')
    hold(unseen(text, True), '', f'{what} tells {ascii(text[:300])}')
    hold([word for word in TRACES if word in text], [], f'{what} tells {ascii(text[-300:])}')
    return text


def unharmed(what):
    """No command was run."""
    hold([name for name in os.listdir('.') if 'pwned' in name and 'touch' not in name], [], f'what {what} made')


def ran(what, *words, typed='', **more):
    done = subprocess.run(words, input=typed.encode(), capture_output=True, timeout=120, **more)
    text = held(what, done.stdout + done.stderr)
    unharmed(what)
    return text


class Editor(Client):
    """An editor that reads each message for what steers. Paths alone are as they are."""

    def message(self):
        message = super().message()
        self.look(message, '')
        return message

    def look(self, value, name):
        if isinstance(value, dict):
            for key, one in value.items():
                self.look(one, key)
        elif isinstance(value, list):
            for one in value:
                self.look(one, name)
        elif isinstance(value, str) and name != 'path':
            hold(unseen(value, name in ('output', 'result', 'content', 'description', 'message', 'format', 'text', 'reply')), '', f'{name} {ascii(value[:200])}')
            hold([word for word in TRACES if word in value], [], name)

    def tried(self, name, /, **arguments):
        """The answer, or None where it is refused."""
        try:
            return self.ask(name, **arguments) or {}
        except Refusal:
            return None

    def all_rows(self, number, deepest=4):
        """Each row of a part of the tree, with the number of that part."""
        # (a struct is refused as a whole that has a name whose bytes are no text)
        for one in (self.tried('variables', variablesReference=number, count=40) or {'variables': []})['variables']:
            yield number, one
            if one['variablesReference'] and deepest:
                yield from self.all_rows(one['variablesReference'], deepest - 1)


def moves(editor):
    return int(editor.hand('info history').split()[0])


def walked(file, over):
    """All of an object is looked at, which makes no edit, and then each row is set, which makes one or none."""
    editor = Editor()
    editor.open(file, context='context.bin', over=over)
    editor.ask('setExceptionBreakpoints', filters=[])
    for _ in range(3):
        editor.go('stepIn')
    for frame in editor.ask('stackTrace', threadId=1)['stackFrames']:
        for scope in editor.ask('scopes', frameId=frame['id'])['scopes']:
            before = moves(editor)
            rows = list(editor.all_rows(scope['variablesReference']))
            for number, one in rows:
                editor.tried('dataBreakpointInfo', name=one['name'], variablesReference=number)
                for text in filter(None, (one['name'], one.get('evaluateName'))):
                    editor.tried('evaluate', expression=text, frameId=frame['id'], context='hover')
            hold(moves(editor), before, f'moves by looking at {scope["name"]}')
            for number, one in rows[:30]:
                answer = editor.tried('setVariable', variablesReference=number, name=one['name'], value='5' if one['name'] != 'pc' else one['value'])
                if scope['name'] == 'Locals' and one.get('type') in ('int', 'short', 'unsigned int', 'unsigned long') and frame['id'] == 0:
                    hold(answer and answer['value'], '5', f'{ascii(one["name"])} is set')
    for name in ('loadedSources', 'threads'):
        editor.ask(name)
    editor.tried('completions', text='x', column=2)
    editor.tried('disassemble', memoryReference='0x0', instructionCount=40)
    editor.tried('source', sourceReference=1)
    while editor.go('stepIn')[0] == 'step':
        pass
    editor.tried('evaluate', expression=':origin', context='repl')
    editor.tried('bpfdb/whynot', what='3')
    hold(editor.leave(), (0, ''), 'the end')
    unharmed(f'bpfdb-dap over {over}')


@trial
def over_gdb():
    """Each variable of each object unfolded, and set."""
    for file in ['shell.o', *(f'odd{at}.o' for at in range(0, len(ODD), 6))]:
        walked(file, 'gdb')


@trial
def over_bpfdb():
    """The same without gdb."""
    for file in ('shell.o', 'odd0.o', 'odd1.o'):
        walked(file, 'bpfdb')


@trial
def at_prompts():
    """gdb, where its own commands may tell names as they are, and bpfdb-shell."""
    typed = 'break *0x40\ncontinue\ninfo locals\ninfo args\nbt\nbpf-registers\nbpf-origin $r0\nbpf-origin\nbpf-whynot 3\nlast-write $r10-8\nstepi\nbpf-undo\nbpf-redo\nbpf-load\nkill\n'
    for file in ['shell.o', *(f'odd{at}.o' for at in range(0, len(ODD), 6))]:
        done = subprocess.run(['gdb', '-nx', '-q', '-batch', '-ex', f'source {SHARE}/bpfdb-gdb.py', '-ex', f'bpf-load {file} -m context.bin', *
                               (word for line in typed.split('\n') if line for word in ('-ex', line))], capture_output=True, timeout=120, stdin=subprocess.DEVNULL)
        told = (done.stdout + done.stderr).decode(errors='replace')
        hold([word for word in TRACES if word in told], [], f'gdb tells {ascii(told[-300:])}')
        hold('1 back; done' in told, True, f'bpf-undo in gdb, of {file}: {ascii(told)}')
        unharmed('gdb')
    for file in ('shell.o', 'odd0.o', 'odd1.o', 'odd2.o'):
        told = ran('bpfdb-shell', f'{SHARE}/bpfdb-shell', '-m', 'context.bin', file,
                   typed='info functions\ninfo line\nb 8\nc\nbt\nl\ninfo line\ninfo symbol\norigin r0\nwhynot 3\nc\np nothing\n')
        hold('in function' in told or 'depth' in told, True, 'the calls')


@trial
def other_programs():
    """The page, contexts, symbols, events, and what is shown of a test."""
    for file in ('shell.o', 'odd0.o', 'odd1.o', 'odd2.o'):
        ran('bpfdb-page', f'{SHARE}/bpfdb-page', '-o', 'page.html', '-m', 'context.bin', file)
        with open('page.html', 'rb') as page:
            hold(unseen(page.read().decode().replace('\t', ' '), True), '', 'the page')
        ran('bpfdb-symbols', f'{SHARE}/bpfdb-symbols', file, 'made.sym')
        ran('bpfdb-events', f'{SHARE}/bpfdb-events', '-m', 'context.bin', file)
        for words in (['a:nothing'], ['a:unsigned_char'], ['a:int x=1'], ["a:x4\nshell"]):
            ran('bpfdb-context', f'{SHARE}/bpfdb-context', '-o', 'made.bin', 'struct', file, *words)
    with open('named.test', 'wb') as file:
        file.write(b'-- object shell.o\n-- name\na\x1b[31m $(touch pwned) `touch pwned`\n-- result\n1\n')
    for words in ([b'a\x1b[31m $(touch pwned) `touch pwned`', b'named.test'], [b'--page', b'pages', b'named.test'], [b'no\x1bthing', b'named.test']):
        ran('bpfdb-show', f'{SHARE}/bpfdb-show', *words)


@trial
def joined():
    """An object that is joined to another one: its file, a function of it, and the file that its lines name are called so."""
    name = 'j"$(touch pwned)`touch pwned`;'
    with open('joined.c', 'w') as file:
        file.write(f"""static long f(long n) __asm__("{name.replace('"', chr(92) + '"')}\\nshell touch pwned\\033[8m");
# 2 "j$(touch pwned)\\nshell touch pwned\\n\\033[8m.c"
static __attribute__((noinline)) long f(long n) {{ return n * 3; }}
long bpf_ktime_get_ns(void) {{ volatile long seven = 7; return f(seven); }}
""")
    with open('timed.c', 'w') as file:
        file.write('static long (*now)(void) = (void *)5; __attribute__((section("prog"))) long timed(void) { return now(); }\n')
    for built_of, made in (('joined', f'{name}.o'), ('timed', 'timed.o')):
        subprocess.run(['clang', '-g', '-O1', '-target', 'bpf', '-c', f'{built_of}.c', '-o', made], check=True)
    for over in ('gdb', 'bpfdb'):
        editor = Editor()
        hold(editor.open('timed.o', over=over, args=['--with', f'{name}.o'])[1], 'timed', f'the entry over {over}')
        editor.ask('setFunctionBreakpoints', breakpoints=[{'name': 'bpf_ktime_get_ns'}])
        hold(editor.go('continue')[1:], ('bpf_ktime_get_ns', 3), f'the function over {over}')
        hold(editor.go('stepIn')[2], 2, f'the one that it calls over {over}')
        hold(editor.go('continue')[0], 'exited', f'the end over {over}')
        hold(editor.body['description'].split(': ')[1], 'r0 0x15', f'three times 7 over {over}')
        editor.leave()
        unharmed(f'a joined object over {over}')
    hold('in bpf_ktime_get_ns' in ran('bpfdb-shell', f'{SHARE}/bpfdb-shell', '--with', f'{name}.o', 'timed.o', typed='b bpf_ktime_get_ns\nc\nbt\ninfo functions\n'), True, 'bt')
    ran('bpfdb-page', f'{SHARE}/bpfdb-page', '-o', 'page.html', '--with', f'{name}.o', 'timed.o')
    with open('page.html', 'rb') as page:
        hold(unseen(page.read().decode().replace('\t', ' '), True), '', 'the page')
    ran('bpfdb-symbols', f'{SHARE}/bpfdb-symbols', '--with', f'{name}.o', 'timed.o', 'made.sym')
    ran('bpfdb-events', f'{SHARE}/bpfdb-events', '--with', f'{name}.o', 'timed.o')


@trial
def files():
    """Objects, contexts and folders that are called so."""
    with open('context.bin', 'rb') as file:
        context = file.read()
    with open('names.o', 'rb') as file:
        content = file.read()
    names = ['f\nshell touch pwned\n', 'f\'"\\', 'f$(touch pwned)`touch pwned`', 'f;touch pwned;', 'f\x1b[31m\x9b', 'f\rshell touch pwned\r', '-f', 'f #x', 'f|touch pwned']
    for name in names:
        with open(f'{name}.o', 'wb') as file:
            file.write(content)
        with open(name, 'wb') as file:
            file.write(context)
        for over in ('gdb', 'bpfdb'):
            editor = Editor()
            editor.ask('initialize', adapterID='bpfdb')
            answer = editor.tried('launch', program=os.path.join(os.getcwd(), f'{name}.o'), context=os.path.join(os.getcwd(), name), over=over)
            hold(answer is None, over == 'gdb' and bool(re.search('[\n\r]', name)), f'the launch of {ascii(name)} over {over}')
            editor.leave()
            unharmed(f'{ascii(name)} over {over}')
        ran('bpfdb-shell', f'{SHARE}/bpfdb-shell', '-m', f'./{name}', f'./{name}.o', typed='c\nbt\n')
        ran('bpfdb-page', f'{SHARE}/bpfdb-page', '-o', 'page.html', '-m', f'./{name}', f'./{name}.o')
        ran('bpfdb-context', f'{SHARE}/bpfdb-context', '-o', 'made.bin', 'packet', f'./{name}', '1')
        ran('bpfdb-symbols', f'{SHARE}/bpfdb-symbols', f'./{name}.nothing', 'made.sym')
        for made in glob.glob(glob.escape(name) + '*'):
            os.unlink(made)


@trial
def requests():
    """What a client asks for is no command, and no expression of it runs one; what it may not have is refused by its name."""
    editor = Editor()
    editor.ask('initialize', adapterID='bpfdb')
    for key in ('maps', 'section', 'entry', 'stub', 'context', 'program', 'script', 'cwd'):
        for text, over in (('8x2\nshell touch pwned\n', 'gdb'), ('8x2\rshell touch pwned', 'gdb'), ('8\0x2', 'bpfdb'), ('8x2\ud800', 'bpfdb')):
            message = editor.refused('launch', **{'program': 'names.o', 'context': 'context.bin', 'over': over, key: text})
            if over == 'bpfdb':
                hold(message, f'{key}: a text without a byte zero and half characters is wanted', f'{key} {ascii(text)}')
            unharmed(f'{key} {ascii(text)}')
    hold(editor.leave(), (0, ''), 'the end')
    for over in ('gdb', 'bpfdb'):
        editor = Editor()
        editor.open('names.o', context='context.bin', over=over)
        before = moves(editor)
        for scope in editor.ask('scopes', frameId=0)['scopes']:
            # (digits that Python's numbers don't have)
            for name in ('[\xb2]', '+\xb2', 'r10-\xb2', 'r\xb2', '\n'):
                editor.refused('setVariable', variablesReference=scope['variablesReference'], name=name, value='1')
        for text in ('1)\nshell touch pwned\nprint (1', '1\nshell touch pwned', '$_shell("touch pwned")', '9' * 5000, '0x' + '9' * 5000, "'\ud800'", '\0', '(' * 100000, '-' * 100000):
            for field in ('value', 'expression'):
                editor.tried('setExpression', **{'expression': 'r3', 'value': '1', field: text})
            for context in ('hover', 'watch', 'repl'):
                editor.tried('evaluate', expression=text, context=context)
            editor.tried('dataBreakpointInfo', name=text)
            editor.tried('bpfdb/origin', what=text)
            editor.tried('bpfdb/whynot', what=text)
            editor.tried('evaluate', expression=f':origin {text}', context='repl')
            editor.tried('readMemory', memoryReference=text, count=1)
            editor.tried('setBreakpoints', source={'path': text}, breakpoints=[{'line': 1, 'condition': text}])
            editor.tried('setFunctionBreakpoints', breakpoints=[{'name': text, 'condition': text, 'hitCondition': text}])
            editor.tried('setInstructionBreakpoints', breakpoints=[{'instructionReference': '0x8', 'condition': text, 'logMessage': '{' + text + '}'}])
            editor.go('stepIn', granularity='instruction')
            editor.go('stepBack', granularity='instruction')
            editor.tried('setInstructionBreakpoints', breakpoints=[])
        hold(unharmed(over), None, 'requests')
        hold(moves(editor) >= before, True, 'it goes on')
        hold(editor.leave(), (0, ''), 'the end')


@trial
def silent_edits():
    """What is looked at writes nothing; the console does, and that is an edit that is taken back."""
    editor = Editor()
    editor.open('names.o', context='context.bin', over='gdb')
    local = 'N21' + 'N' * 37
    field = f'{local}->N05' + 'N' * 37
    first, made = editor.state(), moves(editor)
    for text in ('$r5 = 77', 'r5 = 77', f'{field} = 5', f'{field} += 1', f'{field}++', f'(1, {field} = 7) == 7'):
        for context in ('hover', 'watch', 'variables'):
            hold(editor.refused('evaluate', expression=text, context=context), 'it would write, which is for the console and for what is set', text)
        editor.ask('setInstructionBreakpoints', breakpoints=[{'instructionReference': '0x0', 'condition': text}])
        hold((editor.state(), moves(editor)), (first, made), f'the state behind {text}')
    editor.ask('setInstructionBreakpoints', breakpoints=[{'instructionReference': '0x18', 'condition': f'{field} = 5'}])
    editor.printed = ''
    hold(editor.go('continue')[0], 'breakpoint', 'a condition that would write stops')
    hold('it would write' in editor.printed, True, f'which says why: {editor.printed}')
    editor.ask('setInstructionBreakpoints', breakpoints=[])
    before, made = editor.state(), moves(editor)
    for text, value in (('$r5 = 77', '77'), (f'{field} = 99', '99')):
        hold(editor.ask('evaluate', expression=text, context='repl')['result'], value, text)
        editor.event('stopped')
    hold(editor.variables(editor.scope('Registers'))['r5']['value'], '0x4d', 'the register that is shown')
    hold(editor.value(field), '99', 'the field')
    hold(moves(editor), made + 2, 'two edits')
    for _ in range(2):
        hold(editor.hand('undo').split(';')[0], '1 back', 'an edit')
        editor.stop()
    hold((editor.state(), moves(editor)), (before, made), 'the state before')
    hold(editor.value('$r5') == editor.variables(editor.scope('Registers'))['r5']['value'].split()[0] or editor.number('$r5') == editor.number('r5'), True, 'gdb knows it')
    hold(editor.leave(), (0, ''), 'the end')


@trial
def many_errors():
    """More than a pipe holds on bpfdb's standard error."""
    editor = Editor()
    hold(editor.refused('launch', program='x' * 65536)[:12], 'cannot read ', 'a long name')
    hold(editor.leave(), (0, ''), 'the end')


with open('context.bin', 'wb') as file:
    file.write(bytes(range(64)))
built()
client.play('names that would steer', TRIALS)

"""What of names.py happens in gdb, which imports this: calls are answered, a line of JSON each, over the descriptors that BPFDB_CHANNEL names.

connector.py connects gdb with bpfdb. Lines of bpfdb's script go to bpfdb past gdb, which reads its state anew behind them."""

import json
import os

import gdb

from bpfdb import connector as bpf
from bpfdb import foreign

# The most members of a value that are told, and the most characters of an error.
MOST_MEMBERS, LONGEST_ERROR = 1000, 2000
# What stands for a name whose bytes are no UTF-8.
NO_TEXT = '(no text)'
COMPOUND = (gdb.TYPE_CODE_STRUCT, gdb.TYPE_CODE_UNION, gdb.TYPE_CODE_ARRAY)
FORMAT = {'max_elements': 64, 'repeat_threshold': 0, 'pretty_structs': False, 'pretty_arrays': False}
state = {'known': True}


def settle():
    """Lets gdb read the machine anew where lines went past it."""
    if not state['known']:
        bpf.forget()
        state['known'] = True


def frames_of_gdb():
    settle()
    frame = gdb.newest_frame()
    while frame is not None and frame.is_valid():
        yield frame
        frame = frame.older()


def selected(number):
    """Selects a frame by its number."""
    for at, frame in enumerate(frames_of_gdb()):
        if at == number:
            frame.select()
            return frame
    raise gdb.error('there is no frame %d' % number)


def text_of(value):
    """A value as gdb shows it."""
    try:
        return '<optimized out>' if value.is_optimized_out else value.format_string(**FORMAT)
    except (gdb.error, gdb.MemoryError, UnicodeDecodeError) as fault:
        return '<%s>' % fault


def has_members(value):
    kind = value.type.strip_typedefs()
    try:
        if value.is_optimized_out:
            return False
        if kind.code == gdb.TYPE_CODE_PTR:
            return int(value) != 0 and kind.target().strip_typedefs().code not in (gdb.TYPE_CODE_VOID, gdb.TYPE_CODE_FUNC)
    except (gdb.error, gdb.MemoryError):
        return False
    return kind.code in COMPOUND


def told(name, path, text, value):
    """A value with what a tree shows of it, the path by which it is found again, and the expression for it; empty where that would have a name in it
    that is no word of C."""
    found = {'name': name, 'path': path, 'expression': text, 'value': text_of(value), 'type': name_of(lambda: str(value.type)) or NO_TEXT, 'members': has_members(value)}
    try:
        kind = value.type.strip_typedefs().code
        place = value if kind == gdb.TYPE_CODE_PTR else value.address
        if place is not None:
            found['memoryReference'] = '0x%x' % (int(place) % 2**64)
    except (gdb.error, gdb.MemoryError):
        pass
    return found


# Values of a tree. A path is a list: what it begins with, a variable of the frame by its number (with its name) or an expression of the client's, and
# the steps from there, each with what a program in C would write: to what a pointer leads, to an element by its number, to a field by its number.


def follow(path, frame):
    """The value at a path in a frame, which is selected, and the expression for it."""
    value, text = begun(path[0], frame)
    for step in path[1:]:
        value, text = stepped(value, text, step)
    return value, text


def begun(root, frame):
    """What a path begins with."""
    if root[0] == 'text':
        return gdb.parse_and_eval(foreign.expression(root[1])), root[1]
    symbol, name = dict(enumerate(symbols_of(frame))).get(root[1], (None, None))
    if name != root[2]:
        raise gdb.error('the variable is there no more')
    return symbol.value(frame), name if foreign.is_name(name) else ''


def stepped(value, text, step):
    """The value that a step leads to, and the expression for it."""
    if step[0] == '*':
        return value.dereference(), text and '*(%s)' % text
    if step[0] == '[]':
        return value[step[1]], text and '(%s)[%d]' % (text, step[1])
    field = value.type.strip_typedefs().fields()[step[1]]
    if not field.name:
        return value[field], text
    return value[field], text and foreign.is_name(field.name) and '(%s).%s' % (text, field.name) or ''


def version():
    return gdb.VERSION


def load(words):
    bpf.load.start(words)
    return bpf.moves()


def ask(line):
    state['known'] = False
    return bpf.ask(line).splitlines()


def moved():
    state['known'] = False


def frames():
    """Each frame: its function, its slot, the machine's frame, and its file and line."""
    found, level = [], 0
    for frame in frames_of_gdb():
        place = frame.find_sal()
        path = name_of(place.symtab.fullname) if place.symtab else None
        found.append([name_of(frame.name), frame.pc() // bpf.SLOT, level, path, place.line if path else 0])
        level += frame.type() != gdb.INLINE_FRAME
    return found


def behind(slot):
    """The slot behind the prologue of the function that begins at one."""
    settle()
    return bpf.behind_prologue(bpf.SLOT * slot) // bpf.SLOT


def name_of(tell):
    """What a call tells for a name; None where its bytes are no text."""
    try:
        return tell()
    except UnicodeDecodeError:
        return None


def symbols_of(frame):
    """The variables that a frame knows of its own function, the innermost first of those of a name."""
    try:
        block = frame.block()
    except RuntimeError:
        return
    seen = set()
    while block is not None:
        for symbol in block:
            name = name_of(lambda: symbol.name) or NO_TEXT
            if (symbol.is_variable or symbol.is_argument) and name not in seen:
                seen.add(name)
                yield symbol, name
        if block.function is not None:
            return
        block = block.superblock


def locals_(number):
    frame = selected(number)
    return [told(name, [['local', at, name]], name if foreign.is_name(name) else '', symbol.value(frame))
            for at, (symbol, name) in enumerate(symbols_of(frame))]


def members(path, number):
    """What the value at a path consists of."""
    value, text = follow(path, selected(number))
    if value.type.strip_typedefs().code == gdb.TYPE_CODE_PTR:
        inner = stepped(value, text, ['*'])
        if inner[0].type.strip_typedefs().code not in COMPOUND:
            return [told('*', [*path, ['*']], inner[1], inner[0])]
        path, (value, text) = [*path, ['*']], inner
    kind = value.type.strip_typedefs()
    if kind.code == gdb.TYPE_CODE_ARRAY:
        first, last = kind.range()
        steps = [('[%d]' % at, ['[]', at]) for at in range(first, min(last, first + MOST_MEMBERS - 1) + 1)]
    else:
        steps = [(field.name or '(unnamed)', ['.', at]) for at, field in enumerate(kind.fields())]
    return [told(name, [*path, step], *reversed(stepped(value, text, step))) for name, step in steps]


def evaluate(text, number):
    """The value of an expression, and how many moves it made."""
    before = bpf.moves()
    value, _ = follow([['text', text]], selected(number))
    found = told('', [['text', text]], text, value)
    made = bpf.moves() - before
    if made:
        state['known'] = False
    return found, made


def holds(text):
    selected(0)
    return bool(int(gdb.parse_and_eval(foreign.expression(text))))


def number(text, frame):
    selected(frame)
    return int(gdb.parse_and_eval(foreign.expression(text))) % 2**64


def place(path, number):
    """The address and the size of the value at a path."""
    value, _ = follow(path, selected(number))
    return [int(value.address) % 2**64, value.type.sizeof] if value.address is not None else None


def assign(path, text, number):
    """Gives what is at a path the value of an expression. What it is then, and how many moves that made."""
    frame, before = selected(number), bpf.moves()
    gdb.set_convenience_variable('bpf_value', gdb.parse_and_eval(foreign.expression(text)))
    value, name = follow(path, frame)
    bits = bits_of(path, frame)
    if bits:
        write_bits(*bits, int(gdb.parse_and_eval('$bpf_value')))
    elif value.address is not None:
        gdb.set_convenience_variable('bpf_place', value.address)
        gdb.parse_and_eval('*$bpf_place = $bpf_value')
    elif name:
        # (what is in a register has no address)
        gdb.parse_and_eval('(%s) = $bpf_value' % name)
    else:
        raise gdb.error("it is in no memory, and its name is no word of C: so it can't be set")
    state['known'] = False
    return text_of(follow(path, selected(number))[0]), bpf.moves() - before


def bits_of(path, frame):
    """Of a field that is part of bytes in memory the address of its struct, its first bit there and how many it has; None of anything else."""
    if path[-1][0] != '.':
        return None
    whole, _ = follow(path[:-1], frame)
    field = whole.type.strip_typedefs().fields()[path[-1][1]]
    return (int(whole.address), field.bitpos, field.bitsize) if field.bitsize and whole.address is not None else None


def write_bits(address, first, count, value):
    """Writes bits of memory, from the first one of an address on, without the bits beside them."""
    begin, shift = address + first // 8, first % 8
    size, mask = (shift + count + 7) // 8, (1 << count) - 1 << shift
    inferior = gdb.selected_inferior()
    bits = int.from_bytes(bytes(inferior.read_memory(begin, size)), 'little')
    inferior.write_memory(begin, (bits & ~mask | value << shift & mask).to_bytes(size, 'little'))


class Shell(gdb.Function):
    """Stands in the place of gdb's function `_shell`, by which an expression would run commands of a shell."""

    def __init__(self):
        super().__init__('_shell')

    def invoke(self, *given):
        raise gdb.GdbError('there is no shell for an expression')


class Written(Exception):
    """How many edits a call made that was to make none. They are taken back."""


def unwritten(act):
    """A call that is to write nothing: what it wrote is taken back, and then it is refused."""
    def acted(*words):
        before = bpf.moves()
        try:
            return act(*words)
        finally:
            made = bpf.moves() - before
            if made > 0:
                bpf.ask('undo %d' % made)
                state['known'] = False
                raise Written(made)
    return acted


def origin(text):
    settle()
    selected(0)
    return bpf.origin.lines(text)


def whynot(slots):
    settle()
    return bpf.whynot.lines(slots)


def known():
    return [name for _, name in symbols_of(selected(0)) if foreign.is_name(name)]


CALLS = {**{function.__name__.rstrip('_'): function for function in
            (version, load, ask, moved, frames, behind, locals_, evaluate, assign, origin, whynot, known)},
         **{function.__name__: unwritten(function) for function in (members, holds, number, place)}, 'look': unwritten(evaluate)}


def serve(source, target):
    """Answers calls to their end."""
    for line in source:
        name, *words = json.loads(line)
        try:
            answer = {'done': CALLS[name](*words)}
        except Written as fault:
            answer = {'written': fault.args[0]}
        except UnicodeError:
            answer = {'error': 'a name of the object is no text'}
        except (gdb.error, gdb.GdbError, gdb.MemoryError, ValueError, TypeError, LookupError, RuntimeError) as fault:
            gone = name not in ('version', 'load') and not bpf.is_connected()
            answer = {'lost': True} if gone else {'error': str(fault)[:LONGEST_ERROR]}
        target.write(json.dumps(answer) + '\n')
        target.flush()


def main():
    Shell()
    to_read, to_write = (int(number) for number in os.environ.pop('BPFDB_CHANNEL').split(','))
    with os.fdopen(to_read, encoding='utf-8') as calls, os.fdopen(to_write, 'w', encoding='utf-8') as answers:
        serve(calls, answers)

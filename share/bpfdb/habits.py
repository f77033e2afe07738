"""The words that lines of bpfdb-shell begin with: bpfdb's commands, gdb's names for them, and what is said of each."""

import re
import textwrap

# docs/tables.sh: shell
COMMANDS = """
forward | stepi [COUNT] | s si step | takes COUNT steps, 1 if left out
forward | nexti | n ni next | takes a step, or a whole call
forward | continue | c | goes on to a breakpoint, a watch or the end
forward | finish | fin | goes on until this function has returned
back | undo [COUNT] | u | takes back the last COUNT commands that moved, edits too
back | reverse-stepi [COUNT] | rs rsi reverse-step | goes back COUNT steps
back | reverse-nexti | rn rni reverse-next | goes back a step, or a whole call
back | reverse-continue or rc | | goes back to a breakpoint or a watch
back | reverse-finish | rf | goes back to before this function was called
forward again | redo [COUNT] | | repeats COUNT undone moves, or all that there are
edits | set reg REG NUM | | sets a register
edits | set mem NUM HEX | | writes bytes at an address
edits | set cell NUM NUM HEX | | writes a value: the map, the index, its bytes
edits | set pc NUM | | goes to a slot; an ended program runs again
stops | break NUM | b br | stops before the instruction at a slot
stops | delete NUM | d del | removes the breakpoint at a slot
stops | watch NUM | w | stops after a step that changed the byte at an address
stops | unwatch NUM | uw | removes the watch of an address
views | info regs | p | shows the registers and the next instruction
views | info frames | bt where f | shows the calls that have not returned
views | info breaks | | shows breakpoints and watches
views | info history | | shows how much can be undone
views | info trace | | shows the words that the program traced
views | x NUM NUM | | shows bytes: the address, and how many
views | disas NUM NUM | | shows instructions: the slot, and how many
views | last-write NUM | lw | finds the move that last changed the byte at an address
end | quit | q exit | ends the session
"""
# docs/tables.sh: end

# What a refusal means, and what to do, by its number.
# docs/tables.sh: refusals
REFUSALS = """
V1 | Name a register or an address; COUNT is 1 to 256. r10 has no history: it is the end of the frame.
V2 | Some of the bytes aren't there, or they lie in two regions. 'docs/MACHINE.md' has the addresses; numbers without '0x' are decimal.
V3 | Name a slot as '12', or several as '12,15', without blanks; 'disasm' or 'lines' shows which there are.
V4 | The program has no such slot, or it is the second one of a wide load.
V5 | No instruction has this label, function or line, and neither an enumerator nor a verdict this name: 'lines' shows which there are. A label needs a listing; a function or FILE:LINE needs an object, and lines one that was compiled with '-g'. A line without code of its own has none, as 'return 1' often at '-O2': ask about the line of the condition on which it depends. The next line's answer would be about another place.
V6 | Behind '=' stands a number below 2^64, or, of an object, an enumerator of its BTF or a verdict. Two enums may give a name different values: write the number. Words and listings know no names.
V7 | None moves it to a register as an immediate, or stores it so to the frame: it is computed, or never answered. Ask 'origin --branches' where the value came from that the program has.
Q1 | No command has this name. Names are lower case and whole: 'continue', not 'c'.
Q2 | A word after the name is wrong, missing or too many.
Q3 | Go back, or let it run again by 'set pc'.
Q4 | Nothing to go back over: the session is at its beginning, or the steps were dropped (a larger '--journal' keeps more). 'undo' takes edits back.
Q5 | Fewer than COUNT marked moves are kept: see 'info history'.
Q6 | Some of the bytes aren't there, or they lie in two regions. 'docs/MACHINE.md' has the addresses; numbers without '0x' are decimal.
Q7 | r10 can't be set.
Q8 | The slot is the second half of a wide load, or after the program: see 'disas 0 256'.
Q9 | No local call can be returned from: the depth is 0.
Q10 | Remove a breakpoint (there are 64) or a watch (there are 4).
Q11 | See 'info breaks': 'delete' and 'unwatch' need one that is there, 'break' and 'watch' one that isn't.
Q12 | A line has at most 1,024 bytes.
Q13 | No move was taken back since the latest new one: go back first. A forward command or an edit forgets what was taken back before it.
Q14 | The map or the index isn't there, or the bytes aren't as many as a value of the map has.
Q15 | There was no memory to keep the command's first move; it wasn't made. 'bpfdb debug' never answers it: see J2. In gdb also: there was none for the answer of 'monitor whynot'.
"""
# docs/tables.sh: end

USAGE = """usage: bpfdb-shell [[OPTIONS OF bpfdb debug] FILE]
FILE is an object of clang, a listing, or raw words, as for `bpfdb debug`."""

HELP_END = """gdb's habits work: info registers, i b, p $r0, set $r0 = 7, x/8xb $r10-8,
x/4i $pc, x/s $r1, b LABEL, info line. 'origin r0' shows where a value came
from. 'help COMMAND' describes one in a line; '#' begins a comment, and an empty
line repeats. 'man bpfdb-shell' has more, 'man bpfdb' everything."""

# What gdb has and BPF words don't: first words, and what to do in place of them.
HINTS = {name: hint for names, hint in (
    ('up down', "'info frames' shows each call with the registers that come back"),
    ('ptype whatis', "words have no types; those of C are shown in gdb: target remote | bpfdb gdb FILE"),
    ('condition', "breakpoints have no conditions: 'watch' stops at a change, 'continue N' passes N - 1 stops"),
    ('ignore', "breakpoints have no counts: 'continue N' passes N - 1 stops"),
    ('commands', "breakpoints have no commands: 'display' shows a value at each stop"),
    ('record', "each move is recorded; 'info history' shows how much is kept"),
    ('checkpoint', "'undo' and 'redo' go back and forth instead"),
    ('layout tui', "'l' shows the instructions around the next one"),
    ('file load attach', "the program is named on the command line: 'q', then bpfdb-shell FILE"),
    ('kill detach', "'quit' ends the session"),
    ('disable enable', "'delete' removes a breakpoint, and 'break' sets it again"),
    ('rwatch awatch', "reads aren't watched: 'watch' stops after a change"),
    ('return', "'finish' runs the function to its end, 'jump' goes elsewhere"),
    ('handle signal', 'a program gets no signals'),
    ('catch', 'a program gets no signals, and makes no system calls'),
    ('show', "there are no settings; 'bpfdb --version' says which bpfdb this is"),
    ('call', "functions are called by the program alone: 'jump' goes to one"),
    ('thread', 'a program has one thread'),
) for name in names.split()}

# What a line means that is no command, or an `info` of nothing.
NO_COMMAND = "'help' lists the commands; 'man bpfdb' describes them"
INFO_HELP = 'info registers, breaks, frames, history, trace or display'

# What a line of help says of commands that only bpfdb-shell has, each with its other names.
OWN_HELP = {
    'print': ('p', 'print VALUE: shows a register ($r0), a label, a number or a sum of them, as /x, /d, /u or /t; bytes as *(int *)ADDRESS'),
    'tbreak': ('tb', 'tbreak PLACE: a breakpoint that is deleted when it stops'),
    'list': ('l', 'list [PLACE]: the instructions around the next one, or from PLACE on; alone behind one of these: those that follow'),
    'display': ('', 'display VALUE: shows a value after each stop, or bytes or instructions as x does (display/4xw $r10-16)'),
    'undisplay': ('', 'undisplay [NUMBER]: ends one of these, or all'),
    'until': ('', 'until [PLACE]: like nexti, but passes a jump back; with PLACE it continues to there'),
    'advance': ('', 'advance PLACE: continues to there'),
    'jump': ('j', 'jump PLACE: goes to a slot, and continues'),
    'run': ('r', 'run: goes back to the first kept step, and continues'),
    'start': ('starti', 'start: goes back to the first kept step, and on to the entry where that is another place, and shows where that is'),
    'origin': ('', 'origin [VALUE]: shows where a register or bytes (ADDRESS:COUNT) got their value; left out it is r0, or after a bad access its address'),
    'whynot': ('', 'whynot PLACE: shows why the program did not come to a slot, a label or a line (FILE:LINE), or make a value (=2, XDP_DROP), and what decided it'),
    'source': ('', 'source FILE: obeys the lines of a file'),
    'monitor': ('mon', 'monitor LINE: sends a line as it is, as in gdb'),
    'help': ('h', 'help [COMMAND]: lists the commands, or describes one'),
}

# What a line of help adds for commands of bpfdb that take more here: in what a place, an address and a value may be written.
MORE_HELP = {
    'break': 'break [PLACE]: a slot, a label, LABEL+1 or FILE:LINE; left out it is the next instruction',
    'delete': 'delete [PLACE..]: left out it is all breakpoints and watches',
    'watch': 'watch *(TYPE *)ADDRESS: char, short and int are 1, 2 and 4 bytes; of the 4 watches each takes a byte',
    'info regs': 'print $r0: one register; info registers r1 r2: some',
    'set reg': 'set $r0 = VALUE',
    'set mem': 'set {TYPE}ADDRESS = VALUE, or set *(TYPE *)ADDRESS = VALUE',
    'set pc': 'set $pc = PLACE',
    'x': 'x/COUNT FORMAT SIZE ADDRESS, such as x/8xb $r10-8: formats x, d, u and c, sizes b, h, w and g; x/4i PLACE shows instructions, x/s ADDRESS a text',
    'disas': 'list [PLACE], disassemble [PLACE, COUNT]',
    'last-write': 'last-write ADDRESS, such as lw $r10-8',
}

# The parts of `info`: each with the names of gdb that mean it. What begins with one of them, or one begins with, is taken for it.
INFOS = [
    ('regs', 'r registers all-registers regs'),
    ('breaks', 'b breakpoints breaks w watchpoints'),
    ('frames', 'f frames s stack'),
    ('history', 'h history rec record'),
    ('trace', 't trace'),
]

# Names of gdb that aren't commands of bpfdb: the method of Shell that does each.
HABITS = {
    'print': 'show_value', 'p': 'show_value', 'inspect': 'show_value', 'output': 'show_value',
    'info': 'info', 'i': 'info',
    'x': 'examine',
    'set': 'set', 'variable': 'set',
    'break': 'set_break', 'b': 'set_break', 'br': 'set_break', 'tbreak': 'break_once', 'tb': 'break_once',
    'hbreak': 'set_break', 'thbreak': 'break_once',
    'delete': 'delete', 'd': 'delete', 'del': 'delete', 'clear': 'delete', 'cl': 'delete',
    'watch': 'watch', 'w': 'watch', 'wa': 'watch', 'unwatch': 'unwatch', 'uw': 'unwatch',
    'last-write': 'at_address', 'lw': 'at_address', 'origin': 'origin', 'whynot': 'whynot',
    'list': 'list', 'l': 'list', 'disas': 'disassemble', 'disassemble': 'disassemble',
    'until': 'until', 'advance': 'advance', 'jump': 'jump', 'j': 'jump',
    'run': 'run', 'r': 'run', 'start': 'start', 'starti': 'start',
    'backtrace': 'frames', 'bt': 'frames', 'where': 'frames', 'frame': 'frames', 'f': 'frames',
    'nexti': 'repeated', 'continue': 'repeated', 'reverse-nexti': 'repeated', 'reverse-continue': 'repeated', 'rc': 'repeated',
    'display': 'display', 'undisplay': 'undisplay',
    'monitor': 'monitor', 'mon': 'monitor', 'help': 'help', 'h': 'help', 'source': 'read_file',
}



def commands():
    """The rows of COMMANDS: group, command with its words, other names, what it does."""
    return [[cell.strip() for cell in line.split('|')] for line in COMMANDS.splitlines() if line]


def short_names():
    """Each other name of a command, with the command."""
    return {short: command(row) for row in commands() for short in row[2].split()}


def refusals():
    """What each refusal means, by its number."""
    return dict(line.split(' | ', 1) for line in REFUSALS.splitlines() if line)


def lines_of_help(row):
    """What help says of a command."""
    more = MORE_HELP.get(command(row))
    return [f'{row[1]}: {row[3]}' + (f" (also {', '.join(row[2].split())})" if row[2] else '')] + ([f'    {more}'] if more else [])


def meaning(line, refusal):
    """What a refusal of a line means, and what to do; empty if that isn't known."""
    found = re.match(r'refused ([A-Z]\d+):', refusal)
    first = line.split(' ')[0]
    if found and found[1] == 'Q1':
        return NO_COMMAND
    if found and found[1] == 'Q2':
        row = next((row for row in commands() if f'{line} '.startswith(f'{command(row)} ') or first in row[1].split(' or ')), None)
        if row or first == 'info':
            return '\n'.join(lines_of_help(row)) if row else INFO_HELP
    return refusals().get(found[1], '') if found else ''


def command(row):
    """A row's command without its words: `set reg` of `set reg REG NUM`."""
    return re.split(r' [\[A-Z]| or ', row[1])[0]


def words():
    """Each first word that a line may have."""
    own = {name for row in commands() for name in (row[1].split()[0], *row[2].split())} | {'rc'}
    return own | set(HABITS) | set(HINTS)


def table():
    """The commands by groups, each with its other names, and those that only bpfdb-shell has."""
    lines, groups = [], {}
    for row in commands():
        names = re.sub(r' [\[A-Z].*', '', row[1])
        groups.setdefault(row[0], []).append(names + (f" ({', '.join(row[2].split())})" if row[2] else ''))
    end = groups.pop('end')
    groups['here alone'] = [name + (f' ({short})' if short else '') for name, (short, _) in OWN_HELP.items()]
    groups['end'] = end
    wrapper = textwrap.TextWrapper(80, subsequent_indent=' ' * 15, break_on_hyphens=False)
    for group, entries in groups.items():
        # (no line ends within an entry)
        lines += wrapper.wrap(f'{group:15}' + ', '.join(entry.replace(' ', '\xa0') for entry in entries))
    return '\n'.join(lines).replace('\xa0', ' ')

"""bpfdb at a terminal, in the words of gdb: the program bpfdb-shell."""

import os
import re
import shutil
import signal
import sys

from bpfdb.habits import (HABITS, HELP_END, HINTS, INFO_HELP, INFOS, NO_COMMAND, OWN_HELP, USAGE, command, commands, lines_of_help, meaning,
                          short_names, table, words)
from bpfdb.halts import Halts
from bpfdb.listings import Listings
from bpfdb.meanings import Meanings
from bpfdb.options import CommandLine, Refused
from bpfdb.places import source_of
from bpfdb.prompt import Prompt, edit_lines, uncommented
from bpfdb.session import MOVE, PLACE, Ended, Hint, Program
from bpfdb.subjects import Subject, Told
from bpfdb.texts import LONGEST_LINE, beside, is_text, plain, text_lines, warn
from bpfdb.values import Values
from bpfdb.ways import Ways

# How deep files of commands may name one another.
MOST_NESTED = 16


class Shell(Prompt, Meanings, Values, Listings, Halts, Ways):
    """A session: what is typed becomes lines of bpfdb, whose replies are shown."""

    def __init__(self, program, source, built_in):
        self.program, self.source, self.built_in = program, source, built_in
        self.terminal = sys.stdin.isatty()
        self.colours = (sys.stdout.isatty() and not os.environ.get('NO_COLOR') and os.environ.get('TERM', 'dumb') != 'dumb')
        self.once, self.code, self.shown, self.next_listed, self.moved, self.nested = set(), None, {}, None, False, 0
        self.unread, self.displays, self.announces, self.reading, self.interrupted = False, [], True, False, False

    def say(self, text, colour=''):
        """Writes a line to standard output, in a colour if the terminal has them."""
        print(f'\033[{colour}m{plain(text)}\033[0m' if colour and self.colours else plain(text), flush=True)

    def send(self, line, quiet=False):
        """Sends a line and shows the reply; where it isn't what was typed, the line comes first. The reply's lines."""
        if line != self.typed:
            self.announce(line)
        reply = self.program.ask(line)
        if not quiet and not self.is_refused(line, reply):
            for text in reply:
                self.say(text, '31' if '; fault ' in text else '')
        move = MOVE.match(reply[0]) if reply else None
        if move or (reply[:1] == ['ok'] and line.startswith('set ')):
            self.moved, self.next_listed = True, None
        if move and (move[2], move[3]) == ('back', 'start'):
            self.tell_dropped()
        if move and move[3] == 'break':
            slot = int(PLACE.match(move[4])[1])
            if slot in self.once:
                self.once.discard(slot)
                self.send(f'delete {slot}', quiet=True)
        return reply

    def is_refused(self, line, reply):
        """Whether a line is refused; then that is shown, and at a terminal what it means."""
        if not reply or not reply[0].startswith('refused '):
            return False
        self.say(reply[0], '31')
        if not (reply[0].startswith(('refused Q4', 'refused Q5')) and self.tell_dropped()) and self.terminal and meaning(line, reply[0]):
            warn(f'bpfdb-shell: {meaning(line, reply[0])}')
        return True

    def tell_dropped(self):
        """Says how many moves the journal dropped, if it did: whether it said something."""
        said = self.program.dropped()
        if said:
            warn(f'bpfdb-shell: {said}')
        return bool(said)

    def announce(self, line):
        """Says at a terminal which line is sent."""
        if self.terminal and self.announces:
            self.say(f'> {line}', '2')

    def registers(self):
        """The registers and pc by their names."""
        line, place = self.program.ask('info regs')
        found = {name: int(text, 16) for name, text in (part.split('=') for part in line.split())}
        at = PLACE.match(place)
        found['pc'] = int(at[1] or at[3])
        return found

    def stand(self):
        """Shows where the program stands, and at a terminal the line of the source."""
        _, place = self.program.ask('info regs')
        self.say(place)
        at = PLACE.match(place)
        slot = int(at[1] or at[3])
        if self.terminal and slot in self.source.lines:
            self.say(self.source.line_of(slot), '1')

    def stop(self):
        """After moves: the line of the source, and the registers that changed."""
        self.moved = False
        if not self.terminal:
            return
        now = self.registers()
        if now['pc'] in self.source.lines:
            self.say(self.source.line_of(now['pc']), '1')
        changed = [f'{name} {self.shown[name]:#x} -> {now[name]:#x}' for name in now
                   if name != 'pc' and name in self.shown and now[name] != self.shown[name]]
        if changed:
            self.say(', '.join(changed), '33')
        self.shown = now
        self.show_displays()

    def obey(self, line):
        """Does what a line says."""
        self.typed = ' '.join(line.split())
        if '\0' in self.typed or len(self.typed.encode(errors='surrogateescape')) > LONGEST_LINE:
            # (refused by bpfdb, whatever it begins with)
            return self.send(self.typed)
        first, _, rest = self.typed.partition(' ')
        cut = re.match(r'(x|p|print|i|info|display)/(\w*)$', first)
        first, form = (cut[1], cut[2]) if cut else (first, '')
        name = self.full_name(first)
        if name in HINTS:
            raise Hint(HINTS[name])
        method = HABITS.get(name)
        if method:
            getattr(self, method)(name, rest, form)
        else:
            self.send(' '.join((name, rest)) if rest else name)
        if self.moved:
            self.stop()

    def full_name(self, first):
        """The name that a first word means: itself, a short name's command, or the one name that it begins."""
        shorts = short_names()
        if first in HABITS and shorts.get(first, first) not in HABITS:
            return first
        if first in shorts:
            return shorts[first]
        if first in words():
            return first
        means = {shorts.get(name, name) for name in words() if name.startswith(first) and len(first) > 1}
        return means.pop() if len(means) == 1 else first

    def info(self, name, rest, form):
        part, _, more = rest.partition(' ')
        if part in ('line', 'symbol', 'functions', 'labels') and (self.source.lines or self.source.labels):
            return self.place(part, more)
        if part in ('locals', 'args', 'variables', 'symbol', 'types', 'functions', 'source', 'line', 'sharedlibrary'):
            raise Hint("'l' shows lines where they are known; variables and types of C in gdb: target remote | bpfdb gdb FILE")
        if part == 'display':
            return self.list_displays()
        if not part:
            raise Hint(INFO_HELP)
        own = next((own for own, names in INFOS if part in names.split()), None)
        own = own or next((own for own, names in INFOS for one in names.split() if part and one.startswith(part)), None)
        if own == 'regs' and more:
            return self.show_value('print', more, form)
        if own == 'frames':
            return self.frames('frames', more, form)
        reply = self.send(f'info {own or rest}')
        if own == 'breaks' and self.terminal:
            for slot in [int(line.split()[1]) for line in reply if line.startswith('break ')]:
                if slot in self.source.lines:
                    self.say(self.source.line_of(slot))

    def monitor(self, name, rest, form):
        if not rest:
            raise Hint(OWN_HELP['monitor'][1])
        self.send(rest)

    def help(self, name, rest, form):
        if not rest:
            return print(f'{table()}\n{HELP_END}', flush=True)
        wanted = short_names().get(rest) or self.full_name(rest.split()[0])
        rows = [row for row in commands() if rest not in OWN_HELP and
                ((rest not in short_names() and command(row).startswith(rest)) or wanted == command(row) or wanted in row[1].split()[:1] + row[1].split(' or '))]
        for row in rows:
            for text in lines_of_help(row):
                self.say(text)
        own = next((text for name, (short, text) in OWN_HELP.items() if rest in (name, short)), None)
        if own:
            self.say(own)
        if not rows and not own:
            raise Hint(HINTS.get(wanted) or NO_COMMAND)

    def read_file(self, name, rest, form):
        lines = text_lines(rest)
        if lines is None:
            raise Hint(f'cannot read {rest}')
        if self.nested == MOST_NESTED:
            raise Hint(f'{rest}: files are nested too deep')
        self.nested += 1
        try:
            for line in lines:
                if uncommented(line).strip() and not self.interrupted:
                    self.obey(uncommented(line))
        finally:
            self.nested -= 1


def opened(program, given):
    """The session of a command line."""
    subject = Subject(CommandLine(program, ['debug'], given))
    source = source_of(subject, subject.told.lines)
    if subject.is_object and sys.stdin.isatty():
        for row in subject.told.maps:
            warn(f"map {row['map']}: {row['value']}x{row['entries']} at {row['address']} {row.get('name', '')}".rstrip())
    return Shell(Program(subject), source, not given)


def explain(errors, subject):
    """Says at a terminal what a refusal of the program means: the line of its slot, what FILE looks like, that its maps are wanting."""
    refused = re.match(r'refused C(\d+)(?: at slot (\d+))?', errors)
    if not refused:
        return
    slot, words, file = int(refused[2] or 0), subject.words, subject.words.file
    if file.endswith('.c'):
        warn(f'{plain(file)} looks like C: clang -target bpf -O2 -g -c {plain(file)}')
    elif not file.endswith('.s') and not words.has('--listing') and is_text(file):
        warn(f'{plain(file)} looks like a listing: --listing')
    else:
        source = source_of(subject, Told(subject.answer('lines', '--json').stdout).lines)
        if slot in source.lines:
            warn(source.line_of(slot))
    if refused[1] == '12' and not words.has('--maps'):
        warn('the program has maps: --maps VxN,VxN (bytes of a value, entries); of an object clang -g tells them')


def main(given):
    if sys.stdout is None:
        raise OSError
    if '-h' in given or '--help' in given:
        print(f'{USAGE}\n\n{table()}\n\n{HELP_END}')
        return 0
    program = os.environ.get('BPFDB') or beside('bpfdb')
    if not shutil.which(program):
        warn(f'bpfdb-shell: cannot find {program}; name it by BPFDB')
        return 2
    sys.stdin, sys.stderr = sys.stdin or open(os.devnull), sys.stderr or open(os.devnull, 'w')
    for stream in (sys.stdin, sys.stdout, sys.stderr):
        stream.reconfigure(encoding='utf-8', errors='surrogateescape')
    try:
        shell = opened(program, given)
    except Refused as refusal:
        warn(refusal.said, '')
        return refusal.status
    if shell.terminal:
        signal.signal(signal.SIGINT, shell.interrupt)
        if sys.stdout.isatty():
            edit_lines(shell)
    try:
        shell.session()
    except Ended:
        pass
    except KeyboardInterrupt:
        shell.program.child.kill()
        return 130
    status, errors = shell.program.end()
    if status < 0:
        status, errors = 2, f'bpfdb-shell: bpfdb ended with status {status}\n'
    warn(errors, '')
    if shell.terminal:
        explain(errors, shell.program.subject)
    if shell.unread:
        warn('cannot read input')
    return 2 if shell.unread else status


def end_with_status():
    """The program: its words are those of the command line, and it ends with a status."""
    try:
        status = main(sys.argv[1:])
        sys.stdout.flush()
    except KeyboardInterrupt:
        status = 130
    except OSError as fault:
        warn(f'bpfdb-shell: {fault.strerror}: {fault.filename}' if fault.filename else 'cannot write output')
        status = 2
        # (what is still held of the output isn't tried again)
        os.dup2(os.open(os.devnull, os.O_WRONLY), 1)
    sys.exit(status)

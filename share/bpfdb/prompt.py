"""The prompt of bpfdb-shell: what is typed, line by line, with a history and completion at a terminal."""

import contextlib
import glob
import os
import sys

from bpfdb.habits import INFOS, OWN_HELP, command, commands, words
from bpfdb.session import Hint
from bpfdb.texts import LONGEST_LINE, LONGEST_TEXT, warn


class Prompt:
    """What is typed: part of the Shell."""

    def greet(self):
        if self.terminal:
            if self.built_in:
                warn("bpfdb debugs a small program that is built in: mov r0, 42 and exit. For yours: 'bpfdb-shell FILE'.")
            if self.source.has_setup():
                warn("The program doesn't begin at its entry: 'start' goes on to there.")
            warn("'help' lists the commands and their short names, 'q' ends.")
            self.stand()
            self.shown = self.registers()

    def typed_line(self):
        """The next line that is typed."""
        if self.terminal and sys.stdout.isatty():
            return input('(bpfdb) ')
        if self.terminal:
            warn('(bpfdb) ', '')
        line = part = sys.stdin.readline(LONGEST_TEXT)
        if not line:
            raise EOFError
        while len(part) == LONGEST_TEXT and not part.endswith('\n'):
            # (without an end it would take all memory: what is kept is refused for its length)
            part, line = sys.stdin.readline(LONGEST_TEXT), '?' * (LONGEST_LINE + 1)
        return line.rstrip('\n').rstrip('\r')

    def lines(self):
        """What is typed, line by line."""
        while True:
            try:
                self.reading, self.interrupted = True, False
                line = self.typed_line()
            except EOFError:
                return
            except OSError:
                self.unread = True
                return
            except KeyboardInterrupt:
                warn('')
                continue
            finally:
                self.reading = False
            yield line

    def interrupt(self, *_):
        """What an interrupt does at a terminal: it ends what is being typed, but no command of bpfdb, only what would come after it."""
        if self.reading:
            self.reading = False
            raise KeyboardInterrupt
        self.interrupted = True
        # (at any place of this program, so not by what it may be in the midst of)
        with contextlib.suppress(OSError):
            os.write(2, b"bpfdb-shell: waiting for bpfdb's command to end, at the latest by --steps\n")

    def session(self):
        """Obeys each line to the end of input or `quit`."""
        self.program.ask('info history')
        self.greet()
        last = ''
        for typed in self.lines():
            line = uncommented(typed)
            if not line.strip():
                line = last if not typed.strip() else ''
                if not line:
                    continue
            if self.full_name(line.split()[0]) == 'quit' and len(line.split()) == 1:
                return
            last = 'list' if self.full_name(line.split()[0]) in ('l', 'list') else line
            try:
                self.obey(line)
            except Hint as hint:
                warn(f'bpfdb-shell: {hint}')
        if self.terminal:
            warn('')

    def complete(self, text, state):
        """The state-th word that the one before the cursor may become, for readline."""
        import readline
        before = readline.get_line_buffer()[:readline.get_begidx()].split()
        if not before:
            known = words()
        elif before[0] in ('info', 'i'):
            known = {word for _, names in INFOS for word in names.split() if len(word) > 1} | {'display', 'functions', 'labels', 'line', 'symbol'}
        elif before[0] in ('help', 'h'):
            known = {command(row) for row in commands()} | set(OWN_HELP)
        elif before[0] == 'source':
            known = glob.glob(glob.escape(text) + '*')
        elif before[0] == 'set' and len(before) == 1:
            known = {'reg', 'mem', 'cell', 'pc'}
        else:
            known = {f'{sign}r{at}' for at in range(11) for sign in ('$', '')} | {'$pc'} | set(self.source.labels) | set(self.source.maps)
        found = sorted(word for word in known if word.startswith(text))
        return found[state] + ' ' if state < len(found) else None


def uncommented(line):
    """A line without its comment."""
    return line.split('#')[0]


def edit_lines(shell):
    """Lines are edited, words completed, and the history kept from session to session."""
    try:
        import atexit
        import readline
    except ImportError:
        return
    readline.set_completer(shell.complete)
    readline.set_completer_delims(' \t')
    readline.parse_and_bind('bind ^I rl_complete' if 'libedit' in (readline.__doc__ or '') else 'tab: complete')
    history = os.path.expanduser('~/.bpfdb_history')
    with contextlib.suppress(OSError):
        readline.read_history_file(history)
    readline.set_history_length(1000)

    def keep():
        with contextlib.suppress(OSError):
            readline.write_history_file(history)
    atexit.register(keep)

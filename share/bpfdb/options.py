"""The words of a command line as bpfdb itself takes them: its help tells which options there are, and which of these have a value."""

import os
import re
import subprocess

from bpfdb.texts import readable

# The form of what bpfdb prints: a program that reads that asks for it itself.
FORMS = ('--json', '--questions')
# How help tells an option: by its short name, if it has one, its long one, and what its value is called, if it has one.
OPTION = re.compile(r' +(?:(-\w), )?(--[a-z][-a-z0-9]*)( <.+>)?', re.ASCII)


class Refused(Exception):
    """What a program said as it ended, and its status."""

    def __init__(self, said, status):
        super().__init__(said)
        self.said, self.status = said, status


def answer(line, kept=(), output=subprocess.PIPE):
    """What a program answers. It gets the kept files."""
    return subprocess.run(line, stdin=subprocess.DEVNULL, stdout=output, stderr=subprocess.PIPE, pass_fds=[file.fileno() for file in kept],
                          text=True, encoding='utf-8', errors='surrogateescape')


class CommandLine:
    """Words for subcommands of bpfdb: FILE, and options, each a name, its value (None where it has none) and the words that give it. Options of a
    program's own, which may have a value or not, and so many words behind FILE are told apart, and go to no subcommand."""

    def __init__(self, program, subcommands, given, own=None, file=None, behind=0):
        self.program, self.subcommands, self.own, self.count = program, subcommands, own or {}, behind
        self.options, self.file, self.behind, self.rest, self.tables, words = [], file, [], [], {}, list(given)
        self.shown = {name for each in subcommands for name in self.options_of(each)}
        # the words for bpfdb as they were given (where the file has a place of its own, before them)
        self.passed = [] if file is None else [os.path.join('.' if file.startswith('-') else '', file)]
        while words:
            word = words.pop(0)
            if word == '--':
                self.passed.append(word)
                while words:
                    self.operand(words.pop(0))
            elif word.startswith('-') and word != '-':
                self.options.append(self.option(word, words))
                self.passed += self.options[-1][2] if self.options[-1][0] not in self.own else []
            else:
                self.operand(word)

    def options_of(self, subcommand):
        """The options of a subcommand but for help, each of their names with whether a value follows; none where the program isn't bpfdb."""
        if subcommand not in self.tables:
            rows = map(OPTION.fullmatch, answer([self.program, subcommand, '--help']).stdout.split('\n'))
            self.tables[subcommand] = {name: bool(row[3]) for row in rows if row for name in (row[1], row[2]) if name and row[2] != '--help'}
        return self.tables[subcommand]

    def asks(self, subcommand, name):
        """Whether an option of a subcommand has a value; None where there is no such option. Names of old stand in no help, so that of one which isn't
        shown bpfdb is asked."""
        table = self.options_of(subcommand)
        if name not in table and name not in self.shown:
            said = answer([self.program, subcommand, name]).stderr
            table[name] = True if 'a value is required for' in said else False if 'required arguments were not provided' in said else None
        return table.get(name)

    def has_value(self, name):
        """Whether a value follows a name: that of a program's own option, or of one of bpfdb's."""
        return self.own[name] if name in self.own else any(self.asks(each, name) for each in self.subcommands)

    def operand(self, word):
        """Takes FILE, or a word behind it; what is left over is kept."""
        if self.file is not None and len(self.behind) < self.count:
            self.behind.append(word)
            return
        self.passed.append(word)
        if self.file is None:
            self.file = word
        else:
            self.rest.append(word)

    def option(self, word, words):
        """An option. Its value is in its word, or the first one of those behind it."""
        name, sign, value = word.partition('=')
        if not word.startswith('--') and word[2:] and self.has_value(word[:2]):
            name, sign, value = word[:2], '=', word[2:].removeprefix('=')
        if not sign and words and self.has_value(name):
            return name, words[0], [word, words.pop(0)]
        return name, value if sign else None, [word]

    def is_taken(self, subcommand, option):
        """Whether a subcommand takes an option as it is given."""
        name, value, _ = option
        return name in self.own or self.asks(subcommand, name) == (value is not None)

    def check(self):
        """Lets bpfdb say what is wrong where something isn't taken by each of the subcommands, or shows its help."""
        for name, _, _ in self.options:
            if name in FORMS and name not in self.own:
                raise Refused(f"error: unexpected argument '{name}' found\n\nFor more information, try '--help'.\n", 2)
        for subcommand in self.subcommands:
            if self.rest or not all(self.is_taken(subcommand, option) for option in self.options):
                done = answer([self.program, subcommand, *self.passed])
                raise Refused(done.stderr or done.stdout or f'bpfdb ended with status {done.returncode}\n', max(done.returncode, 0) or 2)

    def taken(self, subcommand):
        """The names of the options that a subcommand takes of these."""
        return {name for name, _, _ in self.options if name not in self.own and self.asks(subcommand, name) is not None}

    def of(self, subcommand, without=()):
        """The words of the options that a subcommand takes, but for these."""
        names = self.taken(subcommand).difference(without)
        return [word for name, _, words in self.options if name in names for word in words]

    def has(self, name):
        return any(name == given for given, _, _ in self.options)

    def value(self, *names):
        """The value of the last of these options; None where there is none."""
        return next((value for name, value, _ in reversed(self.options) if name in names), None)

    def keep_readable(self, kept):
        """Has what comes by a pipe read once: a copy of it is kept, since bpfdb reads it several times."""
        for at, (name, value, _) in enumerate(self.options):
            path = readable(value, kept) if value and name not in self.own else value
            if path != value:
                self.options[at] = name, path, [name, path]

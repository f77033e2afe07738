"""A program as an editor names it: an object of clang, a listing or words, with the options of bpfdb."""

import difflib
import os
import re

from bpfdb.options import CommandLine
from bpfdb.places import source_of
from bpfdb.protocol import Failed
from bpfdb.subjects import Subject

# What a session has that gives no value: the bytes of its journal, and the steps of a forward command.
DEFAULTS = {'--journal': '4194304', '--steps': '1000000'}
# Words of a launch that are the editors' own, besides those that begin with two underscores: of all of them, of VS Code, of dap-mode and of Kate.
OF_EDITORS = {'type', 'request', 'name', 'console', 'presentation', 'preLaunchTask', 'postDebugTask', 'internalConsoleOptions', 'serverReadyAction',
              'suppressMultipleSessionWarning', 'windows', 'osx', 'linux', 'adapter', 'debugServer', 'debugPort', 'host', 'hostName', 'command'}
# A word of a launch that may be the name of an option.
WORD = re.compile(r'[A-Za-z][A-Za-z0-9-]*')


class Wanted:
    """What `launch` asks for: what the adapter itself does, and words for bpfdb."""

    def __init__(self, arguments, over, home):
        self.folder = os.path.normpath(os.path.join(home, os.path.expanduser(arguments.text('cwd', ''))))
        self.is_placed = arguments.has('cwd')
        self.file = self.path(arguments.text('program'))
        self.script = self.path(arguments.text('script', ''))
        # (an editor's way to run without debugging)
        self.is_run = arguments.flag('noDebug')
        self.stops_on_entry = arguments.flag('stopOnEntry', True) and not self.is_run
        self.over = arguments.text('over', over or '')
        if self.over not in ('', 'gdb', 'bpfdb'):
            raise Failed('over: gdb or bpfdb is wanted')
        context = self.path(arguments.text('context', ''))
        self.words = ([f'--mem={context}'] if context else []) + arguments.texts('args')
        self.own = set(arguments.asked)
        others = [name for name in arguments.others() if not name.startswith('__') and name not in OF_EDITORS]
        self.others = {name: option_of(name, arguments) for name in others}
        self.words += [word for words in self.others.values() for word in words]

    def path(self, name):
        """A path, from the folder that `cwd` names on."""
        if not name:
            return ''
        return os.path.normpath(os.path.join(self.folder if self.is_placed else '', os.path.expanduser(name)))

    def line(self, program):
        """The words as a command line of bpfdb's, with what it has where none is given."""
        line = CommandLine(program, ['debug'], self.words, file=self.file)
        for name, words in self.others.items():
            is_none = line.asks('debug', named(name)) is None
            near = difflib.get_close_matches(name[:80], self.own, 1) if is_none else []
            if near or is_none and not words:
                raise Failed(f'launch takes no {name[:80]}' + (f': is {near[0]} meant?' if near else ''))
        self.limit = line.value('--steps')
        line.options += [(name, value, [f'{name}={value}']) for name, value in DEFAULTS.items() if not line.has(name)]
        return line


def named(name):
    """The option that a word of a launch names: of noLinux it is --no-linux."""
    return '--' + re.sub('[A-Z]', lambda found: f'-{found[0].lower()}', name)


def option_of(name, arguments):
    """A word of a launch as the option of that name; of a list once for each part."""
    if not WORD.fullmatch(name):
        raise Failed(f'launch takes no {name[:80]}')
    return [named(name) if value is True else f'{named(name)}={value}' for value in arguments.values_of(name) if value is not False and value != '']


class Loaded:
    """A program that is ready to start: its command line, its places, its maps, whether its session is strict, and the most steps of a way forwards (None
    if there is no limit)."""

    def __init__(self, program, wanted):
        line = wanted.line(program)
        self.limit = int(wanted.limit) if re.fullmatch('[0-9]{1,10}', wanted.limit or '') else None
        self.for_gdb = [*line.of('gdb'), '--', wanted.file]
        self.is_strict = line.has('--strict')
        self.subject = Subject(line)
        self.source = source_of(self.subject, self.subject.told.lines)
        names, self.maps = self.subject.told.names(), self.subject.told.shapes()
        self.map_names = [names.get(at, f'map {at}') for at in range(len(self.maps))]
        self.context_size = self.subject.context_size()

    def has_no_names(self):
        """Whether bpfdb takes the program for raw words."""
        return self.subject.told.slots > 0 and not self.subject.told.lines

"""A program as it is handed to bpfdb: FILE and its options, kept so that they can be read again, and what bpfdb tells of them."""

import contextlib
import json
import os
import re
import subprocess

from bpfdb.options import Refused, answer
from bpfdb.texts import copied, in_memory, path_of, readable, start_of

ELF = b'\x7fELF'
# What `link` says of a map's name.
MAP_LINE = re.compile(r'^map (\d+): (.*)$', re.MULTILINE)
# What `info regs` says at the start: r2 is the number of the context's bytes.
OPENING_LINE = re.compile(rb'r0=\S+ r1=\S+ r2=(0x[0-9a-f]+) ')


class Told:
    """What `bpfdb load` tells of a program: how many slots it has, a row a map, and of a listing or an object a row an instruction. Of what it refuses
    it tells nothing; what is to run that refuses it, too."""

    def __init__(self, said=''):
        rows = [json.loads(line) for line in said.splitlines() if line.startswith('{')]
        self.slots = next((row['slots'] for row in rows if row['kind'] == 'ok'), 0)
        self.maps = [row for row in rows if row['kind'] == 'map']
        self.lines = [row for row in rows if row['kind'] == 'line']

    def shapes(self):
        """The bytes of a value and the number of values of each map."""
        return [(row['value'], row['entries']) for row in self.maps]

    def names(self):
        """The names of maps by their numbers, as far as they have any."""
        return {row['map']: row['name'] for row in self.maps if 'name' in row}


def own_of(rows):
    """Those rows of instructions that are of an object's own code: what bpfdb puts before programs in turn has neither a line nor a function. (Nor has
    code without names and debug information, if that is all that there is.)"""
    return [row for row in rows if row.get('file') or row.get('function', '-') != '-'] or rows


class Subject:
    """A program of a command line."""

    def __init__(self, words):
        words.check()
        self.words, self.kept, self.without = words, [], ()
        words.keep_readable(self.kept)
        self.path = words.file and readable(words.file, self.kept)
        is_file = bool(self.path) and os.path.isfile(self.path)
        self.is_object = is_file and start_of(self.path, 4) == ELF and not words.has('--words')
        if self.is_object:
            self.keep()
        # (where FILE itself is read, whatever is run in its place)
        self.source = self.path
        self.told = self.linked() if self.is_object and words.has('--maps') else Told(self.answer('load', '--json').stdout if is_file else '')

    def line(self, subcommand, *more, without=()):
        """The command line of a subcommand over the program, with more options, and without these of the given ones."""
        words = self.words
        if words.file is None and not words.options:
            return [words.program]
        return [words.program, subcommand, *words.of(subcommand, {*self.without, *without}), *more, *(['--', self.path] if words.file is not None else [])]

    def answer(self, subcommand, *more, **to):
        """What a subcommand answers about the program."""
        return answer(self.line(subcommand, *more), self.kept, **to)

    def context_size(self):
        """How many bytes the context has: those of its file, or of a packet of a capture, as bpfdb tells it."""
        path = self.words.value('-m', '--mem')
        if path and self.words.has('--packet'):
            line, kept = self.line('debug', without=('--regs',)), [file.fileno() for file in self.kept]
            said = OPENING_LINE.match(subprocess.run(line, input=b'info regs\n', capture_output=True, pass_fds=kept).stdout)
            return int(said[1], 16) if said else 0
        try:
            return os.path.getsize(path) if path else 0
        except OSError:
            return 0

    def keep(self):
        """Keeps an object as it is now: it may be compiled anew while a session asks about it."""
        with contextlib.suppress(OSError):
            self.kept.append(copied(self.path))
            self.path = path_of(self.kept[-1])

    def linked(self):
        """Takes the words of an object in its place, and what is told of both: bpfdb takes --maps of words alone, and an object that was compiled
        without -g needs them, since it doesn't say how large its maps are."""
        lines, content = self.answer('lines', '--json').stdout, in_memory()
        done = self.answer('link', output=content)
        if done.returncode:
            raise Refused(done.stderr or f'bpfdb ended with status {done.returncode}\n', 2)
        self.kept.append(content)
        self.path, self.without = path_of(content), {'--object', *self.words.taken('link')}
        told = Told(self.answer('load', '--json').stdout + lines)
        names = {int(number): name for number, name in MAP_LINE.findall(done.stderr)}
        told.maps = [{**row, **({'name': names[row['map']]} if row['map'] in names else {})} for row in told.maps]
        return told

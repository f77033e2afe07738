"""How bpfdb is spoken to: its lines and its replies."""

import contextlib
import json
import os
import re
import subprocess

from bpfdb.texts import in_memory, path_of

# The bytes that a journal may have. (docs/JOURNAL.md)
LARGEST_JOURNAL = 16777216
# mov r0, 42; exit: the program where none is named.
BUILT_IN = bytes.fromhex('b70000002a000000' '9500000000000000')
# The mnemonics of instructions that take two slots.
WIDE = ('lddw', 'ldmap', 'ldmapval')
MOVE = re.compile(r'(\d+) (forward|back|redone); (\w+); (.*)')
HISTORY = re.compile(r'(\d+) moves, \d+ commands, \d+ of (\d+) bytes')
PLACE = re.compile(r'(?:at|exited at) (\d+)(?:: (.*))?$|fault .*\bat (\d+)$')


class Ended(Exception):
    """bpfdb has ended, or what it says can't be written."""


class Hint(Exception):
    """What a line needs and doesn't have, or what bpfdb-shell has in place of it."""


class Program:
    """bpfdb, to which lines are sent and whose replies are read, each a line of JSON."""

    def __init__(self, subject):
        # how many moves lie before the state and the most that did
        self.subject, self.moves, self.most = subject, 0, 0
        # (a file, since nothing reads it before the end; and a group of its own: an interrupt doesn't end it)
        self.errors = in_memory()
        words, kept = ['debug', '--questions', '--json'], subject.kept
        if subject.path is None:
            kept = [*kept, in_memory()]
            kept[-1].write(BUILT_IN)
            kept[-1].flush()
            line = [subject.words.program, *words, path_of(kept[-1])]
        else:
            line = subject.line(*words)
        self.child = subprocess.Popen(line, stdin=subprocess.PIPE, stdout=subprocess.PIPE, stderr=self.errors, text=True,
                                      pass_fds=[file.fileno() for file in kept], encoding='utf-8', errors='surrogateescape',
                                      preexec_fn=os.setpgrp)

    def ask(self, line):
        """The lines of the reply."""
        try:
            self.child.stdin.write(line + '\n')
            self.child.stdin.flush()
        except OSError:
            raise Ended from None
        # (a line without words has no reply)
        reply = [text for part in line.split('\n') if part.strip(' \t\r') for text in self.reply()]
        self.count(line, reply)
        return reply

    def reply(self):
        """The lines of the next reply."""
        text = self.child.stdout.readline()
        if not text.endswith('\n'):
            raise Ended
        return json.loads(text)['text'].split('\n')[:-1]

    def count(self, line, reply):
        """Counts the moves of a line by its reply."""
        words, move = line.split(), MOVE.match(reply[0]) if reply else None
        # (behind an edit of a strict session there is a line more)
        if words[:1] == ['set'] and reply[:1] == ['ok']:
            self.moves += 1
        elif move:
            self.moves += -int(move[1]) if move[2] == 'back' else int(move[1])
        self.most = max(self.most, self.moves)

    def dropped(self):
        """Says how many moves the journal dropped, and how many the largest would keep of such moves; empty if it dropped none."""
        kept, size = (int(text) for text in HISTORY.match(self.ask('info history')[0]).groups())
        count = self.moves - kept
        if count <= 0:
            return ''
        said = f'the journal dropped {count:,} moves'
        if size >= LARGEST_JOURNAL:
            return f'{said}, and has the most bytes that it may have'
        # (what it held before it was gone back over filled it but for a move)
        return f'{said}: --journal {LARGEST_JOURNAL} would keep some {rounded(LARGEST_JOURNAL * (self.most - count) // size):,}'

    def origin(self, what):
        """What `bpfdb origin` says of the session of these lines, and the words for it."""
        if self.moves == 0:
            raise Hint('nothing has run yet: each value is that of the opening')
        return self.asked('origin', what)

    def asked(self, of, what):
        """What the session answers, and the words for it."""
        return [of, *what], self.ask(' '.join([of, *what]))

    def end(self):
        """The exit status and what went to standard error, after the end of its input. (It has no prompt there: what comes is a line, or
        the few of a wrong command line.)"""
        with contextlib.suppress(OSError):
            self.child.stdin.close()
        self.child.stdout.close()
        status = self.child.wait()
        self.errors.seek(0)
        return status, self.errors.read().decode(errors='surrogateescape')

    def kill(self):
        """Ends it, whatever it does."""
        self.child.kill()
        for stream in (self.child.stdin, self.child.stdout, self.errors):
            with contextlib.suppress(OSError):
                stream.close()
        return self.child.wait()


def rounded(count):
    """A count to two digits."""
    return int(float(f'{count:.1e}'))

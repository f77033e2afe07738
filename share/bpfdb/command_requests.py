"""What an editor asks by expressions and by commands of bpfdb, and bpfdb's own requests."""

import os
import re

from bpfdb.habits import OWN_HELP, commands
from bpfdb.machine import ADDRESS, SLOT
from bpfdb.places import NAME, slots_of_line
from bpfdb.protocol import Failed
from bpfdb.running import Stop
from bpfdb.session import MOVE, Hint
from bpfdb.texts import number


# The commands of bpfdb, for completion behind a colon.
COMMANDS = ('stepi', 'nexti', 'continue', 'finish', 'undo', 'redo', 'origin', 'whynot', 'reverse-stepi', 'reverse-nexti', 'reverse-continue', 'reverse-finish',
            'set reg', 'set mem', 'set cell', 'set pc', 'break', 'delete', 'watch', 'unwatch', 'info regs', 'info frames', 'info breaks',
            'info history', 'info trace', 'x', 'disas', 'last-write', 'help')
# Those that only show something, and may be asked for again and again.
VIEWS = ('x', 'info', 'last-write', 'disas')
# What is asked about that isn't there.
NO_PLACE = 'there is no instruction at %s: a slot, a function, a label, FILE:LINE or =VALUE'
# A move in an answer of `origin` or `whynot`, with its slot.
ANSWER_SLOT = re.compile(r'(?:made: )?-\d+ (?:.*?; )?(\d+): ')


class CommandRequests:
    """Those of an adapter."""

    def do_evaluate(self, arguments):
        text, context = arguments.text('expression').strip(), arguments.text('context', 'repl')
        if text.startswith(':'):
            if context in ('hover', 'watch') and (text[1:].split() or [''])[0] not in VIEWS:
                raise Failed('only commands that show something are asked for again and again')
            return {'result': self.command(text[1:].strip()), 'variablesReference': 0}
        found = self.evaluated(text, self.level(arguments), context == 'repl')
        view = found.pop('view', None)
        return {'result': found.pop('value'), 'variablesReference': self.hold(view) if view else 0, **found}

    def evaluated(self, text, number, may_write):
        """The value of an expression, which only in the console may write: then that is an edit."""
        before = self.machine.history.now
        if may_write:
            self.machine.history.begin()
        found = self.names.evaluate(text, number, may_write)
        if self.machine.history.now != before:
            found.pop('view', None)
            self.moved_by_hand(None)
        return found

    def command(self, line):
        """Obeys a line of bpfdb's script. What it replies."""
        words = line.split()
        if not words or '\n' in line:
            raise Failed('a command of bpfdb is wanted behind the colon')
        if words[0] == 'quit':
            raise Failed('the editor ends the session')
        if words[0] in ('undo', 'redo', 'origin', 'whynot'):
            return getattr(self, words[0])(words[1:])
        if words == ['help']:
            return '\n'.join([*(f'{row[1]}: {row[3]}' for row in commands() if row[0] != 'end'), *(OWN_HELP[name][1] for name in ('origin', 'whynot'))])
        self.machine.history.begin()
        reply = self.machine.ask(line)
        if reply and reply[0].startswith('refused '):
            raise Failed(reply[0])
        move = MOVE.match(reply[0]) if reply else None
        if move or words[0] == 'set':
            self.moved_by_hand(move)
        return '\n'.join(reply)

    def moved_by_hand(self, move):
        """A command has moved: the editor is told behind its answer."""
        self.changed()
        self.views = [None]
        end = move and move[3] == 'end'
        reason = {'break': 'breakpoint', 'watch': 'data breakpoint', 'strict': 'strict'}.get(move[3], 'step') if move else 'step'
        self.later = [lambda: self.stopped(self.runner.end() if end else Stop(reason))]

    def count_of(self, words):
        count = number(words[0]) if words else 1
        if count is None or count < 1 or len(words) > 1:
            raise Failed('refused Q2: wrong argument')
        return count

    def undo(self, words):
        """Takes back the last commands of the editor, each as a whole, edits too."""
        commands = self.machine.history.undo(self.count_of(words))
        if not commands:
            raise Failed('refused Q5: fewer kept commands')
        reply = self.machine.demand(f'undo {commands}')[0]
        self.moved_by_hand(MOVE.match(reply))
        return reply

    def redo(self, words):
        """Makes the next commands again that were taken back."""
        moves = self.machine.history.redo(self.count_of(words))
        if not moves:
            raise Failed('refused Q13: nothing to redo')
        reply = self.machine.demand(f'redo {moves}')[0]
        self.moved_by_hand(MOVE.match(reply))
        return reply

    def origin(self, words):
        """Where a value came from, a line a move, with the line of the source behind it."""
        return self.linked(self.names.origin(words))

    def whynot(self, words):
        """Why the program did not come to a place, and what decided it."""
        return self.linked(self.why(' '.join(words)))

    def why(self, text):
        """The lines of that answer. A name that is no function and no label may be an enumerator's, or a verdict's."""
        goals = self.goals(text)
        try:
            return self.names.whynot(goals)
        except Hint as hint:
            if goals == f'={text}' and str(hint).startswith('refused V6:'):
                raise Failed(NO_PLACE % text) from None
            raise

    def goals(self, text):
        """The slots of a place, in bpfdb's words: of FILE:LINE all at which an instruction starts, of a function or a label the first. `=VALUE` is bpfdb's own."""
        source = self.machine.loaded.source
        line = re.fullmatch(r'(.+):([0-9]{1,9})', text)
        if line:
            paths = [path for path in self.paths() if path == line[1] or path.endswith('/' + line[1])]
            slots = slots_of_line(line[1], int(line[2]), {slot: at for slot, (_, at, _) in source.lines.items()
                                                          if source.paths[slot] in paths[:1] and slot in self.machine.code})
        else:
            slots = [slot for slot, function in self.machine.functions.items() if function == text]
            slots = slots or ([source.labels[text]] if text in source.labels else [])
        if not slots and NAME.fullmatch(text):
            return f'={text}'
        if not slots and not re.fullmatch(r'[0-9,]+|=.+', text):
            raise Failed(NO_PLACE % text)
        return ','.join(map(str, slots)) or text

    def linked(self, lines):
        return '\n'.join(self.with_link(line) for line in lines)

    def with_link(self, line):
        """A line of such an answer, that of a move with its place in the source, which stands there once."""
        found = ANSWER_SLOT.match(line)
        slot = int(found[1]) if found else -1
        source = self.machine.loaded.source
        if slot not in source.lines:
            return line
        path, at = source.paths[slot], source.lines[slot][1]
        return f'{line.removesuffix(f" ({os.path.basename(path)}:{at})")} ({path}:{at})'

    def do_bpfdb_origin(self, arguments):
        return self.with_places(self.names.origin(arguments.text('what', '').split()))

    def do_bpfdb_whynot(self, arguments):
        return self.with_places(self.why(arguments.text('what').strip()))

    def with_places(self, lines):
        """The lines of an answer, those of moves with their places."""
        moves = []
        for line in lines:
            found = ANSWER_SLOT.match(line)
            source, at = self.source_at(int(found[1])) if found else (None, 0)
            moves.append({'text': line, **({'source': source, 'line': at - 1 + self.lines_from_1,
                                            'instructionReference': f'{SLOT * int(found[1]):#x}'} if source else {})})
        return {'lines': moves}

    def do_bpfdb_undo(self, arguments):
        return {'reply': self.undo([str(arguments.number('count', 1))])}

    def do_bpfdb_redo(self, arguments):
        return {'reply': self.redo([str(arguments.number('count', 1))])}

    def do_exceptionInfo(self, arguments):
        if not self.machine.is_faulty():
            raise Failed('the program stands at no fault')
        place = self.machine.place()
        address = ADDRESS.match(place)
        lines = [place] + ([self.machine.where(int(address[1], 16))] if address else [])
        if address:
            try:
                first = next((line for line in self.names.origin([]) if line.startswith(('-', 'left '))), '')
                lines += [self.with_link(first)] if first else []
            except (Hint, Failed) as fault:
                lines.append(str(fault))
        return {'exceptionId': ' '.join(place.split()[:2]), 'description': '\n'.join(lines), 'breakMode': 'always', 'details': {'message': place}}

    def do_completions(self, arguments):
        text, column = arguments.text('text'), arguments.number('column') - self.columns_from_1
        before = text[:max(column, 0)]
        if before.lstrip().startswith(':'):
            begun = before.lstrip()[1:]
            known = [name for name in COMMANDS if name.startswith(begun)]
            begin = len(before) - len(begun)
        else:
            begun = re.search(r'\$?\w*$', before)[0]
            known = sorted({name for name in self.names.known() if name.startswith(begun) and begun})
            begin = len(before) - len(begun)
        return {'targets': [{'label': name, 'start': begin, 'length': len(begun)} for name in known[:200]]}

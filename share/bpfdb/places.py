"""What a program was written as: the lines and names of its slots, by what bpfdb tells of it."""

import bisect
import os
import re

from bpfdb.session import Hint
from bpfdb.subjects import own_of
from bpfdb.texts import line_in, text_lines

NAME = re.compile(r'[A-Za-z_][A-Za-z_0-9]*')
# An instruction from which the way leads elsewhere alone, or into a function.
LEADS = re.compile(r'(?:ja|ja32|callf) L(\d+)')


def source_of(subject, lines):
    """What the program of a command line was written as, by rows of its instructions."""
    if not lines:
        return Source()
    return Listing(subject, lines) if 'labels' in lines[0] else Object(subject, lines)


class Source:
    """What a program was written as: for slots their file, line and text, and the path of the file, the slots of labels or functions, the functions
    by the slots where they begin, the numbers of maps, and which slots are an object's own."""

    # whether each line is one instruction
    of_instructions = False

    def __init__(self):
        self.lines, self.labels, self.functions, self.paths, self.maps, self.own = {}, {}, {}, {}, {}, ()

    def name(self, slot):
        """A slot by the nearest function or label at or before it: `loop+1`; empty if there is none."""
        places = self.functions.items() or ((at, label) for label, at in self.labels.items())
        at, label = max((place for place in places if place[0] <= slot), default=(0, ''))
        return f'{label}+{slot - at}' if label and slot > at else label

    def function_starts(self, code):
        """The functions by the slots where they begin, of a program with these texts of instructions: those of an object; else the entry, and
        what is called."""
        if self.functions:
            return self.functions
        names = {slot: name for name, slot in reversed(self.labels.items())}
        called = {int(text[7:]) for text in code.values() if text.startswith('callf L')}
        return {slot: names.get(slot, f'f{slot}' if slot else 'entry') for slot in {0} | called}

    def line_of(self, slot):
        """A slot's line, with its place."""
        file, at, text = self.lines[slot]
        label = self.name(slot)
        return f'{file}:{at}' + (f' <{label}>' if label else '') + (f': {text}' if text else '')

    def has_setup(self):
        """Whether something stands before an object's own code."""
        return bool(self.own) and 0 not in self.own

    def entry(self, code):
        """Where a program with these texts of instructions comes to an object's own code. Before it may stand what gives it a packet, and a jump to
        it or to a setup of data, whose end jumps there. (docs/COMMANDS.md, E)"""
        slots, slot, passed = sorted(code), 0, set()
        while slot not in self.own:
            if slot not in code or slot in passed:
                return None
            passed.add(slot)
            leads = LEADS.fullmatch(code[slot])
            slot = int(leads[1]) if leads else next((each for each in slots[bisect.bisect(slots, slot):]), None)
        return slot

    def slot_of(self, file, line):
        """The first slot of a line, or of the next one that has any; None if there is none."""
        found = [(at, slot) for slot, (name, at, _) in self.lines.items() if at >= line and name == os.path.basename(file)]
        return min(found)[1] if found else None

    def slots_of(self, file, line):
        """All slots of a line, which has some."""
        name = os.path.basename(file)
        return slots_of_line(file, line, {slot: at for slot, (own, at, _) in self.lines.items() if own == name})


def slots_of_line(file, line, lines):
    """All slots of a line of a file, by the lines that its slots have. A line without code of its own is refused, and the nearest lines that have
    some are named, before and behind it: about another line the answer would be another one."""
    found = sorted(slot for slot, at in lines.items() if at == line)
    if not found:
        near = [max((at for at in lines.values() if at < line), default=None), min((at for at in lines.values() if at > line), default=None)]
        told = ', '.join(f'{file}:{at}' for at in near if at is not None)
        raise Hint(f'there is no instruction at {file}:{line}' + (f': the nearest are at {told}' if told else ''))
    return found


class Listing(Source):
    """A listing."""

    of_instructions = True

    def __init__(self, subject, rows):
        super().__init__()
        path = subject.words.file
        name, whole, texts = os.path.basename(path), os.path.abspath(path), text_lines(subject.path)
        for row in rows:
            self.labels.update(dict.fromkeys(row['labels'], row['slot']))
            code = line_in(texts, row['line']).split(';')[0]
            self.lines[row['slot']] = (name, row['line'], re.sub(rf'^{NAME.pattern}:', '', code).strip())
            self.paths[row['slot']] = whole


class Object(Source):
    """An object with its functions, and the lines of C if it has them. What stands before and behind its own code, and is no function of it, is
    called `_start` and `_setup`."""

    def __init__(self, subject, rows):
        super().__init__()
        places, function, self.own = {}, None, {row['slot'] for row in own_of(rows)}
        for row in rows:
            if row.get('function', '-') not in ('-', function):
                function = row['function']
                self.functions[row['slot']] = function
            if row.get('file'):
                places.setdefault(row['file'], []).append((row['slot'], row['line']))
        if min(self.own) > 0:
            self.functions[0] = '_start'
        if rows[-1]['slot'] + 1 < subject.told.slots:
            self.functions[rows[-1]['slot'] + 1] = '_setup'
        self.functions = dict(sorted(self.functions.items()))
        self.labels = {name: slot for slot, name in reversed(self.functions.items())}
        self.maps = {name: number for number, name in subject.told.names().items()}
        for file, slots in places.items():
            self.add_lines(file, slots, os.path.dirname(os.path.abspath(subject.words.file)))

    def add_lines(self, file, slots, folder):
        """The lines of a file, which stands where the object says, or else in the object's folder."""
        name = os.path.basename(file)
        near = os.path.join(folder, name)
        texts = text_lines(file) or text_lines(near)
        self.lines.update({slot: (name, line, line_in(texts, line)) for slot, line in slots})
        self.paths.update(dict.fromkeys((slot for slot, _ in slots), near if not os.path.isfile(file) and os.path.isfile(near) else file))

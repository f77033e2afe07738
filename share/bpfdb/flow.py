"""Where a line of a program can be left, and where it can be entered, by its instructions: BPF has no jumps but those that are written out."""

import re

TARGET = re.compile(r'\bL(\d+)$')
ALWAYS = ('ja', 'ja32')


class Line:
    """The instructions of a line within a function, with those between lines."""

    def __init__(self, machine, start, slots):
        self.machine, self.start, self.slots = machine, start, set(slots)

    def following(self, slot):
        """The slots that may come after one, in the same function; behind a call it is where that returns."""
        text = self.machine.code[slot]
        if text == 'exit':
            return []
        target = None if text.startswith('callf') else TARGET.search(text)
        after = [] if text.split()[0] in ALWAYS else [self.machine.after(slot)]
        return after + ([int(target[1])] if target else [])

    def exits(self, into):
        """Where it is left: the first instructions of other lines, and in it those that return, or call if `into`."""
        own = {slot for slot in self.slots if self.machine.code[slot] == 'exit' or into and self.machine.code[slot].startswith('callf')}
        return own | {other for slot in self.slots for other in self.following(slot) if other not in self.slots}

    def entries(self):
        """The instructions from which it is entered; none if one of them is a call that returns there, since that is left elsewhere."""
        found = set()
        for slot in self.machine.slots_of(self.start):
            if slot not in self.slots and self.slots & set(self.following(slot)):
                if self.machine.code[slot].startswith('callf'):
                    return set()
                found.add(slot)
        calls = {slot for slot, text in self.machine.code.items() if text == f'callf L{self.start}'} if self.start in self.slots else set()
        return found | calls

"""What the words of a line mean: numbers, registers, labels and sums of them, places of the program, and addresses in C's words."""

import re

from bpfdb.expressions import REGISTER
from bpfdb.machine import MAP_STRIDE, MAPS
from bpfdb.places import NAME
from bpfdb.session import Hint
from bpfdb.texts import MASK, number

WIDTHS = {'char': 1, 'u8': 1, 'int8_t': 1, 'uint8_t': 1, 'short': 2, 'u16': 2, 'uint16_t': 2, 'int': 4, 'unsigned': 4, 'u32': 4,
          'uint32_t': 4, 'long': 8, 'u64': 8, 'uint64_t': 8, 'b': 1, 'h': 2, 'w': 4, 'g': 8}


class Meanings:
    """What words mean where the session stands: part of the Shell."""

    def value(self, text):
        """The value of a number, a register, a label, a map (the address of its values), or a sum of these; None if it is none of them."""
        text = text.strip()
        while text.startswith('(') and text.endswith(')'):
            text = text[1:-1].strip()
        terms = re.findall(r'([+-]?)\s*(\$?\w+)\s*', text)
        if not terms or ''.join(sign + word for sign, word in terms) != re.sub(r'\s', '', text):
            return None
        total = 0
        for sign, word in terms:
            term = self.term(word)
            if term is None:
                return None
            total += -term if sign == '-' else term
        return total & MASK

    def term(self, word):
        """The value of one word of a sum."""
        found = REGISTER.fullmatch(word)
        if found:
            return self.registers()[{'sp': 'r10', 'fp': 'r10'}.get(found[1], found[1])]
        if word in self.source.labels:
            return self.source.labels[word]
        if word in self.source.maps:
            return MAPS + MAP_STRIDE * self.source.maps[word]
        return number(word)

    def word(self, text):
        """A word as bpfdb takes it: as it is if it is a number or can't be understood, else its value."""
        if number(text) is not None:
            return text
        value = self.value(text)
        return text if value is None else str(value) if value < 65536 else hex(value)

    def slot(self, text):
        """A place of the program as gdb names it: `*2`, `2`, LABEL, LABEL+1, FILE:LINE."""
        text = text.strip().lstrip('*')
        line = re.fullmatch(r'([^:]+):(\d+)', text)
        if line:
            slot = self.source.slot_of(line[1], int(line[2]))
            if slot is None:
                raise Hint(f'there is no instruction at {text}')
            return str(slot)
        if NAME.fullmatch(text) and self.value(text) is None:
            raise Hint(f'there is no label {text}' + ('' if self.source.labels else ': labels are those of a listing or an object'))
        return self.word(text)

    def slots(self, text):
        """The slots of a place: of FILE:LINE all at which an instruction starts (the second one of a wide load has a line, too)."""
        line = re.fullmatch(r'([^:]+):(\d+)', text.strip())
        if not line:
            return [self.slot(text)]
        slots = [str(slot) for slot in self.source.slots_of(line[1], int(line[2]))]
        return [slot for slot in slots if not self.program.ask(f'disas {slot} 1')[0].startswith('refused ')]

    def pointed(self, text):
        """An address in C's words, `*(int *)A`, `{int}A`, `(char *)A` or A, and the width of what is there (None if not said)."""
        found = re.fullmatch(r'(?:-l |-location )?\s*(?:\*?\s*\(\s*([\w ]+?)\s*\*\s*\)|\{([\w ]+)\})\s*(.+)', text)
        if not found:
            return self.word(text.strip().lstrip('*')), None
        kinds = [WIDTHS[word] for word in (found[1] or found[2]).split() if word in WIDTHS]
        if not kinds:
            raise Hint(f'there is no type {found[1] or found[2]}: char, short, int and long are 1, 2, 4 and 8 bytes')
        return self.word(found[3]), max(kinds) if 8 in kinds else kinds[-1]

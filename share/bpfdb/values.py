"""Values at the prompt: they are shown in gdb's formats, displayed at each stop, set, and asked where they came from."""

import re

from bpfdb.habits import meaning, short_names
from bpfdb.meanings import REGISTER, WIDTHS
from bpfdb.places import NAME
from bpfdb.session import Hint
from bpfdb.texts import MASK, number, warn

# The bytes that bpfdb shows at once.
MOST_BYTES = 256


class Values:
    """The commands about values: part of the Shell."""

    def show_value(self, name, rest, form):
        if not rest:
            return self.send('info regs')
        assigned = re.fullmatch(r'([^=]+)=([^=]+)', rest)
        if assigned:
            return self.set('set', rest, form)
        if re.match(r'\*|\{', rest):
            address, width = self.pointed(rest)
            return self.examine('x', address, f'1{form or "x"}{ {1: "b", 2: "h", 4: "w", 8: "g"}[width or 8]}')
        for text in rest.split() if re.fullmatch(r'(\$?(r\d+|pc|sp|fp)\s*)+', rest) else [rest]:
            value = self.value(text)
            if value is None:
                raise Hint(f"no value: {text} (a register as $r0, a number, a label, or a sum of them)")
            if REGISTER.search(text):
                self.announce('info regs')
            self.say(f'{text} = {formatted(value, form)}')

    def examine(self, name, rest, form):
        parts = rest.rsplit(' ', 1)
        if not form and len(parts) == 2 and number(parts[1]) is not None and not parts[0].endswith(('+', '-')):
            return self.send(f'x {self.word(parts[0])} {parts[1]}')
        count, kinds = re.fullmatch(r'(\d*)(\w*)', form).groups()
        if 'i' in kinds:
            return self.disassemble('x', f'{rest or "$pc"}, {count or 1}', '')
        if not rest:
            return self.send('x')
        address, width = self.pointed(rest)
        unit = next((letter for letter in kinds if letter in 'bhwg'), None)
        width = WIDTHS[unit] if unit else 1 if 'c' in kinds else width or (4 if form else 8)
        if not form or number(address) is None:
            return self.send(f'x {address} {int(count or 1) * width}')
        if 's' in kinds:
            return self.texts(number(address), int(count or 1))
        size = int(count or 1) * width
        for at in range(0, size, MOST_BYTES):
            line, reply = self.asked(f'x {(number(address) + at) & MASK:#x} {min(MOST_BYTES, size - at)}')
            if self.is_refused(line, reply) or self.interrupted:
                return
            for text in dump(reply[0], width, kinds):
                self.say(text)

    def asked(self, line):
        """A line that is sent, and the reply, which isn't shown."""
        return line, self.send(line, quiet=True)

    def texts(self, address, count):
        """So many texts, one behind another, each up to its zero byte: as much as is there of its first 256 bytes."""
        for _ in range(count):
            there = self.program.ask(f'x {address:#x} {self.present(address)}')[0]
            content = b'' if there.startswith('refused ') else bytes.fromhex(there.partition(': ')[2])
            text, zero, _ = content.partition(b'\0')
            line, reply = self.asked(f'x {address:#x} {len(text + zero) or 1}')
            if self.is_refused(line, reply) or self.interrupted:
                return
            shown = ''.join(chr(byte) if 32 <= byte < 127 else f'{chr(92)}x{byte:02x}' for byte in text)
            self.say(f'{address:#x}: "{shown}"' + ('' if zero else '...'))
            address = (address + len(text + zero)) & MASK

    def present(self, address):
        """How many of 256 bytes are there from an address on, and 1 if none is."""
        few, many = 1, MOST_BYTES
        while few < many:
            middle = (few + many + 1) // 2
            is_there = not self.program.ask(f'x {address:#x} {middle}')[0].startswith('refused ')
            few, many = (middle, many) if is_there else (few, middle - 1)
        return few

    def display(self, name, rest, form):
        if rest:
            self.displays.append((rest, form))
        self.show_displays()

    def show_displays(self):
        """The values that are shown after each stop, without the lines that ask for them."""
        self.announces = False
        for rest, form in self.displays:
            try:
                (self.examine if set(form) & set('isbhwg') else self.show_value)('', rest, form)
            except Hint as hint:
                warn(f'bpfdb-shell: {hint}')
        self.announces = True

    def list_displays(self):
        for at, (rest, form) in enumerate(self.displays, 1):
            self.say(f'{at}: {rest}' + (f' /{form}' if form else ''))
        if not self.displays:
            self.say('none')

    def undisplay(self, name, rest, form):
        at = number(rest)
        if rest and (at is None or not 1 <= at <= len(self.displays)):
            raise Hint(f'there is no display {rest}')
        del self.displays[at - 1 if rest else 0:at if rest else None]

    def set(self, name, rest, form):
        rest = re.sub(r'^(var|variable)\s+', '', rest)
        assigned = re.fullmatch(r'([^=]+?)\s*=\s*([^=]+)', rest)
        if not assigned:
            return self.set_own(rest)
        target, value = assigned[1], self.value(assigned[2])
        if value is None:
            raise Hint(f'no value: {assigned[2]}')
        register = REGISTER.fullmatch(target)
        if register and register[1] == 'pc':
            return self.send(f'set pc {value}')
        if register:
            return self.send(f'set reg {register[1]} {self.word(assigned[2])}')
        if not re.match(r'\*|\{', target):
            raise Hint(f'nothing to set: {target} (a register as $r0, or bytes as {{int}}ADDRESS)')
        address, width = self.pointed(target)
        return self.send(f'set mem {address} {(value & ((1 << 8 * (width or 8)) - 1)).to_bytes(width or 8, "little").hex()}')

    def set_own(self, rest):
        """bpfdb's own `set`, in whose words registers and labels have their values."""
        part, *more = rest.split(' ')
        if part == 'reg' and len(more) == 2:
            return self.send(f'set reg {more[0].lstrip("$")} {self.word(more[1])}')
        if part == 'mem' and len(more) == 2:
            return self.send(f'set mem {self.word(more[0])} {more[1]}')
        if part == 'cell' and more and more[0] in self.source.maps:
            return self.send(f"set cell {' '.join([str(self.source.maps[more[0]]), *more[1:]])}")
        if part == 'pc' and len(more) == 1:
            return self.send(f'set pc {self.slot(more[0])}')
        if part in ('reg', 'mem', 'cell', 'pc'):
            return self.send(f'set {rest}')
        raise Hint(f"nothing to set: {rest} (a register as $r0 = 7, or bytes as {{int}}ADDRESS = 7)" if rest else
                   'set $r0 = 7, $pc = PLACE, {int}ADDRESS = 7, or set reg, set mem, set cell, set pc')

    def at_address(self, name, rest, form):
        first, *more = rest.split(' ') if rest else ['']
        line = ' '.join([short_names().get(name, name), self.pointed(first)[0], *more])
        self.send(line.strip())

    def origin(self, name, rest, form):
        register = REGISTER.fullmatch(rest)
        address, colon, count = rest.partition(':')
        what = [register[1]] if register else [f'{self.pointed(address)[0]}{colon}{count}'] if rest else []
        self.tell_answer('origin', *self.program.origin(what))

    def whynot(self, name, rest, form):
        if not rest:
            raise Hint('whynot PLACE: a slot, a label, LABEL+1, FILE:LINE or =VALUE')
        # (a name that isn't known here may be a verdict's, or an enumerator's)
        what = rest if NAME.fullmatch(rest) and self.value(rest) is None else ','.join(self.slots(rest))
        self.tell_answer('whynot', *self.program.asked('whynot', [what]))

    def tell_answer(self, name, asked, reply):
        """The lines of an answer, those of moves with their lines of source."""
        self.announce(' '.join(word for word in asked if word != '--'))
        for text in reply:
            slot = re.match(r'(?:made: )?-\d+ (?:.*?; )?(\d+): ', text)
            file, at, _ = self.source.lines.get(int(slot[1]) if slot else -1, ('', 0, ''))
            place = f' ({file}:{at})'
            self.say(text + (place if file and not text.endswith(place) else ''), '31' if text.startswith('refused ') else '')
        if reply and reply[0].startswith('refused ') and self.terminal:
            warn(f"bpfdb-shell: {meaning(name, reply[0])}")
        if any(text.endswith(('; before the kept history', ' before what is kept')) for text in reply):
            self.tell_dropped()


def formatted(value, form):
    """A value in one of gdb's formats; without one in both bases."""
    signed = value - (1 << 64) if value >> 63 else value
    formats = {'x': hex(value), 'd': str(signed), 'u': str(value), 't': f'{value:b}'}
    return next((formats[letter] for letter in form if letter in formats), f'{value:#x} ({signed})')


def dump(reply, width, kinds):
    """The bytes of a reply to `x` in lines of 8 or 16 bytes, as gdb shows numbers of this width."""
    address, _, digits = reply.partition(': ')
    content = bytes.fromhex(digits)
    lines = []
    each = 8 if width == 1 else 16
    for at in range(0, len(content), each):
        numbers = []
        for place in range(at, min(at + each, len(content)), width):
            value = int.from_bytes(content[place:place + width], 'little', signed='d' in kinds)
            shown = str(value) if 'd' in kinds or 'u' in kinds else f'{value:#0{2 * width + 2}x}'
            numbers.append(shown + (f" '{chr(value)}'" if 'c' in kinds and 32 <= value < 127 else ''))
        lines.append(f'{int(address, 16) + at:#x}: {" ".join(numbers)}')
    return lines

"""Messages of the debug adapter protocol: how they are read and written, and what the arguments of one are."""

import json
import os
import re
import select

from bpfdb.texts import plain, plain_lines

# What a header, and a message, may have at most.
LONGEST_HEADER, LONGEST_MESSAGE = 4096, 1 << 24
# How many bytes are asked for at once.
PART = 65536
# What no text of a request has: a byte zero, and half a character, for which no bytes stand.
BROKEN = re.compile('[\0\ud800-\udfff]')
# Of what is told: what is no text to be read, and what may have several lines.
EXACT, WITH_LINES = ('path', 'data', 'command'), ('output', 'result', 'content', 'description', 'message', 'format', 'reply', 'text')


class Broken(Exception):
    """What comes in can't be told apart into messages any more."""


class Unreadable(Exception):
    """A message came that is none of the protocol; the next one can be read."""


class Failed(Exception):
    """A request that can't be done, with what the client shows of it."""


class Channel:
    """Two streams, by their file descriptors, on which messages come and go."""

    def __init__(self, source, target):
        self.source, self.target, self.held, self.sent, self.is_open = source, target, bytearray(), 0, True

    def send(self, kind, **fields):
        """Writes a message. A client that reads no more ends the channel."""
        self.sent += 1
        text = json.dumps({'seq': self.sent, 'type': kind, **shown(fields)}, ensure_ascii=True).encode()
        content = memoryview(b'Content-Length: %d\r\n\r\n%s' % (len(text), text))
        try:
            while content:
                content = content[os.write(self.target, content):]
        except OSError:
            self.is_open = False

    def waits(self):
        """Whether something has come that isn't read yet, or the other side has closed."""
        return bool(self.held) or bool(select.select([self.source], [], [], 0)[0])

    def read(self):
        """The next message; None at the end. Waits for it."""
        length = self.header()
        if length is None:
            return None
        while len(self.held) < length:
            if not self.more():
                raise Broken('the input ends within a message')
        text = bytes(self.held[:length])
        del self.held[:length]
        try:
            message = json.loads(text)
        except (ValueError, RecursionError):
            raise Unreadable('a message is no JSON') from None
        if not isinstance(message, dict) or not isinstance(message.get('command'), str) or not is_whole(message.get('seq')):
            raise Unreadable('a message is no request')
        return message

    def header(self):
        """The length of the next message, None at the end of what comes in."""
        while b'\r\n\r\n' not in self.held[:LONGEST_HEADER]:
            if len(self.held) >= LONGEST_HEADER:
                raise Broken('a header is too long')
            if not self.more():
                if self.held:
                    raise Broken('the input ends within a header')
                return None
        header, _, _ = bytes(self.held[:LONGEST_HEADER]).partition(b'\r\n\r\n')
        del self.held[:len(header) + 4]
        lengths = [value.strip() for name, _, value in (line.partition(b':') for line in header.split(b'\r\n')) if name.lower() == b'content-length']
        if len(lengths) != 1 or not lengths[0].isdigit() or len(lengths[0]) > 9 or int(lengths[0]) > LONGEST_MESSAGE:
            raise Broken(f'a header has no Content-Length of at most {LONGEST_MESSAGE}')
        return int(lengths[0])

    def more(self):
        """Whether further bytes came. Waits for them."""
        try:
            part = os.read(self.source, PART)
        except OSError:
            part = b''
        self.held += part
        return bool(part)


def shown(value, name=''):
    """What is told, in whose texts those of others steer nothing and hide nothing."""
    if isinstance(value, dict):
        return {key: shown(one, key) for key, one in value.items()}
    if isinstance(value, list):
        return [shown(one, name) for one in value]
    if not isinstance(value, str) or name in EXACT:
        return value
    return plain_lines(value) if name in WITH_LINES else plain(value)


def is_whole(value):
    """Whether a value is a whole number (true and false are none)."""
    return isinstance(value, int) and not isinstance(value, bool)


def is_value(value):
    """Whether a value may be that of an option."""
    return isinstance(value, (str, bool)) or is_whole(value)


def whole(text, name):
    """A text that can be given to a program."""
    if BROKEN.search(text):
        raise Failed(f'{name}: a text without a byte zero and half characters is wanted')
    return text


class Arguments:
    """The arguments of a request, each asked for by its name and kind. What is missing or of another kind is refused by name."""

    def __init__(self, values):
        if values is None:
            values = {}
        if not isinstance(values, dict):
            raise Failed('the arguments are no object')
        self.values, self.asked = values, set()

    def has(self, name):
        return self.values.get(name) is not None

    def others(self):
        """The names among them that were never asked for."""
        return [name for name in self.values if name not in self.asked]

    def take(self, name, default, fits, kind):
        self.asked.add(name)
        value = self.values.get(name)
        if value is None and default is not None:
            return default if default is not NOTHING else None
        if not fits(value):
            raise Failed(f'{name}: {kind} is wanted')
        return value

    def number(self, name, default=None):
        return self.take(name, default, lambda value: is_whole(value) and abs(value) < 1 << 64, 'a whole number')

    def text(self, name, default=None):
        return whole(self.take(name, default, lambda value: isinstance(value, str), 'a text'), name)

    def flag(self, name, default=False):
        return self.take(name, default, lambda value: isinstance(value, bool), 'true or false')

    def texts(self, name):
        """A list of texts; none if it is left out."""
        texts = self.take(name, [], lambda value: isinstance(value, list) and all(isinstance(one, str) for one in value), 'a list of texts')
        return [whole(text, name) for text in texts]

    def values_of(self, name):
        """What a word gives to an option, once or several times: texts, whole numbers, true and false; nothing if it is left out."""
        given = self.values.get(name)
        self.take(name, NOTHING, lambda value: all(map(is_value, value if isinstance(value, list) else [value])),
                  'a text, a whole number, true, false or a list of these')
        values = given if isinstance(given, list) else [] if given is None else [given]
        return [whole(value, name) if isinstance(value, str) else value for value in values]

    def items(self, name):
        """A list of objects, each as arguments; none if it is left out."""
        return [Arguments(value) for value in self.take(name, [], lambda value: isinstance(value, list), 'a list')]

    def part(self, name):
        """An object within, as arguments."""
        return Arguments(self.take(name, {}, lambda value: isinstance(value, dict), 'an object'))


# Stands for a value that may be left out, and is None then.
NOTHING = object()

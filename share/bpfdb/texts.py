"""Texts of files and of other programs: read whatever their bytes are, and shown without what a terminal would obey."""

import contextlib
import os
import re
import stat
import sys

MASK = (1 << 64) - 1
# The bytes that a line of bpfdb may have (so much is shown of a text's, too), a text of which lines are shown, and what is kept of a pipe.
LONGEST_LINE, LONGEST_TEXT, LONGEST_FILE = 1024, 1 << 24, 1 << 26
NUMBER = re.compile(r'0x[0-9a-fA-F]+|[0-9]+')
# The digits of the largest number, without zeros before them. (Python reads some thousands at most.)
MOST_DIGITS = 20
# What a terminal obeys, and what a reader doesn't see: control characters, marks that turn the direction of a text, separators of lines and paragraphs,
# what Unicode lets be ignored (`Default_Ignorable_Code_Point`), marks of annotations, and what stands for bytes that are no UTF-8. It is what bpfdb
# itself spells out of names.
UNSEEN = re.compile('[\x00-\x1f\x7f-\x9f\xad\u034f\u061c\u115f-\u1160\u17b4-\u17b5\u180b-\u180f\u200b-\u200f\u2028-\u202e\u2060-\u206f\u3164\ud800-\udfff'
                    '\ufe00-\ufe0f\ufeff\uffa0\ufff0-\ufffb\ufffd\U0001bca0-\U0001bca3\U0001d173-\U0001d17a\U000e0000-\U000e0fff]')


class Refused(Exception):
    """Why something isn't done: a line."""


def spelled(found):
    """The bytes of a character, each as \\xNN. (A surrogate stands for a byte that is no UTF-8, or for nothing.)"""
    errors = 'surrogateescape' if '\udc80' <= found[0] <= '\udcff' else 'surrogatepass'
    return ''.join(f'\\x{byte:02x}' for byte in found[0].encode(errors=errors))


def plain(text):
    """A text of one line whose characters that a terminal would obey, or that nobody sees, are shown as \\xNN, a byte each."""
    return UNSEEN.sub(spelled, text)


def plain_lines(text):
    """The same of a text of several lines, which line feeds end."""
    return '\n'.join(map(plain, text.split('\n')))


def warn(text, end='\n'):
    """Writes lines to standard error, if that can be written. (Where there is none, `print` would take standard output.)"""
    if sys.stderr is None:
        return
    with contextlib.suppress(OSError):
        print(plain_lines(text), end=end, file=sys.stderr, flush=True)


def number(text):
    """A number as bpfdb reads it, None if it is none."""
    if not NUMBER.fullmatch(text):
        return None
    value = int(text, 16) if text.startswith('0x') else int(text.lstrip('0')[:MOST_DIGITS + 1] or '0')
    return value if value <= MASK else None


def start_of(path, size):
    """The first bytes of a regular file; None of another one, or of one that can't be read."""
    with contextlib.suppress(OSError):
        if os.path.isfile(path):
            with open(path, 'rb') as file:
                # (one of /proc has none, where reading it might wait)
                return file.read(min(size, os.fstat(file.fileno()).st_size))
    return None


def text_lines(path):
    """The lines of a text, whatever its bytes are; None of what is no text of some MB, or can't be read."""
    content = start_of(path, LONGEST_TEXT + 1)
    return None if content is None or len(content) > LONGEST_TEXT else content.decode(errors='surrogateescape').split('\n')


def line_in(texts, line):
    """A line of a text, as much as is shown of it; empty where there is none."""
    return texts[line - 1].strip()[:LONGEST_LINE].replace('\t', ' ') if texts and line <= len(texts) else ''


def beside(name):
    """A program that belongs to this package: in the folder around it, or in `bin` of where it is installed; else the one on the PATH."""
    package = os.path.dirname(os.path.realpath(__file__))
    places = [os.path.join(package, '..', name), os.path.join(package, '..', '..', 'bin', name)]
    return next((os.path.normpath(place) for place in places if os.path.isfile(place)), name)


def in_memory():
    """A file that is in no folder, so there needs to be none that can be written to. Programs get it by its number."""
    return os.fdopen(os.memfd_create('bpfdb'), 'r+b')


def path_of(file):
    """The path of a file that a program gets by its number."""
    return f'/dev/fd/{file.fileno()}'


def copied(path):
    """A copy of a file in memory."""
    with open(path, 'rb') as file:
        copy = in_memory()
        copy.write(file.read(LONGEST_FILE + 1))
        copy.flush()
    return copy


def readable(path, kept):
    """The path of a file that can be read again: of a pipe, which can't, that of a copy in memory, which is kept."""
    with contextlib.suppress(OSError):
        if stat.S_ISFIFO(os.stat(path).st_mode):
            kept.append(copied(path))
            return path_of(kept[-1])
    return path


def is_text(file):
    """Whether a file begins as a listing may: with printing ASCII characters and blanks, and a line feed among them."""
    start = start_of(file, 4096) or b''
    return b'\n' in start and all(byte in b'\t\r\n' or 32 <= byte < 127 for byte in start)

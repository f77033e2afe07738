"""Texts of others are data: those of an object, the names of files, and what a client asks. What becomes part of a command of gdb's or of a shell, or
an expression of gdb's, is checked here first; what can't be that is refused by name."""

import re
import shlex

from bpfdb.texts import plain

# What ends a command of gdb's, a text of C's or a word: gdb cuts at line feeds what it is to execute. (No bytes stand for half a character.)
ENDS = re.compile('[\0\n\r\ud800-\udfff]')
CALLED = {'\0': 'a byte zero', '\n': 'a line feed', '\r': 'a carriage return'}
# A name that is one word of C; only such a one becomes part of an expression.
NAME = re.compile('[A-Za-z_][A-Za-z_0-9]*')
# The most characters of an expression, and those of a text that a refusal shows.
LONGEST, SHOWN = 4096, 80
# A text of C's, a character, and the operators that begin with, or end in, a sign that assigns; the longest of each.
PIECE = re.compile(r'''"(?:[^"\\]|\\.)*"|'(?:[^'\\]|\\.)*'|<<=|>>=|[=!<>]=|\+\+|--|=''')
ASSIGNING = ('<<=', '>>=', '++', '--', '=')


class Unfit(ValueError):
    """Why a text of others can't be what it is wanted for."""


def cut(text):
    """As much of a text as a refusal shows."""
    return plain(text[:SHOWN]) + ('..' if len(text) > SHOWN else '')


def word(text):
    """A text that stays one word of one command."""
    found = ENDS.search(text)
    if found:
        raise Unfit(f'{cut(text)}: there is {CALLED.get(found[0], "half a character")} in it')
    return text


def command(*words):
    """A command for gdb, of words that stay within it."""
    return ' '.join(map(word, words))


def script(*lines):
    """Several commands for gdb, each a line."""
    return '\n'.join(map(word, lines))


def for_shell(words):
    """A command for a shell, of words none of which it reads as anything else."""
    return shlex.join(map(word, words))


def expression(text):
    """A text that gdb may read as an expression."""
    if len(text) > LONGEST:
        raise Unfit(f'{cut(text)}: an expression has at most {LONGEST} characters')
    return word(text)


def is_name(text):
    """Whether a name is one word of C."""
    return bool(text) and NAME.fullmatch(text) is not None


def assigns(text):
    """Whether an expression assigns something."""
    return any(found[0] in ASSIGNING for found in PIECE.finditer(text))

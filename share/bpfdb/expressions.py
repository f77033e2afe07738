"""Expressions in C's words over registers, labels and memory, of numbers alone: `r3 > 100`, `*(u32 *)(r10 - 8) == 7`, `(s64)r0 < 0`."""

import re

from bpfdb.foreign import cut
from bpfdb.session import Hint
from bpfdb.texts import MASK, number

TOKEN = re.compile(r"\s*(0[xX][0-9a-fA-F]+|[0-9]+|'(?:[^'\\]|\\.)'|\$?[A-Za-z_]\w*|<<|>>|<=|>=|==|!=|&&|\|\||[-+*/%&|^~!<>()])")
REGISTER = re.compile(r'\$?(r10|r[0-9]|pc|sp|fp)')
# The operators of two sides, those that bind least first.
LEVELS = (('||',), ('&&',), ('|',), ('^',), ('&',), ('==', '!='), ('<', '<=', '>', '>='), ('<<', '>>'), ('+', '-'), ('*', '/', '%'))
ESCAPES = {'n': 10, 't': 9, 'r': 13, '0': 0, '\\': 92, "'": 39}
# Types by their names: how many bytes, and whether they have a sign.
TYPES = {**{f'{prefix}{letter}{8 * size}': (size, letter == 's') for prefix in ('', '__') for letter in 'us' for size in (1, 2, 4, 8)},
         **{f'{start}int{8 * size}_t': (size, not start) for start in ('', 'u') for size in (1, 2, 4, 8)}}
# Words of which C makes types, in any order.
WORDS = {'char': 1, 'short': 2, 'int': 4, 'long': 8, 'signed': None, 'unsigned': None}
DEEPEST = 30


class Value:
    """A number of 64 bits, and whether it has a sign."""

    def __init__(self, bits, signed):
        self.bits, self.signed = bits & MASK, signed

    def number(self):
        return self.bits - (1 << 64) if self.signed and self.bits >> 63 else self.bits


class Expression:
    """A text that is read as an expression, over what registers (by their names), labels (by theirs) and bytes (address, size) are."""

    def __init__(self, text, registers, labels, memory):
        self.text, self.registers, self.labels, self.memory, self.depth = text, registers, labels, memory, 0
        self.tokens, at = [], 0
        text = text.rstrip()
        while at < len(text):
            found = TOKEN.match(text, at)
            if not found:
                raise Hint(f'no expression: {text[at:at + 40].strip()}')
            self.tokens.append(found[1])
            at = found.end()

    def value(self):
        """What it comes to."""
        found = self.level(0)
        if self.tokens:
            raise Hint(f'no expression behind {self.tokens[0]}')
        return found

    def place(self):
        """The address and the size of the bytes that it names, as `*(u32 *)r1` does; None if it is no place in memory."""
        if self.tokens[:2] != ['*', '(']:
            return None
        self.tokens.pop(0)
        size, _, value = self.pointed()
        return None if self.tokens else (value.bits, size)

    def take(self, *wanted):
        """The next token if it is one of these, else None."""
        return self.tokens.pop(0) if self.tokens and self.tokens[0] in wanted else None

    def need(self, wanted):
        if not self.take(wanted):
            raise Hint(f'{wanted} is missing in {cut(self.text)}')

    def level(self, at):
        """An expression whose operators bind as these do, or more. (Both sides of && and || have their values; nothing is changed by that.)"""
        if at == len(LEVELS):
            return self.unary()
        left = self.level(at + 1)
        while True:
            sign = self.take(*LEVELS[at])
            if not sign:
                return left
            left = combined(sign, left, self.level(at + 1))

    def unary(self):
        self.depth += 1
        if self.depth > DEEPEST:
            raise Hint('the expression is nested too deep')
        try:
            sign = self.take('-', '~', '!', '*', '+')
            if sign == '*':
                size, signed, value = self.pointed()
                return extended(int.from_bytes(self.memory(value.bits, size), 'little'), size, signed)
            if sign:
                value = self.unary()
                bits = {'-': -value.bits, '~': ~value.bits, '!': value.bits == 0, '+': value.bits}[sign]
                return Value(bits, value.signed or sign == '!')
            if self.take('('):
                return self.inner()
            return self.word()
        finally:
            self.depth -= 1

    def inner(self):
        """What stands behind a parenthesis: a cast, or an expression."""
        kind = self.type_name()
        if kind:
            self.need(')')
            return extended(self.unary().bits, *kind)
        value = self.level(0)
        self.need(')')
        return value

    def pointed(self):
        """What stands behind `*`: the size and the sign of what a pointer leads to, and the pointer."""
        self.need('(')
        kind = self.type_name()
        if not kind or not self.take('*'):
            raise Hint("a pointer needs its type, as *(u32 *)r1 does; structs of C are known to gdb alone")
        self.need(')')
        return *kind, self.unary()

    def type_name(self):
        """The size and the sign of a type whose name comes next, None if none does."""
        if self.tokens and self.tokens[0] in TYPES:
            return TYPES[self.tokens.pop(0)]
        words = []
        while self.tokens and self.tokens[0] in WORDS:
            words.append(self.tokens.pop(0))
        if not words:
            return None
        sizes = [WORDS[word] for word in words if WORDS[word]]
        size = next((size for size in (1, 2, 8) if size in sizes), 4)
        return size, 'unsigned' not in words

    def word(self):
        """A number, a character, a register or a label."""
        if not self.tokens:
            raise Hint(f'a value is missing in {cut(self.text) or "an empty expression"}')
        text = self.tokens.pop(0)
        if text[0].isdigit():
            value = number(text.replace('X', 'x'))
            if value is None:
                raise Hint(f'{cut(text)} has more than 64 bits')
            return Value(value, value >> 63 == 0)
        if text[0] == "'":
            return Value(ESCAPES.get(text[2], ord(text[2])) if text[1] == '\\' else ord(text[1]), True)
        register = REGISTER.fullmatch(text)
        if register:
            name = {'sp': 'r10', 'fp': 'r10'}.get(register[1], register[1])
            if name not in self.registers:
                raise Hint(f"{name} isn't known in this frame")
            return Value(self.registers[name], False)
        if text in self.labels:
            return Value(self.labels[text], False)
        raise Hint(f'there is no register and no label {cut(text)}' if text[0] not in '()*/%&|^<>=!' else f'a value is missing before {text}')


def extended(bits, size, signed):
    """A value of so many bytes, as one of 64 bits."""
    low = bits & ((1 << 8 * size) - 1)
    return Value(low - (1 << 8 * size) if signed and low >> (8 * size - 1) else low, signed)


def combined(sign, left, right):
    """What an operator makes of two values. As in C it works on numbers with a sign if both have one."""
    signed = left.signed and right.signed
    one, other = (left.number(), right.number()) if signed else (left.bits, right.bits)
    if sign in ('/', '%'):
        if other == 0:
            raise Hint('division by zero')
        quotient = abs(one) // abs(other) * (1 if (one < 0) == (other < 0) else -1)
        return Value(quotient if sign == '/' else one - other * quotient, signed)
    if sign in ('<<', '>>'):
        shift = right.bits & 63
        return Value(left.bits << shift if sign == '<<' else left.number() >> shift, left.signed)
    truths = {'==': one == other, '!=': one != other, '<': one < other, '<=': one <= other, '>': one > other, '>=': one >= other,
              '&&': bool(one) and bool(other), '||': bool(one) or bool(other)}
    if sign in truths:
        return Value(truths[sign], True)
    return Value({'|': one | other, '^': one ^ other, '&': one & other, '+': one + other, '-': one - other, '*': one * other}[sign], signed)

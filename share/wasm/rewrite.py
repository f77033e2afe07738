#!/usr/bin/env python3
"""A module of LLVM that was made for x86-64, rewritten for a machine whose pointers have 32 bits: rewrite.py FROM TO LAYOUT TRIPLE.

FROM and TO are texts of LLVM, LAYOUT and TRIPLE what clang says of the other machine. A pointer keeps its eight bytes in memory, with four zeros behind the
four that count: so every size and offset in the module stays true, and a copy of bytes or a load as a number finds what it finds on x86-64. Values that aren't
in memory need no change. What isn't known to mean the same stops this with the line."""
import re
import sys

# Instructions whose types are of values alone.
OF_VALUES = frozenset('''add sub mul udiv sdiv urem srem and or xor shl lshr ashr zext sext trunc icmp select phi br switch ret unreachable call
    extractvalue insertvalue extractelement insertelement shufflevector ptrtoint inttoptr freeze bitcast
    fadd fsub fmul fdiv frem fneg fcmp fptrunc fpext fptoui fptosi uitofp sitofp'''.split())
INSTRUCTION = re.compile(r'  (?:(%(?:"[^"]*"|[-\w.$]+)) = )?(?:(?:tail|notail|musttail) )?(\w+)(.*)$')
# A row of a switch, and its end.
ARM = re.compile(r'    i\d+ -?\d+, label %\S+$|  \]$')
# The words behind an opcode that say nothing of sizes.
GEP_WORDS = re.compile(r'(?: (?:inbounds|nuw|nusw))*')
POINTER = re.compile(r'\bptr\b')
STATIC = re.compile(r'(@\S+ = (?:(?:private|internal|unnamed_addr|local_unnamed_addr) )*(?:constant|global) )(.*)$')
BYTES = re.compile(r'(?:\[\d+ x i8\]|i\d+|double) ')
# What would pass a struct by its place in memory, or isn't LLVM's own to compile.
NOT_KNOWN = re.compile(r'\b(?:byval|sret|inalloca|preallocated)\(|\basm\b|\bvolatile\b|\baddrspace\b|<\d+ x ptr>')
QUOTED = re.compile(r'"[^"]*"')
OPENS, CLOSES = '([{<', ')]}>'


class NotKnown(Exception):
    """A line whose meaning with pointers of 32 bits isn't known."""


def parts(text):
    """The texts between the commas of a text that aren't within brackets or quotes."""
    found, depth, quoted, begin = [], 0, False, 0
    for at, each in enumerate(text):
        if each == '"':
            quoted = not quoted
        elif quoted:
            continue
        elif each in OPENS:
            depth += 1
        elif each in CLOSES:
            depth -= 1
        elif each == ',' and depth == 0:
            found.append(text[begin:at].strip())
            begin = at + 1
    return [*found, text[begin:].strip()]


def fields(text, opening, closing):
    """The fields of a struct's type or value, which stand between these brackets."""
    if not (text.startswith(opening) and text.endswith(closing)):
        raise NotKnown
    return parts(text[len(opening):-len(closing)])


def in_memory(kind):
    """The type that has the size, the alignment and the offsets here that this one has on x86-64."""
    return POINTER.sub('i64', kind)


def typed(text):
    """The type at the beginning of an operand, and its value: the first blank that isn't within brackets parts them."""
    depth = 0
    for at, each in enumerate(text):
        depth += (each in OPENS) - (each in CLOSES)
        if each == ' ' and depth == 0:
            return text[:at], text[at + 1:]
    raise NotKnown


class Module:
    """The lines of a module, one by one. New values have names that no other value has."""

    def __init__(self, layout, triple):
        self.layout, self.triple, self.count = layout, triple, 0

    def name(self):
        self.count += 1
        return f'%narrow.{self.count}'

    def line(self, text):
        """The lines that stand in the place of this one."""
        if text.startswith('  '):
            return self.instruction(text)
        if text.startswith('@'):
            return [self.static(text)]
        if text.startswith(('define ', 'declare ')) and NOT_KNOWN.search(QUOTED.sub('', text)):
            raise NotKnown
        if text.startswith('target datalayout'):
            return [f'target datalayout = "{self.layout}"']
        if text.startswith('target triple'):
            return [f'target triple = "{self.triple}"']
        if text.startswith('attributes #'):
            # (those of x86-64 are in quotes)
            return [re.sub(r' "[^"]*"(?:="[^"]*")?', '', text)]
        # (a name that the linker of WebAssembly has a meaning for)
        return [text.replace(' @main()', ' @bpfdb_main()') if text.startswith('define ') else text]

    def instruction(self, text):
        found = INSTRUCTION.match(text)
        if not found or ARM.match(text):
            return self.other(text)
        result, opcode, rest = found.groups()
        if opcode in OF_VALUES:
            if opcode == 'call' and NOT_KNOWN.search(QUOTED.sub('', rest)):
                raise NotKnown
            return [text]
        if opcode == 'ptrtoaddr':
            # (here an address has 32 bits, and the number that is wanted 64)
            return [text.replace(' ptrtoaddr ', ' ptrtoint ', 1)]
        if opcode not in ('alloca', 'load', 'store', 'getelementptr') or NOT_KNOWN.search(QUOTED.sub('', rest)):
            raise NotKnown
        return getattr(self, opcode)(text, result, rest)

    def other(self, text):
        if not ARM.match(text):
            raise NotKnown
        return [text]

    def alloca(self, text, result, rest):
        kind, *more = parts(rest)
        return [f'  {result} = alloca {", ".join([in_memory(kind), *more])}'] if POINTER.search(kind) else [text]

    def getelementptr(self, text, result, rest):
        words = GEP_WORDS.match(rest)[0]
        kind, *more = parts(rest[len(words):])
        return [f'  {result} = getelementptr{words} {", ".join([in_memory(kind), *more])}'] if POINTER.search(kind) else [text]

    def load(self, text, result, rest):
        kind, place, *more = parts(rest)
        # (a pointer's four bytes come first)
        if kind == 'ptr' or not POINTER.search(kind):
            return [text]
        whole = self.name()
        lines = [f'  {whole} = load {", ".join([in_memory(kind), place, *(each for each in more if each.startswith("align "))])}']
        return lines + self.converted(fields(kind, '{ ', ' }'), whole, result, to_memory=False)

    def store(self, text, _, rest):
        operand, place, *more = parts(rest)
        kind, value = typed(operand)
        if not POINTER.search(kind):
            return [text]
        wide = self.name()
        if kind == 'ptr':
            lines = [f'  {wide} = ptrtoint ptr {value} to i64']
        else:
            lines = self.converted(fields(kind, '{ ', ' }'), value, wide, to_memory=True)
        return [*lines, f'  store {", ".join([f"{in_memory(kind)} {wide}", place, *more])}']

    def converted(self, kinds, value, result, to_memory):
        """The struct `result` with the fields of `value`: pointers as they stand in memory, or from there."""
        own = '{ ' + ', '.join(kinds) + ' }'
        source, target = (own, in_memory(own)) if to_memory else (in_memory(own), own)
        lines, made = [], 'poison'
        for number, kind in enumerate(kinds):
            field, kind_here = self.name(), kind if to_memory else in_memory(kind)
            lines.append(f'  {field} = extractvalue {source} {value}, {number}')
            if kind == 'ptr':
                taken, field = field, self.name()
                lines.append(f'  {field} = ' + (f'ptrtoint ptr {taken} to i64' if to_memory else f'inttoptr i64 {taken} to ptr'))
                kind_here = in_memory(kind) if to_memory else kind
            elif POINTER.search(kind):
                raise NotKnown
            before, made = made, result if number == len(kinds) - 1 else self.name()
            lines.append(f'  {made} = insertvalue {target} {before}, {kind_here} {field}, {number}')
        return lines

    def static(self, text):
        """A static: behind each of its pointers stand four zeros."""
        found = STATIC.match(text)
        if not found:
            raise NotKnown
        head, rest = found.groups()
        if BYTES.match(rest):
            return text
        kind, value = rest.split('}> ', 1)
        operands, *more = parts(value)
        kinds, values = fields(kind + '}>', '<{ ', ' }>'), fields(operands, '<{ ', ' }>')
        padded = []
        for each, operand in zip(kinds, values, strict=True):
            if each == 'ptr':
                padded += [(each, operand), ('[4 x i8]', '[4 x i8] zeroinitializer')]
            elif POINTER.search(each):
                raise NotKnown
            else:
                padded.append((each, operand))
        types, contents = (', '.join(each) for each in zip(*padded))
        return f'{head}<{{ {types} }}> {", ".join([f"<{{ {contents} }}>", *more])}'


def main(source, target, layout, triple):
    module = Module(layout, triple)
    with open(source, encoding='utf-8') as lines, open(target, 'w', encoding='utf-8') as to:
        for number, line in enumerate(lines, 1):
            try:
                to.write('\n'.join(module.line(line.rstrip('\n'))) + '\n')
            except (NotKnown, ValueError):
                sys.exit(f'{source}:{number}: what this means with pointers of 32 bits is not known: {line.rstrip()}')


if __name__ == '__main__':
    if len(sys.argv) != 5:
        sys.exit(__doc__)
    main(*sys.argv[1:])

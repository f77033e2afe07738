"""Damaged tests of uBPF for the tests of bpfdb-convert, and an assembler of their own to hold against what it makes of them.

conversions.py SHARE PROGRAM ROWS   lets bpfdb-convert take files of the rows 'assembly | words' with bytes, words and lines changed, moved and cut
                                    off (SHARE is the folder of its package), and bpfdb what it makes of them
Each trial ends with a line, or with a test whose program, context and result are those that the assembler finds in the file. What
doesn't is told, and at the end how many trials there were, where they were enough."""
import random
import re
import struct
import subprocess
import sys
import traceback

# Codes by the tables of RFC 9669: of arithmetic with their offset (4.1), of jumps (4.3), of sizes (3.2) and of atomic operations (5.3).
ARITHMETIC = {'add': (0, 0), 'sub': (1, 0), 'mul': (2, 0), 'div': (3, 0), 'sdiv': (3, 1), 'or': (4, 0), 'and': (5, 0), 'lsh': (6, 0), 'rsh': (7, 0),
              'neg': (8, 0), 'mod': (9, 0), 'smod': (9, 1), 'xor': (10, 0), 'mov': (11, 0), 'arsh': (12, 0)}
JUMPS = {'ja': 0, 'jeq': 1, 'jgt': 2, 'jge': 3, 'jset': 4, 'jne': 5, 'jsgt': 6, 'jsge': 7, 'jlt': 10, 'jle': 11, 'jslt': 12, 'jsle': 13}
SIZES = {'w': 0, 'h': 8, 'b': 16, 'dw': 24}
ATOMIC = {'add': 0, 'or': 0x40, 'and': 0x50, 'xor': 0xa0, 'fetch_add': 1, 'fetch_or': 0x41, 'fetch_and': 0x51, 'fetch_xor': 0xa1, 'xchg': 0xe1, 'cmpxchg': 0xf1}
# Of a statement: what stands before its blanks and behind them, and places in memory.
SPLIT = re.compile(r'(lock\s*\w+|call\s+local|\w+)\s*(.*)', re.DOTALL)
PLACE = re.compile(r'\[\s*%?r(\d+)\s*([+-]?)\s*(\w*)\s*\]')
# How many trials there are, how many of them at least must be left out and how many taken, and the seed of what is random.
TRIALS, ENOUGH, SEED = 1500, 200, 9669


def word(code, to=0, source=0, offset=0, value=0):
    """A word by its fields (RFC 9669, section 3); more bits than a field has are cut off, as uBPF's assembler does."""
    return struct.pack('<BBHI', code, to | source << 4, offset & 0xffff, value & 0xffffffff)


def number(text):
    return -number(text[1:]) if text[0] == '-' else int(text.lstrip('+'), 0)


def source(text, code):
    """The code, the source register and the number of the last operand of arithmetic and of a jump."""
    found = re.fullmatch(r'%?r(\d+)', text)
    return (code | 8, int(found[1]), 0) if found else (code, 0, number(text))


def place(text):
    register, sign, offset = PLACE.fullmatch(text).groups()
    return int(register), number(sign + offset) if offset else 0


def register(text):
    return int(re.fullmatch(r'%?r(\d+)', text)[1])


def instruction(name, given, at, labels):
    """The words of an instruction by its mnemonic and its operands, at a slot."""
    def distance(text, behind):
        return number(text) if text[0] in '+-' else labels[text] - behind
    name = re.sub(r'\s+', ' ', name)
    stem, width = (name[:-2], 32) if name.endswith('32') else (name, 64)
    if name == 'exit':
        return word(0x95)
    if name == 'lddw':
        value = number(given[1]) & (1 << 64) - 1
        return word(0x18, register(given[0]), value=value) + word(0, value=value >> 32)
    if name == 'call local':
        return word(0x85, 0, 1, 0, distance(given[0], at + 1))
    if name == 'ja32':
        return word(6, value=distance(given[0], at + 1))
    if name == 'ja':
        return word(5, offset=distance(given[0], at + 1))
    if stem in JUMPS:
        code, second, value = source(given[1], JUMPS[stem] << 4 | (5 if width == 64 else 6))
        return word(code, register(given[0]), second, distance(given[2], at + 1), value)
    if swap := re.fullmatch('(le|be|swap|bswap)(16|32|64)', name):
        return word({'le': 0xd4, 'be': 0xdc}.get(swap[1], 0xd7), register(given[0]), value=int(swap[2]))
    if moved := re.fullmatch('movsx(8|16|32)(32|64)', name):
        return word(0xbf if moved[2] == '64' else 0xbc, register(given[0]), register(given[1]), int(moved[1]))
    if stem in ARITHMETIC:
        code, offset = ARITHMETIC[stem]
        code, second, value = source(given[1], code << 4 | (7 if width == 64 else 4)) if stem != 'neg' else (0x87 if width == 64 else 0x84, 0, 0)
        return word(code, register(given[0]), second, offset, value)
    if loaded := re.fullmatch('ldx(?:(dw|[whb])|s([whb])|([whb])sx)', name):
        base, offset = place(given[1])
        return word((0x61 if loaded[1] else 0x81) | SIZES[loaded[1] or loaded[2] or loaded[3]], register(given[0]), base, offset)
    if locked := re.fullmatch('lock ?(.*?)(32)?', name):
        base, offset = place(given[0])
        return word(0xc3 if locked[2] else 0xdb, base, register(given[1]), offset, ATOMIC[locked[1]])
    stored = re.fullmatch('st(x?)(dw|[whb])', name)
    base, offset = place(given[0])
    second, value = (register(given[1]), 0) if stored[1] else (0, number(given[1]))
    return word((0x63 if stored[1] else 0x62) | SIZES[stored[2]], base, second, offset, value)


def assembled(text):
    """The words of an assembly."""
    statements, labels, slot = [], {}, 0
    for statement in re.split('[\n;]', re.sub('#[^\n]*', '', text)):
        if found := re.match(r'\s*(\w+):(.*)', statement, re.DOTALL):
            labels[found[1]], statement = slot, found[2]
        if statement.strip():
            name, rest = SPLIT.fullmatch(statement.strip()).groups()
            statements.append((name, [part.strip() for part in rest.split(',')], slot))
            slot += 2 if name == 'lddw' else 1
    return b''.join(instruction(*statement, labels) for statement in statements)


def found_in(text):
    """The program, the context and the result that a file has."""
    parts = {}
    for part in re.split('^--', text, flags=re.MULTILINE)[1:]:
        head, _, body = part.partition('\n')
        parts[head.strip()] = re.sub('#[^\n]*', '', body)
    if 'raw' in parts:
        program = b''.join(struct.pack('<Q', int(one, 16)) for one in parts['raw'].split())
    else:
        program = assembled(parts['asm'])
    memory = re.sub('^[ \t]*[0-9a-fA-F]+:', '', parts.get('mem', ''), flags=re.MULTILINE)
    memory = ''.join(one[2:].zfill(2) if one[:2] == '0x' else one.zfill(2) for one in memory.split())
    return program, bytes.fromhex(memory), int(parts['result'].strip(), 0)


def damaged(chance, texts):
    """A file with some of its bytes, words or lines changed, left out, doubled or taken from another one."""
    text = chance.choice(texts)
    for _ in range(chance.choice([1, 1, 1, 2, 5])):
        pattern = chance.choice(['(.)', '([-+]?\\w+)', '(\n)'])
        parts, others = re.split(pattern, text, flags=re.DOTALL), re.split(pattern, chance.choice(texts), flags=re.DOTALL)
        at, other = chance.randrange(len(parts)), chance.choice(others)
        edit = chance.randrange(6)
        if edit == 0:
            parts[at] = other
        elif edit == 1:
            parts[at] = ''
        elif edit == 2:
            parts.insert(at, other)
        elif edit == 3:
            parts[at] += parts[at]
        elif edit == 4:
            parts[at] = chance.choice(['-', '+', '0x', '%', '--', '#', ';', ':', ',', '\0', '\xff', '\u20ac', '99999999999', '0xffff', '-1', ' ', '\n', '[', ']'])
        elif chance.randrange(4) == 0:
            parts = parts[:at]
        text = ''.join(parts)
    return text


def whole_files(rows):
    """Files of some rows each, as they may be."""
    chance, files = random.Random(SEED), []
    for _ in range(100):
        chosen = [row.partition(' | ') for row in chance.sample(rows, chance.randrange(1, 6))]
        # (labels of several rows would be there twice)
        lines = [one[0] for one in chosen if ':' not in one[0]] + [chance.choice(['ja end\nend: exit', 'exit', 'call local f\nexit\nf: exit', 'ja +0 ; exit'])]
        text = '-- asm\n' + '\n'.join(lines).replace('; ', chance.choice(['; ', '\n'])) + '\n'
        if chance.randrange(5) == 0:
            words = ''.join(one[2] for one in chosen if 'call' not in one[0])
            text = '-- raw\n' + '\n'.join('0x' + bytes.fromhex(words[at:at + 16])[::-1].hex() for at in range(0, len(words), 16)) + '\n'
        text += chance.choice(['', '-- mem\n01 02 03 04\n05\n', '-- mem\n0: 00 01\n2: 02 03\n'])
        files.append(text + f'-- result\n{chance.choice(["0", "0x2a", "17"])}\n')
    return files


def shown(program, part, name):
    return subprocess.run([program, 'test', '--show', part, '--only', name, 'damaged.test'], capture_output=True, stdin=subprocess.DEVNULL).stdout


def main(share, program, table):
    sys.path[:0], sys.dont_write_bytecode = [share], True
    from bpfdb import conversions
    with open(table, encoding='ascii') as file:
        rows = [row for row in file.read().split('\n') if row and row[0] != '#']
    chance, taken, refused = random.Random(SEED), {}, 0
    texts = whole_files(rows) + [f'-- asm\n{row.partition(" | ")[0]}\n-- result\n0\n' for row in rows]
    for trial in range(TRIALS):
        text = texts[trial] if trial < len(texts) else damaged(chance, texts)
        try:
            taken[f'trial {trial}'] = text, conversions.test_of(text)
        except conversions.Refused:
            refused += 1
            if trial < len(texts):
                print(f'FAILED: a whole file is left out: {text!r}')
        except Exception:
            print(f'FAILED: {text!r}: {traceback.format_exc()}')
    with open('damaged.test', 'w', encoding='ascii') as file:
        for name, (_, made) in taken.items():
            file.write('\n'.join(line for part, body in ({'name': [name]} | made).items() for line in (f'-- {part}', *body)) + '\n')
    run = subprocess.run([program, 'test', 'damaged.test'], capture_output=True, stdin=subprocess.DEVNULL, text=True)
    if run.returncode > 1 or not run.stdout.startswith(f'1..{len(taken)}\n') or '# came: refused A' in run.stdout:
        print(f'FAILED: bpfdb test ends with {run.returncode}: {run.stderr}')
    for name, (text, made) in taken.items():
        try:
            wanted = found_in(text)
        except Exception as fault:
            wanted = f'nothing: {fault!r}'
        got = shown(program, 'program', name), shown(program, 'context', name), int(made['result'][0], 0)
        if got != wanted:
            print(f'FAILED: {text!r} gives {got}, and not {wanted}')
    if min(len(taken), refused) < ENOUGH:
        print(f'FAILED: {len(taken)} are taken and {refused} are refused')
    print(f'{TRIALS} trials')


if __name__ == '__main__':
    main(*sys.argv[1:])

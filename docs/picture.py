#!/usr/bin/env python3
"""The picture docs/session.svg: a session of bpfdb-shell with the object of the example overrun, as a terminal of 100 columns shows it.
'docs/picture.py' writes it anew, by the program that BPFDB names (or 'bpfdb' on the PATH); 'docs/picture.py --check' fails where it differs."""
import html
import os
import pty
import re
import select
import sys
import tempfile

TOP = os.path.dirname(os.path.dirname(os.path.realpath(__file__)))
EXAMPLE = os.path.join(TOP, 'examples', 'overrun')
PICTURE = os.path.join(TOP, 'docs', 'session.svg')
TYPED = ['c', 'rs 2', 'lw $r1+8', 'rs 22', 'set $pc = 23', 'c', 'u 2', 'q']
PROMPT = '(bpfdb) '
COLUMNS, LINE, GLYPH, EDGE = 100, 18, 7.8, 14
COLOURS = {'': '#d4d4d4', '1': '#ffffff', '2': '#8a8f98', '31': '#f48771', '33': '#dcdcaa', 'prompt': '#6a9955'}


def session(folder):
    """What the terminal shows."""
    with open(os.path.join(EXAMPLE, 'object.hex')) as digits, open(os.path.join(folder, 'overrun.o'), 'wb') as file:
        file.write(bytes.fromhex(digits.read()))
    child, side = pty.fork()
    if child == 0:
        os.chdir(folder)
        os.environ.update(TERM='xterm', HOME=folder)
        os.environ.pop('NO_COLOR', None)
        for name in ('overrun.c', 'context.bin'):
            os.symlink(os.path.join(EXAMPLE, name), name)
        os.execv(os.path.join(TOP, 'share', 'bpfdb-shell'), ['bpfdb-shell', '-m', 'context.bin', 'overrun.o'])
    shown = ''
    for line in TYPED:
        shown += until(side, PROMPT)
        os.write(side, line.encode() + b'\n')
    shown += until(side, None)
    os.waitpid(child, 0)
    return shown


def until(side, text):
    """What the terminal shows up to a text, or to its end."""
    found = ''
    while (text is None or not found.endswith(text)) and select.select([side], [], [], 20)[0]:
        try:
            part = os.read(side, 4096)
        except OSError:
            break
        if not part:
            break
        found += part.decode()
    return found


def runs(line):
    """A line in parts of one colour."""
    if line.startswith(PROMPT):
        return [('prompt', PROMPT), ('1', line[len(PROMPT):])]
    colour, parts = '', []
    for part in re.split(r'(\033\[\d+m)', line):
        code = re.fullmatch(r'\033\[(\d+)m', part)
        if code:
            colour = '' if code[1] == '0' else code[1]
        elif part:
            parts.append((colour, part))
    return parts


def wrapped(parts):
    """The parts in lines of the terminal's width."""
    lines, room = [[]], COLUMNS
    for colour, text in parts:
        while text:
            if not room:
                lines.append([])
                room = COLUMNS
            lines[-1].append((colour, text[:room]))
            text, room = text[room:], room - len(text[:room])
    return lines


def picture(shown):
    """The picture of what a terminal shows."""
    text = re.sub(r'\033\[\?\d+[hl]', '', shown).replace('\r', '').rstrip('\n')
    lines = [line for typed in text.split('\n') for line in wrapped(runs(typed))]
    lines.insert(0, [('prompt', '$ '), ('1', 'bpfdb-shell -m context.bin overrun.o')])
    width, height = COLUMNS * GLYPH + 2 * EDGE, len(lines) * LINE + 2 * EDGE
    yield f'<svg xmlns="http://www.w3.org/2000/svg" width="{width:.0f}" height="{height}" font-family="monospace" font-size="13">'
    yield '<title>A session of bpfdb-shell, made by docs/picture.py</title>'
    yield f'<rect width="{width:.0f}" height="{height}" rx="8" fill="#1e1e1e"/>'
    for at, line in enumerate(lines):
        spans = ''.join(f'<tspan fill="{COLOURS[colour]}">{html.escape(part)}</tspan>' for colour, part in line)
        yield f'<text x="{EDGE}" y="{EDGE + at * LINE + 13}" xml:space="preserve">{spans}</text>'
    yield '</svg>'


def main():
    with tempfile.TemporaryDirectory() as folder:
        made = '\n'.join(picture(session(folder))) + '\n'
    if '--check' not in sys.argv:
        with open(PICTURE, 'w') as file:
            file.write(made)
        return 0
    with open(PICTURE) as file:
        same = file.read() == made
    if not same:
        print("docs/picture.py: docs/session.svg differs from the session ('docs/picture.py' writes it anew)", file=sys.stderr)
    return 0 if same else 1


if __name__ == '__main__':
    sys.exit(main())

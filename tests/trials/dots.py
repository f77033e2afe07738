"""What `origin --dot` writes, told from the lines of the answer without it, by other means than the program: forwards through the lines, with the places
that still look for the line that tells them. The program goes backwards, and notes who tells a place."""
import re

PART = re.compile(r'r(\d)(?: at depth (\d))?|0x([0-9a-f]+):(\d+)')


def places(found, last):
    """The places of a part, of a register at its depth and at those up to the last one."""
    number, depth, address, count = found
    if number:
        return [(int(number), d) for d in range(int(depth or 0), max(last, int(depth or 0)) + 1)]
    return [int(address, 16) + i for i in range(int(count))]


def told(body):
    """The places that the parts with which a line begins tell."""
    for piece in body.split(';'):
        found = PART.match(piece.strip())
        if not found:
            return
        yield from places(found.groups(), 7)


def model(text):
    """The graph of an answer: its nodes, and its edges."""
    lines = text.split('\n')[:-1]
    edges, looking = set(), {}
    for k, line in enumerate(lines):
        body = line.partition(' ')[2]
        for place in told(body):
            edges |= {(reader, k) for reader in looking.pop(place, ())}
        for found in PART.finditer(body.partition('; from')[2].partition(';')[0]):
            for place in places(found.groups(), 0):
                looking.setdefault(place, set()).add(k)
    return lines, edges


def graph(text):
    """A graph as `--dot` writes it: its nodes, and its edges. None where a line isn't one of it."""
    if not text:
        return [], set()
    lines = text.split('\n')
    if lines[:2] != ['strict digraph origin {', '  node [shape=box];'] or lines[-2:] != ['}', '']:
        return None
    nodes, edges = [], set()
    for line in lines[2:-2]:
        if found := re.fullmatch(r'  n(\d+) \[label="((?:[^"\\]|\\["\\])*)"\];', line):
            if int(found[1]) != len(nodes) or edges:
                return None
            nodes.append(re.sub(r'\\(.)', r'\1', found[2]))
        elif found := re.fullmatch(r'  n(\d+) -> n(\d+);', line):
            edges.add((int(found[1]), int(found[2])))
        else:
            return None
    return nodes, edges

#!/usr/bin/env python3
"""What is made of a linked module: assemble.py LINKED ABOUT VERSION TO writes TO/bpfdb.wasm, TO/bpfdb.mjs and TO/bpfdb.html.

The module is LINKED with the text of the file ABOUT in a section of its own; bpfdb.mjs is the scripts of node in one file; bpfdb.html is one file with the module, the
scripts and the examples. The same files give the same bytes."""
import base64
import gzip
import hashlib
import html
import json
import os
import re
import sys

HERE = os.path.dirname(os.path.realpath(__file__))
EXAMPLES = os.path.join(HERE, '..', '..', 'examples')
# The most that the page may weigh.
LARGEST_PAGE = 1_200_000
# The rows of the table of examples: the folder, the program, and what it shows.
ROW = re.compile(r'^\| `([a-z-]+)` \| ([^|]*) \| ([^|]*) \|$', re.MULTILINE)
IMPORT = re.compile(r'^import \{[^}]*\} from "\./(\w+\.mjs)";\n', re.MULTILINE)


def text(*path):
    with open(os.path.join(*path), encoding='utf-8') as file:
        return file.read()


def content(*path):
    with open(os.path.join(*path), 'rb') as file:
        return file.read()


def write(path, data):
    with open(path, 'wb') as file:
        file.write(data)


def length(count):
    """A number as WebAssembly writes it: seven bits a byte, the lowest first."""
    digits = []
    while True:
        count, digit = count >> 7, count & 127
        digits.append(digit | (128 if count else 0))
        if not count:
            return bytes(digits)


def with_section(module, name, data):
    """The module with a section that engines pass over."""
    named = length(len(name)) + name + data
    return module + b'\0' + length(len(named)) + named


def bundle(name):
    """A script with those of this folder that it imports before it, each once, in one scope."""
    seen, whole = set(), []

    def add(part):
        source = text(HERE, part)
        for each in IMPORT.findall(source):
            if each not in seen:
                seen.add(each)
                add(each)
        whole.append(IMPORT.sub('', source))

    add(name)
    return '\n'.join(whole)


def without_exports(script):
    return re.sub(r'^export ', '', script, flags=re.MULTILINE)


def for_node():
    """The scripts of node: what they export is what node.mjs does, and the line for a shell comes first."""
    line, _, own = text(HERE, 'node.mjs').partition('\n')
    exported = re.findall(r'^export (?:async )?function (\w+)', own, re.MULTILINE)
    script = without_exports(bundle('node.mjs')).replace(line + '\n', '', 1)
    return f'{line}\n{script}\nexport {{ {", ".join(exported)} }};\n'


def contents(folder):
    """The files of an example by their names: what its commands name, objects from their hexadecimal digits."""
    found = {}
    for name in sorted(os.listdir(os.path.join(EXAMPLES, folder))):
        if name == 'object.hex':
            found[folder + '.o'] = bytes.fromhex(text(EXAMPLES, folder, name))
        elif re.search(r'\.(bin|s|c|test)$', name):
            found[name] = content(EXAMPLES, folder, name)
    return {name: base64.b64encode(data).decode() for name, data in found.items()}


def examples():
    """Each example that has a session, with its words, its lines, and the other commands that examples.txt has for it."""
    others = [line.split(': ', 1) for line in text(HERE, 'examples.txt').splitlines() if line and not line.startswith('#')]
    found = []
    for folder, program, shows in ROW.findall(text(EXAMPLES, 'README.md')):
        if os.path.exists(os.path.join(EXAMPLES, folder, 'arguments')):
            found.append({
                'name': folder, 'about': f'{program}: {shows}'.replace('`', ''), 'files': contents(folder),
                'words': f'debug {text(EXAMPLES, folder, "arguments").strip()}', 'script': text(EXAMPLES, folder, 'script').splitlines(),
                'others': [line for name, line in others if name == folder],
            })
    return found


def policy(style, script):
    """What the page may do: run its own script and the module, and begin threads of its own. Nothing is fetched, sent or framed."""
    style, script = (base64.b64encode(hashlib.sha256(each.encode()).digest()).decode() for each in (style, script))
    return (f"default-src 'none'; script-src 'sha256-{script}' 'wasm-unsafe-eval'; worker-src blob:; style-src 'sha256-{style}'; "
            "base-uri 'none'; form-action 'none'")


def page(module, version):
    """The page. Text that is no markup of its own can't end the element that it stands in."""
    style, script = text(HERE, 'page.css'), without_exports(bundle('page.mjs'))
    kept = {'version': version, 'module': base64.b64encode(gzip.compress(module, 9, mtime=0)).decode(),
            'worker': without_exports(bundle('worker.mjs')), 'examples': examples()}
    if '</' in style + script:
        sys.exit('assemble.py: a script or a style of the page has the beginning of an end tag')
    values = {'POLICY': html.escape(policy(style, script)), 'STYLE': style, 'SCRIPT': script, 'KEPT': json.dumps(kept).replace('<', '\\u003c'),
              'LISTING': html.escape(text(EXAMPLES, 'count', 'program.s'))}
    return re.sub('@@([A-Z]+)@@', lambda found: values[found[1]], text(HERE, 'page.html')).encode()


def main(linked, about, version, to):
    module = with_section(content(linked), b'about', content(about))
    whole = page(module, version)
    if len(whole) > LARGEST_PAGE:
        sys.exit(f'assemble.py: the page has {len(whole)} bytes, and may have {LARGEST_PAGE}')
    write(os.path.join(to, 'bpfdb.wasm'), module)
    write(os.path.join(to, 'bpfdb.mjs'), for_node().encode())
    write(os.path.join(to, 'bpfdb.html'), whole)
    os.chmod(os.path.join(to, 'bpfdb.mjs'), 0o755)


if __name__ == '__main__':
    if len(sys.argv) != 5:
        sys.exit(__doc__)
    main(*sys.argv[1:])

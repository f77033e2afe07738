"""The page of bpfdb as WebAssembly in a browser without a window: wasm-pages.py PAGE REPOSITORY, where BPFDB names the program for this machine.

Each example's session is played, and held against its replies, which were worked out by hand; README's session, and each other line of words that the page offers, is held against
them or the program, as is what it tells of damaged files. What differs is a line 'FAILED: ..'; the last line counts the trials."""
import json
import os
import shlex
import subprocess
import sys
import tempfile

sys.path.insert(0, os.path.dirname(os.path.realpath(__file__)))
import browser

# (the page compiles a module first)
browser.PATIENCE = 300
BPFDB = os.environ['BPFDB']
# A text's contrast with what is behind it, the least of all texts that are shown, and where that is.
CONTRAST = '''(() => {
  const channel = (c) => (c /= 255) <= 0.03928 ? c / 12.92 : ((c + 0.055) / 1.055) ** 2.4;
  const light = ([r, g, b]) => 0.2126 * channel(r) + 0.7152 * channel(g) + 0.0722 * channel(b);
  const colour = (text) => text.match(/[\\d.]+/g).map(Number);
  const behind = (each) => { for (; each; each = each.parentElement) { const c = colour(getComputedStyle(each).backgroundColor); if (c.length < 4 || c[3] > 0) return c; } return [255, 255, 255]; };
  let least = [21, ""];
  for (const each of document.querySelectorAll("body *")) {
    const own = [...each.childNodes].some((node) => node.nodeType === 3 && node.textContent.trim()) || each.matches("input, textarea");
    if (!own || !each.offsetParent || each.matches("script, style, noscript *")) continue;
    const [a, b] = [light(colour(getComputedStyle(each).color)), light(behind(each))].sort((x, y) => y - x);
    if ((a + 0.05) / (b + 0.05) < least[0]) least = [(a + 0.05) / (b + 0.05), each.outerHTML.slice(0, 80)];
  }
  return least;
})()'''


class Trials:
    """How many were made, and which failed."""

    def __init__(self):
        self.count, self.failed = 0, 0

    def same(self, what, wanted, found):
        self.count += 1
        if wanted != found:
            self.failed += 1
            print(f'FAILED: {what}\n  wanted: {wanted!r}\n  found:  {found!r}')


class Page(browser.Browser):
    """The page, and what a user does there."""

    def text(self, id_):
        return self.value(f'document.getElementById({json.dumps(id_)}).textContent')

    def clear(self):
        self.value('document.getElementById("output").replaceChildren()')

    def press(self, selector):
        self.value(f'document.querySelector({json.dumps(selector)}).click()')

    def example(self, name):
        self.clear()
        self.value(f'[...document.querySelectorAll("#examples button")].find((each) => each.querySelector("b").textContent === {json.dumps(name)}).click()')
        self.wait('!document.getElementById("line").disabled')

    def line(self, line):
        """Types a line at the prompt, and waits for its answer."""
        before = len(self.text('output'))
        self.value('document.getElementById("line").focus()')
        self.type(line)
        self.key('Enter')
        self.wait(f'document.getElementById("output").textContent.length > {before + len(line) + 3}')

    def ended(self):
        """Waits until no run is going on."""
        self.wait('document.getElementById("stop").disabled')

    def run(self, line):
        """What is shown of a run of this line of words, but for what the page itself says."""
        self.clear()
        self.value(f'document.getElementById("words").value = {json.dumps(line)}')
        self.press('#run')
        return self.shown()

    def shown(self):
        """What is shown of the run, when it has ended."""
        self.ended()
        return self.value('[...document.querySelectorAll("#output pre > *, #output pre")].map((pre) => [...pre.childNodes].filter((node) => node.nodeType === 3 '
                          '|| node.className === "wrong").map((node) => node.textContent).join("")).slice(0, 1).join("")')

    def drop(self, files):
        """Drops files on the page, of these names and bytes."""
        given = json.dumps({name: list(data) for name, data in files.items()})
        self.value(f'(() => {{ const moved = new DataTransfer(); for (const [name, bytes] of Object.entries({given})) moved.items.add(new File([new Uint8Array(bytes)], name));'
                   'document.dispatchEvent(new DragEvent("drop", { dataTransfer: moved })); })()')
        self.wait(f'{json.dumps(list(files))}.every((name) => page.files.has(name))')

    def choose(self, path):
        """Chooses a file of the disk."""
        root = self.ask('DOM.getDocument')['root']['nodeId']
        self.ask('DOM.setFileInputFiles', files=[path], nodeId=self.ask('DOM.querySelector', nodeId=root, selector='#chosen')['nodeId'])
        self.wait(f'page.files.has({json.dumps(os.path.basename(path))})')

    def answers(self):
        """What bpfdb wrote, without what was typed."""
        return self.value('[...document.querySelector("#output pre").childNodes].filter((node) => node.nodeType === 3).map((node) => node.textContent).join("")')


def read(*path):
    with open(os.path.join(*path), encoding='utf-8') as file:
        return file.read()


def content(*path):
    with open(os.path.join(*path), 'rb') as file:
        return file.read()


def unpacked(page, folder):
    """The files of the page, in a folder."""
    for name, data in page.value('[...page.files].map(([name, bytes]) => [name, [...bytes]])'):
        with open(os.path.join(folder, name), 'wb') as file:
            file.write(bytes(data))


def here(line, folder):
    """The lines that a line of words gives on this machine; those that would become a file are none."""
    words, _, to = line.partition(' > ')
    done = subprocess.run([BPFDB, *shlex.split(words)], cwd=folder, stdin=subprocess.DEVNULL, capture_output=True)
    return sorted(((b'' if to else done.stdout) + done.stderr).decode().splitlines())


def examples(page, trials, top):
    for name, others in page.value('JSON.parse(document.getElementById("kept").textContent).examples.map((each) => [each.name, each.others])'):
        page.example(name)
        for line in read(top, 'examples', name, 'script').splitlines():
            page.line(line)
        trials.same(f'the session of {name}', read(top, 'examples', name, 'replies'), page.answers())
        for line in others:
            with tempfile.TemporaryDirectory() as folder:
                unpacked(page, folder)
                trials.same(f'{name}: {line}', here(line, folder), sorted(page.run(line).splitlines()))


def subcommands(page, trials):
    """A file that is clicked on is that of the line of words, and a button below the line gives it to another subcommand, or writes the line where a word lacks."""
    for name, offered in (('program.s', 'debug program.s'), ('firewall.o', 'debug firewall.o'), ('program.bin', 'debug program.bin'), ('counters.test', 'test counters.test')):
        page.value(f'[...document.querySelectorAll("#files .name")].find((each) => each.textContent === {json.dumps(name)}).click()')
        trials.same(f'a click on {name}', offered, page.value('document.getElementById("words").value'))
        for number, line in enumerate(page.value('[...document.querySelectorAll("#subcommands button")].map((each) => each.title)')):
            page.clear()
            page.press(f'#subcommands button:nth-child({number + 1})')
            if line.startswith(('whynot ', 'diff ')):
                trials.same(f'the button {line}', line + ' ', page.value('document.getElementById("words").value'))
                continue
            if line.startswith('debug '):
                page.wait('!document.getElementById("line").disabled || document.getElementById("stop").disabled')
                page.press('#end')
            found = sorted(page.shown().splitlines())
            with tempfile.TemporaryDirectory() as folder:
                unpacked(page, folder)
                trials.same(f'the button {line}', here(line, folder), found)


def first_session(page, trials, top, how):
    page.example('overrun')
    for line in read(top, 'tests', 'session', 'script').splitlines():
        page.line(line)
    trials.same(f"README's session, {how}", read(top, 'tests', 'session', 'replies'), page.answers())
    page.press('#end')
    page.ended()


def slow(page, trials):
    """Where lines are run anew, and that takes long, it is said."""
    page.drop({'long.s': b'l: add r0, 1\nja l\n'})
    page.clear()
    page.value('document.getElementById("words").value = "debug --steps 1000000000 --listing long.s"')
    page.press('#run')
    page.wait('!document.getElementById("line").disabled')
    page.line('stepi 1000000000')
    page.line('info history')
    page.wait('document.getElementById("output").textContent.includes("history\\n") && !document.getElementById("line").disabled')
    trials.same('that each line runs the session anew', True, "this browser can't let a run wait, so each line runs the session anew: " in page.text('output'))
    page.press('#stop')


def keys(page, trials):
    page.value('document.getElementById("words").focus()')
    page.value('document.getElementById("words").value = "help run"')
    page.key('Enter')
    page.ended()
    trials.same('Enter runs the line', True, 'bpfdb run' in page.text('output'))
    page.value('(document.getElementById("words").value = "", document.getElementById("words").focus())')
    page.key('ArrowUp')
    trials.same('the arrow brings it back', 'help run', page.value('document.getElementById("words").value'))
    page.clear()
    page.value('page.keep("long.s", new TextEncoder().encode("l: add r0, 1\\nja l\\n"))')
    page.value('document.getElementById("words").value = "run --steps 1000000000 --listing long.s"')
    page.press('#run')
    trials.same('the page stays alive', 2, page.value('1 + 1'))
    page.key('Escape')
    page.ended()
    trials.same('Escape stops a run', True, '(stopped)' in page.text('output'))


def files(page, trials, top):
    page.drop({'dropped.s': b'mov r0, 9\nexit\n'})
    trials.same('a file that was dropped', '0x9\n', page.run('run --listing dropped.s'))
    page.choose(os.path.join(top, 'examples', 'xdp', 'packets.pcap'))
    page.drop({'port.test': b'-- listing\nldxb r0, [r1+37]\nexit\n-- packet packets.pcap 2\n-- result\n80\n'})
    trials.same('a capture that was chosen', '1..1\nok 1\n', page.run('test port.test'))
    page.value('(document.getElementById("listing").focus(), document.getElementById("listing").select())')
    page.type('mov r0, 5\nexit')
    trials.same('a listing that was typed', '0x5\n', page.run('run --listing listing.s'))
    page.press('.kept')
    trials.same('what was printed, kept as a file', '0x5\n', page.value('new TextDecoder().decode(page.files.get("output-1.txt"))'))
    page.run('asm dropped.s > "nine words.bin"')
    trials.same('output that was kept', '0x9\n', page.run("run 'nine words.bin'"))
    page.run('run "x')
    trials.same('a quote that is not closed', 'run "x: a quote is not closed', page.text('output'))


def bounds(page, trials):
    """What a run may take is said, and what it wants beyond is refused."""
    trials.same('the bounds are said', 'A run takes at most 1 GiB of memory and writes at most 64 MiB; a file has at most 64 MiB.', page.text('bounds'))
    page.drop({'long.s': b'l: add r0, 1\nja l\n'})
    found = page.run('trace --steps 3000000 --listing long.s')
    trials.same('more output than is kept', True, 'cannot write output\n' in found)
    trials.same('and no more is shown than is said', True, len(found) < 210_000 and 'the rest is not shown' in page.text('output'))


def hostile(page, trials):
    name = '<img src=x onerror="document.title=1"><b>x</b>.s'
    page.value(f'page.keep({json.dumps(name)}, new Uint8Array([255, 60, 98, 62, 27, 91, 50, 74]))')
    trials.same('a name with markup is shown as text', True, name in page.text('files'))
    page.run("run --listing '<b>\u202ex</b>'")
    trials.same('so is a name in an answer, and what turns its direction is spelled out', True, 'cannot read <b>' in page.text('output') and '\u202e' not in page.text('output'))
    for line in (f"run --listing '{name}'", f"link '{name}'", f"test '{name}'", f"run '{name}'", f"run -m '{name}' --listing dropped.s"):
        page.run(line)
    trials.same('nothing of them became an element', [0, 0, 'bpfdb in a page'],
                page.value('[document.images.length, document.querySelectorAll("b:not(#examples b), i, script:not([type]):not(:last-of-type)").length, document.title]'))


def turned(data, count):
    """So many copies of bytes, each with one of them turned."""
    for number in range(count):
        at = number * len(data) // count
        yield data[:at] + bytes([data[at] ^ (1 << number % 8 | 64)]) + data[at + 1:]


def damaged(page, trials, top):
    """Objects, captures and listings with a byte turned, and with markup for names, come to what they come to on this machine."""
    whole = bytes.fromhex(read(top, 'examples', 'firewall', 'object.hex'))
    marked = whole.replace(b'firewall.c', b'<b id=a>.c').replace(b'firewall\0', b'<i>x</i>\0')
    files, lines = {'ipv6.bin': content(top, 'examples', 'firewall', 'ipv6.bin'), 'marked.o': marked}, []
    lines.append("whynot --alone --object -m ipv6.bin marked.o '<b id=a>.c:54'")
    for number, data in enumerate(turned(whole, 24)):
        files[f'object-{number}.o'] = data
        lines.append(f'whynot --alone --object -m ipv6.bin object-{number}.o firewall.c:54')
    for number, data in enumerate(turned(content(top, 'examples', 'xdp', 'packets.pcap'), 12)):
        files[f'capture-{number}.pcap'] = data
        files[f'capture-{number}.test'] = f'-- listing\nldxb r0, [r1+37]\nexit\n-- packet capture-{number}.pcap 2\n-- result\n80\n'.encode()
        lines.append(f'test capture-{number}.test')
    for number, data in enumerate([*turned(content(top, 'examples', 'overrun', 'overrun.c'), 1), b'<script>document.title = 1</script>\n',
                                   *turned(content(top, 'examples', 'count', 'program.s'), 10)]):
        files[f'listing-{number}.s'] = data
        lines.append(f'origin --listing listing-{number}.s')
    page.drop(files)
    with tempfile.TemporaryDirectory() as folder:
        for name, data in files.items():
            with open(os.path.join(folder, name), 'wb') as file:
                file.write(data)
        for line in lines:
            trials.same(f'of a damaged file: {line}', here(line, folder), sorted(page.run(line).splitlines()))
    trials.same('markup of an object is told as text', True, 'in <i>x</i> (<b id=a>.c:47)' in page.run(lines[0]))


def lacking(page, trials, path):
    """An engine that lacks what the module needs is told so."""
    script = page.ask('Page.addScriptToEvaluateOnNewDocument', source='delete window.DecompressionStream')['identifier']
    try:
        page.open(f'file://{path}')
        found = ''
    except RuntimeError as told:
        found = str(told)
    page.ask('Page.removeScriptToEvaluateOnNewDocument', identifier=script)
    trials.same('an engine that lacks something', True, 'This browser lacks what bpfdb needs, WebAssembly of 2022 and DecompressionStream' in found)


def looks(page, trials):
    for width, dark in ((1280, False), (1280, True), (360, False), (360, True)):
        page.size(width, 800, dark)
        least, where = page.value(CONTRAST)
        trials.same(f'the contrast at {width}, dark: {dark}: {where}', True, least >= 4.5)
        trials.same(f'nothing stands beyond the window at {width}', True, page.value('document.documentElement.scrollWidth <= innerWidth'))
    page.size(1280, 800)


def apart(page, trials):
    """Nothing is asked of anybody, and nothing is against the page's own policy."""
    asked = [each['params']['request']['url'] for each in page.events if each['method'] == 'Network.requestWillBeSent']
    trials.same('what is asked for', [], [each for each in asked if not each.startswith(('file:', 'blob:'))])
    told = [each['params'] for each in page.events if each['method'] in ('Log.entryAdded', 'Runtime.exceptionThrown')]
    trials.same('what the browser complains of', [], told)
    policy = page.value('document.querySelector("meta[http-equiv]").content')
    trials.same('the policy', [False, False, True], [each in policy for each in ("'unsafe-inline'", " 'unsafe-eval'", "default-src 'none'")])


def main(path, top):
    trials, page = Trials(), Page()
    try:
        page.size(1280, 800)
        page.open(f'file://{path}')
        first_session(page, trials, top, 'which waits for lines')
        examples(page, trials, top)
        subcommands(page, trials)
        keys(page, trials)
        files(page, trials, top)
        bounds(page, trials)
        damaged(page, trials, top)
        hostile(page, trials)
        looks(page, trials)
        page.value('delete WebAssembly.Suspending')
        first_session(page, trials, top, 'run anew for each line')
        slow(page, trials)
        apart(page, trials)
        lacking(page, trials, path)
    finally:
        page.close()
    print(f'{trials.count} trials, {trials.failed} failed')


main(*sys.argv[1:])

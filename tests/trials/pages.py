"""Pages of runs in a browser, held against what bpfdb says: pages.py PART FOLDER, where BPFDB and BPFDB_PAGE name the programs.

    states FOLDER   the pages NAME.html of FOLDER, each with a file NAME.words, a word a line: what 'bpfdb run' takes. At many steps the registers, the
                    frames, the traced words, all of memory and the present instruction are those of 'bpfdb debug', and the steps that are said to
                    have written registers and bytes are those of 'bpfdb trace'.
    moves FOLDER    each key, button, click and search, on the page overrun.html (tests/program/page.sh says of what); and what can be read of it.
    long FOLDER     a page of 100,000 steps opens and answers soon.
    variables FOLDER  on the page variables.html, of a program with global variables, a search for one, and what stands beside rows of memory.
    names FOLDER    a page of hostile names shows them as text, and asks for nothing.

What differs is a line 'FAILED: ..'; the last line counts the trials."""
import os
import re
import subprocess
import sys

sys.path.insert(0, os.path.dirname(os.path.realpath(__file__)))
from browser import Browser

BPFDB = os.environ['BPFDB']
# At how many steps of a run its state is looked at.
MOMENTS = 12
# What a page shows at a position, and the whole of its memory.
SHOWN = '''(position) => {
  page.goTo(position);
  const texts = (selector) => [...document.querySelectorAll(selector)].map((each) => each.textContent);
  return {
    registers: texts("#registers tbody td.hex"), signed: texts("#registers tbody td.signed"), writers: texts("#registers tbody td:last-child"),
    current: texts("#instructions .current .number").concat(texts("#instructions .current code")), now: document.getElementById("now").textContent,
    frames: page.run.frames.map((frame) => [frame.returns, ...frame.saved.map(hex)]), shown: texts("#frames li").length,
    words: page.run.words.map((word) => hex(word.value)),
    regions: page.run.regions.map((region) => [region.start, [...region.bytes].map((byte) => byte.toString(16).padStart(2, "0")).join("")]),
    cells: [...document.querySelectorAll("#memory [data-address]")].map((cell) => [Number(cell.dataset.address), cell.textContent, cell.title]),
  };
}'''


# The texts in sight that are too like their ground: their colours and the ratio; and how many were looked at. (No colour of the page is seen through.)
CONTRAST = '''(() => {
  const parts = (text) => text.match(/[\\d.]+/g).map(Number), weak = new Set();
  const light = (colour) => colour.slice(0, 3).map((part) => part / 255).map((part) => part <= 0.04045 ? part / 12.92 : ((part + 0.055) / 1.055) ** 2.4)
    .reduce((sum, part, at) => sum + part * [0.2126, 0.7152, 0.0722][at], 0.05);
  const groundOf = (each) => {
    const colour = each ? parts(getComputedStyle(each).backgroundColor) : [255, 255, 255];
    return colour.length === 3 || colour[3] === 1 ? colour : groundOf(each.parentElement);
  };
  let looked = 0;
  for (const each of document.querySelectorAll("body *")) {
    if (![...each.childNodes].some((node) => node.nodeType === Node.TEXT_NODE && node.textContent.trim())) continue;
    if (!each.checkVisibility() || each.closest("button:disabled, #back, .unseen, select, noscript")) continue;
    const [one, other] = [light(parts(getComputedStyle(each).color)), light(groundOf(each))].sort((one, other) => other - one);
    looked++;
    if (one / other < 4.5) weak.add(`${each.tagName} ${each.className}: ${(one / other).toFixed(2)}`);
  }
  return [looked, [...weak]];
})()'''
# Of each row of memory where it begins, what stands beside its address, and whether the offset lies within the room for it.
LABELS = '''[...document.querySelectorAll("#memory .bytes")].map((row) => {
  const head = row.querySelector(".address"), [name, offset] = head.querySelectorAll("i"), shown = offset.getBoundingClientRect();
  return [Number(head.firstChild.textContent), (name.textContent + offset.textContent).trim(),
    offset.scrollWidth <= offset.clientWidth + 1 && shown.right <= head.getBoundingClientRect().right + 1 && shown.right <= row.children[1].getBoundingClientRect().left + 1];
})'''


class Trials:
    """How many were made, and which failed."""

    def __init__(self):
        self.count, self.failed = 0, 0

    def same(self, what, wanted, found):
        self.count += 1
        if wanted != found:
            self.failed += 1
            if self.failed <= 20:
                print(f'FAILED: {what}\n  wanted: {wanted}\n  found:  {found}')

    def holds(self, what, condition, found=''):
        self.same(what, True, bool(condition) or found or False)


def said(words, script=''):
    done = subprocess.run([BPFDB, *words], input=script, capture_output=True, text=True)
    return done.stdout.splitlines()


def written(lines, wanted):
    """After each of these steps, which step wrote each register and each byte: by the lines of a trace alone. A call begins with r6 to r9 as they are,
    its return brings back who wrote them."""
    places, calls, after = {}, [], {0: {}}
    for line in lines:
        head, *parts = line.split('; ')
        number, _, text = head.partition(' ')
        for part in parts:
            place, _, value = part.partition(' = ')
            if place.startswith('r'):
                places[place.split(' ')[0]] = int(number)
            elif place.startswith('0x'):
                start, size = place.split(':')
                clears = int(size) == 512 and not value
                for at in range(int(start, 16), int(start, 16) + int(size)):
                    places[at] = 0 if clears else int(number)
        if text.split(': ')[1].startswith('callf') and parts:
            calls.append({name: places.get(name, 0) for name in ('r6', 'r7', 'r8', 'r9', 'r10')})
            places['r10'] = int(number)
        elif text.endswith(': exit') and calls and int(number) < len(lines):
            places.update(calls.pop())
        if int(number) in wanted:
            after[int(number)] = dict(places)
    return after


def moments(first, last):
    """Some steps between two: the first and the last ones, and others evenly."""
    steps = {first, first + 1, first + 2, last - 1, last, *(first + (last - first) * at // MOMENTS for at in range(MOMENTS))}
    return sorted(step for step in steps if first <= step <= last)


def debugged(words, steps, regions):
    """What 'bpfdb debug' says at these steps: for each the lines of registers, place, frames and words, and the bytes of the regions."""
    looks = [(start, at, min(256, size - at)) for start, size in regions for at in range(0, size, 256)]
    views = ['info regs', 'info frames', 'info trace', *(f'x {start + at:#x} {size}' for start, at, size in looks)]
    script, before = [], 0
    for step in steps:
        script += ([f'stepi {step - before}'] if step > before else []) + views
        before = step
    lines, found, last = said(['debug', *[word for word in words if not word.startswith('--steps=')]], '\n'.join(script) + '\n'), [], 0
    for step in steps:
        lines, last = lines[1 if step > last else 0:], step
        registers = [pair.split('=')[1] for pair in lines[0].split(' ')]
        depth = int(lines[2].split(' ')[1])
        frames = [[int(line.split(' ')[2]), *(pair.split('=')[1] for pair in line.split(' ')[3:])] for line in lines[3:3 + depth]][::-1]
        words_traced, memory = lines[3 + depth].split(' ')[2:], {}
        for (start, _, _), line in zip(looks, lines[4 + depth:]):
            memory[start] = memory.get(start, '') + line.split(': ')[1]
        found.append((registers, lines[1], frames, words_traced, memory))
        lines = lines[4 + depth + len(looks):]
    return found


def signed(value):
    return str(int(value, 16) - (1 << 64) if int(value, 16) >> 63 else int(value, 16))


def states(browser, trials, folder):
    for name in sorted(each[:-5] for each in os.listdir(folder) if each.endswith('.html')):
        with open(os.path.join(folder, f'{name}.words')) as file:
            words = file.read().split('\n')[:-1]
        browser.open(f'file://{folder}/{name}.html')
        trace = said(['trace', *words])
        total, end = len(trace) - 1, trace[-1]
        first, length = browser.value('[page.run.told.first, page.run.length]')
        trials.same(f'{name}: the number of steps', total, browser.value('page.run.told.steps'))
        told = browser.value('document.getElementById("end").textContent')
        trials.holds(f'{name}: the end is said', told.startswith(end), told)
        trials.holds(f'{name}: its place in C is said once', '; in ' not in end or '(' not in told[len(end):].partition(':')[0], told)
        regions = browser.value('page.run.regions.filter((region) => region.bytes.length).map((region) => [region.start, region.bytes.length])')
        steps = moments(first - 1, first - 1 + length)
        after = written(trace[:-1], set(steps))
        for step, (registers, place, frames, traced, memory) in zip(steps, debugged(words, steps, regions)):
            shown, what = browser.value(f'({SHOWN})({step - first + 1})'), f'{name} after {step} steps'
            trials.same(f'{what}: registers', registers, shown['registers'])
            trials.same(f'{what}: registers with a sign', [signed(each) for each in registers], shown['signed'])
            trials.same(f'{what}: frames', frames, shown['frames'])
            trials.same(f'{what}: frames that are shown', len(frames) + 1, shown['shown'])
            trials.same(f'{what}: traced words', traced, shown['words'])
            trials.same(f'{what}: memory', memory, {start: digits for start, digits in shown['regions'] if digits})
            slot, _, text = place[3:].partition(': ') if place.startswith('at ') else (re.search(r' at (\d+)', place)[1], '', '')
            trials.same(f'{what}: the instruction', [slot, text or shown['current'][1]], shown['current'])
            if not place.startswith('at '):
                trials.holds(f'{what}: the end', place in shown['now'], shown['now'])
            check_cells(trials, what, shown, memory, after[step], first, len(frames))
            writers = [after[step].get(f'r{at}', 0) for at in range(11)]
            trials.same(f'{what}: who wrote registers', [f'step {by}' if by >= first else 'opening' if first == 1 else 'before' for by in writers], shown['writers'])


def check_cells(trials, what, shown, memory, places, first, depth):
    """The bytes that are in sight, who is said to have written them, and which of the stack are said to be written by nobody."""
    for address, text, title in shown['cells']:
        start = max((each for each in memory if each <= address), default=None)
        digits = memory[start][2 * (address - start):2 * (address - start) + 2] if start is not None else ''
        by = re.search(r'written by step (\d+)', title)
        trials.same(f'{what}: the byte {address:#x} and its writer', (digits, max(places.get(address, 0), first - 1) if places.get(address, 0) >= first else 0),
                    (text.strip(), int(by[1]) if by else 0))
        if first == 1 or not 0x200000400 <= address < 0x300000000:
            # (on a page of a part, whether a call is among the steps that are shown isn't looked for here)
            unset = first == 1 and digits and 0 <= address - 0x200000000 < 1024 * (depth + 1) and not places.get(address, 0)
            trials.same(f'{what}: whether the byte {address:#x} was written since the call', bool(unset), 'not written since the call' in title)


def reached(words, at, command):
    """The step at which a command of 'bpfdb debug' leads from a step."""
    replies = said(['debug', *words], (f'stepi {at}\n' if at else '') + f'{command}\n')
    moved = re.match(r'(\d+) (forward|back)', replies[-1])
    return at if moved is None else at + int(moved[1]) * (1 if moved[2] == 'forward' else -1)


class Moves:
    """A page, and what is done to it."""

    def __init__(self, browser, trials, folder, name='overrun'):
        self.browser, self.trials, self.address = browser, trials, f'file://{folder}/{name}.html'
        with open(os.path.join(folder, f'{name}.words')) as file:
            self.words = file.read().split('\n')[:-1]
        *self.trace, self.end = said(['trace', *self.words])
        self.steps = len(self.trace)
        self.slots = [int(line.split(' ')[1][:-1]) for line in self.trace] + [int(re.search(r' at (\d+)', self.end)[1])]
        browser.size(1280, 720)
        browser.open(self.address)

    def step(self):
        return self.browser.value('page.run.step')

    def at(self, step):
        self.browser.value(f'page.goTo({step})')

    def leads(self, what, before, wanted, action):
        """From a step an action leads to another one."""
        self.at(before)
        action()
        self.trials.same(f'{what} at step {before}', wanted, self.step())

    def writer(self, place, before):
        """The last step up to one that wrote a register or began to write at an address: the state before it."""
        return max((at for at, line in enumerate(self.trace[:before]) if f'; {place}' in line), default=None)

    def runs(self, slot):
        return [at for at, each in enumerate(self.slots) if each == slot]

    def keys(self):
        """Each key, and the button of its name, does what the command of debug does."""
        commands = {'ArrowRight': 'stepi', 'ArrowLeft': 'reverse-stepi', 'n': 'nexti', 'N': 'reverse-nexti', 'f': 'finish', 'F': 'reverse-finish'}
        for before in (0, 9, 10, 60, self.steps - 2, self.steps):
            for key, command in commands.items():
                wanted = reached(self.words, before, command)
                self.leads(f'the key {key}', before, wanted, lambda: self.browser.key(key, key.isupper()))
                self.leads(f'the button {key}', before, wanted, lambda: self.browser.click(f'[data-key="{key}"]'))
        for key, wanted in (('Home', 0), ('End', self.steps)):
            self.leads(f'the key {key}', 30, wanted, lambda: self.browser.key(key))
            self.leads(f'the button {key}', 30, wanted, lambda: self.browser.click(f'[data-key="{key}"]'))
        for before in (0, 20, self.steps):
            runs = self.runs(self.slots[before])
            self.leads('the key s', before, next((at for at in runs if at > before), runs[0]), lambda: self.browser.key('s'))
            self.leads('the key S', before, next((at for at in reversed(runs) if at < before), runs[-1]), lambda: self.browser.key('S', True))
        self.browser.value('document.getElementById("slider").focus()')
        self.leads('the key ArrowLeft on the slider', 30, 29, lambda: self.browser.key('ArrowLeft'))
        self.browser.value('document.activeElement.blur()')

    def clicks(self):
        """A click on a register, a byte, an instruction, the curve; and back again."""
        for register in range(10):
            for before in (20, 60, self.steps):
                wanted = self.writer(f'r{register} = ', before)
                self.leads(f'a click on r{register}', before, before if wanted is None else wanted,
                           lambda: self.browser.click(f'#registers tbody tr:nth-child({register + 1}) td.hex'))
        for address in (0x2000001f0, 0x2000001f8, 0x2000001fa):
            replies = said(['debug', *self.words], f'stepi {self.steps - 1}\nlast-write {address:#x}\n')
            wanted = self.steps - 1 - int(replies[1].split(' ')[1])
            self.leads(f'a click on {address:#x}', self.steps - 1, wanted, lambda: self.browser.click(f'#m{address}'))
            self.trials.same(f'the step that wrote {address:#x} says so', True, self.browser.value(f'document.getElementById("now").textContent.includes("{address:#x}:1 = ")'))
            self.browser.key('b')
            self.browser.wait(f'page.run.step === {self.steps - 1}')
            self.trials.same('back again', self.steps - 1, self.step())
        self.leads('a click on a byte of the context', 50, 50, lambda: self.browser.click(f'#m{0x100000003}'))
        self.trials.holds('it says so', 'not written' in self.said(), self.said())
        for slot in (0, 20, 25):
            runs = self.runs(slot)
            self.leads(f'a click on slot {slot}', 40, next((at for at in runs if at > 40), runs[0]), lambda: self.browser.click(f'#p{slot}'))
            self.leads(f'a click with Shift on slot {slot}', 40, next((at for at in reversed(runs) if at < 40), runs[-1]), lambda: self.browser.click(f'#p{slot}', True))
        self.leads('a click on an instruction that never ran', 40, 40, lambda: self.browser.click('#p26'))
        left, width, top = self.browser.value('(() => { const b = document.getElementById("curve").getBoundingClientRect(); return [b.x, b.width, b.y]; })()')
        self.leads('a click on the curve', 3, 30, lambda: self.browser.click_at(left + 9 + (width - 18) * 30 / self.steps, top + 20))

    def said(self):
        return self.browser.value('document.getElementById("said").textContent')

    def find(self, text, shift=False):
        """Searches by keys alone, as a reader does."""
        self.browser.key('/')
        self.browser.type(text)
        self.browser.key('Enter', shift)
        self.browser.key('Escape')

    def searches(self):
        """Each kind of search, forwards and backwards."""
        r4 = [0]
        for line in self.trace:
            found = re.search(r'; r4 = (\S+)', line)
            r4.append(int(found[1], 16) if found else r4[-1])
        above = next(at for at, value in enumerate(r4) if value > 5)
        self.leads('a search for r4 > 5', 3, above, lambda: self.find('r4 > 5'))
        self.trials.same('what it says', 'r4 > 5: 1 of 1', self.said())
        self.leads('a search for r4 > 5 behind it', above, above, lambda: self.find('r4 > 5'))
        self.trials.same('what it says', 'r4 > 5: 1 of 1, from the start again', self.said())
        self.leads('a search for r4 < 0', 3, 3, lambda: self.find('r4 < 0'))
        self.trials.same('what it says', 'r4 < 0: no step that is shown', self.said())
        self.leads('a search for r4 > -1', 3, 0, lambda: self.find('r4 > -1'))
        runs = self.runs(20)
        self.leads('a search for a slot', 40, next(at for at in runs if at > 40), lambda: self.find('20'))
        self.leads('a search back for a slot', 40, max(at for at in runs if at < 40), lambda: self.find('slot 20', True))
        self.leads('a search for a function', 0, self.slots.index(13), lambda: self.find('copy'))
        self.leads('a search for a step', 3, 54, lambda: self.find('step 54'))
        self.leads('a search for what writes r0', 0, next(at for at, line in enumerate(self.trace) if '; r0 = ' in line), lambda: self.find('r0'))
        self.leads('a search for what writes a byte', 0, next(at for at, line in enumerate(self.trace) if '; 0x2000001f8:' in line), lambda: self.find('0x2000001f8'))
        for text, fault in (('nothing', 'nothing is called nothing'), ('1000', 'no instruction begins at slot 1000'), ('r3 > x', 'that is no number'),
                            ('step 999', "step 999 isn't shown"), ('over.c:1', 'there is no source over.c')):
            self.leads(f'a search for {text}', 33, 33, lambda: self.find(text))
            self.trials.same(f'a search for {text} says', fault, self.said())
        self.leads('letters in the search', 33, 33, lambda: (self.browser.key('/'), self.browser.key('n'), self.browser.key('ArrowLeft'), self.browser.key('Escape')))

    def lines(self):
        """Lines of C, where they are known: a line is run anew where the line before was another one."""
        at_line = self.browser.value('[...page.run.slots].map((slot) => page.names.lineOf(slot))')
        starts = [at for at, line in enumerate(at_line) if line == 'overrun.c:21' and (at == 0 or at_line[at - 1] != line)]
        self.leads('a search for a line', 40, next(at for at in starts if at > 40), lambda: self.find('overrun.c:21'))
        self.leads('a click on a line', 40, next(at for at in starts if at > 40), lambda: self.browser.click('#l21'))
        self.leads('a click with Shift on a line', 40, max(at for at in starts if at < 40), lambda: self.browser.click('#l21', True))
        self.leads('the key l', starts[2], starts[3], lambda: self.browser.key('l'))
        self.leads('the key L', starts[2], starts[1], lambda: self.browser.key('L', True))
        self.at(self.steps)
        self.trials.same('the line at the end', ['1', '26'], self.browser.value('[...document.querySelectorAll("#lines .current .count, #lines .current .number")].map((each) => each.textContent)'))
        self.trials.same('how often line 21 ran', '11', self.browser.value('document.querySelector("#l21 .count").textContent'))

    def by_keyboard(self):
        """Lists and memory by keys alone, and names for all that can be chosen."""
        self.browser.value('document.getElementById("instructions").focus()')
        self.leads('Enter in the program', 0, 1, lambda: (self.browser.key('ArrowDown'), self.browser.key('Enter')))
        self.browser.value('document.getElementById("memory").focus()')
        self.browser.value('page.memory.cursor = 0x2000001f8; page.memory.draw()')
        wanted = self.writer('0x2000001f9:', self.steps)
        self.leads('Enter in memory', self.steps, wanted, lambda: (self.browser.key('ArrowRight'), self.browser.key('Enter')))
        nodes = self.browser.ask('Accessibility.getFullAXTree')['nodes']
        for node in nodes:
            role = node.get('role', {}).get('value')
            if role in ('button', 'slider', 'searchbox', 'combobox', 'listbox', 'grid', 'toolbar', 'table', 'row', 'gridcell', 'option') and not node.get('ignored'):
                self.trials.holds(f'a {role} has a name', role in ('row', 'table') or node.get('name', {}).get('value'), str(node.get('domNodeId', node.get('backendDOMNodeId'))))
        self.browser.value('document.activeElement.blur()')
        self.browser.key('?', True)
        self.trials.same('the key ? opens the list of keys', True, self.browser.value('document.getElementById("help").open'))
        self.browser.key('Escape')
        self.browser.wait('!document.getElementById("help").open')

    def links(self):
        """The address keeps the step."""
        self.browser.open(f'{self.address}#step=54')
        self.trials.same('an address with a step', 54, self.step())
        self.browser.key('ArrowRight')
        self.browser.wait('location.hash === "#step=55"')
        self.trials.same('the address after a step', '#step=55', self.browser.value('location.hash'))
        self.browser.open(f'{self.address}#step=999')
        self.trials.same('an address with a step that there is not', self.steps, self.step())
        wanted = int(re.search(r'0x([0-9a-f]+)', self.end)[1], 16) - 0x10000000d
        self.trials.holds('where the bad address lies', f'{wanted:,} bytes behind the end of context' in self.browser.value('document.getElementById("end").textContent'))

    def widths(self):
        """On a phone nothing is wider than the page."""
        for width, height in ((390, 844), (1280, 720)):
            self.browser.size(width, height)
            self.trials.same(f'the width of the page of {width}', width, self.browser.value('Math.max(innerWidth, document.documentElement.scrollWidth)'))
        self.browser.size(1280, 720)

    def contrast(self):
        """Each text, but for buttons that can't be pressed, stands out from its ground by 4.5 : 1 at least, as WCAG 2 counts it."""
        for scheme in ('light', 'dark'):
            self.browser.ask('Emulation.setEmulatedMedia', features=[{'name': 'prefers-color-scheme', 'value': scheme}])
            for step in (0, self.steps // 2, self.steps):
                self.at(step)
                looked, weak = self.browser.value(CONTRAST)
                self.trials.holds(f'texts that are looked at, {scheme}, at step {step}', looked > 100, looked)
                self.trials.same(f'texts without contrast, {scheme}, at step {step}', [], weak)
        self.browser.ask('Emulation.setEmulatedMedia', features=[])


def moves(browser, trials, folder):
    page = Moves(browser, trials, folder)
    page.keys()
    page.clicks()
    page.searches()
    if browser.value('page.run.told.lines.length'):
        page.lines()
    page.by_keyboard()
    page.widths()
    page.contrast()
    page.links()


def variables(browser, trials, folder):
    """A search for a variable finds what writes any of its bytes. Beside a row of memory its offset can be read, however narrow the page is."""
    page = Moves(browser, trials, folder, 'variables')
    # (the program has one section of data, of zeros: flows[16] of 16 bytes, and then total)
    spans = {'flows': (0x300000000, 256), 'total': (0x300000100, 4)}
    for name, (start, size) in spans.items():
        writers = [at for at, line in enumerate(page.trace) for place, count in re.findall('; (0x[0-9a-f]+):([0-9]+) = ', line)
                   if start < int(place, 16) + int(count) and int(place, 16) < start + size]
        page.leads(f'a search for {name}', 0, writers[0], lambda: page.find(name))
        trials.same('what it says', f'a step that writes {name}: 1 of {len(set(writers))}', page.said())
        page.leads(f'a search back for {name}', page.steps, writers[-1], lambda: page.find(name, True))
    trials.holds('the first bytes of flows are not written', not any('; 0x300000000:' in line for line in page.trace))
    page.at(page.steps)
    for width, bytes_in_row in ((1280, 16), (700, 16), (390, 8), (320, 8)):
        browser.size(width, 2000)
        browser.wait(f'page.memory.width === {bytes_in_row}')
        rows = browser.value(LABELS)
        wanted = {start: f'flows+{start - 0x300000000}' for start, *_ in rows if 0x300000000 < start < 0x300000100}
        trials.holds(f'rows of flows at {width}', len(wanted) > 6, rows)
        trials.same(f'what stands beside them at {width}', wanted, {start: label for start, label, *_ in rows if start in wanted})
        trials.same(f'offsets that are cut off at {width}', [], [row for row in rows if not row[2]])
    # (bpfdb has it as values of 8 bytes: 260 bytes are 33 of them)
    trials.same('the heading of the section', ['map 0 .bss264 bytes of data'],
                browser.value('[...document.querySelectorAll("#memory .region")].map((each) => each.textContent).filter((text) => text.startsWith("map"))'))
    browser.size(1280, 720)
    page.contrast()


# What a page of 100,000 steps may take, in seconds, where other tests run beside it: to open, and to answer.
OPENS, ANSWERS = 10, 2


def long(browser, trials, folder):
    """Pages of 100,000 steps: how many bytes a step they have, and how long they take."""
    for name in sorted(each[:-5] for each in os.listdir(folder) if each.endswith('.html')):
        took = browser.open(f'file://{folder}/{name}.html')
        trials.holds(f'{name}: opens within {OPENS} s', took < OPENS, took)
        steps = browser.value('page.run.length')
        trials.same(f'{name}: the steps that are shown', 100000, steps)
        size = (os.path.getsize(f'{folder}/{name}.html') - browser.value('document.scripts[2].textContent.length + document.querySelector("style").textContent.length')) / steps
        trials.holds(f'{name}: at most 20 bytes a step', size <= 20, size)
        for action in ('goTo(0)', 'goTo(100000)', 'goTo(50000)', 'press("ArrowLeft")', 'press("N")', 'press("f")', 'press("s")', 'goToWriterOf({register: 0})',
                       'follow(questionOf(page.run, page.names, "r0 == 12345"), 1)', 'follow(questionOf(page.run, page.names, "0x2000001f8"), -1)'):
            took = browser.value(f'(() => {{ const begin = performance.now(); page.{action}; return (performance.now() - begin) / 1000; }})()')
            trials.holds(f'{name}: {action} within {ANSWERS} s', took < ANSWERS, took)


def names(browser, trials, folder):
    """Names and sources that would be tags, marks of direction or control bytes are shown as text."""
    browser.open(f'file://{folder}/hostile.html')
    with open(os.path.join(folder, 'hostile.txt'), encoding='utf-8') as file:
        function, line, title = file.read().split('\n')[:3]
    trials.same('the name of a function', True, f'{function}:' in browser.value('[...document.querySelectorAll("#instructions .function")].map((each) => each.textContent)'))
    trials.same('the frames', True, browser.value('document.getElementById("frames").textContent').startswith('size_of'))
    browser.value(f'page.goTo(page.run.slots.indexOf(13))')
    trials.holds('the innermost frame', browser.value('document.querySelector("#frames b").textContent') == function)
    if browser.value('page.run.told.files.length'):
        trials.same('a line of source', line, browser.value('document.querySelector("#l21 code").textContent'))
    trials.same('the title', [title, title], browser.value('[document.title, document.getElementById("title").textContent]'))
    trials.same('nothing of it was obeyed', ['undefined', 3, 0, 0], browser.value('[typeof window.obeyed, document.scripts.length, document.images.length, document.querySelectorAll("iframe,object,embed,link,a").length]'))
    # (what the policy forbids fails, even where a script asks for it)
    trials.same('a request', 'refused', browser.value('fetch("http://127.0.0.1:9/").then(() => "answered", () => "refused")'))
    trials.same('a script that is added', 'undefined', browser.value('(() => { const s = document.createElement("script"); s.textContent = "window.obeyed = 1"; document.body.append(s); s.remove(); return typeof window.obeyed; })()'))
    browser.events = [event for event in browser.events if event['method'] != 'Log.entryAdded' or event['params']['entry']['source'] != 'security'
                      and 'Content Security Policy' not in event['params']['entry']['text']]


def main(part, folder):
    trials, browser = Trials(), Browser(os.environ.get('CHROMIUM', 'chromium'))
    try:
        {'states': states, 'moves': moves, 'long': long, 'names': names, 'variables': variables}[part](browser, trials, os.path.abspath(folder))
        asked = [event['params']['request']['url'] for event in browser.events if event['method'] == 'Network.requestWillBeSent']
        trials.same('what is loaded', [], [url for url in asked if not url.startswith(f'file://{os.path.abspath(folder)}/')])
        faults = [event['params'] for event in browser.events if event['method'] in ('Runtime.exceptionThrown', 'Log.entryAdded')]
        trials.same('what the browser complains of', [], faults)
    finally:
        browser.close()
    print(f'{trials.count} trials')
    sys.exit(trials.failed > 0)


if __name__ == '__main__':
    main(*sys.argv[1:])

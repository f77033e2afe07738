"""A browser without a window, which a script drives by its remote protocol through a pipe."""
import collections
import json
import os
import subprocess
import tempfile
import time

FLAGS = ['--headless', '--no-sandbox', '--disable-gpu', '--hide-scrollbars', '--remote-debugging-pipe', '--no-first-run', '--disable-extensions',
         '--disable-background-networking', '--disable-component-update', '--force-device-scale-factor=1']
KEYS = {'ArrowLeft': 37, 'ArrowUp': 38, 'ArrowRight': 39, 'ArrowDown': 40, 'Home': 36, 'End': 35, 'Enter': 13, 'Escape': 27, 'Tab': 9}
# The longest that a browser may take for an answer, in seconds.
PATIENCE = 60


class Browser:
    """A browser with one page. What it tells without being asked is kept in events."""

    def __init__(self, name='chromium'):
        self.folder = tempfile.TemporaryDirectory(ignore_cleanup_errors=True)
        to_browser, self.to = os.pipe()
        self.come, from_browser = os.pipe()
        self.child = subprocess.Popen(['sh', '-c', 'exec "$0" "$@" 3<&"$IN" 4>&"$OUT"', name, *FLAGS, f'--user-data-dir={self.folder.name}', 'about:blank'],
                                      env={**os.environ, 'IN': str(to_browser), 'OUT': str(from_browser)}, pass_fds=[to_browser, from_browser],
                                      stdout=subprocess.DEVNULL, stderr=subprocess.DEVNULL)
        os.close(to_browser)
        os.close(from_browser)
        self.number, self.rest, self.messages, self.events, self.session = 0, b'', collections.deque(), [], None
        target = next(each for each in self.ask('Target.getTargets')['targetInfos'] if each['type'] == 'page')
        self.session = self.ask('Target.attachToTarget', targetId=target['targetId'], flatten=True)['sessionId']
        for domain in ('Page', 'Runtime', 'Network', 'Log'):
            self.ask(f'{domain}.enable')

    def ask(self, method, **words):
        """The answer to a request."""
        self.number += 1
        request = {'id': self.number, 'method': method, 'params': words, **({'sessionId': self.session} if self.session else {})}
        os.write(self.to, json.dumps(request).encode() + b'\0')
        while True:
            message = self.next()
            if message.get('id') == self.number:
                if 'error' in message:
                    raise RuntimeError(f"{method}: {message['error']}")
                return message['result']

    def next(self):
        """The next message; one that nobody asked for is kept."""
        while b'\0' not in self.rest:
            part = os.read(self.come, 1 << 20)
            if not part:
                raise RuntimeError('the browser has ended')
            self.rest += part
        text, _, self.rest = self.rest.partition(b'\0')
        message = json.loads(text)
        if 'method' in message:
            self.events.append(message)
        return message

    def open(self, address):
        """Opens a page, and waits until it shows its run. Answers how long that took."""
        self.ask('Page.navigate', url='about:blank')
        # (an answer may still come from the page before)
        self.wait('location.href === "about:blank" && document.readyState === "complete"')
        begin = time.time()
        self.ask('Page.navigate', url=address)
        self.wait('location.protocol === "file:" && document.readyState === "complete" && (window.page || document.querySelector(".trouble:not(noscript *)"))')
        trouble = self.value('document.querySelector(".trouble:not(noscript *)")?.textContent')
        if trouble:
            raise RuntimeError(f'{address}: {trouble}')
        return time.time() - begin

    def wait(self, condition):
        begin = time.time()
        while not self.value(f'!!({condition})'):
            if time.time() - begin > PATIENCE:
                raise RuntimeError(f'waited in vain for {condition}')
            time.sleep(0.02)

    def value(self, expression):
        """The value of an expression of the page."""
        answer = self.ask('Runtime.evaluate', expression=expression, returnByValue=True, awaitPromise=True)
        if 'exceptionDetails' in answer:
            raise RuntimeError(f"{expression}: {answer['exceptionDetails']}")
        return answer['result'].get('value')

    def key(self, key, shift=False):
        """Presses a key."""
        words = {'key': key, 'modifiers': 8 if shift else 0, 'windowsVirtualKeyCode': KEYS.get(key, ord(key[0].upper()))}
        text = '\r' if key == 'Enter' else key if len(key) == 1 else ''
        self.ask('Input.dispatchKeyEvent', type='keyDown', **words, **({'text': text} if text else {}))
        self.ask('Input.dispatchKeyEvent', type='keyUp', **words)

    def type(self, text):
        self.ask('Input.insertText', text=text)

    def click(self, selector, shift=False):
        """Clicks on the middle of an element, which is brought into sight, or near the beginning of a wide one."""
        self.value(f'document.querySelector({json.dumps(selector)}).scrollIntoView({{block: "nearest"}})')
        box = self.value(f'(() => {{ const b = document.querySelector({json.dumps(selector)}).getBoundingClientRect(); return [b.x, b.y, b.width, b.height]; }})()')
        self.click_at(box[0] + min(box[2] / 2, 20), box[1] + box[3] / 2, shift)

    def click_at(self, x, y, shift=False):
        for kind in ('mousePressed', 'mouseReleased'):
            self.ask('Input.dispatchMouseEvent', type=kind, x=x, y=y, button='left', buttons=1, clickCount=1, modifiers=8 if shift else 0)

    def size(self, width, height, dark=False):
        """Gives the page a size, and light or dark colours."""
        self.ask('Emulation.setDeviceMetricsOverride', width=width, height=height, deviceScaleFactor=1, mobile=width < 500)
        self.ask('Emulation.setEmulatedMedia', features=[{'name': 'prefers-color-scheme', 'value': 'dark' if dark else 'light'}])


    def close(self):
        try:
            self.ask('Browser.close')
        except (RuntimeError, OSError):
            pass
        try:
            self.child.wait(10)
        except subprocess.TimeoutExpired:
            self.child.kill()
            self.child.wait()
        os.close(self.to)
        os.close(self.come)
        self.folder.cleanup()

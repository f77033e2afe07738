"""An editor of the tests: it sends requests to bpfdb-dap, and holds each message against the protocol's declarations, where these are installed."""
import json
import os
import select
import subprocess
import sys
import time

import schema

ADAPTER = [sys.executable, os.path.join(os.environ['TOP'], 'share', 'bpfdb-dap')]
DECLARED = schema.Schema(open(schema.PLACE).read()) if os.path.isfile(schema.PLACE) else None
PATIENCE = 60
# (so that what isn't as declared is found at all)
assert not DECLARED or DECLARED.message({'seq': 1, 'type': 'event', 'event': 'stopped', 'body': {'reason': 7}})


class Wrong(Exception):
    """Something isn't as it has to be."""


class Refusal(Exception):
    """A request that failed, with its message."""


def hold(found, wanted, what):
    if found != wanted:
        raise Wrong(f'{what}: {found!r}, and not {wanted!r}')


class Client:
    def __init__(self, *words, env=None, pipes=None):
        self.child = subprocess.Popen(ADAPTER + list(words), stdin=subprocess.PIPE, stdout=subprocess.PIPE, stderr=subprocess.PIPE,
                                      env=dict(os.environ, **(env or {})))
        self.to, self.of = pipes or (self.child.stdin.fileno(), self.child.stdout.fileno())
        self.sent, self.held, self.events, self.last = 0, b'', [], 0

    # messages

    def raw(self, content):
        os.write(self.to, content)

    def more(self):
        if not select.select([self.of], [], [], PATIENCE)[0]:
            raise Wrong('no answer comes')
        part = os.read(self.of, 65536)
        if not part:
            raise EOFError
        self.held += part

    def message(self):
        """The next message."""
        while b'\r\n\r\n' not in self.held:
            self.more()
        head, _, self.held = self.held.partition(b'\r\n\r\n')
        name, _, length = head.partition(b': ')
        hold(name, b'Content-Length', 'the header')
        while len(self.held) < int(length):
            self.more()
        text, self.held = self.held[:int(length)], self.held[int(length):]
        message = json.loads(text)
        hold(message['seq'], self.last + 1, 'the number of a message')
        self.last += 1
        faults = DECLARED.message(message) if DECLARED else []
        if faults:
            raise Wrong(f'{text.decode()[:300]}: {faults[0]}')
        return message

    def send(self, name, arguments):
        self.sent += 1
        request = {'seq': self.sent, 'type': 'request', 'command': name, **({'arguments': arguments} if arguments is not None else {})}
        text = json.dumps(request).encode()
        self.raw(b'Content-Length: %d\r\n\r\n%s' % (len(text), text))
        return self.sent

    def answer(self, number):
        """The response to a request; events that come before it are kept."""
        while True:
            message = self.message()
            if message['type'] == 'response':
                hold(message['request_seq'], number, 'the request that is answered')
                return message
            self.events.append(message)

    def ask(self, name, /, **arguments):
        """The body of the response."""
        response = self.answer(self.send(name, arguments))
        if not response['success']:
            raise Refusal(response['message'])
        return response.get('body')

    def refused(self, name, /, **arguments):
        """The message of a response that fails."""
        try:
            body = self.ask(name, **arguments)
        except Refusal as refusal:
            return str(refusal)
        raise Wrong(f'{name} is answered: {body}')

    def event(self, name):
        """The next event of a name; others before it are dropped, but for what they print."""
        while True:
            while self.events:
                message = self.events.pop(0)
                if message['event'] == name:
                    return message['body']
                self.note(message)
            message = self.message()
            if message['type'] != 'event':
                raise Wrong(f'a response that nobody waits for: {message}')
            self.events.append(message)

    def note(self, message):
        if message['event'] == 'output':
            self.printed = getattr(self, 'printed', '') + message['body']['output']

    # what an editor does

    def open(self, program, breakpoints=(), **more):
        """Launches a program, and goes on to its first stop."""
        self.ask('initialize', adapterID='bpfdb', linesStartAt1=True, columnsStartAt1=True)
        self.ask('launch', program=program, **more)
        self.event('initialized')
        if breakpoints:
            self.lines(*breakpoints)
        self.ask('configurationDone')
        return self.stop()

    def lines(self, path, *lines, **more):
        """Sets breakpoints at lines of a file. Where they came to stand."""
        found = self.ask('setBreakpoints', source={'path': path}, breakpoints=[{'line': line, **more} for line in lines])['breakpoints']
        return [(one['verified'], one.get('line')) for one in found]

    def stop(self):
        """Why it stopped next, and where: the function and the line."""
        self.body = self.event('stopped')
        frame = self.ask('stackTrace', threadId=1)['stackFrames'][0]
        return self.body['reason'], frame['name'], frame['line']

    def go(self, name, /, **more):
        self.ask(name, threadId=1, **more)
        return self.stop()

    def hand(self, line):
        """The reply to a command of bpfdb behind a colon."""
        return self.ask('evaluate', expression=':' + line, context='repl')['result']

    def value(self, text, frame=0):
        return self.ask('evaluate', expression=text, frameId=frame, context='watch')['result']

    def number(self, text, frame=0):
        """The number that an expression comes to, in whatever way it is shown."""
        return int(self.value(text, frame).split()[0], 0)

    def scope(self, name, frame=0):
        """The number of a part of the tree of variables."""
        return next(one['variablesReference'] for one in self.ask('scopes', frameId=frame)['scopes'] if one['name'] == name)

    def variables(self, number, **more):
        return {one['name']: one for one in self.ask('variables', variablesReference=number, **more)['variables']}

    def state(self):
        """All of a machine that bpfdb shows in short."""
        return self.hand('info regs'), self.hand('info frames'), self.hand('x 0x2000000f8 256')

    def leave(self):
        """Ends the session. The status, and what went to standard error."""
        self.ask('disconnect')
        os.close(self.to)
        self.child.stdin = None
        errors = self.child.stderr.read().decode()
        return self.child.wait(PATIENCE), errors


def play(what, sessions):
    """Plays sessions, tells what is wrong in which, and counts in the last line."""
    failed = 0
    for session in sessions:
        try:
            session()
        except (Wrong, Refusal, EOFError, OSError, KeyError, StopIteration) as fault:
            failed += 1
            print(f'FAILED: {what}: {session.__name__}: {type(fault).__name__}: {fault}')
            if os.environ.get('RAISE'):
                raise
    print(f'{len(sessions)} trials, {failed} failed')
    sys.exit(failed > 0)

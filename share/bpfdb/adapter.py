"""The debug adapter protocol over a session of bpfdb: what an editor asks, and what it is told. docs/EDITORS.md says what each request does."""

import contextlib
import os
import re
import shutil
import sys
import traceback

from bpfdb.breakpoint_requests import BreakpointRequests
from bpfdb.command_requests import CommandRequests
from bpfdb.foreign import Unfit
from bpfdb.loading import Loaded, Wanted
from bpfdb.machine import Machine
from bpfdb.names import GdbNames, OwnNames, gdb_for
from bpfdb.options import Refused
from bpfdb.protocol import Arguments, Broken, Failed, Unreadable
from bpfdb.running import Runner, Stop
from bpfdb.session import Ended, Hint, Program
from bpfdb.state_requests import THREAD, StateRequests
from bpfdb.stops import Stops
from bpfdb.texts import beside, number, text_lines
from bpfdb.way_requests import WayRequests

CAPABILITIES = {f'supports{name}': True for name in (
    'ConfigurationDoneRequest', 'FunctionBreakpoints', 'ConditionalBreakpoints', 'HitConditionalBreakpoints', 'EvaluateForHovers', 'StepBack',
    'SetVariable', 'RestartRequest', 'GotoTargetsRequest', 'CompletionsRequest', 'ExceptionInfoRequest', 'DelayedStackTraceLoading',
    'LoadedSourcesRequest', 'LogPoints', 'TerminateRequest', 'SetExpression', 'DataBreakpoints', 'ReadMemoryRequest', 'WriteMemoryRequest',
    'DisassembleRequest', 'SteppingGranularity', 'InstructionBreakpoints')}
# Requests that need no program.
STARTED = ('initialize', 'launch', 'disconnect', 'terminate', 'attach')
# Requests that are answered while the program runs.
WHILE_RUNNING = ('pause', 'disconnect', 'terminate', 'threads', 'setBreakpoints', 'setFunctionBreakpoints', 'setInstructionBreakpoints',
                 'setDataBreakpoints', 'setExceptionBreakpoints', 'source', 'loadedSources', 'disassemble',
                 'configurationDone', 'restart', 'initialize')


class Adapter(BreakpointRequests, WayRequests, StateRequests, CommandRequests):
    """A session of an editor."""

    def __init__(self, channel, over=''):
        self.channel, self.over, self.home, self.ended = channel, over, os.getcwd(), False
        # (found once, since a launch may go on in another folder)
        name = os.environ.get('BPFDB') or beside('bpfdb')
        self.program = os.path.abspath(shutil.which(name)) if shutil.which(name) else name
        self.machine, self.names, self.stops, self.way, self.pause, self.configured = None, None, Stops(), None, False, False
        self.lines_from_1, self.columns_from_1, self.views, self.frames, self.wanted, self.traced = 1, 1, [None], [], None, 0
        self.later, self.entered = [], False

    # messages

    def serve(self):
        """Answers requests until the editor leaves. The status to end with."""
        status = 0
        try:
            while not self.ended and self.channel.is_open:
                if self.way and not self.channel.waits():
                    self.go_on()
                    continue
                try:
                    message = self.channel.read()
                except Unreadable as fault:
                    self.say(f'bpfdb-dap: {fault}\n', 'stderr')
                    continue
                if message is None:
                    break
                self.answer(message)
        except Broken as fault:
            print(f'bpfdb-dap: {fault}', file=sys.stderr)
            status = 2
        finally:
            self.leave()
        return status

    def event(self, name, **body):
        self.channel.send('event', event=name, body=body)

    def say(self, text, category='console', **more):
        self.event('output', category=category, output=text, **more)

    def answer(self, message):
        """Answers one request, and does what comes behind the answer."""
        name, fields = message['command'], {'request_seq': message['seq'], 'command': message['command']}
        self.later = []
        try:
            body = self.obey(name, Arguments(message.get('arguments')))
        except (Failed, Hint, Unfit) as fault:
            self.fail(fields, str(fault))
        except Refused as refusal:
            self.fail(fields, refusal.said.strip() or f'bpfdb ended with status {refusal.status}')
        except Ended:
            self.fail(fields, self.why_ended())
            self.lose()
        except Exception as fault:
            # (a fault of the adapter's own: this request isn't done, and others can be)
            traceback.print_exc()
            self.fail(fields, f'bpfdb-dap: internal fault: {type(fault).__name__}: {fault}')
        else:
            self.channel.send('response', success=True, **fields, **({'body': body} if body is not None else {}))
            for act in self.later:
                self.guarded(act)

    def fail(self, fields, text):
        self.channel.send('response', success=False, message=text, **fields,
                          body={'error': {'id': 1, 'format': text.replace('{', '(').replace('}', ')'), 'showUser': True}})

    def guarded(self, act):
        """Does something for which there is no answer."""
        try:
            act()
        except (Failed, Hint, Unfit) as fault:
            self.say(f'{fault}\n', 'important')
        except Ended:
            self.say(self.why_ended() + '\n', 'important')
            self.lose()

    def obey(self, name, arguments):
        """What a request comes to."""
        method = getattr(self, 'do_' + re.sub(r'\W', '_', name), None) if name.isascii() and len(name) < 64 else None
        if method is None:
            raise Failed(f"there is no request {name[:80]}")
        if self.machine is None and name not in STARTED:
            raise Failed('no program is launched')
        if self.way and name not in WHILE_RUNNING:
            raise Failed('the program runs: pause stops it')
        return method(arguments)

    # the beginning and the end

    def do_initialize(self, arguments):
        self.lines_from_1 = int(arguments.flag('linesStartAt1', True))
        self.columns_from_1 = int(arguments.flag('columnsStartAt1', True))
        return CAPABILITIES

    def do_attach(self, arguments):
        raise Failed('there is nothing to attach to: launch starts a program')

    def do_launch(self, arguments):
        if self.machine:
            raise Failed('a program is launched already: restart starts it anew')
        self.start(Wanted(arguments, self.over, self.home))
        self.later = [lambda: self.event('initialized')]

    def start(self, wanted):
        """Starts a program, and goes on to its entry."""
        if not shutil.which(self.program):
            raise Failed(f'cannot find {self.program}; name it by BPFDB')
        self.go_to(wanted.folder)
        loaded = Loaded(self.program, wanted)
        gdb, version, said = self.gdb_for(loaded, wanted.over)
        program = gdb or Program(loaded.subject)
        machine = Machine(program, loaded)
        try:
            if gdb:
                machine.history.forward(gdb.call('load', loaded.for_gdb))
            machine.ask('info history')
            machine.read_code()
            if not gdb and loaded.source.has_setup():
                self.go_to_entry(machine)
            machine.history.begin()
            self.obey_script(machine, wanted)
        except (Ended, Hint, Failed, Unfit) as fault:
            status, why = program.end()
            raise fault if not isinstance(fault, Ended) else Refused(why, status) from None
        self.machine, self.names = machine, GdbNames(machine, gdb, version) if gdb else OwnNames(machine)
        self.views, self.frames = [None], []
        self.wanted, self.traced, self.instructions = wanted, 0, os.path.basename(wanted.file) + ' (instructions)'
        self.runner = Runner(machine, self.stops, loaded.limit, self.holds, self.tell, self.names.body)
        lines = '' if loaded.source.lines or not loaded.subject.is_object else ', without lines: the object has none'
        self.say(f'bpfdb-dap: {os.path.basename(wanted.file)} over {said}{lines}\n')

    def go_to(self, folder):
        """Goes to the folder from which on files are named."""
        try:
            os.chdir(folder)
        except OSError as fault:
            raise Failed(f'cwd: {fault.strerror}: {folder}') from None

    def gdb_for(self, loaded, over):
        """gdb and its version, where it is asked for, or is there and has names to tell; and what is told of it."""
        if loaded.is_strict and over == 'gdb':
            raise Failed('over gdb: no session is strict there; over bpfdb it is')
        if over == 'bpfdb' or not over and (loaded.is_strict or not loaded.subject.is_object):
            return None, None, 'bpfdb alone'
        if loaded.has_no_names():
            raise Failed('over gdb: an object or a listing is wanted, which has names')
        gdb, version = gdb_for(self.program)
        if gdb is None and over == 'gdb':
            raise Failed('there is no gdb of version 13 or later with Python')
        return gdb, version, f'gdb {version}' if gdb else 'bpfdb alone: there is no gdb of version 13 or later with Python'

    def go_to_entry(self, machine):
        """Goes on from what stands before the entry of an object."""
        entry = machine.loaded.source.entry(machine.code)
        if entry is not None:
            machine.demand(f'break {entry}')
            machine.ask('continue')
            machine.demand(f'delete {entry}')

    def obey_script(self, machine, wanted):
        """Obeys the script to begin with, and shows its replies."""
        if not wanted.script:
            return
        lines = text_lines(wanted.script)
        if lines is None:
            raise Failed(f'cannot read {wanted.script}')
        for line in lines:
            if line.split() == ['quit']:
                break
            for text in machine.ask(line) if line.strip() and '\0' not in line else []:
                self.say(f'{text}\n')

    def do_configurationDone(self, arguments):
        if self.configured:
            raise Failed('configurationDone came before')
        self.configured = True
        self.later = [self.enter]

    def enter(self):
        """The first stop: at the entry, or where the way from there leads."""
        at = self.stops.at(self.machine.slot())
        hit = [stop for stop in at if self.runner.is_hit(stop, False)] if not self.wanted.stops_on_entry else []
        if self.wanted.stops_on_entry or self.machine.has_ended() or hit:
            self.stopped(Stop('breakpoint', '', [stop.number for stop in hit]) if hit else Stop('entry', self.machine.place()))
        else:
            self.run(self.runner.on())

    def do_restart(self, arguments):
        again = arguments.part('arguments')
        wanted = Wanted(again, self.over, self.home) if again.has('program') else self.wanted
        old = self.machine
        self.end_way()
        self.start(wanted)
        old.program.kill()
        self.stops.settle(self.machine)
        self.later = [self.enter]

    def do_disconnect(self, arguments):
        self.ended = True

    def do_terminate(self, arguments):
        self.later = [self.lose]

    def leave(self):
        """Ends bpfdb."""
        if self.machine:
            self.end_way()
            self.machine.program.kill()
            self.machine = None

    def lose(self):
        """The session is over; the editor is told."""
        self.leave()
        self.event('terminated')

    def why_ended(self):
        """Why bpfdb ended by itself."""
        if self.machine is None:
            return 'no program is launched'
        status, said = self.machine.program.end()
        return said.strip() or f'bpfdb ended with status {status}'

    # ways

    def run(self, way):
        """Begins to run."""
        self.machine.history.begin()
        self.views, self.frames, self.way, self.pause = [None], [], way, False

    def go_on(self):
        """Runs a piece."""
        self.guarded(self.piece)

    def piece(self):
        stop = None
        try:
            next(self.way)
        except StopIteration as done:
            stop = done.value
        except Hint as refusal:
            stop = self.runner.beginning() if 'Q4' in str(refusal) else Stop('pause', str(refusal))
        if stop or self.pause:
            self.stopped(stop or Stop('pause'))

    def stopped(self, stop):
        """Tells the editor that the machine stands, and why."""
        self.end_way()
        self.names.moved()
        self.tell_trace()
        body = {'reason': stop.reason, 'threadId': THREAD, 'allThreadsStopped': True}
        if stop.description:
            body.update(description=stop.description, text=stop.description)
            if self.entered or self.wanted.is_run:
                self.say(f'{stop.description}\n')
        if stop.hits:
            body['hitBreakpointIds'] = stop.hits
        self.entered = True
        if self.wanted.is_run and stop.reason in ('exited', 'exception', 'strict'):
            self.lose()
        else:
            self.event('stopped', **body)

    def end_way(self):
        """Runs no further. What the way has set for itself is taken away."""
        way, self.way, self.pause = self.way, None, False
        if way:
            with contextlib.suppress(Ended, Hint):
                way.close()

    def tell_trace(self):
        """Shows the words that the program has traced since the last stop."""
        if not self.machine.traces:
            return
        words = self.machine.ask('info trace')[0].split()[2:]
        for word in words[self.traced:]:
            self.say(f'trace {word}\n', 'stdout')
        self.traced = len(words)

    def changed(self):
        """The state was changed by hand: what was shown of it is asked for anew."""
        self.names.moved()
        self.frames = []

    def address_of(self, reference):
        """The address that a text names."""
        address = number(reference.strip())
        if address is None:
            raise Failed(f'{reference[:80]}: an address is wanted')
        return address

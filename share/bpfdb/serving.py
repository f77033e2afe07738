"""The program bpfdb-dap: the adapter on standard input and output, or on a port of this machine."""

import argparse
import os
import signal
import socket
import sys

from bpfdb.adapter import Adapter
from bpfdb.protocol import Channel


HELP = """usage: bpfdb-dap [--port N] [--over NAME]
Answers an editor by the debug adapter protocol on standard input and output,
with steps back. The editor starts it.

  --port N      answers the one editor that comes to this port of this machine
                instead; 0 is a port that the system chooses, which is told on
                standard error
  --over NAME   what programs are debugged over, where launch does not say it:
                gdb or bpfdb
  -h, --help    writes this
"""


def port(text):
    """A port's number."""
    if not text.isdecimal() or len(text) > 5 or int(text) > 65535:
        raise argparse.ArgumentTypeError(f'{text}: a number from 0 to 65535 is wanted')
    return int(text)


def served(number, over):
    """Serves the one editor that comes to a port of this machine."""
    with socket.socket() as listener:
        listener.setsockopt(socket.SOL_SOCKET, socket.SO_REUSEADDR, 1)
        listener.bind(('127.0.0.1', number))
        listener.listen(1)
        print(f'bpfdb-dap: listening on port {listener.getsockname()[1]}', file=sys.stderr, flush=True)
        editor, _ = listener.accept()
    with editor:
        # (an answer is no use later)
        editor.setsockopt(socket.IPPROTO_TCP, socket.TCP_NODELAY, 1)
        return Adapter(Channel(editor.fileno(), editor.fileno()), over).serve()


def streams():
    """Descriptors of their own for standard input and output, so that nothing else is written between messages."""
    source, target = os.dup(0), os.dup(1)
    os.dup2(2, 1)
    return source, target


def main(given):
    parser = argparse.ArgumentParser(prog='bpfdb-dap', description='bpfdb for editors, by the debug adapter protocol: a step back, too.')
    # (argparse's own help looks different from one Python to the next, and doesn't say where it can't be written)
    if set(given) & {'-h', '--help'}:
        os.write(1, HELP.encode())
        return 0
    parser.add_argument('--port', type=port, metavar='N', help='answer on this port of the loopback, and not on standard input and output')
    parser.add_argument('--over', choices=('gdb', 'bpfdb'), default='', help='what programs are debugged over, where launch does not say it')
    words = parser.parse_args(given)
    if words.port is not None:
        return served(words.port, words.over)
    return Adapter(Channel(*streams()), words.over).serve()


def end_with_status():
    """The program: its words are those of the command line, and it ends with a status."""
    signal.signal(signal.SIGTERM, lambda *_: sys.exit(143))
    try:
        status = main(sys.argv[1:])
    except KeyboardInterrupt:
        status = 130
    except OSError as fault:
        print(f'bpfdb-dap: {fault.strerror}', file=sys.stderr)
        status = 2
    sys.exit(status)

"""What the checks of the built program run: the program on a store, in a folder of its own; and the stores of earlier
programs that are kept."""
import base64
import contextlib
import os
import socket
import subprocess
import sys
import time
import zlib

from local_ports import free_port

TOP = os.path.dirname(os.path.dirname(os.path.abspath(__file__)))
# the one that the environment's TAMS names, else the one that was built here
PROGRAM = os.path.abspath(os.environ.get('TAMS') or os.path.join(TOP, 'crates', 'tams', 'out', 'tams'))
STORE_ID = '00000000-0000-4000-8000-000000000001'
# how long anybody waits for anybody, in seconds
PATIENCE = 60


def is_built():
    return os.access(PROGRAM, os.X_OK)


def example(name, *words):
    """The words that run an example."""
    return [sys.executable, os.path.join(TOP, 'examples', name), *words]


def run(words, folder, given=b''):
    """How a program ends on this input: its status, and what it printed."""
    ended = subprocess.run(words, cwd=folder, input=given, stdout=subprocess.PIPE, stderr=subprocess.STDOUT,
                           timeout=PATIENCE, check=False)
    return ended.returncode, ended.stdout.decode(errors='replace').strip()


def must(words, folder, given=b''):
    """What a program printed that has to end well."""
    status, told = run(words, folder, given)
    if status:
        raise RuntimeError(f'{" ".join(words)}: status {status}, {told}')
    return told


def format_store(folder, blocks, half):
    return must([PROGRAM, 'format', 's', str(blocks), str(half), STORE_ID], folder)


def kept_store(name):
    """The bytes of a store that an earlier program made, which is kept as text."""
    with open(os.path.join(TOP, 'crates', 'run_cases', 'stores', name + '.txt'), encoding='ascii') as file:
        return zlib.decompress(base64.b64decode(''.join(line for line in file if not line.startswith('#'))))


@contextlib.contextmanager
def served(folder, base=None):
    """The address of the store in this folder, while it is served. In the end the program is killed, as by a crash. Its
    links begin with the base, where there is one, and else with its address."""
    port = free_port()
    address = f'http://127.0.0.1:{port}'
    with subprocess.Popen([PROGRAM, 'serve', 's', str(port), base or address, '1000'], cwd=folder,
                          stdin=subprocess.DEVNULL, stdout=subprocess.DEVNULL) as program:
        try:
            connect(port, program)
            yield address
        finally:
            program.kill()


def connect(port, program):
    """A client that comes and goes without a word. It waits until the program listens."""
    end = time.monotonic() + PATIENCE
    while program.poll() is None and time.monotonic() < end:
        with contextlib.suppress(ConnectionRefusedError), socket.create_connection(('127.0.0.1', port)):
            return
        time.sleep(0.05)
    raise RuntimeError('the program does not listen')

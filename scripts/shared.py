"""What the scripts here and in bench/ share: the crates, free ports, and the program."""
import os
import socket
import subprocess
import sys
import time

TOP = os.path.dirname(os.path.dirname(os.path.realpath(__file__)))
# The script that builds the program where need be and runs it, and the program that it has built.
LAUNCHER = os.path.join(TOP, 'aasd')
BUILT = os.path.join(TOP, 'crates', 'aasd', 'out', 'aasd')
# The call of fcntl that sets the size of a pipe (Linux, F_SETPIPE_SZ). Python has its name from 3.10 on.
SET_PIPE_SIZE = 1031


def crates():
    """The crates of crates.txt, lowest first: of each its line, and those that it stands on."""
    found = {}
    with open(os.path.join(TOP, 'crates.txt'), encoding='utf-8') as file:
        for line in file:
            name, _, below = line.partition('#')[0].partition(':')
            if name.strip():
                found[name.split()[0]] = line.strip(), below.split()
    return found


def free_port():
    """A port of this machine at which nothing waits."""
    with socket.socket() as chosen:
        chosen.bind(('127.0.0.1', 0))
        return chosen.getsockname()[1]


def wait_for(port, process, patience):
    """Waits until the process takes connections at the port: one is made, and closed. The script ends after so many seconds."""
    begun = time.monotonic()
    while time.monotonic() - begun < patience and process.poll() is None:
        try:
            socket.create_connection(('127.0.0.1', port)).close()
            return
        except ConnectionRefusedError:
            time.sleep(0.01)
    sys.exit(f'{process.args[0]} does not wait at its port; status {process.poll()}')


def take_launcher(parser):
    """Gives the parser the option `--program`, for which the launcher stands."""
    parser.add_argument('--program', default=LAUNCHER, help='the program (the script aasd)')


def take_built(parser):
    """The same, for which the program that the launcher has built stands."""
    parser.add_argument('--program', default=BUILT, help='the program (as the script aasd has built it)')


def launched(program):
    """The whole path of the program, which ends at once with no words. The launcher builds it before, if need be."""
    program = os.path.abspath(program)
    subprocess.run([program], stdin=subprocess.DEVNULL, stdout=subprocess.DEVNULL, check=False)
    return program

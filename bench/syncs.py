#!/usr/bin/env python3
"""Looks whether each command is on the disk before it is answered, as strace sees the program's calls.

    bench/syncs.py [--program FILE]

No test of the program's answers shows that: a process that is killed loses nothing that it wrote, whether or not it was synced. Runs of `init`,
`pipe`, `serve`, `import`, `demo` and `checkpoint` are traced, and of each is checked:

- a file that is made is followed by a sync of the folder;
- a gate is opened, and the selector turned, only where no other write waits for a sync;
- whenever the program writes to the console or to a client, no write of a file waits for a sync;
- each command has a record and a gate, each with a sync of its own.

What is wrong is printed, and the status is 1 then. Needed is Debian's strace.
"""
import argparse
import http.client
import json
import os
import re
import shutil
import socket
import subprocess
import sys
import tempfile
import time

sys.path.insert(0, os.path.join(os.path.dirname(os.path.realpath(__file__)), '..', 'scripts'))
# pylint: disable=wrong-import-position
from shared import free_port, take_built  # noqa: E402

FILES = ('aas.journal', 'aas.spare', 'aas.selector')
SELECTOR = FILES[2]
CALLS = 'openat,pwrite64,write,writev,sendto,sendmsg,fsync,fdatasync,ftruncate'
LINE = re.compile(r'^(?:\d+ +)?(\w+)\((.*)\) += (-?\d+)')
# How long a run may take, in seconds.
PATIENCE = 60


class Trace:
    """What the calls of a run did, one after another."""

    def __init__(self, folder):
        self.folder = os.path.realpath(folder)
        self.waiting = set()       # files that were written since they were synced
        self.made = set()          # files that were made since the folder was synced
        self.records = self.gates = self.syncs = self.turns = 0
        self.wrong = []

    def file_in(self, words):
        """The file of the repository that a call's first words name, if it is one, or '.' for the folder."""
        path = re.search(r'<([^>]*)>', words)
        if path and path[1] == self.folder:
            return '.'
        name = os.path.basename(path[1]) if path else ''
        return name if name in FILES and os.path.dirname(path[1]) == self.folder else None

    def take(self, call, words, result):
        if int(result) < 0:
            return
        if call == 'openat':
            name = re.search(r'"([^"]*)"', words)[1]
            # One that was there is taken for made: its folder is synced as well.
            if name in FILES and 'O_CREAT' in words:
                self.made.add(name)
            return
        at = self.file_in(words)
        if call in ('fsync', 'fdatasync'):
            self.syncs += 1
            if at == '.':
                self.made.clear()
            self.waiting.discard(at)
        elif call in ('pwrite64', 'ftruncate') or at in FILES:
            self.write(at, words, int(result))
        elif self.waiting or self.made:
            self.wrong.append(f'written to the outside while {", ".join(sorted(self.waiting | self.made))} waits for a sync')

    def write(self, name, words, count):
        if self.made:
            self.wrong.append(f'{name} is written before the folder is synced')
        is_gate = count == 1 and name != SELECTOR
        if (is_gate or name == SELECTOR) and self.waiting:
            self.wrong.append(f'{"a gate" if is_gate else "the selector"} is written while {", ".join(sorted(self.waiting))} waits')
        self.gates += is_gate
        self.turns += name == SELECTOR
        self.records += not is_gate and name != SELECTOR
        self.waiting.add(name)


def traced(program, folder, *words, stdin=b'', talk=None):
    """The trace of a run, with what it wrote on its console."""
    log = os.path.join(folder, 'trace')
    command = ['strace', '-f', '-y', '-s', '0', '-e', f'trace={CALLS}', '-e', 'signal=none', '-o', log, program, *words]
    process = subprocess.Popen(command, cwd=folder, stdin=subprocess.PIPE, stdout=subprocess.PIPE, stderr=subprocess.PIPE)
    if talk:
        talk()
    out, err = process.communicate(stdin, timeout=PATIENCE)
    if process.returncode:
        sys.exit(f'{" ".join(words)} ended with {process.returncode}: {err.decode(errors="replace").strip()}')
    trace = Trace(folder)
    with open(log, encoding='utf-8', errors='replace') as lines:
        for line in lines:
            found = LINE.match(line)
            if found:
                trace.take(*found.groups())
    return trace, out


def request(method, target, body=None):
    text = json.dumps(body).encode() if body is not None else b''
    return f'{method} {target} HTTP/1.1\r\nHost: a\r\nContent-Length: {len(text)}\r\n\r\n'.encode() + text


def submodel(number):
    return {'modelType': 'Submodel', 'id': f'urn:{number}', 'submodelElements': [
        {'modelType': 'Property', 'idShort': 'Speed', 'valueType': 'xs:int', 'value': '1'}]}


# A command each, by a client that waits for each reply: `urn:1` is dXJuOjE.
COMMANDS = [('POST', '/submodels', submodel(1)), ('PATCH', '/submodels/dXJuOjE/submodel-elements/Speed/$value', 2),
            ('PUT', '/submodels/dXJuOjE', submodel(1)), ('DELETE', '/submodels/dXJuOjE', None)]


def talk_to(port):
    """Makes the commands over one connection, and a question behind each."""
    end = time.monotonic() + PATIENCE
    while True:
        try:
            socket.create_connection(('127.0.0.1', port), 1).close()
            break
        except OSError:
            if time.monotonic() > end:
                raise
            time.sleep(0.05)
    client = http.client.HTTPConnection('127.0.0.1', port, timeout=PATIENCE)
    for method, target, body in COMMANDS:
        for asked in ((method, target, body), ('GET', '/submodels', None)):
            client.request(asked[0], asked[1], json.dumps(asked[2]) if asked[2] is not None else None)
            reply = client.getresponse()
            reply.read()
            if reply.status >= 300:
                sys.exit(f'{asked[0]} {asked[1]}: {reply.status}')
    client.close()


def main():
    parser = argparse.ArgumentParser(description=__doc__.partition('\n')[0])
    take_built(parser)
    program = os.path.abspath(parser.parse_args().program)
    if not shutil.which('strace'):
        sys.exit('bench/syncs.py takes strace: apt-get install strace')
    port = free_port()
    environment = json.dumps({'submodels': [submodel(2)]}).encode()
    wrong = 0
    with tempfile.TemporaryDirectory() as folder:
        runs = [
            ('init', 0, ['init'], {}),
            ('pipe', len(COMMANDS), ['pipe'], {'stdin': b''.join(request(*it) for it in COMMANDS)}),
            ('serve', len(COMMANDS), ['serve', f'127.0.0.1:{port}', '2'], {'talk': lambda: talk_to(port)}),
            ('import', 1, ['import'], {'stdin': environment}),
            ('demo', 1, ['demo', '100'], {}),
            ('checkpoint', 0, ['checkpoint'], {}),
        ]
        for name, commands, words, more in runs:
            trace, _ = traced(program, folder, *words, **more)
            found = list(dict.fromkeys(trace.wrong))
            if trace.gates < commands or trace.records < commands or trace.syncs < 2 * commands:
                found.append(f'{commands} commands, {trace.records} records, {trace.gates} gates, {trace.syncs} syncs')
            if name == 'checkpoint' and not trace.turns:
                found.append('the selector is not turned')
            if trace.waiting:
                found.append(f'{", ".join(sorted(trace.waiting))} is not synced at the end')
            print(f'{name}: {trace.records} records, {trace.gates} gates, {trace.syncs} syncs' + ''.join(f'\n  wrong: {it}' for it in found))
            wrong += bool(found)
    return 1 if wrong else 0


if __name__ == '__main__':
    sys.exit(main())

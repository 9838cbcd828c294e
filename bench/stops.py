#!/usr/bin/env python3
"""Kills `aasd` at random moments, opens its files again, and compares what opens with what was acknowledged.

The commands create, replace and delete small submodels, at random. They are sent to a run of `aasd pipe`, many at once, or of `aasd serve`, one after
another, and the run is killed (signal 9) some time later, in its start, in a command or behind the last one. Every command that was answered must be
there then, and at most one more. So it is where four clients write to `aasd serve` at once, each its own submodels: of each client's commands every
one that it got the reply to must be there, and at most one more. The next run goes on with the same files. In between `aasd import` and
`aasd checkpoint` are run and killed: of an import all submodels must be there or none, and all where its line was printed; a checkpoint must leave the
documents as they are, and one record of them in the file that is in use where its line was.

Besides that, while a run has the folder, a second one must end with status 4 and change nothing. A journal that is cut off anywhere, or in which a byte
is another, must be opened, or be found not initialised or damaged, with the right line, and stay as it is; where a record passes the end of the file,
the place of its gate must be named. So must the spare file, where it is in use.

Nothing is built. Printed is how many of each were tried; the script ends with status 1 where one failed. What a power failure leaves of a disk isn't
tried: that the system writes what it says it has written is trusted.
"""
import argparse
import base64
import itertools
import os
import random
import re
import select
import socket
import subprocess
import sys
import tempfile
import threading
import time

sys.path.insert(0, os.path.join(os.path.dirname(os.path.realpath(__file__)), '..', 'scripts'))
# pylint: disable=wrong-import-position
from shared import free_port, take_built  # noqa: E402

FILES = ('aas.journal', 'aas.spare', 'aas.selector')
HEADERS = (b'AASJ0001', b'AASJ0002')
IDENTIFIERS = 12
BATCH = 40
# How many clients write at once.
WRITERS = 4
LARGEST = 268_435_456
# What a record of an import and the file around it have beside the text: the tag, its length, and header, gates and length.
AROUND = 19
# How long a reply, the start and the end of the program may take, in seconds.
PATIENCE = 60


class Wrong(Exception):
    """Something isn't as it must be."""


def identifier(number):
    return f'urn:stops:{number}'


def submodel(number, version):
    """The canonical text of a small submodel."""
    return f'{{"id":"{identifier(number)}","idShort":"V{version}","modelType":"Submodel"}}'


def path(number):
    return '/submodels/' + base64.urlsafe_b64encode(identifier(number).encode()).decode().rstrip('=')


def request(line, body=''):
    length = f'Content-Length: {len(body)}\r\n' if body else ''
    return f'{line} HTTP/1.1\r\nHost: localhost\r\n{length}\r\n{body}'.encode()


def reply(status, body=''):
    fields = f'Content-Type: application/json\r\nContent-Length: {len(body)}\r\n' if body else ''
    return f'HTTP/1.1 {status}\r\n{fields}\r\n{body}'.encode()


def refusal(code, text):
    return f'{{"messages":[{{"code":"{code}","messageType":"Error","text":"{text}"}}]}}'


def commands(documents, version, numbers=range(IDENTIFIERS)):
    """Commands that a repository with these documents accepts, one after another, on submodels of these numbers: each with its reply and the documents
    after it."""
    while True:
        version += 1
        documents = dict(documents)
        number = random.choice(numbers)
        text = submodel(number, version)
        if number not in documents:
            call = request('POST /submodels', text), reply('201 Created', text)
        elif random.random() < 0.6:
            call = request('PUT ' + path(number), text), reply('204 No Content')
        else:
            call, text = (request('DELETE ' + path(number)), reply('204 No Content')), None
        documents[number] = text
        if text is None:
            del documents[number]
        yield (*call, documents)


def environment(texts):
    return f'{{"submodels":[{",".join(texts)}]}}' if texts else '{}'


def an_import(documents, version):
    """The import of some submodels at once: its input, its line and the documents after it."""
    numbers = random.sample(range(IDENTIFIERS), random.randint(1, IDENTIFIERS))
    given = {number: submodel(number, version + 1) for number in numbers}
    line = f'imported 0 shells, {len(given)} submodels, 0 concept descriptions\n'
    return environment(given.values()).encode(), line.encode(), {**documents, **given}


def a_checkpoint(documents, _):
    """A checkpoint: no input, its line and the documents after it."""
    text = environment([documents[number] for number in sorted(documents, key=identifier)])
    return b'', f'checkpoint {len(text) + AROUND}\n'.encode(), documents


def questions(documents):
    """A request for each submodel, and what they are answered together."""
    replies = [reply('200 OK', documents[number]) if number in documents else reply('404 Not Found', refusal(13, 'not found: submodel'))
               for number in range(IDENTIFIERS)]
    return b''.join(request('GET ' + path(number)) for number in range(IDENTIFIERS)), b''.join(replies)


class Folder:
    """The program in a folder of its own."""

    def __init__(self, program, folder):
        self.program, self.folder = program, folder

    def start(self, *words):
        return subprocess.Popen([self.program, *words], cwd=self.folder, stdin=subprocess.PIPE, stdout=subprocess.PIPE, stderr=subprocess.PIPE)

    def run(self, *words, given=b''):
        """The status of a run, and what it writes."""
        done = subprocess.run([self.program, *words], cwd=self.folder, input=given, stdout=subprocess.PIPE, stderr=subprocess.PIPE, timeout=PATIENCE,
                              check=False)
        if done.stderr:
            raise Wrong(f'{words} writes to standard error: {done.stderr[:200]!r}')
        return done.returncode, done.stdout

    def expect(self, words, given, status, text):
        got = self.run(*words, given=given)
        if got != (status, text):
            raise Wrong(f'{words}: got {got[0]}, {got[1][:300]!r}; wanted {status}, {text[:300]!r}')

    def init(self):
        self.expect(['init'], b'', 0, b'initialised\n')

    def contents(self):
        """What the three files hold, with `None` for one that isn't there."""
        return [self.content(name) for name in FILES]

    def content(self, name):
        try:
            with open(os.path.join(self.folder, name), 'rb') as file:
                return file.read()
        except FileNotFoundError:
            return None

    def in_use(self):
        """Which of the files the selector chooses: 0 or 1."""
        return (self.content(FILES[2]) or b'\0')[0] % 2

    def write(self, place, journal):
        with open(os.path.join(self.folder, FILES[place]), 'wb') as file:
            file.write(journal)


def answered(got, calls):
    """How many of the calls were answered. What is behind their replies is the front of the next one."""
    count = 0
    for _, wanted, _ in calls:
        if not got.startswith(wanted):
            if not wanted.startswith(got):
                raise Wrong(f'got {got[:300]!r}; wanted {wanted[:300]!r}')
            return count
        got, count = got[len(wanted):], count + 1
    if got:
        raise Wrong(f'got {got[:300]!r} behind the last reply')
    return count


def kill_pipe(folder, calls, seconds):
    """Sends the calls to `pipe` at once and kills it so many seconds later."""
    run = folder.start('pipe')
    try:
        os.write(run.stdin.fileno(), b''.join(call for call, _, _ in calls))
        time.sleep(seconds)
    finally:
        run.kill()
    # What it wrote is still in the pipe.
    return answered(run.communicate(timeout=PATIENCE)[0], calls)


def kill_command(folder, word, call, seconds):
    """Runs a command with the call as its input and kills it so many seconds later. Answers whether it printed its line."""
    run = folder.start(word)
    try:
        run.stdin.write(call[0])
        run.stdin.close()
        run.stdin = None
        time.sleep(seconds)
    finally:
        run.kill()
    return answered(run.communicate(timeout=PATIENCE)[0], [call])


def kill_import(folder, calls, seconds):
    return kill_command(folder, 'import', calls[0], seconds)


def kill_checkpoint(folder, calls, seconds):
    before = folder.in_use()
    count = kill_command(folder, 'checkpoint', calls[0], seconds)
    if count and (folder.in_use() == before or gates(folder.content(FILES[1 - before])) != ([8], None)):
        raise Wrong('a checkpoint was printed, and the file in use is not one of one record')
    return count


def connect(port, run):
    begun = time.monotonic()
    while time.monotonic() - begun < PATIENCE and run.poll() is None:
        try:
            return socket.create_connection(('127.0.0.1', port), timeout=PATIENCE)
        except ConnectionRefusedError:
            time.sleep(0.001)
    raise Wrong(f'serve: no connection; status {run.poll()}')


def kill_serve(folder, calls, seconds):
    """Sends the calls to `serve` one after another and kills it so many seconds after the first."""
    port = free_port()
    run = folder.start('serve', f'127.0.0.1:{port}', '1000')
    try:
        with connect(port, run) as link:
            end = time.monotonic() + seconds
            return sum(1 for call in calls if is_answered(link, call, end, run))
    finally:
        run.kill()
        run.communicate(timeout=PATIENCE)


def is_answered(link, call, end, run):
    """Sends a call and awaits its reply. At the end of the time the run is killed; what it gave before is still taken."""
    sent, wanted, _ = call
    if run.poll() is not None:
        return False
    link.sendall(sent)
    got, killed = b'', False
    while len(got) < len(wanted):
        left = end - time.monotonic()
        if left <= 0 and not killed:
            run.kill()
            run.wait(PATIENCE)
            killed = True
        ready, _, _ = select.select([link], [], [], PATIENCE if killed else left)
        if not ready and not killed:
            continue
        try:
            piece = link.recv(1 << 16)
        except ConnectionResetError:
            piece = b''
        if not piece:
            break
        got += piece
    if not wanted.startswith(got):
        raise Wrong(f'serve: got {got[:300]!r}; wanted {wanted[:300]!r}')
    return got == wanted


def opens_as(folder, before, calls, count):
    """The documents that the files open as: those after so many calls, or after one more."""
    possible = [before] + [documents for _, _, documents in calls]
    got = None
    for documents in possible[count:count + 2]:
        given, wanted = questions(documents)
        got = got or folder.run('pipe', given=given)
        if got == (0, wanted):
            return documents
    raise Wrong(f'{count} commands were answered; then the files open with status {got[0]}, {got[1][:400]!r}')


def calls_for(kill, documents, version):
    """What is asked of a run that is killed so."""
    if kill in (kill_import, kill_checkpoint):
        return [(an_import if kill is kill_import else a_checkpoint)(documents, version)]
    return [call for call, _ in zip(commands(documents, version), range(BATCH))]


def stops(program, where, kills):
    """Kills the program so many times, and says what came of it."""
    ways = kill_pipe, kill_import, kill_checkpoint, kill_serve, kill_import, kill_checkpoint
    documents, version, more, seconds, told = {}, 0, 0, dict.fromkeys(ways, 0.05), dict.fromkeys(ways, 0)
    with tempfile.TemporaryDirectory(dir=where) as name:
        folder = Folder(program, name)
        folder.init()
        for turn in range(kills):
            kill = ways[turn % len(ways)]
            calls = calls_for(kill, documents, version)
            version += BATCH
            count = kill(folder, calls, random.random() * seconds[kill])
            after = opens_as(folder, documents, calls, count)
            told[kill] += count
            more += after is not ([documents] + [call[2] for call in calls])[count]
            # The time is such that about half of the calls are done on average.
            seconds[kill] *= 1.1 if count < (len(calls) + 1) // 2 else 0.9
            documents = after
        sizes = [len(folder.content(name)) for name in FILES[:2]]
    print(f'{kills} kills: {told[kill_pipe] + told[kill_serve]} commands, {told[kill_import]} imports and {told[kill_checkpoint]} checkpoints were answered '
          f'and found; {more} times one more was found; the files have {sizes[0]} and {sizes[1]} bytes')


def writes(link, calls, counts, at):
    """Sends the calls one after another, and counts those that are answered, until the run is killed."""
    with link:
        for sent, wanted, _ in calls:
            got = b''
            try:
                link.sendall(sent)
                while len(got) < len(wanted):
                    piece = link.recv(1 << 16)
                    if not piece:
                        return
                    got += piece
            except (ConnectionResetError, BrokenPipeError):
                return
            if got != wanted:
                counts[at] = f'serve: got {got[:300]!r}; wanted {wanted[:300]!r}'
                return
            counts[at] += 1


def kill_while_written(folder, calls, seconds):
    """Has each of these lists of calls sent by a client of its own, and kills `serve` so many seconds later. Answers how many of each were answered."""
    port, counts = free_port(), [0] * len(calls)
    run = folder.start('serve', f'127.0.0.1:{port}', '1000')
    try:
        links = [connect(port, run) for _ in calls]
        threads = [threading.Thread(target=writes, args=(link, own, counts, at)) for at, (link, own) in enumerate(zip(links, calls))]
        for thread in threads:
            thread.start()
        time.sleep(seconds)
    finally:
        run.kill()
        run.communicate(timeout=PATIENCE)
    for thread in threads:
        thread.join(PATIENCE)
    for count in counts:
        if not isinstance(count, int):
            raise Wrong(count)
    return counts


def found(folder, before, calls, counts):
    """The documents of each client that the files open as: those after so many of its calls, or after one more."""
    possible = [([documents] + [call[2] for call in own])[count:count + 2] for documents, own, count in zip(before, calls, counts)]
    status, text = folder.run('pipe', given=questions({})[0])
    for shares in itertools.product(*possible):
        documents = {number: text_of for share in shares for number, text_of in share.items()}
        if (status, text) == (0, questions(documents)[1]):
            return list(shares)
    raise Wrong(f'{counts} commands of the clients were answered; then the files open with status {status}, {text[:400]!r}')


def many_writers(program, where, kills):
    """Kills `serve` so many times while several clients write, and says what came of it."""
    shares, version, told, more, seconds = [{} for _ in range(WRITERS)], 0, 0, 0, 0.05
    with tempfile.TemporaryDirectory(dir=where) as name:
        folder = Folder(program, name)
        folder.init()
        for _ in range(kills):
            calls = [list(itertools.islice(commands(documents, version, range(at, IDENTIFIERS, WRITERS)), BATCH)) for at, documents in enumerate(shares)]
            version += BATCH
            counts = kill_while_written(folder, calls, random.random() * seconds)
            before, shares = shares, found(folder, shares, calls, counts)
            told += sum(counts)
            more += sum(share is not ([documents] + [call[2] for call in own])[count]
                        for share, documents, own, count in zip(shares, before, calls, counts))
            seconds *= 1.1 if sum(counts) < WRITERS * BATCH // 2 else 0.9
    print(f'{kills} kills beside {WRITERS} writers: {told} commands were answered and found; {more} times one more was found')


def second_program(program, where):
    """While a run has the folder, others end with status 4 and change nothing."""
    with tempfile.TemporaryDirectory(dir=where) as name:
        folder = Folder(program, name)
        folder.init()
        calls = [call for call, _ in zip(commands({}, 0), range(2))]
        run = folder.start('pipe')
        try:
            exchange(run, calls[0])
            before = folder.contents()
            others = ['pipe'], ['init'], ['serve', f'127.0.0.1:{free_port()}', '1'], ['import'], ['export'], ['check'], ['demo', '1'], ['checkpoint']
            for words in others:
                folder.expect(words, calls[1][0], 4, b'aasd: disk fault\n')
            if folder.contents() != before:
                raise Wrong('a second program changed the files')
            exchange(run, calls[1])
            run.stdin.close()
            if run.wait(PATIENCE) != 0:
                raise Wrong(f'the first program ended with status {run.returncode}')
        finally:
            run.kill()
            run.wait(PATIENCE)
        given, wanted = questions(calls[1][2])
        folder.expect(['pipe'], given, 0, wanted)
    print(f'second programs in the folder: {len(others)}, each with status 4')


def exchange(run, call):
    sent, wanted, _ = call
    os.write(run.stdin.fileno(), sent)
    got = b''
    while len(got) < len(wanted):
        ready, _, _ = select.select([run.stdout], [], [], PATIENCE)
        piece = os.read(run.stdout.fileno(), len(wanted)) if ready else b''
        if not piece:
            break
        got += piece
    if got != wanted:
        raise Wrong(f'got {got[:300]!r}; wanted {wanted[:300]!r}')


def gates(journal):
    """The places of the open gates, and that of the one whose record passes the end, or `None`."""
    found, at = [], 8
    while at < len(journal) and journal[at] == 1:
        found.append(at)
        following = at + 5 + int.from_bytes(journal[at + 1:at + 5], 'big')
        if following >= len(journal):
            return found, at
        at = following
    return found, None


def opened(folder, place, journal):
    """The status with which a journal in one of the files is opened, which must be one that it can have."""
    folder.write(place, journal)
    before = folder.contents()
    status, text = folder.run('pipe')
    if folder.contents()[:2] != before[:2]:
        raise Wrong('opening changed the journal')
    if len(journal) < 9 or journal[:8] not in HEADERS:
        right = (status, text) == (5, b'aasd: not initialised\n')
    else:
        found, past = gates(journal)
        place = re.fullmatch(rb'aasd: damaged at (0|[1-9][0-9]*)\n', text)
        damaged = status == 6 and place is not None and int(place[1]) in (found if past is None else [past])
        right = damaged or past is None and (status, text) == (0, b'')
    if not right:
        raise Wrong(f'a journal of {len(journal)} bytes, {journal[:200]!r}: got {status}, {text[:200]!r}')
    return status


def spoiled(journal):
    """The journal cut off anywhere, and with another byte in each place."""
    yield from (journal[:length] for length in range(len(journal) + 1))
    for place, byte in enumerate(journal):
        yield from (journal[:place] + bytes([other]) + journal[place + 1:] for other in sorted({0, 1, byte ^ 1, 255} - {byte}))


def hostile(program, where):
    """Journals that are cut off, of which a byte is another, or which are full of ones, and spare files that are cut off or of which a byte is another."""
    counts = {0: 0, 5: 0, 6: 0}
    with tempfile.TemporaryDirectory(dir=where) as name:
        folder = Folder(program, name)
        folder.init()
        calls = [call for call, _ in zip(commands({}, 0), range(5))]
        folder.expect(['pipe'], b''.join(call[0] for call in calls), 0, b''.join(call[1] for call in calls))
        journal = folder.content(FILES[0])
        for other in (*spoiled(journal), bytes([1]) * LARGEST, HEADERS[1] + bytes([1]) * (LARGEST - len(HEADERS[1]))):
            counts[opened(folder, 0, other)] += 1
        folder.write(0, journal)
        given, line, _ = a_checkpoint(calls[-1][2], 0)
        folder.expect(['checkpoint'], given, 0, line)
        for other in spoiled(folder.content(FILES[1])):
            counts[opened(folder, 1, other)] += 1
    print(f'{sum(counts.values())} files: ' + ', '.join(f'{count} with status {status}' for status, count in counts.items()))


def main():
    parser = argparse.ArgumentParser(description=__doc__, formatter_class=argparse.RawDescriptionHelpFormatter)
    take_built(parser)
    parser.add_argument('--kills', type=int, default=300, help='how many times it is killed (300)')
    parser.add_argument('--folder', help='where the folders are made (the system\'s temporary folder)')
    parser.add_argument('--seed', type=int, help='of the random numbers; it is printed')
    options = parser.parse_args()
    program = os.path.abspath(options.program)
    seed = random.randrange(1 << 32) if options.seed is None else options.seed
    random.seed(seed)
    print(f'seed {seed}')
    try:
        second_program(program, options.folder)
        stops(program, options.folder, options.kills)
        many_writers(program, options.folder, options.kills // 3)
        hostile(program, options.folder)
    except (Wrong, subprocess.TimeoutExpired) as fault:
        sys.exit(f'wrong: {fault}')


if __name__ == '__main__':
    main()

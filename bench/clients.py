#!/usr/bin/env python3
"""Time of requests to `aasd serve` over TCP, with one client and with many.

A submodel with a property for each client and one of 4 MB is made. Then so many clients that keep their connections open GET the value of their
property, or PATCH it, without pause, each one request at a time: how many requests a second were answered, and how long the slowest and the hundredth
slowest part took. Then one client makes 1,000 requests, first alone, then beside 400 that are connected and idle, beside 50 that send a byte a second,
and beside one that takes nothing of a reply of 60 MB: its median and its slowest request. Each reply is compared with what it must be.

The clients run in so many processes besides. The script says how much else the machine does, and ends with status 1 where requests a second fall by more
than a third from 8 clients to 400, or where a request beside idle or slow clients takes 50 ms. It wants an idle machine.
"""
import argparse
import base64
import multiprocessing
import os
import select
import socket
import statistics
import subprocess
import sys
import tempfile
import threading
import time

from stops import Folder, Wrong, connect, free_port

HERE = os.path.dirname(os.path.abspath(__file__))
PROGRAM = os.path.join(HERE, '..', 'crates', 'aasd', 'out', 'aasd')
COUNTS = (1, 8, 64, 400)
# How many requests are made in all for each count of clients.
REQUESTS = 20_000
# How many processes the clients run in.
PROCESSES = 2
ALONE = 1_000
IDLE, SLOW = 400, 50
# Of so many bytes is a submodel of which pages are asked for, and so many of it are in one page.
LARGE, LARGE_ONES = 4_000_000, 15
LIMIT_MILLIS = 50
PATIENCE = 60
# Where the program's files stand: in memory, so that no disk is measured.
FOLDER = '/dev/shm' if os.path.isdir('/dev/shm') else None


def segment(identity):
    return base64.urlsafe_b64encode(identity.encode()).decode().rstrip('=')


def request(method, target, body=''):
    length = f'Content-Length: {len(body)}\r\n' if body else ''
    return f'{method} {target} HTTP/1.1\r\nHost: localhost\r\n{length}\r\n{body}'.encode()


def reply(status, body=''):
    fields = f'Content-Type: application/json\r\nContent-Length: {len(body)}\r\n' if body else ''
    return f'HTTP/1.1 {status}\r\n{fields}\r\n{body}'.encode()


VALUES = f'/submodels/{segment("urn:values")}/submodel-elements'


def get(number):
    return request('GET', f'{VALUES}/P{number}/$value'), reply('200 OK', f'"{number}"')


def patch(number):
    return request('PATCH', f'{VALUES}/P{number}/$value', f'"{number}"'), reply('204 No Content')


def documents(program, folder):
    """Makes the documents through `pipe`."""
    properties = ','.join(f'{{"idShort":"P{number}","modelType":"Property","value":"{number}","valueType":"xs:string"}}' for number in range(max(COUNTS)))
    bodies = [f'{{"id":"urn:values","modelType":"Submodel","submodelElements":[{properties}]}}']
    for number in range(LARGE_ONES):
        text = 'x' * LARGE
        bodies.append(f'{{"id":"urn:large:{number:02}","modelType":"Submodel","submodelElements":'
                      f'[{{"idShort":"P","modelType":"Property","value":"{text}","valueType":"xs:string"}}]}}')
    run = subprocess.run([program, 'pipe'], cwd=folder, input=b''.join(request('POST', '/submodels', body) for body in bodies), stdout=subprocess.PIPE,
                         timeout=PATIENCE, check=False)
    if run.stdout.count(b'201 Created') != len(bodies):
        raise Wrong(f'the documents: {run.stdout[:300]!r}')


class Server:
    def __init__(self, program):
        self.program, self.folder = program, tempfile.TemporaryDirectory(dir=FOLDER)
        self.port, self.run = free_port(), None

    def __enter__(self):
        folder = Folder(self.program, self.folder.name)
        folder.init()
        documents(self.program, self.folder.name)
        self.run = folder.start('serve', f'127.0.0.1:{self.port}', '1000000')
        connect(self.port, self.run).close()
        return self

    def __exit__(self, *_):
        self.run.kill()
        self.run.communicate()
        self.folder.cleanup()

    def connect(self):
        link = socket.create_connection(('127.0.0.1', self.port), timeout=PATIENCE)
        link.setsockopt(socket.IPPROTO_TCP, socket.TCP_NODELAY, 1)
        return link

    def used(self):
        """The processor time of the server, in seconds."""
        with open(f'/proc/{self.run.pid}/stat', encoding='ascii') as file:
            fields = file.read().rpartition(')')[2].split()
        return (int(fields[11]) + int(fields[12])) / os.sysconf('SC_CLK_TCK')


def others(server):
    """How many processors the rest of the machine keeps busy for a second."""
    def ticks():
        with open('/proc/stat', encoding='ascii') as file:
            fields = [int(word) for word in file.readline().split()[1:]]
        return sum(fields) - fields[3] - fields[4]
    before, own = ticks(), server.used()
    time.sleep(1)
    return (ticks() - before) / os.sysconf('SC_CLK_TCK') - (server.used() - own)


class Client:
    """A connection on which one request is made after another."""

    def __init__(self, link, call):
        self.link, self.call = link, call
        self.got, self.begun = b'', 0

    def ask(self):
        self.begun = time.monotonic()
        self.link.sendall(self.call[0])

    def is_answered(self):
        piece = self.link.recv(1 << 16)
        self.got += piece
        wanted = self.call[1]
        if not piece or not wanted.startswith(self.got):
            raise Wrong(f'got {self.got[:200]!r}, wanted {wanted[:200]!r}')
        if len(self.got) < len(wanted):
            return None
        self.got = b''
        return time.monotonic() - self.begun

    def once(self):
        self.ask()
        took = None
        while took is None:
            took = self.is_answered()
        return took


def many(server, calls, requests, start, times):
    """Runs clients, each with one of the calls, until so many requests are answered."""
    clients = {}
    poll = select.epoll()
    for call in calls:
        client = Client(server.connect(), call)
        clients[client.link.fileno()] = client
        poll.register(client.link, select.EPOLLIN)
        client.once()
    start.wait()
    took = []
    for client in clients.values():
        client.ask()
    waiting = len(clients)
    while waiting:
        for number, _ in poll.poll(PATIENCE) or [(None, None)]:
            if number is None:
                raise Wrong('a client was not answered')
            time_of = clients[number].is_answered()
            if time_of is None:
                continue
            took.append(time_of)
            if len(took) + waiting <= requests:
                clients[number].ask()
            else:
                waiting -= 1
    times.put(took)


def throughput(server, make, count, requests):
    """Requests a second, the server's processor time for one, and the times, where so many clients ask without pause."""
    processes = min(PROCESSES, count)
    start, queue = multiprocessing.Barrier(processes + 1), multiprocessing.Queue()
    calls = [make(number) for number in range(count)]
    runs = [multiprocessing.Process(target=many, args=(server, calls[at::processes], requests // processes, start, queue)) for at in range(processes)]
    for run in runs:
        run.start()
    start.wait(PATIENCE)
    begun, used = time.monotonic(), server.used()
    took = [time_of for _ in runs for time_of in queue.get(timeout=2 * PATIENCE)]
    passed, used = time.monotonic() - begun, server.used() - used
    for run in runs:
        run.join()
    return len(took) / passed, used / len(took), sorted(took)


def table(server, requests, runs):
    """The figures for each count of clients. Gives the requests a second of GET."""
    rates = {}
    print(f'{"clients":>8} {"":6} {"requests/s":>11} {"server us":>10} {"99 of 100, ms":>14} {"slowest, ms":>12}')
    for name, make in (('GET', get), ('PATCH', patch)):
        for count in COUNTS:
            best = max((throughput(server, make, count, requests) for _ in range(runs)), key=lambda figures: figures[0])
            rate, used, took = best
            rates[name, count] = rate
            print(f'{count:8} {name:6} {rate:11.0f} {used * 1e6:10.1f} {took[len(took) * 99 // 100] * 1e3:14.2f} {took[-1] * 1e3:12.2f}', flush=True)
    return rates


def slowest(server, what):
    """Makes requests one after another, and prints how long they took. Gives the slowest one."""
    client = Client(server.connect(), get(0))
    took = sorted(client.once() for _ in range(ALONE))
    client.link.close()
    print(f'{what:32} median {statistics.median(took) * 1e3:7.3f} ms, slowest {took[-1] * 1e3:9.3f} ms', flush=True)
    return took[-1]


def beside_idle(server):
    links = [server.connect() for _ in range(IDLE)]
    for number, link in enumerate(links):
        Client(link, get(number)).once()
    before = server.used()
    time.sleep(2)
    idle = server.used() - before
    took = slowest(server, f'beside {IDLE} idle ones')
    print(f'{"":32} {IDLE} idle clients alone took {idle * 1e3:.0f} ms of processor time in 2 s')
    for link in links:
        link.close()
    return took


def beside_slow(server):
    """Beside clients that send a byte a second."""
    links, stop = [server.connect() for _ in range(SLOW)], threading.Event()
    text = request('GET', f'{VALUES}/P0/$value')

    def send():
        at = 0
        while not stop.wait(1 / SLOW):
            links[at % SLOW].sendall(text[at // SLOW % len(text):][:1])
            at += 1
    thread = threading.Thread(target=send)
    thread.start()
    time.sleep(1)
    try:
        return slowest(server, f'beside {SLOW} with a byte a second')
    finally:
        stop.set()
        thread.join()
        for link in links:
            link.close()


def beside_greedy(server):
    """Beside one that takes nothing of a large reply."""
    with socket.socket() as link:
        link.setsockopt(socket.SOL_SOCKET, socket.SO_RCVBUF, 4096)
        link.connect(('127.0.0.1', server.port))
        link.sendall(request('GET', '/submodels?limit=1000'))
        time.sleep(0.2)
        took = slowest(server, 'beside one that takes nothing')
        slowest(server, 'then')
    return took


def main():
    parser = argparse.ArgumentParser(description=__doc__, formatter_class=argparse.RawDescriptionHelpFormatter)
    parser.add_argument('--program', default=PROGRAM, help='the program (as the script aasd has built it)')
    parser.add_argument('--requests', type=int, default=REQUESTS, help=f'how many requests are made for each count ({REQUESTS})')
    parser.add_argument('--runs', type=int, default=3, help='how often, of which the fastest is told (3)')
    parser.add_argument('--alone', action='store_true', help='only the table for one client')
    options = parser.parse_args()
    global COUNTS  # pylint: disable=global-statement
    if options.alone:
        COUNTS = COUNTS[:1]
    wrong = []
    try:
        with Server(os.path.abspath(options.program)) as server:
            print(f'the rest of the machine keeps {others(server):.1f} of {os.cpu_count()} processors busy')
            rates = table(server, options.requests, options.runs)
            if options.alone:
                return
            for name in ('GET', 'PATCH'):
                if rates[name, 400] < rates[name, 8] * 2 / 3:
                    wrong.append(f'{name}: {rates[name, 8]:.0f} requests a second with 8 clients, {rates[name, 400]:.0f} with 400')
            slowest(server, 'alone')
            for took in (beside_idle(server), beside_slow(server)):
                if took * 1e3 >= LIMIT_MILLIS:
                    wrong.append(f'a request took {took * 1e3:.0f} ms')
            beside_greedy(server)
            print(f'the rest of the machine keeps {others(server):.1f} of {os.cpu_count()} processors busy')
    except (Wrong, subprocess.TimeoutExpired) as fault:
        wrong.append(str(fault))
    if wrong:
        sys.exit('wrong: ' + '; '.join(wrong))


if __name__ == '__main__':
    main()

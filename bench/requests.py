#!/usr/bin/env python3
"""Time of one request of `aasd pipe` over growing repositories.

In each run the program gets the requests of one connection: so many small submodels are created, then batches of 100 requests are sent at once and
timed up to their last reply. A batch of GETs asks for submodels that lie apart; a batch of POSTs creates new ones, which are deleted again before the
next. So the program keeps between so many submodels and 100 more while it is timed. Each reply is compared with what it must be.

All these submodels are also listed, in pages of 100, each of which begins behind the last submodel of the one before.

Then so many elements are put into one submodel, right below it or in the innermost of ten collections, and the last of them is read and updated through
its value form, gets other metadata, and another one is added behind it and deleted again. Those right below it are listed, too. Environments of ten of so many
submodels are asked for, with the concept descriptions that these take along, beside as many others. Shells are looked up by asset ids: each has a global
one and a specific one of its own, and one that all share; shells are created among them and deleted again. At last it is printed how much memory long replies
take beside the documents, and a property that is stored.

Printed are the microseconds for a request with 10, 100, 1,000 and 10,000 submodels, and with 10, 1,000 and 65,536 elements, those that passed and those
that the program itself ran, each the median over all batches of some runs, and how much the latter grew from the first to the last; of pages those for
each entry. The script ends with status 1 where that is past 2.5 times with submodels. With elements and with 1,000, 10,000 and 100,000 shells it is printed
alone, and of these what an asset id's place in the index takes, and how long the program opens their journal. It wants an idle machine.
"""
import argparse
import base64
import fcntl
import json
import math
import os
import select
import statistics
import subprocess
import sys
import tempfile
import time

sys.path.insert(0, os.path.join(os.path.dirname(os.path.realpath(__file__)), '..', 'scripts'))
# pylint: disable=wrong-import-position
from shared import SET_PIPE_SIZE, launched, take_launcher  # noqa: E402

COUNTS = (10, 100, 1_000, 10_000)
BATCH = 100
BATCHES = 20
# A look-up compares an identifier with as many as a search passes, log2 of their count: so many times as many with the most submodels as with the
# fewest. A request may grow as one would of which the look-up is a half where there are few.
SEARCH = math.log2(COUNTS[-1]) / math.log2(COUNTS[0])
GROWTH = (1 + SEARCH) / 2
# The entries of a page.
PAGE = 100
LONGEST_PAGE = 1_000
# The elements of the one submodel.
ELEMENTS = (10, 1_000, 65_536)
# How many collections lie around them.
DEPTHS = (0, 10)
# The most elements of a submodel.
MOST = 65_536
OWNER = 'https://example.com/submodels/elements'
# How many submodels an environment has whose time is taken, and how many one whose memory is: as many as the head of a request names.
CHOSEN = 10
MOST_CHOSEN = 200
# How many concept descriptions the latter takes along, named by elements or by one another.
TAKEN_ALONG = 10_000
# The shells among which some are looked up.
SHELLS = (1_000, 10_000, 100_000)
SHARED = {'name': 'line', 'value': 'A'}
# How many submodels with a thousand properties are there before memory is measured; four times as many come then.
OWNERS = 20
# A batch and its replies fit a pipe of this size, so that neither side waits for the other.
PIPE_SIZE = 1 << 20
# How long a reply may take, in seconds.
PATIENCE = 60
# Where the program's files stand: in memory, so that no disk is measured.
FOLDER = '/dev/shm' if os.path.isdir('/dev/shm') else None


def identifier(number):
    return f'https://example.com/submodels/{number:06}'


def submodel(number):
    """The canonical text of a small submodel."""
    elements = [
        {'idShort': 'ManufacturerName', 'modelType': 'MultiLanguageProperty', 'value': [{'language': 'en', 'text': 'Sample Ltd'}]},
        {'idShort': 'SerialNumber', 'modelType': 'Property', 'value': f'{number}', 'valueType': 'xs:string'},
        {'idShort': 'Speed', 'modelType': 'Property', 'value': f'{number % 1000}', 'valueType': 'xs:int'},
    ]
    document = {'id': identifier(number), 'idShort': 'Nameplate', 'modelType': 'Submodel', 'submodelElements': elements}
    return json.dumps(document, separators=(',', ':'), sort_keys=True)


def segment(identity):
    return base64.urlsafe_b64encode(identity.encode()).decode().rstrip('=')


def path_of(identity):
    return '/submodels/' + segment(identity)


def path(number):
    return path_of(identifier(number))


def request(line, body=''):
    length = f'Content-Length: {len(body)}\r\n' if body else ''
    return f'{line} HTTP/1.1\r\nHost: localhost\r\n{length}\r\n{body}'


def reply(status, body=''):
    fields = f'Content-Type: application/json\r\nContent-Length: {len(body)}\r\n' if body else ''
    return f'HTTP/1.1 {status}\r\n{fields}\r\n{body}'


def post(number):
    return request('POST /submodels', submodel(number)), reply('201 Created', submodel(number))


def get(number):
    return request('GET ' + path(number)), reply('200 OK', submodel(number))


def delete(number):
    return request('DELETE ' + path(number)), reply('204 No Content')


def page(target, entries, cursor, behind, limit=PAGE):
    """The page at the cursor: these entries, and the cursor of the page behind it, if there is one."""
    after = f'&cursor={cursor}' if cursor else ''
    metadata = f'{{"cursor":"{behind}"}}' if behind else '{}'
    text = f'{{"paging_metadata":{metadata},"result":[{",".join(entries)}]}}'
    return request(f'GET {target}?limit={limit}{after}'), reply('200 OK', text)


def pages(count):
    """A walk over the submodels."""
    cursor = ''
    for first in range(0, count, PAGE):
        numbers = range(first, min(first + PAGE, count))
        behind = segment(identifier(numbers[-1])) if numbers[-1] < count - 1 else ''
        yield page('/submodels', [submodel(number) for number in numbers], cursor, behind)
        cursor = behind


class Elements:
    """Requests on so many elements of one submodel. With the collections around them there are fewer than may be, so that another one has room."""

    def __init__(self, count, depth):
        self.depth = depth
        self.last = min(count, MOST - depth - 1) - 1
        self.at = path_of(OWNER) + '/submodel-elements'
        self.inside = '/' + '.'.join(['C'] * depth) if depth else ''

    def target(self, number):
        return f'{self.at}{self.inside}.P{number:x}' if self.depth else f'{self.at}/P{number:x}'

    @staticmethod
    def element(number):
        """The canonical text of a property without a value, the shortest that there is: so many fit one body."""
        return f'{{"idShort":"P{number:x}","modelType":"Property","valueType":"xs:int"}}'

    def create(self):
        text = ','.join(self.element(number) for number in range(self.last + 1))
        for _ in range(self.depth):
            text = f'{{"idShort":"C","modelType":"SubmodelElementCollection","value":[{text}]}}'
        text = f'{{"id":"{OWNER}","modelType":"Submodel","submodelElements":[{text}]}}'
        return request('POST /submodels', text), reply('201 Created', text)

    def whole(self):
        _, answer = self.create()
        return request(f'GET {path_of(OWNER)}'), answer.replace('201 Created', '200 OK', 1)

    def paths(self):
        """The paths of the elements that stand right below the submodel."""
        text = ','.join(f'"P{number:x}"' for number in range(self.last + 1))
        return request(f'GET {path_of(OWNER)}/$path'), reply('200 OK', f'[{text}]')

    def get(self, value):
        return request(f'GET {self.target(self.last)}/$value'), reply('200 OK', str(value))

    def update(self, value):
        return request(f'PATCH {self.target(self.last)}/$value', str(value)), reply('204 No Content')

    def describe(self, number):
        """The metadata of the last element, with another category."""
        form = f'{{"category":"{number}","idShort":"P{self.last:x}","modelType":"Property","valueType":"xs:int"}}'
        return request(f'PATCH {self.target(self.last)}/$metadata', form), reply('204 No Content')

    def add(self):
        text = self.element(self.last + 1)
        return request(f'POST {self.at}{self.inside}', text), reply('201 Created', text)

    def remove(self):
        return request(f'DELETE {self.target(self.last + 1)}'), reply('204 No Content')

    def pages(self):
        """A walk over the elements right below the submodel, none of which has a value yet."""
        for first in range(0, self.last + 1, PAGE):
            behind = first + PAGE if first + PAGE <= self.last else ''
            entries = [self.element(number) for number in range(first, min(first + PAGE, self.last + 1))]
            yield page(self.at, entries, first or '', behind)


class Chosen:
    """Requests for the environment of some submodels, whose elements name concept descriptions."""

    def __init__(self, submodels, concepts, chain=False):
        share = concepts // submodels
        self.concepts = {f'c{number:05}': {'id': f'c{number:05}', 'modelType': 'ConceptDescription'} for number in range(concepts)}
        if chain:
            # Each leads to the next one, and the last one back.
            for number in range(concepts):
                following = [{'keys': [{'type': 'ConceptDescription', 'value': f'c{(number + 1) % concepts:05}'}], 'type': 'ModelReference'}]
                self.concepts[f'c{number:05}']['isCaseOf'] = following
        self.submodels = {}
        for number in range(submodels):
            named = range(number * share, (number + 1) * share) if not chain else range(1)
            elements = [{'idShort': f'P{at}', 'modelType': 'Property', 'semanticId': {'keys': [{
                'type': 'GlobalReference', 'value': f'c{at:05}'}], 'type': 'ExternalReference'}, 'valueType': 'xs:int'} for at in named]
            self.submodels[f's{number:04}'] = {'id': f's{number:04}', 'modelType': 'Submodel', 'submodelElements': elements}

    @staticmethod
    def text(document):
        return json.dumps(document, separators=(',', ':'), sort_keys=True)

    def create(self):
        """All requests that create these documents."""
        for resource, documents in (('/submodels', self.submodels), ('/concept-descriptions', self.concepts)):
            for document in documents.values():
                text = self.text(document)
                yield request('POST ' + resource, text), reply('201 Created', text)

    def get(self):
        named = '&'.join('submodelIds=' + segment(identity) for identity in self.submodels)
        lists = {'conceptDescriptions': self.concepts, 'submodels': self.submodels}
        text = ','.join(f'"{name}":[{",".join(self.text(of[identity]) for identity in sorted(of))}]' for name, of in lists.items())
        return request(f'GET /serialization?{named}'), reply('200 OK', f'{{{text}}}')


class Shells:
    """Requests on so many shells with three asset ids each, one of which they share. With `plain` the texts of the two specific ones stand in extensions, by
    which no shell is looked up."""

    def __init__(self, count, plain=False):
        self.count, self.plain = count, plain

    @staticmethod
    def identity(number):
        return f'https://example.com/shells/{number:07}'

    @staticmethod
    def own(number):
        return {'name': 'serial', 'value': f'{number:07}'}

    @staticmethod
    def whole(number):
        return {'name': 'globalAssetId', 'value': f'https://example.com/assets/{number:07}'}

    def text(self, number):
        """The canonical text of a shell."""
        asset = {'assetKind': 'Instance', 'globalAssetId': self.whole(number)['value']}
        document = {'assetInformation': asset, 'id': self.identity(number), 'modelType': 'AssetAdministrationShell'}
        (document if self.plain else asset)['extensions' if self.plain else 'specificAssetIds'] = [self.own(number), SHARED]
        return json.dumps(document, separators=(',', ':'), sort_keys=True)

    def post(self, number):
        return request('POST /shells', self.text(number)), reply('201 Created', self.text(number))

    def delete(self, number):
        return request('DELETE /shells/' + segment(self.identity(number))), reply('204 No Content')

    def look_up(self, wanted, found, after=''):
        """The page of the shells that have the wanted asset ids, which are these; where it is full, further ones follow."""
        asked = '&'.join('assetIds=' + segment(json.dumps(it)) for it in wanted)
        behind = f'{{"cursor":"{segment(self.identity(found[-1]))}"}}' if len(found) == PAGE else '{}'
        cursor = f'&cursor={segment(self.identity(after))}' if after != '' else ''
        text = ','.join(f'"{self.identity(number)}"' for number in found)
        return (request(f'GET /lookup/shells?{asked}&limit={PAGE}{cursor}'),
                reply('200 OK', f'{{"paging_metadata":{behind},"result":[{text}]}}'))


class Pipe:
    """A run of the program with one connection on its console, in a folder of its own; it begins there, or goes on with what another run kept."""

    def __init__(self, program, folder, begins=True):
        if begins:
            subprocess.run([program, 'init'], cwd=folder, stdin=subprocess.DEVNULL, stdout=subprocess.DEVNULL, check=True)
        self.process = subprocess.Popen([program, 'pipe'], cwd=folder, stdin=subprocess.PIPE, stdout=subprocess.PIPE)
        self.given, self.taken = self.process.stdin.fileno(), self.process.stdout.fileno()
        for end in (self.given, self.taken):
            fcntl.fcntl(end, SET_PIPE_SIZE, PIPE_SIZE)

    def ran(self):
        """The seconds that the program has run, once it waits."""
        while True:
            with open(f'/proc/{self.process.pid}/stat', encoding='ascii') as file:
                state = file.read().rpartition(')')[2].split()[0]
            if state in 'SZ':
                with open(f'/proc/{self.process.pid}/schedstat', encoding='ascii') as file:
                    return int(file.read().split()[0]) / 1e9

    def exchange(self, calls):
        """Sends the requests at once. Answers the seconds up to the last reply, and those that the program ran."""
        sent = ''.join(call for call, _ in calls).encode()
        wanted = ''.join(answer for _, answer in calls).encode()
        pieces, missing, ran = [], len(wanted), self.ran()
        begun = time.perf_counter()
        # What is larger than a pipe is one request, whose reply begins behind its end.
        while sent:
            sent = sent[os.write(self.given, sent):]
        while missing > 0:
            ready, _, _ = select.select([self.taken], [], [], PATIENCE)
            piece = os.read(self.taken, PIPE_SIZE) if ready else b''
            pieces.append(piece)
            missing -= len(piece)
            if not piece:
                break
        took = time.perf_counter() - begun
        if b''.join(pieces) != wanted:
            sys.exit(difference(b''.join(pieces), wanted))
        return took, self.ran() - ran

    def resident(self, field='VmRSS'):
        """The bytes of memory that the program holds."""
        with open(f'/proc/{self.process.pid}/status', encoding='ascii') as file:
            return next(int(line.split()[1]) for line in file if line.startswith(f'{field}:')) * 1024

    def peak(self, calls):
        """The bytes of memory that the program holds at most while it answers, beside what it held before."""
        before = self.resident()
        with open(f'/proc/{self.process.pid}/clear_refs', 'w', encoding='ascii') as file:
            file.write('5')
        self.exchange(calls)
        return self.resident('VmHWM') - before

    def end(self):
        self.process.stdin.close()
        if self.process.wait(PATIENCE) != 0:
            sys.exit(f'pipe: status {self.process.returncode}')


def difference(got, wanted):
    """Where the replies begin to be others than they must be."""
    at = next((n for n, (one, other) in enumerate(zip(got, wanted)) if one != other), min(len(got), len(wanted)))
    begin = max(wanted.rfind(b'HTTP/1.1', 0, at + 1), 0)
    return f'got    {got[begin:begin + 400]!r}\nwanted {wanted[begin:begin + 400]!r}'


def batches(numbers):
    return [numbers[at:at + BATCH] for at in range(0, len(numbers), BATCH)]


def per_entry(times, count):
    """By the entries of a page."""
    return [tuple(time / min(PAGE, count) for time in pair) for pair in times]


def one_run(program, count):
    """What each batch of GETs, each of POSTs and each full page took, with so many submodels."""
    gets, posts, lists = [], [], []
    with tempfile.TemporaryDirectory(dir=FOLDER) as folder:
        pipe = Pipe(program, folder)
        for numbers in batches(list(range(count))):
            pipe.exchange([post(number) for number in numbers])
        for turn in range(BATCHES):
            apart = [(turn * BATCH + n) * 7919 % count for n in range(BATCH)]
            new = range(count, count + BATCH)
            gets.append(pipe.exchange([get(number) for number in apart]))
            posts.append(pipe.exchange([post(number) for number in new]))
            pipe.exchange([delete(number) for number in new])
        lists += per_entry([pipe.exchange([listed]) for listed in pages(count)], count)
        pipe.end()
    return [gets, posts, lists]


def element_run(program, count, depth):
    """What each batch of requests of a kind took, with so many elements so deep."""
    asked = Elements(count, depth)
    times = {name: [] for name in ('GET of $value', 'PATCH of $value', 'PATCH of $metadata', 'POST of an element', 'DELETE of an element')}
    with tempfile.TemporaryDirectory(dir=FOLDER) as folder:
        pipe = Pipe(program, folder)
        pipe.exchange([asked.create()])
        if depth == 0:
            times['element on a page'] = per_entry([pipe.exchange([listed]) for listed in asked.pages()], count)
        for turn in range(BATCHES):
            value = 1000 * (turn + 1)
            times['PATCH of $value'].append(pipe.exchange([asked.update(value + n) for n in range(BATCH)]))
            times['GET of $value'].append(pipe.exchange([asked.get(value + BATCH - 1)] * BATCH))
            times['PATCH of $metadata'].append(pipe.exchange([asked.describe(value + n) for n in range(BATCH)]))
            pipe.exchange([asked.get(value + BATCH - 1)])
            for _ in range(BATCH // 20):
                times['POST of an element'].append(pipe.exchange([asked.add()]))
                times['DELETE of an element'].append(pipe.exchange([asked.remove()]))
        pipe.end()
    return {name: [(passed / (BATCH if '$' in name else 1), ran / (BATCH if '$' in name else 1)) for passed, ran in of] for name, of in times.items()}


def chosen_run(program, count):
    """What requests for the environment of ten submodels took, beside so many others."""
    chosen = Chosen(CHOSEN, CHOSEN)
    with tempfile.TemporaryDirectory(dir=FOLDER) as folder:
        pipe = Pipe(program, folder)
        for numbers in batches(list(range(count))):
            pipe.exchange([post(number) for number in numbers])
        pipe.exchange(list(chosen.create()))
        took = [tuple(time / BATCH for time in pipe.exchange([chosen.get()] * BATCH)) for _ in range(BATCHES)]
        pipe.end()
    return took


def shells_run(program, count):
    """What requests on shells took, with so many of even numbers, and how long the program opened their journal."""
    shells = Shells(count)
    apart = [2 * ((n * 7919) % (count - 2 * PAGE)) for n in range(BATCH)]
    times = {name: [] for name in ('look-up by an id of one shell', 'look-up by the shared id, a page', 'look-up by both',
                                   'POST of a shell', 'DELETE of a shell')}
    with tempfile.TemporaryDirectory(dir=FOLDER) as folder:
        pipe = Pipe(program, folder)
        for numbers in batches(list(range(0, 2 * count, 2))):
            pipe.exchange([shells.post(number) for number in numbers])
        pipe.end()
        begun = time.perf_counter()
        Pipe(program, folder, begins=False).end()
        times['opening'] = [(time.perf_counter() - begun,) * 2]
        pipe = Pipe(program, folder, begins=False)
        for _ in range(BATCHES):
            times['look-up by an id of one shell'].append(pipe.exchange([shells.look_up([shells.whole(n)], [n]) for n in apart]))
            pages_of = [shells.look_up([SHARED], list(range(n + 2, n + 2 + 2 * PAGE, 2)), after=n) for n in apart[:10]]
            times['look-up by the shared id, a page'].append(tuple(10 * time for time in pipe.exchange(pages_of)))
            times['look-up by both'].append(pipe.exchange([shells.look_up([SHARED, shells.own(n)], [n]) for n in apart]))
            times['POST of a shell'].append(pipe.exchange([shells.post(n + 1) for n in apart]))
            times['DELETE of a shell'].append(pipe.exchange([shells.delete(n + 1) for n in apart]))
        pipe.end()
    return times


def memory_of_shells(program, count, plain):
    """The bytes of memory for each shell that is stored."""
    shells = Shells(count, plain)
    with tempfile.TemporaryDirectory(dir=FOLDER) as folder:
        pipe = Pipe(program, folder)
        before = pipe.resident()
        for numbers in batches(list(range(count))):
            pipe.exchange([shells.post(number) for number in numbers])
        grown = pipe.resident() - before
        pipe.end()
    return grown / count


def memory_of_chosen(program, chosen):
    """The most memory that the environment takes beside the documents."""
    with tempfile.TemporaryDirectory(dir=FOLDER) as folder:
        pipe = Pipe(program, folder)
        for calls in batches(list(chosen.create())):
            pipe.exchange(calls)
        taken = pipe.peak([chosen.get()])
        pipe.end()
    return taken


def stored_property(program):
    """The bytes of memory for each property that is stored, by many submodels with a thousand of them."""
    def create(owner):
        elements = ','.join(Elements.element(number) for number in range(1_000))
        text = f'{{"id":"{OWNER}/{owner}","modelType":"Submodel","submodelElements":[{elements}]}}'
        return request('POST /submodels', text), reply('201 Created', text)

    with tempfile.TemporaryDirectory(dir=FOLDER) as folder:
        pipe = Pipe(program, folder)
        for owner in range(OWNERS):
            pipe.exchange([create(owner)])
        before = pipe.resident()
        for owner in range(OWNERS, 5 * OWNERS):
            pipe.exchange([create(owner)])
        grown = pipe.resident() - before
        pipe.end()
    return grown / (4 * OWNERS * 1_000)


def memory_of_texts(program):
    """The most memory that long replies take, beside the documents: those that are poured, and for comparison one that is built."""
    with tempfile.TemporaryDirectory(dir=FOLDER) as folder:
        pipe = Pipe(program, folder)
        for numbers in batches(list(range(LONGEST_PAGE))):
            pipe.exchange([post(number) for number in numbers])
        entries = [submodel(number) for number in range(LONGEST_PAGE)]
        listed = pipe.peak([page('/submodels', entries, '', '', LONGEST_PAGE)])
        pipe.end()
    with tempfile.TemporaryDirectory(dir=FOLDER) as folder:
        pipe = Pipe(program, folder)
        asked = Elements(MOST, 0)
        pipe.exchange([asked.create()])
        whole, built = pipe.peak([asked.whole()]), pipe.peak([asked.paths()])
        pipe.end()
    return {
        f'a page of {LONGEST_PAGE} submodels': listed,
        f'a submodel of {MOST - 1} elements': whole,
        'its paths, for comparison': built,
        f'an environment of {MOST_CHOSEN} submodels': memory_of_chosen(program, Chosen(MOST_CHOSEN, MOST_CHOSEN)),
        f'the same with {TAKEN_ALONG} concept descriptions': memory_of_chosen(program, Chosen(MOST_CHOSEN, TAKEN_ALONG)),
        'the same where each leads to the next': memory_of_chosen(program, Chosen(MOST_CHOSEN, TAKEN_ALONG, chain=True)),
    }


def print_elements(program, runs, depth):
    took = {count: [element_run(program, count, depth) for _ in range(runs)] for count in ELEMENTS}
    for name in took[10][0]:
        print(f'{name}, {depth} collections deep')
        own = []
        for count, of in took.items():
            passed, ran = (statistics.median(times) * 1e6 for times in zip(*(pair for run in of for pair in run[name])))
            own.append(ran)
            print(f'  {count:6} elements {passed:10.1f} us each, {ran:10.1f} of them run')
        print(f'  grew {own[-1] / own[0]:.1f} times')


def print_chosen(program, runs):
    print(f'environment of {CHOSEN} submodels and {CHOSEN} concept descriptions')
    own = []
    for count in COUNTS:
        pairs = [pair for _ in range(runs) for pair in chosen_run(program, count)]
        passed, ran = (statistics.median(times) * 1e6 for times in zip(*pairs))
        own.append(ran)
        print(f'  {count:6} submodels beside {passed:8.1f} us each, {ran:8.1f} of them run')
    print(f'  grew {own[-1] / own[0]:.2f} times')


def print_shells(program):
    took = {count: shells_run(program, count) for count in SHELLS}
    for name in (it for it in took[SHELLS[0]] if it != 'opening'):
        print(name)
        own = []
        for count, times in took.items():
            passed, ran = (statistics.median(of) / BATCH * 1e6 for of in zip(*times[name]))
            own.append(ran)
            print(f'  {count:6} shells {passed:10.1f} us each, {ran:10.1f} of them run')
        print(f'  grew {own[-1] / own[0]:.2f} times')
    print('opening a journal')
    for count, times in took.items():
        print(f'  {count:6} shells {times["opening"][0][0]:10.3f} s')
    indexed, plain = (memory_of_shells(program, SHELLS[1], it) for it in (False, True))
    print('shell with three asset ids that is stored')
    print(f'  {indexed:6.0f} bytes of memory, of them {(indexed - plain) / 2:.0f} for an asset id\'s place in the index')


def main():
    parser = argparse.ArgumentParser(description=__doc__, formatter_class=argparse.RawDescriptionHelpFormatter)
    take_launcher(parser)
    parser.add_argument('--runs', type=int, default=5, help='runs for each count of submodels (5)')
    options = parser.parse_args()
    program = launched(options.program)
    good = True
    took = {count: [] for count in COUNTS}
    for _ in range(options.runs):
        for count in COUNTS:
            took[count].append(one_run(program, count))
    for kind, (name, size) in enumerate((('GET of a submodel', BATCH), ('POST of a submodel', BATCH), ('submodel on a page', 1))):
        print(name)
        own = []
        for count in COUNTS:
            passed, ran = (statistics.median(times) / size * 1e6 for times in zip(*(pair for run in took[count] for pair in run[kind])))
            own.append(ran)
            print(f'  {count:6} submodels {passed:8.1f} us each, {ran:8.1f} of them run')
        growth = own[-1] / own[0]
        good = good and growth <= GROWTH
        print(f'  grew {growth:.2f} times')
    for depth in DEPTHS:
        print_elements(program, options.runs, depth)
    print_chosen(program, options.runs)
    print_shells(program)
    print('memory beside the documents, at most')
    for text, taken in memory_of_texts(program).items():
        print(f'  {taken / 1_000:8.0f} kB for {text}')
    print('property without a value that is stored')
    print(f'  {stored_property(program):6.0f} bytes of memory')
    sys.exit(0 if good else 1)


if __name__ == '__main__':
    main()

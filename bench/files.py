#!/usr/bin/env python3
"""Time and memory of `aasd import`, `export` and `checkpoint` over growing files, and of opening a large journal; time of `aasd conform`.

A file is an environment in its canonical text: one submodel with so many properties, or so many small submodels. It is imported into a new folder, and
exported and made a checkpoint of in a folder that has it. Each run opens the journal first; the record of an import is read back by the next command, so
that the figures of `export` and `checkpoint` have its replay in them. What is printed is compared with what it must be: the counts of the documents, the
file itself, and the length of the record.

Printed are the file's size, the time that passed and the part of it that the program itself ran, each the least of some runs and less that of the same
command without documents, that part for a byte, and the peak memory, looked at every millisecond, with its ratio to the file. The script ends with
status 1 where, from a tenth of the size to the whole, the time that was run for a byte grows past 2 times, or the peak memory for a byte does, less
that without documents; and where a submodel of 65,536 properties isn't compared with a template that has 1,000 in less than a second, without the
replay of the journal. It wants an idle machine. The program's files are kept in memory where the system has a folder for that, so no disk is measured.
"""
import argparse
import base64
import filecmp
import os
import random
import resource
import subprocess
import sys
import tempfile
import time

sys.path.insert(0, os.path.join(os.path.dirname(os.path.realpath(__file__)), '..', 'scripts'))
# pylint: disable=wrong-import-position
from shared import launched, take_launcher  # noqa: E402

GROWTH = 2
FOLDER = '/dev/shm' if os.path.isdir('/dev/shm') else None
# How many submodels are created one by one.
CREATED = 100_000
# How many properties a template has, and a submodel that conforms to it; and in how many seconds it is to be told.
WANTED, COMPARED = 1_000, 65_536
LONGEST = 1
# A large journal: so many imports, each of so many submodels of as many properties as a submodel may have.
IMPORTS, SUBMODELS, PROPERTIES = 7, 7, 65_536
# What a record of an import and the file around it have beside the text: the tag, its length, and header, gates and length.
AROUND = 19


def property_text(number):
    return f'{{"idShort":"P{number}","modelType":"Property","value":"{number * 37 % 1000}","valueType":"xs:int"}}'


def submodel_text(number):
    return (f'{{"id":"https://example.com/submodels/{number:06}","idShort":"Nameplate","modelType":"Submodel","submodelElements":['
            '{"idShort":"ManufacturerName","modelType":"MultiLanguageProperty","value":[{"language":"en","text":"Sample Ltd"}]},'
            f'{{"idShort":"SerialNumber","modelType":"Property","value":"{number}","valueType":"xs:string"}},'
            f'{{"idShort":"Speed","modelType":"Property","value":"{number % 1000}","valueType":"xs:int"}}]}}')


def listed(item, count):
    """The items with commas between them, one after another: a file is never in this script's own memory."""
    for number in range(count):
        yield (',' if number else '') + item(number)


def large_submodel(number, count):
    yield f'{{"id":"https://example.com/submodels/{number}","modelType":"Submodel","submodelElements":['
    yield from listed(property_text, count)
    yield ']}'


def one_submodel(count):
    yield '{"submodels":['
    yield from large_submodel(0, count)
    yield ']}'


def small_submodels(count):
    yield '{"submodels":['
    yield from listed(submodel_text, count)
    yield ']}'


# What a file has, its text, the submodels of so many, the counts, and the commands that are measured with it.
FAMILIES = [
    ('properties of one submodel', one_submodel, lambda count: 1, (6_554, 65_536), ('import', 'export', 'checkpoint')),
    ('small submodels', small_submodels, lambda count: count, (200, 2_000), ('import', 'export')),
    ('small submodels', small_submodels, lambda count: count, (1_000, 10_000), ('checkpoint',)),
]


class Case:
    """A file, and folders with its documents."""

    def __init__(self, program, folder, pieces, submodels):
        self.program, self.folder = program, folder
        self.given = self.at('given')
        with open(self.given, 'w', encoding='utf-8') as file:
            file.writelines(pieces)
        self.size = os.path.getsize(self.given)
        self.line = f'imported 0 shells, {submodels} submodels, 0 concept descriptions\n'
        self.full = tempfile.mkdtemp(dir=folder)
        self.quiet('init', self.full)
        self.quiet('import', self.full)

    def at(self, name):
        return os.path.join(self.folder, name)

    def start(self, word, folder):
        with open(self.given, 'rb') as given, open(self.at('printed'), 'wb') as printed:
            return subprocess.Popen([self.program, word], cwd=folder, stdin=given, stdout=printed)

    def quiet(self, word, folder):
        status = self.start(word, folder).wait()
        if status != 0:
            sys.exit(f'{word}: status {status}')

    def where(self, word):
        """The folder in which the command is run: an import has a new one."""
        if word != 'import':
            return self.full
        folder = tempfile.mkdtemp(dir=self.folder)
        self.quiet('init', folder)
        return folder

    def check(self, word, status):
        """Ends the script where the command did something else than it must."""
        if word == 'export':
            with open(self.given, 'ab') as given:
                given.write(b'\n')
            right = filecmp.cmp(self.given, self.at('printed'), shallow=False)
            os.truncate(self.given, self.size)
        else:
            wanted = self.line if word == 'import' else f'checkpoint {self.size + AROUND}\n'
            with open(self.at('printed'), encoding='utf-8') as printed:
                right = printed.read() == wanted
        if status != 0 or not right:
            sys.exit(f'{word}: status {status}, or it printed something else than it must')

    def timed(self, word):
        """The seconds that passed in a run of the command, and those that the program ran."""
        folder = self.where(word)
        begun = time.perf_counter()
        process = self.start(word, folder)
        _, status, used = os.wait4(process.pid, 0)
        passed = time.perf_counter() - begun
        process.returncode = os.WEXITSTATUS(status) if os.WIFEXITED(status) else -os.WTERMSIG(status)
        self.check(word, process.returncode)
        return passed, used.ru_utime + used.ru_stime

    def peak(self, word):
        """The most bytes of memory that a run of the command had."""
        folder, most = self.where(word), 0
        process = self.start(word, folder)
        while process.poll() is None:
            most = max(most, memory(process.pid))
            time.sleep(0.001)
        self.check(word, process.returncode)
        return most

    def figures(self, word, runs):
        """The least times of some runs, and the peak memory of one."""
        times = [self.timed(word) for _ in range(runs)]
        return min(passed for passed, _ in times), min(ran for _, ran in times), self.peak(word)


def memory(process):
    """The peak memory of a process up to now, or 0 where it is just ending."""
    try:
        with open(f'/proc/{process}/status', encoding='ascii') as status:
            return next((int(line.split()[1]) * 1024 for line in status if line.startswith('VmHWM')), 0)
    except (FileNotFoundError, ProcessLookupError):
        return 0


def measured(options, pieces, submodels, words):
    """The size of a file, and the figures of each command with it."""
    with tempfile.TemporaryDirectory(dir=FOLDER) as folder:
        case = Case(options.program, folder, pieces, submodels)
        return case.size, {word: case.figures(word, options.runs) for word in words}


def created_in_any_order(options):
    """The seconds that the program runs to create so many submodels in an order of chance, and then to open the journal of that."""
    numbers = list(range(CREATED))
    random.Random(1).shuffle(numbers)
    texts = (f'{{"id":"https://example.com/submodels/{number:06}","modelType":"Submodel"}}' for number in numbers)
    requests = ''.join(f'POST /submodels HTTP/1.1\r\nContent-Length: {len(text)}\r\n\r\n{text}' for text in texts)
    took = []
    with tempfile.TemporaryDirectory(dir=FOLDER) as folder:
        subprocess.run([options.program, 'init'], cwd=folder, stdout=subprocess.DEVNULL, check=True)
        for given in (requests.encode(), b''):
            begun = resource.getrusage(resource.RUSAGE_CHILDREN)
            replies = subprocess.run([options.program, 'pipe'], cwd=folder, input=given, stdout=subprocess.PIPE, check=True).stdout
            ended = resource.getrusage(resource.RUSAGE_CHILDREN)
            took.append(ended.ru_utime + ended.ru_stime - begun.ru_utime - begun.ru_stime)
            if replies.count(b'HTTP/1.1 201 Created\r\n') != given.count(b'POST /submodels '):
                sys.exit('not all submodels were created')
    return took


def opened_large(options):
    """The bytes of a large journal, the seconds that the program runs to open it, and its peak memory then."""
    name = base64.urlsafe_b64encode(f'https://example.com/submodels/{IMPORTS * SUBMODELS - 1}'.encode()).decode()
    request = f'GET /submodels/{name}/submodel-elements/P{PROPERTIES - 1}/$value HTTP/1.1\r\n\r\n'
    with tempfile.TemporaryDirectory(dir=FOLDER) as folder:
        subprocess.run([options.program, 'init'], cwd=folder, stdout=subprocess.DEVNULL, check=True)
        for first in range(0, IMPORTS * SUBMODELS, SUBMODELS):
            with open(os.path.join(folder, 'given'), 'w+b') as given:
                pieces = (''.join(large_submodel(number, PROPERTIES)) for number in range(first, first + SUBMODELS))
                given.write(b'{"submodels":[')
                given.writelines((b',' if place else b'') + piece.encode() for place, piece in enumerate(pieces))
                given.write(b']}')
                given.seek(0)
                subprocess.run([options.program, 'import'], cwd=folder, stdin=given, stdout=subprocess.DEVNULL, check=True)
        size, most = os.path.getsize(os.path.join(folder, 'aas.journal')), 0
        with open(os.path.join(folder, 'given'), 'w+b') as given, open(os.path.join(folder, 'printed'), 'w+b') as printed:
            given.write(request.encode())
            given.seek(0)
            process = subprocess.Popen([options.program, 'pipe'], cwd=folder, stdin=given, stdout=printed)
            ended = 0
            while not ended:
                most = max(most, memory(process.pid))
                time.sleep(0.001)
                ended, status, used = os.wait4(process.pid, os.WNOHANG)
            process.returncode = os.WEXITSTATUS(status) if os.WIFEXITED(status) else -os.WTERMSIG(status)
            printed.seek(0)
            if process.returncode != 0 or not printed.read().startswith(b'HTTP/1.1 200 OK\r\n'):
                sys.exit('the large journal was not opened')
    return size, used.ru_utime + used.ru_stime, most


def template_property_text(number):
    cardinality = '{"type":"SMT/Cardinality","value":"OneToMany","valueType":"xs:string"}'
    return f'{{"idShort":"P{number}","modelType":"Property","qualifiers":[{cardinality}],"valueType":"xs:int"}}'


def compared_property_text(number):
    return f'{{"idShort":"P{number % WANTED}_{number // WANTED}","modelType":"Property","valueType":"xs:int"}}'


def submodel_with(id, kind, item, count):
    return f'{{"id":"{id}","kind":"{kind}","modelType":"Submodel","submodelElements":[{"".join(listed(item, count))}]}}'


def least(program, words, folder, runs, wanted):
    """The least seconds of some runs that passed, and that the program ran. It must end with this status and print this line."""
    times = []
    for _ in range(runs):
        before, begun = resource.getrusage(resource.RUSAGE_CHILDREN), time.perf_counter()
        told = subprocess.run([program, *words], cwd=folder, stdin=subprocess.DEVNULL, stdout=subprocess.PIPE, check=False)
        passed, after = time.perf_counter() - begun, resource.getrusage(resource.RUSAGE_CHILDREN)
        if (told.returncode, told.stdout) != wanted:
            sys.exit(f'{words[0]}: status {told.returncode}, or it printed something else than it must')
        times.append((passed, after.ru_utime + after.ru_stime - before.ru_utime - before.ru_stime))
    return [min(figures) for figures in zip(*times)]


def conforming(options):
    """The seconds that pass to compare a submodel with a template, and those that the program runs, both without the replay of the journal."""
    program = options.program
    template = submodel_with('urn:template', 'Template', template_property_text, WANTED)
    instance = submodel_with('urn:instance', 'Instance', compared_property_text, COMPARED)
    given = f'{{"submodels":[{template},{instance}]}}'.encode()
    words = [base64.urlsafe_b64encode(name).decode() for name in (b'urn:template', b'urn:instance')]
    with tempfile.TemporaryDirectory(dir=FOLDER) as folder:
        for word in ('init', 'import'):
            subprocess.run([program, word], cwd=folder, input=given, stdout=subprocess.DEVNULL, check=True)
        whole = least(program, ['conform', *words], folder, options.runs, (0, b'conforms\n'))
        # Words that stand for no identifiers are refused once the journal has been read.
        opened = least(program, ['conform', '*', '*'], folder, options.runs, (7, b'aasd: refused 6 bad identifier\n'))
    return [all_of_it - before for all_of_it, before in zip(whole, opened)]


def main():
    parser = argparse.ArgumentParser(description=__doc__, formatter_class=argparse.RawDescriptionHelpFormatter)
    take_launcher(parser)
    parser.add_argument('--runs', type=int, default=5, help='runs of each command with each file (5)')
    options = parser.parse_args()
    options.program = launched(options.program)
    _, idle = measured(options, ['{}'], 0, ('import', 'export', 'checkpoint'))
    good = True
    for name, text, submodels, counts, words in FAMILIES:
        took = [(count, *measured(options, text(count), submodels(count), words)) for count in counts]
        for word in words:
            print(f'{word}, {name}')
            each = []
            for count, size, figures in took:
                passed, ran, peak = (figure - own for figure, own in zip(figures[word], idle[word]))
                each.append((ran / size, peak / size))
                print(f'  {count:6} of them {size:9} bytes {passed * 1000:8.1f} ms, {ran * 1000:8.1f} of them run, {ran / size * 1e9:7.1f} ns a byte'
                      f' {figures[word][2] / 1e6:6.1f} MB peak {figures[word][2] / size:6.1f} times the file')
            time_grew, memory_grew = (last / first if first > 0 else 0 for first, last in zip(*each))
            good = good and time_grew <= GROWTH and memory_grew <= GROWTH
            print(f'  grew for a byte {time_grew:.2f} times in time, {memory_grew:.2f} times in memory')
    created, opened = created_in_any_order(options)
    print(f'{CREATED} submodels created in an order of chance: {created / CREATED * 1e6:.1f} us run for each, and {opened:.2f} s to open their journal')
    size, ran, most = opened_large(options)
    print(f'a journal of {size} bytes opened: {ran:.2f} s run, {ran / size * 1e9:.1f} ns a byte, {most / 1e6:.0f} MB peak, {most / size:.1f} times the journal')
    passed, ran = conforming(options)
    print(f'conform, {COMPARED} properties and a template with {WANTED}: {passed * 1000:.1f} ms, {ran * 1000:.1f} of them run, without the replay')
    sys.exit(0 if good and passed < LONGEST else 1)


if __name__ == '__main__':
    main()

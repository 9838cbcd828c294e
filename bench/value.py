#!/usr/bin/env python3
"""Time and memory of `aasd value` over growing inputs.

For each family of inputs the program, as the script `aasd` runs it, reads 1,000, 10,000 and 40,000 elements, as the children of one collection or of
nested ones, or one property with so many qualifiers. Printed are the input's size, the time (the best of some runs, less that of a run with no
command), the time for a byte, and the peak memory with its ratio to the input. The script ends with status 1 where the time for a byte grows past 1.5
times from the first to the last, or peak memory, less that of an input without any of them, passes 40 times the input. It wants an idle machine.

Inputs are files, and the script gives a large file other settings of memory than a small one; through a pipe the time for a byte grows more.
"""
import argparse
import fcntl
import json
import os
import select
import subprocess
import sys
import tempfile
import time

sys.path.insert(0, os.path.join(os.path.dirname(os.path.realpath(__file__)), '..', 'scripts'))
# pylint: disable=wrong-import-position
from shared import SET_PIPE_SIZE, launched, take_launcher  # noqa: E402

COUNTS = (1_000, 10_000, 40_000)
LIMIT = 4_194_304
RUNS = 10
SECONDS = 4
# The answer to this many characters doesn't fit a pipe, so the program waits with it.
LONG = 8192
# A word that makes no command, with the status in which the program ends at once.
NO_COMMAND = '-', 2


def text_property(n):
    return {'idShort': f'P{n}', 'modelType': 'Property', 'value': f'value {n}', 'valueType': 'xs:string'}


TYPED = [
    ('xs:anyURI', 'urn:a'), ('xs:base64Binary', 'QQ=='), ('xs:boolean', 'true'), ('xs:byte', '-128'), ('xs:date', '2024-02-29Z'),
    ('xs:dateTime', '2024-02-29T12:00:00Z'), ('xs:decimal', '2.50'), ('xs:double', '1e3'), ('xs:duration', 'P1DT2H'), ('xs:float', 'INF'),
    ('xs:gDay', '---31'), ('xs:gMonth', '--12'), ('xs:gMonthDay', '--02-29'), ('xs:gYear', '2024'), ('xs:gYearMonth', '2024-02'),
    ('xs:hexBinary', 'c0ffee'), ('xs:int', '42'), ('xs:integer', '12345678901234567890'), ('xs:long', '-7'), ('xs:negativeInteger', '-1'),
    ('xs:nonNegativeInteger', '0'), ('xs:nonPositiveInteger', '0'), ('xs:positiveInteger', '1'), ('xs:short', '7'), ('xs:string', 'text'),
    ('xs:time', '24:00:00'), ('xs:unsignedByte', '255'), ('xs:unsignedInt', '7'), ('xs:unsignedLong', '7'), ('xs:unsignedShort', '7'),
]


def typed_property(n):
    value_type, value = TYPED[n % len(TYPED)]
    return {'idShort': f'P{n}', 'modelType': 'Property', 'value': value, 'valueType': value_type}


def reference(key_type, value):
    kind = 'ExternalReference' if key_type == 'GlobalReference' else 'ModelReference'
    return {'keys': [{'type': key_type, 'value': value}], 'type': kind}


# An element of each kind, as short as the limit of the input demands for 40,000 of them.
KINDS = [
    {'modelType': 'Property', 'value': '7', 'valueType': 'xs:int'},
    {'modelType': 'MultiLanguageProperty', 'value': [{'language': 'en', 'text': 'x'}]},
    {'max': '9', 'min': '0', 'modelType': 'Range', 'valueType': 'xs:int'},
    {'contentType': 'a/b', 'modelType': 'File', 'value': '/f'},
    {'contentType': 'a/b', 'modelType': 'Blob', 'value': 'QQ=='},
    {'modelType': 'ReferenceElement'},
    {'first': reference('Submodel', 'a'), 'modelType': 'RelationshipElement', 'second': reference('Submodel', 'b')},
    {'first': reference('Submodel', 'a'), 'modelType': 'AnnotatedRelationshipElement', 'second': reference('Submodel', 'b')},
    {'entityType': 'CoManagedEntity', 'modelType': 'Entity'},
    {'direction': 'input', 'modelType': 'BasicEventElement', 'observed': reference('Submodel', 'a'), 'state': 'on'},
    {'modelType': 'Capability'},
    {'modelType': 'Operation'},
    {'modelType': 'SubmodelElementCollection'},
    {'modelType': 'SubmodelElementList', 'typeValueListElement': 'Capability'},
]


def of_each_kind(n):
    return {'idShort': f'E{n}', **KINDS[n % len(KINDS)]}


def qualified(count):
    """One property with so many qualifiers, and a long text."""
    return {**text_property(0), 'value': 'x' * LONG, 'qualifiers': [{'type': f'q{n}', 'value': f'{n}', 'valueType': 'xs:int'} for n in range(count)]}


def collection(kids, name='Bench'):
    return {'idShort': name, 'modelType': 'SubmodelElementCollection', 'value': kids}


def flat(kid, count):
    return collection([kid(n) for n in range(count)])


def nested(kid, count):
    """Collections of 100 properties, 100 of them in one, as far as they are needed."""
    kids = [kid(n) for n in range(count)]
    level = 0
    while len(kids) > 100:
        kids = [collection(kids[at:at + 100], f'L{level}_{at}') for at in range(0, len(kids), 100)]
        level += 1
    return collection(kids)


FAMILIES = [
    ('text properties', lambda count: flat(text_property, count), COUNTS),
    ('text properties, nested', lambda count: nested(text_property, count), COUNTS),
    ('all 30 types', lambda count: flat(typed_property, count), (1_000, 10_000, 30_000)),
    ('every kind', lambda count: flat(of_each_kind, count), COUNTS),
    ('every kind, nested', lambda count: nested(of_each_kind, count), COUNTS),
    ('qualifiers of one property', qualified, COUNTS),
]


def write(path, element):
    """Writes the element as compact JSON, and answers the count of bytes."""
    with open(path, 'w', encoding='utf-8') as file:
        return file.write(json.dumps(element, separators=(',', ':')))


def one_time(program, word, status, path):
    """The time in seconds of one run, which must end with this status."""
    with open(path, 'rb') as given:
        start = time.perf_counter()
        process = subprocess.run([program, word], stdin=given, stdout=subprocess.DEVNULL, check=False)
        took = time.perf_counter() - start
    if process.returncode != status:
        sys.exit(f'{path}: status {process.returncode}')
    return took


def best_time(program, path):
    """The best time in seconds of at least some runs and some seconds, less that of runs with no command, which are made in between."""
    took, idle, begun = [], [], time.perf_counter()
    while len(took) < RUNS or time.perf_counter() - begun < SECONDS:
        idle.append(one_time(program, *NO_COMMAND, path))
        took.append(one_time(program, 'value', 0, path))
    return min(took) - min(idle)


def peak_memory(program, path):
    """The peak memory in bytes. The program makes its whole answer before it gives the first byte, and waits where nobody reads on."""
    read, write = os.pipe()
    fcntl.fcntl(write, SET_PIPE_SIZE, 4096)
    with open(path, 'rb') as given:
        process = subprocess.Popen([program, 'value'], stdin=given, stdout=write)
    os.close(write)
    select.select([read], [], [])
    with open(f'/proc/{process.pid}/status') as status:
        peak = next(int(line.split()[1]) * 1024 for line in status if line.startswith('VmHWM'))
    with open(read, 'rb') as answer:
        answer.read()
    process.wait()
    return peak


def main():
    parser = argparse.ArgumentParser(description=__doc__, formatter_class=argparse.RawDescriptionHelpFormatter)
    take_launcher(parser)
    options = parser.parse_args()
    program = launched(options.program)
    good = True
    with tempfile.TemporaryDirectory() as folder:
        path = os.path.join(folder, 'input.json')
        write(path, qualified(0))
        own_size = peak_memory(program, path)
        for name, made, counts in FAMILIES:
            print(name)
            first = None
            for count in counts:
                size = write(path, made(count))
                if size > LIMIT:
                    sys.exit(f'{name}: {size} bytes are too many')
                took, peak = best_time(program, path), peak_memory(program, path)
                per_byte = took / size
                first = first or per_byte
                good = good and per_byte <= 1.5 * first and peak - own_size <= 40 * size
                print(f'  {count:6} of them {size:9} bytes {took * 1000:7.1f} ms {per_byte * 1e9:6.1f} ns a byte'
                      f' {peak / 1e6:6.1f} MB peak {peak / size:6.1f} times the input')
    sys.exit(0 if good else 1)


if __name__ == '__main__':
    main()

#!/usr/bin/env python3
"""What a program does with the drive of examples/drive.json, by the calls of client.py.

It loads the file, reads a value, writes one, pages through all submodels, and says what it did:

    ./aasd serve 127.0.0.1:8080 1000 &
    examples/drive.py 127.0.0.1:8080
"""
import os
import sys

import client

FILE = os.path.join(os.path.dirname(os.path.abspath(__file__)), 'drive.json')
# What is read and written: submodels of the file, and elements of them.
TECHNICAL_DATA, MAX_SPEED = 'https://example.com/drive-7/technical-data', 'TechnicalProperties.MaxRotationSpeed'
VALUES, SPEED = 'https://example.com/drive-7/values', 'RotationSpeed'


def tour(server):
    for _, document, done in server.load(client.environment_of(FILE)):
        if isinstance(done, client.Refused):
            raise done
        print(done, document['id'])
    print(MAX_SPEED, server.read_value(TECHNICAL_DATA, MAX_SPEED))
    before = server.read_value(VALUES, SPEED)
    server.write_value(VALUES, SPEED, 1500)
    print(SPEED, before, '->', server.read_value(VALUES, SPEED))
    for submodel in server.pages('/submodels', 2):
        print(submodel['id'], 'has', len(submodel.get('submodelElements', [])), 'elements')


def main():
    if len(sys.argv) != 2:
        sys.exit(__doc__)
    try:
        with client.Server(sys.argv[1]) as server:
            tour(server)
    except (client.Refused, client.NoReply) as fault:
        sys.exit(str(fault))


if __name__ == '__main__':
    main()

#!/usr/bin/env python3
"""A client of `aasd` to begin with, over Python's standard library alone.

    examples/client.py 127.0.0.1:8080 load examples/drive.json
    examples/client.py 127.0.0.1:8080 read https://example.com/drive-7/values RotationSpeed
    examples/client.py 127.0.0.1:8080 write https://example.com/drive-7/values RotationSpeed 1500
    examples/client.py 127.0.0.1:8080 list submodels
    examples/client.py 127.0.0.1:8080 copy https://example.com/drive-7 127.0.0.1:8090
    examples/client.py --ca plant.pem --user editor https://aas.example.com/api/v3.0 load export.json

SERVER is `host:port`, or an address with `http://` or `https://` and the path that stands before the routes, if any.
JSON is a value as `docs/HTTP.md` says it; a number with a fraction is sent as a text, which is what it is there.

`load` creates each document of the environments in the files, or replaces the one with its identifier. It goes on
behind a document that is refused, and says all refusals at the end, each with the document's place in its file, its
identifier and the server's words; mend.py beside it mends what exports of other tools are often refused for. A call
that gets no reply is made no second time: it ends the load, and so does a reply that isn't about the document, as 401.
The next `load` of the same file does what is left.

`copy` loads a shell with all that belongs to it into another server: the submodels to which it refers, and the concept
descriptions that their semantics name. Submodels that this server hasn't are passed over, each with a line. The other
server is reached by the same options.

Where a user is named, by `--user` or AASD_USER, the password comes from AASD_PASSWORD, `--password` or, where there is
a terminal, from a question. Other users of a machine may see its options, so the environment is the better place.

Status 0: all was done. Status 1: something was refused. Status 2: what is asked for can't be read, or there was no
reply, or none about the document.
"""
import argparse
import base64
import getpass
import http.client
import json
import os
import ssl
import sys
import urllib.parse

# The lists of an environment, and the resources of their documents.
COLLECTIONS = {'conceptDescriptions': '/concept-descriptions', 'submodels': '/submodels',
               'assetAdministrationShells': '/shells'}
# The most characters of a target: the head of a request has at most 16,384, and proxies often take fewer.
LONGEST_TARGET = 4_000


class Refused(Exception):
    """The server answered a call with a status of 300 or above. `words` are what it said."""

    def __init__(self, call_made, status, words):
        super().__init__(f'{call_made}: {status}, {words}')
        self.status, self.words = status, words


class NoReply(Exception):
    """A call got no reply, or one that says nothing about what was sent."""


def segment(identifier):
    """The segment of a path that stands for the identifier: base64url without padding."""
    return base64.urlsafe_b64encode(identifier.encode()).decode().rstrip('=')


def value_of(submodel, path=''):
    """The resource of the value of a submodel, or of an element in it at a path as `Motor.Speeds[0]`."""
    element = f'/submodel-elements/{urllib.parse.quote(path)}' if path else ''
    return f'/submodels/{segment(submodel)}{element}/$value'


def said(reply, content):
    """What a reply says: the text of its first message, or its reason where it isn't of the server itself."""
    try:
        message = json.loads(content)['messages'][0]
        return f"{message['code']} {message['text']}"
    except (ValueError, LookupError, TypeError):
        place = reply.getheader('Location')
        return reply.reason + (f', see {place}' if place else '')


class Server:
    """A server, reached by one connection for all calls."""

    def __init__(self, address, ca=None, is_insecure=False, user=None, password='', timeout=60):
        parts = urllib.parse.urlsplit(address if '://' in address else 'http://' + address)
        if parts.scheme not in ('http', 'https') or not parts.hostname or '@' in parts.netloc or parts.query:
            raise ValueError('SERVER is no address, or has more in it than host, port and path')
        self.prefix = parts.path.rstrip('/')
        # Whether what is sent may be read on its way.
        self.is_open = parts.scheme == 'http' and parts.hostname not in ('127.0.0.1', 'localhost', '::1')
        self.fields = {'Content-Type': 'application/json'}
        if user is not None:
            self.fields['Authorization'] = 'Basic ' + base64.b64encode(f'{user}:{password}'.encode()).decode()
        if parts.scheme == 'https':
            context = ssl.create_default_context(cafile=ca)
            if is_insecure:
                context.check_hostname, context.verify_mode = False, ssl.CERT_NONE
            self.link = http.client.HTTPSConnection(parts.hostname, parts.port, timeout=timeout, context=context)
        else:
            self.link = http.client.HTTPConnection(parts.hostname, parts.port, timeout=timeout)

    def __enter__(self):
        return self

    def __exit__(self, *_):
        self.link.close()

    def call(self, method, target, body=None):
        """Sends a request with a text as its body. Answers the JSON of the reply, or None where it has no body."""
        call_made = f'{method} {self.prefix}{target}'
        try:
            if self.link.sock is None:
                self.link.connect()
        except OSError as fault:
            raise NoReply(f'{call_made}: the server is not reached ({fault})') from None
        try:
            self.link.request(method, self.prefix + target, body, self.fields)
            reply = self.link.getresponse()
            content = reply.read()
        except (OSError, http.client.HTTPException) as fault:
            self.link.close()
            raise NoReply(f'{call_made}: no reply, so whether it was done is not known '
                          f'({type(fault).__name__}: {fault})') from None
        if reply.status >= 300:
            raise Refused(call_made, reply.status, said(reply, content))
        try:
            return json.loads(content) if content else None
        except ValueError:
            raise NoReply(f'{call_made}: the reply is not JSON') from None

    def load_document(self, resource, document):
        """Creates the document, or replaces the one with its identifier. Answers which of the two it was."""
        body = text_of(document)
        try:
            self.call('POST', resource, body)
            return 'created'
        except Refused as refusal:
            # Without the resource no document can be loaded, whatever it says.
            if refusal.status in (404, 405):
                raise NoReply(f'no AAS server is there: {refusal}') from None
            if refusal.status != 409:
                raise
        self.call('PUT', f"{resource}/{segment(document['id'])}", body)
        return 'replaced'

    def load(self, environment):
        """Loads all documents. Gives for each its pointer, the document, and what was done or why nothing was."""
        for member, resource in COLLECTIONS.items():
            for place, document in enumerate(environment.get(member) or []):
                try:
                    done = self.load_document(resource, document)
                except Refused as refusal:
                    if refusal.status < 400 or refusal.status in (401, 403) or 500 <= refusal.status != 507:
                        raise NoReply(str(refusal)) from None
                    done = refusal
                yield f'/{member}/{place}', document, done

    def read_value(self, submodel, path=''):
        """The value form of a submodel or of an element."""
        return self.call('GET', value_of(submodel, path))

    def write_value(self, submodel, path, value):
        """Changes a value, and nothing else. Whole numbers are sent as numbers, those with a fraction as texts."""
        self.call('PATCH', value_of(submodel, path), text_of(value))

    def pages(self, resource, limit=100):
        """All entries of a list, page by page."""
        cursor = ''
        while True:
            page = self.call('GET', f'{resource}?limit={limit}{cursor}')
            yield from page['result']
            if 'cursor' not in page['paging_metadata']:
                return
            cursor = '&cursor=' + urllib.parse.quote(page['paging_metadata']['cursor'])

    def has(self, resource, identifier):
        """Whether there is a document of the identifier."""
        try:
            self.call('GET', f'{resource}/{segment(identifier)}/$reference')
            return True
        except Refused as refusal:
            if refusal.status != 404:
                raise
            return False

    def submodels_of(self, shell):
        """The identifiers of the submodels to which a shell refers, each once."""
        named = {}
        for reference in self.pages(f'/shells/{segment(shell)}/submodel-refs'):
            keys = reference['keys']
            if reference['type'] == 'ModelReference' and len(keys) == 1 and keys[0]['type'] == 'Submodel':
                named[keys[0]['value']] = None
        return list(named)

    def environments(self, shell, submodels):
        """A shell, the submodels and the concept descriptions that these take along, in one environment or more."""
        target = f'/serialization?aasIds={segment(shell)}'
        for submodel in submodels:
            more = f'submodelIds={segment(submodel)}'
            if len(target) + len(more) > LONGEST_TARGET:
                yield self.call('GET', target)
                target = f'/serialization?{more}'
            else:
                target += '&' + more
        yield self.call('GET', target)


def text_of(value):
    """JSON in UTF-8, as short as it can be, since the server takes 4 MiB at once."""
    return json.dumps(value, ensure_ascii=False, separators=(',', ':')).encode('utf-8', 'surrogatepass')


def environment_of(path):
    """The environment in the file."""
    try:
        with open(path, encoding='utf-8') as file:
            environment = json.load(file)
    except (ValueError, RecursionError) as fault:
        raise ValueError(f'{path}: {fault}') from None
    if not isinstance(environment, dict) or not any(isinstance(environment.get(name), list) for name in COLLECTIONS):
        raise ValueError(f"{path}: it has no list of {' or '.join(COLLECTIONS)}, so it is no environment")
    return environment


def load_all(server, environments):
    """Loads environments, each with a name, and prints each document, and then the refusals. Answers whether there was none."""
    left = sum(len(environment.get(name) or []) for _, environment in environments for name in COLLECTIONS)
    refusals = []
    try:
        for source, environment in environments:
            for pointer, document, done in server.load(environment):
                left -= 1
                identifier = document.get('id') if isinstance(document, dict) else None
                if isinstance(done, Refused):
                    refusals.append(f'refused {source} {pointer} {identifier}: {done.status}, {done.words}')
                    done = 'refused'
                print(done, identifier)
    except NoReply as fault:
        raise NoReply(f'{fault}; {left} documents are left') from None
    finally:
        sys.stdout.flush()
        for refusal in refusals:
            print(refusal, file=sys.stderr)
    return not refusals


def load(server, options):
    return load_all(server, [(path, environment_of(path)) for path in options.files])


def copy(server, options):
    submodels = []
    for submodel in server.submodels_of(options.shell):
        if server.has('/submodels', submodel):
            submodels.append(submodel)
        else:
            print('not there', submodel)
    environments = [(options.server, environment) for environment in server.environments(options.shell, submodels)]
    with server_of(options.target, options) as target:
        return load_all(target, environments)


def read(server, options):
    print(json.dumps(server.read_value(options.submodel, options.path), ensure_ascii=False))


def write(server, options):
    try:
        value = json.loads(options.value, parse_float=str)
    except ValueError:
        raise ValueError(f"{options.value} is no JSON: a text stands in quotes, as '\"so\"' in a shell") from None
    server.write_value(options.submodel, options.path, value)


def show(server, options):
    for document in server.pages('/' + options.collection, options.limit):
        print(document['id'], document.get('idShort', ''))


def arguments():
    parser = argparse.ArgumentParser(description=__doc__, formatter_class=argparse.RawDescriptionHelpFormatter)
    parser.add_argument('server', metavar='SERVER')
    trust = parser.add_mutually_exclusive_group()
    trust.add_argument('--ca', metavar='FILE', help='trust the certificates in it, and no others')
    trust.add_argument('--insecure', action='store_true', help='trust any certificate: anyone may be the server')
    parser.add_argument('--user', default=os.environ.get('AASD_USER'))
    parser.add_argument('--password', default=os.environ.get('AASD_PASSWORD'))
    parser.add_argument('--timeout', type=float, default=60, help='seconds to wait for a reply (default: 60)')
    commands = parser.add_subparsers(dest='command', metavar='COMMAND')
    commands.required = True
    command = commands.add_parser('load', help='create or replace all documents of environments')
    command.add_argument('files', nargs='+', metavar='FILE')
    command.set_defaults(run=load)
    command = commands.add_parser('read', help='print the value of a submodel, or of an element in it')
    command.add_argument('submodel', metavar='IDENTIFIER')
    command.add_argument('path', metavar='PATH', nargs='?', default='')
    command.set_defaults(run=read)
    command = commands.add_parser('write', help='change the value of an element')
    command.add_argument('submodel', metavar='IDENTIFIER')
    command.add_argument('path', metavar='PATH')
    command.add_argument('value', metavar='JSON')
    command.set_defaults(run=write)
    command = commands.add_parser('list', help='print identifier and idShort of all documents of a sort')
    command.add_argument('collection', choices=[resource[1:] for resource in COLLECTIONS.values()])
    command.add_argument('--limit', type=int, default=100, help='entries of a page, 1 to 1000 (default: 100)')
    command.set_defaults(run=show)
    command = commands.add_parser('copy', help='load a shell with all that belongs to it into another server')
    command.add_argument('shell', metavar='IDENTIFIER')
    command.add_argument('target', metavar='SERVER')
    command.set_defaults(run=copy)
    return parser.parse_args()


def server_of(address, options):
    """The server of the address, reached as the options say."""
    server = Server(address, options.ca, options.insecure, options.user, options.password, options.timeout)
    if options.user is not None and server.is_open:
        print('without https the password may be read on its way', file=sys.stderr)
    return server


def password_of(options):
    if options.user is None or options.password is not None:
        return options.password
    if not sys.stdin.isatty():
        raise ValueError('a password is wanted: set AASD_PASSWORD')
    return getpass.getpass()


def main():
    options = arguments()
    # Texts that a terminal can't show don't end the program.
    sys.stdout.reconfigure(errors='backslashreplace')
    try:
        options.password = password_of(options)
        with server_of(options.server, options) as server:
            sys.exit(1 if options.run(server, options) is False else 0)
    except Refused as refusal:
        sys.exit(f'refused: {refusal}')
    except (NoReply, ValueError, OSError) as fault:
        print(f'ended: {fault}', file=sys.stderr)
        sys.exit(2)


if __name__ == '__main__':
    main()

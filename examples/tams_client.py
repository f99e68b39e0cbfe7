"""What the examples share: requests to a store, its times and segments, its refusals, and progress on standard error.

docs/PROFILE.md says what a store understands. All times are whole numbers of nanoseconds here.
"""
import collections
import http.client
import json
import os
import re
import subprocess
import sys
from urllib.parse import quote, urlencode, urlsplit

SECOND = 1_000_000_000
# how long an answer may take, in seconds: a store serves one connection after another, so others may come first
PATIENCE = 120
PIECE = 65_536

HINTS = {
    'NoFlow': 'put the flow first, as examples/ingest.py does, or look at the id',
    'FlowChanged': 'a flow keeps its source and its format; choose another id',
    'SourceFormat': 'a source has flows of one format alone; choose another --source',
    'ReadOnly': 'the flow takes no change; PUT false to its read_only',
    'Deleting': 'the flow is being deleted; wait until its delete request is done',
    'IdTaken': 'another client has just allocated this object; run again',
    'OtherBytes': 'an object keeps its bytes; they were cut in another way, so take the same --seconds and ffmpeg',
    'NoObject': 'the store has no bytes of this object; put them, and post the segment then',
    'Overlap': 'the flow has another segment there; choose another --start, or delete that one',
    'MediaFull': 'the store has no room for these bytes; format a bigger one',
    'JournalFull': 'a half of the store has no room for another change; format one with bigger halves',
    'UnknownObject': 'the store has no bytes of this object; one that no segment names is swept after a day',
    'ObjectDamaged': 'its bytes on the disk of the store are not those that were put; docs/GUIDE.md says what to do',
    'BadTimerange': 'a timerange is written as [0:0_10:0)',
    'BadQuery': 'docs/PROFILE.md says what a query may hold',
    'TooLarge': 'an object has at most 1073741824 bytes; take fewer --seconds',
    'NoRoute': 'is this the address of a store?',
}
SAID = {500: 'the store has no memory for it', 503: 'the disk of the store failed'}


class Failure(Exception):
    """What ends an example, as a line for its user."""


class Refusal(Failure):
    """What the store refused, by its name and detail."""

    def __init__(self, asked, status, body):
        told = value_of(body)
        told = told if isinstance(told, dict) else {}
        self.name = told.get('type', SAID.get(status, 'no refusal of a store'))
        super().__init__(f'{asked}: {status} {refusal_text(self.name, told.get("detail"))}')


class FailedSegments(Failure):
    """Segments of a list that the store didn't keep, while it kept others."""

    def __init__(self, asked, failed):
        first = failed[0]
        super().__init__(f'{asked}: {len(failed)} of the segments failed, and the others are kept; the first is'
                         f' {first["object_id"]} in {first["timerange"]}:'
                         f' {refusal_text(first["error"]["type"], first["error"].get("detail"))}')


def refusal_text(name, detail):
    """A refusal as a line for the user, with what to do on a second one."""
    return name + (f' ({detail})' if detail else '') + (f'\n  {HINTS[name]}' if name in HINTS else '')


def value_of(body):
    """The value of a JSON body, or None."""
    try:
        return json.loads(body)
    except ValueError:
        return None


def json_of(value):
    """A value as a body: as short as the store shows it, so what it shows is no longer than it may be."""
    return json.dumps(value, ensure_ascii=False, separators=(',', ':')).encode()


# ---- requests


class Store:
    """A store by its address. It has one connection at most, since a second one would wait for the first."""

    def __init__(self, address):
        self.address = address.rstrip('/')
        self.connection, self.origin = None, None

    def __enter__(self):
        return self

    def __exit__(self, *fault):
        self.close()

    def close(self):
        """Lets the next client in. A later request connects again."""
        if self.connection:
            self.connection.close()
        self.connection = None

    def connect(self, parts):
        """Takes the connection to these parts of an address. Says whether it was there before."""
        origin = parts.scheme, parts.netloc
        if self.connection and self.origin == origin:
            return True
        self.close()
        made = {'http': http.client.HTTPConnection, 'https': http.client.HTTPSConnection}.get(parts.scheme)
        if not made or not parts.netloc:
            raise Failure(f'{parts.geturl()}: no address with http:// or https://')
        self.connection, self.origin = made(parts.netloc, timeout=PATIENCE, blocksize=PIECE), origin
        return False

    def answer(self, method, address, body, fields):
        """The answer's head. A connection that was kept may have been closed meanwhile: then it is made anew once,
        but not for a POST, which may have been done."""
        parts = urlsplit(address)
        target = (parts.path or '/') + (f'?{parts.query}' if parts.query else '')
        kept = self.connect(parts)
        try:
            self.connection.request(method, target, body, fields)
            return self.connection.getresponse()
        except (http.client.HTTPException, OSError) as fault:
            self.close()
            if kept and method != 'POST' and not isinstance(fault, TimeoutError):
                if hasattr(body, 'seek'):
                    body.seek(0)
                return self.answer(method, address, body, fields)
            raise Failure(f'{method} {address}: {fault or type(fault).__name__}') from fault

    def whole(self, method, address, body=None, fields=None):
        """The answer's head and its body."""
        answer = self.answer(method, address, body, fields or {})
        try:
            told = answer.read()
        except (http.client.HTTPException, OSError) as fault:
            self.close()
            raise Failure(f'{method} {address}: {fault or type(fault).__name__}') from fault
        if answer.status >= 300:
            raise Refusal(f'{method} {address}', answer.status, told)
        return answer, told

    def ask(self, method, path, value=None):
        """The value that the store answers to a request at this path, with this value as its body. A list of segments
        of which some failed is a failure, though the others are kept."""
        body = None if value is None else json_of(value)
        told = value_of(self.whole(method, self.address + path, body)[1])
        if isinstance(told, dict) and 'failed_segments' in told:
            raise FailedSegments(f'{method} {self.address + path}', told['failed_segments'])
        return told

    def find(self, path, refusal):
        """The value at a path, or None where it is refused by this name."""
        try:
            return self.ask('GET', path)
        except Refusal as refused:
            if refused.name != refusal:
                raise
            return None

    def pages(self, path, query):
        """The values of a list, from all its pages."""
        address = self.address + path + (f'?{urlencode(query)}' if query else '')
        while address:
            answer, told = self.whole('GET', address)
            yield from value_of(told)
            link = re.search(r'<([^>]*)>; *rel="next"', answer.headers.get('Link', ''))
            address = link and link[1]

    def put_file(self, address, path):
        """Puts the bytes of a file."""
        with open(path, 'rb') as file:
            self.whole('PUT', address, file, {'Content-Length': str(os.path.getsize(path)),
                                              'Content-Type': 'application/octet-stream'})

    def get_file(self, address, path):
        """Gets bytes into a file. It has its name once they are whole, and `.part` behind it until then."""
        answer = self.answer('GET', address, None, {})
        if answer.status >= 300:
            raise Refusal(f'GET {address}', answer.status, answer.read())
        try:
            with open(path + '.part', 'wb') as file:
                while piece := answer.read(PIECE):
                    file.write(piece)
                length = file.tell()
        except http.client.HTTPException as fault:
            self.close()
            raise Failure(f'GET {address}: it broke off; run again to go on') from fault
        if length != int(answer.headers.get('Content-Length', length)):
            self.close()
            raise Failure(f'GET {address}: it broke off; run again to go on')
        os.replace(path + '.part', path)

    def media_address(self, object_id):
        """Where the bytes of an object are put and got, as docs/PROFILE.md says it."""
        return f'{self.address}/media/{quoted(object_id)}'


def quoted(name):
    """A name as a part of a path."""
    return quote(name, safe='')


# ---- times and segments


TIMESTAMP = r'-?(?:0|[1-9][0-9]*):(?:0|[1-9][0-9]{0,8})'
TIMERANGE = re.compile(rf'([\[(]?)({TIMESTAMP})?(_?)({TIMESTAMP})?([\])]?)')

# a segment of a flow: all points from `start` on and before `end`
Segment = collections.namedtuple('Segment', 'object_id start end ts_offset address')


def timestamp_of(text):
    """The nanoseconds of a timestamp."""
    if not re.fullmatch(TIMESTAMP, text):
        raise ValueError(f'{text}: no timestamp, as 10:500000000 is')
    seconds, nanoseconds = text.removeprefix('-').split(':')
    count = int(seconds) * SECOND + int(nanoseconds)
    return -count if text.startswith('-') else count


def timestamp_text(count):
    seconds, nanoseconds = divmod(abs(count), SECOND)
    return f'{"-" if count < 0 else ""}{seconds}:{nanoseconds}'


def timerange_of(text):
    """The first point of a timerange, and the one behind its last; None where it has no such end."""
    if text in ('', '()'):
        return 0, 0
    match = TIMERANGE.fullmatch(text)
    if not match or not (match[2] or match[3]) or (match[4] and not match[3]):
        raise ValueError(f'{text}: no timerange, as [0:0_10:0) is')
    opening, first, line, last, closing = match.groups()
    last = last if line else first
    start = timestamp_of(first) + (opening == '(') if first else None
    return start, timestamp_of(last) + (closing != ')') if last else None


def timerange_text(start, end):
    return f'[{timestamp_text(start)}_{timestamp_text(end)})'


def seconds_text(count):
    """A length for readers: 2 s, 0.5 s, 2.002 s."""
    return f'{count / SECOND:.3f}'.rstrip('0').rstrip('.') + ' s'


def segments_of(store, flow_id, timerange='_'):
    """The segments of a flow that a timerange touches, by rising time."""
    query = {'timerange': timerange, 'limit': 1_000}
    for shown in store.pages(f'/flows/{quoted(flow_id)}/segments', query):
        start, end = timerange_of(shown['timerange'])
        yield Segment(shown['object_id'], start, end, timestamp_of(shown['ts_offset']), shown['get_urls'][0]['url'])


# ---- words, progress and tools


class Progress:
    """A line on standard error that counts. On a terminal it is written over and over."""

    def __init__(self, quiet):
        self.quiet, self.terminal, self.width = quiet, sys.stderr.isatty(), 0

    def show(self, line):
        if self.quiet:
            return
        end = '' if self.terminal else '\n'
        sys.stderr.write(('\r' if self.terminal else '') + line.ljust(self.width) + end)
        sys.stderr.flush()
        self.width = len(line) if self.terminal else 0

    def done(self):
        """The line stays, and the next one begins below it."""
        if self.width:
            sys.stderr.write('\n')
        self.width = 0

    def tell(self, line):
        """A line by itself, also in quiet."""
        self.done()
        print(line, file=sys.stderr, flush=True)

    def note(self, line):
        """A line by itself, but in quiet."""
        if not self.quiet:
            self.tell(line)


def run_tool(words):
    """What a tool prints. Its own complaint is the failure's."""
    try:
        ended = subprocess.run(words, stdin=subprocess.DEVNULL, capture_output=True, check=False)
    except FileNotFoundError as fault:
        raise Failure(f'{words[0]} is not there: apt-get install ffmpeg') from fault
    if ended.returncode:
        raise Failure(f'{words[0]} failed: {ended.stderr.decode(errors="replace").strip()}')
    return ended.stdout.decode(errors='replace')


def run(main):
    """Ends the program: with status 0, or with a failure's line and status 1."""
    name = os.path.basename(sys.argv[0])
    try:
        main()
    except (Failure, OSError, ValueError) as failure:
        sys.exit(f'\n{name}: {failure}' if sys.stderr.isatty() else f'{name}: {failure}')
    except KeyboardInterrupt:
        sys.exit(f'\n{name}: broken off; run again to go on')

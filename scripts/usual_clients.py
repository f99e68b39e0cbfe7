"""What `run_clients` asks with: requests with what is wanted of their answers, and the clients that send them."""
import calendar
import contextlib
import dataclasses
import json
import os
import re
import subprocess
import time
from urllib.parse import parse_qsl, quote, urlsplit

try:
    import requests
except ImportError:
    requests = None

# how long anybody waits for anybody, in seconds
PATIENCE = 60
BEGIN = time.time()


# ---- what is wanted


class Form:
    """A text of which the form is known, and not each byte; and a text of this form where one is needed."""

    def __init__(self, pattern, sample='', test=lambda text: True):
        self.pattern, self.sample, self.test = re.compile(pattern), sample, test

    def fits(self, told):
        return isinstance(told, str) and self.pattern.fullmatch(told) and self.test(told)


def is_now(text):
    """The moment lies within this run, but for the seconds that clocks cut off."""
    with contextlib.suppress(ValueError):
        return BEGIN - 2 < calendar.timegm(time.strptime(text, '%Y-%m-%dT%H:%M:%SZ')) < time.time() + 2


MOMENT = Form(r'\d{4}-\d\d-\d\dT\d\d:\d\d:\d\dZ', '1970-01-01T00:00:00Z', is_now)


class Text(str):
    """A body that is sent as it stands, and not as JSON."""


class Chunks(list):
    """A body that is sent in chunks."""


class Zeros(int):
    """A body of so many zero bytes, which curl sends from a file that takes no room."""


@dataclasses.dataclass
class Ask:
    """A request, and what is wanted of its answer."""
    method: str
    target: str
    status: int = 200
    value: object = None        # what the body shows: a value of JSON, the bytes of media, or None
    sent: object = None         # the body: a value of JSON, the bytes of media, `Text`, `Chunks` or `Zeros`
    query: list = ()
    fields: dict = dataclasses.field(default_factory=dict)
    options: list = ()          # of curl
    allow: str = None
    next_key: Form = None       # that of the key of the next page, where there is one
    closes: bool = False        # the connection ends behind the answer
    interims: list = None       # the statuses before it, where they are known
    changes: int = None         # how many changes it makes with its turn; where it isn't said, one unless it is refused
    learn: str = None           # the name under which later requests know the answer

    def __post_init__(self):
        if self.changes is None:
            self.changes = int(self.status in (201, 202, 204))
        # A client that uploads decides by itself whether it waits for the word to go on.
        if self.interims is None and not isinstance(self.sent, (bytes, Chunks, Zeros)):
            self.interims = []

    def pairs(self):
        """The pairs of its query, but for the key of a page."""
        pairs = parse_qsl(urlsplit(self.target).query, True) + list(self.query)
        return [pair for pair in pairs if pair[0] != 'page']


@dataclasses.dataclass
class Answer:
    """What a client was told."""
    status: int = 0
    fields: list = ()
    body: bytes = b''
    interims: list = ()


def json_in(body):
    """The value of a body, or None where it is no JSON."""
    with contextlib.suppress(ValueError):
        return json.loads(body)


def filled(wanted, told):
    """What is wanted, with what was told in the place of each form that it has."""
    if isinstance(wanted, Form):
        return told if wanted.fits(told) else wanted.sample
    if isinstance(wanted, dict):
        told = told if isinstance(told, dict) else {}
        return {name: filled(value, told.get(name)) for name, value in wanted.items()}
    if isinstance(wanted, list):
        told = told if isinstance(told, list) else []
        return [filled(value, told[place] if place < len(told) else None) for place, value in enumerate(wanted)]
    return wanted


def content_of(ask, answer):
    """The content that is wanted: media, or compact JSON with keys in byte order."""
    if ask.value is None or isinstance(ask.value, bytes):
        return ask.value or b''
    value = filled(ask.value, json_in(answer.body))
    return json.dumps(value, separators=(',', ':'), sort_keys=True, ensure_ascii=False).encode()


def link_of(base, ask, told):
    """The link to the next page that is wanted, which may have other escapes than here."""
    wanted = base + urlsplit(ask.target).path, ask.pairs() + [('page', told.get('X-Paging-NextKey'))]
    address, behind = told.get('Link', '').removeprefix('<').partition('>')[::2]
    path, query = address.partition('?')[::2]
    if behind == '; rel="next"' and wanted == (path, parse_qsl(query, True)):
        return told['Link']
    return f'a link to {wanted}'


def fields_of(base, ask, content, answer):
    """The fields that are wanted, in their order."""
    told = dict(answer.fields)
    if ask.status != 204:
        yield 'Content-Length', str(len(content))
    if ask.value is not None:
        yield 'Content-Type', 'application/octet-stream' if isinstance(ask.value, bytes) else 'application/json'
    if ask.allow:
        yield 'Allow', ask.allow
    if ask.status == 202:
        yield 'Location', base + '/flow-delete-requests/' + json.loads(content)['id']
    if ask.next_key:
        yield 'Link', link_of(base, ask, told)
        yield 'X-Paging-NextKey', filled(ask.next_key, told.get('X-Paging-NextKey'))
    if ask.closes:
        yield 'Connection', 'close'


def differences(base, ask, answer):
    """What differs in an answer."""
    content = content_of(ask, answer)
    pairs = [('status', answer.status, ask.status),
             ('fields', list(answer.fields), list(fields_of(base, ask, content, answer)))]
    if ask.method != 'HEAD':
        pairs.append(('body', answer.body, content))
    if ask.interims is not None:
        pairs.append(('interim responses', list(answer.interims), list(ask.interims)))
    return [f'{name} {told!r:.1000}, not {wanted!r:.1000}' for name, told, wanted in pairs if told != wanted]


# ---- clients


def curl_words(ask, path):
    """The options of curl for a request. A long body is written at the path."""
    pairs = [word for name, value in ask.query for word in ('--data-urlencode', f'{quote(name)}={value}')]
    words = [*ask.options, *(['-G'] if pairs else []), *pairs]
    words += [word for field in ask.fields.items() for word in ('-H', ': '.join(field))]
    if isinstance(ask.sent, Chunks):
        return words + ['-T', '-']
    if isinstance(ask.sent, (bytes, Text)):
        with open(path, 'wb') as file:
            file.write(ask.sent if isinstance(ask.sent, bytes) else ask.sent.encode())
    if isinstance(ask.sent, Zeros):
        with open(path, 'wb') as file:
            file.truncate(ask.sent)
    if isinstance(ask.sent, (bytes, Zeros)):
        return words + ['-T', path]
    if ask.sent is not None:
        words += ['-d', '@' + path if isinstance(ask.sent, Text) else json.dumps(ask.sent, ensure_ascii=False)]
    if ask.method == 'HEAD':
        return words + ['-I']
    return words if ask.method == ('GET' if ask.sent is None else 'POST') else words + ['-X', ask.method]


def read(path):
    """The bytes of a file, and none where there is no file."""
    with contextlib.suppress(FileNotFoundError), open(path, 'rb') as file:
        return file.read()
    return b''


def curl_answer(heads, body):
    """The answer whose heads and body curl wrote."""
    heads = [head.decode('latin-1').split('\r\n') for head in heads.split(b'\r\n\r\n')[:-1]]
    if not heads:
        return Answer()
    statuses = [int(head[0].split(' ')[1]) for head in heads]
    return Answer(statuses[-1], [tuple(line.split(': ', 1)) for line in heads[-1][1:]], body, statuses[:-1])


def ask_curl(base, folder, asks):
    """The answers that one call of curl gets, how many connections it makes, and what it complains of."""
    words, paths = ['curl'], [os.path.join(folder, str(place)) for place in range(len(asks))]
    for path, ask in zip(paths, asks):
        words += ['--next'] if path != paths[0] else []
        words += ['-sS', '-D', path + '.head', '-o', path + '.body', '-w', '%{num_connects}\n']
        words += [*curl_words(ask, path + '.sent'), base + ask.target]
    given = b''.join(piece for ask in asks if isinstance(ask.sent, Chunks) for piece in ask.sent)
    clean = {name: value for name, value in os.environ.items() if not name.lower().endswith('_proxy')}
    try:
        done = subprocess.run(words, input=given, capture_output=True, timeout=PATIENCE, env=clean)
    except subprocess.TimeoutExpired:
        return [Answer()] * len(asks), 0, 'it was not done in time'
    answers = [curl_answer(read(path + '.head'), read(path + '.body')) for path in paths]
    for name in os.listdir(folder):
        os.remove(os.path.join(folder, name))
    return answers, sum(map(int, done.stdout.split())), done.stderr.decode().strip()


def session_words(ask):
    """The words of requests for a body."""
    if isinstance(ask.sent, Chunks):
        return {'data': iter(ask.sent)}
    return {'data': ask.sent} if isinstance(ask.sent, (bytes, Text)) else {'json': ask.sent}


def ask_session(base, folder, asks):
    """The same of one session of requests, which doesn't say how many connections it makes."""
    answers, complaint = [], ''
    with requests.Session() as session:
        session.trust_env = False
        for ask in asks:
            try:
                told = session.request(ask.method, base + ask.target, params=list(ask.query), headers=ask.fields,
                                       allow_redirects=False, timeout=PATIENCE, **session_words(ask))
                answers.append(Answer(told.status_code, list(told.raw.headers.items()), told.content))
            except requests.RequestException as error:
                answers.append(Answer())
                complaint = str(error)
        return answers, None, complaint

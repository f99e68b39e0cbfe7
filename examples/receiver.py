#!/usr/bin/env python3
"""Receives the events that a store sends to its webhooks, and prints each one as a line of JSON.

    examples/receiver.py 9000
    examples/receiver.py 9000 events.jsonl --key X-Key a-key

It listens on 127.0.0.1, where `tams deliver` sends events. Each is answered 204 once it is kept, and only then the store
removes it. Where a crash comes between the two the store sends it again, so one whose `event_id` was seen is dropped: it
is answered 204, and neither kept nor printed.

With a file the events are lines of it, which are on the disk before the answer, so a receiver that is started again knows
what it has. Without one it forgets that when it ends.

A request without the key is answered 401, and one that isn't an event 400; the store keeps what is so answered, and what
waits behind it for the same webhook.
"""
import argparse
import hmac
import http.server
import json
import os
import sys

sys.dont_write_bytecode = True      # the module's, which would lie beside it
from tams_client import Failure, run

# an event has some hundred bytes; one of more is none
MOST = 65_536
# how long a peer may say nothing, in seconds: another one waits for it
PATIENCE = 10


class Events:
    """The events so far, by their ids, and the file that keeps them, if there is one."""

    def __init__(self, path):
        self.seen, self.file = set(), None
        if path:
            self.file = open(path, 'a+b')       # made where it isn't there, and closed with the program
            self.read()

    def read(self):
        """Takes the ids of the lines that are there. What a crash left of a line is cut off: it wasn't answered."""
        self.file.seek(0)
        whole = 0
        for line in self.file:
            if not line.endswith(b'\n'):
                break
            self.seen.add(id_of(line))
            whole += len(line)
        self.file.truncate(whole)

    def keep(self, event):
        """Keeps and prints an event, unless it was seen."""
        if event['event_id'] in self.seen:
            return
        line = json.dumps(event, ensure_ascii=False, separators=(',', ':'))
        if self.file:
            self.file.write(line.encode() + b'\n')
            self.file.flush()
            os.fsync(self.file.fileno())
        self.seen.add(event['event_id'])
        print(line, flush=True)


def event_of(body):
    """The event that a body is, or None."""
    try:
        event = json.loads(body)
    except ValueError:
        return None
    return event if isinstance(event, dict) and isinstance(event.get('event_id'), str) else None


def id_of(line):
    """The id of the event in a line of the file."""
    event = event_of(line)
    if not event:
        raise Failure(f'a line of the file is no event: {line[:80]!r}')
    return event['event_id']


class Handler(http.server.BaseHTTPRequestHandler):
    """A request of the store, which ends its connection."""
    protocol_version, timeout = 'HTTP/1.1', PATIENCE
    # those that the program is started with, by `serve`
    events, key = None, None

    def has_key(self):
        """Whether the field of the key has its value. How long that takes tells nothing of the value."""
        if not self.key:
            return True
        name, value = self.key
        return hmac.compare_digest(self.headers.get(name, '').encode(), value.encode())

    def status(self):
        """The status of this request, once its event is kept."""
        length = self.headers.get('Content-Length', '')
        if not self.has_key():
            return 401
        if not length.isdecimal():
            return 411
        if int(length) > MOST:
            return 413
        event = event_of(self.rfile.read(int(length)))
        if not event:
            return 400
        self.events.keep(event)
        return 204

    def answer(self, status):
        self.send_response(status)
        if status != 204:
            self.send_header('Content-Length', '0')
        self.send_header('Connection', 'close')
        self.end_headers()

    def do_POST(self):
        self.answer(self.status())

    def do_GET(self):
        """For those who ask whether it listens."""
        self.answer(204)

    def log_message(self, *words):
        """Nothing is said of requests."""


class Server(http.server.HTTPServer):
    def handle_error(self, request, client_address):
        """A connection that broke is the store's to make again. Another fault, as of the file, ends the program."""
        if not isinstance(sys.exception(), ConnectionError):
            raise


def serve(words):
    Handler.events, Handler.key = Events(words.file), words.key
    with Server(('127.0.0.1', words.port), Handler) as server:
        server.serve_forever()


def port_of(text):
    port = int(text)
    if not 0 < port < 65_536:
        raise argparse.ArgumentTypeError(f'{text}: no port, as 9000 is')
    return port


def words_of():
    parser = argparse.ArgumentParser(description='Receives the events that a store sends to its webhooks.')
    parser.add_argument('port', type=port_of, help='the port of 127.0.0.1 on which it listens')
    parser.add_argument('file', nargs='?', help='keeps the events as lines of this file')
    parser.add_argument('--key', nargs=2, metavar=('NAME', 'VALUE'),
                        help="the `api_key_name` and `api_key_value` of the webhook; other requests are answered 401")
    return parser.parse_args()


def main():
    serve(words_of())


run(main)

#!/usr/bin/env python3
"""How many changes a second `tams serve` makes on loopback, and how fast it takes and gives media, beside others.

    bench/serve.py [CHANGES [OBJECTS [ROUNDS]]]

A change is the put of one flow. One client sends all of them in large pieces while it hears the answers, and one
waits for each answer. Beside them stand the ceiling of the same writes and syncs in C, and a server of Python over
SQLite, to which the waiting client puts a row that is committed (WAL, synchronous FULL, which syncs once a commit).
A half has room for all changes, so no checkpoint comes in.

An object has 4 MiB, and its client waits for each answer. Beside a PUT stands a program in C that writes as much in
pieces of 64 KiB, syncs, and writes and syncs a record: one sync less than the store, whose record has a gate that
is synced apart. Beside a PUT and a GET stands a server in C that copies: it makes the calls of the system that the
store makes, so it receives and writes pieces of 64 KiB at most and syncs three times, or reads and sends such pieces.
What lies between its rows and those of the store is the store's own; what lies between them and the other rows are the
calls. Beside a GET stands nginx with a file, where it is on the path: once it has the kernel send the file without a
copy, and once (`sendfile off`) it copies too. The time from the first byte of a request to the last one of its answer
counts.

Each round runs all in turn over fresh files in one folder; the best of the rounds of each count. BENCH_FOLDER says
in which folder the files lie. The program has to be built:
`cd crates/tams && rt run`; `TAMS` names another one.
"""
import contextlib
import http.server
import json
import multiprocessing
import os
import pwd
import shutil
import socket
import sqlite3
import subprocess
import sys
import tempfile
import threading
import time

HERE = os.path.dirname(os.path.abspath(__file__))
TAMS = os.environ.get("TAMS") or os.path.join(HERE, "..", "crates", "tams", "out", "tams")
STORE_ID = "00000000-0000-4000-8000-000000000001"
FLOW = b"/flows/00000000-0000-4000-8000-0000000000f1"
BODY = b'{"source_id":"00000000-0000-4000-8000-0000000000a1","format":"urn:x-nmos:format:video"}'
PUT = b"PUT " + FLOW + b" HTTP/1.1\r\nContent-Length: 87\r\n\r\n" + BODY
CREATED = b"HTTP/1.1 201 Created\r\nContent-Length: 0\r\n\r\n"
DONE = b"HTTP/1.1 204 No Content\r\n\r\n"
# what a record of a put takes of the journal, and what is left in a half for all else
RECORD, BLOCK, SPARE = 63, 4096, 4
# the bytes of an object, of a piece that is sent, and of one that is heard
LENGTH, SENT, HEARD = 4 * 1024 * 1024, 1024 * 1024, 1024 * 1024
# what one connection and one allocation take
MOST_REQUESTS, MOST_OBJECTS = 1_000_000, 1000
# how long anybody waits for anybody, in seconds
PATIENCE = 60


# ---- clients


def connected(port):
    """A client of this port. It waits until someone listens."""
    for _ in range(PATIENCE * 100):
        try:
            client = socket.create_connection(("127.0.0.1", port), timeout=PATIENCE)
            client.setsockopt(socket.IPPROTO_TCP, socket.TCP_NODELAY, 1)
            return client
        except ConnectionRefusedError:
            time.sleep(0.01)
    sys.exit("nobody listens")


def exactly(client, count):
    """So many bytes that a client is told, or fewer where they end."""
    told = bytearray()
    while len(told) < count and (piece := client.recv(min(count - len(told), HEARD))):
        told += piece
    return bytes(told)


def same(told, wanted):
    if told != wanted:
        sys.exit(f"unexpected: {told[:200]!r}, not {wanted[:200]!r}")


def pipelined(client, first, changes):
    """The seconds of puts that are sent without a wait, while another thread hears the answers."""
    puts, answers = memoryview(PUT * changes), first + DONE * (changes - 1)
    told = []
    listener = threading.Thread(target=lambda: told.append(exactly(client, len(answers))))
    start = time.monotonic()
    listener.start()
    for at in range(0, len(puts), SENT):
        client.sendall(puts[at : at + SENT])
    listener.join()
    seconds = time.monotonic() - start
    same(told[0], answers)
    return seconds


def waiting(client, first, changes):
    """The seconds of puts of which each waits for the answer to the one before."""
    start = time.monotonic()
    for wanted in [first] + [DONE] * (changes - 1):
        client.sendall(PUT)
        told = exactly(client, len(wanted))
        if told != wanted:
            same(told, wanted)
    return time.monotonic() - start


def asked(client, head, body, room):
    """The seconds of one request, the status of its answer, and how many bytes of its body the room then has."""
    start = time.monotonic()
    client.sendall(head)
    if body:
        client.sendall(body)
    told = b""
    while b"\r\n\r\n" not in told:
        piece = client.recv(65536)
        if not piece:
            sys.exit(f"unexpected end behind {told!r}")
        told += piece
    lines, front = told.split(b"\r\n\r\n", 1)
    fields = dict(line.lower().split(b": ", 1) for line in lines.split(b"\r\n")[1:])
    length, count = int(fields.get(b"content-length", 0)), len(front)
    room[:count] = front
    while count < length:
        piece = client.recv_into(room[count:length])
        if piece == 0:
            sys.exit("unexpected end within a body")
        count += piece
    return time.monotonic() - start, int(lines.split(b" ", 2)[1]), count


def head_of(method, target, length=None):
    counted = b"Content-Length: %d\r\n" % length if length is not None else b""
    return b"%s %s HTTP/1.1\r\nHost: 127.0.0.1\r\n%s\r\n" % (method, target, counted)


def put_objects(client, targets, body):
    """The seconds of the puts of these bytes to each target."""
    room, seconds = memoryview(bytearray(HEARD)), 0.0
    for target in targets:
        spent, status, _ = asked(client, head_of(b"PUT", target, len(body)), body, room)
        same(status, 201)
        seconds += spent
    return seconds


def get_objects(client, targets, body):
    """The seconds of the gets of each target, all of which have these bytes."""
    room, seconds = memoryview(bytearray(len(body))), 0.0
    for target in targets:
        spent, status, count = asked(client, head_of(b"GET", target), b"", room)
        same((status, count), (200, len(body)))
        if room != body:
            sys.exit("unexpected bytes of an object")
        seconds += spent
    return seconds


# ---- those who are measured


def fresh(folder, name):
    """A path at which nothing lies."""
    path = os.path.join(folder, name)
    for end in ("", "-wal", "-shm"):
        if os.path.exists(path + end):
            os.remove(path + end)
    return path


def free_port():
    """A port on which nobody listens now."""
    with socket.socket() as listener:
        listener.bind(("127.0.0.1", 0))
        return listener.getsockname()[1]


def ceiling(program, folder, blocks, *words):
    path = fresh(folder, "ceiling")
    done = subprocess.run(
        [program, path, str(blocks), *map(str, words)], check=True, capture_output=True
    )
    return float(done.stdout)


@contextlib.contextmanager
def served(folder, blocks, half, requests, changes):
    """A client of `tams serve` over a fresh store, for one connection with so many requests and changes."""
    path, port = fresh(folder, "store"), free_port()
    words = [TAMS, "format", path, str(blocks), str(half), STORE_ID]
    subprocess.run(words, check=True, capture_output=True)
    words = [TAMS, "serve", path, str(port), f"http://127.0.0.1:{port}", "1"]
    with subprocess.Popen(words, stdout=subprocess.PIPE, stderr=subprocess.PIPE) as program:
        try:
            with connected(port) as client:
                yield client
            output, errors = program.communicate(timeout=PATIENCE)
        finally:
            program.kill()
    line = f"ok: {requests} requests, {changes} changes\n".encode()
    same((program.returncode, output, errors), (0, line, b"listening on 127.0.0.1:%d\n" % port))


class Rows(http.server.BaseHTTPRequestHandler):
    """Each PUT puts its body as the row of its path, and is answered once that is committed."""

    protocol_version = "HTTP/1.1"
    disable_nagle_algorithm = True

    def do_PUT(self):
        body = self.rfile.read(int(self.headers["Content-Length"]))
        self.server.rows.execute("INSERT OR REPLACE INTO rows VALUES (?, ?)", (self.path, body))
        self.send_response_only(204)
        self.end_headers()


def keep_rows(server, path, ready):
    """Serves one connection over the rows of a file."""
    server.rows = sqlite3.connect(path, isolation_level=None)
    server.rows.execute("PRAGMA journal_mode=WAL")
    server.rows.execute("PRAGMA synchronous=FULL")
    server.rows.execute("CREATE TABLE rows (path TEXT PRIMARY KEY, body BLOB)")
    ready.set()
    server.handle_request()
    server.rows.close()


@contextlib.contextmanager
def sqlite_served(folder):
    """A client of a server of Python over SQLite, which has a fresh file and a process of its own."""
    fork = multiprocessing.get_context("fork")
    ready = fork.Event()
    with http.server.HTTPServer(("127.0.0.1", 0), Rows) as server:
        words = (server, fresh(folder, "rows"), ready)
        program = fork.Process(target=keep_rows, args=words, daemon=True)
        program.start()
        ready.wait(PATIENCE)
        with connected(server.server_port) as client:
            yield client
        program.join(PATIENCE)
    same(program.exitcode, 0)


@contextlib.contextmanager
def copying_served(folder, program, objects):
    """A client of the server in C that copies, over a fresh file, for one connection."""
    path, port = fresh(folder, "copied"), free_port()
    words = [program, str(port), path, str(objects), str(LENGTH), "1"]
    with subprocess.Popen(words, stderr=subprocess.PIPE) as server:
        try:
            with connected(port) as client:
                yield client
            _, errors = server.communicate(timeout=PATIENCE)
        finally:
            server.kill()
    same((server.returncode, errors), (0, b""))


@contextlib.contextmanager
def nginx_served(folder, sendfile):
    """A client of nginx, which gives the files of a folder, with sendfile `on` or `off`."""
    port = free_port()
    user = f"user {pwd.getpwuid(0).pw_name};" if os.geteuid() == 0 else ""
    temporary = " ".join(
        f"{name}_temp_path {folder};"
        for name in ("client_body", "proxy", "fastcgi", "uwsgi", "scgi")
    )
    with open(os.path.join(folder, "nginx.conf"), "w") as file:
        file.write(
            f"{user} daemon off; worker_processes 1; pid {folder}/nginx.pid; error_log stderr crit;\n"
            f"events {{}}\nhttp {{ access_log off; sendfile {sendfile}; tcp_nodelay on; "
            f"keepalive_requests {MOST_REQUESTS}; {temporary}\n"
            f"server {{ listen 127.0.0.1:{port}; root {folder}; }} }}\n"
        )
    words = ["nginx", "-p", folder, "-c", os.path.join(folder, "nginx.conf")]
    with subprocess.Popen(words, stderr=subprocess.DEVNULL) as program:
        try:
            with connected(port) as client:
                yield client
        finally:
            program.terminate()


# ---- rounds


def round_of_changes(folder, program, changes):
    """The seconds of so many changes of each who makes them."""
    half = changes * RECORD // BLOCK + SPARE
    blocks = 2 * half + 3
    seconds = {"ceiling": ceiling(program, folder, blocks, changes)}
    with served(folder, blocks, half, changes, changes) as client:
        seconds["serve, pipelined"] = pipelined(client, CREATED, changes)
    with served(folder, blocks, half, changes, changes) as client:
        seconds["serve, waiting"] = waiting(client, CREATED, changes)
    with sqlite_served(folder) as client:
        seconds["sqlite, waiting"] = waiting(client, DONE, changes)
    return seconds


def allocated(client, count):
    """The targets of so many new objects of a new flow."""
    client.sendall(PUT)
    same(exactly(client, len(CREATED)), CREATED)
    body, room = b'{"limit":%d}' % count, memoryview(bytearray(HEARD))
    _, status, told = asked(client, head_of(b"POST", FLOW + b"/storage", len(body)), body, room)
    same(status, 201)
    objects = json.loads(bytes(room[:told]))["media_objects"]
    return [b"/media/" + one["object_id"].encode() for one in objects]


def round_of_media(folder, programs, objects, body):
    """The seconds of so many objects of each who puts or gets them."""
    media, half = objects * LENGTH // BLOCK, SPARE + objects
    blocks = 2 + 2 * half + media
    seconds = {"ceiling, put": ceiling(programs["ceiling"], folder, blocks, objects, LENGTH)}
    with served(folder, blocks, half, 2 + 2 * objects, 2 + objects) as client:
        targets = allocated(client, objects)
        seconds["serve, put"] = put_objects(client, targets, body)
        seconds["serve, get"] = get_objects(client, targets, body)
    seconds |= beside_media(folder, programs["copying"], objects, body)
    return seconds


def beside_media(folder, program, objects, body):
    """The seconds of so many objects of each server beside the store that takes or gives them."""
    seconds, targets = {}, [b"/media/%d" % number for number in range(objects)]
    with copying_served(folder, program, objects) as client:
        seconds["copying, put"] = put_objects(client, targets, body)
        seconds["copying, get"] = get_objects(client, targets, body)
    if shutil.which("nginx"):
        for name, sendfile in (("nginx, get", "on"), ("nginx, sendfile off, get", "off")):
            with nginx_served(folder, sendfile) as client:
                seconds[name] = get_objects(client, [b"/object"] * objects, body)
    return seconds


def compiled(folder, name):
    """The program of this source in C."""
    program, source = os.path.join(folder, f"{name}_program"), os.path.join(HERE, f"{name}.c")
    subprocess.run(["cc", "-O2", "-o", program, source], check=True)
    return program


def best(rounds):
    """The least seconds of each name over the rounds."""
    return {name: min(each[name] for each in rounds) for name in rounds[0]}


def print_changes(seconds, changes, rounds):
    for name, spent in seconds.items():
        print(f"{name + ':':<18}{changes / spent:>8.0f} changes a second")
    for name in ("serve, pipelined", "serve, waiting"):
        print(f"{name} to the ceiling: {seconds['ceiling'] / seconds[name]:.2f}")
    ratio = seconds["sqlite, waiting"] / seconds["serve, waiting"]
    print(f"serve, waiting to sqlite, waiting: {ratio:.2f}")
    print(f"best of {rounds} rounds of {changes} changes; no checkpoint comes in")


def print_media(seconds, objects, rounds):
    for name, spent in seconds.items():
        print(f"{name + ':':<26}{objects * LENGTH / spent / 1e6:>8.0f} MB a second")
    print(f"serve, put to the ceiling: {seconds['ceiling, put'] / seconds['serve, put']:.2f}")
    for one, other in (
        ("serve, put", "copying, put"),
        ("serve, get", "copying, get"),
        ("serve, get", "nginx, get"),
        ("serve, get", "nginx, sendfile off, get"),
        ("copying, get", "nginx, get"),
    ):
        if other in seconds:
            print(f"{one} to {other}: {seconds[other] / seconds[one]:.2f}")
    if "nginx, get" not in seconds:
        print("nginx isn't on the path, so it was left out")
    print(f"best of {rounds} rounds of {objects} objects of {LENGTH} bytes")


def main():
    changes, objects, rounds = (
        int(sys.argv[place]) if len(sys.argv) > place else usual
        for place, usual in ((1, 10_000), (2, 16), (3, 5))
    )
    if not os.access(TAMS, os.X_OK):
        sys.exit("the program is not built")
    if changes > MOST_REQUESTS or objects > MOST_OBJECTS:
        sys.exit(f"at most {MOST_REQUESTS} changes and {MOST_OBJECTS} objects")
    with tempfile.TemporaryDirectory(dir=os.environ.get("BENCH_FOLDER")) as folder:
        programs = {name: compiled(folder, name) for name in ("ceiling", "copying")}
        body = os.urandom(LENGTH)
        with open(os.path.join(folder, "object"), "wb") as file:
            file.write(body)
        of_changes, of_media = [], []
        for _ in range(rounds):
            of_changes.append(round_of_changes(folder, programs["ceiling"], changes))
            of_media.append(round_of_media(folder, programs, objects, body))
    print_changes(best(of_changes), changes, rounds)
    print_media(best(of_media), objects, rounds)


if __name__ == "__main__":
    main()

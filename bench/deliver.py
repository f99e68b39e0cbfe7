#!/usr/bin/env python3
"""How many events a second `tams deliver` sends, beside the same connections, writes and syncs in C, and beside curl.

    bench/deliver.py [EVENTS [ROUNDS]]

Ten webhooks have a tenth of the events each. The receiver is a program in C that answers each request at once; it serves
all three. The program in C dials it, says a request of the same size, hears the answer, and writes and syncs a record and
its gate, as the store does for each event that is accepted. curl is run once for each event, and writes nothing; a tenth
of the events is enough of it. `deliver` opens its store within its time.

Each round runs all in turn over fresh files in one folder; the best of the rounds of each count. BENCH_FOLDER says in which
folder the files lie. The program has to be built: `cd crates/tams && rt run`; `TAMS` names another one.
"""
import contextlib
import os
import subprocess
import sys
import tempfile
import time

# as ./tams runs the store: memory in large pages
os.environ.setdefault("GLIBC_TUNABLES", "glibc.malloc.hugetlb=1:glibc.malloc.tcache_count=127")
HERE = os.path.dirname(os.path.abspath(__file__))
TAMS = os.environ.get("TAMS") or os.path.join(HERE, "..", "crates", "tams", "out", "tams")
STORE_ID = "00000000-0000-4000-8000-000000000001"
FLOW = b"/flows/00000000-0000-4000-8000-0000000000f1"
BODY = b'{"source_id":"00000000-0000-4000-8000-0000000000a1","format":"urn:x-nmos:format:video"}'
HOOKS = 10
# what a delivery, a put and its events take of the journal at most, in bytes
ROOM, BLOCK = 200, 4096


def request(method, target, body):
    return b"%s %s HTTP/1.1\r\nContent-Length: %d\r\n\r\n%s" % (method, target, len(body), body)


@contextlib.contextmanager
def receiving(program):
    """The port of a receiver."""
    with subprocess.Popen([program, "receive"], stdout=subprocess.PIPE) as receiver:
        try:
            yield int(receiver.stdout.readline())
        finally:
            receiver.kill()


def make_store(folder, port, events):
    """A store in which so many events wait for receivers at this port. Each put of a flow that is there makes one for each
    webhook."""
    path = os.path.join(folder, "store")
    if os.path.exists(path):
        os.remove(path)
    half = events * ROOM // BLOCK + 4
    words = [TAMS, "format", path, str(2 * half + 3), str(half), STORE_ID]
    subprocess.run(words, check=True, capture_output=True)
    sent = [
        request(b"POST", b"/service/webhooks", b'{"url":"http://127.0.0.1:%d/%d","events":["flows/updated"]}' % (port, hook))
        for hook in range(HOOKS)
    ]
    sent += [request(b"PUT", FLOW, BODY)] * (1 + events // HOOKS)
    done = subprocess.run([TAMS, "replay", path, "http://s"], input=b"".join(sent), check=True, capture_output=True)
    if done.stderr != b"ok: %d requests, %d changes\n" % (len(sent), len(sent)):
        sys.exit(f"unexpected: {done.stderr!r}")
    return path


def deliver(path, events):
    """The seconds of a delivery of so many events."""
    start = time.monotonic()
    done = subprocess.run([TAMS, "deliver", path], check=True, stdout=subprocess.PIPE, stderr=subprocess.STDOUT)
    seconds = time.monotonic() - start
    if done.stdout != b"delivered: %d of %d events\n" % (events, events):
        sys.exit(f"unexpected: {done.stdout!r}")
    return seconds


def ceiling(program, folder, port, events):
    path = os.path.join(folder, "ceiling")
    if os.path.exists(path):
        os.remove(path)
    blocks = events * ROOM // BLOCK + 4
    words = [program, "send", path, str(blocks), str(port), str(events)]
    return float(subprocess.run(words, check=True, capture_output=True).stdout)


def curl(port, events):
    """The seconds of as many runs of curl."""
    start = time.monotonic()
    for _ in range(events):
        words = ["curl", "-s", "-f", "-H", "Content-Type: application/json", "-d", BODY, f"http://127.0.0.1:{port}/events"]
        subprocess.run(words, check=True, capture_output=True)
    return time.monotonic() - start


def main():
    events = int(sys.argv[1]) if len(sys.argv) > 1 else 1_000
    rounds = int(sys.argv[2]) if len(sys.argv) > 2 else 5
    events -= events % HOOKS
    if not HOOKS <= events <= 1_000 * HOOKS:
        sys.exit(f"{events} events: a webhook takes one at least, and 1,000 at most")
    with tempfile.TemporaryDirectory(dir=os.environ.get("BENCH_FOLDER")) as folder:
        program = os.path.join(folder, "delivering")
        subprocess.run(["cc", "-O2", "-o", program, os.path.join(HERE, "delivering.c")], check=True)
        bare, delivered, by_curl = [], [], []
        with receiving(program) as port:
            for _ in range(rounds):
                bare.append(ceiling(program, folder, port, events))
                delivered.append(deliver(make_store(folder, port, events), events))
                by_curl.append(curl(port, events // HOOKS))
    print(f"ceiling: {events / min(bare):.0f} events a second")
    print(f"deliver: {events / min(delivered):.0f} events a second")
    print(f"ratio:   {min(bare) / min(delivered):.2f}, best of {rounds} rounds of {events} events")
    print(f"curl:    {events // HOOKS / min(by_curl):.0f} events a second, nothing written")


if __name__ == "__main__":
    main()

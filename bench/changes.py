#!/usr/bin/env python3
"""How many changes a second `tams replay` makes, and how fast it keeps objects, beside the ceiling of both.

    bench/changes.py [CHANGES [ROUNDS [OBJECTS]]]

A change is the put of one flow; an object has 4 MiB. The ceiling makes the same writes and syncs of changes, and
writes as much in pieces of 64 KiB for an object, syncs, and writes and syncs a record: one sync less than the
store, whose record has a gate that is synced apart. `replay` reads its requests from a file and writes its answers
to one, which counts.

Each round runs all in turn over fresh files in one folder; the best of the rounds of each count. The
program has to be built: `cd crates/tams && rt run`; `TAMS` names another one.
"""
import json
import os
import subprocess
import sys
import tempfile
import time

# as ./tams runs the store: memory in large pages
os.environ.setdefault("GLIBC_TUNABLES", "glibc.malloc.hugetlb=1:glibc.malloc.tcache_count=127")
HERE = os.path.dirname(os.path.abspath(__file__))
TAMS = os.environ.get("TAMS") or os.path.join(HERE, "..", "crates", "tams", "out", "tams")
STORE_ID = "00000000-0000-4000-8000-000000000001"
BODY = b'{"source_id":"00000000-0000-4000-8000-0000000000a1","format":"urn:x-nmos:format:video"}'
FLOW = b"/flows/00000000-0000-4000-8000-0000000000f1"
PUT = b"PUT " + FLOW + b" HTTP/1.1\r\nContent-Length: 87\r\n\r\n" + BODY
# what a record takes of the journal, and what it hands to the disk with its gate
RECORD, HANDED = 63, 64
# the bytes of an object, and of a block
LENGTH, BLOCK = 4 * 1024 * 1024, 4096


def ceiling(program, folder, blocks, *words):
    path = os.path.join(folder, "ceiling")
    if os.path.exists(path):
        os.remove(path)
    done = subprocess.run(
        [program, path, str(blocks), *map(str, words)], check=True, capture_output=True
    )
    return float(done.stdout)


def replay(folder, requests, blocks, half, count):
    """The seconds of a `replay` of a file's requests over a fresh store, each of which is answered and changes it."""
    path = os.path.join(folder, "store")
    if os.path.exists(path):
        os.remove(path)
    words = [TAMS, "format", path, str(blocks), str(half), STORE_ID]
    subprocess.run(words, check=True, capture_output=True)
    answers = os.path.join(folder, "answers")
    with open(os.path.join(folder, requests), "rb") as sent, open(answers, "wb") as said:
        words = [TAMS, "replay", path, "http://s"]
        start = time.monotonic()
        done = subprocess.run(words, stdin=sent, stdout=said, stderr=subprocess.PIPE, check=True)
        seconds = time.monotonic() - start
    if done.stderr != b"ok: %d requests, %d changes\n" % (count, count):
        sys.exit(f"unexpected: {done.stderr!r}")
    with open(answers, "rb") as said:
        good = said.read().count(b"HTTP/1.1 20")
    if good != count:
        sys.exit(f"unexpected: {good} good answers to {count} requests")
    return seconds


def request(method, target, body):
    return b"%s %s HTTP/1.1\r\nContent-Length: %d\r\n\r\n%s" % (method, target, len(body), body)


def write_requests(folder, changes, objects):
    """The puts of one flow in one file; in another, objects and their bytes."""
    with open(os.path.join(folder, "puts"), "wb") as puts:
        puts.write(PUT * changes)
    ids = [f"o{number}" for number in range(objects)]
    wanted = json.dumps({"object_ids": ids}).encode()
    with open(os.path.join(folder, "objects"), "wb") as sent:
        sent.write(PUT)
        sent.write(request(b"POST", FLOW + b"/storage", wanted))
        for one in ids:
            sent.write(request(b"PUT", b"/media/" + one.encode(), os.urandom(LENGTH)))


def main():
    changes, rounds, objects = (
        int(sys.argv[place]) if len(sys.argv) > place else usual
        for place, usual in ((1, 20_000), (2, 5), (3, 16))
    )
    half = changes * RECORD // BLOCK + 2
    kept = 2 * (objects + 4) + 2 + objects * LENGTH // BLOCK
    with tempfile.TemporaryDirectory(dir=os.environ.get("BENCH_FOLDER")) as folder:
        program = os.path.join(folder, "ceiling_program")
        source = os.path.join(HERE, "ceiling.c")
        subprocess.run(["cc", "-O2", "-o", program, source], check=True)
        write_requests(folder, changes, objects)
        bare, served, written, stored = [], [], [], []
        for _ in range(rounds):
            bare.append(ceiling(program, folder, 2 * half + 3, changes))
            served.append(replay(folder, "puts", 2 * half + 3, half, changes))
            written.append(ceiling(program, folder, kept, objects, LENGTH))
            stored.append(replay(folder, "objects", kept, objects + 4, objects + 2))
    print(f"ceiling: {changes / min(bare):.0f} changes a second")
    print(f"replay:  {changes / min(served):.0f} changes a second")
    print(f"ratio:   {min(bare) / min(served):.2f}, best of {rounds} rounds of {changes} changes")
    print(f"bytes handed to the disk for a change: {HANDED}")
    print(f"ceiling: {objects * LENGTH / min(written) / 1e6:.0f} MB a second")
    print(f"replay:  {objects * LENGTH / min(stored) / 1e6:.0f} MB a second")
    print(f"ratio:   {min(written) / min(stored):.2f}, best of {rounds} rounds of {objects} objects")


if __name__ == "__main__":
    main()

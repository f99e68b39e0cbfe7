#!/usr/bin/env python3
"""At what pace `tams migrate` moves a store of form 1 to form 2, beside the pace that reading and hashing allow, and how
much memory it takes beside `check` of the same store.

    bench/migrate.py [OBJECTS [ROUNDS]]

An object has 4 MiB. The store is made in form 2 and then written as one of form 1, which is the same without digests: the
first byte of its half is 0, and each record that stores an object ends with the object's length. With h, the pace of the
hash alone (`digest_measure`), and r, that of reading the file in pieces of 64 KiB, migration is allowed 1 / (1/r + 1/h).

Each round runs all in turn over fresh files in one folder (BENCH_FOLDER); the best round of each counts. The programs have
to be built: `rt run` in crates/tams and crates/digest_measure; TAMS and MEASURE name other ones.
"""
import os
import shutil
import subprocess
import sys
import tempfile
import time

sys.dont_write_bytecode = True      # the modules', which would lie beside them
from digests import BLOCK, HALF, LENGTH, TAMS, Best, allocated, fresh, hashed, put_objects, read, store_served

# the kinds of a record that stores an object without and with its digest, and the bytes of a digest
STORED, STORED_WITH_DIGEST, DIGEST = 6, 15, 32
# where the half in use of a new store begins, and the bytes of its rows with their length
FIRST_HALF, ROWS = 2 * BLOCK, 8 + 13


def as_form_1(path):
    """Writes the journal of a store that was never checkpointed as one of form 1."""
    with open(path, "r+b") as file:
        file.seek(FIRST_HALF)
        half = file.read(HALF * BLOCK)
        if half[0] != 2:
            sys.exit("the store isn't one of form 2")
        at, out = ROWS, bytearray(b"\0" + half[1:ROWS])
        while half[at]:
            size = int.from_bytes(half[at + 1:at + 5], "big")
            payload = half[at + 5:at + 5 + size]
            if payload[0] == STORED_WITH_DIGEST:
                payload = bytes([STORED]) + payload[1:-DIGEST]
            out += half[at:at + 1] + len(payload).to_bytes(4, "big") + payload
            at += 5 + size
        file.seek(FIRST_HALF)
        file.write(out.ljust(HALF * BLOCK, b"\0"))


def memory_of(pid):
    """The most KiB that a process had, or 0 once it has ended."""
    with open(f"/proc/{pid}/status", encoding="ascii") as status:
        return next((int(line.split()[1]) for line in status if line.startswith("VmHWM")), 0)


def run(word, path):
    """The seconds of a command over a store, what it tells, and the most KiB that it had, as far as looks at it tell."""
    start, memory = time.monotonic(), 0
    with subprocess.Popen([TAMS, word, path], stdout=subprocess.PIPE, stderr=subprocess.DEVNULL) as program:
        while program.poll() is None:
            memory = max(memory, memory_of(program.pid))
            time.sleep(0.002)
        seconds, told = time.monotonic() - start, program.stdout.read()
    if program.returncode:
        sys.exit(f"{word}: {told!r}")
    return seconds, told, memory


def round_of(best, folder, objects, media):
    count = objects * LENGTH
    old = fresh(folder, "old")
    with store_served(old, TAMS, count // BLOCK) as (client, _):
        put_objects(client, allocated(client, objects), media)
    as_form_1(old)
    path = fresh(folder, "store")
    shutil.copy(old, path)
    best.take("read", read(path, count))
    seconds, told, memory = run("migrate", path)
    if not told.startswith(b"migrated: %d objects, " % objects):
        sys.exit(f"unexpected: {told!r}")
    best.take("migrate", count / seconds, memory)
    seconds, _, memory = run("check", path)
    best.take("check", count / seconds, memory)


def main():
    objects = int(sys.argv[1]) if len(sys.argv) > 1 else 32
    rounds = int(sys.argv[2]) if len(sys.argv) > 2 else 5
    best = Best()
    with tempfile.TemporaryDirectory(dir=os.environ.get("BENCH_FOLDER")) as folder:
        media = os.urandom(LENGTH)
        for _ in range(rounds):
            best.take("hash", hashed(objects * LENGTH))
            round_of(best, folder, objects, media)
    for name, pace in sorted(best.pace.items()):
        memory = f"{best.memory[name]:8} KiB" if best.memory[name] else ""
        print(f"{name:>8} {pace / 1e6:8.0f} MB/s {memory}".rstrip())
    for name in ("migrate", "check"):
        print(f"{name}: {best.pace[name] / best.allows('read', 'hash'):.2f} of 1 / (1/read + 1/hash)")
    print(f"best of {rounds} rounds of {objects} objects of {LENGTH} bytes")


if __name__ == "__main__":
    main()

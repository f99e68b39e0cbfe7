#!/usr/bin/env python3
"""At what pace a store keeps, gives and checks media now that it takes the SHA-256 of each object, beside the pace that
the hash allows.

    bench/digests.py [OBJECTS [ROUNDS]]

An object has 4 MiB. With h, the pace of the hash alone (`digest_measure`), and r, that of reading the file of the store
in pieces of 64 KiB, these are the paces that the hash allows:

- of media PUTs 1 / (1/w + 1/h), with w, the pace of a program that takes no hash;
- of GETs, which read and hash the object before they read and send it, 1 / (1/g + 1/r + 1/h), with g, the pace of
  reading and sending alone: that of a server in C which makes just these calls of the system (`copying.c`), and that of
  a program whose GETs take no hash;
- of `check` 1 / (1/r + 1/h).

WITHOUT names a program that takes no hash, one built before digests were kept, and BEFORE one that takes that of PUTs
alone, built before GETs looked at digests. What needs one that isn't named is left out. Then objects of 64 KiB are got
on one connection that is kept, beside the same bytes as files of nginx, where it is on the path: once it has the kernel
send a file without a copy, and once (`sendfile off`) it copies too.

Each round runs all in turn over fresh files in one folder (BENCH_FOLDER); the best round of each counts. The last
column is the most memory that the server had. The programs have to be built: `rt run` in crates/tams and
crates/digest_measure; TAMS and MEASURE name other ones. It needs a C compiler and Python's standard library.
"""
import contextlib
import os
import shutil
import subprocess
import sys
import tempfile
import time

HERE = os.path.dirname(os.path.abspath(__file__))
sys.dont_write_bytecode = True      # the module's, which would lie beside it
from serve import BLOCK, LENGTH, PATIENCE, STORE_ID, TAMS, allocated, compiled, connected, copying_served, free_port
from serve import fresh, get_objects, nginx_served, put_objects

MEASURE = os.environ.get("MEASURE") or os.path.join(HERE, "..", "crates", "digest_measure", "out", "digest_measure")
# the programs that put and get media, by what they are called here
NAMED = {"without": os.environ.get("WITHOUT"), "before": os.environ.get("BEFORE"), "now": TAMS}
PROGRAMS = {name: tams for name, tams in NAMED.items() if tams}
# the blocks of a half of the journal; the bytes of a piece that is read, and of a small object
HALF, PIECE, SMALL = 200, 65536, 65536
# so many small objects, each of which is got so often in a round
SMALL_OBJECTS, TIMES = 64, 32


def hashed(count):
    """The bytes a second of the hash alone, over so many bytes."""
    def spent(times):
        start = time.monotonic()
        subprocess.run([MEASURE, str(count), str(times)], check=True, stdout=subprocess.DEVNULL)
        return time.monotonic() - start
    return count / (spent(1) - spent(0))


def read(path, count):
    """The bytes a second of reading so many bytes of a store's file, from its first object on."""
    room, at = bytearray(PIECE), (2 + 2 * HALF) * BLOCK
    with open(path, "rb", buffering=0) as file:
        start = time.monotonic()
        for place in range(at, at + count, PIECE):
            if os.preadv(file.fileno(), [room], place) != PIECE:
                sys.exit("the file is too short")
        return count / (time.monotonic() - start)


def checked(path, count):
    """The bytes a second of `check` of a store whose objects have so many bytes in all."""
    start = time.monotonic()
    told = subprocess.run([TAMS, "check", path], check=True, capture_output=True).stdout
    seconds = time.monotonic() - start
    if not told.startswith(b"ok: 1 flows, 0 segments, "):
        sys.exit(f"unexpected: {told!r}")
    return count / seconds


def most_memory(pid):
    """The most KiB that a process had."""
    with open(f"/proc/{pid}/status", encoding="ascii") as status:
        return next(int(line.split()[1]) for line in status if line.startswith("VmHWM"))


@contextlib.contextmanager
def store_served(path, tams, blocks):
    """A client of a program over a fresh store with so many blocks for media, and the program's number."""
    words = [tams, "format", path, str(2 + 2 * HALF + blocks), str(HALF), STORE_ID]
    subprocess.run(words, check=True, capture_output=True)
    port = free_port()
    words = [tams, "serve", path, str(port), "http://s", "1"]
    streams = {"stdin": subprocess.DEVNULL, "stdout": subprocess.DEVNULL, "stderr": subprocess.DEVNULL}
    with subprocess.Popen(words, **streams) as program:
        try:
            with connected(port) as client:
                yield client, program.pid
            program.wait(PATIENCE)
        finally:
            program.kill()


class Best:
    """The best of the rounds: of each name the most bytes or requests a second, and of each server its memory."""

    def __init__(self):
        self.pace, self.memory = {}, {}

    def take(self, name, pace, memory=0):
        self.pace[name] = max(pace, self.pace.get(name, 0.0))
        self.memory[name] = max(memory, self.memory.get(name, 0))

    def allows(self, *names):
        """The pace of doing all of these in turn."""
        return 1 / sum(1 / self.pace[name] for name in names)


def round_of_media(best, folder, objects, media):
    """Puts and gets of so many objects by each program; `check` and reading of the file that is left of the last."""
    count = objects * LENGTH
    for name, tams in PROGRAMS.items():
        path = fresh(folder, "store")
        with store_served(path, tams, count // BLOCK) as (client, pid):
            targets = allocated(client, objects)
            pace = count / put_objects(client, targets, media)
            best.take("put, " + name, pace, most_memory(pid))
            pace = count / get_objects(client, targets, media)
            best.take("get, " + name, pace, most_memory(pid))
    best.take("check", checked(path, count))
    best.take("read", read(path, count))


def round_of_copying(best, folder, program, objects, media):
    """The same puts and gets by the server in C that copies."""
    targets = [b"/media/%d" % number for number in range(objects)]
    with copying_served(folder, program, objects) as client:
        put_objects(client, targets, media)
        best.take("get, copying", objects * LENGTH / get_objects(client, targets, media))


def round_of_small(best, folder, media):
    """Requests a second for small objects, of the store and of nginx, which has a file for each."""
    with store_served(fresh(folder, "store"), TAMS, SMALL_OBJECTS * SMALL // BLOCK) as (client, _):
        targets = allocated(client, SMALL_OBJECTS)
        put_objects(client, targets, media)
        best.take("store", requests_a_second(client, targets, media))
    if not shutil.which("nginx"):
        return
    for number in range(SMALL_OBJECTS):
        with open(os.path.join(folder, f"small{number}"), "wb") as file:
            file.write(media)
    targets = [b"/small%d" % number for number in range(SMALL_OBJECTS)]
    for name, sendfile in (("nginx", "on"), ("nginx, sendfile off", "off")):
        with nginx_served(folder, sendfile) as client:
            get_objects(client, targets, media)
            best.take(name, requests_a_second(client, targets, media))


def requests_a_second(client, targets, media):
    return len(targets) * TIMES / get_objects(client, targets * TIMES, media)


def print_media(best):
    for name, pace in sorted(best.pace.items()):
        memory = f"{best.memory[name]:8} KiB" if best.memory[name] else ""
        print(f"{name:>14} {pace / 1e6:8.0f} MB/s {memory}".rstrip())
    ratios = [("put, now", "put, without", "hash")]
    ratios += [("get, now", f"get, {name}", "read", "hash") for name in ("copying", "without", "before")]
    ratios.append(("check", "read", "hash"))
    for name, *parts in ratios:
        if not all(part in best.pace for part in parts):
            continue
        allowed = best.allows(*parts)
        of = " + ".join(f"1/({part})" for part in parts)
        print(f"{name}: {best.pace[name] / allowed:.2f} of {allowed / 1e6:.0f} MB/s, which is 1 / ({of})")


def print_small(best):
    for name, pace in best.pace.items():
        beside = f", of which the store has {best.pace['store'] / pace:.2f}" if name != "store" else ""
        print(f"objects of {SMALL // 1024} KiB from {name}: {pace:.0f} a second{beside}")


def main():
    objects = int(sys.argv[1]) if len(sys.argv) > 1 else 32
    rounds = int(sys.argv[2]) if len(sys.argv) > 2 else 5
    best, small = Best(), Best()
    with tempfile.TemporaryDirectory(dir=os.environ.get("BENCH_FOLDER")) as folder:
        copying, media = compiled(folder, "copying"), os.urandom(LENGTH)
        for _ in range(rounds):
            best.take("hash", hashed(objects * LENGTH))
            round_of_media(best, folder, objects, media)
            best.take("hash", hashed(objects * LENGTH))
            round_of_copying(best, folder, copying, objects, media)
            round_of_small(small, folder, media[:SMALL])
    print_media(best)
    print_small(small)
    print(f"best of {rounds} rounds of {objects} objects of {LENGTH} bytes")


if __name__ == "__main__":
    main()

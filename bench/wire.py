#!/usr/bin/env python3
"""How many bytes a second `http_wire` takes of a request with a body of 1 MiB, by the size of the pieces in
which they come, with a length and in chunks of 4 KiB; and the nanoseconds of a piece.

    bench/wire.py [ROUNDS]

Each figure is the best of the rounds, of which each runs all in turn. The time of a run that feeds nothing is
taken off. It is time of the processor, so that what else the machine does counts for little. The program has to
be built: `cd crates/wire_measure && rt run`.
"""
import os
import resource
import subprocess
import sys
import tempfile

HERE = os.path.dirname(os.path.abspath(__file__))
PROGRAM = os.path.join(HERE, "..", "crates", "wire_measure", "out", "wire_measure")
BODY = 1_048_576
CHUNK = 4096
# pieces of so many bytes, and how often the request is fed in them
PIECES = {1: 4, 7: 20, 1460: 200, 65536: 400}
LINE = b"POST /flows/00000000-0000-4000-8000-0000000000f1/segments HTTP/1.1\r\nHost: s\r\n"


def by_length():
    return LINE + b"Content-Length: %d\r\n\r\n" % BODY + b"a" * BODY


def chunked():
    chunk = b"%x\r\n" % CHUNK + b"a" * CHUNK + b"\r\n"
    return LINE + b"Transfer-Encoding: chunked\r\n\r\n" + chunk * (BODY // CHUNK) + b"0\r\n\r\n"


def spent():
    """The seconds that the programs so far took of the processor."""
    used = resource.getrusage(resource.RUSAGE_CHILDREN)
    return used.ru_utime + used.ru_stime


def seconds(path, piece, times):
    begin = spent()
    done = subprocess.run(
        [PROGRAM, path, str(piece), str(times)], check=True, capture_output=True, text=True
    )
    end = spent()
    if done.stdout != f"{times} whole\n":
        sys.exit(f"wrong answer: {done.stdout!r}")
    return end - begin


def main():
    rounds = int(sys.argv[1]) if len(sys.argv) > 1 else 5
    best = {}
    with tempfile.TemporaryDirectory() as folder:
        paths = {}
        for name, request in (("length", by_length()), ("chunks", chunked())):
            paths[name] = os.path.join(folder, name)
            with open(paths[name], "wb") as file:
                file.write(request)
        for _ in range(rounds):
            for name, path in paths.items():
                size = os.path.getsize(path)
                start = seconds(path, 1, 0)
                for piece, times in PIECES.items():
                    speed = size * times / max(seconds(path, piece, times) - start, 1e-9)
                    best[name, piece] = max(best.get((name, piece), 0.0), speed)
    for (name, piece), speed in best.items():
        rest = f"{speed / 1e6:>9.1f} MB/s, {piece / speed * 1e9:>8.1f} ns a piece"
        print(f"{name:>7} pieces of {piece:>6}: {rest}")
    print(f"fastest over slowest: {max(best.values()) / min(best.values()):.1f}")


if __name__ == "__main__":
    main()

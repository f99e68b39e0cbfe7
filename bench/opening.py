#!/usr/bin/env python3
"""How long a store takes to open that has so many records, or a snapshot of so many rows, and how much memory.

    bench/opening.py [FLOWS [ROUNDS]]

Flows are put by one `replay`, each under an id of its own; then `check` opens the store and counts. In the first store
each flow has a record of the journal. In the second a fifth of them are put once more, for which the half has no room,
so that the flows stand as rows behind a checkpoint. The best of the rounds. The program has to be built:
`cd crates/tams && rt run`.
"""
import os
import subprocess
import sys
import tempfile
import time

HERE = os.path.dirname(os.path.abspath(__file__))
TAMS = os.environ.get("TAMS") or os.path.join(HERE, "..", "crates", "tams", "out", "tams")
STORE_ID = "00000000-0000-4000-8000-000000000001"
BODY = b'{"source_id":"00000000-0000-4000-8000-0000000000a1","format":"urn:x-nmos:format:video"}'
# What the record of such a put takes of the journal, and a row with some room for records behind the rows, in bytes.
RECORD, ROW = 63, 75


def put(number):
    """The put of a flow whose id has this number."""
    text = f"{number:032x}"
    name = "-".join((text[:8], text[8:12], text[12:16], text[16:20], text[20:]))
    return f"PUT /flows/{name} HTTP/1.1\r\nContent-Length: {len(BODY)}\r\n\r\n".encode() + BODY


def made(folder, flows, again, half):
    """A store with halves of so many blocks into which so many flows were put, and so many of them once more."""
    path = os.path.join(folder, f"store-{half}")
    words = [TAMS, "format", path, str(2 * half + 3), str(half), STORE_ID]
    subprocess.run(words, check=True, capture_output=True)
    with open(os.path.join(folder, "puts"), "wb") as file:
        for count in (flows, again):
            file.write(b"".join(put(number) for number in range(1, count + 1)))
    with open(os.path.join(folder, "puts"), "rb") as file:
        done = subprocess.run([TAMS, "replay", path, "http://s"], stdin=file, check=True, capture_output=True)
    if done.stderr != f"ok: {flows + again} requests, {flows + again} changes\n".encode():
        sys.exit(f"unexpected: {done.stderr!r}")
    return path


def opened(path, flows):
    """The seconds that `check` of a store takes, and the most memory that it has, in KiB."""
    start = time.monotonic()
    with subprocess.Popen([TAMS, "check", path], stdout=subprocess.PIPE) as program:
        line = program.stdout.read()
        _, status, used = os.wait4(program.pid, 0)
        program.returncode = os.waitstatus_to_exitcode(status)
    seconds = time.monotonic() - start
    if program.returncode != 0 or not line.startswith(f"ok: {flows} flows, ".encode()):
        sys.exit(f"unexpected: {line!r}")
    return seconds, used.ru_maxrss


def main():
    flows = int(sys.argv[1]) if len(sys.argv) > 1 else 100_000
    rounds = int(sys.argv[2]) if len(sys.argv) > 2 else 5
    with tempfile.TemporaryDirectory(dir=os.environ.get("BENCH_FOLDER")) as folder:
        for what, again, half in (
            ("records", 0, flows * RECORD // 4096 + 2),
            ("rows", flows // 5, flows * ROW // 4096 + 1),
        ):
            path = made(folder, flows, again, half)
            runs = [opened(path, flows) for _ in range(rounds)]
            seconds = min(run[0] for run in runs)
            memory = min(run[1] for run in runs)
            print(f"{flows} flows, {what}: {seconds:.3f} s, {memory * 1024 / flows:.0f} bytes of memory a flow")


if __name__ == "__main__":
    main()

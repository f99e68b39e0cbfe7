#!/usr/bin/env python3
"""How many microseconds a page of segments takes to print, and to read as a post, beside Python's `json`.

    bench/json_pages.py [SIZE [TIMES]]

Both sides print and read the same text; Python's makes it of a list that holds each time as a text, and reads it
to such a list, where the program prints and reads times and tests each member. The program's time is taken from
outside, less that of the same words with 0 times; the best of five rounds of each counts. It is time of the
processor, so that what else the machine does counts for little. The program has to be built:
`cd crates/json_measure && rt run`. It needs Python's standard library alone.
"""
import json
import os
import resource
import subprocess
import sys
import time

HERE = os.path.dirname(os.path.abspath(__file__))
PROGRAM = os.path.join(HERE, "..", "crates", "json_measure", "out", "json_measure")
ROUNDS = 5


def segment(place):
    """A segment as the program's pages have it."""
    name = f"00000000-0000-0000-0000-{place:012x}"
    return {
        "get_urls": [{"url": f"http://127.0.0.1:8080/media/{name}"}],
        "key_frame_count": 1,
        "last_duration": "0:40000000",
        "object_id": name,
        "sample_count": 50,
        "sample_offset": 0,
        "timerange": f"[{2 * place}:0_{2 * place + 2}:0)",
        "ts_offset": "-2:0",
    }


def printed(page):
    return json.dumps(page, separators=(",", ":"))


def spent():
    """The seconds that the programs so far took of the processor."""
    used = resource.getrusage(resource.RUSAGE_CHILDREN)
    return used.ru_utime + used.ru_stime


def ran(what, size, times, wanted):
    """The seconds that the program takes, whose answers have to add up to so many."""
    start = spent()
    done = subprocess.run(
        [PROGRAM, what, str(size), str(times)], check=True, capture_output=True, text=True
    )
    taken = spent() - start
    if done.stdout != f"{wanted * times}\n":
        sys.exit(f"unexpected: {done.stdout!r}")
    return taken


def theirs(done, given, times):
    """The seconds that Python takes."""
    start = time.process_time()
    for _ in range(times):
        done(given)
    return time.process_time() - start


def both(what, wanted, size, times, done, given):
    """The microseconds of one, by the program and by Python, which take turns."""
    bare, full, other = [], [], []
    for _ in range(ROUNDS):
        bare.append(ran(what, size, 0, wanted))
        full.append(ran(what, size, times, wanted))
        other.append(theirs(done, given, times))
    return (min(full) - min(bare)) / times * 1e6, min(other) / times * 1e6


def main():
    size = int(sys.argv[1]) if len(sys.argv) > 1 else 1000
    times = int(sys.argv[2]) if len(sys.argv) > 2 else 300
    page = [segment(place) for place in range(size)]
    text = printed(page)
    version = sys.version.split()[0]
    print(f"{size} segments, {len(text)} bytes; microseconds, the program's and then Python {version}'s")
    for what, wanted, done, given in [
        ("print", len(text), printed, page),
        ("read", size, json.loads, text),
    ]:
        ours, other = both(what, wanted, size, times, done, given)
        print(f"{what:>5} {ours:>9.0f} {other:>9.0f}")


if __name__ == "__main__":
    main()

#!/usr/bin/env python3
"""How long the library machine takes for each kind of change, and for the records of a journal.

    bench/core.py [FLOWS ..]

For each number of flows, of 50 segments each, it prints the microseconds in which a change is prepared, of which
one in ten is installed, at random flows; the last two columns are the time at the largest number where only its
first ten flows are changed, and how often the time at the smallest number goes into that at the largest. Then it
prints the seconds in which so many records are applied in a row, as when a file is opened. The program takes its
own processor time, and the best of its five rounds counts. It has to be built: `cd crates/core_measure && rt run`.
It needs Python's standard library alone.
"""
import os
import subprocess
import sys

# as ./tams runs the store: memory in large pages
os.environ.setdefault("GLIBC_TUNABLES", "glibc.malloc.hugetlb=1:glibc.malloc.tcache_count=127")
HERE = os.path.dirname(os.path.abspath(__file__))
PROGRAM = os.path.join(HERE, "..", "crates", "core_measure", "out", "core_measure")
SIZES = [10, 1000, 20000]
RECORDS = [10000, 100000]
# how often each kind of change is made in a round
TIMES = 20000
# of so many flows some are changed where all is near
NEAR = 10


def ran(*words):
    """The lines that the program prints."""
    done = subprocess.run([PROGRAM, *map(str, words)], capture_output=True, text=True)
    if done.returncode != 0:
        sys.exit(f"{words}: status {done.returncode}: {done.stdout.strip()}")
    return done.stdout.splitlines()


def changes(flows, near):
    """The microseconds of each kind of change, at the first so many flows. The first line says how much is kept."""
    words = (line.split() for line in ran("change", flows, near, TIMES)[1:])
    return {what: int(nanoseconds) / 1000 for what, nanoseconds in words}


def main():
    sizes = [int(word) for word in sys.argv[1:]] or SIZES
    columns = [changes(size, size) for size in sizes]
    near = changes(sizes[-1], NEAR)
    heads = " ".join(f"{size:>8}" for size in sizes)
    print(f"{'flows':>12} {heads} {'near':>8} {'growth':>8}")
    for what in near:
        taken = [column[what] for column in columns]
        growth = taken[-1] / taken[0]
        cells = " ".join(f"{one:>8.2f}" for one in taken)
        print(f"{what:>12} {cells} {near[what]:>8.2f} {growth:>8.2f}")
    for records in RECORDS:
        first, second = ran("apply", records)
        seconds = int(first.split()[1]) / 1e9
        print(f"{records} records: {seconds:.3f} s, {seconds / records * 1e6:.2f} us a record; {second}")


if __name__ == "__main__":
    main()

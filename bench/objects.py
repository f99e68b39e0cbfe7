#!/usr/bin/env python3
"""How long the calls on a book of objects take.

    bench/objects.py [SIZE ..]

For each number of objects it prints the microseconds of each call, with the making of the object's id and the
dropping of the new book. The last line is how often the time at the smallest number goes into that at the
largest. Times are the program's processor time, taken from outside, less that of the same words with 0 times;
the best of the rounds of each counts. `unrefer` stands behind a `refer` to the same object, whose time is taken
off. The program has to be built: `cd crates/book_measure && rt run`. It needs Python's standard library alone.
"""
import os
import subprocess
import sys

# as ./tams runs the store: memory in large pages
os.environ.setdefault("GLIBC_TUNABLES", "glibc.malloc.hugetlb=1:glibc.malloc.tcache_count=127")
HERE = os.path.dirname(os.path.abspath(__file__))
PROGRAM = os.path.join(HERE, "..", "crates", "book_measure", "out", "book_measure")
SIZES = [10, 1000, 100000, 1000000]
ROUNDS = 5
# how often each is done in a round
TIMES = {
    "allocate": 200000,
    "mark-stored": 200000,
    "refer": 200000,
    "unrefer": 200000,
    "first-idle": 5000000,
    "find": 500000,
}
# words that make the same book, whose time with 0 times stands for all of them
SAME_BOOK = [["allocate", "mark-stored", "first-idle", "find"], ["refer", "unrefer"]]


def ran(what, size, times):
    """The seconds of processor time that the program takes."""
    program = subprocess.Popen([PROGRAM, what, str(size), str(times)], stdout=subprocess.DEVNULL)
    _, status, used = os.wait4(program.pid, 0)
    program.returncode = os.waitstatus_to_exitcode(status)
    if program.returncode != 0:
        sys.exit(f"{what} {size} {times}: status {program.returncode}")
    return used.ru_utime + used.ru_stime


def best(what, size, times):
    return min(ran(what, size, times) for _ in range(ROUNDS))


def calls(size):
    """The microseconds of each call on a book of so many objects."""
    taken = {}
    for words in SAME_BOOK:
        bare = best(words[0], size, 0)
        for what in words:
            taken[what] = (best(what, size, TIMES[what]) - bare) / TIMES[what] * 1e6
    taken["unrefer"] -= taken["refer"]
    return taken


def main():
    sizes = [int(word) for word in sys.argv[1:]] or SIZES
    print(f"{'objects':>8} " + " ".join(f"{what:>12}" for what in TIMES) + "  microseconds")
    rows = []
    for size in sizes:
        rows.append(calls(size))
        print(f"{size:>8} " + " ".join(f"{rows[-1][what]:>12.2f}" for what in TIMES), flush=True)
    grown = {what: rows[-1][what] / rows[0][what] for what in TIMES}
    print(f"{'growth':>8} " + " ".join(f"{grown[what]:>12.2f}" for what in TIMES))


if __name__ == "__main__":
    main()

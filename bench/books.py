#!/usr/bin/env python3
"""How long the books take, beside SQLite's trees over the same rows.

    bench/books.py [SIZE ..]

For each number of rows it prints the microseconds of a page of 100 segments at a random place, of a segment
that is added and removed, of a flow that is put again and of a look at one; and the seconds in which a book of
flows is made from its rows. Beside the first four stand those of SQLite in memory, each change of which is in
one transaction with all others of its measure, so that nothing is synced. The program's time is taken from
outside, less that of the same words with 0 times; the best of the rounds of each counts. The program has to be
built: `cd crates/book_measure && rt run`. It needs Python's standard library alone.
"""
import os
import random
import sqlite3
import subprocess
import sys
import time

# as ./tams runs the store: memory in large pages
os.environ.setdefault("GLIBC_TUNABLES", "glibc.malloc.hugetlb=1:glibc.malloc.tcache_count=127")
HERE = os.path.dirname(os.path.abspath(__file__))
PROGRAM = os.path.join(HERE, "..", "crates", "book_measure", "out", "book_measure")
SIZES = [10, 1000, 100000, 1000000]
ROUNDS = 3
# how often each is done in a round
TIMES = {"page": 20000, "add": 100000, "put": 100000, "look": 500000}
STEP = 4_000_000_000


def ran(what, size, times):
    """The seconds that the program takes."""
    start = time.perf_counter()
    subprocess.run([PROGRAM, what, str(size), str(times)], check=True, capture_output=True)
    return time.perf_counter() - start


def book(what, size):
    """The microseconds of one, by the program."""
    bare = min(ran(what, size, 0) for _ in range(ROUNDS))
    full = min(ran(what, size, TIMES[what]) for _ in range(ROUNDS))
    return (full - bare) / TIMES[what] * 1e6


def opened(size):
    """The seconds in which a book of flows is made from its rows."""
    bare = min(ran("open", size, 0) for _ in range(ROUNDS))
    return min(ran("open", size, 1) for _ in range(ROUNDS)) - bare


def segments_of(size):
    """A table of segments in memory, with an index over flow and first point."""
    table = sqlite3.connect(":memory:")
    table.execute("CREATE TABLE segment (flow INT, low INT, high INT, serial INT, object TEXT)")
    table.execute("CREATE UNIQUE INDEX by_low ON segment (flow, low)")
    rows = ((1, place * STEP, place * STEP + STEP // 2 - 1, 1, "o") for place in range(size))
    table.executemany("INSERT INTO segment VALUES (?, ?, ?, ?, ?)", rows)
    return table


def flows_of(size):
    """A table of flows in memory, by their ids."""
    table = sqlite3.connect(":memory:")
    table.execute("CREATE TABLE flow (id INTEGER PRIMARY KEY, source INT, format TEXT, updated INT)")
    rows = ((place, place // 10, "video", 0) for place in range(size))
    table.executemany("INSERT INTO flow VALUES (?, ?, ?, ?)", rows)
    return table


def page(table, place):
    low = place * STEP
    table.execute(
        "SELECT * FROM segment WHERE flow = 1 AND low >= ? AND high >= ? ORDER BY low LIMIT 100",
        (low, low),
    ).fetchall()


def add(table, place):
    low, high = place * STEP + STEP // 2, place * STEP + STEP // 4 * 3
    # the last one that begins up to the new end tells whether any overlaps
    table.execute(
        "SELECT high FROM segment WHERE flow = 1 AND low <= ? ORDER BY low DESC LIMIT 1", (high,)
    ).fetchall()
    table.execute("INSERT INTO segment VALUES (1, ?, ?, 1, 'o')", (low, high))
    table.execute("DELETE FROM segment WHERE flow = 1 AND low = ?", (low,))


def put(table, place):
    table.execute("SELECT source, format FROM flow WHERE id = ?", (place,)).fetchall()
    table.execute("UPDATE flow SET format = 'video', updated = 1 WHERE id = ?", (place,))


def look(table, place):
    table.execute("SELECT * FROM flow WHERE id = ?", (place,)).fetchall()


def sqlite(table, done, size, times):
    """The microseconds of one, by SQLite."""
    best = None
    for _ in range(ROUNDS):
        places = [random.randrange(size) for _ in range(times)]
        start = time.perf_counter()
        for place in places:
            done(table, place)
        taken = time.perf_counter() - start
        best = taken if best is None else min(best, taken)
    return best / times * 1e6


def main():
    sizes = [int(word) for word in sys.argv[1:]] or SIZES
    print(f"SQLite {sqlite3.sqlite_version}; microseconds, the book's and then SQLite's")
    print(f"{'rows':>8} {'page':>15} {'add, remove':>15} {'put':>15} {'look':>15} {'open, s':>8}")
    for size in sizes:
        segments, flows = segments_of(size), flows_of(size)
        cells = []
        for what, done, table in [
            ("page", page, segments),
            ("add", add, segments),
            ("put", put, flows),
            ("look", look, flows),
        ]:
            ours, theirs = book(what, size), sqlite(table, done, size, TIMES[what] // 10)
            cells.append(f"{ours:.2f} {theirs:.2f}")
        print(f"{size:>8} " + " ".join(f"{cell:>15}" for cell in cells) + f" {opened(size):>8.3f}")


if __name__ == "__main__":
    main()

#!/usr/bin/env python3
"""Shows how full a store's file is, from its own bytes.

    examples/fill.py news.tams

It reads the file and never writes it, and takes no lock: the store may be served meanwhile. The status is 0, or 1 where
the file is no store that can be read.

`journal` is the half in use: its rows, its records, and the room for more of them. The rows are those of the last
checkpoint, so they say how many bytes the library took then. `media` is all blocks for the bytes of objects. How many of
them are used stands in rows and records, which this program doesn't read.
"""
import argparse
import mmap
import sys
import uuid

sys.dont_write_bytecode = True      # the module's, which would lie beside it
from tams_client import Failure, run

BLOCK, MAGIC, HEADER = 4_096, b'TAMSST01', 41
LARGEST_HALF, LARGEST_STORE = 65_536, 1_073_741_824
# what stands before a half's rows: a byte with its form, 0 or 2, and their length in 7; and what a record has before its
# payload: its gate and a length
LENGTH, GATE, LENGTH_OF_RECORD = 8, 1, 4
FORMS = (0, 2)
OPEN = 1
# so many times a half is read that changes under the reading
READINGS = 9


def number_at(view, place, length):
    return int.from_bytes(view[place:place + length], 'big')


def sizes_of(file, path):
    """The blocks of the store, those of a half, and the store's id, as the header has them."""
    header = file.read(HEADER)
    if len(header) < HEADER or not header.startswith(MAGIC) or header[-1] != OPEN:
        raise Failure(f'{path}: not a store')
    blocks, half = number_at(header, 8, 8), number_at(header, 16, 8)
    if not 1 <= half <= LARGEST_HALF or not 2 * half + 3 <= blocks <= LARGEST_STORE:
        raise Failure(f'{path}: damaged; run `tams check`')
    return blocks, half, uuid.UUID(bytes=header[24:40])


def records_of(view, place, end):
    """How many records stand from this place on, and the place of the closed gate behind them. None where the half ends
    before such a gate."""
    count = 0
    while place < end and view[place] == OPEN:
        place += GATE + LENGTH_OF_RECORD + number_at(view, place + GATE, LENGTH_OF_RECORD)
        count += 1
    return (count, place) if place < end else None


def read_once(view, half):
    """What the half in use has: its name, the bytes of its rows, its records, and the bytes up to its closed gate. None
    where it isn't the same behind the reading as before it."""
    turned = view[BLOCK] & 1
    start = (2 + turned * half) * BLOCK
    rows = number_at(view, start + 1, LENGTH - 1)
    found = view[start] in FORMS and records_of(view, start + LENGTH + rows, start + half * BLOCK)
    if not found or view[BLOCK] & 1 != turned or number_at(view, start + 1, LENGTH - 1) != rows:
        return None
    return 'AB'[turned], rows, found[0], found[1] - start


def read(path):
    """The store's id, its blocks, those of a half, and what the half in use has."""
    with open(path, 'rb') as file:
        blocks, half, store_id = sizes_of(file, path)
        try:
            view = mmap.mmap(file.fileno(), 2 * (1 + half) * BLOCK, prot=mmap.PROT_READ)
        except ValueError as fault:
            raise Failure(f'{path}: shorter than its header says; run `tams check`') from fault
        with view:
            for _ in range(READINGS):
                if found := read_once(view, half):
                    return store_id, blocks, half, found
    raise Failure(f'{path}: no end of its records was found; run again, or `tams check` where it is not served')


def main():
    parser = argparse.ArgumentParser(description="Shows how full a store's file is.")
    parser.add_argument('path', help="the store's file")
    path = parser.parse_args().path
    store_id, blocks, half, (name, rows, count, used) = read(path)
    records = used - LENGTH - rows
    print(f'store: {store_id}, {blocks:,} blocks\n'
          f'journal: {used + GATE:,} of {half * BLOCK:,} bytes, in half {name}\n'
          f'rows: {rows:,} bytes at the last checkpoint\n'
          f'records: {records:,} bytes, {count:,} changes behind it\n'
          f'room: {half * BLOCK - used - GATE:,} bytes for records, up to the next checkpoint\n'
          f'media: {blocks - 2 - 2 * half:,} blocks, {(blocks - 2 - 2 * half) * BLOCK:,} bytes, used or free')


run(main)

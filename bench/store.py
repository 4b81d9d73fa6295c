#!/usr/bin/env python3
"""Times stores over a folder: commits, rounds and openings.

It runs `store_load` over a new folder: 100 transactions of 10,000 lines, then 1,000 of 1,000, of six values each: a tag of 64 texts,
three LONGs, a truth value and a text, with a stamp, in order of time. For each it prints the rows per second that were acknowledged,
each commit with its three syncs; what the reading of the texts took; the rows per second of the one draft, merge and publication of
all of them; and what it took to open the store then. It writes the log of a store of RECORDS transactions and version files that show
all of them, so that no transaction is read, and prints what it takes to open that store, the best of five times. Last it prints what
one write and sync of 100 bytes behind the end of a file take on this disk, the median of 200.

usage: store.py [--folder PATH] [--records N] [--only LOAD] [--program PATH]
--folder is a folder on the file system to measure; all is made in one below it and removed. --only takes the loads in whose words it
stands, as `1000 1000`. Build the program first: run `rt run` in crates/store_load.
"""
import argparse
import os
import statistics
import struct
import subprocess
import sys
import tempfile
import time

HERE = os.path.dirname(os.path.abspath(__file__))
PROGRAM = os.path.join(HERE, "..", "crates", "store_load", "out", "store_load")
LOADS = [(100, 10_000), (1_000, 1_000)]
EMPTY_ENTRY = 8  # the bytes of a transaction that changes nothing


def said(program, *words):
    """Runs the program, and gives the numbers that it prints by their words."""
    done = subprocess.run([program, *map(str, words)], capture_output=True, text=True)
    found = done.stdout.split()
    if done.returncode != 0 or len(found) % 2 != 0:
        sys.exit(f"{program} {' '.join(map(str, words))}: status {done.returncode}\n{done.stdout}{done.stderr}")
    return {word: int(number) for word, number in zip(found[::2], found[1::2])}


def per_second(rows, micros):
    return f"{rows * 1e6 / max(micros, 1):>12,.0f} rows/s"


def load(program, place, transactions, lines):
    """Fills a store, and prints what each step took."""
    rows = transactions * lines
    with tempfile.TemporaryDirectory(dir=place) as folder:
        took = said(program, os.path.join(folder, "store"), transactions, lines)
        size = sum(entry.stat().st_size for entry in os.scandir(os.path.join(folder, "store")))
    whole = took["parsed"] + took["committed"]
    round_took = took["drafted"] + took["merged"] + took["published"]
    print(f"{transactions:,} x {lines:,} lines, {size / 1e6:,.0f} MB of files")
    print(f"  acknowledged  {per_second(rows, whole)}  reading {took['parsed'] / 1e3:,.0f} ms, commits {took['committed'] / 1e3:,.0f} ms, "
          f"{took['committed'] / transactions / 1e3:,.2f} ms each")
    print(f"  one round     {per_second(rows, round_took)}  draft {took['drafted'] / 1e3:,.0f} ms, merge {took['merged'] / 1e3:,.0f} ms, "
          f"publication {took['published'] / 1e3:,.0f} ms")
    print(f"  opening       {took['opened'] / 1e3:>12,.1f} ms  making {took['begun'] / 1e3:,.1f} ms", flush=True)
    return took["transactions"] == transactions


def write(folder, number, data):
    """Writes a file of a volume."""
    with open(os.path.join(folder, f"{number:016x}"), "wb") as file:
        file.write(data)


def write_store(folder, records):
    """Writes a store of so many transactions, all of which its version shows. They made no table."""
    record = struct.Struct("<BIIQQ")
    log = b"".join(record.pack(1, 0, 0, EMPTY_ENTRY * i, EMPTY_ENTRY) for i in range(records))
    manifest = struct.pack("<QH", 0, 0)
    write(folder, 1, b"TSDBSEQ1" + log + b"\0")
    write(folder, 2, struct.pack("<BQQ", 1, records, len(manifest)) + manifest)
    write(folder, 3, b"\0")
    write(folder, 0, b"\1")


def openings(program, place, records):
    """Opens a store with a long log, and prints the best time."""
    with tempfile.TemporaryDirectory(dir=place) as folder:
        write_store(folder, records)
        took = [said(program, folder) for _ in range(5)]
    best = min(each["opened"] for each in took)
    print(f"a log of {records:,} records\n  opening       {best / 1e3:>12,.1f} ms, all transactions shown", flush=True)
    return all(each["transactions"] == records for each in took)


def sync_time(place):
    """What a write behind the end of a file and its sync take, in microseconds: the median of 200."""
    with tempfile.NamedTemporaryFile(dir=place) as file:
        took = []
        for i in range(200):
            began = time.perf_counter()
            os.pwrite(file.fileno(), b"x" * 100, 100 * i)
            os.fdatasync(file.fileno())
            took.append((time.perf_counter() - began) * 1e6)
    return statistics.median(took)


def probe(place):
    """Prints what a write and a sync take."""
    print(f"one write and sync of this disk: {sync_time(place):,.0f} microseconds")


def main():
    parser = argparse.ArgumentParser(description=__doc__, formatter_class=argparse.RawDescriptionHelpFormatter)
    parser.add_argument("--folder", default="/tmp")
    parser.add_argument("--records", type=int, default=1_000_000)
    parser.add_argument("--only", default="")
    parser.add_argument("--program", default=PROGRAM)
    options = parser.parse_args()
    if not os.access(options.program, os.X_OK):
        parser.error(f"no program at {options.program}; build it by `rt run` in crates/store_load")
    good = True
    for transactions, lines in LOADS:
        if options.only in f"{transactions} {lines}":
            good &= load(options.program, options.folder, transactions, lines)
    good &= openings(options.program, options.folder, options.records)
    probe(options.folder)
    return 0 if good else 1


if __name__ == "__main__":
    raise SystemExit(main())

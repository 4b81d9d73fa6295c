#!/usr/bin/env python3
"""Times durable ingest: the program over a folder takes batches, applies them, and answers queries.

It feeds `tsdb run --dir FOLDER` with the tables of `answers.py`: ROWS rows of six values over ten days (two SYMBOLs, two LONGs, a text
and the time) and a tenth as many in a second table, in batches of 1,000 and of 10,000 lines, in order of time and with every tenth row
in the batch behind its own; each of these four over a new folder. Each batch is sent once the one before is acknowledged. For each it
prints the rows per second that were acknowledged, each commit with its syncs; the rows per second of the one apply of all of them; what
the folder takes on the disk, for each row; the time from a new start to its first reply; and the best time of each query of `answers.py`
over the applied tables, asked REPEAT times, whose replies are compared with what that script works out. It ends with 1 where a reply
was wrong.

usage: ingest.py [--rows N] [--repeat N] [--only WORD] [--folder PATH] [--program PATH]
--folder is a folder on the file system to measure; all is made in one below it and removed. --only takes the queries in whose text the
word stands. Build the program first: run `rt run -- run < stdin` in crates/tsdb.
"""
import argparse
import os
import tempfile
import time

from answers import QUERIES, Data, load, times_of
from program import Session, parsed

LOADS = [(lines, late) for lines in (1_000, 10_000) for late in (False, True)]


def sizes(folder):
    """The bytes of a folder's files, and those that they take on the disk."""
    found = [entry.stat() for entry in os.scandir(folder)]
    return sum(each.st_size for each in found), sum(each.st_blocks * 512 for each in found)


def opened(program, folder, count):
    """A session over a folder that was filled, whether it has all batches applied, and the seconds to its first reply."""
    began = time.perf_counter()
    session = Session(program, "run", "--dir", folder)
    _, line, _ = session.ask(b"A\n")
    return session, line == b"A %d\n" % count, time.perf_counter() - began


def measure_load(options, data, answers, lines, late):
    """Fills a folder, and prints what each step took. Gives whether each reply was right."""
    rows = len(data.t) + len(data.q)
    with tempfile.TemporaryDirectory(dir=options.folder) as place:
        folder = os.path.join(place, "store")
        session = Session(options.program, "run", "--dir", folder)
        count, good, fed, applied = load(session, data.frames(lines, late))
        most = session.megabytes()
        good &= session.end()
        size, taken = sizes(folder)
        session, whole, seconds = opened(options.program, folder, count)
        good &= whole
        print(f"{rows:,} rows in {count:,} batches of {lines:,} lines, {'every tenth row late' if late else 'in order'}  "
              f"{'ok' if good else 'WRONG'}")
        print(f"  acknowledged  {rows / fed:>12,.0f} rows/s, {fed / count * 1e3:,.2f} ms for each batch")
        print(f"  applied       {rows / applied:>12,.0f} rows/s, {applied * 1e3:,.0f} ms in all, {most:,.0f} MB of memory at most")
        print(f"  on the disk   {size / rows:>12,.1f} bytes of files for each row, {taken / rows:,.1f} taken")
        print(f"  opened        {seconds * 1e3:>12,.1f} ms to the first reply", flush=True)
        for ask, wanted in answers:
            times, wrong = times_of(session, count, ask, wanted, options.repeat)
            print(f"  {min(times) * 1e3:>12,.1f} ms  {ask}{'  WRONG' if wrong else ''}", flush=True)
            good &= not wrong
        good &= session.end()
    return good


def main():
    parser = argparse.ArgumentParser(description=__doc__, formatter_class=argparse.RawDescriptionHelpFormatter)
    parser.add_argument("--rows", type=int, default=1_000_000)
    parser.add_argument("--repeat", type=int, default=3)
    parser.add_argument("--only", default="")
    parser.add_argument("--folder", default=tempfile.gettempdir())
    options = parsed(parser)
    data = Data(options.rows)
    answers = [(ask, answer(data)) for ask, answer, _ in QUERIES if options.only in ask]
    good = True
    for lines, late in LOADS:
        good &= measure_load(options, data, answers, lines, late)
    return 0 if good else 1


if __name__ == "__main__":
    raise SystemExit(main())

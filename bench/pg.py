#!/usr/bin/env python3
"""Times the program as a server of PostgreSQL's protocol: a large answer, beside the same answer as CSV over frames.

A table of ROWS rows with three columns, a SYMBOL, a LONG and the time, is put into a folder and asked for whole by one client: the time is
from the query to the last byte of its answer, the best of REPEAT. Each answer is compared with the number of rows and with the last row.

It prints rows and megabytes per second and whether the aim is met. It ends with 1 where an answer was wrong; a missed aim is only printed.

usage: pg.py [--rows N] [--repeat N] [--folder PATH] [--program PATH]
--folder is a folder on the file system to measure; all is made in one below it and removed. Build the program first: run
`rt run -- run < stdin` in crates/tsdb.
"""
import argparse
import os
import subprocess
import tempfile
import time

from program import batch, parsed
from server import Client, Pg, connected, message, served

LINES = 10_000
AIM = 500_000  # rows per second
START, STEP = 1_704_067_200_000_000_000, 1_000_000
READY = message(b"Z", b"I")


def stored(program, folder, rows):
    """Puts the table into a folder."""
    given = [batch(b"".join(b"j,k=s%d v=%di %d\n" % (i % 100, i, START + i * STEP) for i in range(first, min(first + LINES, rows)))) for first in range(0, rows, LINES)]
    subprocess.run([program, "run", "--dir", folder], input=b"".join(given) + b"A\nX\n", stdout=subprocess.DEVNULL, check=True)


def by_pg(client):
    """The seconds of a query, and its answer."""
    pieces, end = [], b""
    began = time.perf_counter()
    client.send(message(b"Q", b"j\0"))
    while not end.endswith(READY):
        pieces.append(client.source.read1(1 << 20))
        end = end[-len(READY) :] + pieces[-1]
    return time.perf_counter() - began, b"".join(pieces)


def by_frames(client):
    seconds, _, text = client.query("j")
    return seconds, text


def is_pg_of(text, rows):
    tag = message(b"C", b"SELECT %d\0" % rows)
    return text.endswith(tag + READY) and b"%d" % (rows - 1) in text[-len(tag) - 100 :]


def is_csv_of(text, rows):
    return text.count(b"\n") == rows + 1 and text.splitlines()[-1].startswith(b"s%d,%d," % ((rows - 1) % 100, rows - 1))


def main():
    parser = argparse.ArgumentParser(description=__doc__, formatter_class=argparse.RawDescriptionHelpFormatter)
    parser.add_argument("--rows", type=int, default=1_000_000)
    parser.add_argument("--repeat", type=int, default=5)
    parser.add_argument("--folder", default=tempfile.gettempdir())
    options = parsed(parser)
    good = True
    with tempfile.TemporaryDirectory(dir=options.folder) as place:
        folder = os.path.join(place, "store")
        stored(options.program, folder, options.rows)
        for name, front, kind, ask, is_right in (("PostgreSQL's protocol", "pg", Pg, by_pg, is_pg_of), ("CSV over frames", "frames", Client, by_frames, is_csv_of)):
            best = float("inf")
            with served(options.program, folder, 1, front) as server:
                client = connected(server.port, kind=kind)
                for _ in range(options.repeat):
                    seconds, text = ask(client)
                    good &= is_right(text, options.rows)
                    best = min(best, seconds)
                good &= client.end() and server.end() == (b"", 0, "")
            rate = options.rows / best
            verdict = "WRONG" if not good else "" if front != "pg" else "ok" if rate >= AIM else "missed"
            print(f"{name}, {options.rows:,} rows of three columns, {len(text) / 1e6:.1f} MB: {rate:,.0f} rows/s, {len(text) / best / 1e6:.0f} MB/s  {verdict}", flush=True)
    return 0 if good else 1


if __name__ == "__main__":
    raise SystemExit(main())

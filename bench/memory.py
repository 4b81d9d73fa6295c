#!/usr/bin/env python3
"""Measures the most memory that the program takes: for a batch of 16 MiB, for a result of 64 MiB, and for 64 sessions with such a batch each.

A batch has as many bytes as a frame may have, once in lines of one number, once in lines of six values, once in the shortest lines that
give a row, and once in one line of texts; `tsdb run`, `run --dir` and `serve` commit it, and it is applied. A result has as many bytes as
one may have, or up to a row less: once of as many rows of a number and a time as give that many bytes, once of one row of 1,024 texts. One
of 8 MiB has rows of 1,000 NULLs, so a cell for each byte. Then SESSIONS clients of one server send a batch of six values each: all but the
last byte of it first, and the last byte once all of them have come so far.

For each it prints the most memory that was resident until then (VmHWM), what of that came with it (less the most before), and how many
times the batch, the result, or the sessions' batches together that is. It ends with 1 where a reply was wrong.

usage: memory.py [--sessions N] [--only WORD] [--folder PATH] [--program PATH]
--only takes the measurements in whose name the word stands. --folder is a folder on the file system to use, with 3 GB of room; all is
made in one below it and removed. Build the program first: run `rt run -- run < stdin` in crates/tsdb.
"""
import argparse
import concurrent.futures
import itertools
import os
import tempfile

from program import Session, batch, number_in, parsed
from server import served

MOST_OF_BATCH, MOST_OF_RESULT = 16 << 20, 64 << 20
MIB = 1 << 20
START = 1_706_313_600_000_000_000
LONGEST_TEXT = 65_535
TEXTS = 1_024
PER_BATCH = 100_000
NULLS, ROWS_OF_NULLS = 1_000, 8_389


def full(line):
    """A batch of as many bytes as one may have, or up to a line less, whose lines are made from their numbers."""
    lines, size = [], 0
    for text in map(line, itertools.count()):
        size += len(text)
        if size > MOST_OF_BATCH:
            return b"".join(lines)
        lines.append(text)


def of_numbers():
    return full(lambda i: b"t v=%di %d\n" % (i, START + i * 1_000_000))


def of_values():
    return full(lambda i: b't,host=h%d,dc=d%d v=%di,w=%di,x="x%05d" %d\n' % (i % 100, i % 10, i % 1_000, i, i % 10_000, START + i * 1_000_000))


def of_shortest():
    return full(lambda i: b"t,a=b 1\n")


def of_texts():
    text = b"x" * (LONGEST_TEXT - 1)
    fields = b",".join(b'c%d="%b"' % (i, text) for i in range(MOST_OF_BATCH // (len(text) + 10)))
    return b"t %b %d\n" % (fields, START)


BATCHES = {"lines of one number": of_numbers, "lines of six values": of_values, "shortest lines": of_shortest, "one line of texts": of_texts}


def most_of(process):
    """The most memory that a process took until now, in MiB."""
    with open(f"/proc/{process.pid}/status") as status:
        return next(int(line.split()[1]) for line in status if line.startswith("VmHWM")) / 1_024


def show(name, process, before, size):
    """Prints what a measurement found, and gives the most memory."""
    most = most_of(process)
    print(f"{name:<58}{size / MIB:>10.1f}{most:>10.1f}{most - before:>10.1f}{(most - before) * MIB / size:>8.1f}", flush=True)
    return most


class Way:
    """A program with a session that begins: `run`, `run --dir` or `serve`."""

    def __init__(self, name, program, folder):
        self.server = served(program, folder, 1) if name == "serve" else None
        words = ("run", "--dir", folder) if name == "run --dir" else ("run",)
        self.session = self.server.connect() if self.server else Session(program, *words)
        self.process = self.server.process if self.server else self.session.process
        if self.server:
            self.session.socket.settimeout(None)
        number_in(self.session.ask(b"A\n")[1], b"A")

    def end(self):
        good = self.session.end()
        return good and (not self.server or self.server.end() == (b"", 0, ""))


WAYS = ("run", "run --dir", "serve")


def titles_of(options, kind, ways):
    """The names of a kind of measurement that are asked for, by the ways to make it."""
    return {way: f"{kind}, {way}" for way in ways if options.only in f"{kind}, {way}"}


def measure_batches(options):
    """What one batch takes, and its apply."""
    good = True
    for kind, make in BATCHES.items():
        titles = titles_of(options, f"a batch, {kind}", WAYS)
        text = make() if titles else b""
        for name, title in titles.items():
            with tempfile.TemporaryDirectory(dir=options.folder) as place:
                way = Way(name, options.program, os.path.join(place, "store"))
                before = most_of(way.process)
                good &= way.session.ask(batch(text))[1] == b"K 1\n"
                most = show(title, way.process, before, len(text))
                good &= way.session.ask(b"A\n")[1] == b"A 1\n"
                show("  and its apply", way.process, most, len(text))
                good &= way.end()
    return good


def rows_of_numbers():
    """The batches of a table whose rows give as many bytes as a result may have, or up to a row less, and the query."""
    count = (MOST_OF_RESULT - len("v,timestamp\n")) // len("100000000,2024-01-27T00:00:00.000000Z\n")
    lines = [b"t v=%di %d\n" % (100_000_000 + number, START + number * 1_000_000) for number in range(count)]
    return [b"".join(lines[first:first + PER_BATCH]) for first in range(0, count, PER_BATCH)], "t"


def row_of_texts():
    """The batch of a row of one text, and a query that gives it so often that the result is as long as one may be, or a little less."""
    size = (MOST_OF_RESULT - len("x," + ",".join(f"x{i}" for i in range(1, TEXTS)) + "\n")) // TEXTS - 1
    return [b't x="%b" %d\n' % (b"x" * size, START)], f"SELECT {','.join(['x'] * TEXTS)} FROM t"


def rows_of_nulls():
    """A batch whose rows lack a column but for the first one, and a query that gives that column again and again."""
    lines = b"t v=0i,x=1i %d\n" % START + b"".join(b"t v=0i %d\n" % (START + i * 1_000_000) for i in range(1, ROWS_OF_NULLS))
    return [lines], f"SELECT {','.join(['x'] * NULLS)} FROM t"


RESULTS = {"rows of a number and a time": rows_of_numbers, "one row of texts": row_of_texts, "8 MiB of NULLs": rows_of_nulls}


def measure_results(options):
    """What one result takes, in a program that has read nothing before."""
    good = True
    for kind, make in RESULTS.items():
        titles = titles_of(options, f"a result, {kind}", WAYS[1:])
        frames, ask = make() if titles else ([], "")
        for name, title in titles.items():
            with tempfile.TemporaryDirectory(dir=options.folder) as place:
                folder = os.path.join(place, "store")
                writer = Session(options.program, "run", "--dir", folder)
                for number, text in enumerate(frames, 1):
                    good &= writer.ask(batch(text))[1] == b"K %d\n" % number
                good &= writer.ask(b"A\n")[1] == b"A %d\n" % len(frames) and writer.end()
                way = Way(name, options.program, folder)
                before = most_of(way.process)
                _, line, text = way.session.query(ask)
                good &= line.startswith(b"R ") and (make is rows_of_nulls or MOST_OF_RESULT - 1_000_000 < len(text) <= MOST_OF_RESULT)
                show(title, way.process, before, len(text))
                good &= way.end()
    return good


def measure_sessions(options):
    """What many sessions take, each with a batch."""
    title = f"{options.sessions} sessions, a batch of six values each, serve"
    if options.only not in title:
        return True
    text = of_values()
    frame = batch(text)
    with tempfile.TemporaryDirectory(dir=options.folder) as place, served(options.program, os.path.join(place, "store"), options.sessions) as server:
        clients = [server.connect() for _ in range(options.sessions)]
        good = True
        for client in clients:
            client.socket.settimeout(None)
            good &= client.ask(b"A\n")[1] == b"A 0\n"
        before = most_of(server.process)
        for client in clients:
            client.send(frame[:-1])
        show("  all but the last byte of each", server.process, before, len(text) * options.sessions)
        with concurrent.futures.ThreadPoolExecutor(options.sessions) as pool:
            numbers = list(pool.map(lambda client: number_in(client.ask(frame[-1:])[1], b"K"), clients))
        good &= sorted(numbers) == list(range(1, options.sessions + 1))
        show(title, server.process, before, len(text) * options.sessions)
        good &= all([client.end() for client in clients])
        return good and server.end() == (b"", 0, "")


def main():
    parser = argparse.ArgumentParser(description=__doc__, formatter_class=argparse.RawDescriptionHelpFormatter)
    parser.add_argument("--sessions", type=int, default=64)
    parser.add_argument("--only", default="")
    parser.add_argument("--folder", default=tempfile.gettempdir())
    options = parsed(parser)
    print(f"{'MiB':<58}{'of bytes':>10}{'at most':>10}{'with it':>10}{'times':>8}")
    good = measure_batches(options)
    good &= measure_results(options)
    good &= measure_sessions(options)
    if not good:
        print("WRONG: a reply was another")
    return 0 if good else 1


if __name__ == "__main__":
    raise SystemExit(main())

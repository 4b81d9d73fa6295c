#!/usr/bin/env python3
"""Times the program as a server: senders that write durably beside `run --dir`, and queries while four of them write.

The rows are those of `ingest.py`: ROWS rows of six values over ten days (two SYMBOLs, two LONGs, a text and the time) and a tenth as many
in a second table, in batches of 1,000 and of 10,000 lines, in order of time and with every tenth row in the batch behind its own. The
batches are made before a clock runs, and each sender is a process of its own that sends what is its share without a wait and reads the
replies beside; a batch counts once its K is read. Each of the four loads goes into new folders: through the pipe of one `run --dir`, from
one sender to `serve`, and from four among whom the batches are dealt in turn. The time is from the moment at which the first sender may
begin to that at which the last one has its last reply. The best of REPEAT times counts. Behind each the folder is opened by `run --dir`,
which has to have all transactions and rows.

Then queries are timed, one after the other, from a process of its own, over a tenth of the rows that is applied before, while four
senders write the others in order; once as the version stays, and once while a further client applies every 100 milliseconds.

It prints rows per second and their ratios, the median, the 99th hundredth and the longest of each query, whether the aims are met, and
last what one write and sync take on this disk, of which a batch has three. It ends with 1 where a reply was wrong; a missed aim is only
printed.

usage: serve.py [--rows N] [--repeat N] [--folder PATH] [--program PATH]
--folder is a folder on the file system to measure; all is made in one below it and removed. Build the program first: run
`rt run -- run < stdin` in crates/tsdb.
"""
import argparse
import functools
import multiprocessing
import os
import statistics
import tempfile
import threading
import time

from answers import Data
from ingest import LOADS
from program import Session, number_in, parsed
from server import connected, served
from store import probe

SENDERS = 4
AIM_OF_ONE, AIM_OF_FOUR = 0.9, 1.5  # of `run --dir`, of one sender
AIM_OF_MEDIAN, AIM_OF_LONGEST = 5, 200  # milliseconds
EVERY = 0.1  # seconds
QUERIES = {"count": "SELECT count() FROM t", "last rows": "t LIMIT -10"}
FORKED = multiprocessing.get_context("fork")


class Helper:
    """A process of its own that does a piece of work in a session, once it is told to begin."""

    def __init__(self, begin, work):
        """`begin` makes the session; `work` takes it, and the end of a pipe on which it may be told to stop."""
        self.pipe, theirs = FORKED.Pipe()
        self.process = FORKED.Process(target=self.serve, args=(theirs, begin, work), daemon=True)
        self.process.start()
        theirs.close()
        self.pipe.recv()

    @staticmethod
    def serve(pipe, begin, work):
        session = begin()
        number_in(session.ask(b"A\n")[1], b"A")
        pipe.send("ready")
        pipe.recv()
        found = work(session, pipe)
        pipe.send((found, session.end()))

    def tell(self):
        """Has it begin, or stop."""
        self.pipe.send("go")

    def is_done(self):
        return self.pipe.poll()

    def result(self):
        """What its work gave, once that is done."""
        found, good = self.pipe.recv()
        self.process.join()
        if not good:
            raise ValueError("the end of a session was answered by something else")
        return found


def send_each(session, frames):
    for frame in frames:
        session.send(frame)


def feed(frames, session, _):
    """Sends batches without a wait, and reads the replies beside. Gives the moment of the last one, and the numbers."""
    sending = threading.Thread(target=send_each, args=(session, frames), daemon=True)
    sending.start()
    numbers = [number_in(session.reply()[0], b"K") for _ in frames]
    return time.monotonic(), numbers


def apply_again(session, pipe):
    """Applies now and then until it is told to stop. Gives the seconds of each apply."""
    times = []
    while True:
        seconds, line, _ = session.ask(b"A\n")
        number_in(line, b"A")
        times.append(seconds)
        if pipe.poll(EVERY):
            return times


class Senders:
    """So many processes among whom batches are dealt."""

    def __init__(self, begin, frames, count):
        self.frames = frames
        self.helpers = [Helper(begin, functools.partial(feed, frames[place::count])) for place in range(count)]

    def begin(self):
        self.began = time.monotonic()
        for helper in self.helpers:
            helper.tell()

    def are_done(self):
        return all(helper.is_done() for helper in self.helpers)

    def result(self, before=0):
        """The seconds until the last batch was acknowledged, and whether the numbers are those behind `before`, each once."""
        found = [helper.result() for helper in self.helpers]
        numbers = sorted(number for _, numbers in found for number in numbers)
        return max(moment for moment, _ in found) - self.began, numbers == list(range(before + 1, before + len(self.frames) + 1))


def written(begin, frames, count):
    senders = Senders(begin, frames, count)
    senders.begin()
    return senders.result()


def by_run(program, folder, frames):
    """The seconds in which `run --dir` acknowledges all batches, and whether it does it well."""
    return written(functools.partial(Session, program, "run", "--dir", folder), frames, 1)


def by_senders(count, program, folder, frames):
    """The seconds in which the server acknowledges all batches to so many senders, and whether it does it well."""
    with served(program, folder, count) as server:
        seconds, good = written(functools.partial(connected, server.port), frames, count)
        return seconds, good & (server.end() == (b"", 0, ""))


WAYS = {"run --dir": by_run, "one sender": functools.partial(by_senders, 1), "four senders": functools.partial(by_senders, SENDERS)}


def is_whole(program, folder, data, count):
    """Whether `run` finds all transactions and rows in a folder."""
    session = Session(program, "run", "--dir", folder)
    good = session.ask(b"A\n")[1] == b"A %d\n" % count
    for table, rows in (("t", data.t), ("q", data.q)):
        good &= session.query(f"SELECT count() FROM {table}")[2] == b"count\n%d\n" % len(rows)
    return session.end() and good


def measure_load(options, data, lines, late):
    """Times a load in each of the ways, and prints its row of the table. Gives whether each reply was right."""
    rows, frames = len(data.t) + len(data.q), list(data.frames(lines, late))
    best, good = dict.fromkeys(WAYS, 0), True
    for _ in range(options.repeat):
        for name, way in WAYS.items():
            with tempfile.TemporaryDirectory(dir=options.folder) as place:
                folder = os.path.join(place, "store")
                seconds, right = way(options.program, folder, frames)
                good &= right and is_whole(options.program, folder, data, len(frames))
            best[name] = max(best[name], rows / seconds)
    run, one, four = best.values()
    verdict = "WRONG" if not good else "ok" if one >= AIM_OF_ONE * run and four >= AIM_OF_FOUR * one else "missed"
    print(f"{lines:>6,} lines, {'a tenth late' if late else 'in order':<13}" + "".join(f"{rate:>16,.0f}" for rate in best.values())
          + f"{one / run:>12.2f}{four / one:>12.2f}  {verdict}", flush=True)
    return good


def asked_until(is_over, client):
    """The seconds of each query, asked in turn until something is over."""
    times, known = {name: [] for name in QUERIES}, 0
    while True:
        for name, ask in QUERIES.items():
            seconds, line, _ = client.query(ask)
            times[name].append(seconds)
            n = number_in(line, b"R")
            if n < known:
                raise ValueError(f"an answer over {n} transactions behind one over {known}")
            known = n
        if is_over():
            return times


def print_times(name, times, has_aim=True):
    """Prints a row of the table of latencies."""
    times = sorted(each * 1e3 for each in times)
    middle, high, longest = statistics.median(times), times[len(times) * 99 // 100], times[-1]
    verdict = "" if not has_aim else "ok" if middle < AIM_OF_MEDIAN and longest < AIM_OF_LONGEST else "missed"
    print(f"  {name:<24}{len(times):>12,}{middle:>12.3f}{high:>12.3f}{longest:>12.3f}  {verdict}", flush=True)


def measure_latency(options, data, lines, applies):
    """Times queries while senders write, and prints what they took. Gives whether each reply was right."""
    frames = list(data.frames(lines))
    tenth = max(len(frames) // 10, 1)
    with tempfile.TemporaryDirectory(dir=options.folder) as place, served(options.program, os.path.join(place, "store")) as server:
        client = server.connect()
        for frame in frames[:tenth]:
            number_in(client.ask(frame)[1], b"K")
        number_in(client.ask(b"A\n")[1], b"A")
        connect = functools.partial(connected, server.port)
        applier = Helper(connect, apply_again) if applies else None
        senders = Senders(connect, frames[tenth:], SENDERS)
        senders.begin()
        if applier:
            applier.tell()
        times = asked_until(senders.are_done, client)
        seconds, good = senders.result(tenth)
        print(f"{lines:>6,} lines, {f'an apply every {EVERY * 1e3:.0f} ms' if applies else 'no apply meanwhile'}: "
              f"{len(frames) - tenth:,} batches in {seconds:.2f} s{'' if good else '  WRONG'}")
        for name in QUERIES:
            print_times(name, times[name])
        if applier:
            applier.tell()
            print_times("(the applies)", applier.result(), has_aim=False)
        good &= client.end()
    return good


def main():
    parser = argparse.ArgumentParser(description=__doc__, formatter_class=argparse.RawDescriptionHelpFormatter)
    parser.add_argument("--rows", type=int, default=1_000_000)
    parser.add_argument("--repeat", type=int, default=3)
    parser.add_argument("--folder", default=tempfile.gettempdir())
    options = parsed(parser)
    data, good = Data(options.rows), True
    print(f"rows/s acknowledged{'':<3}" + "".join(f"{name:>16}" for name in WAYS) + f"{'one/run':>12}{'four/one':>12}", flush=True)
    for lines, late in LOADS:
        good &= measure_load(options, data, lines, late)
    print(f"ms while four write{'':<7}{'queries':>12}{'median':>12}{'99th':>12}{'longest':>12}", flush=True)
    for lines in sorted({lines for lines, _ in LOADS}):
        for applies in (False, True):
            good &= measure_latency(options, data, lines, applies)
    probe(options.folder)
    return 0 if good else 1


if __name__ == "__main__":
    raise SystemExit(main())

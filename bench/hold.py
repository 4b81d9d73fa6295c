#!/usr/bin/env python3
"""Times the waits of two quiet clients of a busy server: one that commits a line every 10 milliseconds, and one that asks for one row as often.

They are processes of their own, over one connection each, and don't ask again before they are answered; a wait is from the moment at which
a frame is sent to the end of its reply. Two loads are beside them, each over a new folder:
- four senders share the rows of `ingest.py`, in batches of 1,000 lines with every tenth row in the batch behind its own, and send them
  without a wait, while a further client applies without a pause;
- a partition of PARTITION rows is merged with one late row, MERGES times: a client commits a row that belongs into the middle of the day,
  applies, and does so again. The partition is written and applied before.

For each load it prints how many waits there were, their median, their 99th hundredth and the longest, in milliseconds, for the line, for
the row and for the applies; and what the machine did beside. Each number of a transaction has to be acknowledged once, and
`run --dir` has to find all rows behind each load; it ends with 1 where not.

usage: hold.py [--rows N] [--partition N] [--merges N] [--folder PATH] [--program PATH]
--folder is a folder on the file system to measure; all is made in one below it and removed. Build the program first: run
`rt run -- run < stdin` in crates/tsdb.
"""
import argparse
import functools
import os
import statistics
import tempfile
import time

from answers import START, Data
from machine import Machine
from program import Session, batch, number_in, parsed, query
from serve import SENDERS, Helper, feed
from server import connected, served
from store import probe

EVERY = 0.01  # seconds
LINES = 1_000  # of a batch
PER_FRAME = 100_000  # lines of a batch that fills the partition
STEP = 50_000  # nanoseconds between its rows
FIRST = START * 1_000  # the first of them


def patient(port):
    """A client whose waits are as long as they are."""
    client = connected(port)
    client.socket.settimeout(None)
    return client


def line_of(number):
    """The batch of the client that commits."""
    return batch(b"own v=%di %d\n" % (number, START * 1_000 + number * 1_000))


def row_of(_):
    """The query of the other one, over a table of one row."""
    return query("SELECT v FROM one")


def ask_on_time(frame_of, letters, session, pipe):
    """Asks every EVERY seconds until it is told to stop. Gives the seconds of each wait, and the number in each reply."""
    waits, numbers, due = [], [], time.monotonic()
    while True:
        seconds, line, _ = session.ask(frame_of(len(waits)))
        waits.append(seconds)
        numbers.append(number_in(line, letters))
        due = max(due + EVERY, time.monotonic())
        if pipe.poll(max(due - time.monotonic(), 0)):
            return waits, numbers


def apply_on(session, pipe):
    """Applies without a pause until it is told to stop. Gives the seconds of each, and no number."""
    waits = []
    while not pipe.poll():
        seconds, line, _ = session.ask(b"A\n")
        number_in(line, b"A")
        waits.append(seconds)
    return waits, []


def merge_on(merges, late, session, _):
    """Commits a row of a late time and applies, so many times. Gives the seconds of each apply, and the numbers of the commits."""
    waits, numbers = [], []
    for number in range(merges):
        numbers.append(number_in(session.ask(batch(b"big v=%di %d\n" % (number, late)))[1], b"K"))
        seconds, line, _ = session.ask(b"A\n")
        number_in(line, b"A")
        waits.append(seconds)
    return waits, numbers


def milliseconds(name, waits):
    waits = sorted(each * 1e3 for each in waits)
    print(f"  {name:<28}{len(waits):>10,}{statistics.median(waits):>12.2f}{waits[len(waits) * 99 // 100]:>12.2f}{waits[-1]:>12.2f}", flush=True)


def prepared(server, frames):
    """Commits the table of one row and so many batches, and applies. Gives how many transactions that are."""
    client = patient(server.port)
    for number, frame in enumerate([batch(b"one v=1i 1\n"), *frames], 1):
        if client.ask(frame)[1] != b"K %d\n" % number:
            raise ValueError("a batch before the clock runs isn't acknowledged")
    number_in(client.ask(b"A\n")[1], b"A")
    client.end()
    return number


def beside(server, workers):
    """Lets both clients ask while the workers work, and gives what each of them found by its name: waits and numbers. The workers that
    end by themselves come first; the others are told to stop."""
    begin = functools.partial(patient, server.port)
    asking = {"a line that is committed": functools.partial(ask_on_time, line_of, b"K"), "a query of one row": functools.partial(ask_on_time, row_of, b"R")}
    helpers = {name: Helper(begin, work) for name, work in asking.items()}
    busy = [(name, ends, Helper(begin, work)) for name, ends, work in workers]
    for helper in [*helpers.values(), *(helper for _, _, helper in busy)]:
        helper.tell()
    found = {name: helper.result() for name, ends, helper in busy if ends}
    for name, helper in {**helpers, **{name: helper for name, ends, helper in busy if not ends}}.items():
        helper.tell()
        found[name] = helper.result()
    return found


def counts(program, folder):
    """How many transactions `run` finds in a folder, and how many rows each table has."""
    session = Session(program, "run", "--dir", folder)
    rows = [number_in(session.ask(b"A\n")[1], b"A")]
    for table in ("own", "t", "q", "big"):
        text = session.query(f"SELECT count() FROM {table}")[2]
        rows.append(int(text.split()[1]) if text else 0)
    return rows if session.end() else []


def is_whole(options, folder, before, found, added):
    """Whether all numbers were given once, and all rows are there."""
    numbers = sorted(number for _, given in found.values() for number in given)
    lines = len(found["a line that is committed"][1])
    good = numbers == list(range(before + 1, before + len(numbers) + 1))
    return good and counts(options.program, folder) == [before + len(numbers), lines, *added]


def measure(options, title, frames, workers, added):
    """Prints the waits beside some workers. Gives whether all that was acknowledged is there."""
    with tempfile.TemporaryDirectory(dir=options.folder) as place:
        folder = os.path.join(place, "store")
        with served(options.program, folder, 3 + len(workers)) as server:
            before = prepared(server, frames)
            machine, began = Machine(), time.monotonic()
            found = beside(server, workers)
            took, state = time.monotonic() - began, str(machine)
            good = server.end() == (b"", 0, "")
        # the numbers of a query are no transactions of its own
        shown = {**found, "a query of one row": (found["a query of one row"][0], [])}
        good = good and is_whole(options, folder, before, shown, added)
    print(f"{title}: {took:.1f} s{'' if good else '  WRONG'}\n  ({state})\n  {'ms':<28}{'waits':>10}{'median':>12}{'99th':>12}{'longest':>12}")
    for name in ("a line that is committed", "a query of one row", "an apply"):
        milliseconds(name, found[name][0])
    return good


def beside_senders(options):
    """The waits beside four senders and applies."""
    data = Data(options.rows)
    frames = list(data.frames(LINES, late=True))
    workers = [(f"sender {place}", True, functools.partial(untimed, frames[place::SENDERS])) for place in range(SENDERS)]
    title = f"{len(data.t) + len(data.q):,} rows of {SENDERS} senders, applied again and again"
    return measure(options, title, [], workers + [("an apply", False, apply_on)], [len(data.t), len(data.q), 0])


def untimed(frames, session, pipe):
    """Sends batches as a sender does. Gives no waits, and the numbers."""
    return [], feed(frames, session, pipe)[1]


def beside_merges(options):
    """The waits beside a partition that is merged."""
    rows = range(options.partition)
    frames = [batch(b"".join(b"big v=%di %d\n" % (i, FIRST + i * STEP) for i in rows[first:first + PER_FRAME])) for first in rows[::PER_FRAME]]
    merging = functools.partial(merge_on, options.merges, FIRST + options.partition // 2 * STEP)
    title = f"a partition of {options.partition:,} rows, merged with a late row {options.merges} times"
    return measure(options, title, frames, [("an apply", True, merging)], [0, 0, options.partition + options.merges])


def main():
    parser = argparse.ArgumentParser(description=__doc__, formatter_class=argparse.RawDescriptionHelpFormatter)
    parser.add_argument("--rows", type=int, default=1_000_000)
    parser.add_argument("--partition", type=int, default=1_000_000)
    parser.add_argument("--merges", type=int, default=10)
    parser.add_argument("--folder", default=tempfile.gettempdir())
    options = parsed(parser)
    good = beside_senders(options)
    good &= beside_merges(options)
    probe(options.folder)
    return 0 if good else 1


if __name__ == "__main__":
    raise SystemExit(main())

#!/usr/bin/env python3
"""Loads the server with everything at once for a long time, and compares what it answers with a plain model.

For SECONDS seconds these processes are at one `tsdb serve PORT --dir FOLDER`: two senders whose rows come in order of time and two whose
rows are up to two days late, each with RATE batches a second of LINES rows; two readers with queries of six kinds; one that applies every
EVERY milliseconds; one whose connections send garbage; and two whose connections come one behind the other, and apply, ask or commit, and
end well, or go without a word. Every minute it prints how far they came, and the memory, the descriptors and the threads of the server.

Then VISITS connections come one behind the other, and nothing else. The server may have no more descriptors or threads behind them than
before, and GROWTH megabytes more at most.

At the end each number of a transaction has to have been acknowledged once, and to be one of those there are; COMPARED answers, drawn from
those that were recorded, have to be those of the model over as many transactions, as has each row of the table, day by day, by the server,
and, where it was killed, by `run --dir` over its folder. Each garbage has to have been refused at its place.

It prints what was done, and the longest wait of each kind; it ends with 1 where something was wrong.

usage: mixed.py [--seconds N] [--visits N] [--rate N] [--lines N] [--every MILLISECONDS] [--compared N] [--seed N] [--folder PATH] [--program PATH]
--folder is a folder on the file system to use; all is made in one below it and removed. Build the program first: run
`rt run -- run < stdin` in crates/tsdb.
"""
import argparse
import bisect
import hashlib
import itertools
import multiprocessing
import os
import random
import sys
import tempfile
import time

from answers import csv, shown
from machine import Machine
from program import Session, batch, number_in, parsed, query
from server import Client, served

FORKED = multiprocessing.get_context("fork")
START, SECOND, DAY = 1_706_313_600_000_000, 1_000_000, 86_400_000_000
STEP = 345 * SECOND  # between the batches of a sender, so that a day has some hundred batches
SENDERS = {"a": False, "b": False, "c": True, "d": True}  # by their names; whether they are late
GROUPS = 8
READ_EVERY, VISIT_EVERY = 0.05, 0.01  # seconds
GROWTH = 8  # megabytes
FIRST_VISITS = 100  # more than are served at once: the server may keep the descriptors of so many that have ended
MINUTE = 60
GARBAGE = [(b"\0", b"E 1 0\n"), (b"GET / HTTP/1.1\r\n\r\n", b"E 1 0\n"), (b"A\nW 01\n", b"E 1 2\n"), (b"W 16777217\n", b"E 1 0\n"),
           (b"W 5\nab", b"E 1 0\n"), (bytes(range(256)) * 64, b"E 1 0\n")]


class Wrong(Exception):
    """What is wrong with an answer."""


# -- what is sent, and the model


def rows_of(name, number, lines):
    """The rows of a sender's batch: a group, a value and the time."""
    rng, late, begin = random.Random(f"{name} {number}"), SENDERS[name], START + 2 * DAY + number * STEP
    return [(f"g{rng.randrange(GROUPS)}", rng.randrange(1_000), begin + i * SECOND - (rng.randrange(2 * DAY) if late else 0)) for i in range(lines)]


def frame_of(rows):
    return batch("".join(f"m,g={g} v={v}i {at * 1_000}\n" for g, v, at in rows).encode())


def visit_of(number):
    return batch(b"visits v=%di %d\n" % (number, START * 1_000))


def all_rows(rows):
    return csv("g,v,timestamp", [(g, v, shown(at)) for g, v, at in rows])


def sums(rows):
    return csv("count,sum", [(len(rows), sum(row[1] for row in rows))])


def by_group(rows):
    found = {}
    for g, v, _ in rows:
        count, total = found.get(g, (0, 0))
        found[g] = count + 1, total + v
    return csv("g,count,sum", [(g, *each) for g, each in found.items()])


def by_day(rows):
    found = {}
    for _, v, at in rows:
        count, total = found.get(at // DAY, (0, 0))
        found[at // DAY] = count + 1, total + v
    return csv("timestamp,count,sum", [(shown(day * DAY), *each) for day, each in found.items()])


def last_of_groups(rows):
    places = {g: place for place, (g, _, _) in enumerate(rows)}
    return all_rows([rows[place] for place in sorted(places.values())])


def of_day(day, rows):
    first = bisect.bisect_left(rows, day * DAY, key=lambda row: row[2])
    return all_rows(rows[first:bisect.bisect_left(rows, (day + 1) * DAY, key=lambda row: row[2])])


def ask_of_day(day):
    return f"m WHERE timestamp IN '{shown(day * DAY)[:10]}'"


FIRST_DAY = START // DAY + 1
ASKS = {
    "SELECT count(), sum(v) FROM m": sums,
    "m LIMIT -7": lambda rows: all_rows(rows[-7:]),
    "SELECT g, count(), sum(v) FROM m": by_group,
    "m LATEST ON timestamp PARTITION BY g": last_of_groups,
    "SELECT timestamp, count(), sum(v) FROM m SAMPLE BY 1d": by_day,
    ask_of_day(FIRST_DAY): lambda rows: of_day(FIRST_DAY, rows),
}


class Model:
    """The table behind so many transactions, which are known by their numbers: its rows in order of time, those of one time as they came."""

    def __init__(self, transactions, lines):
        self.transactions, self.lines, self.applied, self.rows = transactions, lines, 0, []

    def upto(self, n):
        """The rows over the first n transactions, no fewer than the last time."""
        for sent in self.transactions[self.applied:n]:
            for row in rows_of(*sent, self.lines) if sent else ():
                bisect.insort(self.rows, row, key=lambda row: row[2])
        self.applied = n
        return self.rows

    def reply(self, n, ask):
        rows = self.upto(n)
        if not rows:
            return b"F %d 32 %d\n" % (n, ask.index("FROM m") + 5 if "FROM m" in ask else 0)
        text = ASKS[ask](rows)
        return b"R %d %d\n" % (n, len(text)) + text


# -- the processes


class Worker:
    """A process that does a piece of work until it is told to stop."""

    def __init__(self, work, *words):
        self.pipe, theirs = FORKED.Pipe()
        self.process = FORKED.Process(target=self.serve, args=(theirs, work, words), daemon=True)
        self.process.start()
        theirs.close()

    @staticmethod
    def serve(pipe, work, words):
        try:
            found = work(pipe, *words)
        except (Wrong, ValueError, OSError) as wrong:
            found = f"{work.__name__}: {wrong!r}"
        pipe.send(found)

    def fails(self):
        """Whether it has ended before it was told."""
        return self.pipe.poll()

    def stop(self):
        """Tells it to stop."""
        try:
            self.pipe.send("stop")
        except OSError:
            pass  # it has ended

    def result(self):
        """What its work gave."""
        found = self.pipe.recv()
        self.process.join()
        if isinstance(found, str):
            raise Wrong(found)
        return found


def paced(pipe, every):
    """Numbers from 0 on, as often as may be, until it is told to stop."""
    due = time.monotonic()
    for number in itertools.count():
        if pipe.poll(max(due - time.monotonic(), 0)):
            return
        due = max(due + every, time.monotonic())
        yield number


def sender(pipe, port, name, rate, lines):
    """Commits batches. Gives the numbers of the transactions in the order of the batches, and the longest wait."""
    client, numbers, longest = Client(port), {}, 0
    for number in paced(pipe, 1 / rate):
        seconds, line, _ = client.ask(frame_of(rows_of(name, number, lines)))
        numbers[number_in(line, b"K")] = (name, number)
        longest = max(longest, seconds)
    if not client.end():
        raise Wrong("the end is answered by something else")
    return numbers, longest


def reader(pipe, port, seed):
    """Asks. Gives the answers, each as its number, the query and the sum of its bytes, and the longest wait."""
    client, answers, longest, known, rng = Client(port), [], 0, 0, random.Random(seed)
    for _ in paced(pipe, READ_EVERY):
        ask = rng.choice(list(ASKS))
        seconds, line, text = client.query(ask)
        n = number_in(line, b"RF")
        if n < known:
            raise Wrong(f"an answer over {n} transactions behind one over {known}")
        known = n
        answers.append((n, ask, hashlib.md5(line + text).digest()))
        longest = max(longest, seconds)
    client.end()
    return answers, longest


def applier(pipe, port, every):
    """Applies. Gives how often, and the longest wait."""
    client, longest, known, count = Client(port), 0, 0, 0
    for count in paced(pipe, every / 1_000):
        seconds, line, _ = client.ask(b"A\n")
        n = number_in(line, b"A")
        if n < known:
            raise Wrong(f"{n} are applied, where {known} were")
        known, longest = n, max(longest, seconds)
    client.end()
    return count, longest


def garbage(pipe, port):
    """Sends what is no frame. Gives how often, and the longest wait."""
    longest, count = 0, 0
    for count in paced(pipe, VISIT_EVERY):
        sent, wanted = GARBAGE[count % len(GARBAGE)]
        began, client = time.monotonic(), Client(port)
        client.send(sent)
        client.stop_sending()
        found = client.rest()
        client.close()
        if not found.endswith(wanted):
            raise Wrong(f"{found[:60]!r} to {sent[:20]!r}")
        longest = max(longest, time.monotonic() - began)
    return count, longest


def visit(port, number, commits):
    """A connection that applies, commits or asks, and ends, or goes without a word. Gives the number of its transaction, or none."""
    client = Client(port)
    try:
        if commits and number % 10 == 0:
            return number_in(client.ask(visit_of(number))[1], b"K")
        if number % 4 == 1:
            client.query("m LIMIT -7")
        elif number % 4 == 2:
            client.send(query("m LIMIT -7"))  # its reply isn't read
        elif number % 4 == 3 and not client.end():
            raise Wrong("the end is answered by something else")
    finally:
        client.close()
    return None


def visitor(pipe, port):
    """Connections one behind the other. Gives how many, the numbers of their transactions, and the longest wait."""
    longest, count, numbers = 0, 0, {}
    for count in paced(pipe, VISIT_EVERY):
        began = time.monotonic()
        number = visit(port, count, True)
        if number:
            numbers[number] = None
        longest = max(longest, time.monotonic() - began)
    return count, numbers, longest


# -- the server


class State:
    """What /proc says of a process: megabytes, descriptors and threads."""

    def __init__(self, pid):
        with open(f"/proc/{pid}/status") as status:
            fields = dict(line.split(":", 1) for line in status)
        self.megabytes, self.most = (int(fields[name].split()[0]) / 1_024 for name in ("VmRSS", "VmHWM"))
        self.threads, self.descriptors = int(fields["Threads"]), len(os.listdir(f"/proc/{pid}/fd"))

    def __str__(self):
        return f"{self.megabytes:,.1f} MB ({self.most:,.1f} at most), {self.descriptors} descriptors, {self.threads} threads"


def settled(pid, before=None):
    """The state once no session is left, or as it is after some seconds."""
    until = time.monotonic() + 10
    while True:
        state = State(pid)
        if time.monotonic() > until or before and (state.threads, state.descriptors) <= (before.threads, before.descriptors):
            return state
        time.sleep(0.1)


def watch(server, workers, seconds):
    """Lets the workers work, and prints what becomes of the server and of the machine."""
    began, machine = time.monotonic(), Machine()
    for minute in itertools.count(1):
        until = min(began + minute * MINUTE, began + seconds)
        while time.monotonic() < until:
            if any(worker.fails() for worker in workers):
                return
            time.sleep(0.5)
        print(f"  behind {time.monotonic() - began:,.0f} s: {State(server.process.pid)}; {machine}", flush=True)
        if until == began + seconds:
            return


def mixed(server, options):
    """Has all at once at the server. Gives the transactions by their numbers, the answers, and the words on what was done."""
    port = server.port
    senders = [Worker(sender, port, name, options.rate, options.lines) for name in SENDERS]
    readers = [Worker(reader, port, f"{options.seed} {number}") for number in range(2)]
    visitors = [Worker(visitor, port) for _ in range(2)]
    others = [Worker(applier, port, options.every), Worker(garbage, port)]
    workers = senders + readers + visitors + others
    watch(server, workers, options.seconds)
    for worker in workers:
        worker.stop()
    sent, read, visited = ([worker.result() for worker in each] for each in (senders, readers, visitors))
    (applies, apply_longest), (refused, refused_longest) = (worker.result() for worker in others)
    parts = [numbers for numbers, _ in sent] + [numbers for _, numbers, _ in visited]
    transactions = {n: each for part in parts for n, each in part.items()}
    if len(transactions) != sum(map(len, parts)):
        raise Wrong("a number is acknowledged twice")
    answers = [answer for each, _ in read for answer in each]
    done = [("batches", sum(len(numbers) for numbers, _ in sent), max(longest for _, longest in sent)),
            ("queries", len(answers), max(longest for _, longest in read)), ("applies", applies, apply_longest),
            ("connections with garbage", refused, refused_longest),
            ("other connections", sum(count for count, _, _ in visited), max(longest for _, _, longest in visited))]
    for what, count, longest in done:
        print(f"  {count:>10,} {what:<26} the longest wait {longest * 1e3:>8,.0f} ms", flush=True)
    return transactions, answers


def look_at_visits(server, visits):
    """Connections one behind the other, and nothing else; whether the server is as it was before."""
    pid = server.process.pid
    for number in range(FIRST_VISITS + visits // 10):
        visit(server.port, number, False)
    before = settled(pid)
    for number in range(visits):
        visit(server.port, number, False)
    after = settled(pid, before)
    good = after.threads <= before.threads and after.descriptors <= before.descriptors and after.megabytes <= before.megabytes + GROWTH
    print(f"{visits:,} connections one behind the other: {before} before, {after} behind{'' if good else '  WRONG'}", flush=True)
    return good


# -- the comparison


def numbered(transactions, count):
    """The transactions in the order of their numbers, which have to be all of those there are."""
    if sorted(transactions) != list(range(1, count + 1)):
        lacking = sorted(set(range(1, count + 1)) - set(transactions))
        raise Wrong(f"{len(transactions):,} are acknowledged, {count:,} are there; those that nobody was acknowledged begin {lacking[:5]}")
    return [transactions[n] for n in range(1, count + 1)]


def compare(client, model, count):
    """Whether each query, and each row, is as the model has it over all transactions."""
    rows = model.upto(count)
    for ask in ASKS:
        _, line, text = client.query(ask)
        if line + text != model.reply(count, ask):
            raise Wrong(f"{ask} over all {count:,}: {(line + text)[:80]!r}")
    days = sorted({at // DAY for _, _, at in rows})
    for day in days:
        _, line, text = client.query(ask_of_day(day))
        if text != of_day(day, rows):
            raise Wrong(f"the rows of {ask_of_day(day)}: {line!r}")
    print(f"  all {len(rows):,} rows of {len(days)} days are as they have to be", flush=True)


def compare_answers(model, answers, compared, seed):
    """That answers are as the model has them over as many transactions."""
    chosen = random.Random(seed).sample(answers, min(compared, len(answers)))
    for n, ask, digest in sorted(chosen):
        if hashlib.md5(model.reply(n, ask)).digest() != digest:
            raise Wrong(f"{ask} over {n:,} transactions was another answer than {model.reply(n, ask)[:80]!r}")
    print(f"  {len(chosen):,} of {len(answers):,} answers are those of the model", flush=True)


def patient(server):
    """A client whose waits may be long. One that doesn't ask for a minute loses its connection."""
    client = server.connect()
    client.socket.settimeout(None)
    return client


def load(options, folder):
    """The whole run. Gives whether the connections left nothing behind."""
    with served(options.program, folder) as server:
        print(f"before: {State(server.connect().close() or server.process.pid)}", flush=True)
        transactions, answers = mixed(server, options)
        client = patient(server)
        count = number_in(client.ask(b"A\n")[1], b"A")
        client.end()
        order = numbered(transactions, count)
        compare_answers(Model(order, options.lines), answers, options.compared, options.seed)
        model = Model(order, options.lines)
        model.upto(count)
        client = patient(server)
        compare(client, model, count)
        client.end()
        good = look_at_visits(server, options.visits)
    session = Session(options.program, "run", "--dir", folder)
    if number_in(session.ask(b"A\n")[1], b"A") != count:
        raise Wrong("a later opening has another number of transactions")
    compare(session, model, count)
    return session.end() and good


def main():
    parser = argparse.ArgumentParser(description=__doc__, formatter_class=argparse.RawDescriptionHelpFormatter)
    for name, default in (("seconds", 60), ("visits", 10_000), ("rate", 10), ("lines", 25), ("every", 200), ("compared", 300)):
        parser.add_argument(f"--{name}", type=int, default=default)
    parser.add_argument("--seed", type=int, default=random.SystemRandom().randrange(1 << 32))
    parser.add_argument("--folder", default=tempfile.gettempdir())
    options = parsed(parser)
    print(f"seed {options.seed}", flush=True)
    with tempfile.TemporaryDirectory(dir=options.folder) as place:
        try:
            return 0 if load(options, os.path.join(place, "store")) else 1
        except Wrong as wrong:
            print(f"WRONG: {wrong}")
            return 1


if __name__ == "__main__":
    sys.exit(main())

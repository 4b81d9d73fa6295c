#!/usr/bin/env python3
"""Times the built program beside the databases that a user might choose in its place, over the same rows, and compares their answers.

The rows are ROWS of a table t with six values over ten days (two SYMBOLs: a host of 100 and its dc of 4; two LONGs, a BOOLEAN and the
time), and a tenth as many of a table q with a host, a LONG and the time. Beside the program stand SQLite, PostgreSQL, InfluxDB 1,
VictoriaMetrics and ClickHouse, each as Debian has it and with settings that keep what it acknowledged where it has such ones; the output
says which, and what isn't durable (`peer_syncs.py` checks that).

First each load goes into a new store of each: t in batches of 1,000 and of 10,000 lines, in order of time and with every tenth row in the
batch behind its own, from one sender and from four among whom the batches are dealt in turn. Requests are made before a clock runs; each
sender is a process of its own, which sends a batch once the one before is acknowledged. What counts is the time to the last
acknowledgement, and that until all rows are seen by queries. Then all rows are asked for their count, sum, least and greatest value.

Then t and q are put into one store of each, with the indexes of those that have them, whose files come to rest, and each question is
asked: cold, of a system that was started anew behind the pages of its files were dropped from memory, and warm, the third time that it is
asked there. Each answer is compared, row by row, with what this script works out by plain loops.

All is done ROUNDS times, by one system after the other in each round; medians are printed, and where an answer was wrong or something
failed that in their place. It ends with 1 then. --keep writes all that was measured into a file, behind each row, with what the machine is
and what else it did meanwhile; `kept.py` makes a table and a plot of that.

usage: peers.py [--install] [--rows N] [--rounds N] [--systems NAME,..] [--only WORDS] [--indexed] [--keep FILE] [--folder PATH]
                [--program PATH]
--install first installs the missing packages by apt-get, as root. Where a system isn't there nothing is measured; --systems takes those
that it names. --only takes the loads and the questions in whose words the regular expression is found. --indexed makes the index of SQLite
and PostgreSQL before the rows come, which otherwise is made behind a load's time. --folder is a folder on the file system to measure; all
is made in one below it and removed. As root PostgreSQL runs as the user postgres, who has to be let into that folder. Build the program
first: run `rt run -- run < stdin` in crates/tsdb.
"""
import argparse
import contextlib
import datetime
import multiprocessing
import os
import re
import shutil
import signal
import subprocess
import sys
import tempfile
import time
import traceback

from kept import NUMBER, RATE, TIME, TITLES, Kept
from machine import Machine, described
from peer_systems import BEGIN, DAY, END, HOUR, NEXT_DAY, PER_REQUEST, QUESTIONS, SYSTEMS, dies_with_parent, end_all, forget, micros
from program import PROGRAM
from store import sync_time

LATE, OTHERS = 7, 10  # of ten rows that one is late
ASKS = 3  # the last of which is warm
LEAST = 2_000  # rows, so that each host has some on each day: systems differ in what the sum of no rows is
LONGEST = 3_600  # seconds for which one is waited
SIGNALS = (signal.SIGINT, signal.SIGTERM, signal.SIGHUP)
WIDE = 58  # of the words of a printed row
FILLING, DISK, MEMORY = "its store is filled", "bytes on the disk, a row", "MB of memory at most, while asked"
FORKED = multiprocessing.get_context("fork")
WORDS = {"all": "count, sum, min, max of all", "hours": "samples of 1h by host", "last": "last row of each host", "day": "one host, one day",
         "kinds": "by a SYMBOL of 4, with max", "joined": "ASOF JOIN, aggregated", "matches": "ASOF JOIN, its rows"}


class Rows:
    """The rows of both tables, in order of time, in microseconds."""

    def __init__(self, count):
        few = max(count // 10, 1)
        step, wide = (max((END - BEGIN) // each, 1) * 1000 for each in (count, few))
        # host, dc, v, w, ok, time
        self.t = [(f"h{i * 37 % 100}", f"d{i * 37 % 100 % 4}", (i * 7_919 + 13) % 1_000, i * 104_729 % 1_000_003, int(i % 3 == 0),
                   BEGIN * 1000 + i * step) for i in range(count)]
        # host, p, time
        self.q = [(f"h{i * 53 % 101}", i % 1_000, BEGIN * 1000 + i * wide + 1_000) for i in range(few)]

    def batches(self, lines, late):
        """The rows of t in batches, where it is asked for with every tenth row behind those of the next one."""
        rows = self.t
        if late:
            order = sorted(range(len(rows)), key=lambda i: i + (lines if i % OTHERS == LATE else 0))
            rows = [rows[i] for i in order]
        return [rows[first:first + lines] for first in range(0, len(rows), lines)]

    def grouped(self, key, other):
        """For each key the count and the sum of v, and the greatest of another value."""
        groups = {}
        for row in self.t:
            count, total, most = groups.get(key(row), (0, 0, -1))
            groups[key(row)] = (count + 1, total + row[2], max(most, row[other]))
        return groups

    def matches(self):
        """Each row of q with the v of the last row of t at or before it of the same host, or None."""
        last, at = {}, 0
        for host, p, moment in self.q:
            while at < len(self.t) and self.t[at][5] <= moment:
                last[self.t[at][0]] = self.t[at][2]
                at += 1
            yield moment, host, p, last.get(host)

    def answer(self, question):
        """What a question has to be answered, its rows in any order."""
        v = [row[2] for row in self.t]
        if question == "all":
            return [(len(v), sum(v), min(v), max(v))]
        if question == "hours":
            wide = HOUR * 1000
            return [(*key, count, total) for key, (count, total, _) in self.grouped(lambda row: (row[5] // wide * wide, row[0]), 2).items()]
        if question == "last":
            return list({row[0]: (row[0], row[2], row[5]) for row in self.t}.values())
        if question == "day":
            of_day = [row[2] for row in self.t if row[0] == "h7" and micros(DAY) <= row[5] < micros(NEXT_DAY)]
            return [(len(of_day), sum(of_day))]
        if question == "kinds":
            return [(key, *found) for key, found in self.grouped(lambda row: row[1], 3).items()]
        found = list(self.matches())
        return found if question == "matches" else [(len(found), sum(row[2] for row in found), sum(row[3] or 0 for row in found))]


class Wrong(Exception):
    """An answer was another than the right one."""


def checked(found, wanted):
    """Compares rows in any order."""
    found, wanted = (sorted(rows, key=repr) for rows in (found, wanted))
    if found != wanted:
        first = next((pair for pair in zip(found, wanted) if pair[0] != pair[1]), (len(found), len(wanted)))
        raise Wrong(f"{first[0]} where {first[1]} was wanted")


class Sender:
    """A process that writes its share of batches once it is told to."""

    def __init__(self, system, requests):
        self.pipe, theirs = FORKED.Pipe()
        self.process = FORKED.Process(target=self.serve, args=(theirs, system, requests), daemon=True)
        self.process.start()
        theirs.close()

    @staticmethod
    def serve(pipe, system, requests):
        """Says that it is ready, and does each step that it is told: what it says behind one is the moment, or what failed."""
        dies_with_parent()
        for each in SIGNALS:
            signal.signal(each, signal.SIG_IGN if each == signal.SIGINT else signal.SIG_DFL)
        try:
            writer = system.writer()
            pipe.send(time.monotonic())
            pipe.recv()
            for request in requests:
                writer.write(request)
            pipe.send(time.monotonic())
            if pipe.recv():
                writer.show()
            pipe.send(time.monotonic())
            pipe.recv()
            writer.close()
            pipe.send(time.monotonic())
        except Exception:
            pipe.send(traceback.format_exc(limit=-1))

    def tell(self, word=True):
        self.pipe.send(word)

    def heard(self):
        """What it said, once it has."""
        if not self.pipe.poll(LONGEST):
            raise ValueError(f"a sender said nothing for {LONGEST} s")
        try:
            said = self.pipe.recv()
        except EOFError:
            raise ValueError("a sender has ended") from None
        if isinstance(said, str):
            raise ValueError(said)
        return said

    def stop(self):
        self.process.terminate()
        self.process.join()


def fed(system, requests, count):
    """Has so many senders write the requests. Gives the seconds until all was acknowledged, and until it was seen."""
    with contextlib.ExitStack() as stack:
        senders = [Sender(system, requests[place::count]) for place in range(count)]
        for sender in senders:
            stack.callback(sender.stop)
        for sender in senders:
            sender.heard()
        began = time.monotonic()
        for sender in senders:
            sender.tell()
        acknowledged = max([sender.heard() for sender in senders])
        senders[0].tell(True)
        seen = senders[0].heard()
        for sender in senders[1:]:
            sender.tell(False)
            sender.heard()
        for sender in senders:
            sender.tell()
            sender.heard()
    return acknowledged - began, seen - began


@contextlib.contextmanager
def placed(options):
    """A folder for one store, in which any user may look."""
    with tempfile.TemporaryDirectory(dir=options.folder) as place:
        os.chmod(place, 0o755)
        yield place


@contextlib.contextmanager
def all_placed(options):
    """A folder for all, which is removed in the end, behind all servers and whatever happened; no signal disturbs that."""
    place = options.folder = tempfile.mkdtemp(dir=options.folder, prefix="peers-")
    os.chmod(place, 0o755)
    try:
        yield
    finally:
        for each in SIGNALS:
            signal.signal(each, signal.SIG_IGN)
        end_all()
        shutil.rmtree(place)


def measure_load(options, kind, rows, requests, senders):
    """Puts t into a new store. Gives the rows per second that were acknowledged and seen."""
    with placed(options) as place:
        system = kind(place, options)
        try:
            system.begin(senders)
            os.sync()  # so that no load pays for what was written before
            acknowledged, seen = fed(system, requests, senders)
            system.read()
            checked(system.ask("all")[1], rows.answer("all"))
        finally:
            system.close()
    return len(rows.t) / acknowledged, len(rows.t) / seen


class Measured:
    """What is measured, kept row by row."""

    def __init__(self, options, about):
        self.kept, self.path = Kept(about), options.keep

    def add(self, words, kind, work):
        """Adds the two numbers that the work gives, unless something failed before."""
        if self.kept.failure(words, kind.name):
            return
        try:
            self.kept.add(words, kind.name, work())
        except Exception as fault:
            self.kept.fail(words, kind.name, f"{'WRONG' if isinstance(fault, Wrong) else 'failed'}: {fault or type(fault).__name__}")
            print(f"{kind.name}, {words}: {self.kept.failure(words, kind.name)}", file=sys.stderr, flush=True)

    def end(self, of, words):
        """Ends a row, and prints it."""
        self.kept.list(of, words)
        print(f"{words:<{WIDE}}" + "".join(f" {self.kept.cell(of, words, system):>18}" for system in self.kept.systems), flush=True)
        if self.path:
            self.kept.write(self.path)


def loads(options):
    """The loads that are asked for: their words, lines, whether some are late, and senders."""
    for senders in (1, 4):
        for lines in (1_000, 10_000):
            for late in (False, True):
                words = f"{lines:,} lines, {'one sender' if senders == 1 else 'four senders'}, {'a tenth late' if late else 'in order'}"
                if re.search(options.only, words):
                    yield words, lines, late, senders


def in_turn(kinds, number):
    """The systems in the order of a round, which another one begins each time."""
    return kinds[number % len(kinds):] + kinds[:number % len(kinds)]


def measure_loads(options, kinds, rows, measured):
    """Measures each load, and prints its row."""
    if any(loads(options)):
        print_head(RATE, kinds)
    for words, lines, late, senders in loads(options):
        batches = rows.batches(lines, late)
        requests = {kind: [kind.t(kind("", options), batch) for batch in batches] for kind in kinds}
        for number in range(options.rounds):
            for kind in in_turn(kinds, number):
                measured.add(words, kind, lambda: measure_load(options, kind, rows, requests[kind], senders))
        measured.end(RATE, words)


def filled(kind, place, options, rows):
    """A store with all rows, closed, as it is best asked."""
    system = kind(place, options)
    system.to_settle = True
    try:
        system.begin(1)
        of_q = [rows.q[first:first + PER_REQUEST] for first in range(0, len(rows.q), PER_REQUEST)]
        fed(system, [system.t(batch) for batch in rows.batches(PER_REQUEST, False)] + [system.q(batch) for batch in of_q], 1)
        system.read()
        system.settle()
    finally:
        system.close()
    system.to_settle = False
    return system


def asked(system, question, wanted):
    """Asks a question of a system that is started for it. Gives the seconds warm and cold."""
    forget(system.folder)
    system.open()
    times = []
    try:
        for _ in range(ASKS):
            seconds, answer = system.ask(question)
            checked(answer, wanted)
            times.append(seconds)
        system.took = max(system.took, system.most() or 0)
    finally:
        system.close()
    return times[-1], times[0]


def measure_questions(options, kinds, rows, measured):
    """Fills a store of each system, asks each question, and prints their rows."""
    questions = [question for question in QUESTIONS if re.search(options.only, WORDS[question])]
    if not questions:
        return
    with contextlib.ExitStack() as stack:
        systems = []
        for kind in kinds:
            place = stack.enter_context(placed(options))
            measured.add(FILLING, kind, lambda: systems.append(filled(kind, place, options, rows)) or (0, 0))
            if failure := measured.kept.failure(FILLING, kind.name):
                for question in questions:
                    measured.kept.fail(WORDS[question], kind.name, failure)
        print_head(TIME, kinds)
        for question in questions:
            wanted = rows.answer(question)
            for number in range(options.rounds):
                for system in in_turn(systems, number):
                    if question not in system.lacks:
                        measured.add(WORDS[question], type(system), lambda: asked(system, question, wanted))
            measured.end(TIME, WORDS[question])
        for system in systems:
            measured.add(DISK, type(system), lambda: (system.size() / (len(rows.t) + len(rows.q)),) * 2)
            if system.took:
                measured.add(MEMORY, type(system), lambda: (system.took,) * 2)
        print_head(NUMBER, kinds)
        for words in (DISK, MEMORY):
            measured.end(NUMBER, words)


def print_head(of, kinds):
    print(f"\n{TITLES[of]:<{WIDE}}" + "".join(f"{kind.name + ('' if kind.durable else ' *'):>19}" for kind in kinds), flush=True)


def install(kinds, options):
    """Installs the packages of which a program is missing; no service is started."""
    packages = [package for kind in kinds if kind.missing(options) for package in kind.packages]
    if packages:
        unasked = dict(os.environ, DEBIAN_FRONTEND="noninteractive", SYSTEMD_OFFLINE="1", RUNLEVEL="1")
        subprocess.run(["apt-get", "update"], check=True, env=unasked, stdout=subprocess.DEVNULL)
        subprocess.run(["apt-get", "install", "-y", "--no-install-recommends", "--no-upgrade", *packages], check=True, env=unasked, stdout=subprocess.DEVNULL)


def chosen(parser, options):
    """The systems to measure, all of which are there."""
    names = [name.strip().lower() for name in options.systems.split(",") if name.strip()]
    unknown = set(names) - {kind.name.lower() for kind in SYSTEMS}
    if unknown:
        parser.error(f"no system {', '.join(sorted(unknown))}; there are {', '.join(kind.name for kind in SYSTEMS)}")
    kinds = [kind for kind in SYSTEMS if not names or kind.name.lower() in names]
    if options.install:
        install(kinds, options)
    missing = [f"{kind.name}: {', '.join(kind.missing(options))}; {kind.remedy()}" for kind in kinds if kind.missing(options)]
    if missing:
        parser.error("\n".join(["not there:", *missing]))
    return kinds


def about(kind, options):
    """What is said of a system."""
    return {"name": kind.name, "version": kind.version(options), "durable": kind.durable, "about": kind.about, "showing": kind.showing,
            "lacks": [WORDS[question] for question in kind.lacks]}


def ended(*_):
    """Ends the script in the way that takes all down that was begun."""
    for each in SIGNALS:
        signal.signal(each, signal.SIG_IGN)
    sys.exit("peers.py: ended by a signal")


def parser_of(text):
    """A parser of command lines that name systems."""
    parser = argparse.ArgumentParser(description=text, formatter_class=argparse.RawDescriptionHelpFormatter)
    parser.add_argument("--systems", default="")
    parser.add_argument("--folder", default=tempfile.gettempdir())
    parser.add_argument("--program", default=PROGRAM)
    parser.set_defaults(install=False, indexed=False)
    return parser


def main():
    parser = parser_of(__doc__)
    parser.add_argument("--install", action="store_true")
    parser.add_argument("--rows", type=int, default=1_000_000)
    parser.add_argument("--rounds", type=int, default=5)
    parser.add_argument("--only", default="")
    parser.add_argument("--indexed", action="store_true")
    parser.add_argument("--keep")
    options = parser.parse_args()
    for each in SIGNALS:
        signal.signal(each, ended)
    if options.rows < LEAST or options.rounds < 1:
        parser.error(f"it takes {LEAST:,} rows and one round at least")
    kinds = chosen(parser, options)
    machine, rows, began = Machine(), Rows(options.rows), datetime.datetime.now(datetime.timezone.utc)
    measured = Measured(options, {
        "whole": False, "date": f"{began:%Y-%m-%d}", "rounds": options.rounds, "t": len(rows.t), "q": len(rows.q),
        "index": "before the rows come" if options.indexed else "behind the load", "only": options.only, "shares": None,
        "machine": described(options.folder), "sync": sync_time(options.folder), "systems": [about(kind, options) for kind in kinds]})
    kept = measured.kept
    for system in kept.systems:
        print(f"{system['name']} ({system['version']}), {kept.words(system)}")
    print(f"{kept.origin()} * is not durable")
    with all_placed(options):
        measure_loads(options, kinds, rows, measured)
        measure_questions(options, kinds, rows, measured)
    kept.about["whole"] = not options.only and kinds == SYSTEMS
    kept.about["shares"] = machine.shares()
    print(f"\n{machine}\n{kept.warning()}")
    if options.keep:
        kept.write(options.keep)
    return 1 if any(kept.about["failed"].values()) else 0


if __name__ == "__main__":
    raise SystemExit(main())

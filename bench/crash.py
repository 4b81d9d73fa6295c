#!/usr/bin/env python3
"""Ends the program by SIGKILL at random moments while it commits into a folder, and looks at what the folder has then.

Each round starts `tsdb run --dir FOLDER` and feeds it BATCHES batches without waiting for its replies, in every second round with applies
and queries among them. A batch has rows of one to three tables, each with the batch's number in it: in order of time, of one time with others, and late
ones of several partitions; some batches bring a column. Once a number of batches that is drawn is acknowledged, 0 and all of them
among these, and a pause that is drawn is over, the program is killed: so while it opens the folder, commits, applies, answers, or ends.
What it wrote until then is read: each reply has to be the right one. Then the folder is opened again, and asked before an apply and
behind one: it has to have just the rows of the batches that were acknowledged, in their order, and of at most one more, and no fewer
applied ones than an apply has answered. Several rounds go on in one folder; then comes a new one.

It prints what it did, and how often one more was there; it ends with 1 where something was wrong, and keeps that folder.

usage: crash.py [--rounds N] [--batches N] [--seed N] [--folder PATH] [--program PATH]
--folder is a folder on the file system to use; all is made in one below it. Build the program first: run `rt run -- run < stdin` in
crates/tsdb.
"""
import argparse
import os
import random
import shutil
import subprocess
import sys
import tempfile
import threading
import time

from answers import csv, shown
from program import batch, parsed, query

TABLES = ("a", "b", "c")
START = 1_706_313_600_000_000  # 2024-01-27, in microseconds
SECOND, DAY = 1_000_000, 86_400_000_000
OPENING = 0.004  # seconds
SECONDS = 600  # after which a session that doesn't end is given up


class Story:
    """The batches of a folder, and what its tables have to show behind so many of them."""

    def __init__(self, seed):
        self.seed = seed
        self.batches = []

    def rows_of(self, number):
        """The rows of a batch: the table, the cells by their columns, and the time."""
        while len(self.batches) < number:
            self.batches.append(self.made(len(self.batches) + 1))
        return self.batches[number - 1]

    def made(self, number):
        rng = random.Random(f"{self.seed} {number}")
        tables = rng.sample(TABLES, rng.randint(1, 3))
        rows = []
        for i in range(rng.choice((0, 1, 3, 20, 60))):
            cells = {"g": f"g{rng.randrange(5)}", "v": number, "i": i, "s": f"row {i} of {number}"}
            if number % 7 == 0:
                cells[f"x{number % 3}"] = number * i
            late = rng.choice((0, 0, 0, 0, rng.randrange(3 * DAY)))
            at = rng.choice((START + number * SECOND + i * 1_000 - late, START + number // 5 * SECOND))
            rows.append((rng.choice(tables), cells, at))
        return rows

    def frame(self, number):
        """The frame of a batch."""
        lines = []
        for table, cells, at in self.rows_of(number):
            fields = ",".join(f'{name}="{cell}"' if name == "s" else f"{name}={cell}i" for name, cell in cells.items() if name != "g")
            lines.append(f"{table},g={cells['g']} {fields} {at * 1_000}\n")
        return batch("".join(lines).encode())

    def answer(self, table, applied):
        """The reply to the query of a table over so many batches."""
        columns, rows = [], []
        for number in range(1, applied + 1):
            for name, cells, at in self.rows_of(number):
                if name == table:
                    for column in [*cells] + ["timestamp"] * (not columns):
                        if column not in columns:
                            columns.append(column)
                    rows.append((at, cells))
        if not rows:
            return b"F %d 32 0\n" % applied
        rows.sort(key=lambda row: row[0])
        text = csv(",".join(columns), [[shown(at) if name == "timestamp" else cells.get(name, "") for name in columns] for at, cells in rows])
        return b"R %d %d\n" % (applied, len(text)) + text


class Replies:
    """What a program wrote, read reply by reply."""

    def __init__(self, output):
        self.output, self.at = output, 0

    def next(self):
        """The next reply, or None where it isn't there whole."""
        end = self.output.find(b"\n", self.at) + 1
        if end == 0:
            return None
        if self.output.startswith(b"R ", self.at):
            end += int(self.output[self.at:end].split()[2])
        if end > len(self.output):
            return None
        reply, self.at = self.output[self.at:end], end
        return reply


class Asked:
    """The requests of a session over a story, and the reply that each of them has to have, from so many batches on."""

    def __init__(self, story, there, batches, rng, applies):
        self.requests, applied, number = [], None, there
        for _ in range(batches):
            number += 1
            self.requests.append((story.frame(number), b"K %d\n" % number, None))
            if applies and rng.random() < 0.3:
                applied = number
                self.requests.append((b"A\n", b"A %d\n" % applied, None))
            if applied is not None and rng.random() < 0.2:
                table = rng.choice(TABLES)
                self.requests.append((query(table), None, (story, table, applied)))

    def input(self):
        return b"".join(request[0] for request in self.requests) + b"X\n"

    def look(self, output, there):
        """The number of batches that are acknowledged and of those that are applied, and what is wrong, or None."""
        replies, acknowledged, applied = Replies(output), there, 0
        for _, wanted, asked in self.requests:
            reply = replies.next()
            if reply is None:
                return acknowledged, applied, None
            if asked:
                story, table, over = asked
                wanted = story.answer(table, over)
            if reply != wanted:
                return acknowledged, applied, f"{reply[:60]!r} where {wanted[:60]!r} was wanted"
            acknowledged += reply.startswith(b"K")
            applied = acknowledged if reply.startswith(b"A") else applied
        reply = replies.next()
        return acknowledged, applied, None if reply in (None, b"X\n") else f"{reply[:60]!r} at the end"


def session(program, folder, given, after=None, pause=0):
    """Feeds the program over a folder, and gives what it wrote and its status. Once so many batches are acknowledged it waits for so
    many times what each of them took, or where it is none what an opening may take, and kills the program."""
    process = subprocess.Popen([program, "run", "--dir", folder], stdin=subprocess.PIPE, stdout=subprocess.PIPE)

    def feed():
        try:
            with process.stdin as pipe:
                pipe.write(given)
        except BrokenPipeError:
            pass

    feeder = threading.Thread(target=feed)
    feeder.start()
    watch = threading.Timer(SECONDS, process.kill)
    watch.start()
    output, acknowledged, first = b"", 0, None
    while after is not None:
        if acknowledged >= after:
            time.sleep(pause * ((time.perf_counter() - first) / acknowledged if acknowledged else OPENING))
            process.kill()
            break
        piece = os.read(process.stdout.fileno(), 1 << 16)
        if not piece:
            break
        first = first or time.perf_counter()
        output += piece
        acknowledged = output.count(b"K ")
    output += process.stdout.read()
    status = process.wait()
    watch.cancel()
    feeder.join()
    return output, status


def fault_of_folder(program, folder, story, acknowledged, applied):
    """How many batches a folder has, which is opened, and what is wrong with it, or None."""
    asks = b"".join(query(table) for table in TABLES)
    output, status = session(program, folder, asks + b"A\n" + asks + b"X\n")
    replies = Replies(output)
    found = [replies.next() for _ in range(2 * len(TABLES) + 2)]
    if status != 0 or found[-1] != b"X\n" or replies.at != len(output):
        return 0, f"status {status}, {output[:100]!r}"
    before, word, after = found[:len(TABLES)], found[len(TABLES)], found[len(TABLES) + 1:-1]
    there = next((n for n in (acknowledged, acknowledged + 1) if word == b"A %d\n" % n), None)
    if there is None:
        return 0, f"{acknowledged} are acknowledged, and the answer is {word!r}"
    shows = int(before[0].split()[1])
    if not applied <= shows <= there:
        return there, f"{applied} of {there} are applied, and {shows} are shown"
    for replies, over in ((before, shows), (after, there)):
        for table, reply in zip(TABLES, replies):
            if reply != story.answer(table, over):
                return there, f"the rows of {table} over {over} batches are others"
    return there, None


class Count:
    """What was done."""

    def __init__(self):
        self.rounds = self.folders = self.batches = self.early = self.late = self.more = 0

    def __str__(self):
        return (f"{self.rounds} rounds in {self.folders} folders: {self.batches:,} batches acknowledged; killed before the first of a round "
                f"{self.early} times, ended before it was killed {self.late} times; one more was there {self.more} times")


def kill_again_and_again(program, place, rounds, batches, seed, count):
    """Makes so many rounds in folders below a place, and gives what is wrong, or None."""
    rng = random.Random(seed)
    while count.rounds < rounds:
        folder = os.path.join(place, f"{count.folders}")
        story, there, applied = Story(f"{seed} {count.folders}"), 0, 0
        count.folders += 1
        for _ in range(min(rng.randint(5, 15), rounds - count.rounds)):
            asked = Asked(story, there, batches, rng, count.rounds % 2 == 1)
            output, status = session(program, folder, asked.input(), 0 if rng.random() < 0.15 else rng.randint(0, batches), rng.uniform(0, 2))
            acknowledged, newly, fault = asked.look(output, there)
            if status not in (0, -9):
                fault = fault or f"status {status}"
            if fault:
                return f"{folder}: {fault}"
            count.rounds += 1
            count.batches += acknowledged - there
            count.early += acknowledged == there
            count.late += status == 0
            applied = max(applied, newly)
            there, fault = fault_of_folder(program, folder, story, acknowledged, applied)
            if fault:
                return f"{folder}: {fault}"
            count.more += there > acknowledged
            applied = there
        shutil.rmtree(folder)
    return None


def main():
    parser = argparse.ArgumentParser(description=__doc__, formatter_class=argparse.RawDescriptionHelpFormatter)
    parser.add_argument("--rounds", type=int, default=200)
    parser.add_argument("--batches", type=int, default=40)
    parser.add_argument("--seed", type=int, default=random.SystemRandom().randrange(1 << 32))
    parser.add_argument("--folder", default=tempfile.gettempdir())
    options = parsed(parser)
    place = tempfile.mkdtemp(dir=options.folder)
    count = Count()
    print(f"seed {options.seed}", flush=True)
    fault = kill_again_and_again(options.program, place, options.rounds, options.batches, options.seed, count)
    print(count)
    if fault:
        print(f"WRONG: {fault}")
        return 1
    shutil.rmtree(place)
    return 0


if __name__ == "__main__":
    sys.exit(main())

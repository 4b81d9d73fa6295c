#!/usr/bin/env python3
"""Ends the server by SIGKILL at random moments under four senders at once, and looks at what its folder has then.

Each round starts `tsdb serve PORT --dir FOLDER`, and SENDERS clients that send batches of 1 to 61 rows of one to three tables: in order
of time, of one time with others, and late ones of several partitions; some bring a column. One row of each batch has its sender and its
number, at one time for all of them, so that these rows stand in the order of the transactions. Now and then a client applies, or asks. In
every second round each waits for a reply before it sends again; in the others up to WINDOW requests of a client are on their way. After
a time that is drawn the server is killed, in some rounds before anybody was answered; in some a later opening is killed as well.

Then `run --dir` opens the folder and applies. It has to have each acknowledged transaction at its number, those of each sender in the
order in which they were sent, and behind what was acknowledged at most one more of each sender, the next one that it sent; as many
applied as an apply or an answer had told of; and in each table, before the apply and behind it, just the rows of these transactions.
Several rounds go on in one folder; then comes a new one.

It prints what it did, and in how many rounds how many more were there than were acknowledged in all; it ends with 1 where something was
wrong, and keeps that folder.

usage: crash_serve.py [--rounds N] [--longest MILLISECONDS] [--seed N] [--folder PATH] [--program PATH]
--longest is the most time for which a server goes on. --folder is a folder on the file system to use; all is made in one below it. Build
the program first: run `rt run -- run < stdin` in crates/tsdb.
"""
import argparse
import collections
import os
import random
import re
import shutil
import sys
import tempfile
import threading
import time

from crash import DAY, OPENING, SECOND, START, Replies, Story, session
from program import number_in, parsed, query
from server import served

SENDERS, WINDOW = 4, 8
TABLES = ("log", "a", "b")
TEXT = query("SELECT count() FROM a")
ROUNDS_IN_ONE = 10
KILLED = -9
SECONDS = 120


def rows_of(sender, number):
    """The rows of a batch: the table, the cells by their columns, and the time. The first one is in the table of all batches."""
    rng = random.Random(f"{sender} {number}")
    rows = [("log", {"g": f"s{sender}", "v": number}, START)]
    for i in range(rng.choice((0, 1, 3, 20, 60))):
        cells = {"g": f"g{rng.randrange(5)}", "v": number, "i": sender, "s": f"row {i} of {number}"}
        if number % 7 == 0:
            cells[f"x{sender}"] = number * i
        late = rng.choice((0, 0, 0, 0, rng.randrange(3 * DAY)))
        at = rng.choice((START + number * SECOND + i * 1_000 - late, START + number // 5 * SECOND))
        rows.append((rng.choice("ab"), cells, at))
    return rows


class History(Story):
    """A story whose batches are those of senders, by their numbers."""

    def __init__(self, sent):
        self.sent = sent

    def rows_of(self, number):
        return rows_of(*self.sent[number - 1])


class Sender:
    """A client that sends batches from a number on until its server is gone."""

    def __init__(self, server, name, first, window, seed):
        self.client, self.name, self.next, self.window = server.connect(), name, first, window
        self.rng = random.Random(f"{seed} {name}")
        self.pending, self.acknowledged, self.known, self.fault = collections.deque(), {}, 0, None
        self.thread = threading.Thread(target=self.work)
        self.thread.start()

    def work(self):
        try:
            self.talk()
        except ValueError as wrong:
            self.fault = f"sender {self.name}: {wrong}"
        except OSError:
            pass
        self.client.close()

    def talk(self):
        """Sends as long as it can, and reads on behind that what the server had written."""
        is_there = True
        while is_there or self.pending:
            while is_there and len(self.pending) < self.window:
                is_there = self.send()
            self.hear()

    def send(self):
        """Sends what comes next, and says whether the server took it."""
        number = None
        if (dice := self.rng.random()) < 0.1:
            frame = b"A\n" if dice < 0.07 else TEXT
        else:
            number, self.next = self.next, self.next + 1
            frame = History([(self.name, number)]).frame(1)
        self.pending.append(number)
        try:
            self.client.send(frame)
        except ConnectionError:
            return False
        return True

    def hear(self):
        """Reads a reply, and records it."""
        line, text = self.client.reply()
        if not line.endswith(b"\n") or line.startswith(b"R ") and len(text) < int(line.split()[2]):
            raise ConnectionError("the server is gone")
        number = self.pending[0]
        n = number_in(line, b"K" if number is not None else b"ARF")
        self.pending.popleft()
        if number is not None:
            self.acknowledged[n] = (self.name, number)
        else:
            self.known = max(self.known, n)

    def is_left(self, number):
        """Whether a batch is the first one of those that it sent without a reply."""
        return number == next((each for each in self.pending if each is not None), None)


def killed(server, seconds):
    """Kills a server that has not ended by itself, after a time. Gives what is wrong, or None."""
    time.sleep(seconds)
    server.kill()
    return None if server.process.returncode == KILLED else f"the server has ended with status {server.process.returncode}"


def round_of(program, folder, rng, first, longest):
    """The senders of a round, whose server was killed, and what is wrong, or None."""
    with served(program, folder) as server:
        if rng.random() < 0.1:
            return [], killed(server, rng.uniform(0, OPENING))
        window = rng.choice((1, WINDOW))
        senders = [Sender(server, name, first, window, rng.random()) for name in range(SENDERS)]
        fault = killed(server, rng.uniform(0, longest))
        for sender in senders:
            sender.thread.join(SECONDS)
            fault = fault or sender.fault or ("a sender goes on" if sender.thread.is_alive() else None)
    return senders, fault


def history_in(reply):
    """The sender and the number of each transaction, by the rows of the table of all batches."""
    return [(int(name), int(number)) for name, number in re.findall(rb"\ns(\d+),(\d+),", reply)]


def fault_of_history(found, before, senders):
    """What is wrong with a history, or None."""
    if found[:len(before)] != before:
        return "what was there before isn't"
    acknowledged = {n: sent for sender in senders for n, sent in sender.acknowledged.items()}
    if len(acknowledged) != sum(len(sender.acknowledged) for sender in senders):
        return "a number is acknowledged twice"
    for n, sent in acknowledged.items():
        if found[n - 1:n] != [sent] or n <= len(before):
            return f"transaction {n} of {len(found)} isn't {sent}, which was acknowledged"
    more = [found[n - 1] for n in range(len(before) + 1, len(found) + 1) if n not in acknowledged]
    if len({name for name, _ in more}) != len(more) or not all(senders[name].is_left(number) for name, number in more):
        return f"more is there than the next one of each sender: {more}"
    for name in range(SENDERS):
        numbers = [number for sender, number in found[len(before):] if sender == name]
        if numbers != sorted(set(numbers)):
            return f"the transactions of sender {name} aren't in order"
    return None


def look(program, folder, before, senders, known):
    """What the folder has, as a history, and what is wrong with it, or None."""
    asks = b"".join(query(table) for table in TABLES)
    output, status = session(program, folder, asks + b"A\n" + asks + b"X\n")
    replies = Replies(output)
    found = [replies.next() for _ in range(2 * len(TABLES) + 2)]
    if status != 0 or found[-1] != b"X\n" or replies.at != len(output):
        return before, f"status {status}, {output[:100]!r}"
    history = History(history_in(found[len(TABLES) + 1]))
    fault = fault_of_history(history.sent, before, senders)
    shows = number_in(found[0], b"RF")
    if fault or found[len(TABLES)] != b"A %d\n" % len(history.sent):
        return before, fault or f"{len(history.sent)} transactions in the rows, and the answer is {found[len(TABLES)]!r}"
    if not max([known] + [sender.known for sender in senders]) <= shows <= len(history.sent):
        return before, f"{shows} are applied, where a reply had told of more, or fewer are there"
    for replies, over in ((found[:len(TABLES)], shows), (found[len(TABLES) + 1:-1], len(history.sent))):
        for table, reply in zip(TABLES, replies):
            if reply != history.answer(table, over):
                return before, f"the rows of {table} over {over} transactions are others"
    return history.sent, None


class Count:
    """What was done."""

    def __init__(self):
        self.rounds = self.folders = self.batches = self.again = 0
        self.more = collections.Counter()

    def __str__(self):
        more = ", ".join(f"{n} more in {self.more[n]:,}" for n in sorted(self.more))
        return (f"{self.rounds:,} rounds in {self.folders} folders: {self.batches:,} batches acknowledged, an opening killed behind {self.again}; "
                + more)


def kill_again_and_again(program, place, rounds, longest, seed, count):
    """Makes so many rounds in folders below a place, and gives what is wrong, or None."""
    rng = random.Random(seed)
    while count.rounds < rounds:
        folder, history, known = os.path.join(place, f"{count.folders}"), [], 0
        count.folders += 1
        for _ in range(min(ROUNDS_IN_ONE, rounds - count.rounds)):
            senders, fault = round_of(program, folder, rng, len(history), longest)
            if not fault and rng.random() < 0.1:
                count.again += 1
                session(program, folder, b"A\n" * 100 + b"X\n", 0, rng.uniform(0, 2))
            before = len(history)
            if not fault:
                history, fault = look(program, folder, history, senders, known)
            if fault:
                return f"{folder}: {fault}"
            acknowledged = sum(len(sender.acknowledged) for sender in senders)
            known = len(history)
            count.rounds += 1
            count.batches += acknowledged
            count.more[len(history) - before - acknowledged] += 1
        shutil.rmtree(folder)
    return None


def main():
    parser = argparse.ArgumentParser(description=__doc__, formatter_class=argparse.RawDescriptionHelpFormatter)
    parser.add_argument("--rounds", type=int, default=500)
    parser.add_argument("--longest", type=int, default=150)
    parser.add_argument("--seed", type=int, default=random.SystemRandom().randrange(1 << 32))
    parser.add_argument("--folder", default=tempfile.gettempdir())
    options = parsed(parser)
    place = tempfile.mkdtemp(dir=options.folder)
    count = Count()
    print(f"seed {options.seed}", flush=True)
    fault = kill_again_and_again(options.program, place, options.rounds, options.longest / 1_000, options.seed, count)
    print(count)
    if fault:
        print(f"WRONG: {fault}")
        return 1
    shutil.rmtree(place)
    return 0


if __name__ == "__main__":
    sys.exit(main())

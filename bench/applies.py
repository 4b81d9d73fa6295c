#!/usr/bin/env python3
"""Times applies of the built program over a folder: rows that come in order, and late ones.

For each program it opens a store in a new folder, sends so many batches of so many lines in order of time, all of one day, and asks
for an apply behind each. It prints how long an apply took, by the clock and of a
processor, by the rows that the day had then, and how many bytes the program wrote for
each row, by /proc/PID/io. Then it sends one late row, a minute before the last one, and asks for an apply again: how long that took,
and what it wrote. At the end the rows are counted and summed, and the answers of all programs are compared.

usage: applies.py [--batches N] [--lines N] [--folder PATH] [EXE ..]      EXE is crates/tsdb/out/tsdb where none is given
--folder is one on the file system to measure; the stores are made below it and removed.
"""
import argparse
import os
import shutil
import subprocess
import sys
import tempfile
import time

HERE = os.path.dirname(os.path.abspath(__file__))
PROGRAM = os.path.join(HERE, "..", "crates", "tsdb", "out", "tsdb")
DAY = 1_704_067_200_000_000_000
STEP = 60_000_000  # between two rows, in nanoseconds
SENSORS = 100


class Session:
    """A running program, asked one request after another."""

    def __init__(self, program, folder):
        self.process = subprocess.Popen([program, "run", "--dir", folder], stdin=subprocess.PIPE, stdout=subprocess.PIPE)

    def ask(self, request):
        """The reply to a request, and how long it took."""
        begin = time.perf_counter()
        self.process.stdin.write(request)
        self.process.stdin.flush()
        line = self.process.stdout.readline()
        if line[:1] == b"R":
            line += self.process.stdout.read(int(line.split()[2]))
        return line, time.perf_counter() - begin

    def written(self):
        """How many bytes the program has written."""
        with open(f"/proc/{self.process.pid}/io", encoding="ascii") as file:
            return int(next(line for line in file if line.startswith("wchar")).split()[1])

    def busy(self):
        """How long the program's threads have run, in seconds."""
        tasks = f"/proc/{self.process.pid}/task"
        total = 0
        for task in os.listdir(tasks):
            with open(f"{tasks}/{task}/schedstat", encoding="ascii") as file:
                total += int(file.read().split()[0])
        return total / 1e9

    def end(self):
        self.process.stdin.close()
        self.process.wait()


def row(number, place):
    """A line of a sensor's reading."""
    return f"readings,sensor=s{number % SENSORS} value={number}i,note=\"n{number % 7}\" {place}\n"


def batch(text):
    data = text.encode()
    return b"W %d\n" % len(data) + data


def query(text):
    data = text.encode()
    return b"Q %d\n" % len(data) + data


def wanted(reply, head):
    if not reply.startswith(head):
        raise SystemExit(f"{reply[:200]!r} where {head!r} was wanted")


def measure(program, folder, batches, lines):
    """The times of the applies, the bytes of each, those of the late one, and what is answered at the end."""
    session = Session(program, folder)
    took, ran, bytes_of = [], [], []
    for i in range(batches):
        rows = range(i * lines, (i + 1) * lines)
        reply, _ = session.ask(batch("".join(row(n, DAY + n * STEP) for n in rows)))
        wanted(reply, b"K")
        before, busy = session.written(), session.busy()
        reply, seconds = session.ask(b"A\n")
        wanted(reply, b"A")
        took.append(seconds)
        ran.append(session.busy() - busy)
        bytes_of.append(session.written() - before)
    last = DAY + (batches * lines - 1) * STEP
    late = []
    for back in (60_000_000_000, 59_500_000_000):
        reply, _ = session.ask(batch(row(batches * lines, last - back)))
        wanted(reply, b"K")
        before, busy = session.written(), session.busy()
        reply, seconds = session.ask(b"A\n")
        wanted(reply, b"A")
        late.append((seconds, session.busy() - busy, session.written() - before))
    answer, asked = session.ask(query("SELECT count(), sum(value), min(timestamp), max(timestamp) FROM readings"))
    first, _ = session.ask(query("SELECT * FROM readings LIMIT -2000"))
    session.end()
    return took, ran, bytes_of, late, asked, answer + first


def middle(values):
    return sorted(values)[len(values) // 2]


def main():
    parser = argparse.ArgumentParser()
    parser.add_argument("--batches", type=int, default=1000)
    parser.add_argument("--lines", type=int, default=1000)
    parser.add_argument("--folder", default=None)
    parser.add_argument("programs", nargs="*", default=[PROGRAM])
    words = parser.parse_args()
    answers = []
    for program in words.programs:
        folder = tempfile.mkdtemp(dir=words.folder)
        try:
            took, ran, bytes_of, late, asked, answer = measure(program, os.path.join(folder, "store"), words.batches, words.lines)
        finally:
            shutil.rmtree(folder, ignore_errors=True)
        answers.append(answer)
        print(program)
        for tenth in range(10):
            a, b = tenth * words.batches // 10, (tenth + 1) * words.batches // 10
            print(f"  applies at {b * words.lines:9} rows: {1000 * middle(took[a:b]):9.2f} ms, {1000 * middle(ran[a:b]):9.2f} ms of a processor, {sum(bytes_of[a:b]) / ((b - a) * words.lines):9.1f} bytes a row")
        for seconds, busy, count in late:
            print(f"  one late row: {1000 * seconds:9.2f} ms, {1000 * busy:9.2f} ms of a processor, {count / 1_000_000:9.3f} MB")
        print(f"  all rows asked: {1000 * asked:9.2f} ms")
    if any(answer != answers[0] for answer in answers):
        print("the programs answer otherwise")
        return 1
    print(answers[0][:120].decode())
    return 0


if __name__ == "__main__":
    sys.exit(main())

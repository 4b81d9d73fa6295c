#!/usr/bin/env python3
"""Lets each call of the system that the program makes fail in turn, and looks at its answers and at what the folder has.

Three sessions of `tsdb run --dir FOLDER` are made, one over a new folder and two over a store in which a batch waits to be applied. Each
commits batches of two partitions, some of them late and one with a new column, applies, which removes blocks, asks, and ends. In the third
one keys are set between batches, so that an apply goes in two rounds, and rows replace others. The library
`faults.c`, which is compiled and stands before the C library, counts the calls on files and on the standard ends, from the first one of
the program to the last. With N calls, these runs are made:
- for each call one in which it fails with EIO, one with ENOSPC, one with EINTR, and, where it reads or writes two bytes or more, one in
  which it does half of them;
- for each call one in which it and another one fail with EIO, for each of the NEAR calls behind it; with --pairs for all behind it;
- for each call one in which all that makes, writes, syncs or removes fails from it on, with ENOSPC, and one with EIO.

Where the calls are interrupted or do half, the replies have to be those of the session without a fault. Else it ends with status 5 and no
byte, with 0, or, where its standard input or output failed, with 3 or 4 and fewer replies; each reply is the right one or `E 52 0`, which
stands as if its request hadn't been made, but that an apply may have shown the batches before the keys. A second run, in which nothing
fails, has to find all acknowledged batches in their order, no fewer applied ones than a reply told of, and at most one batch more, of
those that were answered by `E 52 0` behind the last acknowledged one, or not answered; it commits and applies once more.

It prints for each kind of fault how many runs had which end; it ends with 1 where a run was wrong.

usage: fail_calls.py [--pairs] [--folder PATH] [--program PATH]
--folder is a folder on a file system with little to wait for, as /dev/shm. It needs `gcc`. Build the program first: run
`rt run -- run < stdin` in crates/tsdb.
"""
import argparse
import collections
import errno
import os
import re
import shutil
import subprocess
import sys
import tempfile

from crash import Replies
from program import batch, parsed, query

HERE = os.path.dirname(os.path.abspath(__file__))
NEAR = 4
SECONDS = 60
EIO, ENOSPC, EINTR = errno.EIO, errno.ENOSPC, errno.EINTR
HAS_HALF = ("pread", "pwrite", "read", "write")
NO_INPUT, NO_OUTPUT, NO_VOLUME, FULL = 3, 4, 5, b"E 52 0\n"
APPLY, SELECT = b"A\n", query("SELECT v FROM t")
START, MINUTE, DAY = 1_704_067_200_000_000_000, 60_000_000_000, 86_400_000_000_000


# the batch that is none: it sets keys; and batches whose rows have the times of others, which they replace behind it
KEYS, AS_OF = 10, {11: 1, 12: 4}


def time_of(number):
    """The time of a batch's row: every third one is late, and the days take turns."""
    number = AS_OF.get(number, number)
    return START + number * MINUTE + number % 2 * DAY - (number % 3 == 0) * 10 * MINUTE


def line(number):
    if number == KEYS:
        return query("ALTER TABLE t DEDUP ENABLE UPSERT KEYS(timestamp)")
    more = ",w=1i" if number == 4 else ""
    return batch(f"t v={number}i{more} {time_of(number)}\n".encode())


def table(numbers):
    """The numbers of the rows that batches leave, in order of time."""
    found = []
    for at, number in enumerate(numbers):
        if KEYS in numbers[:at]:
            found = [each for each in found if time_of(each) != time_of(number)]
        found += [number] if number != KEYS else []
    return sorted(found, key=time_of)


def rows(numbers):
    text = b"v\n" + b"".join(b"%d\n" % number for number in table(numbers))
    return b"R %d %d\n" % (len(numbers), len(text)) + text


def answer(numbers):
    return rows(numbers) if numbers else b"F 0 32 14\n"


class Session:
    """What is asked: batches by their numbers, applies and queries; over a store that has some batches, and shows some of them."""

    def __init__(self, name, requests, there=(), shown=()):
        self.name, self.requests, self.there, self.shown = name, requests, list(there), list(shown)

    def input(self):
        return b"".join(line(each) if isinstance(each, int) else each for each in self.requests) + b"X\n"


SESSIONS = [
    Session("a new folder", [1, APPLY, 2, SELECT, APPLY, 3, 4, APPLY, SELECT, 5]),
    Session("a store", [SELECT, 4, APPLY, 5, SELECT, 6, APPLY, 7, APPLY, SELECT], [1, 2, 3], [1, 2]),
    Session("keys", [4, KEYS, 11, APPLY, SELECT, 12, APPLY, SELECT], [1, 2, 3], [1, 2]),
]


class Told:
    """What the replies of a session say: the batches that are acknowledged, those that may be there behind them, and those that show."""

    def __init__(self, session):
        self.there, self.shown, self.maybe, self.known = list(session.there), list(session.shown), [], len(session.shown)
        self.may_show = []

    def takes(self, request, reply):
        """Whether a reply is a right one, which is taken in."""
        if isinstance(request, int):
            if reply == FULL:
                self.maybe.append(request)
                return True
            self.there.append(request)
            self.maybe = []
            return reply == b"K %d\n" % len(self.there)
        if reply == FULL:
            # of an apply that fails the rounds before may be shown
            ends = [at for at, each in enumerate(self.there) if each == KEYS and at > len(self.shown)]
            self.may_show += [self.there[:at] for at in ends] if request == APPLY else []
            return True
        if request == APPLY:
            self.shown, self.known, self.may_show = list(self.there), len(self.there), []
            return reply == b"A %d\n" % len(self.there)
        self.shown = next((each for each in self.may_show if reply == answer(each)), self.shown)
        self.known, self.may_show = len(self.shown), []
        return reply == answer(self.shown)

    def leaves(self, request):
        """A request that has no reply any more."""
        if isinstance(request, int):
            self.maybe.append(request)


def told_by(session, output, status):
    """What the replies of a session say, and what is wrong with them, or None."""
    replies, told = Replies(output), Told(session)
    for request in session.requests:
        reply = replies.next()
        if reply is None:
            told.leaves(request)
            return told, None if status in (NO_INPUT, NO_OUTPUT) else f"no reply to {request!r}, with status {status}"
        if not told.takes(request, reply):
            return told, f"{reply!r} to {request!r}"
    last = replies.next()
    if last is None and status in (NO_INPUT, NO_OUTPUT):
        return told, None
    return told, None if last == b"X\n" and replies.at == len(output) and status in (0, NO_OUTPUT) else f"{last!r} at the end, with status {status}"


class Made:
    """The folders of the sessions, and the library."""

    def __init__(self, program, place):
        self.program, self.place, self.runs = program, place, 0
        self.library = os.path.join(place, "faults.so")
        subprocess.run(["gcc", "-O1", "-shared", "-fPIC", "-o", self.library, os.path.join(HERE, "faults.c")], check=True)
        self.store = os.path.join(place, "store")
        given = b"".join(map(line, (1, 2))) + APPLY + line(3) + b"X\n"
        if self.plain(self.store, given) != (b"K 1\nK 2\nA 2\nK 3\nX\n", 0):
            raise ValueError("the store isn't made")

    def plain(self, folder, given):
        """What a run without a fault writes, and its status."""
        done = subprocess.run([self.program, "run", "--dir", folder], input=given, stdout=subprocess.PIPE, timeout=SECONDS)
        return done.stdout, done.returncode

    def faulty(self, session, faults):
        """The folder of a run with faults, what it wrote, its status, standard error, and its calls: name, size and fate."""
        self.runs += 1
        folder, log = os.path.join(self.place, f"d{self.runs}"), os.path.join(self.place, "log")
        if session.there:
            shutil.copytree(self.store, folder)
        environment = {**os.environ, "LD_PRELOAD": self.library, "FAULTS": faults, "FAULTS_LOG": log}
        done = subprocess.run([self.program, "run", "--dir", folder], input=session.input(), capture_output=True, env=environment, timeout=SECONDS)
        with open(log) as file:
            calls = [(name, int(size), int(fate)) for _, name, size, fate in map(str.split, file)]
        return folder, done, calls


def fault_of_second(made, folder, told):
    """What is wrong with a folder that is opened once more, or None."""
    new = 9
    output, status = made.plain(folder, SELECT + APPLY + SELECT + line(new) + APPLY + SELECT + b"X\n")
    replies = Replies(output)
    before = replies.next() or b""
    shows = re.match(rb"[RF] (\d+)", before)
    for there in [told.there] + [told.there + [each] for each in told.maybe]:
        wanted = b"A %d\n" % len(there) + answer(there) + b"K %d\nA %d\n" % ((len(there) + 1,) * 2) + rows(there + [new]) + b"X\n"
        if status == 0 and output[replies.at:] == wanted and shows and told.known <= int(shows[1]) <= len(there):
            return None if before == answer(there[:int(shows[1])]) else f"the second run shows {before!r}"
    return f"the second run has {output!r}, status {status}; {told.there} are acknowledged, one of {told.maybe} may be there, {told.known} were shown"


def fault_of(made, session, faults, is_harmless, whole):
    """How a run with faults ended, and what is wrong with it, or None."""
    folder, done, calls = made.faulty(session, faults)
    failed = [name for name, _, fate in calls if fate]
    status, output = done.returncode, done.stdout
    if not failed:
        return "without a fault", None
    if is_harmless:
        told, fault = told_by(session, output, status)
        fault = fault or (None if (status, output) == (0, whole) else f"{output!r}, status {status}")
    elif status == NO_VOLUME:
        told, fault = Told(session), None if output == b"" else f"{output!r} at status 5"
    else:
        told, fault = told_by(session, output, status)
        if status not in (0, NO_INPUT, NO_OUTPUT) or status == NO_INPUT and "read" not in failed or status == NO_OUTPUT and "write" not in failed:
            fault = fault or f"status {status}"
    if (done.stderr.count(b"\n") != (status != 0)) and "write" not in failed:
        fault = fault or f"{done.stderr!r} on standard error at status {status}"
    fault = fault or fault_of_second(made, folder, told)
    kind = f"status {status}" if status else "E 52" if FULL in output else "no reply tells it"
    if not fault:
        shutil.rmtree(folder, ignore_errors=True)
    return kind, fault and f"{fault} (in {folder}; calls that failed: {', '.join(failed)})"


def ways_of(calls, all_pairs):
    """The faults that are tried: the name of the kind, the words for the library, and whether the replies stay as they were."""
    numbers = range(1, len(calls) + 1)
    for name, error in (("EIO", EIO), ("ENOSPC", ENOSPC), ("EINTR", EINTR)):
        yield from ((name, f"{number}:{error}", error == EINTR) for number in numbers)
    yield from (("half", f"{number}:short", True) for number, (name, size, _) in enumerate(calls, 1) if name in HAS_HALF and size > 1)
    for number in numbers:
        # a fault may let more calls follow than there were
        yield from (("two, EIO", f"{number}:{EIO},{other}:{EIO}", False) for other in range(number + 1, len(calls) + NEAR if all_pairs else number + 1 + NEAR))
    for name, error in (("ENOSPC", ENOSPC), ("EIO", EIO)):
        yield from ((f"all from there on, {name}", f"{number}+:{error}", False) for number in numbers)


def try_session(made, session, all_pairs):
    """Makes all runs of a session, and gives whether they were right."""
    folder, done, calls = made.faulty(session, "")
    whole = done.stdout
    fault = told_by(session, whole, done.returncode)[1] or fault_of_second(made, folder, told_by(session, whole, 0)[0])
    if fault or FULL in whole:
        print(f"{session.name}: {fault or 'E 52'} without a fault")
        return False
    names = collections.Counter(name for name, _, _ in calls)
    print(f"{session.name}: {len(calls)} calls: " + ", ".join(f"{name} {names[name]}" for name in sorted(names)), flush=True)
    ends, good = collections.defaultdict(collections.Counter), True
    for name, faults, is_harmless in ways_of(calls, all_pairs):
        kind, fault = fault_of(made, session, faults, is_harmless, whole)
        ends[name][kind] += 1
        if fault:
            print(f"WRONG: {session.name}, {faults}: {fault}", flush=True)
            good = False
    for name, kinds in ends.items():
        print(f"  {name}: " + ", ".join(f"{kind} {kinds[kind]:,}" for kind in sorted(kinds)), flush=True)
    return good


def main():
    parser = argparse.ArgumentParser(description=__doc__, formatter_class=argparse.RawDescriptionHelpFormatter)
    parser.add_argument("--pairs", action="store_true")
    parser.add_argument("--folder", default=tempfile.gettempdir())
    options = parsed(parser)
    if not shutil.which("gcc"):
        sys.exit("fail_calls.py: no gcc here")
    place = tempfile.mkdtemp(dir=options.folder)
    made = Made(options.program, place)
    good = all([try_session(made, session, options.pairs) for session in SESSIONS])
    print(f"{made.runs:,} runs")
    if good:
        shutil.rmtree(place)
    return 0 if good else 1


if __name__ == "__main__":
    sys.exit(main())

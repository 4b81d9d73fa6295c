#!/usr/bin/env python3
"""Checks what `peers.py` says of systems: whether what they acknowledge is on the disk.

Each system is fed BATCHES small batches by one sender, while strace writes down the calls by which its processes wait for the disk. One
that is said to be durable has to have made one at least before each acknowledgement; one that isn't has to have acknowledged some without.
That a system syncs says nothing of what it syncs. It ends with 1 where a system does otherwise.

usage: peer_syncs.py [--systems NAME,..] [--folder PATH] [--program PATH]
"""
import contextlib
import os
import re
import signal
import subprocess
import time

from peer_systems import SECONDS, Program, Sqlite, started
from peers import SIGNALS, Rows, all_placed, chosen, ended, parser_of, placed

BATCHES, LINES = 6, 100
CALLS = ("fsync", "fdatasync", "sync", "syncfs", "sync_file_range", "msync")


def descendants(pid):
    """The processes below a process, and it."""
    found = subprocess.run(["pgrep", "-P", str(pid)], capture_output=True, text=True).stdout.split()
    return [pid] + [each for child in found for each in descendants(int(child))]


def is_traced(pid):
    """Whether each thread of a process is looked at."""
    for thread in os.listdir(f"/proc/{pid}/task"):
        with open(f"/proc/{pid}/task/{thread}/status") as status:
            if re.search(r"^TracerPid:\t0$", status.read(), re.M):
                return False
    return True


@contextlib.contextmanager
def traced(pid, place):
    """Looks at the processes below a process, and at it. Gives what counts their syncs so far."""
    paths, tracers = [], []
    for each in descendants(pid):
        paths.append(os.path.join(place, f"calls-{each}"))
        tracers.append(started(subprocess.Popen(["strace", "-f", "-qq", "-e", "trace=" + ",".join(CALLS), "-o", paths[-1], "-p", str(each)])))
        until = time.monotonic() + SECONDS
        while not is_traced(each):
            if tracers[-1].poll() is not None or time.monotonic() > until:
                raise ValueError("strace doesn't look at it")
            time.sleep(0.1)

    def count():
        texts = []
        for path in paths:
            with open(path) as file:
                texts.append(file.read())
        return len(re.findall(rf"\b(?:{'|'.join(CALLS)})\(", "".join(texts)))

    try:
        yield count
    finally:
        for tracer in tracers:
            tracer.send_signal(signal.SIGINT)
            tracer.wait()


def syncs_of(kind, options, rows):
    """How many syncs each batch waited for."""
    with placed(options) as place:
        system = kind(place, options)
        try:
            system.begin(1)
            writer = system.writer()
            writer.write(system.t(rows.t[:LINES]))
            pid = writer.session.process.pid if kind is Program else os.getpid() if kind is Sqlite else system.process.pid
            with traced(pid, place) as count:
                counts = [count()]
                for number in range(1, BATCHES + 1):
                    writer.write(system.t(rows.t[number * LINES:(number + 1) * LINES]))
                    counts.append(count())
            writer.close()
        finally:
            system.close()
    return [after - before for before, after in zip(counts, counts[1:])]


def main():
    parser = parser_of(__doc__)
    options = parser.parse_args()
    for each in SIGNALS:
        signal.signal(each, ended)
    kinds, rows, good = chosen(parser, options), Rows((BATCHES + 1) * LINES), True
    with all_placed(options):
        for kind in kinds:
            found = syncs_of(kind, options, rows)
            as_said = kind.durable == all(found)
            good &= as_said
            words = "durable" if kind.durable else "not durable"
            print(f"{kind.name:<16} {words:<12} syncs before each acknowledgement: {found}{'' if as_said else '  WRONG'}", flush=True)
    return 0 if good else 1


if __name__ == "__main__":
    raise SystemExit(main())

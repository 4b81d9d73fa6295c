#!/usr/bin/env python3
"""Times what queries take in the built program, over a table of ROWS rows in memory.

It feeds `tsdb run` with a table t of ROWS rows over ten days (host of 100 texts, dc of 10, two LONGs and a text) and a table q
of a tenth as many rows with a host, applies them, and asks each query REPEAT times, one after the other. The time of a query
is from the moment before its first byte is sent to the moment at which the last byte of its reply was read. Each reply is
compared with what this script works out from the rows by plain loops. It prints the best and the median time beside the aim,
the bytes of the reply, and what memory the program took. It ends with 1 where a reply was wrong; a missed aim is only printed.

usage: answers.py [--rows N] [--repeat N] [--only WORD] [--perf SECONDS] [--program PATH]
--only takes the queries in whose text the word stands. --perf asks each query again and again for so many seconds while
`perf record` looks at the program, and prints the functions in which it was most often; where `perf` isn't there, or may not
look, it says what to do. Build the program first: run `rt run -- run < stdin` in crates/tsdb.
"""
import argparse
import datetime
import functools
import os
import shutil
import statistics
import subprocess
import tempfile
import time

from program import Session, batch, parsed

PER_FRAME = 10_000
START = 1_706_313_600_000_000  # 2024-01-27, in microseconds
SPAN = 10 * 86_400_000_000
HOUR = 3_600_000_000
DAY = "2024-01-29"


@functools.cache
def date(days):
    """The date so many days after 1970-01-01."""
    return datetime.date(1970, 1, 1) + datetime.timedelta(days)


def shown(micros):
    """A time as the program writes it."""
    seconds, part = divmod(micros, 1_000_000)
    return f"{date(seconds // 86_400)}T{seconds // 3_600 % 24:02}:{seconds // 60 % 60:02}:{seconds % 60:02}.{part:06}Z"


class Data:
    """The rows of both tables, in order of time."""

    def __init__(self, rows):
        step, few = SPAN // rows, max(rows // 10, 1)
        # host, dc, v, w, x, time
        self.t = [(f"h{i * 37 % 100}", f"d{i // 100 % 10}", (i * 7_919 + 13) % 1_000, i * 104_729 % 1_000_003, f"x{i * 31 % 10_000:05}",
                   START + i * step) for i in range(rows)]
        # host, p, time
        self.q = [(f"h{i * 53 % 101}", i % 1_000, START + i * (SPAN // few) + 1) for i in range(few)]

    def frames(self, per_frame=PER_FRAME, late=False):
        """The batches of all rows, where it is asked for with every tenth row behind those of the next batch."""
        lines = [f't,host={r[0]},dc={r[1]} v={r[2]}i,w={r[3]}i,x="{r[4]}" {r[5] * 1_000}\n' for r in self.t]
        lines += [f"q,host={r[0]} p={r[1]}i {r[2] * 1_000}\n" for r in self.q]
        if late:
            lines = [line for _, line in sorted(enumerate(lines), key=lambda pair: pair[0] + (per_frame if pair[0] % 10 == 7 else 0))]
        for first in range(0, len(lines), per_frame):
            yield batch("".join(lines[first:first + per_frame]).encode())


def csv(head, rows):
    """A result."""
    return (head + "\n" + "".join(",".join(map(str, row)) + "\n" for row in rows)).encode()


def summed(rows, key):
    """The number of rows and the sum of v for each key, in order of first appearance."""
    groups = {}
    for row in rows:
        name = key(row)
        count, total = groups.get(name, (0, 0))
        groups[name] = (count + 1, total + row[2])
    return groups


def by_keys(head, data, key):
    """A count and a sum for each key, which is a tuple."""
    return csv(head, [name + sums for name, sums in summed(data.t, key).items()])


def all_sums(data):
    values = [row[2] for row in data.t]
    return csv("count,sum,min,max", [(len(values), sum(values), min(values), max(values))])


def one_day(data):
    of_day = [row for row in data.t if row[0] == "h7" and shown(row[5]).startswith(DAY)]
    return csv("count,sum", [(len(of_day), sum(row[2] for row in of_day) if of_day else "")])


def least(data):
    return csv("v,w", [(row[2], row[3]) for row in sorted(data.t, key=lambda row: row[2])[:10]])


def whole(data):
    return csv("host,dc,v,w,x,timestamp", [row[:5] + (shown(row[5]),) for row in data.t])


def hours(data):
    return csv("timestamp,count,sum", [(shown(at),) + sums for at, sums in summed(data.t, lambda row: row[5] // HOUR * HOUR).items()])


def hours_of_hosts(data):
    groups = summed(data.t, lambda row: (row[5] // HOUR * HOUR, row[0]))
    place = {row[0]: at for at, row in reversed(list(enumerate(data.t)))}
    order = sorted(groups, key=lambda key: (key[0], place[key[1]]))
    return csv("timestamp,host,count,sum", [(shown(at), host) + groups[at, host] for at, host in order])


def months(data):
    return csv("timestamp,count,sum", [(f"{at}-01T00:00:00.000000Z",) + sums for at, sums in summed(data.t, lambda row: shown(row[5])[:7]).items()])


def latest(data):
    places = {row[0]: at for at, row in enumerate(data.t)}
    return csv("host,v,timestamp", [(data.t[at][0], data.t[at][2], shown(data.t[at][5])) for at in sorted(places.values())])


def matches(data):
    """Each row of q with the v of the last row of t at or before it of the same host, or None."""
    last, at = {}, 0
    for host, p, moment in data.q:
        while at < len(data.t) and data.t[at][5] <= moment:
            last[data.t[at][0]] = data.t[at][2]
            at += 1
        yield host, p, moment, last.get(host)


def joined_sums(data):
    found = [(p, v) for _, p, _, v in matches(data)]
    return csv("count,sum,sum1", [(len(found), sum(p for p, _ in found), sum(v or 0 for _, v in found) if any(v is not None for _, v in found) else "")])


def joined(data):
    return csv("timestamp,host,p,v", [(shown(moment), host, p, "" if v is None else v) for host, p, moment, v in matches(data)])


# each query, what it has to answer, and the aim: milliseconds, or None, for a million rows
QUERIES = [
    ("SELECT count(), sum(v), min(v), max(v) FROM t", all_sums, 4),
    ("SELECT host, count(), sum(v) FROM t", lambda data: by_keys("host,count,sum", data, lambda row: row[:1]), 6),
    ("SELECT host, dc, count(), sum(v) FROM t", lambda data: by_keys("host,dc,count,sum", data, lambda row: row[:2]), 15),
    (f"SELECT count(), sum(v) FROM t WHERE host = 'h7' AND timestamp IN '{DAY}'", one_day, 1),
    ("SELECT v, w FROM t ORDER BY v LIMIT 10", least, 30),
    ("t", whole, None),
    ("SELECT timestamp, count(), sum(v) FROM t SAMPLE BY 1h", hours, 8),
    ("SELECT timestamp, host, count(), sum(v) FROM t SAMPLE BY 1h", hours_of_hosts, 12),
    ("SELECT timestamp, count(), sum(v) FROM t SAMPLE BY 1M", months, None),
    ("SELECT host, v, timestamp FROM t LATEST ON timestamp PARTITION BY host", latest, 30),
    ("SELECT count(), sum(p), sum(v) FROM q ASOF JOIN t ON (host)", joined_sums, 30),
    ("SELECT q.timestamp, q.host, p, v FROM q ASOF JOIN t ON (host)", joined, 60),
]
AIM_OF_BYTES = 50e6  # bytes of a result in a second


def load(session, frames):
    """Feeds and applies all rows. Gives the number of transactions, whether each was taken, and the seconds of both."""
    count, good, fed = 0, True, 0
    for frame in frames:
        count += 1
        seconds, line, _ = session.ask(frame)
        good &= line == b"K %d\n" % count
        fed += seconds
    applied, line, _ = session.ask(b"A\n")
    return count, good & (line == b"A %d\n" % count), fed, applied


def times_of(session, count, ask, wanted, repeat):
    """Asks a query so many times. Gives the seconds of each, and the first line of a reply that was wrong, or None."""
    head = b"R %d %d\n" % (count, len(wanted))
    times, wrong = [], None
    for _ in range(repeat):
        seconds, line, text = session.query(ask)
        times.append(seconds)
        if (line, text) != (head, wanted):
            wrong = line
    return times, wrong


def measure(session, count, ask, wanted, aim, repeat):
    """Asks a query so many times, and prints its times. Gives whether each reply was right."""
    times, wrong = times_of(session, count, ask, wanted, repeat)
    best, middle = min(times), statistics.median(times)
    goal = f"aim {aim} ms" if aim else f"aim {AIM_OF_BYTES / 1e6:.0f} MB/s" if ask == "t" else "no aim"
    missed = best * 1e3 > aim if aim else ask == "t" and len(wanted) / best < AIM_OF_BYTES
    verdict = f"WRONG ({wrong[:60]!r})" if wrong else "missed" if missed else "ok"
    print(f"{ask:<78} best {best * 1e3:9.3f} ms, median {middle * 1e3:9.3f} ms, {goal:<11}  {len(wanted):>10,} bytes, "
          f"{len(wanted) / best / 1e6:7.1f} MB/s  {verdict}", flush=True)
    return not wrong


def profile(session, ask, seconds):
    """Asks a query for some seconds under `perf`, and prints where the program was most often."""
    pid = session.process.pid
    with tempfile.TemporaryDirectory() as folder:
        path = os.path.join(folder, "perf.data")
        record = ["perf", "record", "-q", "-F", "999", "-o", path, "-p", str(pid)]
        report = ["perf", "report", "--stdio", "--no-children", "--percent-limit", "1", "-i", path]
        if not shutil.which("perf"):
            print(f"  no perf here. Where it is: {' '.join(record)} while the query is asked, then {' '.join(report)}")
            return
        watching = subprocess.Popen(record, stderr=subprocess.PIPE)
        until = time.perf_counter() + seconds
        while time.perf_counter() < until and watching.poll() is None:
            session.query(ask)
        watching.terminate()
        said = watching.communicate()[1].decode(errors="replace").strip()
        done = subprocess.run(report, capture_output=True, text=True)
        lines = [line for line in done.stdout.splitlines() if line.strip() and not line.startswith("#")]
        for line in lines[:15]:
            print(f"  {line.rstrip()}")
        if not lines:
            print(f"  perf saw nothing: {said or done.stderr.strip()} (it may look where /proc/sys/kernel/perf_event_paranoid is 1 or less)")


def main():
    parser = argparse.ArgumentParser(description=__doc__, formatter_class=argparse.RawDescriptionHelpFormatter)
    parser.add_argument("--rows", type=int, default=1_000_000)
    parser.add_argument("--repeat", type=int, default=9)
    parser.add_argument("--only", default="")
    parser.add_argument("--perf", type=float, metavar="SECONDS")
    options = parsed(parser)
    data = Data(options.rows)
    session = Session(options.program)
    began = time.perf_counter()
    count, good, _, _ = load(session, data.frames())
    print(f"{len(data.t):,} and {len(data.q):,} rows fed and applied in {time.perf_counter() - began:.3f} s  {session.megabytes():.0f} MB  "
          f"{'ok' if good else 'WRONG'}", flush=True)
    for ask, answer, aim in QUERIES:
        if options.only in ask:
            good &= measure(session, count, ask, answer(data), aim, options.repeat)
            if options.perf:
                profile(session, ask, options.perf)
    most = session.megabytes()
    good &= session.end()
    print(f"the program took {most:.0f} MB at most")
    return 0 if good else 1


if __name__ == "__main__":
    raise SystemExit(main())

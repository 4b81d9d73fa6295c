#!/usr/bin/env python3
"""Times the program as a server of HTTP beside the same server of frames: senders that write durably, and large answers.

The rows are those of `ingest.py`, in batches of 10,000 lines in order of time, dealt among four senders as in `serve.py`: each sends its
share without a wait and reads the replies beside, once as frames and once as requests of HTTP. The best of REPEAT times counts, and the
folder of each time is opened by `run --dir`, which has to have all transactions and rows.

Then a table of a LONG and the time, of ROWS rows, is asked for whole by one client, as JSON over HTTP, and as CSV over frames: the time is
from the request to the last byte of the answer, the best of REPEAT.

It prints rows per second and their ratio, megabytes per second, and whether the aims are met. It ends with 1 where a reply was wrong; a
missed aim is only printed.

usage: serve_http.py [--rows N] [--repeat N] [--folder PATH] [--program PATH]
--folder is a folder on the file system to measure; all is made in one below it and removed. Build the program first: run
`rt run -- run < stdin` in crates/tsdb.
"""
import argparse
import functools
import json
import os
import tempfile
import time

from answers import Data
from program import batch, number_in, parsed
from serve import SENDERS, is_whole, written
from server import Web, connected, request, served

LINES = 10_000
AIM_OF_INGEST = 0.85  # of frames
AIM_OF_JSON = 100  # megabytes per second
START, STEP = 1_704_067_200_000_000_000, 1_000_000


def by_front(front, kind, program, folder, frames):
    """The seconds in which a server of this front acknowledges all batches, and whether it does it well."""
    with served(program, folder, SENDERS, front) as server:
        seconds, good = written(functools.partial(connected, server.port, kind=kind), frames, SENDERS)
        return seconds, good & (server.end() == (b"", 0, ""))


def measure_ingest(options):
    """Times the load by both fronts, and prints what it found. Gives whether each reply was right."""
    data = Data(options.rows)
    frames = list(data.frames(LINES))
    ways = {"frames": functools.partial(by_front, "frames", None), "HTTP": functools.partial(by_front, "http", Web)}
    sent = {"frames": frames, "HTTP": [request(frame) for frame in frames]}
    best, good = dict.fromkeys(ways, 0), True
    for _ in range(options.repeat):
        for name, way in ways.items():
            with tempfile.TemporaryDirectory(dir=options.folder) as place:
                folder = os.path.join(place, "store")
                seconds, right = way(options.program, folder, sent[name])
                good &= right and is_whole(options.program, folder, data, len(frames))
            best[name] = max(best[name], (len(data.t) + len(data.q)) / seconds)
    ratio = best["HTTP"] / best["frames"]
    print(f"rows/s acknowledged to {SENDERS} senders, {LINES:,} lines a batch: " + ", ".join(f"{name} {rate:,.0f}" for name, rate in best.items())
          + f"; HTTP/frames {ratio:.2f}  {'WRONG' if not good else 'ok' if ratio >= AIM_OF_INGEST else 'missed'}", flush=True)
    return good


def is_json_of(text, count):
    found = json.loads(text)
    return found["count"] == len(found["dataset"]) == count and found["dataset"][-1][0] == count - 1


def is_csv_of(text, count):
    return text.count(b"\n") == count + 1 and text.splitlines()[-1].startswith(b"%d," % (count - 1))


def measure_answers(options):
    """Times a large answer by both fronts, and prints what it found. Gives whether each was right."""
    good = True
    with tempfile.TemporaryDirectory(dir=options.folder) as place:
        folder = os.path.join(place, "store")
        for front, kind, is_right in (("http", Web, is_json_of), ("frames", None, is_csv_of)):
            with served(options.program, folder, 1, front) as server:
                client = connected(server.port, kind=kind)
                if front == "http":
                    for first in range(0, options.rows, LINES):
                        lines = b"".join(b"j v=%di %d\n" % (i, START + i * STEP) for i in range(first, min(first + LINES, options.rows)))
                        number_in(client.ask(batch(lines))[1], b"K")
                    number_in(client.ask(b"A\n")[1], b"A")
                best = 0
                for _ in range(options.repeat):
                    seconds, _, text = client.query("j")
                    good &= is_right(text, options.rows)
                    best = max(best, len(text) / seconds / 1e6)
                good &= client.end() and server.end() == (b"", 0, "")
            verdict = "" if front != "http" else "  ok" if best >= AIM_OF_JSON else "  missed"
            print(f"{'JSON over HTTP' if front == 'http' else 'CSV over frames'}, {options.rows:,} rows, {len(text) / 1e6:.1f} MB: {best:.0f} MB/s{verdict if good else '  WRONG'}", flush=True)
    return good


def main():
    parser = argparse.ArgumentParser(description=__doc__, formatter_class=argparse.RawDescriptionHelpFormatter)
    parser.add_argument("--rows", type=int, default=1_000_000)
    parser.add_argument("--repeat", type=int, default=3)
    parser.add_argument("--folder", default=tempfile.gettempdir())
    options = parsed(parser)
    good = measure_ingest(options)
    good &= measure_answers(options)
    return 0 if good else 1


if __name__ == "__main__":
    raise SystemExit(main())

#!/usr/bin/env python3
"""Times the built program on one million lines of line protocol.

It makes LINES lines in order of time in frames of 10,000, an apply and a query of all rows, and feeds them to
`tsdb run` on its standard input in pieces of a stated size. The pieces come through a socket that keeps their bounds,
so each read of the program gives one piece. It prints rows and megabytes per second for each way of cutting, and for the
small pieces two lengths, which shows whether time is linear in the bytes.

usage: first_path.py [--lines N] [--small N] [--same] [--program PATH]
--same also feeds all of the lines in pieces of one byte, which takes minutes.
Build the program first: run `rt run -- run < stdin` in crates/tsdb.
"""
import argparse
import socket
import subprocess
import threading
import time

from program import parsed

PER_FRAME = 10_000
START = 1_704_067_200_000_000_000


def frames(lines):
    """The frames of so many lines, an apply, a query and the end."""
    parts = []
    for first in range(0, lines, PER_FRAME):
        last = min(first + PER_FRAME, lines)
        text = "".join(f"t v={i % 1000}i {START + i * 1_000_000}\n" for i in range(first, last)).encode()
        parts.append(b"W %d\n" % len(text) + text)
    return b"".join(parts) + b"A\nQ 1\ntX\n"


def fed(program, data, piece):
    """Feeds the data in pieces, and gives the seconds that the program took and its answer."""
    ours, theirs = socket.socketpair(socket.AF_UNIX, socket.SOCK_SEQPACKET)
    began = time.perf_counter()
    process = subprocess.Popen([program, "run"], stdin=theirs, stdout=subprocess.PIPE)
    theirs.close()
    answer = []
    reader = threading.Thread(target=lambda: answer.append(process.stdout.read()))
    reader.start()
    view = memoryview(data)
    send = ours.send
    for at in range(0, len(data), piece):
        send(view[at:at + piece])
    ours.close()
    reader.join()
    status = process.wait()
    return time.perf_counter() - began, status, answer[0]


def checked(lines, status, answer):
    """Whether the program answered as it has to."""
    count = (lines + PER_FRAME - 1) // PER_FRAME
    head = b"".join(b"K %d\n" % n for n in range(1, count + 1)) + b"A %d\nR %d " % (count, count)
    return status == 0 and answer.startswith(head) and answer.endswith(b"\nX\n") and answer.count(b"\n") == count + lines + 4


def main():
    parser = argparse.ArgumentParser(description=__doc__, formatter_class=argparse.RawDescriptionHelpFormatter)
    parser.add_argument("--lines", type=int, default=1_000_000)
    parser.add_argument("--small", type=int, default=50_000)
    parser.add_argument("--same", action="store_true")
    options = parsed(parser)
    rounds = [(65_536, options.lines), (65_536, options.lines)]
    rounds += [(piece, lines) for piece in (65_536, 7, 1) for lines in (options.small, 2 * options.small)]
    if options.same:
        rounds.append((1, options.lines))
    for piece, lines in rounds:
        data = frames(lines)
        seconds, status, answer = fed(options.program, data, piece)
        verdict = "ok" if checked(lines, status, answer) else f"WRONG (status {status})"
        print(f"{lines:>9,} lines in pieces of {piece:>6,}: {seconds:7.3f} s  {lines / seconds:12,.0f} rows/s  "
              f"{len(data) / seconds / 1e6:8.1f} MB/s in  {len(answer) / 1e6:6.1f} MB out  {verdict}", flush=True)


if __name__ == "__main__":
    main()

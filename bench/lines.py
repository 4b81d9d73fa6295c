#!/usr/bin/env python3
"""Times batches of the line protocol through the built program.

It makes LINES lines of two tags, three integers, one text and a stamp, in frames of 1,000 and of 10,000 lines, over one
table and over 100 tables in turn, and lines of 3 and of 200 columns over one table of as many bytes. It feeds each input
from a file to `tsdb run`, and prints the lines and megabytes per second that were acknowledged, from the start of the
program to its end, and the most memory that it took.

usage: lines.py [--lines N] [--program PATH]
Build the program first: run `rt run -- run < stdin` in crates/tsdb.
"""
import argparse
import itertools
import tempfile

from program import parsed, run

START = 1_704_067_200_000_000_000


def line(i, tables):
    """A line of about 108 bytes."""
    return (f"weather{i % tables:03},room=r{i % 100:03},sensor=s{i % 10} temp={i % 90}i,hum={i % 77}i,seq={i}i,"
            f"note=\"ok {i % 13:02}\" {START + i * 1_000_000}\n")


def wide(i, columns):
    """A line of so many columns."""
    fields = ",".join(f"c{k}={i % 90}i" for k in range(columns))
    return f"wide {fields} {START + i * 1_000_000}\n"


def write_frames(file, lines, per_frame):
    """Writes the frames of lines, so many in each, and gives how many frames and bytes these are."""
    count = size = 0
    while True:
        text = "".join(itertools.islice(lines, per_frame)).encode()
        if not text:
            break
        count += 1
        size += file.write(b"W %d\n" % len(text)) + file.write(text)
    return count, size + file.write(b"X\n")


def measure(program, name, make, lines, per_frame):
    """Runs so many lines, each made from its number, in frames of so many, and prints what was measured."""
    with tempfile.TemporaryFile() as source:
        count, size = write_frames(source, map(make, range(lines)), per_frame)
        source.seek(0)
        seconds, status, answer, usage = run(program, source)
    wanted = b"".join(b"K %d\n" % n for n in range(1, count + 1)) + b"X\n"
    verdict = "ok" if status == 0 and answer == wanted else f"WRONG (status {status}, {answer[:60]!r})"
    busy = usage.ru_utime + usage.ru_stime
    print(f"{name:<34} {lines:>9,} lines, {size / 1e6:6.1f} MB: {seconds:6.3f} s, {busy:6.3f} s of a processor  "
          f"{lines / busy:11,.0f} lines/s  {size / busy / 1e6:6.1f} MB/s  {usage.ru_maxrss / 1024:7.0f} MB  {verdict}", flush=True)


def main():
    parser = argparse.ArgumentParser(description=__doc__, formatter_class=argparse.RawDescriptionHelpFormatter)
    parser.add_argument("--lines", type=int, default=1_000_000)
    options = parsed(parser)
    for tables in (1, 100):
        def make(i):
            return line(i, tables)
        for per_frame in (1_000, 10_000):
            measure(options.program, f"{tables} tables, frames of {per_frame:,} lines", make, options.lines, per_frame)
        measure(options.program, f"{tables} tables, half as many lines", make, options.lines // 2, 10_000)
    for columns in (3, 200):
        def make_wide(i):
            return wide(i, columns)
        measure(options.program, f"{columns} columns", make_wide, options.lines * 30 // len(wide(0, columns)), 1_000)


if __name__ == "__main__":
    main()

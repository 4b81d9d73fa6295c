#!/usr/bin/env python3
"""Times texts of SQL through the built program.

It makes COUNT statements that between them have every part of the grammar, and texts of one form each, of 65,536 bytes and
of half as many: one long chain, one long list, and tokens or brackets that never end in a statement. Each input is fed from
a file to `tsdb run`, over no table, and each reply is compared. It prints the statements and megabytes per second from the
start of the program to its end, and the most memory that it took. A form whose time is linear in its bytes has the same
megabytes per second at both lengths.

usage: statements.py [--count N] [--texts N] [--program PATH]
Build the program first: run `rt run -- run < stdin` in crates/tsdb.
"""
import argparse
import itertools
import tempfile

from program import parsed, run

LONGEST = 65_536
NO_TABLE = b"F 0 32 0\n"
NO_MEMORY = b"E 61 0\n"

# statements, each with its reply over no table
STATEMENTS = [(text.encode(), reply) for text, reply in [
    ("trades", b"F 0 32 0\n"),
    ('  "My Trades" AS t;', b"F 0 32 2\n"),
    ("SELECT v FROM t", b"F 0 32 14\n"),
    ("CREATE TABLE d (ts TIMESTAMP, k SYMBOL, v LONG) TIMESTAMP(ts) PARTITION BY DAY WAL DEDUP UPSERT KEYS(k)", b"E 36 96\n"),
    ("INSERT INTO e VALUES ('2024-01-01', 5), ('2024-01-02', -6)", b"E 32 12\n"),
    ("ALTER TABLE d ADD COLUMN w VARCHAR", b"E 32 12\n"),
    ("ALTER TABLE d DEDUP ENABLE UPSERT KEYS(ts, k)", b"E 32 12\n"),
    ("ALTER TABLE d DEDUP DISABLE", b"E 32 12\n"),
    ("SELECT timestamp, sum(v) FROM t SAMPLE BY 1h FILL(PREV) ALIGN TO CALENDAR WITH OFFSET '00:15'", b"F 0 32 30\n"),
    ("SELECT timestamp, count() FROM m SAMPLE BY 1M FILL(0) ORDER BY timestamp DESC LIMIT 1, 3", b"F 0 32 31\n"),
    ("SELECT v FROM t WHERE timestamp IN '2024-01;1d' AND NOT (v > 3 OR s IS NULL)", b"F 0 32 14\n"),
    ("SELECT px, bid FROM tr ASOF JOIN q ON (sym) WHERE tr.px * 2 >= bid % 10 - 1", b"F 0 32 20\n"),
    ("SELECT k, v FROM l LATEST ON timestamp PARTITION BY k", b"F 0 32 17\n"),
    ("SELECT v + 1, v / 0, v % 10 FROM t -- three items", b"F 0 32 33\n"),
    ("SHOW PARTITIONS FROM t", b"F 0 32 21\n"),
    ("SELECT FROM t", b"E 31 7\n"),
    ("DROP TABLE t", b"E 40 0\n"),
    ("t LIMIT 9223372036854775808", b"E 13 8\n"),
]]


def filled(front, part, length, back=b""):
    """As many of a part as leave the text within a length, between two ends."""
    return front + part * ((length - len(front) - len(back)) // len(part)) + back


# texts of one form: its name, the text of a length, and its reply
FORMS = [
    ("a chain of OR", lambda n: filled(b"t WHERE v", b" OR v", n), lambda text: NO_TABLE),
    ("a chain of plus", lambda n: filled(b"t WHERE v = 1", b"+1", n), lambda text: NO_TABLE),
    ("a list behind IN", lambda n: filled(b"t WHERE v IN (1", b",1", n, b")"), lambda text: NO_TABLE),
    ("one name", lambda n: b"t" * n, lambda text: NO_TABLE),
    ("a text", lambda n: filled(b"t WHERE s = '", b"''", n, b"'"), lambda text: NO_TABLE),
    ("open brackets", lambda n: filled(b"t WHERE ", b"(", n), lambda text: NO_MEMORY),
    ("NOT", lambda n: filled(b"t WHERE ", b"NOT ", n), lambda text: b"E 31 %d\n" % len(text)),
    ("minuses in a row", lambda n: filled(b"t WHERE 1 -", b" -", n), lambda text: b"E 31 %d\n" % len(text)),
    ("comments", lambda n: filled(b"", b"-- \n", n), lambda text: b"E 31 %d\n" % len(text)),
    ("single quotes", lambda n: b"'" * n, lambda text: b"E 31 0\n"),
    ("double quotes", lambda n: b'"' * n, lambda text: b"E 31 0\n"),
    ("numbers and commas", lambda n: filled(b"", b"1,", n), lambda text: b"E 31 0\n"),
]


def measure(program, name, rows):
    """Runs these texts, each with its reply, and prints what was measured. Gives whether each reply was right."""
    count = size = 0
    wanted = []
    with tempfile.TemporaryFile() as source:
        for text, reply in rows:
            count += 1
            size += source.write(b"Q %d\n" % len(text)) + source.write(text)
            wanted.append(reply)
        source.write(b"X\n")
        source.seek(0)
        seconds, status, answer, usage = run(program, source)
    good = status == 0 and answer == b"".join(wanted) + b"X\n"
    busy = usage.ru_utime + usage.ru_stime
    verdict = "ok" if good else f"WRONG (status {status}, {answer[:60]!r})"
    print(f"{name:<34} {count:>7,} texts, {size / 1e6:6.2f} MB: {seconds:6.3f} s, {busy:6.3f} s of a processor  "
          f"{count / busy:10,.0f} texts/s  {size / busy / 1e6:6.1f} MB/s  {usage.ru_maxrss / 1024:6.0f} MB  {verdict}", flush=True)
    return good


def main():
    parser = argparse.ArgumentParser(description=__doc__, formatter_class=argparse.RawDescriptionHelpFormatter)
    parser.add_argument("--count", type=int, default=10_000, help="how many statements")
    parser.add_argument("--texts", type=int, default=50, help="how many texts of one form and length")
    options = parsed(parser)
    good = measure(options.program, "no text", [])
    good &= measure(options.program, "statements", itertools.islice(itertools.cycle(STATEMENTS), options.count))
    for name, make, reply in FORMS:
        for length in (LONGEST // 2, LONGEST):
            text = make(length)
            good &= measure(options.program, f"{name}, {len(text):,} bytes", [(text, reply(text))] * options.texts)
        good &= measure(options.program, f"{name}, one text", [(text, reply(text))])
    return 0 if good else 1


if __name__ == "__main__":
    raise SystemExit(main())

#!/usr/bin/env python3
"""Feeds the program with inputs that are made by chance, of each form that it reads, and looks at what it makes of them.

The forms, each for its share of the time:
- lines: batches of lines of all kinds, with bytes changed. Each reply has to be the one that `plain_lines.py` works out: the next number,
  or the code and the line.
- sql: statements that the grammar gives, with tokens and bytes changed, over tables with all types. Where `plain_sql.py` refuses a text
  for its tokens or its grammar, the reply has to be just that code and place; else one that a statement may have, whose place is that of a
  token.
- frames: streams of frames with bytes changed, each on a connection of its own, one behind the other. The replies have to be those that a
  plain reader of frames and the two readers above give, up to the offset of what is no frame.
- http: requests with bytes changed, behind ones that aren't. Each has a whole response; a refusal of code 1 is the last one, at the first
  byte of a request, and none of those in front of the changed one.
- pg: messages of PostgreSQL's protocol with bytes changed, each stream on a connection of its own, some at once. The answer has to be, to
  the byte, what a plain reader of the messages gives; a query's is what the reader of SQL gives, or that of the same text alone.
- files: a store of all types with a byte of a file changed to one of five values, or a file of another length, each by its turn in an
  order that is drawn. `run --dir` opens it, asks, applies, writes and asks again: it ends with status 0, where each request has a
  reply that it may have, with 5 and no byte, or with 6 and the place of a damage; and with one of these where it is opened once more.

No process may end by a signal or take more than MOST megabytes. No input may take more than a second of a processor, or three where it is
a sample of many buckets, and none may be without an answer for a minute. Many inputs are asked of one process.

It prints for each form how many inputs it tried, which replies they had, and the longest wait. An input that is answered wrongly is
printed, made as short as the fault allows where its form lets it; it ends with 1 then.

usage: fuzz.py [--seconds N] [--seed N] [--only FORM] [--folder PATH] [--program PATH]
--folder is a folder on a file system with little to wait for, as /dev/shm. Build the program first: run `rt run -- run < stdin` in
crates/tsdb.
"""
import argparse
import collections
import concurrent.futures
import contextlib
import itertools
import json
import os
import random
import re
import resource
import select
import shutil
import struct
import subprocess
import sys
import tempfile
import threading
import time

import plain_lines
import plain_sql
from program import batch, parsed, query
from server import START, Pg, connected, message, request, served

MOST = 512  # megabytes
LONG, LONGEST, GIVEN_UP = 1.0, 3.0, 60.0  # seconds
CONNECTIONS, RUNS = 32, 8  # at once
TICK = 1 / os.sysconf("SC_CLK_TCK")
PER_SESSION, AT_ONCE = 20, 100  # how often one process is asked, and how many inputs at once


class Wrong(Exception):
    """What is wrong with the answer to an input."""


class Found:
    """What was tried of a form."""

    def __init__(self):
        self.inputs, self.replies, self.longest, self.most = 0, collections.Counter(), 0.0, 0.0

    def add(self, reply):
        self.inputs += 1
        self.replies[reply] += 1

    def waited(self, seconds):
        """A wait for inputs that were asked at once."""
        self.longest = max(self.longest, seconds)

    def __str__(self):
        replies = ", ".join(f"{reply} {count:,}" for reply, count in sorted(self.replies.items()))
        return f"{self.inputs:,} inputs, the longest wait for those asked at once {self.longest * 1e3:,.0f} ms, {self.most:,.0f} MB at most\n  {replies}"


def busy(pid):
    """The seconds of a processor that a process took until now."""
    try:
        with open(f"/proc/{pid}/stat") as stat:
            return sum(map(int, stat.read().rpartition(")")[2].split()[11:13])) * TICK
    except OSError:
        return 0.0


def megabytes(pid):
    """The most memory that a process took until now."""
    try:
        with open(f"/proc/{pid}/status") as status:
            return next((int(line.split()[1]) for line in status if line.startswith("VmHWM")), 0) / 1_024
    except OSError:
        return 0


class Fed:
    """A program that is given frames, many at once, and gives their replies. No wait for it is without an end."""

    def __init__(self, program, *words):
        self.process = subprocess.Popen([program, *words], stdin=subprocess.PIPE, stdout=subprocess.PIPE, bufsize=0)
        os.set_blocking(self.process.stdin.fileno(), False)
        self.left, self.took = b"", 0.0

    def move(self, given, until):
        """Writes what can be written of some bytes, or reads what comes, and gives the bytes that are left."""
        ends = select.select([self.process.stdout], [self.process.stdin] if given else [], [], max(until - time.monotonic(), 0))
        if not any(ends):
            raise Wrong(f"no reply in {GIVEN_UP:.0f} seconds")
        if ends[0]:
            piece = os.read(self.process.stdout.fileno(), 1 << 20)
            if not piece:
                raise Wrong(f"the program has ended, with status {self.process.wait()}")
            self.left += piece
        elif ends[1]:
            try:
                return given[os.write(self.process.stdin.fileno(), given[:1 << 16]):]
            except BrokenPipeError:
                raise Wrong(f"the program has ended, with status {self.process.wait()}") from None
        return given

    def reply(self):
        """The line and the bytes of the next reply, or None where it isn't there whole."""
        line, end, rest = self.left.partition(b"\n")
        size = int(line.split()[2]) if line.startswith(b"R ") and end else 0
        if not end or len(rest) < size:
            return None
        self.left = rest[size:]
        return line, rest[:size]

    def ask(self, frames):
        """The replies to frames. What these took of a processor is `took` then."""
        given, replies, before, until = b"".join(frames), [], busy(self.process.pid), time.monotonic() + GIVEN_UP
        while len(replies) < len(frames):
            found = self.reply()
            if found:
                replies.append(found)
            else:
                given = self.move(given, until)
        self.took = busy(self.process.pid) - before
        return replies

    def end(self, found):
        """Ends the session, and looks at how it ended and what memory it took."""
        found.most = max(found.most, megabytes(self.process.pid))
        replies = self.ask([b"X\n"])
        if replies != [(b"X", b"")] or self.left or self.process.wait(GIVEN_UP) != 0:
            raise Wrong(f"the end is {replies}, with status {self.process.returncode}")
        if found.most > MOST:
            raise Wrong(f"{found.most:.0f} MB of memory")

    def kill(self):
        self.process.kill()
        self.process.wait()
        self.process.stdin.close()
        self.process.stdout.close()


def turns(until):
    """Numbers of inputs that one process is asked for, until a moment."""
    return itertools.takewhile(lambda _: time.monotonic() < until, range(PER_SESSION))


def mutated(rng, text, pieces, most=3):
    """A text with some bytes changed, taken out, put in, or doubled."""
    for _ in range(rng.randint(0, most)):
        at, size = rng.randrange(len(text) + 1), rng.choice((0, 0, 1, 1, 2, 5))
        new = rng.choice((b"", rng.choice(pieces), rng.choice(pieces), rng.randbytes(1), text[at:at + rng.randrange(20)]))
        text = text[:at] + new + text[at + size:]
    return text


def smallest(text, is_wrong):
    """A text with less of it that is still wrong."""
    size = len(text) // 2
    while size:
        at = 0
        while at < len(text):
            less = text[:at] + text[at + size:]
            if is_wrong(less):
                text = less
            else:
                at += size
        size //= 2
    return text


# -- lines

NAMES = [b"t", b"u", b"T", b"site", b"v", b"V", b"w", b"timestamp", b"TimeStamp", b"a\\ b", b"a\\,b", b"a\\=b", b"a\\\\b", b"a\\b", b"\xc3\xa9",
         b"x.y", b".x", b"x..y", b"a-b", b"n" * 127, b"n" * 128, b"#", b'"', b"a\tb", b"a/b", b"5", b"\xff", b"\xed\xa0\x80"]
VALUES = [b"1i", b"-1i", b"0i", b"9223372036854775807i", b"9223372036854775808i", b"-9223372036854775808i", b"00000000000000000000007i",
          b"t", b"F", b"true", b"FALSE", b"tRue", b"1", b"1.5", b"i", b"-i", b"1u", b'"x"', b'""', b'"a\\"b"', b'"a\\\\"', b'"a\nb"', b'"a\\\nb"',
          b'"', b'"x" "', b'"\xff"', b'"' + b"x" * 66_000 + b'"']
STAMPS = [b"", b" 1704067200000000000", b" 1704067200000000999", b" 0", b" -1", b" -0", b" 253402300799999999999", b" 253402300800000000000",
          b" 99999999999999999999999", b" 1x", b" ", b"  7  "]
ENDS = [b"\n"] * 6 + [b"\r\n", b"\r", b"\n\n", b"\n \n", b"\n# c\n", b"#"]
LINE_PIECES = [b",", b" ", b"=", b"\\", b'"', b"\n", b"\r", b"#", b"i", b"t", b"\0", b"\xc3", b"-", b"\\\n"]


def line_by_chance(rng):
    """A line that mostly has the form of one."""
    if rng.random() < 0.6:
        names, values = NAMES[:7], VALUES[:3] + VALUES[7:9] + [b'"x"']
    else:
        names, values = NAMES, VALUES
    tags = b"".join(b",%b=%b" % (rng.choice(names), rng.choice(names)) for _ in range(rng.choice((0, 0, 1, 2))))
    fields = b",".join(b"%b=%b" % (rng.choice(names), rng.choice(values)) for _ in range(rng.choice((0, 1, 1, 2, 3))))
    stamp = rng.choice(STAMPS[:3] if rng.random() < 0.7 else STAMPS)
    return rng.choice(names) + tags + (b" " * rng.choice((1, 1, 1, 2)) + fields if fields else b"") + stamp


def batch_by_chance(rng):
    text = b"".join(line_by_chance(rng) + rng.choice(ENDS) for _ in range(rng.choice((0, 1, 1, 1, 2, 4))))
    return mutated(rng, text, LINE_PIECES) if rng.random() < 0.6 else text


def reply_of_batch(tables, text, count):
    """The reply that a batch has over tables, and the tables behind it."""
    refusal, after = plain_lines.reply_to(tables, text)
    return b"E %d %d" % refusal if refusal else b"K %d" % (count + 1), after


def lines(program, rng, found, until, _):
    """Batches in sessions of their own, some at once."""
    while time.monotonic() < until:
        fed, tables, count, before = Fed(program, "run"), {}, 0, []
        try:
            for _ in turns(until):
                texts, wanted = [batch_by_chance(rng) for _ in range(AT_ONCE)], []
                for text in texts:
                    reply, tables = reply_of_batch(tables, text, count)
                    count += reply.startswith(b"K")
                    wanted.append(reply)
                began = time.monotonic()
                replies = [line for line, _ in fed.ask([batch(text) for text in texts])]
                for text, reply, line in zip(texts, wanted, replies):
                    if line != reply or fed.took > LONG * AT_ONCE / 10:
                        raise Wrong(shortest_batch(program, before, text, f"{line!r} where {reply!r} was wanted, or {fed.took:.2f} seconds"))
                    before += [text] if line.startswith(b"K") else []
                    found.add(" ".join(line.decode().split()[:2]) if line.startswith(b"E") else "K")
                found.waited(time.monotonic() - began)
            if fed.ask([b"A\n"])[0][0] != b"A %d" % count:
                raise Wrong("another number is applied")
            fed.end(found)
        finally:
            fed.kill()


def is_wrong_behind(program, kept, short):
    """Whether a batch is answered wrongly behind others, or takes long."""
    fed, tables, count = Fed(program, "run"), {}, 0
    try:
        fed.ask([batch(each) for each in kept])
        for each in kept:
            reply, tables = reply_of_batch(tables, each, count)
            count += reply.startswith(b"K")
        return fed.ask([batch(short)])[0][0] != reply_of_batch(tables, short, count)[0] or fed.took > LONG
    except Wrong:
        return True
    finally:
        fed.kill()


def shortest_batch(program, before, text, fault):
    """A fault with the shortest batch that has it behind those that were there before, or behind none."""
    kept = next((kept for kept in ([], before[-1:], before) if is_wrong_behind(program, kept, text)), None)
    if kept is None:
        return f"not again: {fault} (a batch of {len(text)} bytes: {text[:200]!r})"
    text = smallest(text, lambda short: is_wrong_behind(program, kept, short))
    return f"{fault}, or of the same kind for the batch {text!r} behind {len(kept)} batches {kept[:3]!r}"


# -- SQL

COLUMNS = "ts TIMESTAMP, k SYMBOL, v LONG, b BOOLEAN, s VARCHAR, w TIMESTAMP"
TABLES = [
    f"CREATE TABLE t ({COLUMNS}) TIMESTAMP(ts) PARTITION BY DAY",
    f"CREATE TABLE u ({COLUMNS}, x LONG) TIMESTAMP(ts) PARTITION BY HOUR DEDUP UPSERT KEYS(ts, k)",
    "CREATE TABLE empty (ts TIMESTAMP, k SYMBOL, v LONG) TIMESTAMP(ts) PARTITION BY YEAR",
    "INSERT INTO t VALUES ('2024-01-01', 'a', 1, TRUE, 'x', 5), ('2024-01-01T00:00:01', NULL, NULL, NULL, NULL, NULL), "
    "('2024-01-01T00:00:01', 'b', -7, FALSE, '', 0)",
    "INSERT INTO t VALUES ('2024-01-01T00:00:03.000001', 'a', 9223372036854775807, TRUE, 'y,\"z', '9999-12-31'), "
    "('2023-12-31T23:59:59', 'c', 3, NULL, 'x', 7)",
    "INSERT INTO u VALUES ('2024-01-01', 'a', 2, TRUE, 'x', 5, 1), ('2024-01-01T00:00:02', 'b', 0, NULL, 'q', NULL, 2), "
    "('2024-01-01T01:00:00', 'a', 4, FALSE, 'x', 5, 3)",
]
NAMES_OF_TABLES = ["t", "t", "u", "u", "T", "empty", '"t"', "nix"]
SHOWN = {
    "name": ["v", "v", "v", "ts", "ts", "k", "k", "s", "b", "w", "x", '"v"', "V", "count", "sum", "timestamp", "first", "nix", '"q q"', "t", "u"],
    "number": ["0", "1", "2", "7", "1000000", "9223372036854775807", "9223372036854775808", "00", "253402300799999999"],
    "string": ["'a'", "''", "'it''s'", "'2024-01-01'", "'2024-01;1d'", "'2024-13'", "'2024-01-01T00:00:01.5'", "'01:30'", "'-25:00'", "'\xe9'", "'1969'"],
    "stride": ["1U", "5T", "1s", "12h", "1d", "1M", "1y", "0s", "1000000d", "1000001s", "999999M"],
}
SQL_PIECES = [b"(", b")", b",", b";", b"'", b'"', b"--", b"\n", b" ", b"=", b"<", b"!", b".", b"-", b"*", b"\0", b"\xff", b"NULL", b"1", b"1d", b"t",
              b"OR", b"/*", b"--\xff\n"]
MOST_OF_TEXT = 20_000
REFUSED_AS_QUESTION = {32, 33, 34, 36, 37, 38, 39, 41}
REFUSED_AS_WRITE = {14, 17, 18, 19, 20, 32, 33, 34, 35, 36, 39}


def sentence(rng, symbol, depth, above=None):
    """The words of a text that the grammar gives, with few of those ways that go deep."""
    if symbol in SHOWN:
        is_table = symbol == "name" and above in ("source", "statement", "insert", "alter") and rng.random() < 0.9
        return [rng.choice(NAMES_OF_TABLES if is_table else SHOWN[symbol])]
    if symbol not in plain_sql.RULES:
        return [symbol[1:-1] if symbol.startswith("'") else rng.choice((symbol, symbol, symbol.lower()))]
    ways = plain_sql.RULES[symbol]
    way = rng.choice(ways) if depth > 0 and rng.random() < 0.6 else ways[0]
    return [word for each in way for word in sentence(rng, each, depth - 1, symbol)]


def statement_by_chance(rng):
    words = sentence(rng, "text", rng.choice((8, 14, 20, 26)))
    if rng.random() < 0.3:
        at = rng.randrange(len(words) + 1)
        words[at:at + rng.randrange(3)] = sentence(rng, rng.choice(list(plain_sql.RULES)), 4)
    text = rng.choice((" ", " ", " ", "  ", "\n", " -- c\n")).join(words).encode()
    text = mutated(rng, text, SQL_PIECES) if rng.random() < 0.25 else text
    return text[:MOST_OF_TEXT]


def fault_of_sql(text, line, size, count):
    """What is wrong with the reply to a text behind so many transactions, or None."""
    refusal, words = plain_sql.refused(text), line.decode().split()
    if plain_sql.nests_deep(plain_sql.tokens(text)):
        return None
    if refusal:
        return None if line == b"E %d %d" % refusal else f"{line!r} where E {refusal[0]} {refusal[1]} was wanted"
    if words[0] == "K":
        return None if int(words[1]) == count + 1 else f"{line!r} behind {count} transactions"
    if words[0] == "R":
        return None if size else f"{line!r} without a line"
    code, place = int(words[-2]), int(words[-1])
    codes = REFUSED_AS_QUESTION if words[0] == "F" else REFUSED_AS_WRITE
    if words[0] not in "EF" or code not in codes:
        return f"{line!r}, which no statement may have"
    ends = {token.at for token in plain_sql.tokens(text)}
    return None if place in ends or code == 38 and place == 0 else f"{line!r}, where no token is"


class Tables:
    """A session over tables with all types."""

    def __init__(self, program):
        self.fed, self.count = Fed(program, "run"), 0
        self.ask([text.encode() for text in TABLES])
        self.fed.ask([b"A\n"])

    def ask(self, texts):
        """The first word of each reply, with its code where it is a refusal, and the texts that are answered wrongly, each with its fault."""
        kinds, wrong = [], []
        for text, (line, answer) in zip(texts, self.fed.ask([b"Q %d\n" % len(text) + text for text in texts])):
            fault = fault_of_sql(text, line, len(answer), self.count)
            self.count += line.startswith(b"K")
            words = line.decode().split()
            kinds.append(words[0] if words[0] in "KR" else f"{words[0]} {words[-2]}")
            wrong += [(text, fault)] if fault else []
        return kinds, wrong


def is_wrong_alone(program, text):
    """Whether a text is answered wrongly, or takes long, in a session of its own."""
    tables = Tables(program)
    try:
        return bool(tables.ask([text])[1]) or tables.fed.took > (LONGEST if b"SAMPLE" in text.upper() else LONG)
    except Wrong:
        return True
    finally:
        tables.fed.kill()


def fault_among(program, texts, wrong):
    """What is wrong with texts of which some are answered wrongly, or all take long."""
    for text, fault in wrong or [(text, "more than a second") for text in texts]:
        if is_wrong_alone(program, text):
            return f"{fault}, or of the same kind, for the text {smallest(text, lambda short: is_wrong_alone(program, short))!r}"
    return f"not again: {wrong[0][1]}, for the text {wrong[0][0]!r}" if wrong else None


def sql(program, rng, found, until, _):
    """Statements in sessions of their own, some at once."""
    while time.monotonic() < until:
        tables = Tables(program)
        try:
            for _ in turns(until):
                texts, began = [statement_by_chance(rng) for _ in range(AT_ONCE)], time.monotonic()
                kinds, wrong = tables.ask(texts)
                if wrong or tables.fed.took > LONG:
                    fault = fault_among(program, texts, wrong)
                    if fault:
                        raise Wrong(fault)
                for kind in kinds:
                    found.add(kind)
                found.waited(time.monotonic() - began)
                tables.fed.ask([b"A\n"])
            tables.fed.end(found)
        finally:
            tables.fed.kill()


# -- frames

GOOD_BATCHES = [b"", b"t v=1i 0\n", b"t v=2i 1000", b"u,a=b 5\n\nt v=7i 9\n", b"? \n", b"t v=x"]
GOOD_TEXTS = [b"", b"nix;;", b"SELECT", b"DROP TABLE t", b"t LIMIT 9223372036854775808"]
FRAME_PIECES = [b"W", b"Q", b"A\n", b"X\n", b" ", b"\n", b"0", b"1", b"9", b"\r", b"W 0\n", b"Q 1\n", b"W 16777217\n", b"Q 65537\n", b"W 01\n", b"\0"]
LENGTHS = {b"W": 16_777_216, b"Q": 65_536}


def frame_by_chance(rng):
    dice = rng.random()
    if dice < 0.25:
        return b"A\n"
    if dice < 0.3:
        return b"X\n"
    if dice < 0.7:
        return batch(rng.choice(GOOD_BATCHES) if rng.random() < 0.8 else batch_by_chance(rng)[:1_000])
    text = rng.choice(GOOD_TEXTS)
    return b"Q %d\n" % len(text) + text


def stream_by_chance(rng):
    stream = b"".join(frame_by_chance(rng) for _ in range(rng.randrange(5)))
    stream = mutated(rng, stream, FRAME_PIECES) if rng.random() < 0.7 else stream
    return stream[:rng.randrange(len(stream) + 1)] if rng.random() < 0.2 else stream


def head_at(stream, at):
    """The letter, the length and the end of the head of the frame at an offset; None where it is no frame, or is cut."""
    found = re.compile(rb"(A|X)\n|(W|Q) (0|[1-9][0-9]*)\n").match(stream, at)
    if not found:
        return None
    if found[1]:
        return found[1], 0, found.end()
    length = int(found[3])
    if length > LENGTHS[found[2]] or found.end() + length > len(stream):
        return None
    return found[2], length, found.end()


def replies_to(stream, tables, count):
    """The replies to a stream over tables and so many transactions, those that aren't known being None, and both behind it."""
    at, replies = 0, []
    while at < len(stream):
        head = head_at(stream, at)
        if not head:
            return replies + [b"E 1 %d" % at], tables, count
        letter, length, begin = head
        text, at = stream[begin:begin + length], begin + length
        if letter == b"X":
            return replies + [b"X"], tables, count
        if letter == b"A":
            replies.append(b"A %d" % count)
        elif letter == b"W":
            reply, tables = reply_of_batch(tables, text, count)
            count += reply.startswith(b"K")
            replies.append(reply)
        else:
            refusal = plain_sql.refused(text)
            replies.append(b"E %d %d" % refusal if refusal else None)
    return replies, tables, count


def cut_replies(output, wanted):
    """The lines of the replies, without what belongs to a result."""
    at, found = 0, []
    while at < len(output):
        line, _, _ = output[at:].partition(b"\n")
        at += len(line) + 1 + (int(line.split()[2]) if line.startswith(b"R ") else 0)
        found.append(None if len(found) < len(wanted) and wanted[len(found)] is None and line[:1] in b"RFK" else line)
    return found


def sent(server, stream):
    """A client that has sent a stream, and ended what it sends."""
    client = server.connect()
    client.socket.settimeout(GIVEN_UP)
    try:
        client.send(stream)
        client.stop_sending()
    except OSError:
        pass  # it is closed, and what the server wrote before that is there
    return client


def exchange(server, *streams):
    """What comes back where streams are sent and then ended, each by its client, all at once."""
    outputs = []
    for client in [sent(server, stream) for stream in streams]:
        outputs.append(client.rest())
        client.close()
    return outputs


def busy_with(server, stream):
    """The seconds of a processor that a server takes for a stream."""
    before = busy(server.process.pid)
    exchange(server, stream)
    return busy(server.process.pid) - before


class Serving:
    """A server over a new folder, and what its memory and its end are."""

    def __init__(self, program, place, found, front=None):
        self.folder = tempfile.mkdtemp(dir=place)
        self.server, self.found = served(program, os.path.join(self.folder, "store"), None, front), found

    def __enter__(self):
        return self.server

    def __exit__(self, *_):
        status = self.server.process.poll()
        self.found.most = max(self.found.most, megabytes(self.server.process.pid))
        self.server.kill()
        shutil.rmtree(self.folder)
        if status is not None or self.found.most > MOST:
            raise Wrong(f"the server has ended with status {status}, with {self.found.most:.0f} MB")


def frames(program, rng, found, until, place):
    """Streams, each on a connection of its own, one behind the other."""
    while time.monotonic() < until:
        with Serving(program, place, found) as server:
            tables, count = {}, 0
            for _ in itertools.takewhile(lambda _: time.monotonic() < until, range(PER_SESSION * AT_ONCE)):
                stream, began = stream_by_chance(rng), time.monotonic()
                wanted, tables, after = replies_to(stream, tables, count)
                replies = cut_replies(exchange(server, stream)[0], wanted)
                if replies != wanted:
                    raise Wrong(f"{replies[:9]} where {wanted[:9]} was wanted, for the stream {stream!r} behind {count} transactions")
                found.waited(time.monotonic() - began)
                if time.monotonic() - began > LONG and (took := busy_with(server, stream)) > LONG:
                    raise Wrong(f"{took:.1f} seconds for the stream {stream!r}")
                if None in wanted:
                    break  # a text of SQL may have written what is not followed here
                last = replies[-1].decode().split() if replies else ["nothing"]
                found.add(" ".join(last[:2]) if last[0] == "E" else last[0])
                count = after


# -- HTTP

RESPONSE = re.compile(rb"HTTP/1\.1 (?:(204 No Content)\r\nX-Txn: \d+\r\n\r\n|"
                      rb"(200 OK|400 Bad Request|404 Not Found|405 Method Not Allowed|500 Internal Server Error)\r\n"
                      rb"Content-Type: application/json; charset=utf-8\r\nContent-Length: (\d+)\r\n\r\n)")
REQUESTS = [request(batch(b"t v=1i 0\n")), request(batch(b"?")), request(b"A\n"), request(query("t")), request(query("SELECT v, ts FROM nix")),
            b"GET / HTTP/1.1\r\nHost: x\r\n\r\n", b"\r\nPOST /write?precision=ns HTTP/1.1\r\nContent-Length: 9\r\nX: y\r\n\r\nt v=2i 0\n",
            b"PUT /exec?query=%74&a=b HTTP/1.1\r\nContent-Length: 3\r\n\r\nabc",
            b"GET /exec?a=1&query=SELECT+count()%20FROM%20t HTTP/1.1\r\nAccept: */*\r\nConnection: keep-alive\r\n\r\n"]
HTTP_PIECES = [b"\r\n", b"\n", b"\r", b" ", b":", b"?", b"%", b"%zz", b"%ff", b"&", b"=", b"\0", b"\xff", b"GET ", b"HTTP/1.0", b"HTTP/2.0",
               b"Content-Length: 9\r\n", b"Content-Length: 16777217\r\n", b"content-length: 1\r\n", b"Connection: close\r\n",
               b"Transfer-Encoding: chunked\r\n", b"a: b\r\n" * 70, b"x" * 17_000, b"\t"]


def responses_in(output):
    """The status and the body of each response; a fault where they aren't whole."""
    at, found = 0, []
    while at < len(output):
        head = RESPONSE.match(output, at)
        end = head.end() + int(head[3] or 0) if head else 0
        if not head or end > len(output):
            raise Wrong(f"{output[at:at + 80]!r} is no whole response")
        found.append((head[1] or head[2], json.loads(output[head.end():end]) if head[2] else None))
        at = end
    return found


def fault_of_responses(good, changed, output):
    """What is wrong with what is answered to good requests and a changed one behind them, or None."""
    found, offset = responses_in(output), sum(map(len, good))
    if len(found) < len(good):
        return f"{len(found)} responses to {len(good)} requests"
    codes = [body.get("code") if body and "count" not in body else None for _, body in found]
    if 1 in codes[:-1] or 1 in codes[:len(good)]:
        return "a request is refused as none, and others behind it are answered"
    if codes[-1:] == [1] and not offset <= found[-1][1]["place"] < offset + len(changed):
        return f"no request is said to be at {found[-1][1]['place']}, where the one that was changed is at {offset}"
    return None


def kind_of(output):
    """The status of the last response, and whether it is a refusal of what is no request."""
    responses = responses_in(output)
    status, body = responses[-1] if responses else (b"nothing", None)
    return status.decode().split()[0] + (" with code 1" if body and body.get("code") == 1 else "")


def http(program, rng, found, until, place):
    """Requests, each behind some good ones, on a connection of its own, some at once."""
    while time.monotonic() < until:
        with Serving(program, place, found, "http") as server:
            for _ in turns(until):
                good = [[rng.choice(REQUESTS) for _ in range(rng.randrange(3))] for _ in range(CONNECTIONS)]
                changed = [mutated(rng, rng.choice(REQUESTS) + rng.choice((b"", b"", rng.choice(REQUESTS))), HTTP_PIECES, 2) or b"G" for _ in good]
                began, before = time.monotonic(), busy(server.process.pid)
                outputs = exchange(server, *(b"".join(some) + more for some, more in zip(good, changed)))
                for some, more, output in zip(good, changed, outputs):
                    fault = fault_of_responses(some, more, output)
                    if fault or busy(server.process.pid) - before > LONG and busy_with(server, b"".join(some) + more) > LONG:
                        raise Wrong(f"{fault or 'more than a second'}, for {b''.join(some)!r} and the changed {more!r}, with {output[-300:]!r}")
                    found.add(kind_of(output))
                found.waited(time.monotonic() - began)


# -- PostgreSQL's protocol

ENCRYPT, ENCRYPT_BY_GSS, CANCEL, PROTOCOL = 80_877_103, 80_877_104, 80_877_102, 196_608
NO_ENCRYPTION, ACCEPTED, READY, EMPTY = b"N", message(b"R", bytes(4)), message(b"Z", b"I"), message(b"I")
SETTINGS = b"".join(message(b"S", name + b"\0" + value + b"\0") for name, value in (
    (b"server_version", b"14.0 (Bontayug)"), (b"server_encoding", b"UTF8"), (b"client_encoding", b"UTF8"), (b"DateStyle", b"ISO, YMD"), (b"TimeZone", b"UTC"),
    (b"integer_datetimes", b"on"), (b"standard_conforming_strings", b"on")))
PG_TEXTS = [b"t", b"t;", b"SELECT v, ts FROM t WHERE v > 1", b"SELECT count() c, sum(v) FROM t", b"u", b"", b" \t\r\n", b"nix;;", b"SELECT",
            b"DROP TABLE t", b"t LIMIT 9223372036854775808", b"SHOW PARTITIONS FROM u", b"\xff", b"SET a = 'b'", b"BEGIN", b"x" * 65_536]
PG_STARTS = [struct.pack(">II", 8, ENCRYPT), struct.pack(">II", 8, ENCRYPT_BY_GSS), struct.pack(">II", 8, ENCRYPT) + START,
             struct.pack(">IIII", 16, CANCEL, 1, 2), struct.pack(">II", 41, PROTOCOL) + b"user\0u\0database\0d\0client_encoding"[:33], b"",
             struct.pack(">II", 9, PROTOCOL) + b"\0", struct.pack(">II", 10, PROTOCOL) + b"\0\0", struct.pack(">II", 16, PROTOCOL) + b"user\0u\0\0"]
PG_PIECES = [b"\0", b"\0\0", b"\xff", b"Q", b"P", b"S", b"X", b"H", b"p", b"\0\0\0\3", b"\0\0\0\4", b"\0\1\0\5", b"\0\1\0\6", message(b"S"), message(b"P"),
             message(b"Q", b"t\0"), START, struct.pack(">II", 8, ENCRYPT), struct.pack(">II", 8, CANCEL), b"a" * 70_000]


def error_of(code, place):
    return message(b"E", b"SERROR\0CXX000\0Mcode %d place %d\0\0" % (code, place))


def start_at(stream, at):
    """The code and the end of the message that a connection begins with; None where it is none, or is cut."""
    if len(stream) < at + 8:
        return None
    size, code = struct.unpack_from(">II", stream, at)
    if code == CANCEL or size == 8 and code in (ENCRYPT, ENCRYPT_BY_GSS):
        return code, at + 8
    return (code, at + size) if code == PROTOCOL and 8 <= size <= min(10_000, len(stream) - at) else None


def message_at(stream, at):
    """The type, the body and the end of the message at an offset; None where it is none, or is cut."""
    if len(stream) < at + 5:
        return None
    kind, size = stream[at:at + 1], struct.unpack_from(">I", stream, at + 1)[0]
    body = stream[at + 5:at + 1 + size]
    if kind not in (b"Q", b"X", b"H", b"S", b"P", b"B", b"D", b"E", b"C") or not 4 <= size <= 65_541 or len(body) < size - 4:
        return None
    return None if kind == b"Q" and body[-1:] != b"\0" or kind == b"Q" and b"\0" in body[:-1] else (kind, body, at + 1 + size)


def answers_to(stream, answer):
    """What is answered to a stream, where `answer` tells what a query is answered, and its last answer's name."""
    at, found, has_started, skips, name = 0, [], False, False, "nothing"
    while at < len(stream):
        if not has_started:
            begun = start_at(stream, at)
            if not begun:
                return b"".join(found) + error_of(1, at), "code 1"
            if begun[0] == CANCEL:
                return b"".join(found), "cancel"
            has_started, names = begun[0] == PROTOCOL, begun[1] - at > 9
            at = begun[1]
            found.append(ACCEPTED + (SETTINGS if names else b"") + READY if has_started else NO_ENCRYPTION)
            continue
        whole = message_at(stream, at)
        if not whole:
            return b"".join(found) + error_of(1, at), "code 1"
        kind, body, at = whole
        if kind == b"X":
            return b"".join(found), "end"
        if kind == b"S":
            skips, name = False, "sync"
            found.append(READY)
        elif kind != b"H" and not skips:
            skips, name = kind != b"Q", "query" if kind == b"Q" else "code 80"
            found.append(error_of(80, 0) if skips else EMPTY + READY if not body[:-1].strip(b" \t\r\n") else answer(body[:-1]))
    return b"".join(found), name


def messages_by_chance(rng):
    """A start, and messages behind it."""
    kinds = [lambda: message(b"Q", rng.choice(PG_TEXTS) + b"\0")] * 4 + [lambda: message(rng.choice((b"P", b"B", b"D", b"E", b"C", b"H", b"S")), rng.randbytes(rng.randrange(3)))]
    stream = (START if rng.random() < 0.8 else rng.choice(PG_STARTS)) + b"".join(rng.choice(kinds)() for _ in range(rng.randrange(5)))
    stream += message(b"X") if rng.random() < 0.3 else b""
    stream = mutated(rng, stream, PG_PIECES) if rng.random() < 0.8 else stream
    return stream[:rng.randrange(len(stream) + 1)] if rng.random() < 0.2 else stream


class Alone:
    """What each text is answered that is asked alone, over tables that stay as they are."""

    def __init__(self, server):
        self.asked, self.client = {}, connected(server.port, kind=Pg)

    def answer(self, text):
        if text not in self.asked:
            refusal = plain_sql.refused(text)
            self.client.send(message(b"Q", text + b"\0"))
            answer = b"".join(message(kind, body) for kind, body in self.client.answer())
            if refusal and answer != error_of(*refusal) + READY:
                raise Wrong(f"{answer[:200]!r} where {refusal} was wanted, for the text {text[:200]!r}")
            self.asked[text] = answer
        return self.asked[text]


def pg(program, rng, found, until, place):
    """Streams of messages, each on a connection of its own, some at once."""
    while time.monotonic() < until:
        with Serving(program, place, found, "pg") as server:
            alone = Alone(server)
            for text in (b"CREATE TABLE t (v LONG, ts TIMESTAMP) TIMESTAMP(ts)", b"INSERT INTO t (v, ts) VALUES (1, '2024-01-01T00:00:00'), (2, '2024-01-02T00:00:00')",
                         b"CREATE TABLE u (k SYMBOL, ts TIMESTAMP) TIMESTAMP(ts)"):
                alone.answer(text)
            for _ in turns(until):
                streams = [messages_by_chance(rng) for _ in range(CONNECTIONS)]
                began = time.monotonic()
                wanted = [answers_to(stream, alone.answer) for stream in streams]
                for stream, (answer, name), output in zip(streams, wanted, exchange(server, *streams)):
                    if output != answer:
                        raise Wrong(f"{output[-300:]!r} where {answer[-300:]!r} was wanted, for the stream {stream[:2000]!r}")
                    found.add(name)
                found.waited(time.monotonic() - began)
                if time.monotonic() - began > LONG and (took := max(busy_with(server, stream) for stream in streams)) > LONG:
                    raise Wrong(f"{took:.1f} seconds for one of {streams!r}")


# -- stored files

STORE = [*(query(text) for text in TABLES), b"A\n",
         batch(b"t,k=z v=5i,n=1i 1703980800000000000\nt,k=a s=\"late\" 1704067200500000000\nnew,a=b c=t 0\n"), b"A\n",
         batch(b"t v=6i 1704067201000000000\nother x=1i 5\n"), query("ALTER TABLE t DEDUP ENABLE UPSERT KEYS(ts, k)"),
         query("INSERT INTO u (ts, k, x) VALUES ('2024-01-01T00:00:02', 'b', 9)"), query("ALTER TABLE u ADD COLUMN y SYMBOL")]
ASKS = [query(text) for text in ("t", "u", "SELECT count(), sum(v), min(w), max(w) FROM t", "new", "SHOW PARTITIONS FROM t",
                                 "t LATEST ON ts PARTITION BY k")]
USE = [*ASKS, b"A\n", *ASKS, query("other"), query("ALTER TABLE u DEDUP DISABLE"), batch(b"t v=8i 1704067199000000000\nu2 y=1i 1\n"), b"A\n", *ASKS, query("u2")]
VALUES_OF_BYTE = [lambda b: b ^ 1, lambda b: b ^ 128, lambda b: 0, lambda b: 255, lambda b: (b + 1) % 256]


def files_of(folder):
    found = {}
    for entry in os.scandir(folder):
        with open(entry.path, "rb") as file:
            found[entry.name] = file.read()
    return found


def changes_of(files):
    """Each way to change a file of a store: its name, and what it has then."""
    for name, content in files.items():
        for at, byte in enumerate(content):
            for value in sorted({change(byte) for change in VALUES_OF_BYTE} - {byte}):
                yield name, ("byte", at, value)
        for length in [*range(len(content)), len(content) + 1, len(content) + 1_000]:
            yield name, ("length", length, 0)


def changed_file(content, change):
    kind, at, value = change
    if kind == "byte":
        return content[:at] + bytes([value]) + content[at + 1:]
    return content[:at] + bytes(max(at - len(content), 0))


def opened(program, folder, given):
    """What `run` writes over a folder with so much memory and no more, its status, the line on standard error, and the seconds that it took
    of a processor."""
    process = subprocess.Popen([program, "run", "--dir", folder], stdin=subprocess.PIPE, stdout=subprocess.PIPE, stderr=subprocess.PIPE)
    resource.prlimit(process.pid, resource.RLIMIT_AS, (MOST << 20, MOST << 20))
    watch = threading.Timer(GIVEN_UP, process.kill)
    watch.start()
    with contextlib.suppress(BrokenPipeError), process.stdin:
        process.stdin.write(given)
    output, told = process.stdout.read(), process.stderr.read()
    _, status, usage = os.wait4(process.pid, 0)
    watch.cancel()
    process.stdout.close()
    process.stderr.close()
    process.returncode = os.waitstatus_to_exitcode(status)
    return output, process.returncode, told, usage.ru_utime + usage.ru_stime


def fault_of_opening(output, status, told, files, requests):
    """What is wrong with a run over a changed store, or None."""
    if status not in (0, 5, 6) or (told.count(b"\n") != (status != 0)):
        return f"status {status}, {told[:100]!r}"
    if status == 5:
        return None if output == b"" else f"{output[:60]!r} at status 5"
    if status == 6:
        damage = re.fullmatch(rb"D (\d+) (\d+)\n", output)
        content = files.get(f"{int(damage[1]):016x}", b"") if damage else None
        return None if damage and int(damage[2]) <= len(content) else f"{output[:60]!r} at status 6"
    replies = cut_replies(output, [])
    kinds = {b"Q": rb"[RF] \d+ .*|D \d+ \d+|[KE] .*", b"W": rb"K \d+|E 52 0|E 1\d \d+|D \d+ \d+", b"A": rb"A \d+|D \d+ \d+|E 52 0", b"X": rb"X"}
    if len(replies) != len(requests):
        return f"{len(replies)} replies to {len(requests)} requests"
    return next((f"{reply!r} to {asked[:60]!r}" for asked, reply in zip(requests, replies) if not re.fullmatch(kinds[asked[:1]], reply)), None)


def try_file(program, place, files, name, change):
    """How a run over a store of which a file is changed ended, the seconds that it took, and what is wrong with it, or None."""
    now = {**files, name: changed_file(files[name], change)}
    folder = tempfile.mkdtemp(dir=place)
    for each, content in now.items():
        with open(os.path.join(folder, each), "wb") as file:
            file.write(content)
    output, status, told, took = opened(program, folder, b"".join(USE) + b"X\n")
    fault = fault_of_opening(output, status, told, now, [*USE, b"X\n"])
    if status in (5, 6) and files_of(folder) != now:
        fault = fault or f"status {status}, and the files are others"
    again = opened(program, folder, b"A\nX\n")
    fault = fault or fault_of_opening(*again[:3], files_of(folder), [b"A\n", b"X\n"])
    acknowledged = max(map(int, re.findall(rb"^K (\d+)$", output, re.M)), default=0)
    applied = re.match(rb"A (\d+)\n", again[0])
    if applied and int(applied[1]) < acknowledged:
        fault = fault or f"{acknowledged} are acknowledged, and {applied[1].decode()} are there"
    if took > LONG:
        fault = fault or f"{took:.1f} seconds"
    if fault:
        return "", took, f"{fault}, for file {name} of {len(files[name])} bytes with {change} (what it left is in {folder})"
    shutil.rmtree(folder)
    return f"status {status}" + (" with D" if status == 0 and re.search(rb"^D \d+ \d+$", output, re.M) else ""), took, None


def files(program, rng, found, until, place):
    """A store of which one file is changed, again and again."""
    made = os.path.join(place, "made")
    output, status, _, _ = opened(program, made, b"".join(STORE) + b"X\n")
    if status != 0 or b"E " in output:
        raise Wrong(f"the store isn't made: {output[:200]!r}")
    whole = files_of(made)
    changes = list(changes_of(whole))
    rng.shuffle(changes)
    with concurrent.futures.ThreadPoolExecutor(RUNS) as pool:
        for first in range(0, len(changes), RUNS):
            if time.monotonic() > until:
                break
            for kind, took, fault in pool.map(lambda each: try_file(program, place, whole, *each), changes[first:first + RUNS]):
                if fault:
                    raise Wrong(fault)
                found.add(kind)
                found.waited(took)
    print(f"files: {found.inputs:,} of {len(changes):,} changes of {len(whole)} files, {sum(map(len, whole.values())):,} bytes")


FORMS = [lines, sql, frames, http, pg, files]


def main():
    parser = argparse.ArgumentParser(description=__doc__, formatter_class=argparse.RawDescriptionHelpFormatter)
    parser.add_argument("--seconds", type=int, default=60)
    parser.add_argument("--seed", type=int, default=random.SystemRandom().randrange(1 << 32))
    parser.add_argument("--only", default="")
    parser.add_argument("--folder", default=tempfile.gettempdir())
    options = parsed(parser)
    print(f"seed {options.seed}", flush=True)
    forms = [form for form in FORMS if options.only in form.__name__]
    good = True
    for form in forms:
        found, place = Found(), tempfile.mkdtemp(dir=options.folder)
        fault = None
        try:
            form(options.program, random.Random(f"{options.seed} {form.__name__}"), found, time.monotonic() + options.seconds / len(forms), place)
        except Wrong as wrong:
            fault = wrong
        print(f"{form.__name__}: {found}" + (f"\n  WRONG: {fault}" if fault else ""), flush=True)
        good &= not fault
        if not fault:
            shutil.rmtree(place)
    return 0 if good else 1


if __name__ == "__main__":
    sys.exit(main())

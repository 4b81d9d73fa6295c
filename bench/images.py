#!/usr/bin/env python3
"""Opens what a stop of the machine may leave of a folder: replays the writes and syncs of sessions, cut at a call, with only some of what
wasn't synced.

Each recording is a session of `tsdb run --dir FOLDER` under `strace`, which writes down each call that makes, writes, cuts, syncs or
removes a file, with its bytes, and each reply. The session commits BATCHES batches (those of `crash.py`: late rows, several tables, new
columns), with applies and queries among them; in every second recording it begins over an image of the one before, so that what an
opening repairs is cut as well.

An image is cut right before or behind a call that is drawn, each call in turn. It has what was synced until then, and of each write since
then what one of these ways leaves, drawn for each image: nothing; all; those up to one of them in each file; any of them; any of their
sectors of 512 bytes; or of each sector what stood there, what was written, or other bytes. A file that got longer may have its length
without its bytes. A file that was made or removed since the last sync of the folder is there or not.

`run --dir` opens each image, asks, applies, asks again, commits a batch, applies and asks. It has to have each batch that was
acknowledged before the cut, at most one more, no fewer applied ones than a reply had told of, and just the rows of these batches.

It prints how many images were cut at which calls, and in how many one more was there; it ends with 1 where one was wrong, and keeps it.

usage: images.py [--images N] [--each N] [--batches N] [--seed N] [--folder PATH] [--program PATH]
--each is how many images come of one recording. --folder is a folder on a file system with little to wait for, as /dev/shm. It needs
`strace`. Build the program first: run `rt run -- run < stdin` in crates/tsdb.
"""
import argparse
import collections
import os
import random
import re
import shutil
import subprocess
import sys
import tempfile

from crash import TABLES, Asked, Replies, Story
from program import parsed, query

SECTOR = 512
CALLS = "openat,pwrite64,ftruncate,fdatasync,fsync,unlink,write"
SECONDS = 60
WAYS = ("nothing", "all", "up to one", "any", "any sectors", "other bytes")
ASKS = b"".join(query(table) for table in TABLES)


# -- what a session does to a folder


class Event:
    """A call: what it does, the name of the file, where it has one, and what else belongs to it."""

    def __init__(self, kind, name=None, at=0, data=b""):
        self.kind, self.name, self.at, self.data = kind, name, at, data


def unhexed(text):
    """The bytes of a string of strace, each of which is written as \\x and two digits."""
    return bytes.fromhex(text.replace("\\x", ""))


def names_in(line):
    """The paths and strings of a line, in order."""
    return [unhexed(found) if found.startswith("\\x") else found.encode() for found in re.findall(r'<((?:\\x[0-9a-f]{2})+|/[^>]*)>', line)]


def strings_in(line):
    return [unhexed(found) for found in re.findall(r'"((?:\\x[0-9a-f]{2})*)"', line)]


def event_of(line, folder):
    """What a line of strace says of a folder, or None."""
    call = re.match(r"(\d+ +)?([a-z0-9]+)\((.*)\) += (-?\d+)", line)
    if not call or int(call[4]) < 0:
        return None
    name, words, answer = call[2], call[3], int(call[4])
    if name == "write":
        return Event("reply", data=strings_in(words)[0][:answer]) if words.startswith("1<") or words.startswith("1,") else None
    paths = strings_in(words)[:1] if name in ("openat", "unlink") else names_in(words)[:1]
    path = paths[0].decode(errors="replace") if paths else ""
    if path == folder:
        return Event("sync folder") if name == "fsync" else None
    if os.path.dirname(path) != folder:
        return None
    file = os.path.basename(path)
    if name == "openat":
        return Event("open", file) if "O_CREAT" in words else None
    if name == "unlink":
        return Event("remove", file)
    if name == "pwrite64":
        return Event("write", file, int(words.rsplit(",", 1)[1]), strings_in(words)[0][:answer])
    if name == "ftruncate":
        return Event("cut", file, int(words.rsplit(",", 1)[1]))
    return Event("sync", file)


def recorded(program, place, start, given):
    """The events of a session over a folder of these files, and what it wrote."""
    folder, log = os.path.join(place, "recorded"), os.path.join(place, "log")
    put(folder, start)
    done = subprocess.run(["strace", "-f", "-qq", "-y", "-xx", "-s", "16777216", "-e", f"trace={CALLS}", "-e", "signal=none", "-o", log, program,
                           "run", "--dir", folder], input=given, stdout=subprocess.PIPE, timeout=SECONDS)
    with open(log) as lines:
        texts = lines.read().splitlines()
    if done.returncode != 0 or any("unfinished" in text for text in texts):
        raise ValueError(f"the session ended with status {done.returncode}, or its calls overlap")
    shutil.rmtree(folder)
    return [event for event in (event_of(text, folder) for text in texts) if event], done.stdout


def put(folder, files):
    """Makes a folder of files."""
    os.mkdir(folder)
    for name, content in files.items():
        with open(os.path.join(folder, name), "wb") as file:
            file.write(content)


# -- what of it a stop leaves


class File:
    """A file: what was synced, and what was done since."""

    def __init__(self, synced=b""):
        self.synced, self.since = synced, []

    def sync(self):
        self.synced = self.left("all", None)
        self.since = []

    def left(self, way, rng):
        """What a stop leaves of it."""
        kept = {"nothing": 0, "up to one": rng and rng.randint(0, len(self.since))}.get(way, len(self.since))
        content = bytearray(self.synced)
        for event in self.since[:kept]:
            if way == "any" and rng.random() < 0.5:
                continue
            if event.kind == "cut":
                if way in ("all", "up to one", "any") or rng.random() < 0.5:
                    del content[event.at:]
                    content.extend(bytes(event.at - len(content)))
            else:
                self.write(content, event, way, rng)
        return bytes(content)

    @staticmethod
    def write(content, event, way, rng):
        """Writes what comes of a write, sector by sector."""
        at, end = event.at, event.at + len(event.data)
        whole = way in ("all", "up to one", "any")
        if len(content) < end and (whole or rng.random() < 0.5):
            content.extend(bytes(end - len(content)))
        while at < end:
            stop = min(end, (at // SECTOR + 1) * SECTOR)
            piece = event.data[at - event.at:stop - event.at]
            which = 0 if whole else rng.randrange(2 if way == "any sectors" else 3)
            if which != 1:
                content.extend(bytes(max(stop - len(content), 0)))
                content[at:stop] = piece if which == 0 else rng.randbytes(len(piece))
            at = stop


class Disk:
    """A folder: the files by their names as they were synced, and the names that were made or removed since."""

    def __init__(self, files):
        self.synced = {name: File(content) for name, content in files.items()}
        self.now, self.since = dict(self.synced), []

    def take(self, event):
        """Does what an event does."""
        if event.kind == "open":
            if event.name not in self.now:
                self.now[event.name] = File()
                self.since.append((event.name, self.now[event.name]))
        elif event.kind == "remove":
            del self.now[event.name]
            self.since.append((event.name, None))
        elif event.kind == "sync folder":
            self.synced, self.since = dict(self.now), []
        elif event.kind == "sync":
            self.now[event.name].sync()
        elif event.kind != "reply":
            self.now[event.name].since.append(event)

    def image(self, way, rng):
        """What a stop leaves. Of the names of one file those up to one of its changes are there."""
        names, ended = dict(self.synced), set()
        for name, file in self.since:
            if name in ended or way == "nothing" or way != "all" and rng.random() < 0.5:
                ended.add(name)
            elif file is None:
                names.pop(name, None)
            else:
                names[name] = file
        return {name: file.left(way, rng) for name, file in names.items()}


# -- whether an image is whole


def told(output, asked, there):
    """How many batches are acknowledged in what was written until a stop, and how many are applied as it says."""
    acknowledged, applied, fault = asked.look(output, there)
    if fault:
        raise ValueError(f"the session that is recorded: {fault}")
    return acknowledged, applied


def fault_of(program, folder, story, acknowledged, applied):
    """How many batches an image has, and what is wrong with it, or None."""
    frames = [ASKS, b"A\n", ASKS, story.frame(acknowledged + 1), story.frame(acknowledged + 2), b"A\n", ASKS, b"X\n"]
    try:
        done = subprocess.run([program, "run", "--dir", folder], input=b"".join(frames), capture_output=True, timeout=SECONDS)
    except subprocess.TimeoutExpired:
        return 0, f"no end in {SECONDS} seconds"
    replies = Replies(done.stdout)
    found = [replies.next() for _ in range(3 * len(TABLES) + 5)]
    if done.returncode != 0 or found[-1] != b"X\n":
        return 0, f"status {done.returncode}, {done.stdout[:100]!r}"
    before, word, after, rest = found[:len(TABLES)], found[len(TABLES)], found[len(TABLES) + 1:2 * len(TABLES) + 1], found[2 * len(TABLES) + 1:]
    there = next((n for n in (acknowledged, acknowledged + 1) if word == b"A %d\n" % n), None)
    if there is None:
        return 0, f"{acknowledged} are acknowledged, and the answer is {word!r}"
    shows = int(before[0].split()[1])
    if not applied <= shows <= there:
        return there, f"{applied} of {there} are applied, and {shows} are shown"
    again = Story(story.seed)
    again.batches = [story.rows_of(n) for n in range(1, there + 1)] + [story.rows_of(n) for n in (acknowledged + 1, acknowledged + 2)]
    wanted = [story.answer(table, shows) for table in TABLES] + [b"A %d\n" % there] + [story.answer(table, there) for table in TABLES]
    wanted += [b"K %d\n" % (there + n) for n in (1, 2)] + [b"A %d\n" % (there + 2)] + [again.answer(table, there + 2) for table in TABLES] + [b"X\n"]
    for reply, want in zip(found, wanted):
        if reply != want:
            return there, f"{reply[:100]!r} where {want[:100]!r} was wanted"
    return there, None


class Count:
    """What was done."""

    def __init__(self):
        self.images = self.recordings = self.events = self.more = 0
        self.cuts, self.ways = collections.Counter(), collections.Counter()

    def __str__(self):
        cuts = ", ".join(f"{kind} {self.cuts[kind]:,}" for kind in sorted(self.cuts))
        ways = ", ".join(f"{way} {self.ways[way]:,}" for way in WAYS)
        return (f"{self.images:,} images of {self.recordings} recordings of {self.events:,} calls; one more was there in {self.more:,}\n"
                f"cut before: {cuts}\nof what wasn't synced was left: {ways}")


def cut_at(events, cut, start, way, rng):
    """The files of an image that is cut in front of an event, and what was written on standard output until then."""
    disk, output = Disk(start), b""
    for event in events[:cut]:
        disk.take(event)
        output += event.data if event.kind == "reply" else b""
    return disk.image(way, rng), output


def images_of(program, place, recording, count, each, rng):
    """Opens so many images of a recording. Gives the files of the last one and how many batches it has, and what is wrong, or None."""
    story, asked, start, there, events = recording
    last = start, there
    first = rng.randrange(len(events) + 1)
    for number in range(each):
        cut, way = (first + number * max(len(events) // each, 1)) % (len(events) + 1), rng.choice(WAYS)
        files, output = cut_at(events, cut, start, way, rng)
        acknowledged, applied = told(output, asked, there)
        folder = os.path.join(place, f"{count.recordings} {cut} {way}")
        put(folder, files)
        found, fault = fault_of(program, folder, story, acknowledged, applied)
        count.images += 1
        count.more += found > acknowledged
        count.cuts[events[cut].kind if cut < len(events) else "the end"] += 1
        count.ways[way] += 1
        if fault:
            shutil.rmtree(folder)
            put(folder, files)
            return last, f"{folder}: {fault}"
        shutil.rmtree(folder)
        last = files, found
    return last, None


def record_again_and_again(program, place, options, count):
    """Makes recordings and images of them, and gives what is wrong, or None."""
    rng = random.Random(options.seed)
    story, start, there = None, {}, 0
    while count.images < options.images:
        if count.recordings % 2 == 0:
            story, start, there = Story(f"{options.seed} {count.recordings}"), {}, 0
        asked = Asked(story, there, options.batches, rng, True)
        events, output = recorded(program, place, start, asked.input())
        told(output, asked, there)
        count.recordings += 1
        count.events += len(events)
        recording = story, asked, start, there, events
        (start, there), fault = images_of(program, place, recording, count, min(options.each, options.images - count.images), rng)
        if fault:
            return fault
    return None


def main():
    parser = argparse.ArgumentParser(description=__doc__, formatter_class=argparse.RawDescriptionHelpFormatter)
    parser.add_argument("--images", type=int, default=400)
    parser.add_argument("--each", type=int, default=100)
    parser.add_argument("--batches", type=int, default=12)
    parser.add_argument("--seed", type=int, default=random.SystemRandom().randrange(1 << 32))
    parser.add_argument("--folder", default=tempfile.gettempdir())
    options = parsed(parser)
    if not shutil.which("strace"):
        sys.exit("images.py: no strace here")
    place = tempfile.mkdtemp(dir=options.folder)
    count = Count()
    print(f"seed {options.seed}", flush=True)
    fault = record_again_and_again(options.program, place, options, count)
    print(count)
    if fault:
        print(f"WRONG: {fault}")
        return 1
    shutil.rmtree(place)
    return 0


if __name__ == "__main__":
    sys.exit(main())

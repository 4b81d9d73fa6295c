#!/usr/bin/env python3
"""Compares `append` of the sequencer log over a FolderVolume with a C loop of the same writes and syncs on the same file system.

It makes a repository in a temporary folder with copies of the crates below qd_seq and a program over them, which is proved and
built like any other: that takes some minutes. Each round begins a new log and appends so many records to it, each by a write of
25 bytes, a sync, a write of one byte and a sync; the C loop calls pwrite and fdatasync. The C loop runs before the program and
after it, and the best round of each counts. It prints appends a second for both, and their quotient.

With --made the repository is made there and stays; where its program is built already, it is run as it is.

usage: append.py [--folder PATH] [--calls N] [--rounds N] [--made PATH]
--folder is a folder on the file system to measure; the files are made in one below it and removed. It needs `rt` and `cc`.
"""
import argparse
import os
import shutil
import subprocess
import sys
import tempfile

TOP = os.path.dirname(os.path.dirname(os.path.abspath(__file__)))
COPIED = ["qd_base", "qd_io", "qd_volume", "qd_durable", "qd_seq"]

PROGRAM = r'''//! Times appends to a log over a folder.
#![tactic(auto)]

use qd_base::WalRef;
use qd_io::IoFault;
use qd_seq::{LOG, MAX_RECORDS, MAX_SEGMENTS, SeqLog};
use qd_volume::{FolderVolume, Volume};
use std::alloc::Global;
use std::env;
use std::io::{Error, ErrorKind};
use std::time::Instant;

fn error_of(_fault: IoFault) -> Error {
    Error::from(ErrorKind::Other)
}

/// A new log.
fn made<V: Volume>(alloc: Global, volume: &mut V) -> Result<SeqLog, IoFault> {
    volume.remove(LOG)?;
    SeqLog::create(alloc, volume)
}

/// Appends as a store does: what a failed append left is repaired first, and memory is taken.
fn commit<V: Volume>(log: &mut SeqLog, volume: &mut V, at: WalRef) -> Result<u64, IoFault> {
    log.repair(volume)?;
    log.reserve()?;
    let n = log.refs().len();
    if n < MAX_RECORDS && at.wal as usize <= n && at.segment < MAX_SEGMENTS {
        return log.append(volume, at);
    }
    Ok(0)
}

/// Appends so many records.
fn append_all<V: Volume>(log: &mut SeqLog, volume: &mut V, calls: u64) -> Result<(), IoFault> {
    for n in 0..calls {
        let at = WalRef {
            wal: 0,
            segment: 0,
            start: n,
            len: 59,
        };
        let _count = commit(log, volume, at)?;
    }
    Ok(())
}

fn main(rt: HostRuntime) -> std::io::Result<()> {
    let mut words = env::args(&rt)?;
    let _program = words.next();
    let (Some(folder), Some(calls), Some(rounds)) = (words.next(), words.next(), words.next()) else {
        return Err(Error::from(ErrorKind::InvalidInput));
    };
    let calls = calls.as_str().parse::<u64>().unwrap_or(0);
    let rounds = rounds.as_str().parse::<u64>().unwrap_or(0);
    let mut volume = FolderVolume::open(rt, rt.alloc(), folder.as_str().as_bytes()).map_err(error_of)?;
    for _round in 0..rounds {
        let mut log = made(rt.alloc(), &mut volume).map_err(error_of)?;
        let start = Instant::now(&rt)?;
        append_all(&mut log, &mut volume, calls).map_err(error_of)?;
        let nanos = start.elapsed(&rt)?.as_nanos();
        let count = log.refs().len();
        println!(rt; "{count} {nanos}")?;
    }
    Ok(())
}
'''

C_LOOP = r'''
#define _GNU_SOURCE
#include <fcntl.h>
#include <stdio.h>
#include <stdlib.h>
#include <time.h>
#include <unistd.h>

static int put(int fd, const void *bytes, size_t size, off_t at) {
    return pwrite(fd, bytes, size, at) != (ssize_t) size || fdatasync(fd) != 0;
}

int main(int argc, char **argv) {
    static char body[25];
    if (argc != 4 || chdir(argv[1]) != 0) return 1;
    long calls = atol(argv[2]), rounds = atol(argv[3]);
    for (long round = 0; round < rounds; round++) {
        struct timespec from, to;
        unlink("log");
        int fd = open("log", O_RDWR | O_CREAT, 0666);
        if (put(fd, "TSDBSEQ1", 9, 0) != 0) return 2;
        clock_gettime(CLOCK_MONOTONIC, &from);
        for (long n = 0; n < calls; n++)
            if (put(fd, body, 25, 9 + 25 * n) != 0 || put(fd, "\1", 1, 8 + 25 * n) != 0) return 2;
        clock_gettime(CLOCK_MONOTONIC, &to);
        printf("%ld %lld\n", calls, (to.tv_sec - from.tv_sec) * 1000000000LL + (to.tv_nsec - from.tv_nsec));
        close(fd);
    }
    return 0;
}
'''


def best(command, given):
    """The least nanoseconds of a round, of one run in a new folder."""
    with tempfile.TemporaryDirectory(dir=given.folder) as files:
        done = subprocess.run([command, files, str(given.calls), str(given.rounds)], capture_output=True, text=True)
    found = [line.split() for line in done.stdout.splitlines()]
    if len(found) != given.rounds or any(count != str(given.calls) for count, _ in found):
        sys.exit(f"{command}: {done.stdout}{done.stderr}")
    return min(int(nanos) for _, nanos in found)


def build(top):
    """A program over copies of the crates, and the C loop: two commands, each to be followed by a folder and two numbers."""
    probe = f"{top}/crates/append_bench"
    if not os.path.exists(f"{probe}/out/append_bench"):
        for name in COPIED:
            shutil.copytree(os.path.join(TOP, "crates", name), f"{top}/crates/{name}", ignore=shutil.ignore_patterns("out", "must-fail"))
        os.makedirs(f"{probe}/src")
        with open(f"{probe}/src/main.rt", "w", encoding="utf-8") as file:
            file.write(PROGRAM)
        with open(os.path.join(TOP, "crates.txt"), encoding="utf-8") as file:
            kept = [line for line in file if line.split(":")[0] in COPIED]
        with open(f"{top}/crates.txt", "w", encoding="utf-8") as file:
            file.writelines(kept + ["append_bench: " + " ".join(COPIED) + "\n"])
        built = subprocess.run(["rt", "run"], cwd=probe, capture_output=True, text=True)
        if not os.path.exists(f"{probe}/out/append_bench"):
            sys.exit(built.stdout[-4000:] + built.stderr[-4000:])
    with open(f"{top}/loop.c", "w", encoding="utf-8") as file:
        file.write(C_LOOP)
    subprocess.run(["cc", "-O2", "-o", f"{top}/loop", f"{top}/loop.c"], check=True)
    return f"{probe}/out/append_bench", f"{top}/loop"


def timed(top, given):
    """Builds both, runs them, and prints what was measured."""
    ours, theirs = build(top)
    before = best(theirs, given)
    log = best(ours, given)
    after = best(theirs, given)
    rates = [given.calls * 10**9 / nanos for nanos in (log, min(before, after))]
    print(f"append: log {rates[0]:,.0f} a second, C {rates[1]:,.0f}, quotient {rates[0] / rates[1]:.2f}")


def main():
    words = argparse.ArgumentParser(description=__doc__, formatter_class=argparse.RawDescriptionHelpFormatter)
    words.add_argument("--folder", default="/tmp")
    words.add_argument("--calls", type=int, default=2000)
    words.add_argument("--rounds", type=int, default=5)
    words.add_argument("--made")
    given = words.parse_args()
    if given.made:
        timed(os.path.abspath(given.made), given)
        return
    with tempfile.TemporaryDirectory() as top:
        timed(top, given)


if __name__ == "__main__":
    main()

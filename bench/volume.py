#!/usr/bin/env python3
"""Compares FolderVolume with a C loop on the same file system: 4 KiB writes, each followed by a sync, and 4 KiB reads.

It makes a repository in a temporary folder with copies of qd_io and qd_volume and a program that makes the calls, which is
proved and built like any other: that takes some minutes. The C loop calls pwrite and fdatasync, or pread. Each round writes
at the end of a new file that grows (append), then over the same MiB (over), and reads that (read). The C loop runs before
the program and after it, and the best round of each counts. It prints calls a second for both, and their quotient.

usage: volume.py [--folder PATH] [--calls N] [--rounds N]
--folder is a folder on the file system to measure; the files are made in one below it and removed. It needs `rt` and `cc`.
"""
import argparse
import os
import re
import shutil
import subprocess
import sys
import tempfile

TOP = os.path.dirname(os.path.dirname(os.path.abspath(__file__)))
KINDS = ["append", "over", "read"]

PROGRAM = r'''//! Times calls of a volume over a folder.
#![tactic(auto)]

use qd_io::IoFault;
use qd_volume::{FolderVolume, Volume};
use std::env;
use std::io::{Error, ErrorKind};
use std::time::Instant;

fn error_of(_fault: IoFault) -> Error {
    Error::from(ErrorKind::Other)
}

fn one_call<V: Volume>(volume: &mut V, kind: &str, file: u64, i: u64, block: &mut [u8]) -> Result<(), IoFault> {
    match kind {
        "append" => {
            volume.write_at(file, i.wrapping_mul(4096), block)?;
            volume.sync(file)
        }
        "over" => {
            volume.write_at(0, i % 256 * 4096, block)?;
            volume.sync(0)
        }
        _ => {
            let _n = volume.read(0, i % 256 * 4096, block)?;
            Ok(())
        }
    }
}

fn main(rt: HostRuntime) -> std::io::Result<()> {
    let mut words = env::args(&rt)?;
    let _program = words.next();
    let (Some(folder), Some(calls), Some(rounds)) = (words.next(), words.next(), words.next()) else {
        return Err(Error::from(ErrorKind::InvalidInput));
    };
    let calls = calls.as_str().parse::<u64>().unwrap_or(0);
    let rounds = rounds.as_str().parse::<u64>().unwrap_or(0);
    let mut volume = FolderVolume::open(rt, rt.alloc(), folder.as_str().as_bytes()).map_err(error_of)?;
    let mut block = [120; 4096];
    for round in 1..=rounds {
        for (kind, many) in [("append", calls), ("over", calls), ("read", calls.wrapping_mul(100))] {
            let start = Instant::now(&rt)?;
            for i in 0..many {
                one_call(&mut volume, kind, round, i, &mut block).map_err(error_of)?;
            }
            let nanos = start.elapsed(&rt)?.as_nanos();
            println!(rt; "{kind} {nanos}")?;
        }
    }
    Ok(())
}
'''

C_LOOP = r'''
#define _GNU_SOURCE
#include <fcntl.h>
#include <stdio.h>
#include <stdlib.h>
#include <string.h>
#include <time.h>
#include <unistd.h>

static char block[4096];

static int one_call(int fd, char kind, long i) {
    off_t at = (kind == 'a' ? i : i % 256) * 4096;
    if (kind == 'r') return pread(fd, block, sizeof block, at) != sizeof block;
    return pwrite(fd, block, sizeof block, at) != sizeof block || fdatasync(fd) != 0;
}

int main(int argc, char **argv) {
    const char *kinds[] = {"append", "over", "read"};
    if (argc != 4 || chdir(argv[1]) != 0) return 1;
    long calls = atol(argv[2]), rounds = atol(argv[3]);
    int over = open("over", O_RDWR | O_CREAT, 0666);
    memset(block, 'x', sizeof block);
    for (long round = 1; round <= rounds; round++) {
        char name[32];
        snprintf(name, sizeof name, "%ld", round);
        int append = open(name, O_RDWR | O_CREAT, 0666);
        for (int k = 0; k < 3; k++) {
            struct timespec from, to;
            long many = k == 2 ? calls * 100 : calls;
            clock_gettime(CLOCK_MONOTONIC, &from);
            for (long i = 0; i < many; i++) if (one_call(k == 0 ? append : over, kinds[k][0], i) != 0) return 2;
            clock_gettime(CLOCK_MONOTONIC, &to);
            printf("%s %lld\n", kinds[k], (to.tv_sec - from.tv_sec) * 1000000000LL + (to.tv_nsec - from.tv_nsec));
        }
        close(append);
    }
    return 0;
}
'''


def best(command, folder, place, given):
    """The least nanoseconds of each kind, of one run in a new folder."""
    with tempfile.TemporaryDirectory(dir=place) as files:
        done = subprocess.run([*command, files, str(given.calls), str(given.rounds)], cwd=folder, capture_output=True, text=True)
    found = {kind: [int(n) for n in re.findall(rf"^{kind} (\d+)$", done.stdout, re.M)] for kind in KINDS}
    if not all(found.values()):
        sys.exit(f"{' '.join(command)}: {done.stdout}{done.stderr}")
    return {kind: min(times) for kind, times in found.items()}


def build(top):
    """A program over copies of the crates, and the C loop: two commands, each to be followed by a folder and two numbers."""
    for name in ["qd_io", "qd_volume"]:
        shutil.copytree(os.path.join(TOP, "crates", name), f"{top}/crates/{name}", ignore=shutil.ignore_patterns("out", "must-fail"))
    os.makedirs(f"{top}/crates/probe/src")
    with open(f"{top}/crates/probe/src/main.rt", "w", encoding="utf-8") as file:
        file.write(PROGRAM)
    with open(os.path.join(TOP, "crates.txt"), encoding="utf-8") as file:
        lines = [line for line in file if line.startswith(("qd_io:", "qd_volume:"))]
    with open(f"{top}/crates.txt", "w", encoding="utf-8") as file:
        file.write("".join(lines) + "probe: qd_io qd_volume\n")
    with open(f"{top}/loop.c", "w", encoding="utf-8") as file:
        file.write(C_LOOP)
    subprocess.run(["cc", "-O2", "-o", f"{top}/loop", f"{top}/loop.c"], check=True)
    probe = f"{top}/crates/probe"
    built = subprocess.run(["rt", "run"], cwd=probe, capture_output=True, text=True)
    if not os.path.exists(f"{probe}/out/probe"):
        sys.exit(built.stdout[-4000:] + built.stderr[-4000:])
    return [f"{probe}/out/probe"], [f"{top}/loop"]


def main():
    words = argparse.ArgumentParser()
    words.add_argument("--folder", default="/tmp")
    words.add_argument("--calls", type=int, default=2000)
    words.add_argument("--rounds", type=int, default=5)
    given = words.parse_args()
    with tempfile.TemporaryDirectory() as top:
        ours, theirs = build(top)
        before = best(theirs, top, given.folder, given)
        volume = best(ours, f"{top}/crates/probe", given.folder, given)
        after = best(theirs, top, given.folder, given)
    for kind in KINDS:
        calls = given.calls * (100 if kind == "read" else 1)
        rates = [calls * 10**9 / nanos for nanos in (volume[kind], min(before[kind], after[kind]))]
        print(f"{kind}: volume {rates[0]:,.0f} a second, C {rates[1]:,.0f}, quotient {rates[0] / rates[1]:.2f}")


if __name__ == "__main__":
    main()

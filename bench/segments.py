#!/usr/bin/env python3
"""Compares WalWriter::put over a folder with a C loop of the same writes and syncs on the same file system.

It makes a repository in a temporary folder with copies of the crates below qd_wal and a program over them, which is proved and
built like any other: that takes some minutes. The program puts entries of each size one behind another, each with `put` and
`advance`, in segments of SEGMENT bytes; the C loop calls pwrite and fdatasync at the same places of the same number of files.
The C loop and the program run in turn, each ROUNDS times in a new folder, and the median of each counts, since the time of a
sync swings with what else the disk does. It prints puts a second for both, and their quotient.

usage: segments.py [--folder PATH] [--puts N] [--rounds N]
--folder is a folder on the file system to measure; the files are made in one below it and removed. It needs `rt` and `cc`.
"""
import argparse
import os
import re
import shutil
import statistics
import subprocess
import sys
import tempfile

TOP = os.path.dirname(os.path.dirname(os.path.abspath(__file__)))
COPIED = ["qd_base", "qd_symbols", "qd_fields", "qd_wal_entry", "qd_io", "qd_volume", "qd_durable", "qd_wal"]
SIZES = [200, 4096, 65536]
SEGMENT = 1 << 20

PROGRAM = r'''//! Times entries that are put into a log.
#![tactic(auto)]

use qd_io::IoFault;
use qd_volume::{FolderVolume, Volume};
use qd_wal::WalWriter;
use std::env;
use std::io::{Error, ErrorKind};
use std::time::Instant;

fn error_of(_fault: IoFault) -> Error {
    Error::from(ErrorKind::Other)
}

fn put_one<V: Volume>(writer: &mut WalWriter, volume: &mut V, bytes: &[u8]) -> Result<(), IoFault> {
    let room = writer.segment < 1_000_000 && writer.end < 1 << 40 && bytes.len() < 1 << 30;
    if !room {
        return Err(IoFault::Failed);
    }
    let at = writer.put(volume, bytes, @SEGMENT@)?;
    writer.advance(at);
    Ok(())
}

fn main(rt: HostRuntime) -> std::io::Result<()> {
    let mut words = env::args(&rt)?;
    let _program = words.next();
    let (Some(folder), Some(puts), Some(rounds)) = (words.next(), words.next(), words.next()) else {
        return Err(Error::from(ErrorKind::InvalidInput));
    };
    let puts = puts.as_str().parse::<u64>().unwrap_or(0);
    let rounds = rounds.as_str().parse::<u32>().unwrap_or(0);
    let mut volume = FolderVolume::open(rt, rt.alloc(), folder.as_str().as_bytes()).map_err(error_of)?;
    let mut wal = 0;
    for _ in 0..rounds {
        for size in [@SIZES@] {
            let bytes = Vec::from_elem(rt.alloc(), 120u8, size)?;
            let mut writer = WalWriter { wal, segment: 0, end: 0 };
            wal = wal.wrapping_add(1);
            let start = Instant::now(&rt)?;
            for _ in 0..puts {
                put_one(&mut writer, &mut volume, bytes.as_slice()).map_err(error_of)?;
            }
            let nanos = start.elapsed(&rt)?.as_nanos();
            println!(rt; "{size} {nanos}")?;
        }
    }
    Ok(())
}
'''

C_LOOP = r'''
#define _GNU_SOURCE
#include <fcntl.h>
#include <stdio.h>
#include <stdlib.h>
#include <string.h>
#include <time.h>
#include <unistd.h>

static char block[1 << 20];

int main(int argc, char **argv) {
    long sizes[] = {@SIZES@};
    if (argc != 4 || chdir(argv[1]) != 0) return 1;
    long puts = atol(argv[2]), rounds = atol(argv[3]);
    long log = 0;
    memset(block, 'x', sizeof block);
    for (long round = 0; round < rounds; round++) {
        for (int k = 0; k < (int)(sizeof sizes / sizeof *sizes); k++) {
            struct timespec from, to;
            char name[64];
            long segment = 0, end = 0, size = sizes[k];
            log++;
            clock_gettime(CLOCK_MONOTONIC, &from);
            int fd = -1;
            for (long i = 0; i < puts; i++) {
                if (fd < 0 || end >= @SEGMENT@) {
                    if (fd >= 0) close(fd), segment++;
                    snprintf(name, sizeof name, "%ld.%ld", log, segment);
                    fd = open(name, O_RDWR | O_CREAT, 0666);
                    end = 0;
                }
                if (pwrite(fd, block, size, end) != size || fdatasync(fd) != 0) return 2;
                end += size;
            }
            clock_gettime(CLOCK_MONOTONIC, &to);
            if (fd >= 0) close(fd);
            printf("%ld %lld\n", size, (to.tv_sec - from.tv_sec) * 1000000000LL + (to.tv_nsec - from.tv_nsec));
        }
    }
    return 0;
}
'''


def filled(text):
    return text.replace("@SEGMENT@", str(SEGMENT)).replace("@SIZES@", ", ".join(map(str, SIZES)))


def rates(command, folder, place, given):
    """The puts a second of each size, of one run in a new folder."""
    with tempfile.TemporaryDirectory(dir=place) as files:
        done = subprocess.run([*command, files, str(given.puts), "1"], cwd=folder, capture_output=True, text=True)
    found = dict(re.findall(r"^(\d+) (\d+)$", done.stdout, re.M))
    if not all(str(size) in found for size in SIZES):
        sys.exit(f"{' '.join(command)}: {done.stdout}{done.stderr}")
    return {size: given.puts * 10**9 / int(found[str(size)]) for size in SIZES}


def build(top):
    """A program over copies of the crates, and the C loop: two commands, each to be followed by a folder and two numbers."""
    for name in COPIED:
        shutil.copytree(os.path.join(TOP, "crates", name), f"{top}/crates/{name}", ignore=shutil.ignore_patterns("out", "must-fail"))
    probe = f"{top}/crates/probe"
    os.makedirs(f"{probe}/src")
    with open(f"{probe}/src/main.rt", "w", encoding="utf-8") as file:
        file.write(filled(PROGRAM))
    with open(os.path.join(TOP, "crates.txt"), encoding="utf-8") as file:
        lines = [line for line in file if line.split(":")[0] in COPIED]
    with open(f"{top}/crates.txt", "w", encoding="utf-8") as file:
        file.write("".join(lines) + "probe: qd_io qd_volume qd_wal\n")
    with open(f"{top}/loop.c", "w", encoding="utf-8") as file:
        file.write(filled(C_LOOP))
    subprocess.run(["cc", "-O2", "-o", f"{top}/loop", f"{top}/loop.c"], check=True)
    built = subprocess.run(["rt", "run"], cwd=probe, capture_output=True, text=True)
    if not os.path.exists(f"{probe}/out/probe"):
        sys.exit(built.stdout[-4000:] + built.stderr[-4000:])
    return [f"{probe}/out/probe"], [f"{top}/loop"]


def main():
    words = argparse.ArgumentParser(description=__doc__, formatter_class=argparse.RawDescriptionHelpFormatter)
    words.add_argument("--folder", default="/tmp")
    words.add_argument("--puts", type=int, default=200)
    words.add_argument("--rounds", type=int, default=10)
    given = words.parse_args()
    with tempfile.TemporaryDirectory() as top:
        ours, theirs = build(top)
        runs = [(rates(ours, f"{top}/crates/probe", given.folder, given), rates(theirs, top, given.folder, given)) for _ in range(given.rounds)]
    for size in SIZES:
        puts, loop = (statistics.median(run[which][size] for run in runs) for which in (0, 1))
        print(f"{size} bytes: put {puts:,.0f} a second, C {loop:,.0f}, quotient {puts / loop:.2f}")


if __name__ == "__main__":
    main()

#!/usr/bin/env python3
"""Times entries of the write-ahead log. Run it at the top of the repository; it needs `rt`, and some minutes for the proofs.

It makes a repository in a temporary folder with copies of the crates below qd_wal_entry and a program over them, which is proved and
built like any other, and runs it RUNS times. The program writes the bytes of an entry that inserts ROWS rows of two symbols, of
100 and of 10 texts, three LONGs and a time; it times `decode_entry` of the bytes and `encode_entry` of the entry, and reads the
cells by `EntryReader` alone; all of that ten times, since memory is fresh in the first round. For each step the shortest time is
printed, in nanoseconds for each of the ROWS rows.

With --folder the repository is made there and stays; where its program is built already, it is run as it is, so its number of
rows has to be the one that it was made with.

usage: entries.py [--rows N] [--runs N] [--folder FOLDER]"""
import argparse
import os
import re
import shutil
import subprocess
import sys
import tempfile

HERE = os.path.dirname(os.path.abspath(__file__))
TOP = os.path.join(HERE, "..")
COPIED = ["qd_base", "qd_symbols", "qd_fields", "qd_wal_entry"]

PROGRAM = r"""//! Times entries.
#![tactic(auto)]

ghost use Rattle.qd_wal_entry.specs.Spelling.{IsEntry};

use qd_base::{Entry, Memory};
use qd_wal_entry::{EntryReader, OpHead, decode_entry, encode_entry};
use qd_fields::{Stop, push_u32, push_u64};
use std::alloc::Global;
use std::io;
use std::time::Instant;

const ROWS: u32 = @ROWS@;

/// How often all is done: in the first round memory is fresh.
const ROUNDS: u32 = 10;

/// Adds a symbol: texts come in order of first use, 110 of them.
fn push_symbol(bytes: &mut Vec<u8>, id: u32) -> Result<(), Memory> {
    bytes.push(4)?;
    push_u32(bytes, id)
}

fn push_long(bytes: &mut Vec<u8>, number: u64) -> Result<(), Memory> {
    bytes.push(1)?;
    push_u64(bytes, number)
}

/// The position of a symbol of 100 texts and of one of 10, where both are used in turn from the first row on.
fn first_id(row: u32) -> u32 {
    let place = row % 100;
    if place < 10 { place * 2 } else { place + 10 }
}

fn second_id(row: u32) -> u32 {
    row % 10 * 2 + 1
}

fn push_row(bytes: &mut Vec<u8>, row: u32) -> Result<(), Memory> {
    push_symbol(bytes, first_id(row))?;
    push_symbol(bytes, second_id(row))?;
    push_long(bytes, row as u64)?;
    push_long(bytes, row as u64 * 7)?;
    push_long(bytes, 1_000)?;
    bytes.push(5)?;
    push_u64(bytes, row as u64)
}

fn spelled(alloc: Global) -> Result<Vec<u8>, Memory> {
    let mut bytes = Vec::new(alloc);
    push_u32(&mut bytes, 110)?;
    for id in 0..110u32 {
        bytes.extend_from_slice(&[6, 0, b's', b'e', b'n', b's', (id / 16) as u8, (id % 16) as u8])?;
    }
    push_u32(&mut bytes, 1)?;
    bytes.extend_from_slice(b"\x03\x01t\x06\x00")?;
    push_u32(&mut bytes, ROWS)?;
    for row in 0..ROWS {
        push_row(&mut bytes, row)?;
    }
    Ok(bytes)
}

fn said(rt: &HostRuntime, what: &str, began: Instant, bytes: u64) -> io::Result<()> {
    let nanos = began.elapsed(rt)?.as_nanos();
    println!(rt; "{}: {} ns, {} bytes", what, nanos, bytes)
}

/// Reads all cells, and gives the sum of their texts' positions.
fn read_cells(alloc: Global, bytes: &[u8]) -> Result<u64, Stop> {
    let (_, mut reader) = EntryReader::open(alloc, bytes)?;
    let mut sum = 0u64;
    if let OpHead::Insert { columns, rows, .. } = reader.next_op(alloc)? {
        for _ in 0..columns as u64 * rows as u64 {
            if let qd_wal_entry::EntryCell::Text(id) = reader.next_cell()? {
                sum = sum.wrapping_add(id);
            }
        }
    }
    Ok(sum)
}

fn run_cells(rt: &HostRuntime, bytes: &[u8]) -> io::Result<()> {
    let began = Instant::now(rt)?;
    let sum = read_cells(rt.alloc(), bytes).unwrap_or(0);
    said(rt, "cells", began, sum)
}

fn run_encode(rt: &HostRuntime, entry: &Entry) -> io::Result<()>
    requires { IsEntry entry.now }
{
    let began = Instant::now(rt)?;
    let text = encode_entry(rt.alloc(), entry)?;
    said(rt, "encode", began, text.bytes().len() as u64)
}

fn run(rt: &HostRuntime) -> io::Result<()> {
    let bytes = spelled(rt.alloc())?;
    run_cells(rt, &bytes)?;
    let began = Instant::now(rt)?;
    match decode_entry(rt.alloc(), &bytes) {
        Ok(entry) => {
            said(rt, "decode", began, bytes.len() as u64)?;
            run_encode(rt, &entry)
        }
        Err(_) => Ok(()),
    }
}

fn main(rt: HostRuntime) -> io::Result<()> {
    for _ in 0..ROUNDS {
        run(&rt)?;
    }
    Ok(())
}
"""

# what the search doesn't find of the program's proof
PROOFS = {
    "proofs/run/Answers.antt": r"""use Rattle.entries_bench.proofs.run.Goals as goal

pub run_encode-requires : goal.run_encode-requires
run_encode-requires c = c.in-Ok.ensures.spelled.sound
""",
}


def made(top, rows):
    """Makes the repository, and gives the program's folder."""
    for crate in COPIED:
        shutil.copytree(os.path.join(TOP, "crates", crate), os.path.join(top, "crates", crate), ignore=shutil.ignore_patterns("out"))
    with open(os.path.join(TOP, "crates.txt"), encoding="utf-8") as lines:
        kept = [line for line in lines if line.split(":")[0] in COPIED]
    with open(os.path.join(top, "crates.txt"), "w", encoding="utf-8") as listed:
        listed.writelines(kept + ["entries_bench: " + " ".join(COPIED) + "\n"])
    folder = os.path.join(top, "crates", "entries_bench")
    files = dict(PROOFS, **{"src/main.rt": PROGRAM.replace("@ROWS@", str(rows))})
    for name, text in files.items():
        path = os.path.join(folder, name)
        os.makedirs(os.path.dirname(path), exist_ok=True)
        with open(path, "w", encoding="utf-8") as file:
            file.write(text)
    return folder


def measured(program, runs):
    """Runs the program, and gives the shortest time of each step."""
    best = {}
    for _ in range(runs):
        text = subprocess.run([program], text=True, capture_output=True, check=True).stdout
        for name, nanos in re.findall(r"(.*): (\d+) ns", text):
            best[name] = min(int(nanos), best.get(name, 1 << 62))
    return best


def timed(top, rows, runs):
    """Builds the program in a folder, unless it is there, and prints what was measured."""
    folder = os.path.join(top, "crates", "entries_bench")
    program = os.path.join(folder, "out", "entries_bench")
    if not os.path.exists(program):
        made(top, rows)
        built = subprocess.run(["rt", "run"], cwd=folder, text=True, capture_output=True)
        if not os.path.exists(program):
            print(built.stdout[-4000:], built.stderr[-4000:], sep="")
            sys.exit(1)
    for name, nanos in measured(program, runs).items():
        print(f"{name:<8} {nanos / rows:8.2f} ns a row")


def main():
    parser = argparse.ArgumentParser(description=__doc__, formatter_class=argparse.RawDescriptionHelpFormatter)
    parser.add_argument("--rows", type=int, default=10_000)
    parser.add_argument("--runs", type=int, default=20)
    parser.add_argument("--folder")
    options = parser.parse_args()
    if options.folder:
        timed(os.path.abspath(options.folder), options.rows, options.runs)
        return
    with tempfile.TemporaryDirectory() as top:
        timed(top, options.rows, options.runs)


if __name__ == "__main__":
    main()

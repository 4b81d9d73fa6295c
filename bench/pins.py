#!/usr/bin/env python3
"""Times pins: 1, 2 and 4 threads that pin and release beside one that publishes and retires.

It makes a repository in a temporary folder with copies of qd_score_model and qd_score and a program that makes the calls; the
program is built and run by `rt try`, without a proof. Each reading thread pins and releases PINS times. Beside them one
thread takes the lock, retires the version before the current one, and once that is done makes the next one live and current
in its row, and gives the book back, until all others are done. The best of RUNS runs is printed for each number of reading
threads: pins a second of all of them together, how many tries found that a newer version was published meanwhile, and how
many versions were published.

usage: pins.py [--pins N] [--runs N]
It needs `rt`.
"""
import argparse
import os
import re
import shutil
import subprocess
import sys
import tempfile

TOP = os.path.dirname(os.path.dirname(os.path.abspath(__file__)))
COPIED = ["qd_score_model", "qd_score"]

SPECS = r'''-- The book of the bench: a number of items, and a version in one or both of the first two rows.
use Rattle.std.specs.Prelude.{ℕ, ◌-◌, List, [], replicate, slice_set, Option, Some, None}
use Rattle.qd_score_model.specs.declared.limits.TheConstants.{ROWS}
use Rattle.qd_score_model.specs.declared.view.Version.{Version}
use Rattle.qd_score_model.specs.Machine.{Book}
use Rattle.pins_bench.specs.declared.Tally.{Tally}

abbrev pub version_of : Option ℕ → Option (Version (Unit {0}))
version_of None = None
version_of (Some n) = Some (record { n = n; shape = tt })

abbrev pub tally_book : Tally → Book (Unit {0}) (Unit {0})
tally_book t = record {
  history = replicate t.items tt;
  current = record { n = t.n; row = t.row };
  versions = slice_set (slice_set (replicate ROWS None) t.row (version_of (Some t.n))) (1 - t.row) (version_of t.before);
  present = [];
  queued = 0;
  faults = 0;
  removed = 0;
}
'''

PROGRAM = r'''//! Times pins beside a thread that publishes.
#![tactic(auto)]

use qd_score_model::Mode;
use qd_score::{Booked, Score, Seat};
use std::env;
use std::io;
use std::io::{Error, ErrorKind};
use std::sync::Wait;
use std::sync::atomic::{AtomicU64, Ordering};
use std::thread;
use std::thread::Threads;
use std::time::Instant;

// More than are published.
const ITEMS: u64 = 1_000_000_000_000;

/// A number of items, the current version, and the one before in the other of two rows.
#[derive(Drop)]
pub struct Tally {
    items: u64,
    n: u64,
    row: u8,
    before: Option<u64>,
}

impl Booked for Tally {
    type Item = ();
    type Shape = ();
    type Fixed = ();

    ghost use Rattle.std.specs.Prelude.{[]};
    ghost use Rattle.pins_bench.specs.Tally.{tally_book};

    ghost book = { tally_book };

    ghost blocks = { λ _. [] };

    ghost sound = { λ _. Unit {0} };

    ghost fixed = { λ _. tt };

    fn version_n(&self) -> u64 {
        self.n
    }
}

// Pins and releases, and gives how many tries found a newer version.
fn pins(score: &Score<Tally>, mut seat: Seat<Tally>, wanted: u64, left: &AtomicU64) -> u64 {
    let mut done = 0u64;
    let mut moved = 0u64;
    while done < wanted {
        match score.pin(&mut seat) {
            Ok(pin) => {
                score.release(&mut seat, pin);
                done += 1;
            }
            Err(_) => moved += 1,
        }
    }
    left.fetch_sub(1, Ordering::SeqCst);
    moved
}

// One hold: the version before is retired, unless it is pinned, and then the next one is published.
fn one_hold<R: Wait>(rt: &R, score: &Score<Tally>, seat: &mut Seat<Tally>) -> u64 {
    let mut hold = score.take(rt, seat);
    let old = hold.book().n;
    let other = 1 - hold.book().row;
    if hold.book().before.is_some() && score.retire(seat, &hold, other).is_err() {
        score.give(seat, hold);
        return 0;
    }
    hold.book().before = Some(old);
    hold.book().n = old + 1;
    hold.book().row = other;
    let hold = score.go_live(seat, hold, other);
    score.set_current(seat, &hold, old + 1, other);
    score.give(seat, hold);
    1
}

fn publishes<R: Wait>(rt: &R, score: &Score<Tally>, mut seat: Seat<Tally>, left: &AtomicU64) -> u64 {
    let mut published = 0u64;
    while left.load(Ordering::SeqCst) > 0 {
        published += one_hold(rt, score, &mut seat);
    }
    published
}

type Three = (Seat<Tally>, Seat<Tally>, Seat<Tally>);

fn two<R: Threads + Wait + Sync>(
    rt: &R,
    score: &Score<Tally>,
    one: Seat<Tally>,
    other: Seat<Tally>,
    wanted: u64,
    left: &AtomicU64,
) -> u64 {
    let (a, b) = thread::join(
        rt,
        || -> u64 { pins(score, one, wanted, left) },
        || -> u64 { pins(score, other, wanted, left) },
    );
    a + b
}

// The readers, by their number.
fn readers<R: Threads + Wait + Sync>(
    rt: &R,
    score: &Score<Tally>,
    first: Seat<Tally>,
    rest: Three,
    threads: u64,
    wanted: u64,
    left: &AtomicU64,
) -> u64 {
    let (second, third, fourth) = rest;
    if threads == 1 {
        return pins(score, first, wanted, left);
    }
    if threads == 2 {
        return two(rt, score, first, second, wanted, left);
    }
    let (a, b) = thread::join(
        rt,
        || -> u64 { two(rt, score, first, second, wanted, left) },
        || -> u64 { two(rt, score, third, fourth, wanted, left) },
    );
    a + b
}

fn bad() -> Error {
    Error::from(ErrorKind::InvalidInput)
}

fn main(rt: HostRuntime) -> io::Result<()> {
    let rt = &rt;
    let mut words = env::args(rt)?;
    let _program = words.next();
    let (Some(threads), Some(wanted)) = (words.next(), words.next()) else {
        return Err(bad());
    };
    let threads = threads.as_str().parse::<u64>().unwrap_or(1);
    let wanted = wanted.as_str().parse::<u64>().unwrap_or(1);
    let book = Tally {
        items: ITEMS,
        n: 0,
        row: 0,
        before: None,
    };
    let Ok((score, mut seat)) = Score::start(rt.alloc(), book) else {
        return Err(bad());
    };
    score.share(&mut seat);
    let first = score.split(rt.alloc(), &mut seat, Mode::Writer)?;
    let second = score.split(rt.alloc(), &mut seat, Mode::Writer)?;
    let third = score.split(rt.alloc(), &mut seat, Mode::Writer)?;
    let fourth = score.split(rt.alloc(), &mut seat, Mode::Writer)?;
    let left = AtomicU64::new(threads);
    let began = Instant::now(rt)?;
    let (published, moved) = thread::join(
        rt,
        || -> u64 { publishes(rt, &score, seat, &left) },
        || -> u64 { readers(rt, &score, first, (second, third, fourth), threads, wanted, &left) },
    );
    let nanos = began.elapsed(rt)?.as_nanos();
    println!(rt; "pins: {} ns, {} moved, {} published", nanos, moved, published)
}
'''


def build(top):
    """The program over copies of the crates: its folder."""
    for name in COPIED:
        shutil.copytree(os.path.join(TOP, "crates", name), f"{top}/crates/{name}", ignore=shutil.ignore_patterns("out", "must-fail"))
    shutil.copy(os.path.join(TOP, "HANDLES"), top)
    folder = f"{top}/crates/pins_bench"
    files = {"src/main.rt": PROGRAM, "specs/Tally.antt": SPECS, "specs/Lib.antt": "pub mod Tally\n"}
    for name, text in files.items():
        os.makedirs(os.path.dirname(f"{folder}/{name}"), exist_ok=True)
        with open(f"{folder}/{name}", "w", encoding="utf-8") as file:
            file.write(text)
    with open(os.path.join(TOP, "crates.txt"), encoding="utf-8") as file:
        lines = [line for line in file if re.split("[ :]", line)[0] in COPIED]
    with open(f"{top}/crates.txt", "w", encoding="utf-8") as file:
        file.write("".join(lines) + "pins_bench may_wait=1: qd_score_model qd_score\n")
    return folder


def run(folder, threads, pins):
    """Nanoseconds, tries that moved and versions published, of one run."""
    done = subprocess.run(["rt", "try", "--", str(threads), str(pins)], cwd=folder, capture_output=True, text=True)
    found = re.search(r"^pins: (\d+) ns, (\d+) moved, (\d+) published$", done.stdout, re.M)
    if not found:
        sys.exit(f"{threads} threads: {done.stdout[-4000:]}{done.stderr[-4000:]}")
    return tuple(int(number) for number in found.groups())


def main():
    words = argparse.ArgumentParser(description=__doc__, formatter_class=argparse.RawDescriptionHelpFormatter)
    words.add_argument("--pins", type=int, default=1_000_000)
    words.add_argument("--runs", type=int, default=3)
    given = words.parse_args()
    with tempfile.TemporaryDirectory() as top:
        folder = build(top)
        for threads in [1, 2, 4]:
            nanos, moved, published = min(run(folder, threads, given.pins) for _ in range(given.runs))
            print(f"{threads} threads: {threads * given.pins * 10**9 / nanos:,.0f} pins a second, {moved:,} moved, {published:,} published")


if __name__ == "__main__":
    main()

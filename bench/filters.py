#!/usr/bin/env python3
"""Times filters. Run it at the top of the repository; it needs `rt`, and some minutes for the proofs.

It makes a repository in a temporary folder with copies of the crates below qd_expr and a program over them, which is proved
and built like any other, and runs it RUNS times. The program makes ROWS rows of a time, a symbol of 100 texts, two LONGs and a
VARCHAR of 10 bytes, over three days, and filters them by one test after another. In the column `a` the numbers rise from 0 to
999 again and again, and each tenth one is NULL; in `b` they are scattered. For each test the shortest time is printed, in
nanoseconds for each of the ROWS rows, then how many rows pass, and in how many runs of neighbours.

With --folder the repository is made there and stays; where its program is built already, it is run as it is.

usage: filters.py [--rows N] [--runs N] [--folder FOLDER]"""
import argparse
import os
import re
import shutil
import subprocess
import sys
import tempfile

HERE = os.path.dirname(os.path.abspath(__file__))
TOP = os.path.join(HERE, "..")
COPIED = ["qd_base", "qd_symbols", "qd_column", "qd_block", "qd_rows", "qd_value", "qd_expr"]

PROGRAM = r"""//! Times filters.
#![tactic(auto)]

ghost use Rattle.std.specs.Prelude.{◌≡◌, ◌≢◌, ◌+◌, ◌<◌, ◌^◌, [], ◌∷◌, Some, length, IfOk, OnOk, slice_get};
ghost use Rattle.qd_base.specs.declared.schema.ColType.TheVariants as kind;
ghost use Rattle.qd_block.specs.Blocks.{kinds_in};

use qd_base::{Cell, Col, ColList, ColType, Memory, NULL_LONG, Seq, Txt};
use qd_block::{Block, Builder};
use qd_expr::filter;
use qd_rows::RowSet;
use qd_symbols::SymbolMap;
use qd_value::{Arithmetic, Bound, Boxed, Comparison, Items, Operand, Scalar};
use std::alloc::Global;
use std::io;
use std::sync::Arc;
use std::time::Instant;

const ROWS: u64 = @ROWS@;

/// 2024-01-01, in microseconds, and how long a day is.
const FIRST: u64 = 1_704_067_200_000_000;

const DAY: u64 = 86_400_000_000;

fn col(alloc: Global, kind: ColType) -> Result<Col, Memory>
    ensures { IfOk result (λ c. c.kind ≡ kind) }
{
    let name = Txt::from_bytes(alloc, b"c")?;
    Ok(Col { name, kind })
}

fn columns(alloc: Global) -> Result<ColList, Memory>
    ensures { IfOk result (λ cols. kinds_in cols ≡ kind.Time ∷ kind.Symbol ∷ kind.Long ∷ kind.Long ∷ kind.Varchar ∷ []) }
{
    let mut cols = ColList::new(alloc);
    cols.push(col(alloc, ColType::Time)?)?;
    cols.push(col(alloc, ColType::Symbol)?)?;
    cols.push(col(alloc, ColType::Long)?)?;
    cols.push(col(alloc, ColType::Long)?)?;
    cols.push(col(alloc, ColType::Varchar)?)?;
    Ok(cols)
}

fn digit(i: u64) -> u8 {
    b'0' + (i % 10) as u8
}

fn host(i: u64) -> [u8; 3] {
    [b'h', digit(i / 100), digit(i / 10)]
}

fn text(i: u64) -> [u8; 10] {
    [
        digit(i),
        digit(i / 10),
        digit(i / 100),
        digit(i / 1_000),
        digit(i / 10_000),
        digit(i / 100_000),
        b'a',
        b'b',
        b'c',
        b'd',
    ]
}

fn add_number(rows: &mut Builder<SymbolMap>, number: Option<i64>) -> Result<(), Memory>
    requires kind { slice_get rows.old.kinds (length rows.old.open_row) ≡ Some kind.Long }
    requires timed { length rows.old.open_row ≢ rows.old.time_col }
    ensures kinds { OnOk result (rows.new.kinds ≡ rows.old.kinds) }
    ensures time { OnOk result (rows.new.time_col ≡ rows.old.time_col) }
    ensures filled { OnOk result (length rows.new.open_row ≡ length rows.old.open_row + 1) }
{
    match number {
        None | Some(NULL_LONG) => rows.push_missing(),
        Some(number) => rows.push_long(number),
    }
}

fn add_row(rows: &mut Builder<SymbolMap>, i: u64) -> Result<(), Memory>
    requires kinds { rows.old.kinds ≡ kind.Time ∷ kind.Symbol ∷ kind.Long ∷ kind.Long ∷ kind.Varchar ∷ [] }
    requires time { rows.old.time_col ≡ 0 }
    requires begun { rows.old.open_row ≡ [] }
    requires small { i < 2 ^ 32 }
    ensures kinds { OnOk result (rows.new.kinds ≡ kind.Time ∷ kind.Symbol ∷ kind.Long ∷ kind.Long ∷ kind.Varchar ∷ []) }
    ensures time { OnOk result (rows.new.time_col ≡ 0) }
    ensures begun { OnOk result (rows.new.open_row ≡ []) }
{
    rows.push_time(FIRST + i * 259_200)?;
    rows.push_text(host(i).as_slice())?;
    add_number(
        rows,
        if i % 10 == 0 {
            None
        } else {
            Some((i % 1_000) as i64)
        },
    )?;
    add_number(rows, Some((i * 7_919 % 1_000) as i64))?;
    rows.push_text(text(i).as_slice())?;
    rows.end_row();
    Ok(())
}

fn built(alloc: Global) -> Result<Block<SymbolMap>, Memory>
    ensures { IfOk result (λ b. b.kinds ≡ kind.Time ∷ kind.Symbol ∷ kind.Long ∷ kind.Long ∷ kind.Varchar ∷ []) }
{
    let mut rows = Builder::new(alloc, &columns(alloc)?, 0)?;
    for i in 0..ROWS {
        add_row(&mut rows, i)?;
    }
    rows.finish()
}

fn table(alloc: Global) -> Result<RowSet<SymbolMap>, Memory> {
    let mut set = RowSet::over(alloc, &columns(alloc)?, None)?;
    let block = built(alloc)?;
    let count = block.rows();
    let b = set.add_block(Arc::new(alloc, block)?)?;
    if 0 < count {
        set.push_run(b, 0, count)?;
    }
    Ok(set)
}

fn column(alloc: Global, at: usize) -> Result<Boxed<Bound>, Memory> {
    Boxed::new(alloc, Bound::Column(at))
}

fn literal(alloc: Global, value: Scalar<'_>) -> Result<Boxed<Bound>, Memory> {
    Boxed::new(alloc, Bound::Literal(value.to_cell(alloc)?))
}

/// a > 500, or b > 500
fn large(alloc: Global, at: usize) -> Result<Bound, Memory> {
    let number = literal(alloc, Scalar::Long(500))?;
    Ok(Bound::Compare(Comparison::Greater, column(alloc, at)?, number))
}

/// 500 < b
fn small_left(alloc: Global) -> Result<Bound, Memory> {
    let number = literal(alloc, Scalar::Long(500))?;
    Ok(Bound::Compare(Comparison::Less, number, column(alloc, 3)?))
}

/// text = '345678abcd'
fn one_text(alloc: Global) -> Result<Bound, Memory> {
    let wanted = literal(alloc, Scalar::Text(b"345678abcd"))?;
    Ok(Bound::Compare(Comparison::Equal, column(alloc, 4)?, wanted))
}

/// A column IN two values.
fn one_of_two(
    alloc: Global,
    at: usize,
    x: Scalar<'_>,
    y: Scalar<'_>,
) -> Result<Bound, Memory> {
    let mut literals = Seq::new(alloc);
    literals.push(x.to_cell(alloc)?)?;
    literals.push(y.to_cell(alloc)?)?;
    Ok(Bound::InList(column(alloc, at)?, literals))
}

/// A column IS NULL.
fn is_null(alloc: Global, at: usize) -> Result<Bound, Memory> {
    Ok(Bound::IsNull(column(alloc, at)?))
}

/// a % 10 = 3
fn third(alloc: Global) -> Result<Bound, Memory> {
    let mut steps = Items::new(alloc);
    steps.push(Operand {
        op: Arithmetic::Remainder,
        right: Bound::Literal(Cell::Long(10)),
    })?;
    let rest = Boxed::new(alloc, Bound::Chain(column(alloc, 2)?, steps))?;
    let three = literal(alloc, Scalar::Long(3))?;
    Ok(Bound::Compare(Comparison::Equal, rest, three))
}

/// host = 'h07' AND a % 10 = 3
fn host_and_third(alloc: Global) -> Result<Bound, Memory> {
    let mut tests = Items::new(alloc);
    let name = literal(alloc, Scalar::Text(b"h07"))?;
    tests.push(Bound::Compare(Comparison::Equal, column(alloc, 1)?, name))?;
    tests.push(third(alloc)?)?;
    Ok(Bound::All(tests))
}

/// timestamp IN '2024-01-02'
fn second_day(alloc: Global) -> Result<Bound, Memory> {
    Ok(Bound::InInterval(column(alloc, 0)?, FIRST + DAY, FIRST + 2 * DAY - 1))
}

/// NOT (a IS NULL OR b < a)
fn at_least(alloc: Global) -> Result<Bound, Memory> {
    let mut tests = Items::new(alloc);
    tests.push(Bound::IsNull(column(alloc, 2)?))?;
    let x = column(alloc, 3)?;
    tests.push(Bound::Compare(Comparison::Less, x, column(alloc, 2)?))?;
    Ok(Bound::Not(Boxed::new(alloc, Bound::Any(tests))?))
}

fn run_filter(
    rt: &HostRuntime,
    what: &str,
    rows: &RowSet<SymbolMap>,
    test: &Bound,
) -> io::Result<()> {
    let began = Instant::now(rt)?;
    let kept = filter(rt.alloc(), rows, test)?;
    let nanos = began.elapsed(rt)?.as_nanos();
    println!(rt;
        "{}: {} ns, {} rows, {} runs",
        what,
        nanos,
        kept.len(),
        kept.runs().len()
    )
}

fn run(rt: &HostRuntime) -> io::Result<()> {
    let alloc = rt.alloc();
    let rows = table(alloc)?;
    run_filter(rt, "a > 500", &rows, &large(alloc, 2)?)?;
    run_filter(rt, "b > 500", &rows, &large(alloc, 3)?)?;
    run_filter(
        rt,
        "host = 'h07' AND a % 10 = 3",
        &rows,
        &host_and_third(alloc)?,
    )?;
    run_filter(rt, "timestamp IN '2024-01-02'", &rows, &second_day(alloc)?)?;
    run_filter(rt, "NOT (a IS NULL OR b < a)", &rows, &at_least(alloc)?)?;
    run_filter(rt, "a % 10 = 3", &rows, &third(alloc)?)?;
    run_more(rt, &rows)
}

fn run_more(rt: &HostRuntime, rows: &RowSet<SymbolMap>) -> io::Result<()> {
    let alloc = rt.alloc();
    run_filter(rt, "500 < b", rows, &small_left(alloc)?)?;
    run_filter(rt, "text = '345678abcd'", rows, &one_text(alloc)?)?;
    let numbers = one_of_two(alloc, 2, Scalar::Long(3), Scalar::Long(700))?;
    run_filter(rt, "a IN (3, 700)", rows, &numbers)?;
    let hosts = one_of_two(alloc, 1, Scalar::Text(b"h07"), Scalar::Text(b"h70"))?;
    run_filter(rt, "host IN ('h07', 'h70')", rows, &hosts)?;
    let texts = one_of_two(alloc, 4, Scalar::Text(b"3"), Scalar::Text(b"345678abcd"))?;
    run_filter(rt, "text IN ('3', '345678abcd')", rows, &texts)?;
    run_filter(rt, "host IS NULL", rows, &is_null(alloc, 1)?)?;
    run_filter(rt, "text IS NULL", rows, &is_null(alloc, 4)?)
}

fn main(rt: HostRuntime) -> io::Result<()> {
    run(&rt)
}
"""

# what the search doesn't find of the program's proof
PROOFS = {
    "proofs/built/Invariants.antt": r"""use Rattle.std.proofs.Common.{◌≡◌, [], ◌∷◌}
use Rattle.qd_base.specs.declared.schema.ColType.TheVariants as kind
use Rattle.filters_bench.proofs.built.Given as goal

abbrev pub invariant-loop-i : goal.invariant-loop-i
invariant-loop-i l = record { kinds : l.rows.kinds ≡ kind.Time ∷ kind.Symbol ∷ kind.Long ∷ kind.Long ∷ kind.Varchar ∷ []; time : l.rows.time_col ≡ 0; begun : l.rows.open_row ≡ [] }
""",
}


def made(top, rows):
    """Makes the repository, and gives the program's folder."""
    for crate in COPIED:
        shutil.copytree(os.path.join(TOP, "crates", crate), os.path.join(top, "crates", crate), ignore=shutil.ignore_patterns("out"))
    with open(os.path.join(TOP, "crates.txt"), encoding="utf-8") as lines:
        kept = [line for line in lines if line.split(":")[0] in COPIED]
    with open(os.path.join(top, "crates.txt"), "w", encoding="utf-8") as listed:
        listed.writelines(kept + ["filters_bench: " + " ".join(COPIED) + "\n"])
    folder = os.path.join(top, "crates", "filters_bench")
    files = dict(PROOFS, **{"src/main.rt": PROGRAM.replace("@ROWS@", str(rows))})
    for name, text in files.items():
        path = os.path.join(folder, name)
        os.makedirs(os.path.dirname(path), exist_ok=True)
        with open(path, "w", encoding="utf-8") as file:
            file.write(text)
    return folder


def measured(program, runs):
    """Runs the program, and gives for each test its shortest time, the rows that pass and their runs."""
    best = {}
    for _ in range(runs):
        text = subprocess.run([program], text=True, capture_output=True, check=True).stdout
        for line in text.splitlines():
            step = re.fullmatch(r"(.*): (\d+) ns, (\d+) rows, (\d+) runs", line)
            nanos = min(int(step[2]), best.get(step[1], (int(step[2]),))[0])
            best[step[1]] = (nanos, int(step[3]), int(step[4]))
    return best


def timed(top, rows, runs):
    """Builds the program in a folder, unless it is there, and prints what was measured."""
    folder = os.path.join(top, "crates", "filters_bench")
    program = os.path.join(folder, "out", "filters_bench")
    if not os.path.exists(program):
        made(top, rows)
        built = subprocess.run(["rt", "run"], cwd=folder, text=True, capture_output=True)
        if not os.path.exists(program):
            print(built.stdout[-4000:], built.stderr[-4000:], sep="")
            sys.exit(1)
    for name, (nanos, passed, found) in measured(program, runs).items():
        print(f"{name:<32} {nanos / rows:8.1f} ns a row {passed:9,} rows pass, in {found:,} runs")


def main():
    parser = argparse.ArgumentParser(description=__doc__, formatter_class=argparse.RawDescriptionHelpFormatter)
    parser.add_argument("--rows", type=int, default=1_000_000)
    parser.add_argument("--runs", type=int, default=5)
    parser.add_argument("--folder")
    options = parser.parse_args()
    if options.folder:
        timed(os.path.abspath(options.folder), options.rows, options.runs)
        return
    with tempfile.TemporaryDirectory() as top:
        timed(top, options.rows, options.runs)


if __name__ == "__main__":
    main()

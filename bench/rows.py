#!/usr/bin/env python3
"""Times blocks and sets of rows. Run it at the top of the repository; it needs `rt`, and some minutes for the proofs.

It makes a repository in a temporary folder with copies of the crates below qd_rows and a program over them, which is proved
and built like any other, and runs it RUNS times. The program makes ROWS rows of a time, a symbol of 100 texts, a LONG and a
VARCHAR of 10 bytes; `from_rows` gets rows of one symbol and one text. For each step the shortest time is printed, in
nanoseconds for each of the ROWS rows; a plain sum over a vector of as many numbers stands for the machine's memory.
Memory is what the process holds once the block is made less what it held before, in bytes a row.

usage: rows.py [--rows N] [--runs N]"""
import argparse
import os
import re
import shutil
import subprocess
import sys
import tempfile

HERE = os.path.dirname(os.path.abspath(__file__))
TOP = os.path.join(HERE, "..")
COPIED = ["qd_base", "qd_symbols", "qd_column", "qd_block", "qd_rows"]
PAGE = 4096

PROGRAM = r"""//! Times blocks and sets of rows.
#![tactic(auto)]
ghost use Rattle.std.specs.Prelude.{◌≡◌, ℕ, ◌<◌, ◌≤◌, ◌^◌, [], ◌∷◌, None, pos, length, All, IfOk, OnOk, slice_get};
ghost use Rattle.qd_base.specs.declared.cell.Cell.TheVariants as cell;
ghost use Rattle.qd_base.specs.declared.schema.ColType.TheVariants as kind;
ghost use Rattle.qd_block.specs.Blocks.{kinds_in, FitsKinds, IsTimed};
ghost use Rattle.qd_rows.specs.Sets.{IsPlaced};
ghost use Rattle.std.specs.Arc.{arc_value};

use qd_base::{Cell, Col, ColList, ColType, Memory, NULL_LONG, Row, RowList, Txt};
use qd_block::{Block, Builder};
use qd_rows::RowSet;
use qd_symbols::SymbolMap;
use std::alloc::Global;
use std::io;
use std::sync::Arc;
use std::time::Instant;

const ROWS: u64 = @ROWS@;

fn col(alloc: Global, kind: ColType) -> Result<Col, Memory>
    ensures { IfOk result (λ c. c.kind ≡ kind) }
{
    let name = Txt::from_bytes(alloc, b"c")?;
    Ok(Col { name, kind })
}

fn columns(alloc: Global) -> Result<ColList, Memory>
    ensures { IfOk result (λ cols. kinds_in cols ≡ kind.Time ∷ kind.Symbol ∷ kind.Long ∷ kind.Varchar ∷ []) }
{
    let mut cols = ColList::new(alloc);
    cols.push(col(alloc, ColType::Time)?)?;
    cols.push(col(alloc, ColType::Symbol)?)?;
    cols.push(col(alloc, ColType::Long)?)?;
    cols.push(col(alloc, ColType::Varchar)?)?;
    Ok(cols)
}

fn digit(i: u64) -> u8 {
    b'0' + (i % 10) as u8
}

fn symbol(i: u64) -> [u8; 3] {
    [b's', digit(i / 10), digit(i)]
}

fn text(i: u64) -> [u8; 10] {
    [
        digit(i),
        digit(i / 10),
        digit(i / 100),
        digit(i / 1_000),
        digit(i / 10_000),
        digit(i / 100_000),
        b'a',
        b'b',
        b'c',
        b'd',
    ]
}

fn add_row(rows: &mut Builder<SymbolMap>, time: u64, i: u64) -> Result<(), Memory>
    requires kinds { rows.old.kinds ≡ kind.Time ∷ kind.Symbol ∷ kind.Long ∷ kind.Varchar ∷ [] }
    requires begun { rows.old.open_row ≡ [] }
    requires small { time < 2 ^ 63 }
    ensures kinds { OnOk result (rows.new.kinds ≡ kind.Time ∷ kind.Symbol ∷ kind.Long ∷ kind.Varchar ∷ []) }
    ensures begun { OnOk result (rows.new.open_row ≡ []) }
{
    rows.push_time(time)?;
    rows.push_text(symbol(i).as_slice())?;
    rows.push_long((i % 1_000) as i64)?;
    rows.push_text(text(i).as_slice())?;
    rows.end_row();
    Ok(())
}

fn built(alloc: Global, late: bool) -> Result<Block<SymbolMap>, Memory>
    ensures { IfOk result (λ b. b.kinds ≡ kind.Time ∷ kind.Symbol ∷ kind.Long ∷ kind.Varchar ∷ []) }
{
    let mut rows = Builder::new(alloc, &columns(alloc)?, 0)?;
    for i in 0..ROWS {
        add_row(&mut rows, if late { ROWS - i } else { i }, i)?;
    }
    rows.finish()
}

fn listed_row(alloc: Global, time: u64) -> Result<Row, Memory>
    requires { time < 2 ^ 40 }
    ensures { IfOk result (λ r. r ≡ cell.Time time ∷ cell.Text (115 ∷ 49 ∷ 55 ∷ []) ∷ cell.Long (pos 17) ∷ cell.Text (48 ∷ 49 ∷ 50 ∷ 51 ∷ 52 ∷ 53 ∷ 97 ∷ 98 ∷ 99 ∷ 100 ∷ []) ∷ []) }
{
    let mut row = Row::new(alloc);
    row.push(Cell::Time(time))?;
    row.push(Cell::Text(Txt::from_bytes(alloc, b"s17")?))?;
    row.push(Cell::Long(17))?;
    row.push(Cell::Text(Txt::from_bytes(alloc, b"012345abcd")?))?;
    Ok(row)
}

fn listed(alloc: Global) -> Result<RowList, Memory>
    ensures fits { IfOk result (λ rows. All (FitsKinds (kind.Time ∷ kind.Symbol ∷ kind.Long ∷ kind.Varchar ∷ [])) rows) }
    ensures timed { IfOk result (λ rows. All (IsTimed 0) rows) }
{
    let mut rows = RowList::new(alloc);
    for i in 0..ROWS {
        rows.push(listed_row(alloc, i)?)?;
    }
    Ok(rows)
}

fn from_list(alloc: Global, rows: &RowList) -> Result<Block<SymbolMap>, Memory>
    requires fits { All (FitsKinds (kind.Time ∷ kind.Symbol ∷ kind.Long ∷ kind.Varchar ∷ [])) rows.now }
    requires timed { All (IsTimed 0) rows.now }
{
    Block::from_rows(alloc, &columns(alloc)?, 0, rows)
}

fn sum(numbers: &[i64]) -> i64 {
    let mut total = 0i64;
    for x in numbers {
        if *x != NULL_LONG {
            total = total.wrapping_add(*x);
        }
    }
    total
}

fn plain_sum(numbers: &[u64]) -> u64 {
    let mut total = 0u64;
    for x in numbers {
        total = total.wrapping_add(*x);
    }
    total
}

fn long_sum(block: &Block<SymbolMap>) -> i64
    requires { block.now.kinds ≡ kind.Time ∷ kind.Symbol ∷ kind.Long ∷ kind.Varchar ∷ [] }
{
    sum(block.column(2).longs())
}

fn numbers(alloc: Global) -> Result<Vec<u64>, Memory> {
    let mut list = Vec::new(alloc);
    for i in 0..ROWS {
        list.push(i)?;
    }
    Ok(list)
}

fn add_places(set: &mut RowSet<SymbolMap>, count: u64) -> Result<(), Memory>
    requires { (i : ℕ) → i < count → IsPlaced set.old ((0, i), None) }
{
    for i in 0..count {
        set.push_row((0, i), None)?;
    }
    Ok(())
}

fn add_even_places(set: &mut RowSet<SymbolMap>, count: u64) -> Result<(), Memory>
    requires { (i : ℕ) → i < count → IsPlaced set.old ((0, i), None) }
{
    for i in 0..count {
        if i % 2 == 0 {
            set.push_row((0, i), None)?;
        }
    }
    Ok(())
}

fn read_all(set: &RowSet<SymbolMap>) -> Result<u64, Memory> {
    let mut cells = 0u64;
    for i in 0..set.len() {
        cells = cells.wrapping_add(set.row(i)?.len() as u64);
    }
    Ok(cells)
}

fn find_all(set: &RowSet<SymbolMap>) -> u64 {
    let mut numbers = 0u64;
    for i in 0..set.len() {
        numbers = numbers.wrapping_add(set.places(i).0.1);
    }
    numbers
}

fn empty_set(
    alloc: Global,
    block: Arc<Block<SymbolMap>>,
    count: u64,
) -> Result<RowSet<SymbolMap>, Memory>
    requires kinds { (arc_value block).kinds ≡ kind.Time ∷ kind.Symbol ∷ kind.Long ∷ kind.Varchar ∷ [] }
    requires count { count ≡ length (arc_value block).rows }
    ensures { IfOk result (λ s. (i : ℕ) → i < count → IsPlaced s ((0, i), None)) }
{
    let cols = columns(alloc)?;
    let mut set = RowSet::over(alloc, &cols, None)?;
    set.add_block(block)?;
    Ok(set)
}

fn said(rt: &HostRuntime, what: &str, began: Instant, proof: u64) -> io::Result<()> {
    let nanos = began.elapsed(rt)?.as_nanos();
    println!(rt; "{}: {} ns in all ({})", what, nanos, proof)
}

fn run_cells(rt: &HostRuntime) -> io::Result<Block<SymbolMap>>
    ensures { IfOk result (λ b. b.kinds ≡ kind.Time ∷ kind.Symbol ∷ kind.Long ∷ kind.Varchar ∷ []) }
{
    let began = Instant::now(rt)?;
    let block = built(rt.alloc(), false)?;
    said(rt, "cells pushed in order", began, block.rows())?;
    Ok(block)
}

fn run_late(rt: &HostRuntime) -> io::Result<()> {
    let began = Instant::now(rt)?;
    let block = built(rt.alloc(), true)?;
    said(rt, "cells pushed in the opposite order", began, block.rows())
}

fn run_list(rt: &HostRuntime) -> io::Result<()> {
    let rows = listed(rt.alloc())?;
    let began = Instant::now(rt)?;
    let block = from_list(rt.alloc(), &rows)?;
    said(rt, "from_rows", began, block.rows())
}

fn say_memory(rt: &HostRuntime) -> io::Result<()> {
    let held = std::fs::read_to_string(rt, "/proc/self/statm")?;
    println!(rt; "statm: {}", held)
}

fn run_copy(rt: &HostRuntime, block: &Block<SymbolMap>) -> io::Result<()> {
    let began = Instant::now(rt)?;
    let copy = block.copy()?;
    said(rt, "copy", began, copy.rows())
}

fn run_plain(rt: &HostRuntime, list: &[u64]) -> io::Result<()> {
    let began = Instant::now(rt)?;
    let total = plain_sum(list);
    said(rt, "plain sum", began, total)
}

fn run_sum(rt: &HostRuntime, block: &Block<SymbolMap>) -> io::Result<()>
    requires { block.now.kinds ≡ kind.Time ∷ kind.Symbol ∷ kind.Long ∷ kind.Varchar ∷ [] }
{
    let began = Instant::now(rt)?;
    let total = long_sum(block);
    said(rt, "sum over longs()", began, (total > 0) as u64)
}

fn run_push(rt: &HostRuntime, set: &mut RowSet<SymbolMap>, count: u64) -> io::Result<()>
    requires { (i : ℕ) → i < count → IsPlaced set.old ((0, i), None) }
{
    let began = Instant::now(rt)?;
    add_places(set, count)?;
    said(rt, "push_row of all rows", began, set.runs().len() as u64)
}

fn run_push_even(rt: &HostRuntime, set: &mut RowSet<SymbolMap>, count: u64) -> io::Result<()>
    requires { (i : ℕ) → i < count → IsPlaced set.old ((0, i), None) }
{
    let began = Instant::now(rt)?;
    add_even_places(set, count)?;
    said(rt, "push_row of every second row", began, set.runs().len() as u64)
}

fn run_read(rt: &HostRuntime, set: &RowSet<SymbolMap>) -> io::Result<()> {
    let began = Instant::now(rt)?;
    let cells = read_all(set)?;
    said(rt, "row(i) of these", began, cells)?;
    let began = Instant::now(rt)?;
    let total = find_all(set);
    said(rt, "places(i) of these", began, total)
}

fn run_sums(rt: &HostRuntime, block: &Block<SymbolMap>) -> io::Result<()>
    requires { block.now.kinds ≡ kind.Time ∷ kind.Symbol ∷ kind.Long ∷ kind.Varchar ∷ [] }
{
    let list = numbers(rt.alloc())?;
    run_plain(rt, list.as_slice())?;
    run_plain(rt, list.as_slice())?;
    run_sum(rt, block)?;
    run_sum(rt, block)
}

fn run_sets(rt: &HostRuntime, block: Arc<Block<SymbolMap>>, count: u64) -> io::Result<()>
    requires kinds { (arc_value block).kinds ≡ kind.Time ∷ kind.Symbol ∷ kind.Long ∷ kind.Varchar ∷ [] }
    requires count { count ≡ length (arc_value block).rows }
{
    let mut all = empty_set(rt.alloc(), Arc::try_clone(&block)?, count)?;
    run_push(rt, &mut all, count)?;
    run_read(rt, &all)?;
    let mut half = empty_set(rt.alloc(), block, count)?;
    run_push_even(rt, &mut half, count)?;
    run_read(rt, &half)
}

fn run(rt: &HostRuntime) -> io::Result<()> {
    say_memory(rt)?;
    let block = run_cells(rt)?;
    say_memory(rt)?;
    run_late(rt)?;
    run_list(rt)?;
    run_copy(rt, &block)?;
    run_sums(rt, &block)?;
    let count = block.rows();
    let shared = Arc::new(rt.alloc(), block)?;
    run_sets(rt, shared, count)
}

fn main(rt: HostRuntime) -> io::Result<()> {
    run(&rt)
}
"""

# what the search doesn't find of the program's proof
PROOFS = {
    "proofs/FitLemmas.antt": r"""use Rattle.std.proofs.Common.{◌≡◌, ◌≢◌, ℕ, ◌<◌, ◌^◌, List, [], ◌∷◌, pos, All, arith}
use Rattle.std.proofs.lemmas.Int.{ints}
use Rattle.std.specs.List.{AllByRecursion}
use Rattle.std.proofs.lemmas.List.Elements.{All-from_recursion}
use Rattle.qd_base.specs.declared.cell.Cell.TheVariants as cell
use Rattle.qd_base.specs.declared.schema.ColType.TheVariants as kind
use Rattle.qd_base.specs.declared.schema.Col.{Col}
use Rattle.qd_base.specs.Lawful.{HasKinds, IsText}
use Rattle.qd_base.specs.Rows.{Row}
use Rattle.qd_block.specs.Blocks.{FitsKinds, IsTimed, kinds_in}

pub columns_fit : (cols : List Col) (row : Row) → FitsKinds (kinds_in cols) row → HasKinds cols row
columns_fit [] [] h = tt
columns_fit [] (x ∷ xs) h = absurd h
columns_fit (c ∷ cs) [] h = absurd h
columns_fit (c ∷ cs) (x ∷ xs) h = (h.0, columns_fit cs xs h.1)

short_text : IsText (115 ∷ 49 ∷ 55 ∷ [])
short_text = record { short = omega arith; bytes = All-from_recursion (λ (b : ℕ). b < 256) (115 ∷ 49 ∷ 55 ∷ []) (omega arith, (omega arith, (omega arith, tt))) }

long_text : IsText (48 ∷ 49 ∷ 50 ∷ 51 ∷ 52 ∷ 53 ∷ 97 ∷ 98 ∷ 99 ∷ 100 ∷ [])
long_text = record { short = omega arith; bytes = All-from_recursion (λ (b : ℕ). b < 256) (48 ∷ 49 ∷ 50 ∷ 51 ∷ 52 ∷ 53 ∷ 97 ∷ 98 ∷ 99 ∷ 100 ∷ []) (omega arith, (omega arith, (omega arith, (omega arith, (omega arith, (omega arith, (omega arith, (omega arith, (omega arith, (omega arith, tt)))))))))) }

abbrev pub row_at_time : ℕ → Row
row_at_time t = cell.Time t ∷ cell.Text (115 ∷ 49 ∷ 55 ∷ []) ∷ cell.Long (pos 17) ∷ cell.Text (48 ∷ 49 ∷ 50 ∷ 51 ∷ 52 ∷ 53 ∷ 97 ∷ 98 ∷ 99 ∷ 100 ∷ []) ∷ []

pub row_fits : (t : ℕ) → t < 2 ^ 40 → FitsKinds (kind.Time ∷ kind.Symbol ∷ kind.Long ∷ kind.Varchar ∷ []) (row_at_time t)
row_fits t h = (omega arith, (short_text, ((omega (arith, ints), omega (arith, ints)), (long_text, tt))))

pub row_timed : (t : ℕ) → IsTimed 0 (row_at_time t)
row_timed t e = cc
""",
    "proofs/Lib.antt": r"""pub mod FitLemmas
""",
    "proofs/add_even_places/Invariants.antt": r"""use Rattle.std.proofs.Common.{ℕ, ◌<◌, None}
use Rattle.qd_rows.specs.Sets.{IsPlaced}
use Rattle.rows_bench.proofs.add_even_places.Given as goal

abbrev pub invariant-loop-i : goal.invariant-loop-i
invariant-loop-i l = (i : ℕ) → i < l.count → IsPlaced l.set ((0, i), None)
""",
    "proofs/add_places/Invariants.antt": r"""use Rattle.std.proofs.Common.{ℕ, ◌<◌, None}
use Rattle.qd_rows.specs.Sets.{IsPlaced}
use Rattle.rows_bench.proofs.add_places.Given as goal

abbrev pub invariant-loop-i : goal.invariant-loop-i
invariant-loop-i l = (i : ℕ) → i < l.count → IsPlaced l.set ((0, i), None)
""",
    "proofs/built/Invariants.antt": r"""use Rattle.std.proofs.Common.{◌≡◌, [], ◌∷◌}
use Rattle.qd_base.specs.declared.schema.ColType.TheVariants as kind
use Rattle.rows_bench.proofs.built.Given as goal

abbrev pub invariant-loop-i : goal.invariant-loop-i
invariant-loop-i l = record { kinds : l.rows.kinds ≡ kind.Time ∷ kind.Symbol ∷ kind.Long ∷ kind.Varchar ∷ []; begun : l.rows.open_row ≡ [] }
""",
    "proofs/from_list/Answers.antt": r"""use Rattle.std.proofs.Common.{List, get_or, sym, subst}
use Rattle.qd_base.specs.declared.schema.ColType.{ColType}
use Rattle.qd_base.specs.declared.schema.Col.{Col}
use Rattle.qd_block.specs.Blocks.{FitsKinds}
use Rattle.rows_bench.proofs.FitLemmas.{columns_fit}
use Rattle.rows_bench.proofs.from_list.Goals as goal

pub from_rows-requires-clause-fit : goal.from_rows-requires-clause-fit
from_rows-requires-clause-fit c = λ k d low. columns_fit c.in_ok-columns.field-0 (get_or c.args.rows.now k d) (subst (λ (ks : List ColType). FitsKinds ks (get_or c.args.rows.now k d)) (sym c.in_ok-columns.ensures) (c.requires.fits k d low))
""",
    "proofs/listed/Answers.antt": r"""use Rattle.std.proofs.Common.{[], ◌∷◌, All, subst, sym, arith}
use Rattle.std.proofs.lemmas.List.Elements.{All-push}
use Rattle.qd_base.specs.declared.schema.ColType.TheVariants as kind
use Rattle.qd_base.specs.Rows.{Row}
use Rattle.qd_block.specs.Blocks.{FitsKinds, IsTimed}
use Rattle.rows_bench.proofs.FitLemmas.{row_fits, row_timed}
use Rattle.rows_bench.proofs.listed.Goals as goal

pub loop-i-preserved : goal.loop-i-preserved
loop-i-preserved c = 
    let fits : FitsKinds (kind.Time ∷ kind.Symbol ∷ kind.Long ∷ kind.Varchar ∷ []) c.in_ok-listed_row.field-0 = subst (FitsKinds (kind.Time ∷ kind.Symbol ∷ kind.Long ∷ kind.Varchar ∷ [])) (sym c.in_ok-listed_row.ensures) (row_fits c.loop-i.i (omega arith)) in
    let timed : IsTimed 0 c.in_ok-listed_row.field-0 = subst (IsTimed 0) (sym c.in_ok-listed_row.ensures) (row_timed c.loop-i.i) in
    record {
      fits = subst (All (FitsKinds (kind.Time ∷ kind.Symbol ∷ kind.Long ∷ kind.Varchar ∷ []))) (sym c.in_ok-push.ensures.ok) (All-push (FitsKinds (kind.Time ∷ kind.Symbol ∷ kind.Long ∷ kind.Varchar ∷ [])) c.loop-i.rows c.in_ok-listed_row.field-0 c.loop-i.invariant.fits fits);
      timed = subst (All (IsTimed 0)) (sym c.in_ok-push.ensures.ok) (All-push (IsTimed 0) c.loop-i.rows c.in_ok-listed_row.field-0 c.loop-i.invariant.timed timed);
    }
""",
    "proofs/listed/Invariants.antt": r"""use Rattle.std.proofs.Common.{[], ◌∷◌, All}
use Rattle.qd_base.specs.declared.schema.ColType.TheVariants as kind
use Rattle.qd_block.specs.Blocks.{FitsKinds, IsTimed}
use Rattle.rows_bench.proofs.listed.Given as goal

abbrev pub invariant-loop-i : goal.invariant-loop-i
invariant-loop-i l = record { fits : All (FitsKinds (kind.Time ∷ kind.Symbol ∷ kind.Long ∷ kind.Varchar ∷ [])) l.rows; timed : All (IsTimed 0) l.rows }
""",
}


def made(top, rows):
    """Makes the repository, and gives the program's folder."""
    for crate in COPIED:
        shutil.copytree(os.path.join(TOP, "crates", crate), os.path.join(top, "crates", crate), ignore=shutil.ignore_patterns("out"))
    with open(os.path.join(TOP, "crates.txt"), encoding="utf-8") as lines:
        kept = [line for line in lines if line.split(":")[0] in COPIED]
    with open(os.path.join(top, "crates.txt"), "w", encoding="utf-8") as listed:
        listed.writelines(kept + ["rows_bench: " + " ".join(COPIED) + "\n"])
    folder = os.path.join(top, "crates", "rows_bench")
    files = dict(PROOFS, **{"src/main.rt": PROGRAM.replace("@ROWS@", str(rows))})
    for name, text in files.items():
        path = os.path.join(folder, name)
        os.makedirs(os.path.dirname(path), exist_ok=True)
        with open(path, "w", encoding="utf-8") as file:
            file.write(text)
    return folder


def measured(program, runs):
    """Runs the program, and gives the shortest time of each step and the pages held before and after the block."""
    best, held = {}, []
    for _ in range(runs):
        text = subprocess.run([program], text=True, capture_output=True, check=True).stdout
        steps = {}
        for line in text.splitlines():
            step = re.match(r"(.*): (\d+) ns in all", line)
            if step:
                name = step[1] if step[1] not in steps else step[1] + ", again"
                steps[name] = int(step[2])
        for name, nanos in steps.items():
            best[name] = min(nanos, best.get(name, nanos))
        held = [int(line.split()[2]) for line in text.splitlines() if line.startswith("statm")]
    return best, held


def main():
    parser = argparse.ArgumentParser(description=__doc__, formatter_class=argparse.RawDescriptionHelpFormatter)
    parser.add_argument("--rows", type=int, default=1_000_000)
    parser.add_argument("--runs", type=int, default=5)
    options = parser.parse_args()
    with tempfile.TemporaryDirectory() as top:
        folder = made(top, options.rows)
        built = subprocess.run(["rt", "run"], cwd=folder, text=True, capture_output=True)
        program = os.path.join(folder, "out", "rows_bench")
        if not os.path.exists(program):
            print(built.stdout[-4000:], built.stderr[-4000:], sep="")
            sys.exit(1)
        best, held = measured(program, options.runs)
    for name, nanos in best.items():
        print(f"{name:<40} {nanos / options.rows:8.1f} ns a row")
    print(f"{'memory of the block':<40} {(held[1] - held[0]) * PAGE / options.rows:8.1f} bytes a row")


if __name__ == "__main__":
    main()

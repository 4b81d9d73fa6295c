#!/usr/bin/env python3
"""Times merges. Run it at the top of the repository; it needs `rt`, and some minutes for the proofs.

It makes a repository in a temporary folder with copies of the crates below qd_merge and a program over them, which is proved
and built like any other (`rt try` would run it without a proof, but some thousand times slower), and runs it RUNS times. The
program makes a block of rows in order of time, of a time, a symbol of 100 texts, two LONG and a VARCHAR of 10 bytes, and
merges it with blocks of late rows: one for each hundred rows, spread evenly; as many behind all; one for each ten rows,
each of which replaces one by the keys time and symbol; and the same where a hundred rows share each time. It does so with
ROWS rows and with a quarter of them. It sorts lists of ROWS rows that come in order, one in ten late, in the opposite order
and mixed, and takes out of each those that a later one replaces. For each step the shortest time is printed, in nanoseconds
for each row that comes out.

With --folder the repository is made there and stays; where its program is built already, it is run as it is.

usage: merging.py [--rows N] [--runs N] [--folder FOLDER]"""
import argparse
import os
import re
import shutil
import subprocess
import sys
import tempfile

HERE = os.path.dirname(os.path.abspath(__file__))
TOP = os.path.join(HERE, "..")
COPIED = ["qd_base", "qd_time", "qd_symbols", "qd_column", "qd_block", "qd_reference", "qd_merge"]

PROGRAM = r"""//! Times merges.
#![tactic(auto)]

ghost use Rattle.std.specs.Prelude.{◌≡◌, ◌<◌, ◌≤◌, ◌^◌, [], ◌∷◌, Contains, IfOk, OnOk};
ghost use Rattle.qd_base.specs.declared.schema.ColType.TheVariants as kind;
ghost use Rattle.qd_block.specs.Blocks.{kinds_in};
ghost use Rattle.qd_merge.specs.Laws.{AreKeys, IsBatch};

use qd_base::{Cell, Col, ColList, ColType, KeyList, Memory, Row, RowList, Txt};
use qd_block::Builder;
use qd_merge::{Block, dedup_batch, dedup_block, merge_blocks, sort_batch};
use qd_symbols::SymbolMap;
use std::alloc::Global;
use std::io;
use std::time::Instant;

const ROWS: u64 = @ROWS@;

fn col(alloc: Global, kind: ColType) -> Result<Col, Memory>
    ensures { IfOk result (λ c. c.kind ≡ kind) }
{
    let name = Txt::from_bytes(alloc, b"c")?;
    Ok(Col { name, kind })
}

fn columns(alloc: Global) -> Result<ColList, Memory>
    ensures { IfOk result (λ cols. kinds_in cols ≡ kind.Time ∷ kind.Symbol ∷ kind.Long ∷ kind.Long ∷ kind.Varchar ∷ []) }
{
    let mut cols = ColList::new(alloc);
    cols.push(col(alloc, ColType::Time)?)?;
    cols.push(col(alloc, ColType::Symbol)?)?;
    cols.push(col(alloc, ColType::Long)?)?;
    cols.push(col(alloc, ColType::Long)?)?;
    cols.push(col(alloc, ColType::Varchar)?)?;
    Ok(cols)
}

fn digit(i: u64) -> u8 {
    b'0' + (i % 10) as u8
}

fn symbol(i: u64) -> [u8; 3] {
    [b's', digit(i / 10), digit(i)]
}

fn text(i: u64) -> [u8; 10] {
    [
        digit(i),
        digit(i / 10),
        digit(i / 100),
        digit(i / 1_000),
        digit(i / 10_000),
        digit(i / 100_000),
        b'a',
        b'b',
        b'c',
        b'd',
    ]
}

fn add_row(rows: &mut Builder<SymbolMap>, time: u64, i: u64) -> Result<(), Memory>
    requires kinds { rows.old.kinds ≡ kind.Time ∷ kind.Symbol ∷ kind.Long ∷ kind.Long ∷ kind.Varchar ∷ [] }
    requires begun { rows.old.open_row ≡ [] }
    requires small { time < 2 ^ 63 }
    ensures kinds { OnOk result (rows.new.kinds ≡ kind.Time ∷ kind.Symbol ∷ kind.Long ∷ kind.Long ∷ kind.Varchar ∷ []) }
    ensures begun { OnOk result (rows.new.open_row ≡ []) }
    ensures time_col { OnOk result (rows.new.time_col ≡ rows.old.time_col) }
{
    rows.push_time(time)?;
    rows.push_text(symbol(i).as_slice())?;
    rows.push_long((i % 1_000) as i64)?;
    rows.push_long((i % 77) as i64)?;
    rows.push_text(text(i).as_slice())?;
    rows.end_row();
    Ok(())
}

/// Numbers of rows, from one on, and how many microseconds they are late. Each has a millisecond of its own, or a
/// hundred share one.
#[derive(Clone, Copy)]
struct Numbers {
    first: u64,
    step: u64,
    late: u64,
    crowded: bool,
}

/// The millisecond of a number.
fn millisecond(number: u64, crowded: bool) -> u64
    ensures low { result ≤ number }
{
    if crowded { number / 100 } else { number }
}

fn built(alloc: Global, count: u64, numbers: Numbers) -> Result<Block, Memory>
    requires late { numbers.late < 1000 }
    ensures kinds { IfOk result (λ b. b.kinds ≡ kind.Time ∷ kind.Symbol ∷ kind.Long ∷ kind.Long ∷ kind.Varchar ∷ []) }
    ensures time_col { IfOk result (λ b. b.time_col ≡ 0) }
{
    let mut rows = Builder::new(alloc, &columns(alloc)?, 0)?;
    for i in 0..count {
        let number = numbers.first.wrapping_add(i.wrapping_mul(numbers.step)) % 1_000_000_000_000;
        let time = millisecond(number, numbers.crowded) * 1_000 + numbers.late;
        add_row(&mut rows, time, number)?;
    }
    rows.finish()
}

fn time_and_symbol(alloc: Global) -> Result<KeyList, Memory>
    ensures time { IfOk result (λ keys. Contains keys 0) }
{
    let mut keys = KeyList::new(alloc);
    keys.push(0)?;
    keys.push(1)?;
    Ok(keys)
}

fn keys(alloc: Global, keyed: bool) -> Result<KeyList, Memory>
    ensures keys { IfOk result (AreKeys 0) }
{
    if keyed {
        return time_and_symbol(alloc);
    }
    Ok(KeyList::new(alloc))
}

fn said(rt: &HostRuntime, what: &str, began: Instant, rows: u64) -> io::Result<()> {
    let nanos = began.elapsed(rt)?.as_nanos();
    println!(rt; "{}: {} ns for {} rows", what, nanos, rows)
}

fn run_batch(rt: &HostRuntime, what: &str, came: &Block, keys: &KeyList) -> io::Result<Block>
    requires time_col { came.now.time_col ≡ 0 }
    requires keys { AreKeys 0 keys.now }
    ensures kinds { IfOk result (λ b. b.kinds ≡ came.now.kinds) }
    ensures time_col { IfOk result (λ b. b.time_col ≡ 0) }
    ensures batch { IfOk result (λ b. IsBatch 0 keys.now b.rows) }
{
    came.is_whole();
    let began = Instant::now(rt)?;
    let batch = dedup_block(rt.alloc(), came, keys)?;
    said(rt, what, began, batch.rows())?;
    Ok(batch)
}

fn run_merge(
    rt: &HostRuntime,
    what: &str,
    old: &Block,
    batch: &Block,
    keys: &KeyList,
) -> io::Result<()>
    requires old { old.now.time_col ≡ 0 }
    requires kinds { old.now.kinds ≡ batch.now.kinds }
    requires time_col { batch.now.time_col ≡ 0 }
    requires keys { AreKeys 0 keys.now }
    requires batch { IsBatch 0 keys.now batch.now.rows }
{
    let began = Instant::now(rt)?;
    let merged = merge_blocks(rt.alloc(), old, 0, batch, keys)?;
    said(rt, what, began, merged.rows())
}

fn run_block(rt: &HostRuntime, old: &Block, came: &Block, what: &str) -> io::Result<()>
    requires old { old.now.time_col ≡ 0 }
    requires kinds { old.now.kinds ≡ came.now.kinds }
    requires time_col { came.now.time_col ≡ 0 }
{
    println!(rt; "with {}", what)?;
    let none = keys(rt.alloc(), false)?;
    let all = run_batch(rt, "dedup_block without keys", came, &none)?;
    run_merge(rt, "merged without keys", old, &all, &none)?;
    let keys = keys(rt.alloc(), true)?;
    let batch = run_batch(rt, "dedup_block by keys", came, &keys)?;
    run_merge(rt, "merged by keys", old, &batch, &keys)
}

fn run_late(
    rt: &HostRuntime,
    old: &Block,
    count: u64,
    numbers: Numbers,
    what: &str,
) -> io::Result<()>
    requires old { old.now.time_col ≡ 0 }
    requires kinds { old.now.kinds ≡ kind.Time ∷ kind.Symbol ∷ kind.Long ∷ kind.Long ∷ kind.Varchar ∷ [] }
    requires late { numbers.late < 1000 }
{
    let came = built(rt.alloc(), count, numbers)?;
    run_block(rt, old, &came, what)
}

/// Numbers that share no time.
fn apart(first: u64, step: u64, late: u64) -> Numbers
    ensures late { result.late ≡ late }
{
    Numbers {
        first,
        step,
        late,
        crowded: false,
    }
}

/// Numbers of which a hundred share each time.
fn together(step: u64) -> Numbers
    ensures late { result.late ≡ 0 }
{
    Numbers {
        first: 0,
        step,
        late: 0,
        crowded: true,
    }
}

fn run_blocks(rt: &HostRuntime, rows: u64) -> io::Result<()> {
    let old = built(rt.alloc(), rows, apart(0, 1, 0))?;
    run_late(
        rt,
        &old,
        rows / 100,
        apart(0, 100, 500),
        "late rows spread evenly",
    )?;
    run_late(rt, &old, rows / 100, apart(rows, 1, 0), "rows behind all")?;
    run_late(rt, &old, rows / 10, apart(0, 10, 0), "rows of equal keys")?;
    let crowded = built(rt.alloc(), rows, together(1))?;
    run_late(
        rt,
        &crowded,
        rows / 10,
        together(10),
        "rows of equal keys, a hundred of one time",
    )
}

fn row(alloc: Global, time: u64, i: u64) -> Result<Row, Memory> {
    let mut row = Row::new(alloc);
    row.push(Cell::Time(time))?;
    row.push(Cell::Text(Txt::from_bytes(alloc, symbol(i).as_slice())?))?;
    row.push(Cell::Long((i % 1_000) as i64))?;
    row.push(Cell::Long((i % 77) as i64))?;
    row.push(Cell::Text(Txt::from_bytes(alloc, text(i).as_slice())?))?;
    Ok(row)
}

fn time_of(order: u8, i: u64) -> u64 {
    match order {
        0 => i,
        1 if i % 10 == 0 => i / 2,
        1 => i,
        2 => ROWS.saturating_sub(i),
        _ => i.wrapping_mul(0x9E37_79B9_7F4A_7C15) % ROWS,
    }
}

fn listed(alloc: Global, order: u8) -> Result<RowList, Memory> {
    let mut rows = RowList::new(alloc);
    for i in 0..ROWS {
        rows.push(row(alloc, time_of(order, i), i)?)?;
    }
    Ok(rows)
}

fn run_list(rt: &HostRuntime, order: u8, what: &str) -> io::Result<()> {
    println!(rt; "with {}", what)?;
    let rows = listed(rt.alloc(), order)?;
    let began = Instant::now(rt)?;
    let sorted = sort_batch(rt.alloc(), rows, 0)?;
    said(rt, "sort_batch", began, sorted.len() as u64)?;
    let keys = time_and_symbol(rt.alloc())?;
    let began = Instant::now(rt)?;
    let batch = dedup_batch(rt.alloc(), sorted, &keys)?;
    said(rt, "dedup_batch", began, batch.len() as u64)
}

fn run_lists(rt: &HostRuntime) -> io::Result<()> {
    run_list(rt, 0, "rows in order")?;
    run_list(rt, 1, "one row in ten late")?;
    run_list(rt, 2, "rows in the opposite order")?;
    run_list(rt, 3, "rows mixed")
}

fn main(rt: HostRuntime) -> io::Result<()> {
    run_blocks(&rt, ROWS / 4)?;
    run_blocks(&rt, ROWS)?;
    run_lists(&rt)
}
"""

# what the search doesn't find of the program's proof
PROOFS = {
    "proofs/built/Invariants.antt": r"""use Rattle.std.proofs.Common.{◌≡◌, [], ◌∷◌}
use Rattle.qd_base.specs.declared.schema.ColType.TheVariants as kind
use Rattle.merging_bench.proofs.built.Given as goal

abbrev pub invariant-loop-i : goal.invariant-loop-i
invariant-loop-i l = record { kinds : l.rows.kinds ≡ kind.Time ∷ kind.Symbol ∷ kind.Long ∷ kind.Long ∷ kind.Varchar ∷ []; begun : l.rows.open_row ≡ []; time_col : l.rows.time_col ≡ 0 }
""",
    "proofs/time_and_symbol/Answers.antt": r"""use Rattle.std.proofs.Common.{◌∙◌, ℕ, List, ◌∷◌, ◌++◌, [], Contains, ap, sym, subst, refl, arith}
use Rattle.merging_bench.proofs.time_and_symbol.Goals as goal

pub returns : goal.returns
returns c =
    let keys = c.in_ok-push-2.ensures.ok ∙ ap (λ (ks : List ℕ). ks ++ 1 ∷ []) (c.in_ok-push.ensures.ok ∙ ap (λ (ks : List ℕ). ks ++ 0 ∷ []) c.new-keys.ensures.empty) in
    record { time = subst (λ (ks : List ℕ). Contains ks 0) (sym keys) (0, omega arith, refl) }
""",
    "proofs/keys/Answers.antt": r"""use Rattle.std.proofs.Common.{inl, inr}
use Rattle.std.proofs.lemmas.Result.{IfOk-weaker}
use Rattle.merging_bench.proofs.keys.Goals as goal

pub returns-then-keyed : goal.returns-then-keyed
returns-then-keyed c = record { keys = IfOk-weaker c.time_and_symbol.result _ _ (λ ks there. inr there) c.time_and_symbol.ensures.time }

pub returns : goal.returns
returns c = record { keys = inl c.new.ensures.empty }
""",
    "proofs/run_batch/Answers.antt": r"""use Rattle.std.proofs.Common.{◌≡◌, ◌∙◌, ℕ, List, ap, sym, subst, refl}
use Rattle.qd_base.specs.Rows.{Row}
use Rattle.qd_base.specs.Laws.{IsInOrder}
use Rattle.qd_base.proofs.Sorted.{stable_is_put}
use Rattle.qd_block.specs.Blocks.{Block}
use Rattle.qd_merge.specs.Batch.{last_of_equals}
use Rattle.qd_merge.specs.Laws.{AreKeys, IsBatch}
use Rattle.qd_merge.proofs.Batches.{batch_is_batch}
use Rattle.merging_bench.proofs.run_batch.Goals as goal

pub dedup_block-requires : goal.dedup_block-requires
dedup_block-requires c = record { keys = subst (λ (col : ℕ). AreKeys col c.args.keys.now) (sym c.requires.time_col) c.requires.keys }

pub returns : goal.returns
returns c =
    let rows = c.args.came.now.rows in
    let keys = c.args.keys.now in
    let order : IsInOrder 0 rows = subst (λ (col : ℕ). IsInOrder col rows) c.requires.time_col c.is_whole.ensures.whole.order in
    let is = c.in_ok-batch.ensures.last in
    record {
      kinds = ap (λ (b : Block). b.kinds) is;
      time_col = ap (λ (b : Block). b.time_col) is ∙ c.requires.time_col;
      batch = subst (λ (b : Block). IsBatch 0 keys b.rows) (sym is) (subst (λ (rs : List Row). IsBatch 0 keys (last_of_equals keys rs)) (sym (stable_is_put 0 rows rows order (λ t. refl))) (batch_is_batch 0 keys rows));
    }
""",
    "proofs/run_merge/Answers.antt": r"""use Rattle.std.proofs.Common.{◌≡◌, ◌∙◌, ◌≤◌, ℕ, List, ap, sym, subst, length, take, arith}
use Rattle.std.proofs.lemmas.List.{take_all}
use Rattle.qd_base.specs.declared.schema.ColType.{ColType}
use Rattle.qd_merge.specs.Laws.{AreKeys, IsBatch}
use Rattle.merging_bench.proofs.run_merge.Goals as goal

pub merge_blocks-requires-clause-keys : goal.merge_blocks-requires-clause-keys
merge_blocks-requires-clause-keys c = subst (λ (col : ℕ). AreKeys col c.args.keys.now) (sym c.requires.time_col) c.requires.keys

pub merge_blocks-requires-clause-kinds : goal.merge_blocks-requires-clause-kinds
merge_blocks-requires-clause-kinds c =
    let kinds = c.args.batch.now.kinds in
    ap (λ (ks : List ColType). take (length ks) kinds) c.requires.kinds ∙ take_all (length kinds) kinds (omega arith) ∙ sym c.requires.kinds

pub merge_blocks-requires-clause-time_col : goal.merge_blocks-requires-clause-time_col
merge_blocks-requires-clause-time_col c = c.requires.old ∙ sym c.requires.time_col

pub merge_blocks-requires-clause-batch : goal.merge_blocks-requires-clause-batch
merge_blocks-requires-clause-batch c = subst (λ (col : ℕ). IsBatch col c.args.keys.now c.args.batch.now.rows) (sym c.requires.time_col) c.requires.batch
""",
}


def made(top, rows):
    """Makes the repository, and gives the program's folder."""
    for crate in COPIED:
        shutil.copytree(os.path.join(TOP, "crates", crate), os.path.join(top, "crates", crate), ignore=shutil.ignore_patterns("out"))
    with open(os.path.join(TOP, "crates.txt"), encoding="utf-8") as lines:
        kept = [line for line in lines if line.split(":")[0] in COPIED]
    with open(os.path.join(top, "crates.txt"), "w", encoding="utf-8") as listed:
        listed.writelines(kept + ["merging_bench: qd_base qd_symbols qd_block qd_merge\n"])
    folder = os.path.join(top, "crates", "merging_bench")
    files = dict(PROOFS, **{"src/main.rt": PROGRAM.replace("@ROWS@", str(rows))})
    for name, text in files.items():
        path = os.path.join(folder, name)
        os.makedirs(os.path.dirname(path), exist_ok=True)
        with open(path, "w", encoding="utf-8") as file:
            file.write(text)
    return folder


def measured(program, runs):
    """Runs the program, and gives for each step and number of rows the shortest time."""
    best = {}
    for _ in range(runs):
        text = subprocess.run([program], text=True, capture_output=True, check=True).stdout
        what = ""
        for line in text.splitlines():
            if line.startswith("with "):
                what = line[5:]
            step = re.match(r"(.*): (\d+) ns for (\d+) rows", line)
            if step:
                name = f"{step[1]}, {what}", int(step[3])
                best[name] = min(int(step[2]), best.get(name, 1 << 62))
    return best


def timed(top, rows, runs):
    """Builds the program in a folder, unless it is there, and prints what was measured."""
    folder = os.path.join(top, "crates", "merging_bench")
    program = os.path.join(folder, "out", "merging_bench")
    if not os.path.exists(program):
        made(top, rows)
        built = subprocess.run(["rt", "run"], cwd=folder, text=True, capture_output=True)
        if not os.path.exists(program):
            print(built.stdout[-4000:], built.stderr[-4000:], sep="")
            sys.exit(1)
    for (name, count), nanos in measured(program, runs).items():
        print(f"{name:<74} {count:>9,} rows  {nanos / count:8.1f} ns a row")


def main():
    parser = argparse.ArgumentParser(description=__doc__, formatter_class=argparse.RawDescriptionHelpFormatter)
    parser.add_argument("--rows", type=int, default=1_000_000)
    parser.add_argument("--runs", type=int, default=5)
    parser.add_argument("--folder")
    options = parser.parse_args()
    if options.folder:
        timed(os.path.abspath(options.folder), options.rows, options.runs)
        return
    with tempfile.TemporaryDirectory() as top:
        timed(top, options.rows, options.runs)


if __name__ == "__main__":
    main()

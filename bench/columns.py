#!/usr/bin/env python3
"""Times stored columns. Run it at the top of the repository; it needs `rt`, and some minutes for the proofs.

It makes a repository in a temporary folder with copies of the crates below qd_column_format and a program over them, which is
proved and built like any other, and runs it RUNS times. The program makes ROWS rows of a time, a LONG, a truth value, a symbol
of 100 texts and a VARCHAR of 10 bytes, and for each column times `encode_column` of all rows and `decode_column` of the bytes.
For each step the shortest time is printed, in nanoseconds for each of the ROWS rows, and the bytes of both files that pass by
in a nanosecond, which is gigabytes in a second.

usage: columns.py [--rows N] [--runs N]"""
import argparse
import os
import re
import shutil
import subprocess
import sys
import tempfile

HERE = os.path.dirname(os.path.abspath(__file__))
TOP = os.path.join(HERE, "..")
COPIED = ["qd_base", "qd_symbols", "qd_column", "qd_block", "qd_column_format"]

PROGRAM = r"""//! Times stored columns.
#![tactic(auto)]
ghost use Rattle.std.specs.Prelude.{◌≡◌, ◌<◌, ◌^◌, [], ◌∷◌, length, IfOk, OnOk};
ghost use Rattle.qd_base.specs.declared.schema.ColType.TheVariants as kind;
ghost use Rattle.qd_block.specs.Blocks.{kinds_in};

use qd_base::{Col, ColList, ColType, Memory, Txt};
use qd_block::{Block, Builder};
use qd_column::Column;
use qd_column_format::{ColumnBytes, ColumnFault, decode_column, encode_column};
use qd_symbols::SymbolMap;
use std::alloc::Global;
use std::io;
use std::time::Instant;

const ROWS: u64 = @ROWS@;

fn col(alloc: Global, kind: ColType) -> Result<Col, Memory>
    ensures { IfOk result (λ c. c.kind ≡ kind) }
{
    let name = Txt::from_bytes(alloc, b"c")?;
    Ok(Col { name, kind })
}

fn columns(alloc: Global) -> Result<ColList, Memory>
    ensures { IfOk result (λ cols. kinds_in cols ≡ kind.Time ∷ kind.Long ∷ kind.Bool ∷ kind.Symbol ∷ kind.Varchar ∷ []) }
{
    let mut cols = ColList::new(alloc);
    cols.push(col(alloc, ColType::Time)?)?;
    cols.push(col(alloc, ColType::Long)?)?;
    cols.push(col(alloc, ColType::Bool)?)?;
    cols.push(col(alloc, ColType::Symbol)?)?;
    cols.push(col(alloc, ColType::Varchar)?)?;
    Ok(cols)
}

fn digit(i: u64) -> u8 {
    b'0' + (i % 10) as u8
}

fn symbol(i: u64) -> [u8; 3] {
    [b's', digit(i / 10), digit(i)]
}

fn text(i: u64) -> [u8; 10] {
    [
        digit(i),
        digit(i / 10),
        digit(i / 100),
        digit(i / 1_000),
        digit(i / 10_000),
        digit(i / 100_000),
        b'a',
        b'b',
        b'c',
        b'd',
    ]
}

fn add_row(rows: &mut Builder<SymbolMap>, i: u64) -> Result<(), Memory>
    requires kinds { rows.old.kinds ≡ kind.Time ∷ kind.Long ∷ kind.Bool ∷ kind.Symbol ∷ kind.Varchar ∷ [] }
    requires begun { rows.old.open_row ≡ [] }
    requires small { i < 2 ^ 63 }
    ensures kinds { OnOk result (rows.new.kinds ≡ kind.Time ∷ kind.Long ∷ kind.Bool ∷ kind.Symbol ∷ kind.Varchar ∷ []) }
    ensures begun { OnOk result (rows.new.open_row ≡ []) }
{
    rows.push_time(i)?;
    rows.push_long((i % 1_000) as i64)?;
    rows.push_truth(i % 3 == 0)?;
    rows.push_text(symbol(i).as_slice())?;
    rows.push_text(text(i).as_slice())?;
    rows.end_row();
    Ok(())
}

fn built(alloc: Global) -> Result<Block<SymbolMap>, Memory>
    ensures { IfOk result (λ b. b.kinds ≡ kind.Time ∷ kind.Long ∷ kind.Bool ∷ kind.Symbol ∷ kind.Varchar ∷ []) }
{
    let mut rows = Builder::new(alloc, &columns(alloc)?, 0)?;
    for i in 0..ROWS {
        add_row(&mut rows, i)?;
    }
    rows.finish()
}

fn encoded(alloc: Global, block: &Block<SymbolMap>, col: u32) -> Result<ColumnBytes, Memory>
    requires { col < length block.now.kinds }
{
    encode_column(alloc, block, col, 0)
}

fn decoded(
    alloc: Global,
    kind: ColType,
    bytes: &ColumnBytes,
) -> Result<Column<SymbolMap>, ColumnFault> {
    decode_column(alloc, kind, ROWS, bytes.main.bytes(), bytes.aux.bytes())
}

fn rows_read(answer: Result<Column<SymbolMap>, ColumnFault>) -> u64 {
    match answer {
        Ok(column) => column.len() as u64,
        Err(_) => 0,
    }
}

fn said(rt: &HostRuntime, what: &str, began: Instant, bytes: u64, proof: u64) -> io::Result<()> {
    let nanos = began.elapsed(rt)?.as_nanos();
    println!(rt; "{}: {} ns, {} bytes ({})", what, nanos, bytes, proof)
}

fn run_column(
    rt: &HostRuntime,
    block: &Block<SymbolMap>,
    col: u32,
    kind: ColType,
    what: &str,
) -> io::Result<()>
    requires { col < length block.now.kinds }
{
    let began = Instant::now(rt)?;
    let bytes = encoded(rt.alloc(), block, col)?;
    let main = bytes.main.bytes().len() as u64;
    let aux = bytes.aux.bytes().len() as u64;
    said(rt, what, began, main.wrapping_add(aux), main)?;
    let began = Instant::now(rt)?;
    let answer = decoded(rt.alloc(), kind, &bytes);
    said(rt, what, began, main.wrapping_add(aux), rows_read(answer))
}

fn run(rt: &HostRuntime) -> io::Result<()> {
    let block = built(rt.alloc())?;
    run_column(rt, &block, 0, ColType::Time, "TIMESTAMP")?;
    run_column(rt, &block, 1, ColType::Long, "LONG")?;
    run_column(rt, &block, 2, ColType::Bool, "BOOLEAN")?;
    run_column(rt, &block, 3, ColType::Symbol, "SYMBOL")?;
    run_column(rt, &block, 4, ColType::Varchar, "VARCHAR")
}

fn main(rt: HostRuntime) -> io::Result<()> {
    run(&rt)
}
"""

# what the search doesn't find of the program's proof
PROOFS = {
    "proofs/built/Invariants.antt": r"""use Rattle.std.proofs.Common.{◌≡◌, [], ◌∷◌}
use Rattle.qd_base.specs.declared.schema.ColType.TheVariants as kind
use Rattle.columns_bench.proofs.built.Given as goal

abbrev pub invariant-loop-i : goal.invariant-loop-i
invariant-loop-i l = record { kinds : l.rows.kinds ≡ kind.Time ∷ kind.Long ∷ kind.Bool ∷ kind.Symbol ∷ kind.Varchar ∷ []; begun : l.rows.open_row ≡ [] }
""",
}


def made(top, rows):
    """Makes the repository, and gives the program's folder."""
    for crate in COPIED:
        shutil.copytree(os.path.join(TOP, "crates", crate), os.path.join(top, "crates", crate), ignore=shutil.ignore_patterns("out"))
    with open(os.path.join(TOP, "crates.txt"), encoding="utf-8") as lines:
        kept = [line for line in lines if line.split(":")[0] in COPIED]
    with open(os.path.join(top, "crates.txt"), "w", encoding="utf-8") as listed:
        listed.writelines(kept + ["columns_bench: " + " ".join(COPIED) + "\n"])
    folder = os.path.join(top, "crates", "columns_bench")
    files = dict(PROOFS, **{"src/main.rt": PROGRAM.replace("@ROWS@", str(rows))})
    for name, text in files.items():
        path = os.path.join(folder, name)
        os.makedirs(os.path.dirname(path), exist_ok=True)
        with open(path, "w", encoding="utf-8") as file:
            file.write(text)
    return folder


def measured(program, runs):
    """Runs the program, and gives the shortest time and the bytes of each step."""
    best = {}
    for _ in range(runs):
        text = subprocess.run([program], text=True, capture_output=True, check=True).stdout
        seen = set()
        for line in text.splitlines():
            step = re.match(r"(.*): (\d+) ns, (\d+) bytes", line)
            name = step[1] + (" decode" if step[1] in seen else " encode")
            seen.add(step[1])
            nanos = min(int(step[2]), best.get(name, (1 << 62, 0))[0])
            best[name] = (nanos, int(step[3]))
    return best


def main():
    parser = argparse.ArgumentParser(description=__doc__, formatter_class=argparse.RawDescriptionHelpFormatter)
    parser.add_argument("--rows", type=int, default=1_000_000)
    parser.add_argument("--runs", type=int, default=5)
    options = parser.parse_args()
    with tempfile.TemporaryDirectory() as top:
        folder = made(top, options.rows)
        built = subprocess.run(["rt", "run"], cwd=folder, text=True, capture_output=True)
        program = os.path.join(folder, "out", "columns_bench")
        if not os.path.exists(program):
            print(built.stdout[-4000:], built.stderr[-4000:], sep="")
            sys.exit(1)
        best = measured(program, options.runs)
    for name, (nanos, count) in best.items():
        print(f"{name:<20} {nanos / options.rows:8.2f} ns a row {count / nanos:8.2f} bytes a ns")


if __name__ == "__main__":
    main()

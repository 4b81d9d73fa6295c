#!/usr/bin/env python3
"""Times `parse_batch` of qd_ilp, and measures the memory that it takes, on texts of one form each.

It makes a program in a folder of its own, over copies of qd_base and qd_ilp, which `rt run` proves and builds. The first
table has lines of 108 bytes (two tags, three integers, a text and a stamp) and other lawful lines, in texts of 100,000
bytes; the second has texts of 16 MiB, among them what strangers may send: blank lines alone, commas, one name, a quote
that never closes. Times are processor time of one core; memory is the process's peak, less that of the text.

usage: parse_lines.py [--folder PATH] [--rounds N]
--folder keeps the program there, and uses it again if it is built. It needs `rt`.
"""
import argparse
import os
import re
import shutil
import subprocess
import sys
import tempfile

TOP = os.path.dirname(os.path.dirname(os.path.abspath(__file__)))
MIB = 1 << 20
SIZE = 100_000

# each form: what stands first, and what is repeated
LAWFUL = {
    "lines": (r"", r"cpu,hostname=host_17,region=eu-west-1 user=58i,system=2i,idle=24i,note=\"all is well ok\" 1451606400000000000\n"),
    "escaped": (r"", r"c\\ pu,hostname=host\\,17 note=\"all \\\"is\\\" well\",n=1i 1451606400000000000\n"),
    "accents": (r"", r"cpu,hostname=h\xc3\xb4te note=\"tout va tr\xc3\xa8s bien\",n=1i 1451606400000000000\n"),
    "short": (r"", r"t,a=b\n"),
}
HOSTILE = {
    "blank lines": (r"", r"\n"),
    "comments": (r"", r"#\n"),
    "carriage returns": (r"", r"\r"),
    "commas": (r"", r","),
    "equals signs": (r"", r"="),
    "spaces": (r"t v=1i", r" "),
    "one name": (r"", r"n"),
    "backslashes": (r"", r"\\"),
    "escaped name": (r"", r"\\,"),
    "one value": (r"t v=", r"9"),
    "one stamp": (r"t v=1i ", r"9"),
    "open quote": (r"t v=\"", r"x"),
    "escaped quotes": (r"t v=\"", r"\\\""),
    "shortest rows": (r"", r"t,a=b\n"),
    "one wide row": (r"t,a=b v=t", r",v=t"),
}

PROGRAM = r'''//! Times `parse_batch` on texts of one form.
#![tactic(auto)]

use qd_ilp::parse_batch;
use std::alloc::{AllocError, Global};
use std::env;
use std::io::{Error, ErrorKind};

/// What stands first in the texts of a form, and what is repeated.
fn form_of(name: &str) -> (&'static [u8], &'static [u8]) {
    match name {
FORMS
        _ => (b"", b"\n"),
    }
}

fn text_of(alloc: Global, name: &str, bytes: usize) -> Result<Vec<u8>, AllocError> {
    let (first, part) = form_of(name);
    let mut text = Vec::with_capacity(alloc, bytes)?;
    text.extend_from_slice(first)?;
    for _ in 0..bytes {
        if text.len() + part.len() > bytes {
            break;
        }
        text.extend_from_slice(part)?;
    }
    Ok(text)
}

fn main(rt: HostRuntime) -> Result<(), Error> {
    let mut args = env::args(&rt)?;
    let _program = args.next();
    let name = args.next().ok_or(Error::from(ErrorKind::InvalidInput))?;
    let bytes = args
        .next()
        .and_then(|n| n.parse::<usize>().ok())
        .ok_or(Error::from(ErrorKind::InvalidInput))?;
    let rounds = args
        .next()
        .and_then(|n| n.parse::<u32>().ok())
        .ok_or(Error::from(ErrorKind::InvalidInput))?;
    let text = text_of(rt.alloc(), name.as_str(), bytes)?;
    let mut line = None;
    for _ in 0..rounds {
        line = parse_batch(rt.alloc(), text.as_slice())?.faulty_line();
    }
    let line = line.unwrap_or(0);
    println!(rt; "{line}")
}
'''


def built(folder):
    """The path of the program, which is made there unless it is there already."""
    crate = os.path.join(folder, "crates", "time_lines")
    program = os.path.join(crate, "out", "time_lines")
    if os.path.exists(program):
        return program
    for name in ("qd_base", "qd_ilp"):
        shutil.copytree(os.path.join(TOP, "crates", name), os.path.join(folder, "crates", name), ignore=shutil.ignore_patterns("out", "must-fail"))
    for part in ("src", "specs", "proofs"):
        os.makedirs(os.path.join(crate, part))
    arms = "\n".join(f'        "{name}" => (b"{first}", b"{part}"),' for name, (first, part) in {**LAWFUL, **HOSTILE}.items())
    with open(os.path.join(crate, "src", "main.rt"), "w") as file:
        file.write(PROGRAM.replace("FORMS", arms))
    with open(os.path.join(folder, "crates.txt"), "w") as file:
        file.write("qd_base:\nqd_ilp: qd_base\ntime_lines: qd_ilp\n")
    shutil.copy(os.path.join(TOP, "HANDLES"), folder)
    subprocess.run(["git", "init", "-q", folder], check=True)
    run = subprocess.run(["rt", "run", "--", "lines", "1000", "1"], cwd=crate, stdout=subprocess.PIPE, stderr=subprocess.STDOUT, text=True)
    if not os.path.exists(program):
        sys.exit(run.stdout)
    return program


def ran(program, form, size, rounds):
    """The processor seconds, the peak of memory in bytes, and the line that is refused, of one run."""
    process = subprocess.Popen([program, form, str(size), str(rounds)], stdout=subprocess.PIPE, text=True)
    line = int(process.stdout.read())
    usage = os.wait4(process.pid, 0)[2]
    return usage.ru_utime + usage.ru_stime, usage.ru_maxrss * 1024, line


def size_of(form):
    """The bytes of one repeated part."""
    return len(re.sub(r"\\x..|\\.", "?", form[1]))


def main():
    parser = argparse.ArgumentParser()
    parser.add_argument("--folder")
    parser.add_argument("--rounds", type=int, default=2000)
    given = parser.parse_args()
    folder = given.folder or tempfile.mkdtemp(prefix="parse_lines_")
    program = built(folder)
    print(f"{'form':18} {'bytes a line':>12} {'ns a line':>10} {'ns a byte':>10}")
    for name, form in LAWFUL.items():
        each = size_of(form)
        byte = (ran(program, name, SIZE, given.rounds)[0] - ran(program, name, SIZE, 0)[0]) / given.rounds / SIZE * 1e9
        print(f"{name:18} {each:12} {byte * each:10.1f} {byte:10.2f}")
    print(f"\n{'16 MiB of':18} {'line refused':>12} {'ns a byte':>10} {'peak bytes a byte':>18}")
    for name in HOSTILE:
        base = ran(program, name, 16 * MIB, 0)
        full = ran(program, name, 16 * MIB, 1)
        print(f"{name:18} {full[2] or '-':>12} {(full[0] - base[0]) / (16 * MIB) * 1e9:10.2f} {(full[1] - base[1]) / (16 * MIB):18.2f}")
    if not given.folder:
        shutil.rmtree(folder)


if __name__ == "__main__":
    main()

#!/usr/bin/env python3
"""Compares qd_time with Python's datetime: 50,000 moments (text, its reading, unit, next unit, partition name,
interval) and 50,000 buckets (start and next start). Run it at the top of the repository; it needs `rt`.

It makes a repository in a temporary folder with copies of the crates below qd_time and a program that reads the
cases, one a line, calls qd_time, and counts those that agree; the program is run by `rt try`, without a proof."""
import calendar, os, random, shutil, subprocess, sys, tempfile
import datetime as D

EPOCH = D.datetime(1970, 1, 1)
MAX = 253402300799999999
UNITS = ["Micro", "Milli", "Second", "Minute", "Hour", "Day", "Month", "Year"]
PARTS = ["Hour", "Day", "Month", "Year"]
MICROS = dict(Micro=1, Milli=10**3, Second=10**6, Minute=60 * 10**6, Hour=3600 * 10**6, Day=86400 * 10**6)


def micros(moment):
    d = moment - EPOCH
    return (d.days * 86400 + d.seconds) * 10**6 + d.microseconds


def moment(ts):
    return EPOCH + D.timedelta(microseconds=ts)


def text(ts):
    return moment(ts).strftime("%Y-%m-%dT%H:%M:%S.%f") + "Z"


def unit(ts, part):
    """The start of the unit that contains ts, and of the next one, or None."""
    zero = dict(minute=0, second=0, microsecond=0)
    start = moment(ts).replace(**zero)
    if part != "Hour":
        start = start.replace(hour=0)
    if part in ("Month", "Year"):
        start = start.replace(day=1)
    if part == "Year":
        start = start.replace(month=1)
    try:
        if part in ("Hour", "Day"):
            after = start + D.timedelta(**{part.lower() + "s": 1})
        elif part == "Month":
            after = start.replace(year=start.year + start.month // 12, month=start.month % 12 + 1)
        else:
            after = start.replace(year=start.year + 1)
        return micros(start), micros(after)
    except (ValueError, OverflowError):
        return micros(start), None


def month_start(month):
    year, month = 1970 + month // 12, month % 12 + 1
    if year == 10000:
        return micros(D.datetime(9999, 12, 31)) + MICROS["Day"]
    return micros(D.datetime(year, month, 1))


def months(ts):
    if ts > MAX:
        return 12 * 8030
    at = moment(ts)
    return (at.year - 1970) * 12 + at.month - 1


def by_months(ts, n, offset):
    if ts < offset:
        return 0, offset
    month = months(ts - offset) // n * n
    start = max(0, month_start(month) + offset)
    if month + n > 12 * 8030:
        return start, None
    return start, max(0, month_start(month + n) + offset)


def moved(t0, count):
    at = moment(t0)
    month = (at.year - 1970) * 12 + at.month - 1 + count
    year, month = 1970 + month // 12, month % 12 + 1
    if year > 9999:
        return None
    return micros(at.replace(year=year, month=month, day=min(at.day, calendar.monthrange(year, month)[1])))


def counted_months(ts, n, t0):
    reached = lambda k: moved(t0, k * n) is not None and moved(t0, k * n) <= ts
    low, high = 0, 1
    while reached(high):
        low, high = high, 2 * high
    while high - low > 1:
        middle = (low + high) // 2
        low, high = (middle, high) if reached(middle) else (low, middle)
    return moved(t0, low * n), moved(t0, (low + 1) * n)


def bucket(ts, n, unit, kind, value):
    """The start of the bucket that contains ts, or None before the first one, and the next start, or None."""
    if kind == 1 and ts < value:
        return None, value
    if unit in MICROS:
        step, zero = n * MICROS[unit], value if kind == 1 else value * MICROS["Minute"]
        k = (ts - zero) // step
        start, after = max(0, zero + k * step), zero + (k + 1) * step
    else:
        n = n * (12 if unit == "Year" else 1)
        start, after = counted_months(ts, n, value) if kind == 1 else by_months(ts, n, value * MICROS["Minute"])
    return start, after if after is not None and after <= MAX else None


def some_moment():
    edges = [0, 1, MAX, MAX - 1]
    edges += [micros(D.datetime(*d)) for d in [(1972, 2, 29), (2000, 2, 29, 23, 59, 59, 999999), (2100, 3, 1), (9999, 12, 31), (1970, 1, 31, 12), (2024, 1, 31, 5)]]
    return random.choice([
        lambda: random.choice(edges),
        lambda: random.randrange(MAX + 1),
        lambda: random.randrange(3 * 10**12),
        lambda: MAX - random.randrange(3 * 10**12),
        lambda: random.randrange(micros(D.datetime(2100, 1, 1))),
        lambda: max(0, micros(D.datetime(random.randrange(1970, 2100), random.randrange(1, 13), 1)) + random.choice([-1, 0, 1])),
    ])()


def cases(count):
    shown = lambda x: -1 if x is None else x
    for _ in range(count):
        ts, part = some_moment(), random.randrange(4)
        start, after = unit(ts, PARTS[part])
        yield f"m {ts} {part} {start} {shown(after)} {text(ts)} {[13, 10, 7, 4][part]}"
    for _ in range(count):
        ts, which = some_moment(), random.randrange(8)
        n = random.choice([1, 1, 2, 3, 5, 7, 12, 15, 30, 100, 1000, 1000000, random.randrange(1, 1000001)])
        kind = random.randrange(2)
        if kind == 0:
            value = random.choice([0, 0, 30, -30, 60, -60, 330, 1439, -1439, random.randrange(-1439, 1440)])
        else:
            value = random.choice([some_moment(), random.randrange(ts + 1), random.randrange(ts + 1)])
        start, after = bucket(ts, n, UNITS[which], kind, value)
        yield f"b {ts} {n} {which} {kind} {value} {shown(start)} {shown(after)}"


PROGRAM = r"""#![tactic(auto)]

use qd_base::PartUnit;
use qd_time::{Align, Stride, Unit, bucket_of, floor_unit, next_bucket, next_unit, parse_interval, parse_time, partition_name, print_time};
use std::io;
use std::io::{BufRead, BufReader};

fn number(text: Option<&str>) -> i64 {
    match text {
        Some(t) => match t.parse::<i64>() { Ok(n) => n, Err(_) => 0 },
        None => 0,
    }
}

fn unit(n: i64) -> Unit {
    match n { 0 => Unit::Micro, 1 => Unit::Milli, 2 => Unit::Second, 3 => Unit::Minute, 4 => Unit::Hour, 5 => Unit::Day, 6 => Unit::Month, _ => Unit::Year }
}

fn part(n: i64) -> PartUnit {
    match n { 0 => PartUnit::Hour, 1 => PartUnit::Day, 2 => PartUnit::Month, _ => PartUnit::Year }
}

fn shown(x: Option<u64>) -> i64 {
    match x { Some(n) => n as i64, None => -1 }
}

fn check(rt: &HostRuntime, line: &str) -> bool {
    let mut it = line.split(' ');
    let kind = it.next();
    if kind == Some("m") {
        let ts = number(it.next()) as u64;
        let u = number(it.next());
        let f = number(it.next());
        let g = number(it.next());
        let t = match it.next() { Some(t) => t, None => "" };
        let n = number(it.next()) as usize;
        let whole = print_time(ts);
        let name = match partition_name(rt.alloc(), ts, part(u)) { Ok(x) => x.bytes() == &t.as_bytes()[..n], Err(_) => false };
        let back = parse_time(t.as_bytes()) == Ok(ts);
        let end = if g < 0 { 253_402_300_799_999_999 } else { g as u64 - 1 };
        let span = parse_interval(&t.as_bytes()[..n]) == Ok((f as u64, end));
        return floor_unit(ts, part(u)) as i64 == f && shown(next_unit(ts, part(u))) == g && whole.as_slice() == t.as_bytes() && name && back && span;
    }
    let ts = number(it.next()) as u64;
    let n = number(it.next()) as u32;
    let u = unit(number(it.next()));
    let a = number(it.next());
    let v = number(it.next());
    let s = number(it.next());
    let e = number(it.next());
    let align = if a == 0 { Align::Calendar { minutes: v as i32 } } else { Align::First { t0: v as u64 } };
    let stride = Stride { n, unit: u };
    let start = if s < 0 { true } else { bucket_of(ts, stride, align) as i64 == s };
    start && shown(next_bucket(ts, stride, align)) == e
}

fn main(rt: HostRuntime) -> io::Result<()> {
    let mut good = 0u64;
    let mut bad = 0u64;
    for line in BufReader::new(rt.alloc(), rt.reader())?.lines(rt.alloc()) {
        let line = line?;
        if check(&rt, line.as_str()) { good += 1; } else { bad += 1; if bad < 10 { println!(rt; "{line}")?; } }
    }
    println!(rt; "good {good} bad {bad}")
}
"""


def main():
    seed = int(sys.argv[1]) if len(sys.argv) > 1 else 1
    random.seed(seed)
    lines = "\n".join(cases(50000)) + "\n"
    with tempfile.TemporaryDirectory() as top:
        for name in ["qd_base", "qd_time"]:
            shutil.copytree(f"crates/{name}", f"{top}/crates/{name}", ignore=shutil.ignore_patterns("out"))
        os.makedirs(f"{top}/crates/probe/src")
        with open(f"{top}/crates/probe/src/main.rt", "w", encoding="utf-8") as f:
            f.write(PROGRAM)
        wanted = ("qd_base:", "qd_time:")
        with open("crates.txt", encoding="utf-8") as f:
            kept = [line for line in f if line.startswith(wanted)]
        with open(f"{top}/crates.txt", "w", encoding="utf-8") as f:
            f.writelines(kept + ["probe: qd_time qd_base\n"])
        run = subprocess.run(["rt", "try"], cwd=f"{top}/crates/probe", input=lines, text=True, capture_output=True)
    print(f"seed {seed}")
    print(run.stdout, run.stderr, sep="")
    sys.exit(0 if "good 100000 bad 0" in run.stdout + run.stderr else 1)


if __name__ == "__main__":
    main()

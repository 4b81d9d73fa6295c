#!/usr/bin/env python3
"""Runs the gate and tells what it costs: processor minutes by crate and by kind, and the dearest steps.

usage: bench/gate.py [--top N] [WORD ..]     the words go to `rt ci`, as `--anew` or names of crates

While `rt ci` runs, the processes below it are looked at each quarter of a second. A process of the prover names its crate;
it is counted as a proof of the crate, as a proof of the crate's tests, or as a must-fail edit (the check that edits begin
with included). What is left between the last look at a process and its end is told as `unseen`, out of the system's own
count for all of them. The gate's lines are passed on, and its status is the status of this script. SIGINT ends the gate,
and what was counted so far is printed.
"""
import os
import re
import resource
import subprocess
import sys
import threading
import time

TOP = os.path.join(os.path.dirname(os.path.abspath(__file__)), "..")
TICK = os.sysconf("SC_CLK_TCK")
KINDS = ("proof", "tests", "edits")


def step_of(pid):
    """The crate and the kind of work of a process, or None where it isn't the prover."""
    try:
        with open(f"/proc/{pid}/cmdline", "rb") as file:
            words = file.read().decode(errors="replace").split("\0")
    except OSError:
        return None
    if not words[0].endswith("/rattle") or "--crate-name" not in words:
        return None
    crate = words[words.index("--crate-name") + 1]
    return crate, "edits" if "check" in words[:3] else "tests" if "--test" in words else "proof"


def table():
    """All processes now: the parent and the ticks of each."""
    found = {}
    for name in os.listdir("/proc"):
        if name.isdigit():
            try:
                with open(f"/proc/{name}/stat", "rb") as file:
                    rest = file.read().rsplit(b")", 1)[1].split()
            except OSError:
                continue
            found[int(name)] = int(rest[1]), int(rest[11]) + int(rest[12]), int(rest[19])
    return found


class Watch(threading.Thread):
    """Looks at the processes below one, again and again."""

    def __init__(self, root):
        super().__init__(daemon=True)
        self.root, self.spent, self.steps, self.done = root, {}, {}, False

    def look(self):
        now = table()
        below = {self.root}
        grown = True
        while grown:
            more = {pid for pid, (parent, _, _) in now.items() if parent in below} - below
            below |= more
            grown = bool(more)
        for pid in below:
            if pid in now:
                _, ticks, begun = now[pid]
                key = pid, begun
                # (a process takes its name only once it has called exec)
                if self.steps.get(key) is None:
                    self.steps[key] = step_of(pid)
                self.spent[key] = ticks / TICK

    def run(self):
        while not self.done:
            self.look()
            time.sleep(0.25)


def main():
    words, most = sys.argv[1:], 10
    if words[:1] == ["--top"]:
        most, words = int(words[1]), words[2:]
    start = time.time()
    gate = subprocess.Popen(["rt", "ci", *words], cwd=TOP)
    watch = Watch(gate.pid)
    watch.start()
    try:
        status = gate.wait()
    except KeyboardInterrupt:
        gate.terminate()
        status = gate.wait() or 1
    watch.done = True
    watch.join()
    took, used = time.time() - start, resource.getrusage(resource.RUSAGE_CHILDREN)
    cost = {}
    for key, spent in watch.spent.items():
        step = watch.steps.get(key)
        if step:
            cost[step] = cost.get(step, 0.0) + spent / 60
    crates = sorted({crate for crate, _ in cost}, key=lambda it: -sum(cost.get((it, kind), 0) for kind in KINDS))
    print(f"{'processor minutes':24}" + "".join(f"{kind:>8}" for kind in KINDS) + f"{'all':>8}")
    rows = [(crate, [cost.get((crate, kind), 0.0) for kind in KINDS]) for crate in crates]
    rows.append(("all crates", [sum(row[1][at] for row in rows) for at in range(len(KINDS))]))
    for name, parts in rows:
        print(f"{name:24}" + "".join(f"{part:8.1f}" for part in parts) + f"{sum(parts):8.1f}")
    print("the dearest steps:")
    for (crate, kind), spent in sorted(cost.items(), key=lambda it: -it[1])[:most]:
        print(f"  {crate} {kind} {spent:.1f}")
    whole = (used.ru_utime + used.ru_stime) / 60
    print(f"unseen {whole - sum(cost.values()):.1f}, all {whole:.1f} processor minutes, {took / 60:.1f} minutes by the clock")
    sys.exit(status)


main()

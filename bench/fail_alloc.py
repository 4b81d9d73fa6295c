#!/usr/bin/env python3
"""Lets each allocation of the example's run fail in turn, and says which replies came.

For N = 1, 2, .. it runs the built program on the case `example` of tests/cases with its Nth allocation failing, until a
run makes fewer allocations. Each answer has to be one that the contract of `top` allows: at status 0 every request has its
own reply, or `E 61 0` and then stands as if it hadn't been made; at status 7 the answer is a prefix of such a transcript.

With --tests it also runs `rt try --test --fail-alloc N` in each crate that has tests, for N from 1 to TESTS: each test has
to pass, or to end by an error or an assertion, and none may break off by a fault.

usage: fail_alloc.py [--program PATH] [--tests N]
Build the program first: run `rt run -- run < stdin` in crates/tsdb. It needs a C compiler for the failing allocator.
"""
import argparse
import glob
import itertools
import os
import subprocess
import sys
import tempfile

from program import parsed

HERE = os.path.dirname(os.path.abspath(__file__))
CRATES = os.path.join(HERE, "..", "crates")
ROWS = b"R 1 42\nv,timestamp\n1,2024-01-01T00:00:00.000000Z\n"
NO_MEMORY = b"E 61 0\n"

SHIM = r"""
#define _GNU_SOURCE
#include <dlfcn.h>
#include <stddef.h>
#include <stdlib.h>
static long left = -1;
static int fails(void) {
    if (left < 0) { const char *n = getenv("FAIL_ALLOC"); left = n ? atol(n) : 0; }
    if (left == 0) return 0;
    if (--left == 0) return 1;
    return 0;
}
#define WRAP(name, params, args) \
    void *name params { static void *(*next) params; \
        if (!next) next = (void *(*) params) dlsym(RTLD_NEXT, #name); \
        return fails() ? NULL : next args; }
WRAP(malloc, (size_t n), (n))
WRAP(realloc, (void *p, size_t n), (p, n))
"""


def allowed():
    """The transcripts that the example may get: each of its first three requests may find no memory."""
    found = set()
    for write, apply, query in itertools.product((True, False), repeat=3):
        applied = 1 if write and apply else 0
        replies = [b"K 1\n" if write else NO_MEMORY, (b"A %d\n" % (1 if write else 0)) if apply else NO_MEMORY]
        replies.append((ROWS if applied else b"F 0 32 0\n") if query else NO_MEMORY)
        found.add(b"".join(replies) + b"X\n")
    return found


def program_runs(program):
    """Runs the program with each allocation failing in turn. Gives whether each answer was allowed."""
    transcripts = allowed()
    with open(os.path.join(HERE, "..", "tests", "cases", "example.in"), "rb") as file:
        example = file.read()
    good = True
    with tempfile.TemporaryDirectory() as folder:
        source, shim = os.path.join(folder, "shim.c"), os.path.join(folder, "shim.so")
        with open(source, "w") as file:
            file.write(SHIM)
        subprocess.run(["cc", "-shared", "-fPIC", "-O1", "-o", shim, source, "-ldl"], check=True)
        whole = b"".join([b"K 1\nA 1\n", ROWS, b"X\n"])
        for number in itertools.count(1):
            env = dict(os.environ, LD_PRELOAD=shim, FAIL_ALLOC=str(number))
            run = subprocess.run([program, "run"], input=example, stdout=subprocess.PIPE, env=env, timeout=60)
            ok = (run.returncode == 0 and run.stdout in transcripts) or (
                run.returncode == 7 and any(t.startswith(run.stdout) for t in transcripts))
            good = good and ok
            print(f"allocation {number:2}: status {run.returncode}, {run.stdout!r}{'' if ok else '  NOT ALLOWED'}")
            if (run.returncode, run.stdout) == (0, whole):
                return good


def tested():
    """The names of the crates that have tests."""
    names = set()
    for path in glob.glob(os.path.join(CRATES, "*", "src", "**", "*.rt"), recursive=True):
        with open(path, encoding="utf-8") as file:
            if "#[test]" in file.read():
                names.add(os.path.relpath(path, CRATES).split(os.sep)[0])
    return sorted(names)


def test_runs(most):
    """Runs each crate's tests with each allocation failing in turn. Gives whether none broke off by a fault."""
    good = True
    for name in tested():
        for number in range(1, most + 1):
            run = subprocess.run(["rt", "try", "--test", "--fail-alloc", str(number)], cwd=os.path.join(CRATES, name),
                                 stdout=subprocess.PIPE, stderr=subprocess.STDOUT, text=True)
            last = run.stdout.strip().split("\n")[-1]
            faulted = run.returncode in (2, 4, 5, 6)
            good = good and not faulted
            print(f"{name}, allocation {number}: {last}{'  FAULT' if faulted else ''}", flush=True)
    return good


def main():
    parser = argparse.ArgumentParser(description=__doc__, formatter_class=argparse.RawDescriptionHelpFormatter)
    parser.add_argument("--tests", type=int, default=0)
    options = parsed(parser)
    good = program_runs(options.program)
    good = test_runs(options.tests) and good
    print("each answer is allowed" if good else "an answer is NOT allowed")
    sys.exit(0 if good else 1)


if __name__ == "__main__":
    main()

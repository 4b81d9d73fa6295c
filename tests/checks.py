"""What the scripts beside this one share: runs of the built program over folders, its calls of the system, and checks that are counted."""
import os
import re
import shutil
import subprocess
import sys
import tempfile

HERE = os.path.dirname(os.path.abspath(__file__))
sys.path.insert(0, os.path.join(HERE, "..", "bench"))
from program import PROGRAM, Session, batch, query  # noqa: E402,F401

SECONDS = 60
MARK, LOG = "0000000000000000", "0000000000000001"
DAY = 86_400_000_000_000
FIRST_DAY = 1_704_067_200_000_000_000


class Wrong(Exception):
    """What is wrong with an outcome."""


def same(found, wanted, what):
    if found != wanted:
        raise Wrong(f"{what}: {str(found)[:300]} where {str(wanted)[:300]} was wanted")


def one_line(told, *parts):
    """That standard error has one line, with these parts."""
    if told.count("\n") != 1 or not told.startswith("tsdb: ") or not told.endswith("\n"):
        raise Wrong(f"on standard error stands {told!r}, and not one line")
    for part in parts:
        if part not in told:
            raise Wrong(f"on standard error stands {told!r}, without {part!r}")


def over(folder):
    return ["run", "--dir", folder]


def run(program, words, given, **options):
    """What the program writes, its status, and what it says on standard error."""
    done = subprocess.run([program, *words], input=given, capture_output=True, timeout=SECONDS, **options)
    return done.stdout, done.returncode, done.stderr.decode()


def files_of(folder):
    """The bytes of each file of a folder."""
    found = {}
    for entry in os.scandir(folder):
        if entry.is_file():
            with open(entry.path, "rb") as file:
                found[entry.name] = file.read()
    return found


def row(number, table="t"):
    """A batch of one row, which has its number, at the begin of a day of its own."""
    return batch(b"%s v=%di %d\n" % (table.encode(), number, FIRST_DAY + (number - 1) * DAY))


def numbers(program, folder, asked=b"SELECT v FROM t"):
    """The numbers of the rows that a folder has, once all that it has is applied."""
    given = b"A\n" + b"Q %d\n" % len(asked) + asked + b"X\n"
    output, status, told = run(program, over(folder), given)
    same((status, told), (0, ""), f"an opening of {folder}")
    return [int(line) for line in output.splitlines() if line.isdigit()]


class Call:
    """A call of the system: its name, the path of the file that it is on, and its line."""

    def __init__(self, line):
        self.line = line
        self.name = line.split("(")[0]
        path = re.search(r"<(/[^>]*)>", line)
        self.path = path[1] if path and self.name != "openat" else None
        named = re.search(r'"([^"]*)"', line)
        self.named = named[1] if named and self.name in ("openat", "unlink", "mkdir", "statx") else None
        answer = re.search(r"\) += (-?\d+)", line)
        self.answer = int(answer[1]) if answer else None

    def on(self):
        """The last part of the path that it is on or names."""
        return os.path.basename(self.path or self.named or "")

    def __repr__(self):
        return f"{self.name} {self.on()}"


def calls_in(log):
    """The calls of a log of strace, from the folder's opening on."""
    with open(log, errors="replace") as file:
        found = [Call(line) for line in file if re.match(r"[a-z_0-9]+\(", line)]
    begin = next((i for i, call in enumerate(found) if call.name == "mkdir"), len(found))
    return found[begin:]


def strace(log, *more):
    """The words that run a program with its calls written into a log. Without strace this ends the script: a check that doesn't look
    tells nothing."""
    if shutil.which("strace") is None:
        sys.exit("no strace on this machine (apt-get install strace): the calls of the system can't be looked at")
    return ["strace", "-y", "-s", "0", "-o", log, *more]


def traced(program, place, words, given, *more, **options):
    """What a run answers and says on standard error, and the calls that it made."""
    log = os.path.join(place, "strace.log")
    command = [*strace(log, *more), program, *words]
    done = subprocess.run(command, input=given, capture_output=True, timeout=SECONDS, **options)
    return done.stdout, done.returncode, done.stderr.decode(), calls_in(log)


def fault_of(check, program):
    """What is wrong with a check, or None. Its folder is kept where something is."""
    place = tempfile.mkdtemp()
    try:
        check(program, place)
    except (Wrong, subprocess.SubprocessError, OSError, ValueError) as wrong:
        return f"{wrong} (in {place})"
    shutil.rmtree(place)
    return None


def run_checks(name, checks):
    """Runs the checks over the program that is named, prints those that fail and how many passed, and gives the script's status."""
    program = os.path.abspath(sys.argv[1] if len(sys.argv) > 1 else PROGRAM)
    if not os.access(program, os.X_OK):
        sys.exit(f"{name}: no program at {program}; build it by `rt run -- run < stdin` in crates/tsdb")
    failed = 0
    for check in checks:
        fault = fault_of(check, program)
        if fault:
            print(f"{check.__name__}: {fault}")
            failed += 1
    print(f"{len(checks) - failed} passed, {failed} failed")
    return 1 if failed else 0

"""The built program, found, fed from a file or asked frame by frame, and measured; for the scripts beside this one."""
import os
import re
import subprocess
import time

PROGRAM = os.path.join(os.path.dirname(os.path.abspath(__file__)), "..", "crates", "tsdb", "out", "tsdb")


def parsed(parser):
    """The options of a command line, with the program's path as `program` among them."""
    parser.add_argument("--program", default=PROGRAM)
    options = parser.parse_args()
    if not os.access(options.program, os.X_OK):
        parser.error(f"no program at {options.program}; build it by `rt run -- run < stdin` in crates/tsdb")
    return options


def run(program, source):
    """Feeds the program from a file, and gives the seconds, the status, the answer and what it took.

    This process stays small, since the most memory of a process counts what it was before it became the program.
    """
    began = time.perf_counter()
    process = subprocess.Popen([program, "run"], stdin=source, stdout=subprocess.PIPE)
    answer = process.stdout.read()
    _, status, usage = os.wait4(process.pid, 0)
    return time.perf_counter() - began, status, answer, usage


def batch(text):
    """The frame of a batch of lines."""
    return b"W %d\n" % len(text) + text


def query(text):
    """The frame of a statement."""
    return b"Q %d\n" % len(text.encode()) + text.encode()


def number_in(line, letters):
    """The first number of a reply, which has to be of one of these letters."""
    found = re.match(rb"[%b] (\d+)[ \n]" % letters, line)
    if not found:
        raise ValueError(f"{line[:60]!r} where {letters.decode()} and a number were wanted")
    return int(found[1])


class Asked:
    """Who answers frames, in order: a subclass sends them, and the replies come out of its `source`."""

    def reply(self):
        """The next reply: the line that it begins with, and its bytes."""
        line = self.source.readline()
        size = int(line.split()[2]) if line.startswith(b"R ") else 0
        return line, self.source.read(size)

    def ask(self, frame):
        """Sends a frame, and gives the seconds to the end of its reply, the line that it begins with, and its bytes."""
        began = time.perf_counter()
        self.send(frame)
        line, text = self.reply()
        return time.perf_counter() - began, line, text

    def query(self, text):
        return self.ask(query(text))


class Session(Asked):
    """A program that runs, and is asked one frame after the other."""

    def __init__(self, program, *words, **options):
        self.process = subprocess.Popen([program, *(words or ("run",))], stdin=subprocess.PIPE, stdout=subprocess.PIPE, **options)
        self.source = self.process.stdout

    def send(self, frame):
        self.process.stdin.write(frame)
        self.process.stdin.flush()

    def megabytes(self):
        """The most memory that the program took until now."""
        try:
            with open(f"/proc/{self.process.pid}/status") as status:
                return next(int(line.split()[1]) for line in status if line.startswith("VmHWM")) / 1024
        except (OSError, StopIteration):
            return float("nan")

    def end(self):
        self.process.stdin.write(b"X\n")
        self.process.stdin.close()
        good = self.process.stdout.read() == b"X\n"
        return self.process.wait() == 0 and good

#!/usr/bin/env python3
"""Shows what `peers.py --keep FILE` measured: as a table in Markdown, and as a plot.

FILE says what was measured, on what machine, when, and beside what other load. A run is a measurement where it is whole, of ROUNDS rounds
at least, nothing failed, no answer was wrong, and other processes and other systems took no more than QUIET percent of the processors' time
(`machine.py`). Of another run the table and the plot say in their first line that it is none, and the table isn't written into a page.

usage: kept.py FILE [--svg PLOT] [--readme PAGE] [--check]
It prints the table. --svg writes the plot instead, --readme the table into a page, between the lines BEGIN and END. With --check neither
is written, but compared with what is there; it ends with 1 where that differs.
"""
import argparse
import json
import os
import statistics
import sys

from machine import QUIET
from plot import plot

BEGIN, END = "<!-- made by bench/kept.py -->", "<!-- the end of what bench/kept.py made -->"
ROUNDS = 5
RATE, TIME, NUMBER = "rate", "time", "number"  # what the two numbers of a row are: acknowledged and seen; warm and cold; one alone, twice
TITLES = {RATE: "Millions of rows a second, acknowledged / seen by queries", TIME: "Milliseconds, warm / cold", NUMBER: "In all"}


def short(number):
    """A number's first three digits, or all before the point."""
    return f"{number:,.0f}" if number >= 100 else f"{number:.3g}"


def spelled(data, levels):
    """JSON with a line for each entry down to so many levels."""
    if not levels or not isinstance(data, dict):
        return json.dumps(data, ensure_ascii=False)
    return "{\n" + ",\n".join(f"{json.dumps(name, ensure_ascii=False)}: {spelled(each, levels - 1)}" for name, each in data.items()) + "\n}"


class Kept:
    """What was measured: of each row's words and each system pairs of numbers, one for each round, or what failed."""

    def __init__(self, about):
        self.about = about
        for name in ("rows", "found", "failed"):
            about.setdefault(name, {})

    @staticmethod
    def read(path):
        with open(path, encoding="utf-8") as file:
            return Kept(json.load(file))

    def write(self, path):
        """Writes it, in one step, so that no half of it is read."""
        with open(path + ".new", "w", encoding="utf-8") as file:
            file.write(spelled(self.about, 2) + "\n")
        os.replace(path + ".new", path)

    @property
    def systems(self):
        return self.about["systems"]

    def list(self, kind, words):
        """Lists a row, in order."""
        self.about["rows"].setdefault(kind, []).append(words)

    def rows(self, kind):
        return self.about["rows"].get(kind, [])

    def add(self, words, system, pair):
        self.about["found"].setdefault(words, {}).setdefault(system, []).append(pair)

    def fail(self, words, system, how):
        self.about["failed"].setdefault(words, {})[system] = how

    def failure(self, words, system):
        return self.about["failed"].get(words, {}).get(system)

    def medians(self, words, system):
        """The medians of both numbers, or None."""
        pairs = self.about["found"].get(words, {}).get(system)
        return None if self.failure(words, system) or not pairs else tuple(map(statistics.median, zip(*pairs)))

    def cell(self, kind, words, system):
        """What the table says of a row and a system."""
        medians, failure = self.medians(words, system["name"]), self.failure(words, system["name"])
        if failure:
            return failure.split(":")[0]
        if not medians:
            return "none" if words in system["lacks"] else "-"
        first, second = medians
        if kind == NUMBER:
            return short(first)
        factor = {RATE: 1e-6, TIME: 1e3}[kind]
        return f"{short(first * factor)} / {short(second * factor)}"

    def wants(self):
        """Why this is no measurement: words, none where it is one."""
        shares = self.about.get("shares")
        if not self.about.get("whole"):
            yield "it isn't whole"
        if self.about["rounds"] < ROUNDS:
            yield f"it has fewer than {ROUNDS} rounds"
        if any(self.about["failed"].values()):
            yield "something failed or was answered wrongly"
        if not shares:
            yield "nothing says what else the machine did"
        elif shares["others"] > QUIET or shares["stolen"] > QUIET:
            yield f"other processes took {shares['others']:g} % of the processors' time and other systems {shares['stolen']:g} %"

    def warning(self):
        """A sentence that says why this is no measurement, or nothing."""
        wants = list(self.wants())
        return f"No measurement: {'; '.join(wants)}." if wants else ""

    def origin(self):
        """What was measured, on what, and when."""
        about, machine = self.about, self.about["machine"]
        return (f"Medians of {about['rounds']}, the systems in turn; {about['t']:,} rows of six values and {about['q']:,} of three; {about['date']}; "
                f"{machine['processors']} processors ({machine['model']}), {machine['memory in GB']} GB, {machine['system']}, {machine['file system']}, "
                f"a write and its sync {about['sync']:,.0f} microseconds; the index of SQLite and PostgreSQL is made {about['index']}.")

    @staticmethod
    def words(system):
        """What is said of a system."""
        return f"{'durable' if system['durable'] else 'not durable'}: {system['about']}; rows are seen {system['showing']}"

    def markdown(self):
        """The table."""
        heads = [system["name"] + ("" if system["durable"] else ", not durable") for system in self.systems]
        lines = [f"**{self.warning()}**", ""] if self.warning() else []
        lines += ["| | " + " | ".join(heads) + " |", "|---" * (len(heads) + 1) + "|"]
        for kind, title in TITLES.items():
            if self.rows(kind):
                lines.append(f"| **{title}** |" + " |" * len(heads))
            lines += [f"| {words} | " + " | ".join(self.cell(kind, words, system) for system in self.systems) + " |" for words in self.rows(kind)]
        lines += ["", self.origin(), ""]
        lines += [f"- **{system['name']}** ({system['version']}), {self.words(system)}." for system in self.systems]
        return "\n".join(lines) + "\n"


def placed(page, table):
    """A page with the table between its lines."""
    if page.count(BEGIN) != 1 or page.count(END) != 1:
        sys.exit(f"kept.py: the page has to have the lines {BEGIN} and {END}, each once")
    before, _, rest = page.partition(BEGIN)
    return f"{before}{BEGIN}\n{table}{END}{rest.partition(END)[2]}"


def text_of(path):
    if not os.path.exists(path):
        return ""
    with open(path, encoding="utf-8") as file:
        return file.read()


def main():
    parser = argparse.ArgumentParser(description=__doc__, formatter_class=argparse.RawDescriptionHelpFormatter)
    parser.add_argument("file")
    parser.add_argument("--svg")
    parser.add_argument("--readme")
    parser.add_argument("--check", action="store_true")
    options = parser.parse_args()
    kept = Kept.read(options.file)
    if not options.svg and not options.readme:
        print(kept.markdown(), end="")
        return 0
    wanted = {options.svg: plot(kept)} if options.svg else {}
    if options.readme:
        wanted[options.readme] = placed(text_of(options.readme), kept.markdown())
        if kept.warning():
            sys.exit(f"kept.py: nothing is written: {kept.warning()}")
    differ = [path for path, text in wanted.items() if text != text_of(path)]
    if options.check:
        print("\n".join(f"{path} isn't what {options.file} says" for path in differ) or f"{', '.join(wanted)}: as {options.file} says")
        return 1 if differ else 0
    for path in differ:
        with open(path, "w", encoding="utf-8") as file:
            file.write(wanted[path])
    return 0


if __name__ == "__main__":
    raise SystemExit(main())

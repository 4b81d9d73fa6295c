#!/usr/bin/env python3
"""Lists the definitions that public contracts cite and that docs/MEANING.md doesn't name.

A definition stands in crates/CRATE/specs/FILE.antt, and a file of crates/*/src brings it in by
`ghost use Rattle.CRATE.specs.FILE.{..}`. It is cited where its name stands in a clause, `requires` or `ensures`, of a
function that another crate can call: a function or a method that the crate's root gives out, or a method of a trait that
it gives out. docs/MEANING.md names it where the name stands in backquotes, alone or in a list.

It prints a line for each that MEANING lacks, with one place that cites it, and then how many are cited and how many are
missing. It ends with 1 where one is missing.

usage: cited.py [--all] [--bold] [--through]
--all lists each cited definition, with `missing` behind those that MEANING lacks. --bold takes names in bold too.
--through goes on to the public definitions that cited ones are made of.
"""
import argparse
import glob
import os
import re
import sys

from contracts import WORD, contracts, read

TOP = os.path.join(os.path.dirname(os.path.abspath(__file__)), "..")
GHOST_USE = re.compile(r"^\s*ghost use Rattle\.(\w+)\.specs\.(\w+)\.\{([^}]*)\};", re.M)
SPEC_USE = re.compile(r"^use Rattle\.(\w+)\.specs\.(\w+)\.\{([^}]*)\}", re.M)
DEFINED = re.compile(r"^(?:(?:abbrev|unfoldable|record|data) )*(pub )?(?:(?:abbrev|unfoldable|record|data) )*([A-Za-z_][\w-]*)(?= .*:)", re.M)
PUB_USE = re.compile(r"^pub use ([\w:]+?)(?:::\{([^}]*)\})?;", re.M)


def given_out(crate):
    """The names that a crate's root gives out: those of its `pub use` items and its own public items."""
    names = set()
    for path in glob.glob(os.path.join(crate, "src", "**", "*.rt"), recursive=True):
        text = read(path)
        for first, listed in PUB_USE.findall(text):
            for item in (listed or first.split("::")[-1]).split(","):
                names.update(WORD.findall(item)[-1:])
        if os.path.basename(path) == "lib.rt":
            names.update(re.findall(r"^pub (?:const |unsafe )*(?:fn|struct|enum|trait|type) (\w+)", text, re.M))
    return names


def is_public(name, public, block, names):
    """Whether another crate can call the function."""
    if block is None:
        return public and name in names
    kind, _, of_trait, of = block
    return of in names and (public or kind == "trait" or of_trait)


def without_notes(clauses):
    """Clauses without their notes and without the names of the clauses themselves."""
    clauses = re.sub(r"//.*", "", clauses)
    return re.sub(r"\b(requires|ensures)\s+\w+\s*\{", r"\1 {", clauses)


def brought_in(uses):
    """The definitions that `use` lines bring in, by the names that they have there."""
    brought = {}
    for crate, file, listed in uses:
        if os.path.exists(os.path.join(TOP, "crates", crate, "specs", file + ".antt")):
            for item in listed.split(","):
                words = WORD.findall(item)
                if words and "◌" not in item:
                    brought[words[-1]] = (crate, file, words[0])
    return brought


def made_of(crate, file):
    """For each public definition of a file the public definitions of this repository that it is made of."""
    text = re.sub(r"--.*", "", read(os.path.join(TOP, "crates", crate, "specs", file + ".antt")))
    found = [(match.start(), bool(match.group(1)), match.group(2)) for match in DEFINED.finditer(text)]
    brought = brought_in(SPEC_USE.findall(text))
    brought.update({name: (crate, file, name) for _, public, name in found if public})
    ends = [start for start, _, _ in found[1:]] + [len(text)]
    return {
        name: {brought[word] for word in WORD.findall(text[start:end]) if word in brought and word != name}
        for (start, _, name), end in zip(found, ends)
    }


def through(places):
    """The cited definitions and those that they are made of, each with the place that cites the first of them."""
    parts, left = {}, list(places)
    while left:
        crate, file, name = left.pop()
        if (crate, file) not in parts:
            parts[crate, file] = made_of(crate, file)
        for other in parts[crate, file].get(name, ()):
            if other not in places:
                places[other] = f"{crate}/{file} {name}"
                left.append(other)
    return places


def cited():
    """Each definition that a public contract cites, with the first place that does."""
    places = {}
    for crate in sorted(glob.glob(os.path.join(TOP, "crates", "*"))):
        names = given_out(crate)
        for path in sorted(glob.glob(os.path.join(crate, "src", "**", "*.rt"), recursive=True)):
            brought = brought_in(GHOST_USE.findall(read(path)))
            for name, line, public, block, clauses in contracts(path):
                if is_public(name, public, block, names):
                    for word in WORD.findall(without_notes(clauses)):
                        if word in brought:
                            place = f"{os.path.relpath(path, TOP)}:{line}: {name}"
                            places.setdefault(brought[word], place)
    return places


def named(bold):
    """The names in MEANING."""
    text = read(os.path.join(TOP, "docs", "MEANING.md"))
    parts = re.findall(r"`([^`\n]+)`", text)
    if bold:
        parts += re.findall(r"\*\*([^*\n]+)\*\*", text)
    return {word for part in parts for word in WORD.findall(part)}


def main():
    reader = argparse.ArgumentParser(description=__doc__, formatter_class=argparse.RawDescriptionHelpFormatter)
    reader.add_argument("--all", action="store_true")
    reader.add_argument("--bold", action="store_true")
    reader.add_argument("--through", action="store_true")
    words = reader.parse_args()
    places, known = cited(), named(words.bold)
    if words.through:
        places = through(places)
    missing = 0
    for (crate, file, name), place in sorted(places.items()):
        lacks = name not in known
        missing += lacks
        if words.all or lacks:
            print(f"{crate}/{file} {name}: {place}{' missing' if words.all and lacks else ''}")
    print(f"{len(places)} cited, {missing} missing")
    sys.exit(1 if missing else 0)


main()

#!/usr/bin/env python3
"""Draws the ways of a write and of a query, docs/write.svg and docs/query.svg: what each step does, and the crates that do it.

usage: docs/pictures.py [--check]      --check changes nothing, and ends with 1 where a picture isn't what would be drawn

It also ends with 1 where a step names a crate that isn't in crates.txt.
"""
import html
import os
import re
import sys

DOCS = os.path.dirname(os.path.abspath(__file__))
WIDTH, HEIGHT, ACROSS, DOWN, EDGE = 196, 92, 44, 56, 20
COLOURS = {"outside": "#ffffff", "sessions": "#dfe9f7", "language": "#e4f3e0", "query": "#fbeed3", "rows": "#f7e0e6", "store": "#e9e2f5",
           "base": "#e8e8e8"}

# A picture: its rows, each with its name and its steps from left to right. A step: its title, what it does in two lines, its crates and its
# layer. From the last step of a row an arrow goes down to the first one of the next row.
WRITE = [
    ("acknowledged", [
        ("bytes", "a batch of lines, or", "INSERT, CREATE, ALTER", "", "outside"),
        ("front", "bytes become requests,", "in whatever pieces", "qd_frames qd_http qd_pgwire", "sessions"),
        ("session", "hands each to its backend,", "with a time where it lacks", "qd_session", "sessions"),
        ("read", "the text, whole, or", "refused at its mistake", "qd_ilp qd_sql", "language"),
    ]),
    ("", [
        ("prepare", "the transaction over", "all schemas, as bytes", "qd_lines qd_writes qd_prepare", "language"),
        ("pass", "at a server: one hold of", "the lock for each commit", "qd_pass qd_shared", "sessions"),
        ("commit", "entry, place and gate:", "three writes and syncs", "qd_sequencer qd_wal qd_seq", "store"),
        ("reply", "K n: transaction n", "is on the disk", "qd_print", "base"),
    ]),
    ("seen", [
        ("draft", "the next transactions,", "shared out among parts", "qd_store qd_apply", "store"),
        ("merge", "rows sorted, and merged", "without the lock", "qd_merge", "rows"),
        ("publish", "blocks, then the version", "and its gate, synced", "qd_versions qd_column_files qd_txnfile", "store"),
        ("sweep", "blocks that no version", "lists any more go", "qd_catalog qd_versions", "store"),
    ]),
]
QUERY = [
    ("asked", [
        ("bytes", "SELECT .., or a", "table's name alone", "", "outside"),
        ("front", "bytes become requests,", "in whatever pieces", "qd_frames qd_http qd_pgwire", "sessions"),
        ("read", "tokens, then a tree, or", "refused at a byte", "qd_sql_lexer qd_sql", "language"),
        ("pin", "the current version,", "without the lock", "qd_pass qd_shared qd_score", "sessions"),
    ]),
    ("rows, as places", [
        ("plan", "over the schemas of", "the version, or refused", "qd_bind qd_plan", "language"),
        ("scan", "parts with times that", "WHERE may keep", "qd_scan qd_column_files", "rows"),
        ("join", "ASOF, LT: each left row", "beside a right one", "qd_asof qd_keys", "query"),
        ("filter", "rows that pass WHERE,", "last rows of each key", "qd_expr qd_latest", "query"),
    ]),
    ("rows, as cells", [
        ("items", "expressions, groups,", "buckets of samples", "qd_group qd_sample qd_value", "query"),
        ("order", "ORDER BY and LIMIT;", "the size is counted", "qd_order qd_query", "query"),
        ("print", "CSV, JSON or messages,", "byte for byte", "qd_print qd_http qd_pgwire", "base"),
        ("reply", "R n: over the first", "n transactions", "", "outside"),
    ]),
]


def text(x, y, said, size, more=""):
    return f'<text x="{x}" y="{y}" font-size="{size}" {more}>{html.escape(said)}</text>'


def crate_lines(crates):
    """The crates' names, two to a line where they fit."""
    lines = [""]
    for crate in crates.split():
        if lines[-1] and len(lines[-1]) + len(crate) > 27:
            lines.append("")
        lines[-1] += (" " if lines[-1] else "") + crate
    return lines


def box(x, y, step):
    title, first, second, crates, layer = step
    yield (f'<rect x="{x}" y="{y}" width="{WIDTH}" height="{HEIGHT}" rx="8" fill="{COLOURS[layer]}" stroke="#555"'
           + (' stroke-dasharray="4 3"' if layer == "outside" else "") + "/>")
    yield text(x + 10, y + 20, title, 15, 'font-weight="bold"')
    yield text(x + 10, y + 37, first, 13)
    yield text(x + 10, y + 53, second, 13)
    for n, line in enumerate(crate_lines(crates)):
        yield text(x + 10, y + 70 + 14 * n, line, 11, 'font-family="monospace" fill="#444"')


def drawn(rows, title):
    """A picture as SVG."""
    columns = max(len(steps) for _, steps in rows)
    across, down = WIDTH + ACROSS, HEIGHT + DOWN
    width, height = 2 * EDGE + columns * across - ACROSS, 2 * EDGE + 28 + len(rows) * down - DOWN + 30
    yield (f'<svg xmlns="http://www.w3.org/2000/svg" viewBox="0 0 {width} {height}" width="{width}" height="{height}" '
           f'font-family="sans-serif" role="img"><title>{title}</title>')
    yield '<defs><marker id="tip" viewBox="0 0 10 10" refX="9" refY="5" markerWidth="8" markerHeight="8" orient="auto">'
    yield '<path d="M 0 0 L 10 5 L 0 10 z" fill="#333"/></marker></defs>'
    yield f'<rect width="{width}" height="{height}" fill="#ffffff"/>'
    for n, (name, steps) in enumerate(rows):
        y = EDGE + 22 + n * down
        if name:
            yield text(EDGE, y - 8, name, 13, 'font-style="italic" fill="#333"')
        for m, step in enumerate(steps):
            x = EDGE + m * across
            yield from box(x, y, step)
            if m + 1 < len(steps):
                yield f'<path d="M {x + WIDTH} {y + HEIGHT / 2} h {ACROSS - 1}" stroke="#333" fill="none" marker-end="url(#tip)"/>'
        if n + 1 < len(rows):
            right, middle, left = EDGE + (len(steps) - 1) * across + WIDTH / 2, y + HEIGHT + DOWN / 2 - 8, EDGE + WIDTH * 3 / 4
            yield (f'<path d="M {right} {y + HEIGHT} V {middle} H {left} V {y + down - 1}" stroke="#333" fill="none" '
                   'marker-end="url(#tip)"/>')
    layers = [name for name in COLOURS if any(name == step[4] for _, steps in rows for step in steps)]
    for n, name in enumerate(layers):
        x, y = EDGE + n * 120, height - EDGE - 6
        yield f'<rect x="{x}" y="{y - 11}" width="14" height="14" fill="{COLOURS[name]}" stroke="#555"/>'
        yield text(x + 20, y, name, 12)
    yield "</svg>"


def main():
    with open(os.path.join(DOCS, "..", "crates.txt"), encoding="utf-8") as file:
        known = set(re.findall(r"^(\w+)", file.read(), re.M))
    wrong = []
    for name, rows, title in (("write", WRITE, "The way of a write"), ("query", QUERY, "The way of a query")):
        wrong += [f"{name}: no crate {crate}" for _, steps in rows for step in steps for crate in step[3].split() if crate not in known]
        path, made = os.path.join(DOCS, f"{name}.svg"), "\n".join(drawn(rows, title)) + "\n"
        if "--check" not in sys.argv:
            with open(path, "w", encoding="utf-8") as file:
                file.write(made)
        elif not os.path.exists(path) or open(path, encoding="utf-8").read() != made:
            wrong.append(f"docs/{name}.svg isn't what docs/pictures.py draws: run it")
    for line in wrong:
        print(line)
    sys.exit(1 if wrong else 0)


main()

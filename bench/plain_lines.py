"""A plain reader of the line protocol, for `fuzz.py`: which reply a batch has, over the tables that are there.

It goes by the section Lines of docs/FORMATS.md, and shares nothing with the program.
"""
import re

MOST = 2**63 - 1
MAX_TIME = 253_402_300_799_999_999
COLUMNS, TABLES, TEXT = 256, 1_024, 65_535
TRUTHS = {b"t", b"T", b"true", b"True", b"TRUE", b"f", b"F", b"false", b"False", b"FALSE"}
SPECIAL, QUOTED_SPECIAL = b", =\\", b'"\\\n\r'
PLAIN, QUOTED = re.compile(rb"[^,= \\\r\n]*"), re.compile(rb'[^"\\]*')  # what stands for itself in a name, and in a text
SYMBOL, VARCHAR, LONG, BOOLEAN, TIMESTAMP = "SYMBOL", "VARCHAR", "LONG", "BOOLEAN", "TIMESTAMP"
STAMP = "timestamp"


class NoLine(Exception):
    """The text goes on with no line."""


class Reader:
    """A text that is read from the front."""

    def __init__(self, text):
        self.text, self.at = text, 0

    def peek(self, count=1):
        return self.text[self.at:self.at + count]

    def is_end(self):
        """Whether the line ends here."""
        return not self.peek() or self.peek() == b"\n" or self.peek(2) == b"\r\n"

    def take_end(self):
        if not self.is_end():
            raise NoLine
        self.at += len(self.peek(2)) if self.peek() == b"\r" else len(self.peek())

    def spaces(self):
        began = self.at
        while self.peek() == b" ":
            self.at += 1
        return self.at > began

    def expect(self, byte):
        if self.peek() != byte:
            raise NoLine
        self.at += 1

    def run(self, form):
        """The bytes of a form that stand here."""
        began, self.at = self.at, form.match(self.text, self.at).end()
        return self.text[began:self.at]

    def escaped(self, special):
        """The next byte: behind a backslash, where that makes it plain."""
        if self.peek() == b"\\" and len(self.peek(2)) == 2 and self.peek(2)[1] in special:
            self.at += 1
        self.at += 1
        return self.text[self.at - 1:self.at]

    def name(self):
        """A table's name, a column's, or a tag's value: not empty, with its escapes undone."""
        found = self.run(PLAIN)
        while not self.is_end() and self.peek() not in (b",", b" ", b"="):
            found += self.escaped(SPECIAL) + self.run(PLAIN)
        if not found:
            raise NoLine
        return found

    def quoted(self):
        """A text behind its quote."""
        found = self.run(QUOTED)
        while self.peek() != b'"':
            if not self.peek():
                raise NoLine
            found += self.escaped(QUOTED_SPECIAL) + self.run(QUOTED)
        self.at += 1
        return found

    def word(self):
        began = self.at
        while not self.is_end() and self.peek() not in (b",", b" "):
            self.at += 1
        if self.at == began:
            raise NoLine
        return self.text[began:self.at]

    def item(self, is_tag):
        """A name, and a value with its kind; no kind is that of a number that is none."""
        name = self.name()
        self.expect(b"=")
        if is_tag:
            return name, SYMBOL, self.name()
        if self.peek() == b'"':
            self.at += 1
            return name, VARCHAR, self.quoted()
        word = self.word()
        if word in TRUTHS:
            return name, BOOLEAN, word
        digits = word[1:-1] if word.startswith(b"-") else word[:-1]
        return (name, LONG, int(digits)) if word.endswith(b"i") and digits.isdigit() else (name, None, word)

    def stamp(self):
        """A stamp, where one stands here; else nothing is read."""
        began = self.at
        if self.is_end():
            return None
        word = self.word()
        if (word[1:] if word.startswith(b"-") else word).isdigit():
            return int(word)
        self.at = began
        return None

    def row(self):
        """The table, the items and the stamp of a line."""
        table, items, stamp = self.name(), [], None
        while self.peek() == b",":
            self.at += 1
            items.append(self.item(True))
        if self.spaces() and not self.is_end():
            stamp = self.stamp()
            if stamp is None:
                items.append(self.item(False))
                while self.peek() == b",":
                    self.at += 1
                    items.append(self.item(False))
                stamp = self.stamp() if self.spaces() else None
            self.spaces()
        if not items:
            raise NoLine
        return table, items, stamp

    def line(self):
        """The row of a line, or None where it gives none. Its end is read too."""
        began, row = self.at, None
        if self.peek() == b"#":
            while not self.is_end():
                self.at += 1
        else:
            self.spaces()
            if not self.is_end():
                self.at = began
                row = self.row()
        self.take_end()
        try:
            self.text[began:self.at].decode()
        except UnicodeDecodeError:
            raise NoLine from None
        return row


def folded(name):
    """A name without regard to ASCII case."""
    return name.lower()


def is_name(name, is_table):
    """Whether a table, or a column, may have this name."""
    if not 1 <= len(name) <= 127 or any(byte < 32 or byte == 127 for byte in name):
        return False
    refused = b"?,'\"\\/:()+*%~" if is_table else b"?.,'\"\\/:()+-*%~"
    if any(byte in refused for byte in name):
        return False
    return not is_table or not (name.startswith(b".") or name.endswith(b".") or b".." in name)


def code_of(tables, row):
    """The least code of a line over the tables: each a dictionary of the kinds of its columns by their folded names."""
    table, items, stamp = row
    found = tables.get(folded(table))
    columns = found if found is not None else {STAMP.encode(): TIMESTAMP}
    time = next(name for name, kind in columns.items() if kind == TIMESTAMP)
    kinds = {kind for _, kind, _ in items}
    names = [folded(name) for name, _, _ in items]
    fits = {SYMBOL: (SYMBOL, VARCHAR), VARCHAR: (SYMBOL, VARCHAR)}
    clashes = (name != time and name in columns and columns[name] not in fits.get(kind, (kind,)) for name, (_, kind, _) in zip(names, items))
    codes = {
        12: None in kinds,
        13: any(kind == LONG and value > MOST for _, kind, value in items),
        14: not is_name(table, True) or not all(is_name(name, False) for name, _, _ in items),
        15: any(clashes),
        16: stamp is not None and not 0 <= stamp // 1_000 <= MAX_TIME,
        17: len(set(names) | set(columns)) > COLUMNS,
        18: found is None and len(tables) >= TABLES,
        19: len(set(names)) < len(names) or time in names,
        20: any(kind in (SYMBOL, VARCHAR) and len(value) > TEXT for _, kind, value in items),
    }
    return next((code for code, holds in codes.items() if holds), None)


def reply_to(tables, text):
    """The code and the line with which a batch is refused, or None, and the tables behind it."""
    reader, number, after = Reader(text), 0, {name: dict(columns) for name, columns in tables.items()}
    while reader.at < len(text):
        number += 1
        try:
            row = reader.line()
        except NoLine:
            return (11, number), tables
        if row is None:
            continue
        code = code_of(after, row)
        if code:
            return (code, number), tables
        columns = after.setdefault(folded(row[0]), {})
        for name, kind, _ in row[1]:
            columns.setdefault(folded(name), kind)
        columns.setdefault(STAMP.encode(), TIMESTAMP) if TIMESTAMP not in columns.values() else None
    return None, after

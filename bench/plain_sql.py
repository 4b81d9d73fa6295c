"""A plain reader of SQL, for `fuzz.py`: at which byte a text is refused for its tokens and its grammar.

It goes by the section SQL of docs/FORMATS.md: the grammar is written down as rules, and a text is read by Earley's algorithm (An Efficient
Context-Free Parsing Algorithm, 1970), which keeps all rules that may go on; so it stops at the first token with which none can. It shares
nothing with the program.
"""
import re

WORD, QUOTED, TEXT, NUMBER, STRIDE, BAD = "word", "quoted", "text", "number", "stride", "bad"
RESERVED = set("ALIGN AND AS ASC ASOF BY CREATE DESC FALSE FILL FROM IN INSERT INTO IS JOIN LATEST LIMIT LT NOT NULL ON OR ORDER PARTITION "
               "SAMPLE SELECT SHOW TABLE TRUE VALUES WHERE".split())
NOT_BUILT = set("DELETE DROP EXPLAIN REFRESH TRUNCATE UPDATE VACUUM WITH".split())
MOST, MOST_OF_STRIDE, NESTING = 2**63 - 1, 1_000_000, 256

PIECES = re.compile(rb"""(?P<gap>[ \t\r\n]|--[^\n]*)|(?P<word>[A-Za-z_][A-Za-z0-9_]*)|(?P<digits>[0-9][A-Za-z0-9_]*)|(?P<quoted>"[^"]+")"""
                    rb"""|(?P<text>'(?:[^']|'')*'(?!'))|(?P<sign>!=|<>|<=|>=|[(),;.*+\-/%=<>])""", re.DOTALL)


class Token:
    """A token: its kind, its text without its quotes, and where it begins. A sign is a kind of its own."""

    def __init__(self, kind, text, at):
        self.kind, self.text, self.at = kind, text, at

    def word(self):
        """The word that it is, in capitals, or None."""
        return self.text.upper().decode() if self.kind == WORD else None


def is_utf8(text):
    try:
        text.decode()
    except UnicodeDecodeError:
        return False
    return True


def piece_at(text, at):
    """The kind and the end of what stands at an offset. No kind is that of a blank or a comment."""
    found = PIECES.match(text, at)
    if not found:
        return BAD, len(text)
    kind, piece = found.lastgroup, found[0]
    if kind == "gap":
        whole = len(piece)
        while not is_utf8(piece[:whole]):
            whole -= 1
        return None, at + whole
    if kind == "digits":
        kind = NUMBER if piece.isdigit() else STRIDE if re.fullmatch(rb"[0-9]+[UTsmhdMy]", piece) else BAD
    elif kind == "sign":
        kind = piece.decode()
    return (kind, found.end()) if kind != BAD and is_utf8(piece) else (BAD, len(text))


def tokens(text):
    """The tokens of a text."""
    found, at = [], 0
    while at < len(text):
        kind, end = piece_at(text, at)
        if kind:
            found.append(Token(kind, text[at + 1:end - 1] if kind in (QUOTED, TEXT) else text[at:end], at))
        at = end
    return found


# -- the grammar: in the place of a symbol stands a list of ways, each a sequence of symbols. What is in capitals is that word, and in quotes a sign

GRAMMAR = """
text = statement | statement ';'
statement = query | create | insert | alter | SHOW PARTITIONS FROM name
create = CREATE TABLE name '(' columns ')' TIMESTAMP '(' name ')' PARTITION BY unit wal dedup
columns = column_of | columns ',' column_of
column_of = name kind
kind = LONG | BOOLEAN | SYMBOL | VARCHAR | TIMESTAMP
unit = HOUR | DAY | MONTH | YEAR
wal = | WAL
dedup = | DEDUP UPSERT KEYS names
names = '(' name_list ')'
name_list = name | name_list ',' name
insert = INSERT INTO name VALUES tuples | INSERT INTO name names VALUES tuples
alter = ALTER TABLE name ADD COLUMN column_of | ALTER TABLE name DEDUP ENABLE UPSERT KEYS names | ALTER TABLE name DEDUP DISABLE
tuples = tuple | tuples ',' tuple
tuple = '(' literals ')'
literals = literal | literals ',' literal
literal = number | '-' number | string | TRUE | FALSE | NULL
query = select source join where latest sample order limit
select = | SELECT items FROM
items = '*' | item_list
item_list = item | item_list ',' item
item = shown | shown AS name
shown = aggregate | expression
aggregate = COUNT '(' ')' | COUNT '(' '*' ')' | of_one '(' expression ')'
of_one = SUM | MIN | MAX | FIRST | LAST
source = name | name name | name AS name
join = | strict JOIN source | strict JOIN source ON names
strict = ASOF | LT
where = | WHERE expression
latest = | LATEST ON column PARTITION BY column_list
column_list = column | column_list ',' column
sample = | SAMPLE BY stride fills align
fills = | FILL '(' fill_list ')'
fill_list = fill | fill_list ',' fill
fill = NONE | NULL | PREV | number | '-' number
align = | ALIGN TO CALENDAR | ALIGN TO CALENDAR WITH OFFSET string | ALIGN TO FIRST OBSERVATION
order = | ORDER BY order_list
order_list = ordered | order_list ',' ordered
ordered = name | name ASC | name DESC
limit = | LIMIT '-' number | LIMIT number | LIMIT number ',' number
expression = and_part | expression OR and_part
and_part = not_part | and_part AND not_part
not_part = test | NOT not_part
test = sum | sum compare sum | sum IN tuple | sum IN string | sum IS NULL | sum IS NOT NULL
compare = '=' | '!=' | '<>' | '<' | '<=' | '>' | '>='
sum = product | sum '+' product | sum '-' product
product = signed | product '*' signed | product '/' signed | product '%' signed
signed = prime | '-' signed
prime = number | string | TRUE | FALSE | NULL | column | '(' expression ')'
column = name | name '.' name
"""
RULES = {head.strip(): [way.split() for way in ways.split("|")] for head, ways in (line.split("=", 1) for line in GRAMMAR.strip().splitlines())}
CLASSES = {"name", "number", "string", "stride"}


def empty_rules():
    """The symbols that may stand for nothing."""
    found = set()
    while True:
        more = {head for head, ways in RULES.items() if any(all(each in found for each in way) for way in ways)}
        if more == found:
            return found
        found = more


EMPTY = empty_rules()


def is_of(token, symbol):
    """Whether a token is one of a symbol that has no rule."""
    if symbol == "name":
        return token.kind == QUOTED or token.kind == WORD and token.word() not in RESERVED
    if symbol in CLASSES:
        return token.kind == {"number": NUMBER, "string": TEXT, "stride": STRIDE}[symbol]
    return token.kind == symbol[1:-1] if symbol.startswith("'") else token.word() == symbol


def closed(items, sets):
    """All items of a set: with those that they ask for, and those that what is whole lets go on. An item is a rule's head, its way, how far
    it is read, and in which set it began."""
    here, todo = len(sets), list(items)
    found = set(todo)

    def add(item):
        if item not in found:
            found.add(item)
            todo.append(item)

    while todo:
        head, way, read, began = todo.pop()
        if read < len(way):
            for each in RULES.get(way[read], ()):
                add((way[read], tuple(each), 0, here))
            if way[read] in EMPTY:
                add((head, way, read + 1, began))
        else:
            for item in list(sets[began] if began < here else found):
                if item[2] < len(item[1]) and item[1][item[2]] == head:
                    add((*item[:2], item[2] + 1, item[3]))
    return found


def stops_at(found):
    """At which token the reading of tokens stops: None where they are a text of the grammar, and their number where only the end is wrong."""
    sets = []
    now = closed([("text", tuple(way), 0, 0) for way in RULES["text"]], sets)
    for number, token in enumerate(found):
        sets.append(now)
        moved = [(head, way, read + 1, began) for head, way, read, began in now if read < len(way) and way[read] not in RULES and is_of(token, way[read])]
        if not moved:
            return number
        now = closed(moved, sets)
    return None if any(head == "text" and read == len(way) and began == 0 for head, way, read, began in now) else len(found)


def is_out_of_range(token):
    if token.kind == NUMBER:
        return int(token.text) > MOST
    return token.kind == STRIDE and not 1 <= int(token.text[:-1]) <= MOST_OF_STRIDE


def nests_deep(found):
    """Whether a text may be deeper than is read: it has as many brackets, NOTs and minus signs as may nest."""
    return sum(token.kind in ("(", "-") or token.word() == "NOT" for token in found) >= NESTING


def refused(text):
    """The code and the place with which a text of SQL is refused without a look at tables, or None."""
    found = tokens(text)
    words = [token.word() for token in found[:2]]
    if found and (words[0] in NOT_BUILT or words[0] in ("CREATE", "ALTER") and len(found) > 1 and words[1] != "TABLE"):
        return 40, 0
    stop = stops_at(found)
    if stop is not None:
        return 31, found[stop].at if stop < len(found) else len(text)
    wide = next((token for token in found if is_out_of_range(token)), None)
    return (13, wide.at) if wide else None

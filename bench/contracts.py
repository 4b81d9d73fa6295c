"""The functions of a file of Rattle and their contracts, for the scripts that compare documents with them."""
import re

WORD = re.compile(r"[A-Za-z_][\w-]*")
FUNCTION = re.compile(r"^(\s*)(pub )?(?:const |unsafe )*fn (\w+)")
BLOCK = re.compile(r"^(pub )?(?:unsafe )?(impl|trait)\b(.*)$")


def read(path):
    with open(path, encoding="utf-8") as file:
        return file.read()


def block_name(kind, rest):
    """The type or the trait that a block is of: `impl<T> Trait for Name<T>` is of Name, and `trait Name: ..` of Name."""
    rest = re.sub(r"^<(?:[^<>]|<[^<>]*>)*>", "", rest.strip().replace("->", "")).strip()
    if kind == "impl" and " for " in rest:
        rest = rest.split(" for ", 1)[1]
    words = WORD.findall(rest)
    return words[0] if words else ""


def contracts(path):
    """(name, line, is public, block, clauses) for each function: the block is the impl or trait around it, or None."""
    lines = read(path).split("\n")
    block = None
    n = 0
    while n < len(lines):
        if lines[n] == "}":
            block = None
        if BLOCK.match(lines[n]) and not lines[n].endswith("}"):
            begun = n
            while not lines[n].endswith("{"):
                n += 1
            public, kind, rest = BLOCK.match(" ".join(line.strip() for line in lines[begun : n + 1])).groups()
            block = (kind, bool(public), " for " in rest, block_name(kind, rest.split("{")[0]))
        found = FUNCTION.match(lines[n])
        if found:
            indent, public, name = found.groups()
            first = n
            while n < len(lines) and lines[n] not in (indent + "{", indent + "{}") and not lines[n].endswith((";", "{", "{}")):
                n += 1
            clauses = re.search(r"\b(?:requires|ensures)\b.*", "\n".join(lines[first : n + 1]), re.S)
            yield name, first + 1, bool(public), block, clauses.group(0) if clauses else ""
        n += 1


def clause_names(clauses):
    """The names of the clauses `ensures` of a contract; that of one without a name is empty."""
    return re.findall(r"^\s*ensures\s+(\w*)\s*\{", re.sub(r"//.*", "", clauses), re.M)

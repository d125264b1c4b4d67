#!/usr/bin/env python3
"""Prints what the crate `grammar` derives from its definitions, from specs/Symbols.antt and specs/Grammar.antt:

    src/symbols.rt          the kinds and roles as named constants
    src/tables.rt           the machine's tables
    proofs/CellRows.antt    the table of cells as a list
    proofs/Witness.antt     for each symbol a list of kinds that it derives, and the kinds that can follow it

Run it from the repository's root after every change of the two definitions: python3 tools/tables.py
The check proves that tables and witnesses are right: a wrong one is refused, and nothing here is trusted.
"""
import re

CRATE = "crates/grammar/"
FAILS, SKIPS, LEAF, FIRST = ord("."), ord("-"), ord("+"), ord("0")
WIDTH = 10  # symbols in a row of the table of productions


def read(name):
    with open(CRATE + "specs/" + name, encoding="utf-8") as f:
        return f.read()


def numbers(part):
    return [(n, int(v)) for n, v in re.findall(r"^(\w+) = (\d+)$", part, re.M)]


# The alphabet.
text = read("Symbols.antt")
kinds_part, rest = text.split("-- Leaves:")
leaves_part, rest = rest.split("-- any word")
symbols_part = rest.split("-- Symbols that the productions define.")[1].split("-- how many kinds")[0]
KINDS, LEAVES, DEFINED = numbers(kinds_part), numbers(leaves_part), numbers(symbols_part)
KIND = dict(KINDS)
SYMBOL = dict(LEAVES + DEFINED)
NAME = {v: n for n, v in SYMBOL.items()}
COUNTS = dict(numbers(rest.split("-- how many kinds")[1]))
KIND_COUNT, LEAF_COUNT, SYMBOL_COUNT = COUNTS["kind_count"], COUNTS["leaf_count"], COUNTS["symbol_count"]
assert sorted(SYMBOL.values()) == list(range(1, SYMBOL_COUNT)) and LEAF_COUNT == len(LEAVES) + 1 and len(KINDS) <= KIND_COUNT


def symbols(written):
    return [x for x in written.replace("(", " ").replace(")", " ").split() if x not in ("∷", "[]")]


GROUPS = {n: symbols(v) for n, v in re.findall(r"^(words|value_types) = (.*)$", rest, re.M)}
ALLOWED = {}
for line in rest.split("leaf_kinds =")[1].split("-- Symbols")[0].splitlines():
    if "--" in line:
        kinds, leaf = line.split("--")
        ks = symbols(kinds)
        ALLOWED[SYMBOL[leaf.strip()]] = [KIND[k] for k in (GROUPS.get(ks[0]) or ks)]
assert sorted(ALLOWED) == list(range(1, LEAF_COUNT))

# The productions.
GRAMMAR = [(SYMBOL[l], [SYMBOL[x] for x in symbols(r)]) for l, r in re.findall(r"^    \((\w+) ⟶ (.*)\) ∷$", read("Grammar.antt"), re.M)]
assert all(not r or r[0] < LEAF_COUNT for _, r in GRAMMAR) and max(len(r) for _, r in GRAMMAR) <= WIDTH
assert FIRST + max(len(GRAMMAR), SYMBOL_COUNT) <= 127


def cell(s, kind):
    if s < LEAF_COUNT:
        return LEAF if kind in ALLOWED.get(s, []) else FAILS
    for i, (left, right) in enumerate(GRAMMAR):
        if left == s:
            if not right:
                return SKIPS
            if kind in ALLOWED[right[0]]:
                return FIRST + i
    return FAILS


CELLS = [[cell(s, k) for k in range(KIND_COUNT)] for s in range(SYMBOL_COUNT)]
RIGHTS = [[FIRST + x for x in r] + [FIRST] * (WIDTH - len(r)) for _, r in GRAMMAR]
LENGTHS = [FIRST + max(len(r) - 1, 0) for _, r in GRAMMAR]


def shortest():
    """For each symbol a shortest list of kinds that it derives."""
    found = {s: [ks[0]] for s, ks in ALLOWED.items()}
    changed = True
    while changed:
        changed = False
        for left, right in GRAMMAR:
            if all(x in found for x in right):
                w = sum((found[x] for x in right), [])
                if left not in found or len(w) < len(found[left]):
                    found[left], changed = w, True
    return found


def follows():
    """For each symbol the kinds that can stand after it in something derived."""
    nullable = {left for left, right in GRAMMAR if not right}
    first = {s: set(ks) for s, ks in ALLOWED.items()}
    for left, right in GRAMMAR:
        first.setdefault(left, set()).update(ALLOWED[right[0]] if right else [])
    found = {s: set() for s in NAME}
    changed = True
    while changed:
        changed = False
        for left, right in GRAMMAR:
            for i, x in enumerate(right):
                after, open_ended = set(), True
                for y in right[i + 1 :]:
                    after |= first[y]
                    if y not in nullable:
                        open_ended = False
                        break
                if open_ended:
                    after |= found[left]
                if not after <= found[x]:
                    found[x], changed = found[x] | after, True
    for s in nullable:
        assert not first[s] & found[s], "not LL(1): " + NAME[s]
    return {s: sorted(ks) for s, ks in found.items()}


def quoted(rows, indent):
    """Rows of bytes as one text, a line for each row."""
    lines = ["".join("\\" + chr(b) if chr(b) in '\\"' else chr(b) for b in row) for row in rows]
    return ("\\\n" + indent).join(lines)


def write(name, s):
    with open(CRATE + name, "w", encoding="utf-8") as f:
        f.write(s)


def constant(name):
    return re.sub(r"(?<=[a-z0-9])(?=[A-Z])", "_", name).upper()


def constants(comment, struct, pairs):
    s = "// %s\n#[derive(Drop)]\npub struct %s {}\n\nimpl %s {\n" % (comment, struct, struct)
    return s + "\n".join("    pub const %s: u8 = %d;\n" % (constant(n), v) for n, v in pairs) + "}\n"


def write_symbols():
    s = "// The kinds, roles and symbols of specs/Symbols.antt, written by tools/tables.py.\n\n"
    s += constants("What the grammar tells apart of a token.", "Kind", KINDS + [("Count", KIND_COUNT)]) + "\n"
    s += constants("A token's role in a text.", "Role", LEAVES) + "\n"
    started = [(n, SYMBOL[n]) for n in ("Program", "Body", "Dense", "Op")]
    s += constants("Symbols that reading starts from.", "Symbol", started + [("Count", SYMBOL_COUNT)])
    write("src/symbols.rt", s)


TABLES = [
    ("A row for each symbol, a column for each kind: `.` fails, `-` derives nothing, `+` is the leaf itself, else 48 more than a production's number.", "CELLS", CELLS),
    ("A row for each production: 48 more than each symbol of its right side, filled up with 48.", "RIGHTS", RIGHTS),
    ("For each production: 48 more than the number of symbols after its first.", "LENGTHS", [LENGTHS]),
]


def write_tables():
    s = "// The machine's tables, written by tools/tables.py from specs/Symbols.antt and specs/Grammar.antt.\n\n"
    for comment, name, rows in TABLES:
        line = "\n    " if len(rows) == 1 else " "
        s += "// %s\npub const %s: [u8; %d] =%s*b\"%s\";\n\n" % (comment, name, sum(map(len, rows)), line, quoted(rows, "    "))
    write("src/tables.rt", s.rstrip("\n") + "\n")


def write_cells():
    s = "-- The cells of src/tables.rt as a list, a row for each symbol; written by tools/tables.py.\n"
    s += "-- Assumes nothing.\n"
    s += "use Prim.Native.Nat.{ℕ}\nuse Prim.Native.Char.{Char, code}\nuse Prim.Native.String as S\nuse mathlib.Core.List.{List, [], ◌∷◌, ◌++◌}\n\n"
    s += "abbrev letters : S.String → List ℕ\nletters S.[] = []\nletters (S.◌∷◌ c s) = code c ∷ letters s\n\n"
    s += "abbrev rows : List S.String → List ℕ\nrows [] = []\nrows (r ∷ rs) = letters r ++ rows rs\n\n"
    s += "unfoldable pub cells : List ℕ\ncells =\n    rows (\n"
    for n, row in enumerate(CELLS):
        s += "    \"%s\" ∷  -- %s\n" % (quoted([row], ""), NAME.get(n, "no symbol"))
    write("proofs/CellRows.antt", s + "    [])\n")


def write_witness():
    s = "-- For each symbol a list of kinds that it derives, and the kinds that can follow it; written by tools/tables.py.\n"
    s += "-- Assumes nothing.\nuse Prim.Native.Nat.{ℕ}\nuse mathlib.Core.List.{List, [], ◌∷◌}\n"
    for name, found in (("shortest", shortest()), ("follows", follows())):
        s += "\nunfoldable pub %s : List (List ℕ)\n%s =\n    [] ∷\n" % (name, name)
        for x in range(1, SYMBOL_COUNT):
            s += "    (%s[]) ∷  -- %s\n" % ("".join("%d ∷ " % k for k in found[x]), NAME[x])
        s += "    []\n"
    write("proofs/Witness.antt", s)


if __name__ == "__main__":
    write_symbols()
    write_tables()
    write_cells()
    write_witness()
    print("kinds %d, leaves %d, symbols %d, productions %d" % (len(KINDS), len(LEAVES), SYMBOL_COUNT, len(GRAMMAR)))

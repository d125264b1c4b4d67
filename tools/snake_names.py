#!/usr/bin/env python3
"""Brings the names of definitions and laws to Rattle's spelling: words in snake case, types and modules in camel case.

usage: python3 tools/snake_names.py [--dry] [FOLDER]    FOLDER: the repository, else the folder that this script's folder is in

Rewrites specs/ and proofs/ (outside strings), the clauses and comments of src/, and the names in docs/, README.md and tools/.
Names of functions in src/, of constants that spell a symbol of the grammar, and of Rattle's library stay.
A name is turned part by part: parts are joined by a dash, and a part that begins with a small letter and has a capital is turned.
"""

import os
import re
import sys

KEEP = {"uint_Tells", "uint_Makes", "walk_Meets", "shr_slice_Tells", "shr_slice_Lawful", "not_T", "is_Signed", "result_Value"}
# Names that are no words in camel case, and one type that began with a small letter.
GIVEN = {"getD": "get_or", "eqZ": "eq_int", "leZ": "le_int", "joinedAs": "JoinedAs", "hB": "hB", "iR": "iR", "jR": "jR"}
# Constructors of `checks` Relation.
CONSTRUCTORS = {"Equal": "equal", "Less": "less", "AtMost": "at_most"}
CONSTRUCTOR_CRATES = ("checks", "op_checks", "check_reasons", "rule_laws", "rules", "constraint_facts", "opcheck")
# Laws whose name falls together with that of their definition: they get `_lem`, where they stand and where they are imported.
LAWS = """
answers/AnswerLaw node_at
attribute_laws/FitLaw stands_at
default_laws/AttributeLaw kind_fits
body_meaning/AcceptedBodyLaw has_body
text/NameLaw same_bytes
default_laws/NumbersLaw goes_on
maps/SliceLaw slice_index
nodes/NodesLaw operand_type
nodes/ReadLaw kind_fits
default_laws/DenseTypeLaw kind_fits
part_laws/GrantedLaw no_names
part_laws/GrantedLaw no_return
reading_laws/ElementsLaw all_pass
rule_laws/DimensionsLaw less
rule_laws/TransposeLaw less
source_laws/ListedLaw parts_from
start_examples/IdentityTest start_is
verdict_laws/TypedSameLaw taken_at
"""
# One import under another name that falls together with a name of its file.
ALIAS = ("crates/attributes/proofs/Examples.antt", "«count_of»", "«byte_count_of»")
TOKEN = re.compile(r"(?<![\w'#])[A-Za-z_][\w'-]*")
STRING = re.compile(r'b?"(?:[^"\\]|\\.)*"')
CAMEL = re.compile(r"[a-z][a-z0-9']*[A-Z]")


def part(p):
    if p in GIVEN:
        return GIVEN[p]
    if p in KEEP or not CAMEL.match(p):
        return p
    p = re.sub(r"([a-z0-9'])([A-Z])", r"\1_\2", p)
    p = re.sub(r"([A-Z])([A-Z][a-z])", r"\1_\2", p)
    return p.lower()


def turned(token):
    return "-".join(part(p) for p in token.split("-"))


def outside_strings(text, change):
    out, at = [], 0
    for m in STRING.finditer(text):
        out += [change(text[at:m.start()]), m.group()]
        at = m.end()
    return "".join(out + [change(text[at:])])


def lines_outside_strings(text, change):
    """By line, so that a quote in a comment does no harm to what follows."""
    return "\n".join(outside_strings(line, change) for line in text.split("\n"))


def change_names(names):
    def change(text):
        return TOKEN.sub(lambda m: names.get(m.group(), m.group()), text)

    return change


def files(root, exts, top):
    for folder, dirs, found in os.walk(os.path.join(root, top)):
        dirs[:] = sorted(d for d in dirs if d not in ("out", "target", ".git"))
        for f in sorted(found):
            if f.endswith(exts):
                yield os.path.join(folder, f)


def in_crates(path, crates):
    return any(f"{os.sep}crates{os.sep}{c}{os.sep}" in path for c in crates)


def read(path):
    with open(path, encoding="utf-8") as f:
        return f.read()


def tokens(text):
    """The names that a file uses: no comments, no fields behind a dot, no parts of paths."""
    found = set()
    for line in text.split("\n"):
        line = STRING.sub('""', line).split("--")[0]
        found.update(TOKEN.findall(re.sub(r"\.[A-Za-z_][\w'.-]*", " ", line)))
    return found


def name_laws(root):
    every = {p: read(p) for p in files(root, (".antt",), "crates")}
    for line in LAWS.split("\n"):
        if not line:
            continue
        place, law = line.split()
        crate, module = place.split("/")
        imports = re.compile(r"Rattle\.%s\.proofs\.%s\.\{[^}]*(?<![\w.'-])%s(?![\w'-])" % (crate, module, law))
        for path, text in every.items():
            here = path.endswith(f"/crates/{crate}/proofs/{module}.antt")
            if here or imports.search(text):
                new = re.sub(r"(?<![\w.'#-])%s(?![\w'-])" % law, law + "_lem", text)
                if new != text:
                    every[path] = new
                    print(f"law: {path[len(root) + 1:]}: {law} -> {law}_lem")
    path = os.path.join(root, ALIAS[0])
    if path in every:
        every[path] = every[path].replace(ALIAS[1], ALIAS[2])
    return every


def main(argv):
    dry = "--dry" in argv
    rest = [a for a in argv if a != "--dry"]
    root = rest[0] if rest else os.path.dirname(os.path.dirname(os.path.abspath(__file__)))
    every = name_laws(root)
    names, before = {}, {}
    for path in files(root, (".antt",), "crates"):
        before[path] = tokens(every[path])
        for t in before[path]:
            if turned(t) != t:
                names[t] = turned(t)
    # Two names of one file that fall together.
    for path, found in before.items():
        by = {}
        for t in found:
            new = CONSTRUCTORS.get(t, t) if in_crates(path, CONSTRUCTOR_CRATES) else t
            by.setdefault(names.get(t, new), []).append(t)
        for new, olds in sorted(by.items()):
            if len(olds) > 1:
                print(f"together: {path[len(root) + 1:]}: {' '.join(sorted(olds))} -> {new}")
    if dry:
        print(len(names), "names")
        return 0
    change = change_names(names)
    for path in files(root, (".antt", ".rt"), "crates"):
        old = read(path)
        new = lines_outside_strings(every.get(path, old), change)
        if path.endswith(".antt") and in_crates(path, CONSTRUCTOR_CRATES):
            new = lines_outside_strings(new, change_names(CONSTRUCTORS))
        if new != old:
            with open(path, "w", encoding="utf-8") as f:
                f.write(new)
    # Pages and tools: only names in camel case that a file of specs/ or proofs/ has.
    pages = [os.path.join(root, "README.md")] + list(files(root, (".md",), "docs")) + [p for p in files(root, (".py",), "tools") if not p.endswith("snake_names.py")]
    for path in pages:
        old = read(path)
        new = change(old)
        if new != old:
            with open(path, "w", encoding="utf-8") as f:
                f.write(new)
    return 0


if __name__ == "__main__":
    raise SystemExit(main(sys.argv[1:]))

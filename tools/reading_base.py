#!/usr/bin/env python3
"""The reading base: the definitions of crates/*/specs that the roots reach, with their lines by crate.

    tools/reading_base.py [--list] [--by-law] [--names] [ROOT ..]

A root is CRATE.Module.name; without roots, those of the bench's answer and of the claim of demand 3. A definition is its signature and its
clauses; comments, blank lines and `use` lines are not counted. --list prints every definition reached, --by-law
reads the statements of laws in place of the definitions that docs/READING.md reads so, --names the names that are defined in more
than one module of specs/."""
import re
import sys
from pathlib import Path

ROOTS = ["answers.Answered.answer_of", "answers.FreeRuns.FreeOfOrder"]
# Definitions that docs/READING.md reads by a law: the law's statement is read in their place, by these definitions of specs/.
BY_LAW = {
    # the roles of tokens are the leaves of the derivation: syntax proofs/Labelling, Theorems
    "syntax.Readings.readings_of": ["syntax.Roles.Labels", "grammar.Derivation.Begins", "grammar.Derivation.NoneBegins", "syntax.Readings.Reading"],
    # a token is the longest of 01's forms: text proofs/LongestLaw
    "text.Lex.lexeme": ["text.Forms.Longest"],
    # which size a token passes, by the tokens before it: size_laws proofs/Theorems
    "judge.Sizes.size_passed": ["size_laws.SizeSentences.PassedAt", "size_laws.SizeSentences.LowestPassed"],
    "judge.Tally.after_token": [],
    # two types are one where element types and dimensions are: rules proofs/FactLaw
    "dimrules.Types.same_shape": ["rules.Facts.AlikeShapes"],
    # an op's names as operands, body, result: names proofs/TextLaw
    "names.Names.names_read": ["names.InOrder.operands_body_result"],
}


def crates_dir():
    here = Path(__file__).resolve().parent.parent
    return here / "crates"


class Definition:
    def __init__(self, module, name):
        self.module, self.name = module, name
        self.text, self.lines, self.kind = [], 0, ""


def strip(line):
    return line.split("--")[0] if not line.lstrip().startswith("--") else ""


def read_module(path, crate):
    module = f"{crate}.{path.stem}"
    uses, definitions, order = {}, {}, []
    current, comment, seen_blank = None, 0, False
    for raw in path.read_text().splitlines():
        line = raw.rstrip()
        if not line:
            comment, current_open = 0, None
            seen_blank = True
            continue
        m = re.match(r"^\s*(?:unfoldable |abbrev )?(?:pub )?use ([^\s{]+?)(?:\.\{(.*)\})?$", line)
        if m:
            source, names = m.group(1), m.group(2)
            if names:
                for n in names.split(","):
                    n = n.strip()
                    if " as " in n:
                        old, new = [p.strip() for p in n.split(" as ")]
                        uses[new] = (source, old)
                    else:
                        uses[n] = (source, n)
            else:
                last = source.split(".")[-1]
                m2 = re.match(r"(.*) as (\S+)$", line[line.index("use ") + 4:])
                uses[last] = (source, None)
            continue
        if line.lstrip().startswith("--"):
            comment += 1
            continue
        indent = len(line) - len(line.lstrip())
        starts = re.match(r"^(\s*)(?:(?:abbrev|unfoldable)\s+)?(?:pub\s+)?(?:(?:abbrev|unfoldable)\s+)?(?:(record|data)\s+)?(\S+)\s*(?:\(.*?\)\s*|\{.*?\}\s*)*:(?:\s|$)", line)
        keyword = re.match(r"^\s*(abbrev|unfoldable|pub (record|data|abbrev|unfoldable)|record|data)\b", line)
        plain = re.match(r"^(pub )?([^\s:]+) :", line)
        if line.startswith("module ") or line.startswith("infix"):
            comment = 0
            continue
        if indent <= 2 and (keyword or (plain and indent == 0)):
            m = re.match(r"^\s*(?:(?:abbrev|unfoldable|pub|record|data)\s+)*(\S+)", line)
            name = m.group(1)
            if name not in definitions:
                definitions[name] = Definition(module, name)
            current = definitions[name]
            current.kind = "data" if re.search(r"\bdata\b", line.split(name)[0]) else ""
            comment = 0
        if current is None:
            continue
        # the constructors of a data type
        constructor = re.match(r"^\s+([^\s:]+(?: [^\s:]+)*) : ", line)
        if constructor and indent >= 2 and current.kind == "data":
            for n in constructor.group(1).split():
                definitions.setdefault(n, current)
        current.lines += 1
        comment = 0
        current.text.append(strip(line))
    return module, uses, definitions


def load():
    modules = {}
    for path in sorted(crates_dir().glob("*/specs/*.antt")):
        if path.stem == "Lib":
            continue
        module, uses, definitions = read_module(path, path.parent.parent.name)
        modules[module] = (uses, definitions)
    return modules


def target(source):
    m = re.match(r"^Rattle\.([a-z0-9_]+)\.specs\.([A-Za-z0-9_]+)$", source)
    return f"{m.group(1)}.{m.group(2)}" if m else None


def resolve(modules, module, word):
    seen = set()
    while module in modules and (module, word) not in seen:
        seen.add((module, word))
        uses, definitions = modules[module]
        if word in definitions:
            return definitions[word]
        if word in uses:
            source, old = uses[word]
            nxt = target(source)
            if nxt is None or old is None:
                return None
            module, word = nxt, old
            continue
        return None
    return None


def reach(modules, roots, by_law):
    todo, found = [], {}
    for root in roots:
        crate, mod, name = root.split(".")
        d = modules[f"{crate}.{mod}"][1][name]
        todo.append(d)
    while todo:
        d = todo.pop()
        key = (d.module, d.name)
        if key in found:
            continue
        instead = BY_LAW.get(f"{d.module}.{d.name}") if by_law else None
        if instead is not None:
            for root in instead:
                crate, mod, name = root.split(".")
                other = modules[f"{crate}.{mod}"][1][name]
                if (other.module, other.name) != key:
                    todo.append(other)
            continue
        found[key] = d
        for line in d.text:
            for word in re.findall(r"[^\s(){};,\"]+", line):
                for piece in {word, *word.split("."), word.strip(".")}:
                    other = resolve(modules, d.module, piece)
                    if other is not None:
                        todo.append(other)
    return found


def main():
    words = sys.argv[1:]
    listing = "--list" in words
    modules = load()
    if "--names" in words:
        where = {}
        for module, (_, definitions) in modules.items():
            for name, d in definitions.items():
                if d.name == name:
                    where.setdefault(name, []).append(module)
        twice = {n: ms for n, ms in where.items() if len(ms) > 1}
        for n in sorted(twice):
            print(f"{n}: {', '.join(twice[n])}")
        print(f"{len(twice)} names")
        return
    roots = [w for w in words if not w.startswith("--")] or ROOTS
    found = reach(modules, roots, "--by-law" in words)
    by_crate = {}
    for (module, name), d in found.items():
        by_crate.setdefault(module.split(".")[0], []).append(d)
    order = [line.split(":")[0].strip() for line in (crates_dir().parent / "crates.txt").read_text().splitlines() if re.match(r"^[a-z]", line)]
    total = 0
    for crate in sorted(by_crate, key=lambda c: order.index(c) if c in order else 999):
        lines = sum(d.lines for d in by_crate[crate])
        total += lines
        print(f"{crate:16} {len(by_crate[crate]):4} definitions {lines:5} lines")
        if listing:
            for d in sorted(by_crate[crate], key=lambda d: (d.module, d.name)):
                print(f"    {d.module}.{d.name} {d.lines}")
    print(f"total {len(found)} definitions {total} lines")


main()

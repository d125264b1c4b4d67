#!/usr/bin/env python3
"""Writes crates/size_laws/proofs/WindowTable.antt from the grammar's definitions (crates/grammar/specs/Symbols.antt and Grammar.antt): for each symbol the
two roles that can stand before it, and the last two after what it derives.

Run it from the repository's root after every change of the two definitions: python3 tools/windows.py
WindowLaw proves at every production that the table is right: a wrong one is refused, and nothing here is trusted."""
import re

SPECS = "crates/grammar/specs/"
TARGET = "crates/size_laws/proofs/WindowTable.antt"
HEAD = """-- The two roles that can stand before each symbol of the grammar, and the last two after what it derives: (0, r) where r is the first token, (0, 0) before it.
-- WindowLaw tests them at every production.
-- Assumes nothing.
use Prim.Native.Nat.{ℕ}
use mathlib.Core.List.{List, [], ◌∷◌}

"""


def read(name):
    with open(SPECS + name, encoding="utf-8") as f:
        return f.read()


def numbers():
    return {m.group(1): int(m.group(2)) for m in re.finditer(r"^(\w+) = (\d+)$", read("Symbols.antt"), re.M)}


def productions():
    found = []
    for m in re.finditer(r"^\s*\((\w+) ⟶ (.*?)\)( ∷|$)", read("Grammar.antt"), re.M):
        right = [x.strip() for x in m.group(2).split("∷")]
        found.append((m.group(1), [x for x in right if x != "[]"]))
    return found


def windows(number, rules, symbols):
    """Before and after each symbol, the pairs of last two roles, until nothing is added."""
    before = {s: set() for s in symbols}
    after = {s: set() for s in symbols}
    before["Program"].add((0, 0))
    before["Op"].add((0, 0))
    changed = True
    while changed:
        changed = False
        for left, right in rules:
            pairs = set(before[left])
            for item in right:
                if item in before:
                    if not pairs <= before[item]:
                        before[item] |= pairs
                        changed = True
                    pairs = set(after[item])
                else:
                    pairs = {(b, number[item]) for (a, b) in pairs}
            if not pairs <= after[left]:
                after[left] |= pairs
                changed = True
    return before, after


def table(name, comment, symbols, pairs):
    lines = [f"-- {comment}", f"unfoldable pub {name} : List (List (ℕ × ℕ))", f"{name} ="]
    for s in symbols:
        row = " ∷ ".join(f"({a}, {b})" for a, b in sorted(pairs[s]))
        lines.append(f"    ({row} ∷ []) ∷  -- {s}")
    return "\n".join(lines + ["    []"])


def main():
    number, rules = numbers(), productions()
    symbols = sorted({left for left, _ in rules}, key=lambda s: number[s])
    first = number["Program"]
    assert [number[s] for s in symbols] == list(range(first, first + len(symbols)))
    before, after = windows(number, rules, symbols)
    text = HEAD + table("befores", "before each symbol from Program on", symbols, before) + "\n\n" + table("afters", "after it", symbols, after) + "\n"
    with open(TARGET, "w", encoding="utf-8") as f:
        f.write(text)
    print(f"symbols {len(symbols)}, productions {len(rules)}")


main()

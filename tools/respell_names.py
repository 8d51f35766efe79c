#!/usr/bin/env python3
"""Brings the names of this repository's own definitions and lemmas to snake case: `layer-of` becomes `layer_of`.

A dash stays only where it joins two names, as in `length-hex`, or in a name that Rattle makes. Run it once, at the
top of the repository, after port.py. It rewrites specs/, proofs/, the clauses in src/, and the names that stand
between backticks in README.md and docs/; it stops where two names would fall together.
"""

import re
from pathlib import Path

# A dash that joins two names stays, and a fact is in camel case.
SPECIAL = {
    "Spells-once": "SpellsOnce",
    "length-ending-whole": "length-ending_whole",
    "length-starting-whole": "length-starting_whole",
    "length-with-cells": "length-with_cells",
    "length-appended": "length-appended",
    "length-stacked": "length-stacked",
    "length-slots": "length-slots",
    "length-hex": "length-hex",
    "take-appended": "take-appended",
    "slots-reverse": "slots-reverse",
    "slots-stacked": "slots-stacked",
    "stacked-set": "stacked-set",
    "stacked-min": "stacked-min",
    "quotes-append": "quotes-append",
    "every-cons": "every-cons",
    "number-digit": "number-digit",
    "digit-number": "digit-number",
    "texts-of-page": "texts_of-page",
    "within-getD": "within-get_or",
}

# a name is any run of these
CHAR = r"[\w'◌≡≤<+*/%^∷&|-]"
DASHED = r"[A-Za-z]\w*(?:-\w+)+"
DECLARED = re.compile(rf"^\s*(?:(?:abbrev|unfoldable|pub|data|record) )*({DASHED})(?: \(.*?\)| \{{.*?\}})* :(?! goal\.)")
GOAL = re.compile(rf"^\s*(?:(?:abbrev|pub) )*({DASHED}) : goal\.")
BOUND = re.compile(rf"\blet ({DASHED}) |[({{]({DASHED}) :")
IMPORTED = re.compile(r"^\s*(?:ghost )?use ([\w.+'-]+)\.\{([^}]*)\}")


def logic_files(root):
    for folder in ("specs", "proofs"):
        yield from sorted(root.glob(f"crates/*/{folder}/**/*.antt"))


def own_names(root):
    """The dashed names that the repository declares, without those of goals and invariants."""
    own, goals, foreign = set(), set(), set()
    for path in logic_files(root):
        for line in path.read_text().splitlines():
            if line.lstrip().startswith("--"):
                continue
            if m := GOAL.match(line):
                goals.add(m[1])
            elif m := DECLARED.match(line):
                own.add(m[1])
            for m in BOUND.finditer(line):
                own.add(m[1] or m[2])
            if (m := IMPORTED.match(line)) and (m[1].startswith("Rattle.std") or not m[1].startswith("Rattle.")):
                foreign.update(name.split(" as ")[0].strip() for name in m[2].split(","))
    own -= goals
    if both := own & foreign:
        raise SystemExit(f"names that are imported too: {sorted(both)}")
    return own


def whole(name):
    return re.compile(rf"(?<!{CHAR}){re.escape(name)}(?!{CHAR})")


def respell(text, table):
    for pattern, new in table:
        text = pattern.sub(new, text)
    return text


def respell_source(text, table):
    """A source file: the names in it, but no part of a string."""
    parts = re.split(r'(b?"(?:[^"\\\n]|\\.)*")', text)
    return "".join(part if i % 2 else respell(part, table) for i, part in enumerate(parts))


def respell_page(text, table):
    """A page: the names between backticks."""
    return re.sub(r"`[^`\n]+`", lambda m: respell(m[0], table), text)


def main():
    root = Path(".")
    names = own_names(root)
    to = {name: SPECIAL.get(name, name.replace("-", "_")) for name in names}
    logic = "\n".join(path.read_text() for path in logic_files(root))
    for old, new in sorted(to.items()):
        if new != old and (whole(new).search(logic) or list(to.values()).count(new) > 1):
            print(f"look: {old} becomes {new}, which stands in specs/ or proofs/ already")
    table = [(whole(old), new) for old, new in sorted(to.items()) if new != old]
    jobs = [(path, respell) for path in logic_files(root)]
    jobs += [(path, respell_source) for path in sorted(root.glob("crates/*/src/**/*.rt"))]
    jobs += [(path, respell_page) for path in [root / "README.md", *sorted(root.glob("docs/*.md"))]]
    for path, turn in jobs:
        text = path.read_text()
        turned = turn(text, table)
        if turned != text:
            path.write_text(turned)
    for old, new in sorted(to.items()):
        print(f"{old} {new}")


main()

#!/usr/bin/env python3
"""Spells this repository's own definitions and lemmas as today's Rattle does.

usage: tools/spell.py [--list]     at the top of the repository

A definition, a lemma or a field of specs/ and proofs/ whose name joins words
by dashes gets one in snake case, or in camel case where it is a type or a
fact: `sum-next` becomes `sum_next`, `Sum-adds` becomes `SumAdds`; one that
would have the name of a function of its crate gets `_lem`. Names that Rattle
makes (goals and steps), names of the library, functions of src/, strings,
inputs and outputs keep theirs. Two names that would become one stop it before
anything is written. It was run once, on what port.py had turned; run again it
finds nothing. With --list it writes nothing and prints the names.
"""

import re
import sys
from pathlib import Path

ROOT = Path(__file__).resolve().parent.parent
CRATES = ROOT / "crates"
DEFINED = re.compile(r"^\s*(?:(?:abbrev|unfoldable|pub|record|data) )*([A-Za-z][^\s:(){}.,;]*) (?=[:({])")
TOKEN = re.compile(r"[A-Za-z][^\s(){}\[\],;.:λ=←|↦«»`\"]*")
IMPORT = re.compile(r"^(?:ghost )?use ([\w.·+]+)\.\{([^}]*)\}", re.M)
# Lemmas of the library that a crate here also has under the same name.
SHARED = {"get_or-take", "mul-add", "mul-le", "one-mul"}


def spelled(name):
    parts = name.split("-")
    if name[0].isupper():
        return "".join(p[:1].upper() + p[1:] for p in parts)
    return "_".join(parts)


def sources():
    for kind in ("specs", "proofs"):
        yield from sorted(CRATES.glob(f"*/{kind}/**/*.antt"))


def defined():
    """The names that specs/ and proofs/ define, with the files."""
    own = {}
    for path in sources():
        for line in path.read_text().splitlines():
            match = DEFINED.match(line)
            if (match and " : " in line and "goal." not in line
                    and not line.lstrip().startswith(("use ", "--", "let "))):
                own.setdefault(match[1], set()).add(path)
    return own


def imported(crates):
    """The names that are imported from elsewhere than the repository's crates."""
    names = set()
    for path in [*sources(), *CRATES.glob("*/src/**/*.rt")]:
        for module, items in IMPORT.findall(path.read_text()):
            parts = module.split(".")
            if parts[0] == "Rattle" and parts[1] in crates:
                continue
            names |= {re.split(r"\s+as\s+", x.strip())[0] for x in items.split(",")}
    return names


def code():
    """The names of src/, as (crate, name): functions, and all others."""
    functions, others = set(), set()
    for path in CRATES.glob("*/src/**/*.rt"):
        crate = path.relative_to(CRATES).parts[0]
        for line in path.read_text().splitlines():
            functions |= {(crate, n) for n in re.findall(r"\bfn ([a-z_0-9]+)", line)}
            found = re.findall(r"\b(?:struct|enum|const|trait|mod) ([A-Za-z_0-9]+)", line)
            found += re.findall(r"^\s*(?:pub )?([a-z_0-9]+): [A-Za-z&\[{]", line)
            others |= {(crate, n) for n in found}
    return functions, others


def main(words):
    crates = {p.name for p in CRATES.iterdir()}
    own, foreign, (functions, others_of) = defined(), imported(crates), code()
    homes = {n: {p.relative_to(CRATES).parts[0] for p in own[n]} for n in own}
    new = {n: spelled(n) for n in own if "-" in n and n not in SHARED}
    for name, to in new.items():
        if any((c, to) in functions for c in homes[name]):
            new[name] = to + "_lem"
    faults = []
    for name, to in sorted(new.items()):
        others = [m for m in own if m != name and new.get(m, m) == to]
        if others:
            faults.append(f"{name} and {', '.join(others)} would both be {to}")
        if to in foreign:
            faults.append(f"{name} would be the library's {to}")
        if any((c, to) in others_of for c in homes[name]):
            faults.append(f"{name} would be the code's {to}")
    if "--list" in words:
        print("\n".join(f"{n} {t}" for n, t in sorted(new.items())))
        print("\n".join(faults))
        return 0
    if faults:
        print("\n".join(faults))
        return 1
    pages = [ROOT / "README.md", *sorted((ROOT / "docs").glob("*.md"))]
    for path in [*sources(), *CRATES.glob("*/src/**/*.rt"), *pages]:
        text = path.read_text()
        turned = TOKEN.sub(lambda m: new.get(m[0], m[0]), text)
        if turned != text:
            path.write_text(turned)
    return 0


if __name__ == "__main__":
    sys.exit(main(sys.argv[1:]))

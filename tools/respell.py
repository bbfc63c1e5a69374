#!/usr/bin/env python3
"""Spells the repository's own names as today's Rattle does. Run once, at the top, after the toolchain's port script.

What is respelled: each definition, field, constructor and lemma that an .antt file of specs/ or proofs/ declares, but those of a function's own Proof.antt,
which go by the names that Rattle makes. Words are in snake case, types and statements in camel case. Names of src/ stay, and so does text in quotes.

respell.py          respells, in crates/, README.md and docs/
respell.py --list   prints each old and new name, and those that fall together"""
import glob
import os
import re
import sys

ROOT = os.path.dirname(os.path.dirname(os.path.abspath(__file__)))
os.chdir(ROOT)

# Names that would fall together with another, or that a rule does not spell well.
CHOSEN = {
    "digit-AF": "digit_capital",
    "digit-af": "digit_small",
    "Demand3-early": "Demand3Early",
    "Demand3-slipped": "Demand3Slipped",
    "or-zero": "or_zero_lem",
}

CHAR = r"\w'′₀-₉·-"
TOKEN = re.compile(rf"(?<![{CHAR}])[A-Za-z][{CHAR}]*")
DECLARED = re.compile(
    r"^\s*(?:\|\s*)?(?:(?:pub|abbrev|unfoldable|mutual|instance)\s+)*(?:(?:record|data)\s+)?([A-Za-z][^\s:(){};,.]*)(?=\s+(?::|\())|"
    r"^\s+(?:pub\s+)?([a-z][^\s:(){};,.]*(?:\s+[a-z][^\s:(){};,.]*)*)\s+:", re.M)


def read(path):
    with open(path, encoding="utf-8") as f:
        return f.read()


def snake(name):
    name = name.replace("-", "_")
    name = re.sub(r"(?<=[a-z0-9])([A-Z])", lambda m: "_" + m.group(1), name)
    return name.lower()


def spelled(name):
    if name in CHOSEN:
        return CHOSEN[name]
    if name[0].isupper():
        return name
    return snake(name.replace("′", "'"))


SHARED = [p for p in sorted(glob.glob("crates/*/specs/**/*.antt", recursive=True) + glob.glob("crates/*/proofs/**/*.antt", recursive=True))
          if os.path.basename(p) not in ("Proof.antt", "Lib.antt") and "/out/" not in p]


def signatures(text):
    """The names that a file declares: what stands before a `:` at the start of a line, and fields and constructors."""
    text = re.sub(r"--[^\n]*", "", text)
    for m in DECLARED.finditer(text):
        for name in (m.group(1) or m.group(2)).split():
            if name not in ("where", "module", "use", "pub", "record", "data", "let", "in", "elim", "abbrev", "unfolding"):
                yield name


def table():
    names = set()
    for path in SHARED:
        names |= set(signatures(read(path)))
    found = {n: spelled(n) for n in sorted(names) if spelled(n) != n}
    # a lemma that would have its definition's name gets _lem
    defined = {new for old, new in found.items() if "-" not in old}
    return {old: new + "_lem" if "-" in old and new in defined else new for old, new in found.items()}


def lemmas_there(names):
    """Lemmas that the port script spelled so that they would now have their definition's name."""
    made = {new for old, new in names.items() if not new.endswith("_lem")}
    return {n for path in SHARED for n in signatures(read(path)) if n in made and "/proofs/" in path}


def replaced(text, names):
    return TOKEN.sub(lambda m: names.get(m.group(), m.group()), text)


def outside_strings(line, names):
    """A line of an .rt file, with what stands in quotes left as it is."""
    parts = re.split(r"""(b?"(?:\\.|[^"\\])*")""", line)
    return "".join(p if i % 2 else replaced(p, names) for i, p in enumerate(parts))


def main():
    names = table()
    if "--list" in sys.argv:
        print("LEMMAS", " ".join(sorted(lemmas_there(names))))
        seen = {}
        for old, new in names.items():
            print(old, new)
            seen.setdefault(new, []).append(old)
        present = {}
        for path in glob.glob("crates/**/*.antt", recursive=True) + glob.glob("crates/**/*.rt", recursive=True):
            for token in set(TOKEN.findall(re.sub(r"(--|//)[^\n]*", "", read(path)))):
                present.setdefault(token, set()).add(path)
        for new, olds in seen.items():
            if len(olds) > 1:
                print("TOGETHER", new, olds)
            if new in present:
                both = present[new] & set().union(*(present.get(o, set()) for o in olds))
                where = {os.path.splitext(p)[1] for p in present[new]}
                print("THERE", new, olds, "in one file:" if both else "", " ".join(sorted(both)), sorted(where), len(present[new]))
        return
    paths = glob.glob("crates/**/*.antt", recursive=True) + glob.glob("crates/**/*.rt", recursive=True) + glob.glob("crates/**/*.edit", recursive=True) \
        + ["README.md"] + glob.glob("docs/**/*.md", recursive=True)
    changed = 0
    there = lemmas_there(names)
    for path in paths:
        if "/out/" in path:
            continue
        text = read(path)
        if path.endswith(".antt"):
            for name in there:
                text = re.sub(rf"(?<![.{CHAR}]){name}(?![.{CHAR}])", name + "_lem", text)
            new = replaced(text.replace("′", "'"), names)
        elif path.endswith(".md"):
            new = re.sub(r"`[^`\n]*`", lambda m: replaced(m.group(), names), text)
        else:
            new = "\n".join(outside_strings(line, names) for line in text.split("\n"))
        if new != text:
            changed += 1
            with open(path, "w", encoding="utf-8") as f:
                f.write(new)
    print(f"respelled: {len(names)} names, {changed} files")


main()

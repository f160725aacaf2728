#!/usr/bin/env python3
"""Spells the definitions and lemmas of crates/ as Rattle does: words in snake case, types and modules in camel case.

usage: tools/spell_names.py            at the top of the repository, once

It turns the names that this repository declares in specs/ and proofs/, where they are spelled with hyphens or humps, in .antt files, in the
clauses of .rt files and in must-fail edits. Names of the library, functions of src/, strings and what Rattle makes keep their spelling. It
refuses to turn two names into one.
"""

import glob
import re
import sys

# What stands between two names.
BETWEEN = re.compile(r'("(?:[^"\\]|\\.)*"|[\s(){}\[\];,.`]+)')
DECLARED = re.compile(r"^\s*(?:(?:pub|abbrev|unfoldable|private|record|data) )*([^\s(){}\[\];,.:\"]+) (?::|=)")
BOUND = re.compile(r"[(λ{]\s*([^\s(){}:λ\"][^(){}:\"]*?) :")
LET = re.compile(r"\blet ([^\s(){}:]+) [:=]")
ARGUMENTS = re.compile(r"^\s*([^\s(){}\[\];,.:\"]+)((?: [^\s(){}\[\];,.:\"=]+)+) =")
LAMBDA = re.compile(r"λ ([^.():\"]+)\.")
IMPORT = re.compile(r"^\s*(?:pub )?(?:ghost )?use ([^\s{;]+?)(?:\.\{(.*)\})?;?$", re.M)
# Lemmas whose names would fall together with those of what they speak of: each becomes the law of that name.
LAWS = """after-x behind-spaces del-line ext-line field-terms gathered-to goal-line input-line lin-line line-byte more-terms multiplied-by
    names-with no-monomial read-says resolution-names ring-line said-bad set-length short-line statement-byte term-length verdict-of with-ring
    bit-and bit-or bit-xor digits-end in-range number-of place-in same-name written-by""".split()
APART = {name: name.replace("-", "_") + "_law" for name in LAWS} | {"up-to-enough": "up_to_monomials_enough"}
# Fields that are in snake case and have the name of a definition that comes to it.
FIELDS = {"ring_in": "ring_same", "all_plain": "plain_same"}


def snake(name):
    name = re.sub(r"(?<=[a-z0-9'])([A-Z])", lambda m: "_" + m.group(1).lower(), name)
    return name.replace("-", "_")


def turned(name):
    """The name in snake case, or None where it is spelled so, is a type's, or is no word."""
    if not name or not name[0].islower() or name[0] in "λμκ" or "◌" in name:
        return None
    if "-" not in name and not re.search(r"[a-z0-9'][A-Z]", name):
        return None
    if not re.fullmatch(r"[\w'-]+", name) or name.startswith("-") or name.endswith("-"):
        return None
    return APART.get(name) or snake(name)


def own(path, crates):
    parts = path.split(".")
    return parts[0] == "Rattle" and len(parts) > 2 and parts[1] in crates


def declared(text):
    names = set()
    for line in text.splitlines():
        code = line.split("-- ")[0]
        found = DECLARED.match(code)
        if found:
            names.add(found.group(1))
        found = ARGUMENTS.match(code)
        if found:
            names.update(found.group(2).split())
        for pattern in (BOUND, LET, LAMBDA):
            for m in pattern.finditer(code):
                names.update(m.group(1).split())
    return names


def borrowed(text, crates):
    """The names that a file has from elsewhere than this repository."""
    names = set()
    for m in IMPORT.finditer(text):
        if own(m.group(1), crates) or not m.group(2):
            continue
        for part in m.group(2).split(","):
            for word in part.split(" as "):
                names.add(word.strip().split(".")[-1])
    return names


def fallen(turn, texts, crates):
    """The names of one file that would become one."""
    for path, text in sorted(texts.items()):
        if not path.endswith(".antt"):
            continue
        words = set(BETWEEN.split(re.sub(r"--.*", "", text)))
        keep = borrowed(text, crates)
        seen = {}
        for word in sorted(words):
            to = turn.get(word, word) if word not in keep else word
            if to in seen and not path.endswith("Proof.antt"):
                yield seen[to], word, path
            seen[to] = word


def main():
    crates = {p.split("/")[1] for p in glob.glob("crates/*/")}
    antt = [p for p in glob.glob("crates/**/*.antt", recursive=True) if "/out/" not in p]
    texts = {p: open(p, encoding="utf-8").read() for p in antt + glob.glob("crates/*/src/*.rt") + glob.glob("crates/*/must-fail/*.edit")}
    names = set()
    for p in antt:
        names |= declared(texts[p])
    turn = FIELDS | {n: turned(n) for n in names if turned(n)}
    together = list(fallen(turn, texts, crates))
    if "--list" in sys.argv:
        for n, s in sorted(turn.items()):
            print(n, s)
    if together:
        for n, s, path in together:
            print(f"falls together: {n} {s} in {path}", file=sys.stderr)
        return 1
    changed = 0
    for p, text in texts.items():
        keep = borrowed(text, crates)
        out = []
        before = ""
        for word in BETWEEN.split(text):
            made = before.endswith(("tie.", "goal.")) or (p.endswith("Proof.antt") and before.endswith(".") and word not in FIELDS)
            if word in turn and word not in keep and not made:
                word = turn[word]
            out.append(word)
            before = (before + word)[-8:]
        new = "".join(out)
        if new != text:
            changed += 1
            with open(p, "w", encoding="utf-8") as f:
                f.write(new)
    print(f"{len(turn)} names, {changed} files")
    return 0


if __name__ == "__main__":
    sys.exit(main())

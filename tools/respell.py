#!/usr/bin/env python3
"""Brings the repository's own definitions and lemmas to snake case.

usage: python3 tools/respell.py [ROOT]

    lentExons, start-at  ->  lent_exons, start_at

It goes over the definitions, lemmas, fields and constructors that the crates of ROOT declare in specs/ and in the lemma files of
proofs/, and writes their new names in specs/, proofs/, must-fail/ and in the clauses of src/. Types and facts keep their capitals,
functions of src/ and names that come from a library keep theirs. A name that would fall together with another one has its own new
name in APART. In README.md and docs/ it writes the new names in what stands between backticks. A second run changes nothing.
"""

import collections
import glob
import os
import re
import sys

TOKEN = r"(?<![\w'′-])%s(?![\w'′-])"
WORD = re.compile(r"[^\W\d_][\w'′]*(?:-[\w'′]+)*")
SIGNATURE = re.compile(r"^\s*(?:abbrev\s+|unfoldable\s+|pub\s+)*([^\W\d_][\w'′-]*)\s*:\s")
CONSTRUCTOR = re.compile(r"^\s+([^\W\d_][\w'′-]*)\s*:\s")
IMPORT = re.compile(r"(?m)^\s*(?:pub )?(?:ghost )?use\s+([^\s{;]+)\.\{([^}]*)\}")
OF_A_FUNCTION = ("Proof.antt", "Answers.antt", "Invariants.antt")

# Names that would fall together with another name, or be hidden by a parameter.
APART = {
    "byPlace": "entry_by_place",
    "startsOf": "exon_starts_of",
    "endsOf": "exon_ends_of",
    "rowsOn": "rows_onward",
    "tooLong": "line_too_long",
}


def read(path):
    with open(path, encoding="utf-8") as it:
        return it.read()


def files(root, part, end):
    found = glob.glob(f"{glob.escape(root)}/crates/*/{part}/**/*{end}", recursive=True)
    return sorted(p for p in found if "/out/" not in p)


def declared(root):
    names = set()
    for path in files(root, "specs", ".antt") + files(root, "proofs", ".antt"):
        if os.path.basename(path) in OF_A_FUNCTION:
            continue
        for line in read(path).split("\n"):
            found = SIGNATURE.match(line)
            if found and not line.lstrip().startswith("--"):
                names.add(found[1])
    return names


def snake(name):
    return re.sub(r"(?<=[a-z0-9])[A-Z]", lambda it: "_" + it[0].lower(), name).replace("-", "_")


def renamed(root):
    """The new name of each name that changes."""
    names = declared(root)
    want = {}
    for name in sorted(names):
        if name[0].islower() and snake(name) != name:
            want[name] = APART.get(name, snake(name))
    # a lemma that would have its function's name, or that of another lemma
    taken = collections.Counter(want.values())
    for name, new in list(want.items()):
        if "-" in name and name not in APART and (taken[new] > 1 or new in names):
            want[name] = new + "_lem"
    return want


def own_crates(root):
    return {os.path.basename(os.path.dirname(p)) for p in glob.glob(f"{glob.escape(root)}/crates/*/src")}


def foreign(text, crates):
    """Names that a file has from a library."""
    out = set()
    for path, items in IMPORT.findall(text):
        parts = path.split(".")
        if not (parts[0] == "Rattle" and len(parts) > 1 and parts[1] in crates):
            out |= {it.strip() for it in items.split(",")}
    return out


def turned(text, want, skip, rust):
    """The text with new names; of Rust not what stands in strings and comments."""
    def word(it):
        name = it[0]
        return name if name in skip else want.get(name, name)

    pieces = re.split(r"(//[^\n]*|b?\"(?:[^\"\\]|\\.)*\"|b?'(?:[^'\\]|\\.)')", text) if rust else [text]
    for k in range(0, len(pieces), 2):
        pieces[k] = WORD.sub(word, pieces[k])
    return "".join(pieces)


def main(root):
    want, crates = renamed(root), own_crates(root)
    double = [n for n, k in collections.Counter(want.values()).items() if k > 1]
    clash = sorted(set(double) | {new for old, new in want.items() if new in declared(root)})
    if clash:
        print("these would fall together:", *(f"{n}: {[o for o in want if want[o] == n]}" for n in clash), sep="\n")
        return 1
    changed = 0
    for path in files(root, "specs", ".antt") + files(root, "proofs", ".antt") + files(root, "src", ".rt") + files(root, "must-fail", ".edit"):
        text = read(path)
        new = turned(text, want, foreign(text, crates), path.endswith(".rt"))
        if new != text:
            changed += 1
            with open(path, "w", encoding="utf-8") as it:
                it.write(new)
    for path in [f"{root}/README.md", *glob.glob(f"{glob.escape(root)}/docs/**/*.md", recursive=True)]:
        text = read(path)
        new = re.sub(r"`[^`\n]+`", lambda it: turned(it[0], want, set(), False), text)
        if new != text:
            changed += 1
            with open(path, "w", encoding="utf-8") as it:
                it.write(new)
    print(f"{len(want)} names, {changed} files")
    return 0


if __name__ == "__main__":
    raise SystemExit(main(sys.argv[1] if len(sys.argv) > 1 else "."))

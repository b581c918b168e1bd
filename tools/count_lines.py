#!/usr/bin/env python3
"""Prints the table of docs/PROVED.md: for each crate its lines of definitions, contracts, code and proofs.

    count_lines.py

Blank lines and lines that are comments alone are not counted. Definitions: specs/. Contracts: the `requires` and `ensures` of src/,
ghost fields, and the imports that they need (`ghost use`); a crate of definitions or theorems alone has none. Code: the rest of src/.
Proofs: proofs/, by hand or written out by a tool alike, and the attributes of src/ that say what the check tries (`tactic`).
Edits: must-fail/. Axioms: declarations that begin with `axiom`, in any file.
"""
import glob
import os
import re

ROOT = os.path.join(os.path.dirname(os.path.abspath(__file__)), "..")


def lines(path, comment):
    """the lines of a file that are neither blank nor a comment alone"""
    with open(path, encoding="utf-8") as f:
        return [x for x in f.read().split("\n") if x.strip() and not x.strip().startswith(comment)]


def split_source(rows):
    """contract lines, lines of code, of functions and of attributes for proofs, of a .rt file"""
    contracts = code = functions = tactics = 0
    open_braces = 0
    for row in rows:
        text = row.strip()
        if open_braces or re.match(r"(requires|ensures)\*?( \w+)? \{|ghost ", text):
            contracts += 1
            open_braces += text.count("{") - text.count("}")
        elif re.match(r"#!?\[tactic\(", text):
            tactics += 1
        else:
            code += 1
            functions += bool(re.match(r"(pub(\(crate\))? )?(extern \"C\" )?fn ", text))
    return contracts, code, functions, tactics


def files(crate, pattern):
    """the crate's files of a pattern, also below folders"""
    return sorted(glob.glob(os.path.join(ROOT, "crates", crate, pattern), recursive=True))


def row_of(crate):
    """definitions, contracts, code, functions, proofs, edits, axioms"""
    specs = [lines(p, "--") for p in files(crate, "specs/**/*.antt")]
    proofs = [lines(p, "--") for p in files(crate, "proofs/**/*.antt")]
    sources = [split_source(lines(p, "//")) for p in files(crate, "src/**/*.rt")]
    axioms = sum(bool(re.match(r"\s*((pub|abbrev|unfoldable) )*axiom ", x)) for f in specs + proofs for x in f)
    return [
        sum(map(len, specs)),
        sum(s[0] for s in sources),
        sum(s[1] for s in sources),
        sum(s[2] for s in sources),
        sum(map(len, proofs)) + sum(s[3] for s in sources),
        len(files(crate, "must-fail/*.edit")),
        axioms,
    ]


def main():
    with open(os.path.join(ROOT, "crates.txt"), encoding="utf-8") as f:
        crates = [x.split(":")[0].split()[0] for x in f if x.strip() and not x.startswith("#")]
    print("| Crate | Definitions | Contracts | Code | Functions | Proofs | Must-fail edits | Axioms |")
    print("|---|--:|--:|--:|--:|--:|--:|--:|")
    total = [0] * 7
    for crate in crates:
        row = row_of(crate)
        total = [a + b for a, b in zip(total, row)]
        print(f"| `{crate}` | " + " | ".join(f"{n:,}" for n in row) + " |")
    print("| **all** | " + " | ".join(f"{n:,}" for n in total) + " |")


if __name__ == "__main__":
    main()

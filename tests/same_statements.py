#!/usr/bin/env python3
"""Checks that crates/theorems/specs/Public.antt says of each public call what the call's own contract says.

    same_statements.py

Each clause of `does` is compared with the term under `Does` in the `ensures` of the function that it names. Exit status 1 if two
differ, or if a clause has no function, or a public function with such a contract no clause.
"""
import glob
import os
import re
import sys

ROOT = os.path.join(os.path.dirname(os.path.abspath(__file__)), "..")
TABLE = os.path.join(ROOT, "crates/theorems/specs/Public.antt")

# the clause of each function
CLAUSES = {
    "editor/root.rt set_root": "set_root_call", "editor/edit.rt edit": "edit", "editor/cursor.rt cursor_at": "cursor_at_call",
    "editor_write/begin.rt begin": "begin", "editor_write/begin.rt begin_at": "begin_at", "editor_write/answer.rt answer": "answer",
    "editor_write/next.rt answer_and_request": "answer_and_request", "editor_write/fail.rt fail": "fail",
}


def plain(term):
    """a contract's term with the names of the table's clauses"""
    term = term.replace("(table_in table.entry)", "T")
    term = re.sub(r"\b(\w+)\.now\b", r"\1", term).replace("(as_edit edit)", "(as_edit e)")
    return re.sub(r"\b(model|walk|write)\.", "", term)


def argument(text, word):
    """what follows the word: a name, or a term in brackets, without them"""
    rest = text[text.index(word) + len(word):].lstrip()
    if not rest.startswith("("):
        return rest.split()[0]
    depth = 0
    for i, c in enumerate(rest):
        depth += (c == "(") - (c == ")")
        if depth == 0:
            return rest[1:i]
    raise ValueError(text)


def functions():
    """each public function of the two crates whose contract has a `Does`, and the term under it"""
    for path in sorted(glob.glob(os.path.join(ROOT, "crates/editor/src/*.rt")) + glob.glob(os.path.join(ROOT, "crates/editor_write/src/*.rt"))):
        with open(path, encoding="utf-8") as f:
            text = f.read()
        crate = path.split(os.sep)[-3]
        for name, head in re.findall(r"^pub fn (\w+)\((.*?)^\{", text, re.M | re.S):
            if "Does " in head:
                yield f"{crate}/{os.path.basename(path)} {name}", plain(argument(head, "Does "))


def main():
    with open(TABLE, encoding="utf-8") as f:
        clauses = {m[0]: plain(m[1]) for m in re.findall(r"^does \(?([\w-]+)[^=)]*\)? = (.*)$", f.read(), re.M)}
    found = dict(functions())
    wrong = [f"{f}: the contract says {t!r}, the list {clauses.get(CLAUSES.get(f))!r}"
             for f, t in found.items() if clauses.get(CLAUSES.get(f)) != t]
    wrong += [f"{c}: no function is named for this clause" for c in clauses if c not in CLAUSES.values()]
    wrong += [f"{f}: no such function, or no `Does` in its contract" for f in CLAUSES if f not in found]
    print("\n".join(wrong) if wrong else f"{len(found)} contracts are as the list says")
    return 1 if wrong else 0


if __name__ == "__main__":
    sys.exit(main())

#!/usr/bin/env python3
"""Brings this repository's own definitions and lemmas to the spelling of the library: words in snake case, types and modules in camel case.

usage: respell.py [--list]      at the top of the repository, once, after the toolchain's own script of the port

Names declared in specs/ and in the lemma files of proofs/ lose their humps and dashes: asKind -> as_kind, drop-all -> drop_all. A lemma that
would then have its definition's name gets _lem. A name is turned where it is declared, where it is imported from a crate of this repository, and
behind a dot; fields and constructors everywhere. Functions of src/, exported names, strings, inputs, outputs and what Rattle makes keep theirs.
"""
import glob
import os
import re
import sys

WORD = r"[^\s(){}.;,@\"«»\[\]\\:]+"
TOKEN = re.compile(r"--[^\n]*|\"(?:[^\"\\]|\\.)*\"|" + WORD)
DECL = re.compile(r"^( *)((?:unfoldable |abbrev |pattern )*(?:pub )?)((?:" + WORD + r" +)*" + WORD + r")( *(?:\{[^{}]*\} *)?): ", re.M)
HUMP = re.compile(r"(?<=[a-z0-9])(?=[A-Z])")
# names that would meet another in the same file, and are no lemmas
OTHER = {"cursor-at": "cursor_at_call", "from-cursor": "from_a_cursor", "begin-at": "begin_at", "set-root": "set_root_call"}
HEADS = ("let", "in", "use", "module", "λ", "mod", "elim", "record", "infixl", "infixr", "infix", "data", "rw", "ruleset")


def files(root):
    for top in ("specs", "proofs", "src"):
        for p in sorted(glob.glob(os.path.join(root, "crates", "*", top, "**", "*"), recursive=True)):
            if p.endswith((".antt", ".rt")):
                yield p


def by_hand(p):
    """Whether a file is a function's own proof, and not one of definitions or lemmas."""
    below = p.split(os.sep + "proofs" + os.sep)
    return len(below) == 2 and os.sep in below[1] and os.path.basename(p) in ("Proof.antt", "Answers.antt", "Invariants.antt")


def declared(root):
    """Where each name is declared, and whether somewhere inside a record, a data type or a block."""
    own, inner = {}, set()
    for p in files(root):
        if p.endswith(".rt") or by_hand(p):
            continue
        text = re.sub(r"--[^\n]*", "", open(p, encoding="utf-8").read())
        for m in DECL.finditer(text):
            names = m[3].split()
            if names[0] in HEADS:
                continue
            for n in names:
                own.setdefault(n, set()).add(p)
                if m[1]:
                    inner.add(n)
    return own, inner


def snake(n):
    if "◌" in n or not re.match(r"^[A-Za-z]", n):
        return n
    out = []
    for part in n.split("-"):
        if not part:
            return n
        if re.match(r"^[a-z]", part):
            part = HUMP.sub("_", part)
            part = re.sub(r"(?<=_)[A-Z]", lambda m: m[0].lower(), part)
        out.append(part)
    return "_".join(out)


def turned(own):
    """The table of names, and what a lemma gets that would have the name of a definition."""
    table, lemmas = {}, {}
    humped = {}
    for n in sorted(own):
        if re.match(r"^[a-z]", n) and HUMP.search(n.split("-")[0]) and "-" not in n:
            humped[snake(n)] = n
    for n in sorted(own):
        if re.match(r"^[A-Z]", n) and "-" not in n:
            continue
        s = snake(n)
        if s in humped and humped[s] != n:
            lemmas[n] = OTHER.get(n, s + "_lem")
        elif s != n and s in own and s not in humped:
            lemmas[n] = s + "_lem"
        elif s != n:
            table[n] = s
    return table, lemmas


def imports(text, crates):
    """The names that a file imports from this repository's crates, and from others."""
    near, far = set(), set()
    for m in re.finditer(r"use ([^\s{;]+?)\.\{([^}]*)\}", text):
        part = m[1].split(".")
        to = near if part[0] == "Rattle" and part[1] in crates else far
        to |= {x.strip().split(" as ")[0] for x in m[2].split(",")}
    return near, far


def main():
    root = "."
    crates = set(os.listdir(os.path.join(root, "crates")))
    own, inner = declared(root)
    table, lemmas = turned(own)
    if "--list" in sys.argv:
        for a, b in sorted({**table, **lemmas}.items()):
            print(a, b)
        return
    n = 0
    for p in files(root):
        text = open(p, encoding="utf-8").read()
        near, far = imports(text, crates)
        here = set() if p.endswith(".rt") else {a for a in own if p in own[a]}
        seen = here | near

        def sub(m):
            t = m[0]
            if t.startswith("--"):
                return re.sub(r"`[^`]+`", lambda w: re.sub(WORD, lambda x: table.get(x[0], x[0]), w[0]), t)
            if t.startswith('"') or t in far and t not in seen:
                return t
            dotted = text[m.start() - 1 : m.start()] == "."
            if t in lemmas:
                if t in seen:
                    return lemmas[t]
                if dotted:
                    root_word = re.search(r"([^\s(){},;]*)\.$", text[: m.start()])[1].split(".")[0]
                    return snake(t) if len(root_word) < 3 else lemmas[t]
                return t
            if t in table and (t in seen or dotted or t in inner or HUMP.search(t)):
                return table[t]
            return t

        out = TOKEN.sub(sub, text)
        if out != text:
            open(p, "w", encoding="utf-8").write(out)
            n += 1
    print(f"respell: {len(table) + len(lemmas)} names, {n} files")


main()

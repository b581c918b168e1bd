#!/usr/bin/env python3
"""All sequences of a given length over a small alphabet of calls, each as a trace of tests/oracle/PROTOCOL.md.

    enumerate_traces.py [--alphabet edits|cursors|writes|FILE] [--length N] [--start NAME] [--list]

A FILE has one call a line. Each trace first fills the table and makes an editor over the start: `empty`, `mixed` (a tree
and a file that collide, a tree that is in the table), `cached` (six cached trees, one empty, one with a null entry, one
without an entry of its own) or `all` (the default).
"""
import argparse
import itertools
import sys

from model01 import EMPTY_TREE, NULL, out_hex

B, D, LOST, BROKEN = (bytes([k]) * 20 for k in (0x11, 0xd1, 0xd2, 0xd3))


def tree(*entries):
    return b"".join(b"%s %s\0%s" % e for e in entries)


TABLE = [(D, tree((b"100644", b"b", B), (b"40000", b"e", EMPTY_TREE))),
         (BROKEN, tree((b"100644", b"a", B), (b"100644", b"a.c", B), (b"40000", b"a", B)))]
MIXED = tree((b"100644", b"a.c", B), (b"40000", b"a", D), (b"40000", b"x", BROKEN))


def h(text):
    return out_hex(text.encode())


def up(prefix, path, mode, ident):
    return "upsert %s %s %s %s" % (prefix, h(path), mode, ident.hex())


STARTS = {
    "empty": ["new -"],
    "mixed": ["new " + out_hex(MIXED)],
    "cached": ["new -", up(".", "a/b/c", "100644", B), up(".", "q/r", "100644", NULL), up(".", "q/s", "100644", B),
               "cursor " + h("q/t"), up(".", "z/y", "100644", B), "remove . " + h("z")],
}
ALPHABETS = {
    "edits": [
        up(".", "a", "100644", B), up(".", "a", "40000", D), up(".", "a", "40000", NULL), up(".", "a", "40000", EMPTY_TREE),
        up(".", "a", "40000", LOST), up(".", "a.c", "40000", BROKEN), up(".", "a/b", "100644", B),
        up(".", "a/b/c", "100755", B), up(".", "a/", "100644", B), up(".", "a.c/b", "120000", NULL),
        "remove . " + h("a"), "remove . " + h("a/b"), "leaf . " + h("a"), "leaf . " + h("a/b"), "leaf . " + h("a//b"),
        "remove . " + h("a//b"), "cursor " + h("a"), "cursor " + h("a/b"), "get . " + h("a/b"), "finish . keep",
    ],
    "cursors": [
        "cursor " + h("a"), "cursor " + h("a/b"), "cursor -", "cursor " + h("x/y"), up(h("a"), "b", "100644", B),
        up(h("a"), "b", "40000", NULL), up(h("a"), "b/c", "100644", B), up("-", "a", "100644", B), up(h("a"), "", "100644", B),
        "remove . " + h("a"), "remove %s %s" % (h("a"), h("b")), "leaf %s %s" % (h("a"), h("e")),
        "get %s %s" % (h("a"), h("b")), "get - " + h("a"), "finish " + h("a"), "finish -", "finish .",
        "finish " + h("a/b"), up(".", "a/b/c", "100644", B),
    ],
    "writes": [
        up(".", "a/b/c", "100644", B), up(".", "q/r", "100644", NULL), up(".", "q/s", "100644", B), "cursor " + h("a"),
        "begin .", "begin -", "begin " + h("a"), "answer " + "44" * 20, "answer " + NULL.hex(), "answer " + EMPTY_TREE.hex(),
        "fail", "read 0", "read 45056", "remove . " + h("a"), "setroot -", "new -", "finish .",
    ],
}


def main():
    p = argparse.ArgumentParser(usage=__doc__)
    p.add_argument("--alphabet", default="edits")
    p.add_argument("--length", type=int, default=3)
    p.add_argument("--start", choices=sorted(STARTS) + ["all"], default="all")
    p.add_argument("--list", action="store_true")
    o = p.parse_args()
    if o.alphabet in ALPHABETS:
        calls = ALPHABETS[o.alphabet]
    else:
        with open(o.alphabet) as f:
            calls = [line.strip() for line in f if line.strip() and not line.startswith("#")]
    if o.list:
        print("\n".join(calls))
        return
    table = "".join("object %s %s\n" % (i.hex(), out_hex(r)) for i, r in TABLE)
    for start in sorted(STARTS) if o.start == "all" else (o.start,):
        before = table + "\n".join(STARTS[start])
        for at in itertools.product(range(len(calls)), repeat=o.length):
            label = "%s-%s-%s" % (o.alphabet if o.alphabet in ALPHABETS else "file", start, ".".join(map(str, at)))
            sys.stdout.write("trace %s\n%s\n%s\n" % (label, before, "\n".join(calls[k] for k in at)))


if __name__ == "__main__":
    main()

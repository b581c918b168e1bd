#!/usr/bin/env python3
"""Shows that the made stores have teeth: slips put into the check of tests/stores/stores.py one by one must each be noticed.

    store_slips.py [--seed S] [--count N]

Each slip is one edit of the check's text; N made stores go through it. Exit status 1 if a slip passes, or if its place in
the text is no longer found. (A sum that wraps is no slip here: a length that huge breaks another rule as well.)
"""
import argparse
import sys
from pathlib import Path

import store_maker
import stores

SLIPS = [
    ("plens may be short", "len(s.plens) < SLOTS or ", ""),
    ("paths may be short", "len(s.paths) < PATHS or ", ""),
    ("tlens may be short", "len(s.tlens) < SLOTS or ", ""),
    ("trees may be short", "len(s.trees) < TREES or ", ""),
    ("order may be short", " or len(s.order) < SLOTS:", ":"),
    ("slices of just that length", "len(s.paths) < PATHS or ", "len(s.paths) != PATHS or "),
    ("words behind the 64 count", "plens, tlens = s.plens[:SLOTS], s.tlens[:SLOTS]", "plens, tlens = s.plens, s.tlens"),
    ("order read to its end", "order = s.order[:SLOTS]", "order = s.order"),
    ("path sum not compared", "if sum(plens) != s.used_paths or ", "if "),
    ("tree sum not compared", "sum(tlens) != s.used_trees or ", ""),
    ("path bytes within the slice", "s.used_paths > PATHS", "s.used_paths > len(s.paths)"),
    ("one path byte less", "s.used_paths > PATHS", "s.used_paths >= PATHS"),
    ("free slots may have a path", "(plens[k] or tlens[k])", "tlens[k]"),
    ("free slots may have a tree", "(plens[k] or tlens[k])", "plens[k]"),
    ("kind 5", "kind > 4", "kind > 5"),
    ("no kind 4", "kind > 4", "kind > 3"),
    ("an entry may be cut short", "kind > 4 or len(run) < at + 2 + ID + n", "kind > 4"),
    ("a head may be cut short", "            return None\n        kind, n", "            break\n        kind, n"),
    ("empty names", "not name or 47 in name", "47 in name"),
    ("slashes", "47 in name or ", ""),
    ("NULs in names", " or 0 in name for", " for"),
    ("twins only as neighbours", "len(set(names)) < len(names)", "any(a == b for a, b in zip(names, names[1:]))"),
    ("order not judged", "return keys == sorted(keys)", "return True"),
    ("trees as files in order", 'name + b"/" if kind == 0 else name for', "name for"),
    ("signed bytes", "return keys == sorted(keys)", "return keys == sorted(keys, key=lambda k: [b - 256 if b > 127 else b for b in k])"),
    ("entries not counted", "s.entries != sum(map(len, trees)) or ", ""),
    ("names not counted", " or s.names != sum(len(name) for t in trees for _, name in t):", ":"),
    ("1,025 entries", "s.entries > ENTRIES", "s.entries > ENTRIES + 1"),
    ("1,023 entries", "s.entries > ENTRIES", "s.entries >= ENTRIES"),
    ("16,385 name bytes", "s.names > NAMES", "s.names > NAMES + 1"),
    ("16,383 name bytes", "s.names > NAMES", "s.names >= NAMES"),
    ("paths twice", "len(set(in_use)) < len(in_use) or ", ""),
    ("paths not judged", " or not all(p == b\"\" or valid_path(p) for p in in_use):", ":"),
    ("path of 1,025", "len(path) <= PATH ", "len(path) <= PATH + 1 "),
    ("path of 1,023", "len(path) <= PATH ", "len(path) < PATH "),
    ("NUL in a path", "0 not in path and ", ""),
    ("empty components", "1 <= len(c) <= COMPONENT", "len(c) <= COMPONENT"),
    ("component of 256", "1 <= len(c) <= COMPONENT", "1 <= len(c) <= COMPONENT + 1"),
    ("component of 254", "1 <= len(c) <= COMPONENT", "1 <= len(c) < COMPONENT"),
    ("hidden not compared", "return s.hidden == s.free and ", "return "),
    ("aside left over", "s.aside == s.stacked == s.asked == 0", "s.stacked == s.asked == 0"),
    ("stacked left over", "s.aside == s.stacked == s.asked == 0", "s.aside == s.asked == 0"),
    ("asked left over", "s.aside == s.stacked == s.asked == 0", "s.aside == s.stacked == 0"),
    ("no root", " and root_cached(s, paths)\n", "\n"),
    ("open 3", "s.open not in (1, 2)", "s.open not in (1, 2, 3)"),
    ("a taken slot may be free", "k >= SLOTS or not used[k]", "k >= SLOTS"),
    ("a slot twice", " or len(set(taken)) < len(taken):", ":"),
    ("hidden not that of the write", "s.hidden != s.free | sum(1 << k for k in set(taken))", "s.hidden & s.free != s.free"),
    ("stacked with none aside", "not aside and stacked", "False"),
    ("aside in any order", "any(lies_below(paths[k], paths[p], trees[p]) for p in before)", "any(lies_below(paths[k], paths[p], trees[p]) for p in aside)"),
    ("aside not below", "        if not any(lies_below(paths[k], paths[p], trees[p]) for p in before):\n            return False\n", ""),
    ("stacked not below", "for k in stacked + [s.asked])", "for k in [s.asked])"),
    ("asked not below", "for k in stacked + [s.asked])", "for k in stacked)"),
    ("any kind of entry", "(0, child[len(prefix):]) in entries", "any(child[len(prefix):] == n for _, n in entries)"),
    ("below without an entry", "and (0, child[len(prefix):]) in entries", "and b'/' not in child[len(prefix):] and len(child) > len(prefix)"),
    ("the entry alone", "child.startswith(prefix) and (0, child[len(prefix):]) in entries", "(0, child.rpartition(b'/')[2]) in entries"),
    ("a write from the root elsewhere", "s.open == 1 and paths[start] != b\"\"", "False"),
    ("a write from a cursor at the root", "    if s.open == 1 and", "    if s.open == 2 and paths[start] == b'':\n        return False\n    if s.open == 1 and"),
    ("the root anywhere", "return paths[start] == b\"\" or root_cached(s, paths)", "return True"),
    ("nothing holds", "    # 1\n", "    return False\n"),
    ("all holds", "    # 1\n", "    return True\n"),
]


def noticed(text, made):
    space = {"__name__": "slip", "__file__": stores.__file__}
    exec(compile(text, "slip", "exec"), space)
    for what, s, right in made:
        try:
            if space["holds"](s) != right:
                return what
        except (IndexError, ValueError, OverflowError) as e:  # a slip that falls over is noticed too
            return "%s: %r" % (what, e)
    return None


def main():
    parser = argparse.ArgumentParser()
    parser.add_argument("--seed", type=int, default=3)
    parser.add_argument("--count", type=int, default=4000)
    args = parser.parse_args()
    text = Path(stores.__file__).read_text()
    made = [(what, s, stores.holds(s)) for what, s in store_maker.stores(args.seed, args.count)]
    wrong = 0
    for label, old, new in SLIPS:
        if text.count(old) != 1:
            print("%s: its place stands %d times in tests/stores/stores.py" % (label, text.count(old)))
            wrong += 1
        elif noticed(text.replace(old, new), made) is None:
            print("%s: not noticed" % label)
            wrong += 1
    print("%d slips tried on %d stores, %d wrong" % (len(SLIPS), len(made), wrong))
    sys.exit(1 if wrong else 0)


if __name__ == "__main__":
    main()

#!/usr/bin/env python3
"""Calls on stores that hold an editor, answered by the rules as a program (tests/traces/model01.py): held.py STORES < CALLS.

A line `store` takes the next store of STORES (the form of tests/stores/stores.py) as the editor; the others are calls of tests/oracle/PROTOCOL.md.
So calls can be compared on editors that no list of calls leaves, an open write among them.
"""
import sys
from pathlib import Path

for beside in ("traces", "stores"):
    sys.path.insert(0, str(Path(__file__).resolve().parents[1] / beside))
import model01  # noqa: E402
import stores  # noqa: E402

MODES = (0o40000, 0o100644, 0o100755, 0o120000, 0o160000)


def tree_of(run):
    tree, at = model01.Tree(), 0
    while at < len(run):
        n = run[at + 1]
        tree.put(bytes(run[at + 22:at + 22 + n]), MODES[run[at]], bytes(run[at + 2:at + 22]))
        at += 22 + n
    return tree


def session_of(s):
    """The editor that a store holds."""
    slots = list(zip(stores.runs(s.plens[:64], s.paths), map(tree_of, stores.runs(s.tlens[:64], s.trees))))
    session = model01.Session()
    session.cache = {path: tree for k, (path, tree) in enumerate(slots) if not s.hidden >> k & 1}
    if s.open:
        write = model01.Write.__new__(model01.Write)
        write.aside = [slots[k] for k in s.order[:s.aside]]
        write.stack = [slots[k] for k in reversed(s.order[64 - s.stacked:64])]
        write.asked = slots[s.asked]
        write.start, write.from_root = (write.aside[0] if write.aside else write.asked)[0], s.open == 1
        write.cache = dict(session.cache)
        session.write = write
    return session


def main():
    with open(sys.argv[1], "rb") as f:
        held = stores.read_stores(f)
        speaker = model01.Speaker(brief=True)
        for line in sys.stdin:
            line = line.rstrip("\n")
            if line == "store":
                speaker.s = session_of(next(held))
                print(line)
            else:
                for said in speaker.line(line):
                    print(said)


if __name__ == "__main__":
    main()

#!/usr/bin/env python3
"""Puts the figures of bench/run.sh together: report.py FOLDER. Prints tables in Markdown, then the bounds; status 1 where one is missed
that is not in KNOWN."""
import re
import sys
from pathlib import Path

LENT, RECORD = 48640, 80
# bounds that are missed; docs/FIGURES.md says why
KNOWN = set()


def table(heads, rows):
    print("| " + " | ".join(heads) + " |")
    print("|" + "---|" * len(heads))
    for row in rows:
        print("| " + " | ".join(row) + " |")
    print()


def number(n):
    return format(int(n), ",")


def micros(ns):
    us = float(ns) / 1000
    return format(us, ",.2f") if us < 100 else format(us, ",.0f")


def ratio(a, b):
    r = float(a) / float(b)
    return "%.1f" % r if r < 100 else "%.0f" % r


def rows_of(path):
    return [line.split("\t") for line in path.read_text().splitlines()]


def counts(path):
    """Instructions by function, what it calls included."""
    found = {}
    for line in path.read_text().splitlines():
        m = re.match(r"\s*([\d,]+)\s.*?:(w_\w+)\b", line)
        if m:
            found[m.group(2)] = int(m.group(1).replace(",", ""))
    return found


def main():
    folder = Path(sys.argv[1])
    count = counts(folder / "count")
    symbols = {name: (ours, theirs) for name, ours, theirs in rows_of(folder / "symbols")}
    time = {name: (ours, theirs) for name, ours, theirs in rows_of(folder / "times")}
    heap = {row[0]: row[1:] for row in rows_of(folder / "heap")}
    at = {name: (count[a], count[b]) for name, (a, b) in symbols.items()}

    table(["Work", "instructions, ours", "original", "ratio", "µs, ours", "original", "ratio"],
          [[name, number(a), number(b), ratio(a, b), micros(time[name][0]), micros(time[name][1]), ratio(*time[name])]
           for name, (a, b) in at.items()])

    write, steps = "the write of 61 trees with 960 files", ("w_begin", "w_request", "w_answer_and_request")
    whole = sum(count[s] for s in steps)
    split = [["an upsert beside 30 files", at["an upsert beside 30 files"][0], count["w_check_30"]],
             ["an upsert into a full store, moving all of it", at["an upsert into a full store, moving all of it"][0], count["w_check_full"]],
             ["a lookup in a full store", at["a lookup in a full store"][0], count["w_check_full"]],
             ["the write, all its calls", whole, count["w_check_write"]]]
    table(["Call", "instructions", "of these the check of the store", "the rest"],
          [[name, number(a), "%s (%d %%)" % (number(c), round(100 * c / a)), number(a - c)] for name, a, c in split])
    table(["Calls of the write", "instructions"], [[s[2:], number(count[s])] for s in steps])

    stack = {row[1]: int(row[3]) for row in (line.split() for line in (folder / "stack").read_text().splitlines())}
    table(["Call", "stack, bytes"], [[name, number(n)] for name, n in stack.items()])
    table(["Work", "heap, ours", "calls", "heap, original: bytes at its peak", "calls of the allocator"],
          [[name] + [number(x) for x in heap[name]] for name in heap])
    print("functions that the library needs: " + (", ".join((folder / "needs").read_text().split()) or "none"))
    print("code, x86-64: %s bytes" % number((folder / "code").read_text()))
    print("lent: %s bytes of arrays, %d of record" % (number(LENT), RECORD))
    print()

    bounds = [("an upsert beside 30 files, instructions", at["an upsert beside 30 files"][0], 15000),
              ("an upsert into a full store, instructions", at["an upsert into a full store, moving all of it"][0], 400000),
              ("a lookup beside 30 files, instructions", at["a lookup beside 30 files"][0], 15000),
              ("a lookup in a full store, instructions", at["a lookup in a full store"][0], 400000),
              ("30 upserts, names of 28 bytes over names of 12, instructions",
               at["30 upserts, names of 28 bytes, 24 shared"][0] / at["30 upserts, names of 12 bytes"][0], 1.3),
              ("the write of 61 trees, time over the original's", float(time[write][0]) / float(time[write][1]), 4),
              ("stack of any call, bytes", max(stack.values()), 8192),
              ("lent, bytes", LENT + RECORD, 81920),
              ("heap of any call, bytes", max(int(h[0]) for h in heap.values()), 0)]
    table(["Bound", "measured", "at most", ""],
          [[what, number(n) if n == int(n) else "%.2f" % n, number(most) if most == int(most) else str(most), "kept" if n <= most else "**missed**"] for what, n, most in bounds])
    missed = {what for what, n, most in bounds if n > most}
    for what in sorted(missed - KNOWN):
        print("missed, and docs/FIGURES.md does not say so: " + what)
    for what in sorted(KNOWN - missed):
        print("kept, though docs/FIGURES.md says that it is missed: " + what)
    sys.exit(1 if missed != KNOWN else 0)


if __name__ == "__main__":
    main()

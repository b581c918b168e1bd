#!/usr/bin/env python3
"""Whether a store holds an editor: docs/STORE.md read as a program, and the comparison with another one.

    stores.py check < STORES                     a line 1 or 0 for each store
    stores.py make --seed S --count N            N stores, good and damaged (tests/stores/store_maker.py), on standard output
        [--answers FILE]                         and a line for each: 1 or 0, and what was done to it
    stores.py fixed                              write the fixed list, crates/test_stores/stdin and stdout
    stores.py compare --seed S --count N -- PROGRAM...
                                                 N stores through PROGRAM, compared with the check; counts, status 1 on any difference.
                                                 Without PROGRAM the counts alone

A store in the form that is read and written here: the lengths of the five slices in elements, each a u32; the ten fields
of the record, each a u64; the slices, words as u64. All little-endian, nothing between them, the next store follows at once.

The check was written from docs/STORE.md and not from the code. It makes no use of the maker, and counts with numbers that do not wrap.
"""
import argparse
import struct
import subprocess
import sys
import time
from collections import Counter
from pathlib import Path

ROOT = Path(__file__).resolve().parents[2]
STDIN = ROOT / "crates/test_stores/stdin"
STDOUT = ROOT / "crates/test_stores/stdout"

FIELDS = ("free", "hidden", "paths", "trees", "entries", "names", "open", "aside", "stacked", "asked")
ID = 20
SLOTS, ENTRIES, NAMES, PATHS, PATH, COMPONENT = 64, 1024, 16384, 8192, 1024, 255
TREES = ENTRIES * (2 + ID) + NAMES
HEADER = struct.Struct("<5I10Q")


class Store:
    """The five slices, as they are lent, and the record's fields by name."""

    __slots__ = FIELDS[:2] + FIELDS[4:] + ("used_paths", "used_trees", "plens", "paths", "tlens", "trees", "order")

    def record(self):
        return (self.free, self.hidden, self.used_paths, self.used_trees, self.entries, self.names,
                self.open, self.aside, self.stacked, self.asked)

    def set_record(self, fields):
        (self.free, self.hidden, self.used_paths, self.used_trees, self.entries, self.names,
         self.open, self.aside, self.stacked, self.asked) = fields

    def write(self):
        """The store in the form above."""
        return b"".join((
            HEADER.pack(len(self.plens), len(self.paths), len(self.tlens), len(self.trees), len(self.order), *self.record()),
            struct.pack("<%dQ" % len(self.plens), *self.plens), self.paths,
            struct.pack("<%dQ" % len(self.tlens), *self.tlens), self.trees,
            struct.pack("<%dQ" % len(self.order), *self.order)))


def read_exactly(stream, n):
    data = stream.read(n)
    if len(data) != n:
        sys.exit("a store is cut short")
    return data


def read_stores(stream):
    """The stores of a stream, one after the other."""
    while True:
        head = stream.read(HEADER.size)
        if not head:
            return
        if len(head) != HEADER.size:
            sys.exit("a store is cut short")
        plens, paths, tlens, trees, order, *fields = HEADER.unpack(head)
        s = Store()
        s.set_record(fields)
        s.plens = struct.unpack("<%dQ" % plens, read_exactly(stream, 8 * plens))
        s.paths = read_exactly(stream, paths)
        s.tlens = struct.unpack("<%dQ" % tlens, read_exactly(stream, 8 * tlens))
        s.trees = read_exactly(stream, trees)
        s.order = struct.unpack("<%dQ" % order, read_exactly(stream, 8 * order))
        yield s


# The check, by the numbers of docs/STORE.md, "When a store holds an editor".

def entries_of(run):
    """The entries (kind, name) of a run that is entries to its very end with kinds at most 4; None for another run."""
    found, at = [], 0
    while at < len(run):
        if len(run) < at + 2 + ID:
            return None
        kind, n = run[at], run[at + 1]
        if kind > 4 or len(run) < at + 2 + ID + n:
            return None
        found.append((kind, bytes(run[at + 2 + ID:at + 2 + ID + n])))
        at += 2 + ID + n
    return found


def well_formed(entries):
    """Names nonempty, without slash and NUL, all different, in Git's order."""
    names = [name for _, name in entries]
    if any(not name or 47 in name or 0 in name for name in names) or len(set(names)) < len(names):
        return False
    keys = [name + b"/" if kind == 0 else name for kind, name in entries]
    return keys == sorted(keys)


def valid_path(path):
    return len(path) <= PATH and 0 not in path and all(1 <= len(c) <= COMPONENT for c in path.split(b"/"))


def runs(lens, data):
    at = 0
    for n in lens:
        yield bytes(data[at:at + n])
        at += n


def lies_below(child, parent, entries):
    """Whether a path lies one component below another whose tree has a tree entry for it."""
    prefix = parent + b"/" if parent else b""
    return child.startswith(prefix) and (0, child[len(prefix):]) in entries


def write_holds(s, used, paths, trees):
    """Number 7."""
    if s.open not in (1, 2) or s.aside > SLOTS or s.stacked > SLOTS:
        return False
    order = s.order[:SLOTS]
    aside = list(order[:s.aside])
    stacked = list(order[SLOTS - s.stacked:])
    taken = aside + stacked + [s.asked]
    if any(k >= SLOTS or not used[k] for k in taken) or len(set(taken)) < len(taken):
        return False
    if s.hidden != s.free | sum(1 << k for k in set(taken)):
        return False
    if not aside and stacked:
        return False
    start = aside[0] if aside else s.asked
    before = aside[:1]
    for k in aside[1:]:
        if not any(lies_below(paths[k], paths[p], trees[p]) for p in before):
            return False
        before.append(k)
    if aside and not all(any(lies_below(paths[k], paths[p], trees[p]) for p in aside) for k in stacked + [s.asked]):
        return False
    if s.open == 1 and paths[start] != b"":
        return False
    return paths[start] == b"" or root_cached(s, paths)


def root_cached(s, paths):
    return any(not s.hidden >> k & 1 and paths[k] == b"" for k in range(SLOTS))


def holds(s):
    """Whether a store holds an editor."""
    # 1
    if len(s.plens) < SLOTS or len(s.paths) < PATHS or len(s.tlens) < SLOTS or len(s.trees) < TREES or len(s.order) < SLOTS:
        return False
    plens, tlens = s.plens[:SLOTS], s.tlens[:SLOTS]
    if sum(plens) != s.used_paths or s.used_paths > PATHS or sum(tlens) != s.used_trees or s.used_trees > TREES:
        return False
    # 2
    used = [not s.free >> k & 1 for k in range(SLOTS)]
    if any(not used[k] and (plens[k] or tlens[k]) for k in range(SLOTS)):
        return False
    # 3
    trees = [entries_of(run) for run in runs(tlens, s.trees)]
    if not all(t is not None and well_formed(t) for t in trees):
        return False
    # 4
    if s.entries != sum(map(len, trees)) or s.names != sum(len(name) for t in trees for _, name in t):
        return False
    if s.entries > ENTRIES or s.names > NAMES:
        return False
    # 5
    paths = list(runs(plens, s.paths))
    in_use = [paths[k] for k in range(SLOTS) if used[k]]
    if len(set(in_use)) < len(in_use) or not all(p == b"" or valid_path(p) for p in in_use):
        return False
    # 6 and 7
    if s.open == 0:
        return s.hidden == s.free and s.aside == s.stacked == s.asked == 0 and root_cached(s, paths)
    return write_holds(s, used, paths, trees)


def answer(good):
    return "1" if good else "0"


# The commands.

def command_check(_):
    for s in read_stores(sys.stdin.buffer):
        print(answer(holds(s)))


def command_make(args):
    import store_maker
    lines = []
    for what, s in store_maker.stores(args.seed, args.count):
        sys.stdout.buffer.write(s.write())
        lines.append("%s %s\n" % (answer(holds(s)), what))
    if args.answers:
        Path(args.answers).write_text("".join(lines))


def command_fixed(_):
    import store_maker
    made = list(store_maker.fixed())
    stdout = "".join(answer(holds(s)) + "\n" for _, s in made)
    good = stdout.count("1")
    STDIN.write_bytes(b"".join(s.write() for _, s in made))
    STDOUT.write_text(stdout)
    print("%d stores of the fixed list: %d hold an editor, %d do not" % (len(made), good, len(made) - good))


def run_chunk(program, chunk):
    """The program's answers for a list of stores."""
    done = subprocess.run(program, input=b"".join(s.write() for _, s in chunk), stdout=subprocess.PIPE)
    lines = done.stdout.decode().split("\n")
    if done.returncode != 0 or len(lines) != len(chunk) + 1 or lines[-1] or set(lines[:-1]) - {"0", "1"}:
        sys.exit("%s: status %d, %d lines for %d stores" % (program[0], done.returncode, len(lines) - 1, len(chunk)))
    return lines[:-1]


def chunks(items, size):
    chunk = []
    for item in items:
        chunk.append(item)
        if len(chunk) == size:
            yield chunk
            chunk = []
    if chunk:
        yield chunk


def print_counts(counts):
    """A line for each kind of store, with how many of it hold an editor and how many do not."""
    for what in sorted({what for what, _ in counts}):
        print("  %-28s %7d hold, %7d do not" % (what, counts[what, "1"], counts[what, "0"]))


def command_compare(args):
    import store_maker
    counts, differ, began = Counter(), 0, time.time()
    for chunk in chunks(store_maker.stores(args.seed, args.count), args.chunk):
        said = run_chunk(args.program, chunk) if args.program else None
        for i, (what, s) in enumerate(chunk):
            right = answer(holds(s))
            counts[what, right] += 1
            if said and said[i] != right:
                differ += 1
                name = "target/store-differs-%d.bin" % differ
                print("%s: the check says %s, the program %s; kept as %s" % (what, right, said[i], name))
                (ROOT / "target").mkdir(exist_ok=True)
                (ROOT / name).write_bytes(s.write())
                if differ == 20:
                    sys.exit("too many differences")
    print_counts(counts)
    good = sum(n for (_, a), n in counts.items() if a == "1")
    untouched = sum(n for (what, _), n in counts.items() if what.startswith("good"))
    total = sum(counts.values())
    compared = "%d differences" % differ if args.program else "compared with nothing"
    print("seed %d: %d stores, %d as made and %d damaged; %d hold an editor, %d do not; %s; %d s"
          % (args.seed, total, untouched, total - untouched, good, total - good, compared, time.time() - began))
    if any(what.startswith("good") and a == "0" for what, a in counts):
        sys.exit("a store made good does not pass the check")
    if differ:
        sys.exit(1)


def main():
    parser = argparse.ArgumentParser()
    commands = parser.add_subparsers(required=True)
    commands.add_parser("check").set_defaults(run=command_check)
    commands.add_parser("fixed").set_defaults(run=command_fixed)
    for name, run in ("make", command_make), ("compare", command_compare):
        p = commands.add_parser(name)
        p.add_argument("--seed", type=int, default=1)
        p.add_argument("--count", type=int, default=1000)
        p.set_defaults(run=run)
        if name == "make":
            p.add_argument("--answers")
        else:
            p.add_argument("--chunk", type=int, default=500)
            p.add_argument("program", nargs="*")
    args = parser.parse_args()
    args.run(args)


if __name__ == "__main__":
    main()

#!/usr/bin/env python3
"""A seeded generator of traces in the protocol of tests/oracle/PROTOCOL.md.

    traces.py [--seed N] [--count N] [--kind normal|limits|write|all] [--length N] [--most BYTES]

normal: few names that collide, tables with good, damaged and missing trees, refused paths, stale cursors, bad tables;
paths and prefixes of any bytes and any length; prefixes and paths that make 1,024 bytes together, or one more.
limits: stores near one of the limits of room, so that number 5 comes at different steps. Dumps are sums there.
write: writes from the root and from cursors, short output, other calls in between, the same write failed at each of its
requests, up to 64 of them, cursors' writes inside one another, answers that are null, the empty tree's or all the same.
--most leaves out traces with more text than that. The generator follows the state with tests/traces/model01.py, only to aim well: a wrong model would make dull traces, no more.
"""
import argparse
import random
import sys

from model01 import EMPTY_TREE, MODES, NULL, TREE, Speaker, below, in_hex, order_key, out_hex

NAMES = [b"a", b"a.c", b"a-", b"a0", b"A", b"ab", b"b", b"z", b"\xc3\xa9", b"\xc3", b"\xa9", b"\x80", b"\xff", b"a\x01",
         b"a\xff", b"a ", b".", b"..", b".git", b"\x7f", b"a.", b"b-", b"\n", b"a=", b"+", b"0"]
LONG = [b"n" * 255, b"n" * 254 + b"m", b"n" * 200, b"\xff" * 255]
FILES = [m for m in MODES if m != b"40000"]
BLOB_IDS = [b"\x11" * 20, b"\x22" * 20, b"\x33" * 20, b"\x00" * 19 + b"\x01", b"\xff" * 20]


def raw_of(entries):
    return b"".join(b"%s %s\0%s" % e for e in entries)


def sorted_raw(entries):
    """Entries (mode bytes, name, id) with different names, in Git's order."""
    return raw_of(sorted(entries, key=lambda e: order_key(MODES[e[0]], e[1])))


class Maker:
    def __init__(self, seed, label):
        self.r = random.Random(seed)
        self.speaker = Speaker(brief=True)
        self.lines = []
        self.ids = []  # ids worth naming in tree entries
        self.answers = self.r.choice([None] * 7 + [NULL, EMPTY_TREE, b"\x44" * 20])  # the same for all, if any
        self.made = 0
        self.say("trace " + label)

    def say(self, line):
        self.lines.append(line)
        out = self.speaker.line(line)
        return out[-1].split(" => ")[-1] if out and " => " in out[-1] else ""

    @property
    def s(self):
        return self.speaker.s

    def one(self, *weighted):
        """A choice by weight; what is callable is called."""
        total = self.r.randrange(sum(w for w, _ in weighted))
        for w, what in weighted:
            total -= w
            if total < 0:
                return what() if callable(what) else what

    # ids, names, trees
    def fresh_id(self):
        self.made += 1
        return b"\xee" * 16 + self.made.to_bytes(4, "big")

    def tree_id(self):
        return self.one((2, NULL), (2, EMPTY_TREE), (10, lambda: self.r.choice(self.ids or [NULL])),
                        (1, lambda: self.r.choice(BLOB_IDS)))

    def any_id(self):
        return self.one((1, NULL), (1, EMPTY_TREE), (2, lambda: self.r.choice(self.ids or [NULL])),
                        (6, lambda: self.r.choice(BLOB_IDS)))

    def pick_names(self, n, long_too=True):
        self.names = self.r.sample(NAMES, n)
        if self.r.random() < 0.7:
            self.names = list(dict.fromkeys([b"a", b"a.c"] + self.names))[:max(2, n)]
        if long_too and self.r.random() < 0.1:
            self.names.append(self.r.choice(LONG))

    def name(self):
        return self.r.choice(self.names)

    def entry(self, name):
        if self.r.random() < 0.5:
            return b"40000", name, self.tree_id()
        return self.r.choice(FILES), name, self.any_id()

    def good_entries(self, most=5):
        return [self.entry(n) for n in self.r.sample(self.names, min(len(self.names), self.r.randrange(most + 1)))]

    def good_raw(self):
        return sorted_raw(self.good_entries())

    def damaged_raw(self):
        """One thing wrong with a tree that is otherwise good."""
        b = self.r.choice(BLOB_IDS)
        base = self.good_entries()
        good = sorted_raw(base)
        k = self.r.randrange(16)
        if k == 0:
            return good + good if good else b"x"
        if k == 1:  # wrong order
            es = sorted(base, key=lambda e: order_key(MODES[e[0]], e[1]), reverse=True)
            return raw_of(es) if len(es) > 1 else b"1"
        if k == 2:  # a file and a tree of one name, apart
            return raw_of([(b"100644", b"a", b), (b"100644", b"a.c", b), (b"40000", b"a", b)])
        if k == 3:  # the same, next to each other
            return raw_of([(b"100644", b"a", b), (b"40000", b"a", b)])
        if k == 4:  # byte order without the slash rule
            return raw_of([(b"40000", b"a", b), (b"100644", b"a.c", b)])
        if k == 5:
            mode = self.r.choice([b"040000", b"100664", b"644", b"", b"0", b"100645", b"40001", b"140000", b"1006440",
                                  b"+100644", b"100 644", b"20000000000040000"])
            return raw_of([(mode, b"a", b)])
        if k == 6:
            return raw_of([(b"100644", b"", b)])
        if k == 7:
            return raw_of([(b"100644", self.r.choice([b"a/b", b"/", b"a/", b"/a"]), b)])
        if k == 8:
            return raw_of([(b"100644", b"n" * self.r.choice([256, 257, 300]), b)])
        if k == 9:
            return (good or raw_of([(b"100644", b"a", b)]))[:-self.r.randrange(1, 21)]
        if k == 10:
            return good + self.r.choice([b"\0", b"1", b"40000", b"40000 ", b"40000 zz", b"\xff"])
        if k == 11:
            return b"100644 a"
        if k == 12:
            return b"100644a\0" + b
        if k == 13:  # unsigned bytes: z before é
            return raw_of([(b"100644", b"\xc3\xa9", b), (b"100644", b"z", b)])
        if k == 14:  # twins far apart
            return raw_of([(b"100644", b"a", b)] + [(b"100644", b"a.%02d" % n, b) for n in range(20)]
                          + [(b"40000", b"a", b)])
        return bytes(self.r.randrange(256) for _ in range(self.r.randrange(1, 40)))

    def big_raw(self):
        """Trees at or past a limit of room; some are damaged, at their front or behind everything else."""
        good = self.big_good()
        return self.one((13, good), (2, good + b"x"), (1, b"40000 a/\0" + bytes(20) + good), (1, good + good[:300]),
                        (1, lambda: good + raw_of([(b"40000", good[7:good.index(b"\0")], NULL)])),
                        (1, lambda: raw_of([(b"100644", b"%05d" % (4000 - n), BLOB_IDS[0]) for n in range(3000)])))

    def big_good(self):
        b = self.r.choice(BLOB_IDS)
        k = self.r.randrange(7)
        if k < 2:
            return raw_of([(b"100644", b"%04d" % n, b) for n in range(1024 + k)])
        if k < 4:  # 16,384 name bytes, or one more
            return raw_of([(b"100644", b"%02d" % n + b"n" * 253, b) for n in range(64)]
                          + [(b"100644", b"x" * (64 + k - 2), b)])
        if k == 4:
            return raw_of([(b"100644", b"%04d" % n, b) for n in range(self.r.choice([990, 1000, 1020]))])
        if k == 5:  # both limits, and the longest output
            return raw_of([(b"100644", b"%016d" % n, b) for n in range(1024)])
        return raw_of([(b"100644", b"%03d" % n + b"n" * 252, b) for n in range(self.r.choice([60, 63, 64]))])

    def build_table(self, n, big=0.02):
        for _ in range(n):
            ident = self.one((10, self.fresh_id), (1, NULL), (1, EMPTY_TREE),
                             (2, lambda: self.r.choice(self.ids or [NULL])))
            raw = self.big_raw() if self.r.random() < big else self.one((7, self.good_raw), (5, self.damaged_raw),
                                                                        (1, b""))
            self.ids.append(ident)
            self.say("object %s %s" % (ident.hex(), out_hex(raw)))
        if self.r.random() < 0.5:
            self.ids.append(self.fresh_id())  # missing

    def bad_table(self):
        t = self.s.table
        ids, ends, raws = t.ids, list(t.ends), t.raws
        k = self.r.randrange(10)
        if k == 0:
            ids = ids[:-1] if ids else b"\x01"
        elif k == 1:
            ids = ids + bytes(20)
        elif k == 2:
            ends = ends + [len(raws)]
        elif k == 3:
            ends = ends[:-1] + [len(raws) + 1] if ends else [0]
        elif k == 4:
            ends = [5] + ends[1:-1] + [0] if len(ends) > 1 else [4294967295]
        elif k == 5:  # falling by one, in the middle
            ids, raws = ids + b"\x01" * 40, raws + b"\0" * 4
            ends = ends + [len(raws), len(raws) - 1]
        elif k == 6:
            ids, ends, raws = b"", [], raws  # no objects: good
        elif k == 7:
            ends = [self.r.choice([0, 1, len(raws), len(raws) + 1, 2 ** 31, 2 ** 32 - 1]) for _ in ends]
        elif k == 8:
            ids, ends, raws = self.r.randbytes(self.r.randrange(90)), ends, raws[:-1]
        else:
            raws = raws + b"\0" * 3  # bytes past the last offset: still good
        good = "table %s %s %s" % (out_hex(t.ids), ",".join(map(str, t.ends)) or "-", out_hex(t.raws))
        self.say("table %s %s %s" % (out_hex(ids), ",".join(map(str, ends)) or "-", out_hex(raws)))
        return good

    # paths
    def prefix(self):
        """`.`, or a cursor's: cached, or not."""
        paths = list(self.s.cache or [b""])
        return self.one((6, "."), (1, "-"), (4, lambda: out_hex(self.r.choice(paths))),
                        (1, lambda: out_hex(self.plain_path(2))),
                        (1, lambda: out_hex(below(self.r.choice(paths), self.name()))),
                        (1, lambda: out_hex(self.near_prefix(self.r.choice(paths)))))

    def near_prefix(self, cached):
        """Nearly a path that is cached, or any bytes."""
        return self.one((1, cached + b"/"), (1, cached[:-1]), (1, cached + b"\0"), (1, b"/" + cached), (1, self.any_path))

    def any_path(self):
        """Any bytes, and any length."""
        most = self.r.choice([1, 2, 3, 8, 40, 255, 256, 700, 1023, 1024, 1025, 1500, 5000])
        size = 70000 if self.r.random() < 0.01 else self.r.randrange(most + 1)
        alphabet = self.r.choice([bytes(range(256)), bytes(range(1, 256)), bytes(range(1, 256)), b"ab/", b"/\0a", b"\xff\xfe/"])
        return bytes(self.r.choices(alphabet, k=size))

    def plain_path(self, most=4):
        return b"/".join(self.name() for _ in range(self.r.randrange(1, most + 1)))

    def known_path(self):
        """Towards an entry that is there."""
        if not self.s.cache:
            return self.plain_path()
        at = self.r.choice(list(self.s.cache))
        held = list(self.s.cache[at].by_name)
        return below(at, self.r.choice(held)) if held else below(at, self.name())

    def odd_path(self):
        """Empty components."""
        p = self.plain_path(3).split(b"/")
        p.insert(self.r.randrange(len(p) + 1), b"")
        return self.r.choice([b"/".join(p), b"/".join(p), b"/", b"//"])

    def deep_path(self):
        return b"/".join(self.name() for _ in range(self.r.randrange(5, 14)))

    def edge_path(self, prefix):
        """At the edges of number 6, the cursor's prefix counted."""
        used = 0 if prefix in (".", "-") else len(in_hex(prefix)) + 1
        k = self.r.randrange(8)
        if k == 0:
            return b"n" * self.r.choice([255, 256])
        if k == 1:
            return b"a/" + b"n" * self.r.choice([255, 256])
        if k == 2:
            return self.plain_path(2) + self.r.choice([b"\0", b"/\0", b"\0/a", b"//\0"])
        if k == 3:
            return b"/" * (max(1, 1024 - used) + self.r.choice([0, 1]))
        size = max(1, 1024 - used + self.r.choice([-1, 0, 0, 1, 1, 2]))
        return self.path_of(size, self.r.choice([255, 200, 100]))

    def path_of(self, size, comp):
        """A path of exactly this many bytes, components of at most comp bytes."""
        out = b""
        while len(out) < size:
            left = size - len(out) - (1 if out else 0)
            if left <= 0:
                return (out + b"n")[:size] if not out.endswith(b"n" * 255) else out[:-1] + b"/n"
            out = below(out, b"n" * min(comp, left))
        return out

    def path(self, prefix="."):
        return self.one((8, self.plain_path), (5, self.known_path), (5, lambda: below(self.known_path(), self.name())),
                        (1, self.odd_path), (1, b""), (1, self.deep_path), (1, lambda: self.edge_path(prefix)),
                        (1, self.any_path))

    # calls
    def mode(self):
        return self.r.choice([b"40000"] * 2 + FILES).decode()

    def edit(self, path=None):
        p = self.prefix()
        at = out_hex(self.path(p) if path is None else path)
        kind = self.one((6, "upsert"), (3, "remove"), (3, "leaf"), (2, "cursor"))
        if kind == "cursor":
            return self.say("cursor " + at)
        if kind == "upsert":
            return self.say("upsert %s %s %s %s" % (p, at, self.mode(), self.tree_or_any().hex()))
        return self.say("%s %s %s" % (kind, p, at))

    def tree_or_any(self):
        return self.one((1, self.tree_id), (2, self.any_id))

    def get(self):
        p = self.prefix()
        self.say("get %s %s" % (p, out_hex(self.path(p))))

    def finish(self):
        self.say("finish %s%s" % (self.prefix(), self.r.choice(["", " keep"])))

    def root(self):
        raw = self.one((6, self.good_raw), (2, self.damaged_raw), (2, b""))
        if self.r.random() < 0.03:
            raw = self.big_raw()
        self.say("%s %s" % (self.r.choice(["new", "setroot"]), out_hex(raw)))

    def write_call(self):
        """A write's own call."""
        self.one((1, lambda: self.say("begin " + self.prefix())), (2, self.read), (3, self.answer),
                 (1, lambda: self.say("fail")))

    def read(self):
        w = self.s.write
        need = len(w.asked[1].raw()) if w else 0
        self.say("read %d" % self.r.choice([0, 1, max(0, need - 1), need, need, need + 1, 45056]))

    def answer(self):
        self.say("answer " + (self.answers or self.one((1, NULL), (1, EMPTY_TREE), (2, b"\x44" * 20), (4, self.fresh_id))).hex())


def normal(m, length):
    if m.r.random() < 0.04:
        return edges(m, length)
    m.pick_names(m.r.randrange(3, 9))
    if m.r.random() < 0.05:
        m.one((1, m.edit), (1, m.get), (1, m.finish), (1, m.write_call), (1, lambda: m.say("setroot -")))  # 13
    m.build_table(m.r.randrange(0, 7))
    m.say("new " + out_hex(m.one((1, b""), (2, m.good_raw))))
    if m.s.cache is None:
        m.say("new -")
    undo = None
    for _ in range(length):
        if undo and m.r.random() < 0.5:
            undo = m.say(undo) and None
        m.one((60, m.edit), (18, m.get), (4, m.finish), (2, m.root), (6, m.write_call))
        if m.s.write and m.r.random() < 0.5:
            m.one((1, m.answer), (1, lambda: m.say("fail")))
        if undo is None and m.r.random() < 0.02:
            undo = m.bad_table()


def edges(m, length):
    """Prefixes and paths that make 1,024 bytes together, or one more; scans past 1,024."""
    m.pick_names(3)
    wide = m.fresh_id()
    m.ids.append(wide)
    m.say("object %s %s" % (wide.hex(), out_hex(raw_of([(b"40000", b"n" * 255, EMPTY_TREE)]))))
    m.say("new -")
    size = m.r.choice([1000, 1000, 1000, 1022, 1023, 1024, 999])
    p = m.path_of(size, m.r.choice([255, 100, 24]))
    m.say(m.r.choice(["cursor " + out_hex(p), "upsert . %s 40000 %s" % (out_hex(p), wide.hex()),
                      "upsert . %s 100644 %s" % (out_hex(p[:-2] + b"/x"), BLOB_IDS[0].hex())]))
    for _ in range(min(length, 12)):
        at = m.r.choice([b"", b"x", b"x" * (1023 - size), b"x" * (1024 - size), b"x" * 22, b"x/", b"x\0"])
        calls = ["upsert %s %s 100644 " + BLOB_IDS[0].hex(), "upsert %s %s 40000 " + wide.hex(), "remove %s %s",
                 "leaf %s %s", "get %s %s"]
        m.say(m.r.choice(calls) % (out_hex(p), out_hex(at)))
        m.say(m.r.choice(calls) % (".", out_hex(below(p, at))))
        m.one((1, lambda: m.say("finish " + out_hex(p))), (1, m.edit), (1, m.get), (1, lambda: m.say("finish .")))


# near the limits

def near_trees(m):
    """60 to 64 cached trees."""
    for k in range(m.r.randrange(58, 64)):
        m.say("%s %s" % ("cursor", out_hex(b"t%02d" % k)))
    m.names = [b"a", b"b", b"t00", b"t01", b"t60"]


def near_entries(m):
    """About 1,024 entries, in the root or in a tree to be loaded."""
    b = BLOB_IDS[0]
    n = m.r.choice([1010, 1018, 1020, 1021, 1022, 1023, 1024])
    big = raw_of([(b"100644", b"%04d" % k, b) for k in range(n)])
    few = raw_of([(b"100644", b"%d" % k, b) for k in range(m.r.randrange(1, 10))])
    ids = [m.fresh_id() for _ in range(2)]
    m.ids += ids
    m.say("object %s %s" % (ids[0].hex(), out_hex(big)))
    m.say("object %s %s" % (ids[1].hex(), out_hex(few)))
    if m.r.random() < 0.5:
        m.say("new " + out_hex(big))
    m.names = [b"a", b"b", b"0000", b"1000"]
    m.say("upsert . %s 40000 %s" % (out_hex(b"t"), ids[0].hex()))
    m.say("upsert . %s 40000 %s" % (out_hex(b"u"), ids[1].hex()))
    m.names += [b"t", b"u"]


def near_names(m):
    """About 16,384 name bytes."""
    b = BLOB_IDS[0]
    es = [(b"100644", b"%02d" % k + b"n" * 253, b) for k in range(m.r.choice([62, 63, 64]))]
    ident = m.fresh_id()
    m.ids.append(ident)
    m.say("object %s %s" % (ident.hex(), out_hex(raw_of(es))))
    m.names = [b"a", b"n" * 20, b"n" * 31, b"n" * 32, b"n" * 62, b"n" * 63, b"n" * 64, b"n" * 255]
    if m.r.random() < 0.5:
        m.say("new " + out_hex(raw_of(es)))
    else:
        m.say("upsert . %s 40000 %s" % (out_hex(b"a"), ident.hex()))
    if m.r.random() < 0.5:
        m.say("upsert . %s 100644 %s" % (out_hex(b"x" * m.r.randrange(1, 64)), b.hex()))


def near_paths(m):
    """About 8,192 path bytes: chains of long components."""
    size = m.r.choice([255, 200, 170, 100])
    m.names = [b"a" * size, b"b" * size, b"a" * (size - 1), b"c", b"dd"]
    for c in (b"a", b"b", b"c", b"d"):
        deep = m.r.randrange(3, max(4, 1025 // (size + 1)))
        m.say("%s %s" % ("cursor", out_hex(b"/".join([c * size] * deep))))
    left = 8192 - sum(map(len, m.s.cache))
    if 0 < left < 600 and m.r.random() < 0.7:
        m.say("cursor " + out_hex(m.path_of(max(1, left // 2 - m.r.randrange(0, 20)), 255)))


def near_two(m):
    """Trees and entries together: one folder each, each with entries."""
    for k in range(m.r.randrange(55, 63)):
        m.say("upsert . %s 100644 %s" % (out_hex(b"t%02d/f" % k), BLOB_IDS[0].hex()))
    m.names = [b"t00", b"t01", b"t02", b"a", b"b"]


def written(m):
    """A write, read at its requests, and failed at some."""
    m.say("begin " + m.prefix())
    while m.s.write:
        m.one((2, m.read), (4, m.answer), (1, lambda: m.say("fail")))


def limits(m, length):
    m.say("dump sum")
    m.pick_names(4, long_too=False)
    m.build_table(m.r.randrange(4), big=0.1)
    m.say("new -")
    m.one((1, lambda: near_trees(m)), (1, lambda: near_entries(m)), (1, lambda: near_names(m)),
          (1, lambda: near_paths(m)), (1, lambda: near_two(m)))
    for k in range(length):
        what = m.r.randrange(20)
        if what < 12:
            p = m.prefix()
            path = m.one((6, lambda: m.plain_path(6)), (4, m.known_path), (2, lambda: below(m.known_path(), m.name())),
                         (1, m.odd_path), (1, lambda: m.known_path() + b"//" + m.name()))
            m.say(m.one((4, "upsert %s %s 100644 %s" % (p, out_hex(path), BLOB_IDS[1].hex())),
                        (1, "upsert %s %s 40000 %s" % (p, out_hex(path), m.tree_id().hex())),
                        (2, "cursor " + out_hex(path)), (2, "remove %s %s" % (p, out_hex(path))),
                        (1, "leaf %s %s" % (p, out_hex(path)))))
        elif what < 14:
            m.get()
        elif what == 14 and k > length // 2:
            m.one((2, m.finish), (1, lambda: written(m)))
        elif what == 15 and m.r.random() < 0.3:
            m.say("%s %s" % (m.r.choice(["new", "setroot"]), out_hex(m.big_raw())))
            if m.r.random() < 0.3:
                written(m)
        else:
            m.say("upsert . %s %s %s" % (out_hex(m.plain_path(2)), m.mode(), m.any_id().hex()))
    m.say("show")


# writes

def set_up(m):
    """Calls that leave cached trees, some of them empty, some of them without an entry."""
    out = ["new " + out_hex(m.one((1, b""), (1, m.good_raw)))]
    for _ in range(m.r.randrange(2, 12)):
        p = out_hex(m.plain_path(4))
        out.append(m.one((5, "upsert . %s 100644 %s" % (p, BLOB_IDS[0].hex())), (1, "cursor " + p),
                         (1, "upsert . %s 100644 %s" % (p, NULL.hex())), (1, "remove . " + p),
                         (1, "upsert . %s 40000 %s" % (p, EMPTY_TREE.hex())),
                         (1, "upsert . %s %s %s" % (p, m.mode(), m.any_id().hex()))))
    return out


def fail_everywhere(m, calls, start=None):
    """The same write failed at each of its requests."""
    asked = 0
    while True:
        for call in calls:
            m.say(call)
        if m.s.cache is None:
            return
        if start is None:
            start = m.prefix()
        m.say("begin " + start)
        for k in range(asked):
            if m.s.write:
                m.say("answer " + (m.answers or b"\x55" * 19 + bytes([k])).hex())
        if not m.s.write:
            return
        m.say("fail")
        m.say("finish .")
        asked += 1


def many_requests(m):
    """A write of 20 to 64 requests, failed at each."""
    m.say("dump sum")
    groups, each = m.r.choice([(1, 62), (7, 8), (9, 6), (3, 20), (20, 0), (4, 5)])
    calls = []
    for g in range(groups):
        calls += ["upsert . %s 100644 %s" % (out_hex(b"g%02d/t%02d/f" % (g, k)), BLOB_IDS[0].hex()) for k in range(each)]
        calls.append("upsert . %s 100644 %s" % (out_hex(b"g%02d/f" % g), BLOB_IDS[0].hex()))
    m.r.shuffle(calls)
    fail_everywhere(m, ["new -"] + calls, m.r.choice([".", ".", "-", out_hex(b"g00")]))


def nested(m):
    """Cursors' writes inside one another, out of the innermost or into the outermost, some failed; edits in between."""
    for call in set_up(m):
        m.say(call)
    if m.s.cache is None:
        return
    inner = m.r.choice(sorted(m.s.cache, key=len)[-3:]).split(b"/")
    chain = [".", "-"] + [out_hex(b"/".join(inner[:k])) for k in range(1, len(inner) + 1)]
    for start in (chain[::-1] if m.r.random() < 0.7 else chain) + chain[:m.r.randrange(3)]:
        if m.r.random() < 0.5:
            m.say("upsert %s %s 100644 %s" % (start, out_hex(m.plain_path(3)), BLOB_IDS[0].hex()))
        if m.r.random() < 0.2:
            m.edit()
        m.say("begin " + start)
        left = m.r.choice([100, 100, 0, 1, 2, 3])
        while m.s.write:
            if left == 0:
                m.say("fail")
            elif m.r.random() < 0.2:
                m.read()
            else:
                m.answer()
                left -= 1
        m.get()


def write(m, length):
    m.pick_names(m.r.randrange(2, 6), long_too=False)
    m.build_table(m.r.randrange(0, 4), big=0)
    which = m.r.random()
    if which < 0.3:
        return fail_everywhere(m, set_up(m))
    if which < 0.45:
        return nested(m)
    if which < 0.452:
        return many_requests(m)
    if m.r.random() < 0.1:
        m.write_call()
    for call in set_up(m):
        m.say(call)
    if m.s.cache is None:
        m.say("new -")
    for _ in range(length):
        if m.s.write is None:
            m.one((6, lambda: m.say("begin " + m.prefix())), (8, m.edit), (1, m.get), (1, m.write_call), (1, m.finish),
                  (2, lambda: m.say("upsert . %s 100644 %s" % (out_hex(m.plain_path()), BLOB_IDS[0].hex()))))
        else:
            m.one((4, m.read), (10, m.answer), (1, lambda: m.say("fail")), (1, m.edit), (1, m.get), (1, m.root),
                  (1, m.finish), (1, lambda: m.say("begin " + m.prefix())))


KINDS = {"normal": normal, "limits": limits, "write": write}


def make(kind, seed, number, length):
    if kind == "all":
        kind = ("normal", "write", "normal", "write", "limits")[number % 5]
    m = Maker("%s-%d-%d" % (kind, seed, number), "%s-%d-%d" % (kind, seed, number))
    KINDS[kind](m, length)
    return m.lines


def main():
    p = argparse.ArgumentParser(usage=__doc__)
    p.add_argument("--seed", type=int, default=1)
    p.add_argument("--count", type=int, default=100)
    p.add_argument("--kind", choices=sorted(KINDS) + ["all"], default="all")
    p.add_argument("--length", type=int, default=25)
    p.add_argument("--most", type=int)
    o = p.parse_args()
    for number in range(o.count):
        text = "\n".join(make(o.kind, o.seed, number, o.length)) + "\n"
        if o.most is None or len(text) <= o.most:
            sys.stdout.write(text)


if __name__ == "__main__":
    main()

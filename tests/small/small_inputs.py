#!/usr/bin/env python3
"""Inputs for the small program (docs/RULES.md): good ones, and each kind of broken line at each place of a record.

    small_inputs.py [--seed N] [--count N] DIRECTORY

Writes one file an input; tests/small/compare_small.py takes the same inputs without files.
"""
import argparse
import os
import random

IDS = [b"11" * 20, b"00" * 20, b"4b825dc642cb6eb9a060e54bf8d69288fbee4904", b"0123456789abcdef0123456789abcdef01234567"]
KINDS = [b"40000", b"100644", b"100755", b"120000", b"160000"]
PATHS = [b"a", b"a/b", b"a/b/c", b"a.c", b"a-/x", b"b", b"", b"/", b"a/", b"a//b", b"\xc3\xa9", b"a\0b", b"n" * 255,
         b"n" * 256, b"a0", b"A/z", b"/".join([b"n" * 170] * 6)]


def lines(op, path, kind=b"", ident=b""):
    return [b"op=" + op, b"path=" + path.hex().encode(), b"kind=" + kind, b"id=" + ident]


def text(records):
    return b"".join(line + b"\n" for r in records for line in r)


UPSERT = lines(b"upsert", b"a/b", b"100644", IDS[0])
REMOVE = lines(b"remove", b"a/b")
LEAF = lines(b"leaf", b"a")

# what may stand in place of each line of a record, none of it of the form
BROKEN = [
    [b"", b"op", b"op=", b"op=Upsert", b"op=upsert ", b" op=upsert", b"op=upserts", b"op=removes", b"op = upsert",
     b"OP=upsert", b"path=61", b"op=leaf\r", b"op=\xff", b"\0", b"op=upsert\0", b"op:upsert", b"xop=upsert"],
    [b"", b"path", b"path:61", b"path=6", b"path=616", b"path=6G", b"path=6A", b"path=C3A9", b"path= 61", b"path=61 ",
     b"path=0x61", b"path=61\r", b"Path=61", b"op=upsert", b"path=-1", b"path=+1", b"path=6\xc3\xa9", b"path=\xff\xff",
     b"path=g0", b"path=/0", b"path=:0", b"path=`0", b"path=@0"],
    [b"", b"kind", b"kind=100664", b"kind=040000", b"kind=40001", b"kind=644", b"kind=0", b"kind=100644 ", b"kind= 100644",
     b"kind=100644\r", b"kind=blob", b"kind=1006440", b"kind=10064", b"kind=0100644", b"id=", b"KIND=100644", b"kind=\xff"],
    [b"", b"id", b"id=" + b"11" * 19, b"id=" + b"11" * 21, b"id=" + b"1" * 39, b"id=" + b"1" * 41, b"id=" + b"AB" * 20,
     b"id=" + b"1g" * 20, b"id= " + b"11" * 20, b"id=" + b"11" * 20 + b" ", b"id=" + b"11" * 20 + b"\r", b"ID=" + b"11" * 20,
     b"path=61", b"id=\xff" + b"1" * 39, b"id=" + b"\xc3\xa9" * 20],
]


def broken():
    """Each broken line in the first, a middle and the last record, for each kind of record."""
    for record in (UPSERT, REMOVE, LEAF):
        for k in range(4):
            more = []
            if record is not UPSERT and k == 2:
                more = [b"kind=" + m for m in KINDS]
            if record is not UPSERT and k == 3:
                more = [b"id=" + i for i in IDS]
            if record is UPSERT and k in (2, 3):
                more = [(b"kind=", b"id=")[k - 2]]
            for line in BROKEN[k] + more:
                bad = record[:k] + [line] + record[k + 1:]
                for before, after in ((0, 0), (0, 1), (2, 1)):
                    yield text([UPSERT] * before + [bad] + [REMOVE] * after)
            for before in (0, 2):  # a line missing, a line twice, cut behind a line, an empty line before
                good = text([UPSERT] * before)
                yield good + text([record[:k] + record[k + 1:]])
                yield good + text([record[:k] + record[k + 1:], LEAF])
                yield good + text([record[:k + 1] + record[k:]])
                yield good + text([record[:k]])
                yield good + text([record[:k]]) + record[k]
                yield good + text([record[:k]]) + record[k][:-1]
                yield good + text([record[:k] + [b""] + record[k:]])
                yield good + text([record[:k]]) + record[k][:2]


def fixed():
    yield b""
    yield b"\n"
    yield b"\n\n\n\n"
    yield b"o"
    yield b"op=upsert"
    yield text([UPSERT])
    yield text([UPSERT])[:-1]
    yield text([UPSERT]) + b"\n"
    yield text([UPSERT]).replace(b"\n", b"\r\n")
    yield text([UPSERT]).replace(b"\n", b"\r")
    yield text([REMOVE]).replace(b"\n", b"\r\n")
    yield b"\xef\xbb\xbf" + text([UPSERT])
    for kind in KINDS:
        for ident in IDS:
            yield text([lines(b"upsert", b"a/b", kind, ident), lines(b"upsert", b"a", b"40000", ident),
                        lines(b"upsert", b"a/c", kind, IDS[0])])
    for path in PATHS:
        for op in (b"remove", b"leaf"):
            yield text([lines(b"upsert", path, b"100644", IDS[0]), lines(op, path)])
            yield text([UPSERT, lines(op, path), lines(b"upsert", path, b"40000", IDS[1])])


def long_ones():
    """At 65,536 bytes and around it: of the form to the end, or broken from the start."""
    for size in (65534, 65535, 65536, 65537, 65538, 70000, 140000):
        yield good_of(size)
        yield good_of(size - 1) + b"\n"
        yield good_of(size)[:-1] + b"x"
        yield b"\n" * size
        yield b"z" * size
        yield b"op=remove\npath=" + b"61" * ((size - 26) // 2) + b"\nkind=\nid=\n"
    yield text([lines(b"upsert", b"t%03d/f" % k, b"100644", IDS[0]) for k in range(80)])  # the 65th tree
    yield text([lines(b"upsert", b"d/%03d" % k, b"100644", IDS[3]) for k in range(600)])
    yield text([lines(b"upsert", b"%03d" % k + b"n" * 252, b"100644", IDS[3]) for k in range(66)])  # name bytes


def good_of(size):
    """Records of the form, exactly this many bytes."""
    first = text([lines(b"upsert", b"a/b", b"40000" if size % 2 else b"100644", IDS[0])])
    unit = text([lines(b"remove", b"x")])
    out = first + unit * ((size - len(first) - 200) // len(unit))
    rest = size - len(out) - len(text([lines(b"remove", b"")]))
    return out + text([lines(b"remove", b"y" * (rest // 2))])


def noise(r):
    k = r.randrange(6)
    if k == 0:
        return bytes(r.randrange(256) for _ in range(r.randrange(200)))
    good = bytearray(random_good(r))
    if not good:
        return b"\0"
    for _ in range(r.randrange(1, 4)):
        at = r.randrange(len(good))
        if k == 1:
            good[at] = r.randrange(256)
        elif k == 2:
            del good[at]
        elif k == 3:
            good.insert(at, r.choice(b"\n\r =a0\0"))
        elif k == 4:
            good = good[:at] or bytearray(b"\n")
        else:
            good[at] ^= 0x20
        if not good:
            return b""
    return bytes(good)


def random_good(r):
    names = r.sample([b"a", b"a.c", b"a-", b"a0", b"b", b"\xc3\xa9", b"z", b"A"], 4)
    out = []
    for _ in range(r.randrange(0, 25)):
        path = r.choice(PATHS) if r.random() < 0.1 else b"/".join(r.choice(names) for _ in range(r.randrange(1, 5)))
        op = r.choice([b"upsert", b"upsert", b"upsert", b"remove", b"leaf"])
        if op == b"upsert":
            out.append(lines(op, path, r.choice(KINDS + [b"100644"] * 4), r.choice(IDS + [IDS[0]] * 4)))
        else:
            out.append(lines(op, path))
    return text(out)


def inputs(seed, count):
    yield from fixed()
    yield from broken()
    yield from long_ones()
    r = random.Random(seed)
    for _ in range(count):
        yield random_good(r) if r.random() < 0.6 else noise(r)


def main():
    p = argparse.ArgumentParser(usage=__doc__)
    p.add_argument("--seed", type=int, default=1)
    p.add_argument("--count", type=int, default=200)
    p.add_argument("directory")
    o = p.parse_args()
    os.makedirs(o.directory, exist_ok=True)
    for k, data in enumerate(inputs(o.seed, o.count)):
        with open(os.path.join(o.directory, "%05d" % k), "wb") as f:
            f.write(data)


if __name__ == "__main__":
    main()

#!/usr/bin/env python3
"""Git as the judge of what the text given does not hold: entry order, raw form, ids, reading of raw trees.

    git_check.py [--seed N] [--count N] [-- COMMAND...]

Checks tests/traces/model01.py, and each program given that speaks the protocol's `sort` and `decode` (oracle-trace does):
the empty-tree id against `git hash-object`, COUNT lists of entries against `git mktree`, COUNT raw trees against
`git fsck`. Git lets pass names over 255 bytes and modes over 16 bits; docs/RULES.md does not.
"""
import argparse
import hashlib
import os
import random
import re
import subprocess
import sys
import tempfile
import zlib
from pathlib import Path

sys.path.insert(0, str(Path(__file__).resolve().parents[1] / "traces"))
import traces  # noqa: E402
from model01 import EMPTY_TREE, Speaker, out_hex  # noqa: E402

TYPES = {b"40000": b"tree", b"160000": b"commit"}
DAMAGE = ("badTree", "badFilemode", "duplicateEntries", "emptyName", "fullPathname", "treeNotSorted",
          "zeroPaddedFilemode")


def git(where, *args, data=b""):
    return subprocess.run(["git", "-C", where] + list(args), input=data, stdout=subprocess.PIPE, stderr=subprocess.PIPE)


def answers(program, lines):
    if program is None:
        speaker = Speaker()
        return [speaker.line(line)[0] for line in lines]
    return subprocess.run(program, input="".join(x + "\n" for x in lines).encode(), stdout=subprocess.PIPE,
                          check=True).stdout.decode().splitlines()


def lists(r, count):
    """Lists of entries with different names, in any order."""
    for _ in range(count):
        names = {r.choice([n for n in traces.NAMES if n not in (b".", b"..", b".git")]) + r.choice([b"", b"", b"a", b"0", b"."])
                 for _ in range(r.randrange(1, 9))} - {b"..", b"."}
        yield [(r.choice([b"40000"] * 4 + traces.FILES), n, r.choice(traces.BLOB_IDS)) for n in names]


def check_order(where, r, count, programs):
    made = list(lists(r, count))
    data = b"".join(b"".join(b"%s %s %s\t%s\0" % (m.rjust(6, b"0"), TYPES.get(m, b"blob"), i.hex().encode(), n)
                             for m, n, i in es) + b"\0" for es in made)
    ids = git(where, "mktree", "--missing", "--batch", "-z", data=data).stdout.decode().split()
    assert len(ids) == count, "git mktree gave %d ids" % len(ids)
    calls = ["sort " + " ".join("%s:%s:%s" % (m.decode(), out_hex(n), i.hex()) for m, n, i in es) for es in made]
    for p in programs:
        for es, want, got in zip(made, ids, answers(p, calls)):
            if got.split()[-1] != want:
                sys.exit("%s: %r: Git has %s, not %s" % (p or "model01", es, want, got))


def put(where, raw):
    """A loose object without any check."""
    data = b"tree %d\0" % len(raw) + raw
    ident = hashlib.sha1(data).hexdigest()
    at = os.path.join(where, ".git", "objects", ident[:2])
    os.makedirs(at, exist_ok=True)
    with open(os.path.join(at, ident[2:]), "wb") as f:
        f.write(zlib.compress(data))
    return ident


def check_reading(where, seed, count, programs):
    raws = []
    for k in range(count):
        m = traces.Maker("git-%d-%d" % (seed, k), "git")
        m.pick_names(5)
        m.ids = list(traces.BLOB_IDS)
        raws.append(m.damaged_raw() if k % 2 else m.good_raw())
    ids = [put(where, raw) for raw in raws]
    said = git(where, "fsck", "--strict", "--no-dangling", "--no-reflogs")
    bad = set()
    for line in (said.stdout + said.stderr).decode("utf-8", "replace").splitlines():
        found = re.search(r"in tree ([0-9a-f]{40}): (\w+):", line)
        if found and found.group(2) in DAMAGE:
            bad.add(found.group(1))
    calls = ["decode " + out_hex(raw) for raw in raws]
    passed_by_git = re.compile(rb" [^\0]{256,}\0|[0-7]{7,} ")
    damaged = 0
    for p in programs:
        for raw, ident, got in zip(raws, ids, answers(p, calls)):
            mine = got == "decode damaged"
            damaged += mine
            if mine != (ident in bad) and not passed_by_git.search(raw):
                sys.exit("%s: %r: %s, but Git finds it %s" % (p or "model01", raw, got, "bad" if ident in bad else "good"))
    return damaged // len(programs)


def main():
    argv, programs = sys.argv[1:], [None]
    while "--" in argv:
        cut = len(argv) - 1 - argv[::-1].index("--")
        programs.append(argv[cut + 1:])
        argv = argv[:cut]
    p = argparse.ArgumentParser(usage=__doc__)
    p.add_argument("--seed", type=int, default=1)
    p.add_argument("--count", type=int, default=2000)
    o = p.parse_args(argv)
    r = random.Random(o.seed)
    with tempfile.TemporaryDirectory() as where:
        git(where, "init", "-q")
        want = git(where, "hash-object", "-t", "tree", "--stdin").stdout.decode().strip()
        assert EMPTY_TREE.hex() == want, "the empty-tree id"
        check_order(where, r, o.count, programs)
        damaged = check_reading(where, o.seed, o.count, programs)
    version = subprocess.run(["git", "--version"], stdout=subprocess.PIPE).stdout.decode().split()[2]
    print("Git %s agrees: %d lists sorted, %d raw trees read, %d of them damaged, by %d program(s)"
          % (version, o.count, o.count, damaged, len(programs)))


if __name__ == "__main__":
    main()

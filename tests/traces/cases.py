#!/usr/bin/env python3
"""Twelve cases of the rules (docs/RULES.md), the edges of its room and its settled questions, printed as traces (tests/oracle/PROTOCOL.md)."""
from model01 import EMPTY_TREE, NULL, out_hex

B, N, E = "11" * 20, NULL.hex(), EMPTY_TREE.hex()


def h(text):
    return out_hex(text if isinstance(text, bytes) else text.encode())


def raw(*entries):
    return out_hex(b"".join(b"%s %s\0%s" % (m.encode(), n if isinstance(n, bytes) else n.encode(), bytes.fromhex(i))
                            for m, n, i in entries))


def up(path, mode="100644", ident=B, at="."):
    return "upsert %s %s %s %s" % (at, h(path), mode, ident)


def path(size):
    """A path of this many bytes."""
    out = ""
    while len(out) < size:
        out += ("/" if out else "") + "n" * min(200, size - len(out) - (1 if out else 0))
    return out


def case(label, text, *lines):
    print("# %s\ntrace %s\n%s\n" % (text, label, "\n".join(lines)))


def twelve():
    case("case-1-2", "Cases 1 and 2: empty root, upsert a/b, then write: requests a, root",
         "new -", up("a/b"), "begin .", "answer " + "01" * 20, "answer " + "02" * 20)
    case("case-3", "Case 3: upsert a/ gives 1 and leaves a cached empty; one request, the empty root",
         "new -", up("a/"), "begin .", "answer " + E)
    case("case-4", "Case 4: root a.c and tree a; upsert a as a file: order a, a.c",
         "new " + raw(("100644", "a.c", B), ("40000", "a", B)), up("a"))
    case("case-5", "Case 5: files z and é (C3 A9): z first", "new -", up(b"\xc3\xa9"), up("z"), up(b"\xc3"), up(b"\x80"))
    case("case-6", "Case 6: remove x/y from an empty root", "new -", "remove . " + h("x/y"))
    case("case-7", "Case 7: tree a with the empty-tree id: leaf removal caches nothing, plain removal caches a",
         "new " + raw(("40000", "a", E)), "leaf . " + h("a/b"), "remove . " + h("a/b"), "leaf . " + h("a/b"))
    case("case-8", "Case 8: upsert a/b, remove a, upsert a/c: a has b and c",
         "new -", up("a/b"), "remove . " + h("a"), up("a/c"))
    case("case-9", "Case 9: a as a null tree, then a/b: 2; with the null id in the table it is loaded",
         "new -", up("a", "40000", N), up("a/b"), "remove . " + h("a/b"), "leaf . " + h("a/b"),
         "object %s %s" % (N, raw(("100755", "x", B))), up("a/b"))
    case("case-10", "Case 10: a cursor at an uncached d that is in the table: d empty, null",
         "object %s %s" % ("d1" * 20, raw(("100644", "f", B))), "new " + raw(("40000", "d", "d1" * 20)), "cursor " + h("d"),
         up("g", at=h("d")), "finish " + h("d"), "finish .")
    answers = ["answer " + x * 20 for x in ("a1", "a2", "a3", "a4")]
    case("case-11-first", "Case 11: requests q, p/s, p, root", *pq("p/f", "q/f", "p/s/f"), "begin .", *answers)
    case("case-11-second", "Case 11 with q/r: q/r, p, q, root", *pq("p/f", "q/f", "q/r/f"), "begin .", *answers)
    case("case-12", "Case 12: the host fails at p/s: root keeps q's new id and p's old one",
         *pq("p/f", "q/f", "p/s/f"), "begin .", answers[0], "fail", "show")


def pq(*paths):
    ids = "0a" * 20, "0b" * 20
    return ["object %s -" % ids[0], "object %s -" % ids[1],
            "new " + raw(("40000", "p", ids[0]), ("40000", "q", ids[1]))] + [up(p) for p in paths]


def paths():
    case("edge-names", "Names of 255 pass, 256 don't", "new -", up("n" * 255), up("n" * 256), "get . " + h("n" * 255),
         "get . " + h("n" * 256))
    case("edge-paths", "Paths of 1,024 pass, 1,025 don't; a zero-byte path below a prefix of 1,024 does nothing",
         "new -", "dump sum", up(path(1024)), up(path(1025)), "cursor " + h(path(1024)), "get . " + h(path(1024)),
         "get . " + h(path(1025)), up("", at=h(path(1024))), up("x", at=h(path(1024))), "show")
    at = h(path(1000))
    case("edge-prefix", "A prefix of 1,000 with a path of 23 makes 1,024; with 24 it is refused",
         "new -", "dump sum", "cursor " + at, up("x" * 23, at=at), up("x" * 24, at=at), "get %s %s" % (at, h("x" * 23)),
         "get %s %s" % (at, h("x" * 24)), "show", "finish .")


def limits():
    case("edge-trees", "The 65th tree gives 5 and changes nothing; freed room is used again",
         "new -", "dump sum", *["cursor " + h("t%02d" % k) for k in range(63)], "cursor " + h("u"), up("u/f"), up("u//"),
         up("v", "40000", "22" * 20), up("v/f"), up("t00/f"), "finish .", "cursor " + h("u"), "show")
    full = raw(*[("100644", "%04d" % k, B) for k in range(1020)])
    few = raw(("100644", "x", B), ("100644", "y", B))
    case("edge-entries", "1,024 entries pass, 1,025 don't, even where the removal's last step would make room again",
         "dump sum", "object %s %s" % ("d1" * 20, full), "object %s %s" % ("d2" * 20, few),
         "new " + raw(("40000", "a", "d1" * 20), ("40000", "b", "d2" * 20)), up("a/x"), "remove . " + h("b/x"),
         "leaf . " + h("b/x"), "remove . " + h("a/x"), "remove . " + h("b/x"), up("a/x"), up("a/y"), up("a/z"), up("a/z/"),
         up("a/x", "40000"), "remove . " + h("a/0000"), up("a/z"))
    long = raw(*[("100644", "%02d" % k + "n" * 253, B) for k in range(64)])
    case("edge-name-bytes", "16,384 name bytes pass, 16,385 don't", "dump sum", "new " + long, up("x" * 65), up("x" * 64),
         up("y"), "cursor " + h("y"), up("x" * 64, "40000"), "remove . " + h("x" * 64), up("y" * 32), up("z" * 32), up("a"))
    chain = ["cursor " + h("/".join([c * 255] + ["n" * 255] * 3)) for c in "abc"]
    case("edge-path-bytes", "8,192 path bytes pass, 8,193 don't", "dump sum", "new -", *chain, "cursor " + h("p" * 255),
         "cursor " + h("q" * 255), "cursor " + h("r" * 15), "cursor " + h("r" * 14), "cursor " + h("s"), up("s/"), up("s"),
         "finish .", "cursor " + h("s"))


def orders():
    at, bad = h("x"), "a\0b"
    case("order", "13 first, then 9 or 10, 7, 8, 6; a refused `new` leaves an open write alone",
         "get . " + h("a"), "read 0", "answer " + B, "fail", "setroot 61", "begin " + h("a"), up(bad, at=at), "new 61", "new -",
         up(bad, at=at), "table 01 - -", up(bad, at=at), "begin " + at, "begin .", up(bad, at=at), "setroot 61",
         "begin " + at, "read 0", "get %s %s" % (at, h(bad)), "new 61", "read 0", "new -", "read 0")
    case("tables", "Bad tables; bytes past the last offset are allowed; the first equal id counts",
         "new " + raw(("40000", "a", "01" * 20)), "table %s 0,0 -" % ("01" * 20), up("a/b"), "table %s - -" % ("01" * 20),
         up("a/b"), "table %s 1 -" % ("01" * 20), up("a/b"), "table %s 4,3 00000000" % ("01" * 40), up("a/b"), up(""),
         "table %s 0,29 %s" % ("01" * 40, raw(("100644", "b", B)) + "ff"), up("a/c"))
    case("empty-components", "Empty components are judged on arrival; a zero-byte path does nothing",
         "new -", "remove . " + h("x//y"), up("/a"), "leaf . " + h("/"), up("a", "40000", E), "leaf . " + h("a//b"),
         "remove . " + h("a//b"), up(""), "remove . -", "leaf . -", "cursor -", "get . -", "get . " + h("/"),
         "get . " + h("a/"))


def damage():
    trees = [
        raw(("100644", "a", B), ("100644", "a.c", B), ("40000", "a", B)), raw(("100644", "a", B), ("40000", "a", B)),
        raw(("40000", "a", B), ("100644", "a.c", B)), raw(("100644", "b", B), ("100644", "a", B)),
        raw(("100644", "a", B), ("100644", "a", B)), raw(("100644", b"\xc3\xa9", B), ("100644", "z", B)),
        raw(("040000", "a", B)), raw(("100664", "a", B)), raw(("", "a", B)), raw(("100644", "", B)), raw(("100644", "a/b", B)),
        raw(("100644", "n" * 256, B)), raw(("100644", "a", B))[:-2], raw(("100644", "a", B)) + "31", "00", h("100644 a"),
        raw(("100644", "a", B), ("100644", "a.c", B), ("40000", "a", B), ("100644", "b", B)),
    ]
    good = [raw(("100644", "a.c", B), ("40000", "a", B)), raw(("100644", "n" * 255, B)), raw(("160000", b"\xff", N)), "-",
            raw(("100644", "a", N), ("100644", "a.c", E), ("40000", "a0", N), ("120000", "b", B), ("100755", "c", B))]
    for k, tree in enumerate(trees + good):
        ident = "%040x" % (k + 1)
        case("tree-%d" % k, "A %s tree as a root and from the table" % ("damaged" if k < len(trees) else "good"),
             "object %s %s" % (ident, tree), "new " + tree, "new " + raw(("40000", "d", ident)), "setroot " + tree,
             "setroot " + raw(("40000", "d", ident)), up("d/x"), "finish .")


def writes():
    case("answers", "An answered null id is dropped with its parent's null entries; a parent left empty is not requested",
         "new -", up("a/b/c"), "begin .", "answer " + N, "answer " + E, "show", up("a/b/c"), "begin " + h("a"), "answer " + E,
         "answer " + E, "show")
    case("nulls", "Null entries go when their tree is finished, set aside or not; a failure before that leaves the start's",
         "new -", up("a", ident=N), up("b/c"), up("b/n", ident=N), up("b/d/e"), up("q/n", ident=N), "begin .", "fail", "show",
         up("b/n", ident=N), up("b/d/e"), "begin .", "answer " + B, "answer " + B, "fail", "show")
    case("left-over", "A cached tree outlives its entry; a write from the root drops it, a cursor's keeps it",
         "new -", up("a/b"), up("a"), "get . " + h("a/b"), "get %s %s" % (h("a"), h("b")), up("c", at=h("a")), "finish -", "finish " + h("a"),
         "finish .", "get %s %s" % (h("a"), h("b")))
    case("output", "Output short by one; other calls while a request is open", "new -", up("a"), "begin .", "read 0", "read 27",
         "read 28", "read 29", up("b"), "remove . " + h("a"), "leaf . " + h("a"), "cursor " + h("a"), "get . " + h("a"),
         "setroot -", "begin .", "begin " + h("x"), "finish .", "answer " + B, "answer " + B, "fail", "read 0")


def comments():
    """Where the original's comments say other than its code (docs/DIFFERENCES.md)."""
    d = "d1" * 20
    loaded = ["object %s %s" % (d, raw(("100644", "b", B))), "new " + raw(("40000", "a", d))]
    case("comment-empty-string", "An empty component is refused; no component stands at the root", "new -", "cursor " + h("/"),
         "cursor -")
    case("comment-null", "A path through a null placeholder looks the null id up", "new -", up("a", "40000", N), up("a/b"))
    case("comment-only-changed", "A loaded tree is requested though nothing in it was changed", *loaded,
         "remove . " + h("a/x"), "begin .")
    case("comment-created", "A tree that the table lacks is not created", "new " + raw(("40000", "a", d)), up("a/b"))
    case("comment-once", "After a write a tree is looked up again", *loaded, "remove . " + h("a/x"), "begin .", "answer " + d,
         "answer " + d, "table - - -", "remove . " + h("a/x"))
    case("comment-root-remains", "After a cursor's write trees beside it stay", "new -", up("a/b"), up("b/c"), "finish " + h("a"),
         "get . " + h("b/c"))


if __name__ == "__main__":
    twelve()
    paths()
    limits()
    orders()
    damage()
    writes()
    comments()

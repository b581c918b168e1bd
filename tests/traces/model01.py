#!/usr/bin/env python3
"""The rules (docs/RULES.md) read as a program.

Written from the rules, not from the Rust: a tree is a map from names to (mode, id) that is
put in Git's order when it is written down. Speaks the trace protocol (tests/oracle/PROTOCOL.md) on standard input and output;
with --small it is the small program. Options: --brief (no dumps), --small.
"""
import hashlib
import sys
import zlib

TREE = 0o40000
MODES = {b"40000": 0o40000, b"100644": 0o100644, b"100755": 0o100755, b"120000": 0o120000, b"160000": 0o160000}
NULL = bytes(20)
EMPTY_TREE = hashlib.sha1(b"tree 0\0").digest()

MAX_TREES, MAX_ENTRIES, MAX_NAMES, MAX_PATHS, MAX_PATH, MAX_NAME = 64, 1024, 16384, 8192, 1024, 255

(DONE, EMPTY_COMPONENT, TREE_NOT_FOUND, TREE_DAMAGED, NOT_A_LEAF, NO_ROOM, PATH_REFUSED, BAD_TABLE, CURSOR_STALE,
 WRITE_OPEN, NO_WRITE_OPEN, OUTPUT_SHORT, BAD_ROOT, STORE_DAMAGED) = range(14)


class Tree:
    """Entries by name; `names` is the sum of their lengths."""

    __slots__ = ("by_name", "names")

    def __init__(self, by_name=(), names=0):
        self.by_name = dict(by_name)
        self.names = names

    def copy(self):
        return Tree(self.by_name, self.names)

    def put(self, name, mode, ident):
        if name not in self.by_name:
            self.names += len(name)
        self.by_name[name] = (mode, ident)

    def drop(self, name):
        del self.by_name[name]
        self.names -= len(name)

    def without_null(self):
        kept = {n: e for n, e in self.by_name.items() if e[1] != NULL}
        return Tree(kept, sum(map(len, kept)))

    def entries(self):
        """(mode, name, id) in Git's order: unsigned bytes, a tree as if a slash followed its name."""
        return sorted(((m, n, i) for n, (m, i) in self.by_name.items()), key=lambda e: order_key(e[0], e[1]))

    def raw(self):
        return b"".join(b"%o %s\0%s" % e for e in self.entries())


def order_key(mode, name):
    return name + b"/" if mode == TREE else name


def read_raw(raw):
    """The tree of a raw form, or None where the bytes are not a well-formed tree."""
    tree, last, at = Tree(), None, 0
    while at < len(raw):
        space = raw.find(b" ", at)
        nul = raw.find(b"\0", space + 1)
        if space < 0 or nul < 0 or nul + 21 > len(raw):
            return None
        mode, name, ident = MODES.get(raw[at:space]), raw[space + 1:nul], raw[nul + 1:nul + 21]
        if mode is None or not name or len(name) > MAX_NAME or b"/" in name or name in tree.by_name:
            return None
        key = order_key(mode, name)
        if last is not None and key <= last:
            return None
        tree.put(name, mode, ident)
        last, at = key, nul + 21
    return tree


def room(cache):
    """(trees, entries, name bytes, path bytes) of what is present."""
    return (len(cache), sum(len(t.by_name) for t in cache.values()), sum(t.names for t in cache.values()),
            sum(map(len, cache)))


def fits(cache):
    t, e, n, p = room(cache)
    return t <= MAX_TREES and e <= MAX_ENTRIES and n <= MAX_NAMES and p <= MAX_PATHS


def split(path):
    return path.split(b"/") if path else []


def below(path, name):
    return path + b"/" + name if path else name


def refused(prefix, path):
    """Number 6; a zero-byte path adds no slash to its prefix."""
    whole = below(prefix, path) if path else prefix
    return b"\0" in path or len(whole) > MAX_PATH or any(len(c) > MAX_NAME for c in split(path))


class Table:
    """Three slices: ids end to end, end offsets, raw trees end to end."""

    def __init__(self):
        self.ids, self.ends, self.raws = b"", [], b""

    def add(self, ident, raw):
        self.ids += ident
        self.raws += raw
        self.ends = self.ends + [len(self.raws)]

    def good(self):
        return (len(self.ids) == 20 * len(self.ends) and all(a <= b for a, b in zip(self.ends, self.ends[1:]))
                and (not self.ends or self.ends[-1] <= len(self.raws)))

    def find(self, ident):
        for k, end in enumerate(self.ends):
            if self.ids[20 * k:20 * k + 20] == ident:
                return self.raws[self.ends[k - 1] if k else 0:end]
        return None


class Write:
    """An open write: where it starts, what is stacked and set aside, and the request."""

    def __init__(self, start, from_root, cache):
        self.start, self.from_root = start, from_root
        self.cache = dict(cache)  # trees not taken
        self.stack = [(start, self.cache.pop(start))]
        self.aside = []
        self.asked = None

    def parent_of(self, path):
        cut = path.rfind(b"/")
        parent = path[:cut] if cut >= 0 else b""
        return next(t for p, t in self.aside if p == parent), path[cut + 1:]

    def scan(self, path, tree):
        """Take the cached trees under this tree's tree entries, in entry order."""
        kids = []
        for mode, name, _ in tree.entries():
            if mode == TREE and below(path, name) in self.cache:
                kids.append((below(path, name), self.cache.pop(below(path, name))))
        return kids

    def go_on(self):
        """To the next request. There is always one, the start tree's at the latest."""
        while True:
            if self.stack:
                path, tree = self.stack.pop()
                kids = self.scan(path, tree)
                if kids:
                    self.stack += kids
                    self.aside.append((path, tree.copy()))
                    continue
            else:
                path, tree = self.aside.pop()
            tree = tree.without_null()
            if path == self.start or tree.by_name:
                self.asked = (path, tree)
                return
            parent, name = self.parent_of(path)
            parent.drop(name)

    def answer(self, ident):
        """The last answer, or None where another request follows."""
        path, _ = self.asked
        if path == self.start:
            return ident
        parent, name = self.parent_of(path)
        parent.put(name, TREE, ident)
        self.go_on()
        return None

    def after_success(self):
        kept = {} if self.from_root else dict(self.cache)
        kept[self.start] = self.asked[1]
        return kept

    def after_failure(self):
        kept = dict(self.cache)
        kept[self.start] = self.asked[1] if self.asked[0] == self.start else self.aside[0][1]
        return kept


class Session:
    """One editor with its table. `cache` is None where the store holds no editor. Answers are numbers, or what is said."""

    def __init__(self):
        self.table, self.cache, self.write = Table(), None, None

    # roots
    def root(self, raw):
        tree = read_raw(raw)
        if tree is None:
            return BAD_ROOT
        if not fits({b"": tree}):
            return NO_ROOM
        self.cache, self.write = {b"": tree}, None
        return DONE

    def new(self, raw):
        return self.root(raw)

    def set_root(self, raw):
        return self.closed() or self.root(raw)

    def closed(self):
        """Refusals of every call that is not a write's own."""
        if self.cache is None:
            return STORE_DAMAGED
        return WRITE_OPEN if self.write else DONE

    def opened(self):
        """Refusals of a write's own calls."""
        if self.cache is None:
            return STORE_DAMAGED
        return DONE if self.write else NO_WRITE_OPEN

    def edit(self, kind, prefix, path, mode=TREE, ident=NULL):
        """kind: upsert, remove, leaf or cursor. prefix None: the editor itself."""
        number = self.closed()
        if number:
            return number
        if not self.table.good():
            return BAD_TABLE
        if prefix is not None and prefix not in self.cache:
            return CURSOR_STALE
        if refused(prefix or b"", path):
            return PATH_REFUSED
        cache = dict(self.cache)
        number = self.walk(cache, kind, prefix or b"", split(path), mode, ident)
        if number != NO_ROOM:
            self.cache = cache
        return number

    def walk(self, cache, kind, at, names, mode, ident):
        for k, name in enumerate(names):
            if not name:
                return EMPTY_COMPONENT
            last = k == len(names) - 1
            number, down, look_up = self.step(cache, kind, at, name, last, mode, ident)
            if number or not down:
                return number if number or fits(cache) else NO_ROOM
            number, at = self.go_down(cache, kind, below(at, name), look_up)
            if number or at is None:
                return number
            if not fits(cache):
                return NO_ROOM
        return DONE

    @staticmethod
    def step(cache, kind, at, name, last, mode, ident):
        """The change at one component: (number, whether the walk goes down, id given for loading)."""
        found = cache[at].by_name.get(name)
        if kind in ("remove", "leaf"):
            if found is None or (not last and found[0] != TREE):
                return DONE, False, None
            if not last:
                return DONE, True, found[1]
            if kind == "leaf" and found[0] == TREE:
                return NOT_A_LEAF, False, None
            cache[at] = cache[at].copy()
            cache[at].drop(name)
            return DONE, False, None
        if not last and found is not None and found[0] == TREE:
            return DONE, True, found[1]
        cache[at] = cache[at].copy()
        if last:
            cache[at].put(name, mode, ident)
        else:
            cache[at].put(name, TREE, NULL)
        return DONE, not last or kind == "cursor", None

    def go_down(self, cache, kind, path, look_up):
        """(number, path of the tree below or None where the walk stops)."""
        if path in cache:
            return DONE, path
        if look_up == EMPTY_TREE and kind == "leaf":
            return DONE, None
        if look_up is None or look_up == EMPTY_TREE:
            cache[path] = Tree()
            return DONE, path
        raw = self.table.find(look_up)
        if raw is None:
            return TREE_NOT_FOUND, None
        tree = read_raw(raw)
        if tree is None:
            return TREE_DAMAGED, None
        cache[path] = tree
        return DONE, path

    def get(self, prefix, path):
        """A number, None where nothing is found, or (mode, id)."""
        number = self.closed()
        if number:
            return number
        if prefix is not None and prefix not in self.cache:
            return CURSOR_STALE
        if refused(prefix or b"", path):
            return PATH_REFUSED
        at, entry = prefix or b"", None
        for k, name in enumerate(split(path)):
            if k:
                at = below(at, split(path)[k - 1])
                if entry[0] != TREE or at not in self.cache:
                    return None
            entry = self.cache[at].by_name.get(name)
            if entry is None:
                return None
        return entry

    # writes
    def begin(self, prefix):
        number = self.closed()
        if number:
            return number
        if prefix is not None and prefix not in self.cache:
            return CURSOR_STALE
        self.write = Write(prefix or b"", prefix is None, self.cache)
        self.write.go_on()
        return DONE

    def answer(self, ident):
        """A number; DONE with the write still open means that another request follows."""
        number = self.opened()
        if number:
            return number
        if self.write.answer(ident) is not None:
            self.cache, self.write = self.write.after_success(), None
        return DONE

    def fail(self):
        number = self.opened()
        if number:
            return number
        self.cache, self.write = self.write.after_failure(), None
        return DONE


# The protocol

def out_hex(b):
    return b.hex() if b else "-"


def in_hex(s):
    return b"" if s == "-" else bytes.fromhex(s)


def in_prefix(s):
    return None if s == "." else in_hex(s)


def dump(cache, label, shown):
    """shown: `on` for all lines, `sum` for their Adler-32, `off` for the counts alone."""
    out = [" %s trees=%d entries=%d names=%d paths=%d" % ((label,) + room(cache))]
    if shown == "off":
        return out
    lines = []
    for path in sorted(cache):
        lines.append("  tree %s %d" % (out_hex(path), len(cache[path].by_name)))
        lines += ["   %o %s %s" % (m, out_hex(n), i.hex()) for m, n, i in cache[path].entries()]
    if shown == "sum":
        lines = ["  sum %08x" % zlib.adler32("".join(line + "\n" for line in lines).encode())]
    return out + lines


class Speaker:
    """Turns lines of the protocol into calls and answers into lines."""

    SILENT = ("trace", "object", "table", "read", "dump", "decode", "sort")

    def __init__(self, brief=False):
        self.s, self.shown, self.brief = Session(), "on", brief

    def line(self, line):
        words = line.split()
        if not words or words[0].startswith("#"):
            return []
        out = getattr(self, "do_" + words[0])(line, *words[1:])
        if words[0] == "show" or (words[0] not in self.SILENT and not self.brief):
            out += self.state("on" if words[0] == "show" else self.shown)
        return out

    def state(self, shown):
        if self.s.write:
            return dump(self.s.write.after_failure(), "if-fail", shown)
        return [" no editor"] if self.s.cache is None else dump(self.s.cache, "state", shown)

    @staticmethod
    def says(line, answer):
        return ["%s => %s" % (line, answer)]

    def do_trace(self, line, *_):
        self.s, self.shown = Session(), "on"
        return [line]

    def do_show(self, line):
        return ["show"]

    def do_dump(self, line, switch):
        self.shown = switch
        return []

    def do_object(self, line, ident, raw):
        self.s.table.add(in_hex(ident), in_hex(raw))
        return []

    def do_table(self, line, ids, ends, raws):
        t = self.s.table
        t.ids, t.raws = in_hex(ids), in_hex(raws)
        t.ends = [] if ends == "-" else [int(e) for e in ends.split(",")]
        return []

    def do_new(self, line, raw):
        return self.says(line, self.s.new(in_hex(raw)))

    def do_setroot(self, line, raw):
        return self.says(line, self.s.set_root(in_hex(raw)))

    def do_upsert(self, line, prefix, path, mode, ident):
        return self.says(line, self.s.edit("upsert", in_prefix(prefix), in_hex(path), MODES[mode.encode()],
                                           in_hex(ident)))

    def do_remove(self, line, prefix, path):
        return self.says(line, self.s.edit("remove", in_prefix(prefix), in_hex(path)))

    def do_leaf(self, line, prefix, path):
        return self.says(line, self.s.edit("leaf", in_prefix(prefix), in_hex(path)))

    def do_cursor(self, line, path):
        return self.says(line, self.s.edit("cursor", None, in_hex(path)))

    def do_get(self, line, prefix, path):
        got = self.s.get(in_prefix(prefix), in_hex(path))
        if got is None:
            return self.says(line, "none")
        return self.says(line, got if isinstance(got, int) else "0 %o %s" % (got[0], got[1].hex()))

    def after_step(self, line, number, ident):
        if number:
            return self.says(line, number)
        if self.s.write:
            path, tree = self.s.write.asked
            return self.says(line, "0 request %s %s" % (out_hex(path), out_hex(tree.raw())))
        return self.says(line, "0 done " + ident)

    def do_begin(self, line, prefix):
        return self.after_step(line, self.s.begin(in_prefix(prefix)), None)

    def do_answer(self, line, ident):
        return self.after_step(line, self.s.answer(in_hex(ident)), ident)

    def do_fail(self, line):
        return self.says(line, self.s.fail())

    def do_read(self, line, n):
        number = self.s.opened()
        if number:
            return self.says(line, number)
        path, tree = self.s.write.asked
        raw = tree.raw()
        if int(n) < len(raw):
            return self.says(line, "11 %d" % len(raw))
        return self.says(line, "0 %s %s" % (out_hex(path), out_hex(raw)))

    def do_finish(self, line, prefix, keep=None):
        out, number, ident = [], self.s.begin(in_prefix(prefix)), None
        while not number and self.s.write:
            path, tree = self.s.write.asked
            raw = tree.raw()
            ident = hashlib.sha1(b"tree %d\0" % len(raw) + raw).digest()
            out.append(" wrote %s %s %s" % (out_hex(path), out_hex(raw), ident.hex()))
            if keep == "keep":
                self.s.table.add(ident, raw)
            number = self.s.answer(ident)
        return out + self.says(line, number or "0 done " + ident.hex())

    def do_decode(self, line, raw):
        tree = read_raw(in_hex(raw))
        if tree is None:
            return ["decode damaged"]
        shown = ["%o:%s:%s" % (m, out_hex(n), i.hex()) for m, n, i in tree.entries()]
        return [" ".join(["decode", str(len(shown))] + shown)]

    def do_sort(self, line, *entries):
        tree = Tree()
        for e in entries:
            mode, name, ident = e.split(":")
            tree.put(in_hex(name), MODES[mode.encode()], in_hex(ident))
        raw = tree.raw()
        return ["sort %s %s" % (out_hex(raw), hashlib.sha1(b"tree %d\0" % len(raw) + raw).hexdigest())]


# The small program

def small_hex(b):
    """Lower-case hex, two digits a byte; None for anything else."""
    if len(b) % 2 or any(c not in b"0123456789abcdef" for c in b):
        return None
    return bytes.fromhex(b.decode())


def small_records(text):
    """(records, None), or (None, N) with the number of the first line that breaks the form."""
    if len(text) > 65536:
        return None, 0
    lines = text.split(b"\n")
    unended = lines.pop()
    records, n = [], 0
    while n < len(lines) or (unended and n == len(lines)):
        op = path = kind = ident = None
        for key in (b"op=", b"path=", b"kind=", b"id="):
            n += 1
            if n > len(lines) or not lines[n - 1].startswith(key):
                return None, n
            value = lines[n - 1][len(key):]
            if key == b"op=":
                op = value if value in (b"upsert", b"remove", b"leaf") else None
                good = op is not None
            elif key == b"path=":
                path = small_hex(value)
                good = path is not None
            elif op != b"upsert":
                good = value == b""
            elif key == b"kind=":
                kind = MODES.get(value)
                good = kind is not None
            else:
                ident = small_hex(value)
                good = ident is not None and len(ident) == 20
            if not good:
                return None, n
        records.append((op.decode(), path, kind, ident))
    return records, None


def small(text):
    """The small program's output for this input."""
    records, bad = small_records(text)
    if records is None:
        return b"bad=%d\n" % bad
    s, out = Session(), []
    s.new(b"")
    for k, (op, path, kind, ident) in enumerate(records):
        number = s.edit(op, None, path, kind, ident)
        if number:
            out.append("edit=%d\ncode=%d\n" % (k + 1, number))
    s.begin(None)
    k = 0
    while s.write:
        path, tree = s.write.asked
        out.append("tree=%s\nraw=%s\n" % (path.hex(), tree.raw().hex()))
        k += 1
        s.answer(k.to_bytes(20, "big"))
    out.append("root=%040x\n" % k)
    return "".join(out).encode()


def main(args):
    if "--small" in args:
        sys.stdout.buffer.write(small(sys.stdin.buffer.read(65537)))
        return
    speaker = Speaker("--brief" in args)
    for line in sys.stdin:
        for out in speaker.line(line.rstrip("\n")):
            sys.stdout.write(out + "\n")


if __name__ == "__main__":
    main(sys.argv[1:])

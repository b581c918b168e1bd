"""Makes stores for tests/stores/stores.py: good ones of many shapes, with and without an open write, and damaged ones.

Everything is drawn from a seed. An `Editor` here is the trees by slot and the lists of an open write; `lay` writes it as a
store, with true counts and random spare bytes. Damage is done to the editor, before it is laid out, where one rule alone is to
be broken; or to the laid out bytes, words and fields. What a damaged store is then worth is for the check to say: some stay good.
"""
import random

from stores import COMPONENT, ENTRIES, ID, NAMES, PATH, PATHS, SLOTS, TREES, Store

WORD = 1 << 64
KINDS = range(5)
NOT_IN_NAMES = (0, 47)
NAME_BYTES = bytes(b for b in range(256) if b not in NOT_IN_NAMES)
FAMILY = [b"a", b"a.", b"a.c", b"a-", b"a0", b"ab", b"a\x01", b"a..", b"a\xff", b"b", b"A", b"\xc3\xa9", b"z", b"a.b", b"a0b"]


def key(entry):
    """What Git's order compares of an entry (kind, name, id)."""
    return entry[1] + b"/" if entry[0] == 0 else entry[1]


class Editor:
    """Trees by slot, [path, entries] or None for a free one, and an open write's slots."""

    def __init__(self):
        self.slots = [None] * SLOTS
        self.open, self.aside, self.stacked, self.asked = 0, [], [], 0

    def copy(self):
        e = Editor()
        e.slots = [t and [t[0], list(t[1])] for t in self.slots]
        e.open, e.aside, e.stacked, e.asked = self.open, list(self.aside), list(self.stacked), self.asked
        return e

    def used(self):
        return [k for k in range(SLOTS) if self.slots[k]]

    def filled(self):
        return [k for k in self.used() if self.slots[k][1]]

    def taken(self):
        return self.aside + self.stacked + [self.asked] if self.open else []

    def root(self):
        return next((k for k in self.used() if self.slots[k][0] == b""), None)

    def entries(self):
        return sum(len(self.slots[k][1]) for k in self.used())

    def names(self):
        return sum(len(e[1]) for k in self.used() for e in self.slots[k][1])


def spare(rnd, n):
    """Spare bytes: random, or all alike."""
    return rnd.randbytes(n) if rnd.random() < 0.8 else bytes([rnd.choice((0, 47, 97, 255))]) * n


def spare_words(rnd, n):
    return [rnd.choice((0, rnd.randrange(SLOTS), rnd.getrandbits(64))) for _ in range(n)]


def pack(entries):
    return b"".join(bytes((e[0], len(e[1]))) + e[2] + e[1] for e in entries)


def lay(rnd, ed, longer=False):
    """The editor as a store. The slices are longer than needed where that is asked, or where the bytes do not fit."""
    s = Store()
    paths = [t[0] if t else b"" for t in ed.slots]
    trees = [pack(t[1]) if t else b"" for t in ed.slots]
    more = [rnd.choice((0, 1, rnd.randrange(65))) if longer else 0 for _ in range(3)]
    room = [rnd.choice((0, 1, rnd.randrange(513))) if longer else 0 for _ in range(2)]
    joined = b"".join(paths)
    s.paths = bytearray(joined + spare(rnd, max(PATHS + room[0] - len(joined), 0)))
    s.plens = [len(p) for p in paths] + spare_words(rnd, more[0])
    joined = b"".join(trees)
    s.trees = bytearray(joined + spare(rnd, max(TREES + room[1] - len(joined), 0)))
    s.tlens = [len(t) for t in trees] + spare_words(rnd, more[1])
    aside, stacked = (ed.aside, ed.stacked) if ed.open else ([], [])
    middle = max(SLOTS - len(aside) - len(stacked), 0)
    s.order = list(aside) + spare_words(rnd, middle) + list(stacked) + spare_words(rnd, more[2])
    s.free = sum(1 << k for k in range(SLOTS) if not ed.slots[k])
    s.hidden = s.free
    for k in ed.taken():
        s.hidden |= 1 << k
    s.used_paths, s.used_trees = sum(map(len, paths)), sum(map(len, trees))
    s.entries, s.names = ed.entries(), ed.names()
    s.open, s.aside, s.stacked, s.asked = ed.open, len(aside), len(stacked), ed.asked if ed.open else 0
    return s


# Good editors.

def some_name(rnd, length=None):
    if length is None:
        draw = rnd.random()
        if draw < 0.4:
            return rnd.choice(FAMILY)
        if draw < 0.6:
            return b"n" * 12 + b"%04d" % rnd.randrange(10000)
        length = COMPONENT if draw > 0.99 else rnd.randrange(1, 24)
    if rnd.random() < 0.3:
        return bytes(rnd.choice(b"ab.-0") for _ in range(length))
    return bytes(rnd.choice(NAME_BYTES) for _ in range(length))


def some_path(rnd, length):
    """A valid path of just so many bytes."""
    parts = []
    while length > COMPONENT or (length > 2 and rnd.random() < 0.5):
        n = rnd.randrange(1, min(COMPONENT, length - 2) + 1)
        parts.append(some_name(rnd, n))
        length -= n + 1
    return b"/".join(parts + [some_name(rnd, length)])


def some_id(rnd):
    return bytes(ID) if rnd.random() < 0.1 else rnd.randbytes(ID)


def join(parent, name):
    return parent + b"/" + name if parent else name


class Plan:
    """An editor in the making: trees by path, {name: (kind, id)}, and what room is left."""

    def __init__(self, rnd):
        self.rnd, self.trees = rnd, {}
        self.slots, self.entries, self.names, self.paths = SLOTS, ENTRIES, NAMES, PATHS

    def add_tree(self, path):
        if path in self.trees or not self.slots or len(path) > min(PATH, self.paths):
            return False
        self.trees[path] = {}
        self.slots -= 1
        self.paths -= len(path)
        return True

    def add_entry(self, path, name, kind):
        if name in self.trees[path] or not self.entries or len(name) > self.names:
            return False
        self.trees[path][name] = (kind, some_id(self.rnd))
        self.entries -= 1
        self.names -= len(name)
        return True

    def add_below(self, parent):
        """A new tree one component below another, with its tree entry; None where there is no room."""
        for _ in range(20):
            name = some_name(self.rnd)
            path = join(parent, name)
            if self.entries and len(name) <= self.names and name not in self.trees[parent] and self.add_tree(path):
                self.add_entry(parent, name, 0)
                return path
        return None


def plan_write(rnd, plan, size):
    """Takes trees for a write: (open, paths set aside, paths stacked, path requested)."""
    start = b"" if rnd.random() < 0.6 else some_path(rnd, rnd.choice((1, 3, 20, 300)))
    plan.add_tree(start)
    if start:
        plan.add_tree(b"")
    opened = 2 if start or rnd.random() < 0.3 else 1
    if size == 0:
        return opened, [], [], start
    aside = [start]
    deep = rnd.random() < 0.3
    for _ in range(rnd.randrange(size)):
        path = plan.add_below(aside[-1] if deep else rnd.choice(aside))
        if path is not None:
            aside.append(path)
    below = []
    for _ in range(1 + rnd.randrange(size)):
        path = plan.add_below(rnd.choice(aside))
        if path is not None:
            below.append(path)
    if not below:
        if len(aside) < 2:
            return opened, [], [], start
        below = [aside.pop()]
    rnd.shuffle(below)
    return opened, parents_first(rnd, aside), below[1:], below[0]


def parents_first(rnd, aside):
    """Any order in which each tree set aside comes after the one that it lies below."""
    left, out = list(aside[1:]), [aside[0]]
    while left:
        ready = [p for p in left if p.rpartition(b"/")[0] in out]
        out.append(rnd.choice(ready or left[:1]))
        left.remove(out[-1])
    return out


def fill_few(rnd, plan):
    for path in list(plan.trees):
        for _ in range(rnd.randrange(6)):
            plan.add_entry(path, some_name(rnd), rnd.choice(KINDS))


def fill_shared(rnd, plan):
    """Sixteen entries a tree, with names of 16 bytes that share twelve."""
    for path in list(plan.trees):
        for n in rnd.sample(range(10000), 16):
            plan.add_entry(path, b"n" * 12 + b"%04d" % n, rnd.choice((0, 1, 1, 2)))


def fill_up(rnd, plan, trees=None):
    """Entries and name bytes up to the last one."""
    trees = trees or list(plan.trees)
    mean, rest = divmod(plan.names, plan.entries)
    lengths = [min(mean + (j < rest), COMPONENT) for j in range(plan.entries)]
    for _ in range(len(lengths)):
        a, b = rnd.randrange(len(lengths)), rnd.randrange(len(lengths))
        by = rnd.randrange(max(min(lengths[a] - 2, COMPONENT - lengths[b], 2 * mean), 0) + 1)
        lengths[a] -= by
        lengths[b] += by
    for n in lengths:
        while not plan.add_entry(rnd.choice(trees), some_name(rnd, n), rnd.choice(KINDS)):
            pass


def fill_long(rnd, plan):
    """Names as long as they may be, to the last name byte."""
    for _ in range(200):
        if plan.names:
            plan.add_entry(rnd.choice(list(plan.trees)), some_name(rnd, min(COMPONENT, plan.names)), rnd.choice(KINDS))


def add_many(rnd, plan, n):
    for _ in range(n):
        parent = rnd.choice(list(plan.trees))
        if rnd.random() < 0.5:
            plan.add_below(parent)
        else:
            plan.add_tree(join(parent, some_name(rnd)))


def add_long_paths(rnd, plan):
    """Paths to the last path byte, some of 1,024."""
    while plan.slots and plan.paths:
        n = plan.paths if plan.slots == 1 or plan.paths < 12 else rnd.choice((PATH, plan.paths // plan.slots + 1, rnd.randrange(1, 300)))
        if not plan.add_tree(some_path(rnd, min(n, PATH, plan.paths))) and plan.paths < 12:
            return


SHAPES = {
    "bare": lambda rnd, p: None,
    "few": lambda rnd, p: (add_many(rnd, p, rnd.randrange(6)), fill_few(rnd, p)),
    "many": lambda rnd, p: (add_many(rnd, p, rnd.randrange(80)), fill_few(rnd, p)),
    "shared": lambda rnd, p: (add_many(rnd, p, 64), fill_shared(rnd, p)),
    "full": lambda rnd, p: (add_many(rnd, p, rnd.randrange(80)), fill_up(rnd, p)),
    "one": lambda rnd, p: fill_up(rnd, p, [b""]),
    "long": lambda rnd, p: (add_many(rnd, p, rnd.randrange(9)), fill_long(rnd, p)),
    "paths": lambda rnd, p: (add_long_paths(rnd, p), fill_few(rnd, p)),
}
WEIGHTS = {"bare": 2, "few": 8, "many": 5, "shared": 1, "full": 1, "one": 1, "long": 1, "paths": 2}


def good_editor(rnd, shape, write):
    plan = Plan(rnd)
    opened, aside, stacked, asked = plan_write(rnd, plan, rnd.choice((0, 1, 2, 4, 8, 40))) if write else (0, [], [], b"")
    plan.add_tree(b"")
    SHAPES[shape](rnd, plan)
    ed = Editor()
    at = dict(zip(plan.trees, rnd.sample(range(SLOTS), len(plan.trees)) if rnd.random() < 0.8 else range(SLOTS)))
    for path, entries in plan.trees.items():
        ed.slots[at[path]] = [path, sorted(((k, n, i) for n, (k, i) in entries.items()), key=key)]
    if write:
        ed.open, ed.aside, ed.stacked, ed.asked = opened, [at[p] for p in aside], [at[p] for p in stacked], at[asked]
    return ed


# Damage to the editor: each takes (rnd, editor) and gives a changed editor, or None where it has nothing to change.

def pick(rnd, items):
    items = list(items)
    return rnd.choice(items) if items else None


def a_tree(rnd, ed, least=1):
    """The slot of a tree with so many entries at least."""
    return pick(rnd, (k for k in ed.used() if len(ed.slots[k][1]) >= least))


def path_twice(rnd, ed):
    used = ed.used()
    if len(used) < 2:
        free = pick(rnd, (k for k in range(SLOTS) if not ed.slots[k]))
        ed.slots[free] = [b"", []]
        return ed
    a, b = rnd.sample(used, 2)
    ed.slots[a][0] = ed.slots[b][0]
    return ed


def path_bad(rnd, ed):
    """A path with an empty component, a NUL, or a slash more that may be good."""
    k = pick(rnd, (k for k in ed.used() if ed.slots[k][0]))
    if k is None:
        k = pick(rnd, (k for k in range(SLOTS) if not ed.slots[k]))
        if k is None:
            return None
        ed.slots[k] = [b"q", []]
    p = ed.slots[k][0]
    at = rnd.randrange(len(p) + 1)
    ed.slots[k][0] = rnd.choice((
        p + b"/", b"/" + p, p[:at] + b"//" + p[at:], p[:at] + b"\0" + p[at:], p[:at] + b"/" + p[at:], b"/", b"\0",
        p[:at] + b"x" * (COMPONENT + 1) + p[at:]))
    return ed if sum(len(ed.slots[k][0]) for k in ed.used()) <= PATHS + 500 else None


def path_long(rnd, ed):
    """A path of 1,024 bytes or one more, or with a component of 255 or one more."""
    k = pick(rnd, (k for k in range(SLOTS) if not ed.slots[k] or ed.slots[k][0] and k not in ed.taken()))
    if k is None:
        return None
    component = b"y" * (COMPONENT + rnd.randrange(2))
    ed.slots[k] = [rnd.choice((some_path(rnd, PATH + rnd.randrange(2)), component, b"u/" + component, component + b"/u")), []]
    return ed if sum(len(ed.slots[k][0]) for k in ed.used()) <= PATHS + 500 else None


def no_root(rnd, ed):
    k = ed.root()
    if k is None or k in ed.taken():
        return None
    if rnd.random() < 0.5:
        ed.slots[k] = None
    else:
        ed.slots[k][0] = b"root"
    return ed


def unsorted(rnd, ed):
    k = a_tree(rnd, ed, 2)
    if k is None:
        return None
    t = ed.slots[k][1]
    draw = rnd.random()
    a = rnd.randrange(len(t) - 1)
    b = a + 1 if draw < 0.6 else rnd.randrange(len(t))
    if draw > 0.9:
        t.reverse()
    else:
        t[a], t[b] = t[b], t[a]
    return ed


def kind_changed(rnd, ed):
    """An entry of another kind where it stands: a tree's place may be another."""
    k = a_tree(rnd, ed)
    if k is None:
        return None
    t = ed.slots[k][1]
    close = [j for j in range(len(t) - 1) if t[j + 1][1].startswith(t[j][1])]
    j = rnd.choice(close) if close and rnd.random() < 0.8 else rnd.randrange(len(t))
    t[j] = (rnd.choice(KINDS) if t[j][0] == 0 else 0,) + t[j][1:]
    return ed


def kind_high(rnd, ed):
    k = a_tree(rnd, ed)
    if k is None:
        return None
    t = ed.slots[k][1]
    j = rnd.randrange(len(t))
    t[j] = (rnd.choice((5, 6, 255, rnd.randrange(5, 256))),) + t[j][1:]
    return ed


def room_for(ed, name):
    return ed.entries() < ENTRIES and ed.names() + len(name) <= NAMES


def twin(rnd, ed, far=False):
    """A name twice, a file and a tree of it or two of a sort, all in Git's order; far apart where that is asked."""
    k = pick(rnd, ed.used())
    t = ed.slots[k][1]
    name = some_name(rnd) if far or not t else rnd.choice(t)[1]
    between = [name + bytes([rnd.randrange(1, 47)]) + some_name(rnd) for _ in range(rnd.choice((1, 2, 5, 30)) if far else 0)]
    keep = [e for e in t if e[1] != name]
    new = [(rnd.choice((1, 2, 3, 4)), name, some_id(rnd)), (0 if far else rnd.choice(KINDS), name, some_id(rnd))]
    for b in dict.fromkeys(between):
        if len(b) <= COMPONENT and all(e[1] != b for e in keep):
            new.append((rnd.choice(KINDS), b, some_id(rnd)))
    ed.slots[k][1] = sorted(keep + new, key=key)
    return ed if ed.entries() <= ENTRIES and ed.names() <= NAMES else None


def twin_far(rnd, ed):
    return twin(rnd, ed, True)


def twin_not(rnd, ed):
    """Names that are nearly twins, all different: stays good."""
    k = pick(rnd, ed.used())
    name = some_name(rnd)
    new = {name: 1, name + b".": 0, name + b"0": 1, name + b".c": 1, name + b"-": 0, name + name: 0}
    keep = [e for e in ed.slots[k][1] if e[1] not in new]
    ed.slots[k][1] = sorted(keep + [(kd, n, some_id(rnd)) for n, kd in new.items() if len(n) <= COMPONENT], key=key)
    return ed if not ed.open and ed.entries() <= ENTRIES and ed.names() <= NAMES else None


def name_bad(rnd, ed):
    """A slash or a NUL in a name, or an empty name; the order is right by the bytes."""
    k = a_tree(rnd, ed)
    if k is None:
        return None
    t = ed.slots[k][1]
    j = rnd.randrange(len(t))
    kind, name, i = t[j]
    at = rnd.randrange(len(name))
    bad = name[:at] + rnd.choice((b"\0", b"/")) + name[at + 1:]
    t[j] = (kind, rnd.choice((bad, bad, bad, b"", name[:at] + bytes([rnd.choice((1, 46, 48, 255))]) + name[at + 1:])), i)
    if rnd.random() < 0.8:
        t.sort(key=key)
    return ed


def over_full(rnd, ed):
    """One entry, name byte or path byte too many, or just as many as there may be; every count is true."""
    draw = rnd.randrange(3)
    k = pick(rnd, ed.used())
    t = ed.slots[k][1]
    have = {e[1] for e in t}
    if draw == 0:
        n = ENTRIES + rnd.choice((0, 1, 1, 2)) - ed.entries()
        names = [b"%d" % j for j in range(2000) if b"%d" % j not in have][:max(n, 0)]
        t += [(1, name, some_id(rnd)) for name in names]
        if n < 0 or ed.names() > NAMES:
            return None
    elif draw == 1:
        n = NAMES + rnd.choice((0, 1, 1, 2)) - ed.names()
        j = 0
        while n > 0:
            name = (b"%d" % j).rjust(min(n, COMPONENT), b"x")[-min(n, COMPONENT):]
            if name not in have:
                have.add(name)
                t.append((1, name, some_id(rnd)))
                n -= len(name)
            j += 1
            if j > 5000:
                return None
        if n < 0 or ed.entries() > ENTRIES:
            return None
    else:
        return paths_over_full(rnd, ed)
    t.sort(key=key)
    return ed


def paths_over_full(rnd, ed):
    n = PATHS + rnd.choice((0, 1, 1, 2, 100)) - sum(len(ed.slots[k][0]) for k in ed.used())
    for k in range(SLOTS):
        if n > 0 and not ed.slots[k]:
            ed.slots[k] = [some_path(rnd, min(n, PATH)), []]
            n -= len(ed.slots[k][0])
    return ed if n == 0 else None


# Damage to an open write, before it is laid out.

def need_aside(f):
    return lambda rnd, ed: f(rnd, ed) if ed.open and ed.aside else None


def no_parent_entry(rnd, ed):
    """The entry for a taken tree goes, or becomes another kind, or another name."""
    kids = [k for k in ed.aside[1:] + ed.stacked + [ed.asked] if ed.slots[k][0]]
    if not kids:
        return None
    head, _, name = ed.slots[rnd.choice(kids)][0].rpartition(b"/")
    for k in ed.used():
        if ed.slots[k][0] == head:
            draw = rnd.randrange(3)
            keep = [e for e in ed.slots[k][1] if e[1] != name]
            if draw == 1:
                keep.append((rnd.choice((1, 2, 3, 4)), name, some_id(rnd)))
            elif draw == 2 and name[:-1] and all(e[1] != name[:-1] for e in keep):
                keep.append((0, name[:-1], some_id(rnd)))
            ed.slots[k][1] = sorted(keep, key=key)
    return ed


def lists_mixed(rnd, ed):
    """The taken slots dealt out anew among the lists."""
    taken = ed.taken()
    draw = rnd.randrange(5)
    if draw == 0:
        rnd.shuffle(taken)
    elif draw == 1 and len(ed.aside) > 1:
        a = rnd.randrange(len(ed.aside) - 1)
        taken[a], taken[a + 1] = taken[a + 1], taken[a]
    elif draw == 2:
        a, b = rnd.randrange(len(taken)), len(taken) - 1
        taken[a], taken[b] = taken[b], taken[a]
    n = rnd.randrange(len(taken)) if draw > 2 else len(ed.aside)
    ed.aside, ed.stacked, ed.asked = taken[:n], taken[n:-1], taken[-1]
    return ed


def child_first(rnd, ed):
    """A tree set aside stands before the one that it lies below."""
    heads = {ed.slots[k][0].rpartition(b"/")[0] for k in ed.aside[1:]}
    parents = [k for k in ed.aside[1:] if ed.slots[k][0] in heads]
    if not parents:
        return None
    k = rnd.choice(parents)
    ed.aside.remove(k)
    ed.aside.append(k)
    return ed


def parent_not_aside(rnd, ed):
    """A tree set aside is stacked instead, so that those below it have no parent there."""
    if len(ed.aside) < 2:
        return None
    k = rnd.choice(ed.aside[1:])
    ed.aside.remove(k)
    ed.stacked.insert(rnd.randrange(len(ed.stacked) + 1), k)
    return ed


def taken_other(rnd, ed):
    """A taken slot is another one: free, cached, taken already, or out of range."""
    other = rnd.choice((rnd.randrange(SLOTS), rnd.choice(ed.taken()), pick(rnd, ed.used()),
                        pick(rnd, (k for k in range(SLOTS) if not ed.slots[k])) or 0))
    n = rnd.randrange(len(ed.aside) + len(ed.stacked) + 1)
    if n < len(ed.aside):
        ed.aside[n] = other
    elif n < len(ed.aside) + len(ed.stacked):
        ed.stacked[n - len(ed.aside)] = other
    else:
        ed.asked = other
    return ed


def taken_less(rnd, ed):
    """A tree is taken no more: it is cached."""
    if rnd.random() < 0.5 and ed.stacked:
        ed.stacked.pop(rnd.randrange(len(ed.stacked)))
    else:
        ed.aside.pop(rnd.randrange(len(ed.aside)))
    return ed


def taken_more(rnd, ed):
    """A cached tree is taken too."""
    k = pick(rnd, (k for k in ed.used() if k not in ed.taken()))
    if k is None:
        return None
    to = rnd.choice((ed.aside, ed.stacked))
    to.insert(rnd.randrange(len(to) + 1), k)
    return ed


def path_moved(rnd, ed):
    """A taken tree has another path: a byte of it changed, a component more, or the start's own path changed."""
    k = rnd.choice(ed.taken())
    p = ed.slots[k][0]
    at = rnd.randrange(len(p) + 1)
    ed.slots[k][0] = rnd.choice((
        p[:at] + b"w" + p[at + 1:], join(p, b"x"), p.rpartition(b"/")[0], p.replace(b"/", b".", 1), p.rpartition(b"/")[2], b"", p + b"x"))
    return ed if len(ed.slots[k][0]) <= PATH else None


def open_other(rnd, ed):
    ed.open = rnd.choice((1, 2, 1, 2, 3, 4, 255, 1 << 32, WORD - 1, WORD - 2))
    if not ed.aside:
        ed.asked = ed.asked if ed.asked in ed.used() else pick(rnd, ed.used())
    return ed


EDITOR_DAMAGE = {
    "path twice": path_twice, "path bad": path_bad, "path long": path_long, "no root": no_root, "entries unsorted": unsorted, "entry's kind": kind_changed,
    "kind above 4": kind_high, "name twice": twin, "name twice, far apart": twin_far, "names nearly twins": twin_not,
    "name bad": name_bad, "limit passed or met": over_full, "write: no parent entry": need_aside(no_parent_entry),
    "write: lists mixed": need_aside(lists_mixed), "write: child first": need_aside(child_first), "write: parent not aside": need_aside(parent_not_aside),
    "write: another slot": lambda rnd, ed: taken_other(rnd, ed) if ed.open else None, "write: one less": need_aside(taken_less),
    "write: one more": lambda rnd, ed: taken_more(rnd, ed) if ed.open else None,
    "write: path moved": lambda rnd, ed: path_moved(rnd, ed) if ed.open else None, "open changed": open_other,
}


# Damage to the laid out store: each takes (rnd, store), changes it, and gives False where it has nothing to change.

def number(rnd, near):
    """Another number: near one, huge, random, or one that wraps."""
    return rnd.choice((near + 1, near - 1, near + 64, near + (1 << 32), near + (1 << 63), WORD - 1, WORD - near, 1 << 63, 1 << 32,
                       rnd.randrange(70), rnd.getrandbits(64), rnd.getrandbits(16), 0, 64)) % WORD


COUNTS = ("used_paths", "used_trees", "entries", "names", "aside", "stacked", "asked")


def count_off(rnd, s):
    name = rnd.choice(COUNTS)
    setattr(s, name, (getattr(s, name) + rnd.choice((1, -1))) % WORD)


def field_any(rnd, s):
    name = rnd.choice(COUNTS + ("free", "hidden", "open"))
    setattr(s, name, number(rnd, getattr(s, name)))


def byte_changed(rnd, s):
    """A byte in use, or any byte."""
    data, used = rnd.choice(((s.paths, s.used_paths), (s.trees, s.used_trees)))
    n = used if used and rnd.random() < 0.8 else len(data)
    n = min(n, len(data))  # an earlier damage may have changed the count
    data[rnd.randrange(n)] = rnd.choice((0, 47, 46, 48, 1, 5, 255, rnd.randrange(256)))


def bit_changed(rnd, s):
    """A bit of anything in use."""
    draw = rnd.randrange(4)
    if draw == 0:
        fields = list(s.record())
        j = rnd.randrange(10)
        fields[j] ^= 1 << rnd.randrange(64)
        s.set_record(fields)
    elif draw == 1:
        words = rnd.choice((s.plens, s.tlens, s.order))
        words[rnd.randrange(SLOTS)] ^= 1 << rnd.choice((rnd.randrange(64), rnd.randrange(8)))
    else:
        data, used = (s.paths, s.used_paths) if draw == 2 else (s.trees, s.used_trees)
        if not used:
            return False
        data[rnd.randrange(min(used, len(data)))] ^= 1 << rnd.randrange(8)


def entry_places(s):
    """Where the entries of the trees begin."""
    at, end = 0, min(s.used_trees, len(s.trees) - 1)
    while at < end:
        yield at
        at += 2 + ID + s.trees[at + 1]


def entry_head(rnd, s):
    """A kind or a name's length that lies."""
    places = list(entry_places(s))
    if not places:
        return False
    at = rnd.choice(places) + rnd.randrange(2)
    s.trees[at] = rnd.choice(((s.trees[at] + 1) % 256, (s.trees[at] - 1) % 256, 0, 255, 5, rnd.randrange(256)))


def length_off(rnd, s):
    """A length by one, with the sum made right, or another length too, or nothing."""
    words, name = rnd.choice(((s.plens, "used_paths"), (s.tlens, "used_trees")))
    by, a, b = rnd.choice((1, -1, 22, -22, 23, -23)), rnd.randrange(SLOTS), rnd.randrange(SLOTS)
    words[a] = (words[a] + by) % WORD
    draw = rnd.randrange(3)
    if draw == 0:
        setattr(s, name, (getattr(s, name) + by) % WORD)
    elif draw == 1:
        words[b] = (words[b] - by) % WORD


def run_end(rnd, s):
    """Bytes more or less at the end of a slot's run, with the length and the sum true."""
    lens, data, name = rnd.choice(((s.plens, s.paths, "used_paths"), (s.tlens, s.trees, "used_trees"), (s.tlens, s.trees, "used_trees")))
    k = rnd.choice([k for k in range(SLOTS) if lens[k]] or [rnd.randrange(SLOTS)])
    end, n = sum(lens[:k + 1]), rnd.choice((1, 2, 21, 22, 23, rnd.randrange(1, 40)))
    if rnd.random() < 0.5:
        data[end:end] = rnd.choice((bytes(n), b"\1" * n, b"x" * n, rnd.randbytes(n)))
        del data[len(data) - n:]
    else:
        n = min(n, lens[k])
        del data[end - n:end]
        data += bytes(n)
        n = -n
    lens[k] = (lens[k] + n) % WORD
    setattr(s, name, (getattr(s, name) + n) % WORD)


def length_wraps(rnd, s):
    """Lengths that are huge and sum to the right number where the sum wraps."""
    words = rnd.choice((s.plens, s.tlens))
    a, b, c, d = rnd.sample(range(SLOTS), 4)
    for k, by in rnd.choice((((a, 1 << 63), (b, 1 << 63)), ((a, WORD - 1), (b, 1)), ((a, WORD - 22), (b, 22)),
                             ((a, 1 << 62), (b, 1 << 62), (c, 1 << 62), (d, 1 << 62)), ((a, 1 << 32), (b, WORD - (1 << 32))))):
        words[k] = (words[k] + by) % WORD


def words_swapped(rnd, s):
    words = rnd.choice((s.plens, s.tlens, s.order))
    a, b = rnd.sample(range(SLOTS), 2)
    if rnd.random() < 0.7:
        full = [k for k in range(SLOTS) if words[k]]
        a = rnd.choice(full) if full else a
        b = rnd.choice((a - 1, (a + 1) % SLOTS, b))
    words[a], words[b] = words[b], words[a]


def word_any(rnd, s):
    words = rnd.choice((s.plens, s.tlens, s.order))
    k = rnd.randrange(SLOTS)
    words[k] = number(rnd, words[k])


def order_word(rnd, s):
    """A word of the open write's lists, out of range or repeated."""
    used = list(range(min(s.aside, SLOTS))) + list(range(max(SLOTS - s.stacked, 0), SLOTS))
    if not s.open or not used:
        return False
    k = rnd.choice(used)
    s.order[k] = rnd.choice((64, 65, 127, 128, s.order[k] + 64, s.order[k] + (1 << 32), s.order[k] + 256, WORD - 1,
                             s.order[rnd.choice(used)], s.asked, rnd.randrange(SLOTS))) % WORD


def slots_swapped(rnd, s):
    """The lengths of two slots change places, or the bits in the maps, or both."""
    a, b = rnd.sample(range(SLOTS), 2)
    for words in rnd.choice(((s.plens,), (s.tlens,), (s.plens, s.tlens))):
        words[a], words[b] = words[b], words[a]
    if rnd.random() < 0.5:
        for name in ("free", "hidden"):
            m = getattr(s, name)
            if (m >> a ^ m >> b) & 1:
                setattr(s, name, m ^ (1 << a) ^ (1 << b))


def map_bit(rnd, s):
    """A slot's bit in the map of free slots, in the hidden ones, or in both."""
    bit = 1 << rnd.randrange(SLOTS)
    used = [k for k in range(SLOTS) if not s.free >> k & 1]
    if used and rnd.random() < 0.5:
        bit = 1 << rnd.choice(used)
    draw = rnd.randrange(3)
    if draw != 0:
        s.free ^= bit
    if draw != 1:
        s.hidden ^= bit


def slice_short(rnd, s):
    name = rnd.choice(("plens", "paths", "tlens", "trees", "order"))
    data = getattr(s, name)
    full = {"paths": PATHS, "trees": TREES}.get(name, SLOTS)
    setattr(s, name, data[:rnd.choice((full - 1, full - 1, full // 2, 0, rnd.randrange(full)))])


def list_counts(rnd, s):
    """How many are set aside and stacked, in step with each other or huge."""
    draw = rnd.randrange(4)
    if draw == 0 and s.aside and s.stacked:
        s.aside, s.stacked = s.aside - 1, s.stacked + 1
    elif draw == 1:
        s.aside, s.stacked = number(rnd, s.aside), number(rnd, s.stacked)
    elif draw == 2:
        s.aside = rnd.choice((SLOTS, SLOTS + 1, WORD - s.stacked, SLOTS - s.stacked)) % WORD
    else:
        s.stacked = rnd.choice((SLOTS, SLOTS + 1, WORD - s.aside, WORD + SLOTS - s.aside, 1 << 63)) % WORD


STORE_DAMAGE = {
    "count off by one": count_off, "field random or huge": field_any, "byte": byte_changed, "bit": bit_changed,
    "entry's head": entry_head, "length off": length_off, "run's end": run_end, "lengths that wrap": length_wraps, "words swapped": words_swapped,
    "word random or huge": word_any, "order word": order_word, "slots swapped": slots_swapped, "map bit": map_bit,
    "slice too short": slice_short, "write: counts": list_counts,
}


def damaged_editor(rnd, ed, name):
    changed = EDITOR_DAMAGE[name](rnd, ed.copy())
    return changed and lay(rnd, changed, rnd.random() < 0.1)


def damaged_store(rnd, ed, name):
    s = lay(rnd, ed, rnd.random() < 0.1)
    return None if STORE_DAMAGE[name](rnd, s) is False else s


def twice_damaged(rnd, ed):
    """Damage to the editor or none, then to the store, once or twice."""
    changed = EDITOR_DAMAGE[rnd.choice(list(EDITOR_DAMAGE))](rnd, ed.copy())
    s = lay(rnd, changed or ed)
    for _ in range(1 if changed else 2):
        # The heads of entries are found by walking them, so they are damaged first or not at all.
        name = rnd.choice([n for n in STORE_DAMAGE if n not in ("entry's head", "slice too short")])
        STORE_DAMAGE[name](rnd, s)
    return s


def fits_the_reader(s):
    """Within the buffers of the program that reads stores: 64 words and 512 bytes more than needed."""
    return (max(len(s.plens), len(s.tlens), len(s.order)) <= SLOTS + 64 and len(s.paths) <= PATHS + 512
            and len(s.trees) <= TREES + 512)


def draw_damage(rnd, ed):
    """A damaged store and what was done to it."""
    while True:
        name = rnd.choice([*EDITOR_DAMAGE, *STORE_DAMAGE, "two of these"])
        if name in EDITOR_DAMAGE:
            s = damaged_editor(rnd, ed, name)
        elif name in STORE_DAMAGE:
            s = damaged_store(rnd, ed, name)
        else:
            s = twice_damaged(rnd, ed)
        if s and fits_the_reader(s):
            return name, s


def stores(seed, count):
    """So many stores with what each is: a good one, some longer than needed, then ten damaged ones of it, and so on."""
    rnd = random.Random(seed)
    made = 0
    while made < count:
        shape = rnd.choices(list(WEIGHTS), WEIGHTS.values())[0]
        write = rnd.random() < 0.5
        ed = good_editor(rnd, shape, write)
        yield "good, %s%s" % (shape, ", open write" if write else ""), lay(rnd, ed, rnd.random() < 0.3)
        made += 1
        for _ in range(min(10, count - made)):
            yield draw_damage(rnd, ed)
            made += 1


def tiny(rnd):
    """A store whose slices are short, some of them of the right length."""
    s = lay(rnd, good_editor(rnd, "few", rnd.random() < 0.5))
    s.paths = s.paths[:rnd.choice((0, 1, rnd.randrange(600)))]
    s.trees = s.trees[:rnd.choice((0, 1, 21, 22, rnd.randrange(600)))]
    for name in "plens", "tlens", "order":
        setattr(s, name, getattr(s, name)[:rnd.choice((0, 1, 63, 64, 64, 64, rnd.randrange(64)))])
    return s


def fixed():
    """The fixed list: good stores of each shape, each kind of damage once, and many with slices that are too short."""
    rnd = random.Random(13)
    for n, shape in enumerate(SHAPES):
        yield "good, " + shape, lay(rnd, good_editor(rnd, shape, n % 2 == 1), n % 3 == 2)
    for name in [*EDITOR_DAMAGE, *STORE_DAMAGE]:
        s = None
        while not s or not fits_the_reader(s):
            ed = good_editor(rnd, rnd.choice(("few", "many", "shared", "paths")), name.startswith("write") or rnd.random() < 0.5)
            s = damaged_editor(rnd, ed, name) if name in EDITOR_DAMAGE else damaged_store(rnd, ed, name)
        yield name, s
    for _ in range(300):
        yield "slices too short", tiny(rnd)

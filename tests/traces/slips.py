#!/usr/bin/env python3
"""Shows that the fixed list of answers has teeth: slips put into tests/traces/model01.py one by one must each be noticed.

    slips.py [LABEL...]

Each slip is one edit of the program's text; the list tests/data/oracle-answers.txt is replayed through it.
Exit status 1 if a slip passes, or if its place in the text is no longer found.
"""
import os
import sys

import compare_traces

HERE = os.path.dirname(os.path.abspath(__file__))
ANSWERS = os.path.join(HERE, "..", "data", "oracle-answers.txt")

SLIPS = [
    ("signed-bytes", 'return name + b"/" if mode == TREE else name',
     'return [c - 256 if c > 127 else c for c in name + (b"/" if mode == TREE else b"")]'),
    ("no-slash-rule", 'return name + b"/" if mode == TREE else name', "return name"),
    ("twins-only-neighbours", " or name in tree.by_name:", ":"),
    ("order-not-judged", "if last is not None and key <= last:", "if False:"),
    ("empty-component-first", "        cache = dict(self.cache)\n", "        cache = dict(self.cache)\n"
     "        if kind != 'get' and path and b'' in split(path):\n            return EMPTY_COMPONENT\n"),
    ("children-forward", "self.stack += kids", "self.stack += kids[::-1]"),
    ("children-before-stack", "self.stack += kids", "self.stack = kids + self.stack"),
    ("aside-oldest-first", "path, tree = self.aside.pop()\n", "path, tree = self.aside.pop(1 if len(self.aside) > 1 else 0)\n"),
    ("empty-tree-looked-up", "if look_up is None or look_up == EMPTY_TREE:", "if look_up is None:"),
    ("null-not-looked-up", "if look_up is None or look_up == EMPTY_TREE:", "if look_up in (None, NULL, EMPTY_TREE):"),
    ("leaf-goes-into-empty", 'if look_up == EMPTY_TREE and kind == "leaf":', "if False:"),
    ("remove-stops-at-empty", 'if look_up == EMPTY_TREE and kind == "leaf":', 'if look_up == EMPTY_TREE and kind != "upsert":'),
    ("cursor-empties-cached", "        if path in cache:\n            return DONE, path\n",
     "        if path in cache and not (kind == 'cursor' and look_up is None):\n            return DONE, path\n"),
    ("null-entries-kept", "kept = {n: e for n, e in self.by_name.items() if e[1] != NULL}", "kept = dict(self.by_name)"),
    ("null-kept-when-aside", "                path, tree = self.aside.pop()\n            tree = tree.without_null()\n",
     "                path, tree = self.aside.pop()\n                kids = None\n"
     "            tree = tree if kids is None else tree.without_null()\n"),
    ("empty-trees-requested", "if path == self.start or tree.by_name:", "if True:"),
    ("empty-start-not-requested", "if path == self.start or tree.by_name:",
     "if tree.by_name or path == self.start and self.from_root:"),
    ("root-write-keeps-rest", "kept = {} if self.from_root else dict(self.cache)", "kept = dict(self.cache)"),
    ("cursor-at-root-drops-rest", "kept = {} if self.from_root else dict(self.cache)",
     "kept = {} if not self.start else dict(self.cache)"),
    ("failure-drops-unvisited", "    def after_failure(self):\n        kept = dict(self.cache)", "    def after_failure(self):\n        kept = {}"),
    ("failure-restores-start", "else self.aside[0][1]\n        return kept", "else self.aside[0][1].without_null()\n        return kept"),
    ("path-before-cursor", "        if prefix is not None and prefix not in self.cache:\n            return CURSOR_STALE\n"
     "        if refused(prefix or b\"\", path):\n            return PATH_REFUSED\n        cache",
     "        if refused(prefix or b\"\", path):\n            return PATH_REFUSED\n"
     "        if prefix is not None and prefix not in self.cache:\n            return CURSOR_STALE\n        cache"),
    ("cursor-before-table", "        if not self.table.good():\n            return BAD_TABLE\n        if prefix is not None and prefix "
     "not in self.cache:\n            return CURSOR_STALE\n",
     "        if prefix is not None and prefix not in self.cache:\n            return CURSOR_STALE\n"
     "        if not self.table.good():\n            return BAD_TABLE\n"),
    ("last-equal-id", "        for k, end in enumerate(self.ends):\n", "        for k, end in reversed(list(enumerate(self.ends))):\n"),
    ("no-room-keeps-steps", "        if number != NO_ROOM:\n            self.cache = cache\n", "        self.cache = cache\n"),
    ("room-only-at-end", "            if not fits(cache):\n                return NO_ROOM\n        return DONE",
     "        return DONE if fits(cache) else NO_ROOM"),
    ("room-before-load", "        raw = self.table.find(look_up)\n        if raw is None:",
     "        raw = self.table.find(look_up)\n        if len(cache) == MAX_TREES:\n            return NO_ROOM, None\n        if raw is None:"),
    ("65-trees", "= 64, 1024, 16384", "= 65, 1024, 16384"),
    ("63-trees", "= 64, 1024, 16384", "= 63, 1024, 16384"),
    ("1025-entries", "= 64, 1024, 16384", "= 64, 1025, 16384"),
    ("1023-entries", "= 64, 1024, 16384", "= 64, 1023, 16384"),
    ("more-name-bytes", "= 64, 1024, 16384", "= 64, 1024, 16385"),
    ("fewer-name-bytes", "= 64, 1024, 16384", "= 64, 1024, 16383"),
    ("more-path-bytes", "8192, 1024, 255", "8193, 1024, 255"),
    ("fewer-path-bytes", "8192, 1024, 255", "8191, 1024, 255"),
    ("path-1025", "8192, 1024, 255", "8192, 1025, 255"),
    ("path-1023", "8192, 1024, 255", "8192, 1023, 255"),
    ("name-256", "8192, 1024, 255", "8192, 1024, 256"),
    ("prefix-without-slash", "whole = below(prefix, path) if path else prefix", "whole = prefix + path"),
    ("zero-path-adds-slash", "whole = below(prefix, path) if path else prefix", "whole = below(prefix, path)"),
    ("leaf-takes-trees", 'if kind == "leaf" and found[0] == TREE:', "if False:"),
    ("old-id-kept-by-file", "            cache[at].put(name, TREE, NULL)", "            cache[at].put(name, TREE, (found or (0, NULL))[1])"),
    ("entry-drops-cached", "            cache[at].drop(name)\n            return DONE, False, None",
     "            cache[at].drop(name)\n            cache.pop(below(at, name), None)\n            return DONE, False, None"),
    ("lookup-loads-nothing-uncached", "if entry[0] != TREE or at not in self.cache:", "if at not in self.cache:"),
    ("answer-null-drops-entry", "        parent.put(name, TREE, ident)\n", "        parent.put(name, TREE, ident) if ident != NULL else parent.drop(name)\n"),
    ("invented-length", 'return self.says(line, "11 %d" % len(raw))', 'return self.says(line, "11 %d" % 45056)'),
    ("short-by-one", "if int(n) < len(raw):", "if int(n) <= len(raw):"),
    ("refused-new-forgets-write", "        if tree is None:\n            return BAD_ROOT\n        if not fits",
     "        if tree is None:\n            self.write = None\n            return BAD_ROOT\n        if not fits"),
    ("new-refused-while-open", "    def new(self, raw):\n        return self.root(raw)",
     "    def new(self, raw):\n        return WRITE_OPEN if self.write else self.root(raw)"),
    ("set-root-keeps-cache", "        self.cache, self.write = {b\"\": tree}, None\n",
     "        self.cache = {**(self.cache or {}), b\"\": tree}\n        self.write = None\n"),
    ("table-tail-refused", "self.ends[-1] <= len(self.raws)", "self.ends[-1] == len(self.raws)"),
]


def noticed(text, answers):
    space = {"__name__": "slip"}
    exec(compile(text, "slip", "exec"), space)
    for calls, known in answers:
        speaker, out = space["Speaker"](), []
        try:
            for call in calls:
                out += speaker.line(call)
        except Exception as e:  # a slip that falls over is noticed too
            return "%s: %r" % (calls[0], e)
        found = compare_traces.first_difference(known, out)
        if found:
            return "%s: %s" % (calls[0], found[1][:60])
    return None


def main():
    answers = list(compare_traces.replayed(ANSWERS))
    with open(os.path.join(HERE, "model01.py")) as f:
        text = f.read()
    wrong = 0
    if noticed(text, answers):
        sys.exit("tests/traces/model01.py itself differs from the answers")
    for label, old, new in SLIPS:
        if sys.argv[1:] and label not in sys.argv[1:]:
            continue
        if text.count(old) != 1:
            print("%s: its place stands %d times in tests/traces/model01.py" % (label, text.count(old)))
            wrong += 1
            continue
        how = noticed(text.replace(old, new), answers)
        if how is None:
            wrong += 1
            print("%s: not noticed" % label)
    print("%d slips tried, %d wrong" % (len(sys.argv[1:]) or len(SLIPS), wrong))
    sys.exit(1 if wrong else 0)


if __name__ == "__main__":
    main()

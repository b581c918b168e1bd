#!/usr/bin/env python3
"""Counts in crates/*/src the places that today's forms of the language could replace, by rules of text; docs/DESIGN-PASS.md has what became of them.

  forms.py          how many places each rule finds
  forms.py RULE     these places, as file:line and what stands there
  forms.py --crates how many each rule finds in each crate

The rules go by names and shapes, so they find more than there is to change, and a place that they cannot see is none to them.
A comment line `// Stays: ..` above a place, or behind its first line, says why it stays: such places are counted apart."""
import collections
import difflib
import glob
import os
import re
import sys

TOP = os.path.join(os.path.dirname(os.path.abspath(__file__)), "..")
FN = re.compile(r'^( *)(?:pub(?:\([a-z]+\))? )?(?:const )?(?:extern "C" )?fn (\w+)')
WORD = re.compile(r'\w+|[^\s\w]')


class Fn:
    """A function of a file: its name, its line, its parameters, its clauses and the lines of its body."""

    def __init__(self, path, lines, at):
        indent, self.name = FN.match(lines[at]).groups()
        self.path, self.line = path, at + 1
        end = at
        while lines[end] != indent + "{" and not lines[end].endswith((" {", ";")) or re.match(r" *(requires|ensures|ghost)\b", lines[end]):
            end += 1
            if end == len(lines):
                break
        self.head = lines[at:end + 1]
        stop = end
        if end < len(lines) and not lines[end].endswith(";"):
            while stop < len(lines) and lines[stop] != indent + "}":
                stop += 1
        self.body = lines[end + 1:stop]
        cut = next((k for k, l in enumerate(self.head) if re.match(r" *(requires|ensures)\b", l)), len(self.head))
        sign = " ".join(self.head[:cut])
        self.sign = re.sub(r"\s+", " ", sign).strip()
        inside = re.search(r"\((.*)\)", self.sign)
        self.params = re.findall(r"(\w+): ([^,]+(?:<[^>]*>)?)", inside.group(1)) if inside else []
        self.names = {n for n, _ in self.params}
        self.result = self.sign.split("->")[1].strip(" {") if "->" in self.sign else ""
        self.clauses = " ".join(self.head[cut:])

    def at(self):
        return f"{self.path}:{self.line}"


def read():
    files, fns = {}, []
    for path in sorted(glob.glob(os.path.join(TOP, "crates/*/src/**/*.rt"), recursive=True)):
        name = os.path.relpath(path, TOP)
        with open(path, encoding="utf-8") as f:
            files[name] = f.read().split("\n")
        for k, l in enumerate(files[name]):
            if FN.match(l):
                fns.append(Fn(name, files[name], k))
    return files, fns


def types(files):
    """Each struct and enum: file, line, which of both, name, the lines between its braces."""
    for path, lines in files.items():
        for k, l in enumerate(lines):
            m = re.match(r"(?:pub )?(struct|enum) (\w+)[^;]*\{$", l)
            if m:
                end = k + 1
                while lines[end] != "}":
                    end += 1
                yield path, k + 1, m.group(1), m.group(2), lines[k + 1:end]


def variants(inside):
    return [l.strip() for l in inside if re.match(r"    \w", l)]


def own_option(files, fns):
    for path, line, kind, name, inside in types(files):
        if kind == "enum":
            all_ = variants(inside)
            full = [v for v in all_ if not re.fullmatch(r"\w+,", v)]
            if 0 < len(full) and len(all_) <= 3 and (len(all_) == 2 or len(full) == 1 or name == "Looked"):
                yield f"{path}:{line}", f"enum {name}: " + " ".join(all_)


def flag_beside(files, fns):
    for path, line, kind, name, inside in types(files):
        fields = [l.strip() for l in inside if re.match(r"    (pub )?\w+:", l)]
        flags = [f for f in fields if f.endswith(": bool,")]
        if kind == "struct" and flags and len(fields) > 1:
            yield f"{path}:{line}", f"struct {name}: " + ", ".join(flags)


def numbers(files, fns):
    for path, line, kind, name, inside in types(files):
        if kind == "struct" and any(re.match(r"    (pub )?code: ", l) for l in inside):
            yield f"{path}:{line}", f"struct {name} with a code"
        if kind == "enum" and any(l.strip() == "Done," for l in inside):
            yield f"{path}:{line}", f"enum {name}: what is done stands among the refusals"
    for f in fns:
        if re.search(r"\b(Code|Numbered|u8)\b", f.result) and re.search(r"code|number|refus|255", " ".join(f.body)) and "extern" not in f.sign:
            yield f.at(), f"fn {f.name} -> {f.result}"


def sentinels(files, fns):
    for path, lines in files.items():
        for k, l in enumerate(lines):
            if re.match(r" *//.*(, or (the length|64|0|nothing|all of it)|or 0\b|or the length|the highest where)", l):
                yield f"{path}:{k + 1}", l.strip()


def shape(f):
    text = " ".join(l for l in f.body if not l.strip().startswith("//"))
    return [("N" if re.fullmatch(r"(0x)?[0-9a-f_]*\d[0-9a-f_]*(u\d+)?", w) else w) for w in WORD.findall(text)]


def twins(files, fns):
    shapes = [(f, shape(f)) for f in fns]
    shapes = [(f, s) for f, s in shapes if len(s) >= 24 and f.name != "main"]
    bags = [collections.Counter(s) for _, s in shapes]
    for i, (f, a) in enumerate(shapes):
        for j in range(i + 1, len(shapes)):
            g, b = shapes[j]
            if min(len(a), len(b)) * 10 < max(len(a), len(b)) * 8:
                continue
            shared = sum((bags[i] & bags[j]).values())
            if shared * 20 < (len(a) + len(b)) * 8.5:
                continue
            if difflib.SequenceMatcher(None, a, b, autojunk=False).ratio() >= 0.85:
                yield f.at(), f"{f.name} and {g.at()} {g.name}"


def same_names(files, fns):
    """Functions of one name and as many parameters in two crates or modules."""
    by = collections.defaultdict(list)
    for f in fns:
        if f.name != "main" and "extern" not in f.sign:
            by[f.name, len(f.params)].append(f)
    for (name, _), all_ in sorted(by.items()):
        if len(all_) > 1:
            yield all_[0].at(), f"{name}: " + ", ".join(f.at() for f in all_[1:])


def loops(files, fns):
    for path, lines in files.items():
        for k, l in enumerate(lines):
            if re.match(r" *(while |loop \{)", l):
                yield f"{path}:{k + 1}", l.strip()


def by_hand(files, fns):
    names = r"(same|same_bytes|same_name|is_same\w*|name_order|order_\w+|of|number|kind|kind_byte|kind_of|as_\w+|wide|bytes|id_at|word_at|place|needed|shorter|least|less|from_octal|put_mode|print_order|is_decimal|is_digit|digit_\w+)"
    for f in fns:
        if re.fullmatch(names, f.name):
            yield f.at(), f.sign[:100]


TOGETHER = {
    "a store's slices": ({"plens", "paths"}, {"tlens", "trees"}),
    "runs": ({"lens", "bytes"},),
    "the object table": ({"ids", "ends", "raws"},),
    "a tree and its width": ({"tree", "width"},),
    "raw bytes and a width": ({"raw", "width"},),
    "a name and whether it is a tree's": ({"name", "tree"}, {"name", "as_tree"}, {"prev", "prev_tree"}),
    "an entry's parts": ({"kind", "id", "name"},),
}


def together(files, fns):
    for f in fns:
        found = [what for what, sets in TOGETHER.items() if any(s <= f.names for s in sets)]
        if found:
            yield f.at(), f"{f.name}: " + ", ".join(found)


def facts(files, fns):
    """Parts of `requires` that stand, but for the names of values, in three functions or more."""
    seen = collections.defaultdict(list)
    for f in fns:
        for part in re.findall(r"requires(?: \w+)? \{ (.*?) \}(?= *(?:requires|ensures|\{|$))", f.clauses):
            depth, at = 0, 0
            pieces, piece = [], ""
            for ch in part:
                depth += (ch == "(") - (ch == ")")
                if ch == "×" and depth == 0:
                    pieces.append(piece)
                    piece = ""
                else:
                    piece += ch
            for it in pieces + [piece]:
                words = it.strip().strip("()")
                key = re.sub(r"\b(\w+)\.(old|now)\b", r"\1", words)
                if re.match(r"[A-Z(]|length", key):
                    seen[re.sub(r"\s+", " ", key)].append(f)
    for key, all_ in sorted(seen.items(), key=lambda it: -len(it[1])):
        if len({(f.path, f.name) for f in all_}) >= 3:
            for f in all_:
                yield f.at(), f"{f.name}: {key[:90]}"


def buffers(files, fns):
    for f in fns:
        if any(re.fullmatch(r"&(?:'\w+ )?mut \[\w+; \w+\]", t.strip()) for _, t in f.params):
            yield f.at(), f"fn {f.name}: {f.sign[:90]}"
    for path, line, kind, name, inside in types(files):
        fields = " ".join(l.strip() for l in inside)
        if re.search(r": \[\w+; \w+\],", fields) and re.search(r"\b(len|filled|size|held|n): usize", fields):
            yield f"{path}:{line}", f"struct {name}: {fields[:80]}"
    for path, lines in files.items():
        for k, l in enumerate(lines):
            if re.search(r"len / 2;|halving", l) and not l.strip().startswith("//"):
                yield f"{path}:{k + 1}", "a search by halving"


def switches(files, fns):
    for path, lines in files.items():
        for k, l in enumerate(lines):
            if re.search(r"\bfn\(|\bdyn\b|match (step|which|phase|state|stage)\b", l):
                yield f"{path}:{k + 1}", l.strip()


RULES = [
    ("1a", "own enums of the shape of Option or Result", own_option),
    ("1b", "structs with a flag beside a value", flag_beside),
    ("1c", "numbers or `Done` in the place of a Result", numbers),
    ("1d", "values that stand for none", sentinels),
    ("2a", "pairs of functions of one shape", twins),
    ("2b", "functions of one name in several places", same_names),
    ("3", "`while` and `loop`", loops),
    ("4", "comparison, conversion, printing by name", by_hand),
    ("5a", "functions with parameters that travel together", together),
    ("5b", "parts of a `requires` that stand in three functions or more", facts),
    ("6", "buffers with a length beside, searches by hand", buffers),
    ("7", "switches on steps, tables of functions", switches),
]


def main():
    files, fns = read()
    want = sys.argv[1] if len(sys.argv) > 1 else ""
    for key, what, rule in RULES:
        if want not in ("", "--crates", key):
            continue
        found = list(rule(files, fns))
        stays = 0
        for at, _ in found:
            path, line = at.rsplit(":", 1)
            k = int(line) - 1
            near = files[path][max(0, k - 4):k + 3]
            stays += any("// Stays: " in l for l in near)
        print(f"{key:3} {len(found):4}  ({stays} that stay)  {what}")
        if want == key:
            for at, text in found:
                print(f"      {at}  {text}")
        if want == "--crates":
            by = collections.Counter(at.split("/")[1] for at, _ in found)
            print("          " + ", ".join(f"{c} {n}" for c, n in sorted(by.items())))


main()

#!/usr/bin/env python3
"""Makes the cases of crates/test_git with Git as the judge, and the counts in docs/VECTORS.md.

    tests/git/git_vectors.py            make them, and write crates/test_git/stdin, stdout and the counts
    tests/git/git_vectors.py --check    make them anew and compare with what is stored; status 1 on any difference

Needs the installed Git and nothing else. The draws are seeded, so the same script gives the same cases.
docs/VECTORS.md has the form of the cases, and says which verdicts are Git's and which are those of docs/RULES.md.
"""
import os
import random
import re
import subprocess
import sys
import tempfile
from collections import Counter
from pathlib import Path

ROOT = Path(__file__).resolve().parents[2]
STDIN = ROOT / "crates/test_git/stdin"
STDOUT = ROOT / "crates/test_git/stdout"
DOC = ROOT / "docs/VECTORS.md"
BEGIN, END = "<!-- counts: begin -->\n", "<!-- counts: end -->\n"

SEED = 20
LONGEST_LINE = 65535  # what the program's buffer holds, with the line's end
TYPES = {b"40000": b"tree", b"100644": b"blob", b"100755": b"blob", b"120000": b"blob", b"160000": b"commit"}
FILES = [b"100644", b"100755", b"120000", b"160000"]

# What `git fsck --strict` may say of a tree. These are damage:
DAMAGE = {
    "treeNotSorted", "duplicateEntries", "zeroPaddedFilemode", "badFilemode", "emptyName", "fullPathname", "badTree",
}
# These are not: docs/RULES.md admits each name but its own limits', and the null id. It has its own limit on a
# name's length, so a later Git's `largePathname` decides nothing here.
ADMITTED = {
    "nullSha1", "hasDot", "hasDotdot", "hasDotgit", "largePathname",
    "gitmodulesSymlink", "gitattributesSymlink", "gitignoreSymlink", "mailmapSymlink",
}


class Draw:
    """Seeded draws, from random bits alone, so that they do not depend on Python's version."""

    def __init__(self, seed):
        self.bits = random.Random(seed)

    def below(self, n):
        return self.bits.getrandbits(32) % n

    def among(self, items):
        return items[self.below(len(items))]

    def id(self):
        """An id with many of the bytes that mean something elsewhere in a tree, and never the null id."""
        return bytes(self.among(b"\0\0 /04") if self.below(3) == 0 else self.below(256) for _ in range(19)) + b"\1"

    def mixed(self, items):
        items = list(items)
        for i in range(len(items) - 1, 0, -1):
            j = self.below(i + 1)
            items[i], items[j] = items[j], items[i]
        return items


def entry(mode, name, oid):
    return mode + b" " + name + b"\0" + oid


class Git:
    """A repository of its own in a folder, out of reach of the user's settings."""

    def __init__(self, folder):
        self.folder = Path(folder)
        keep = {k: v for k, v in os.environ.items() if not k.startswith("GIT_")}
        self.env = dict(keep, HOME=str(folder), GIT_CONFIG_NOSYSTEM="1", GIT_CONFIG_GLOBAL=os.devnull, LC_ALL="C")
        self.run("init", "-q", "--object-format=sha1", ".")
        for key, value in (("core.fsync", "none"), ("gc.auto", "0")):
            self.run("config", key, value)

    def run(self, *args, given=b""):
        done = subprocess.run(["git", *args], input=given, cwd=self.folder, env=self.env, capture_output=True)
        if done.returncode:
            raise SystemExit(f"git {args[0]}: {done.stderr.decode(errors='replace')}")
        return done.stdout

    def version(self):
        return self.run("--version").decode().split()[2]

    def make_trees(self, listings):
        """The ids of the trees that Git makes of these listings, in the form of `ls-tree -z`: it sorts each."""
        given = b"".join(listing + b"\0" for listing in listings)
        return self.run("mktree", "-z", "--missing", "--batch", given=given).decode().split()

    def contents(self, ids):
        out = self.run("cat-file", "--batch", given="".join(i + "\n" for i in ids).encode())
        found, at = [], 0
        for _ in ids:
            end = out.index(b"\n", at)
            size = int(out[at:end].split()[2])
            found.append(out[end + 1:end + 1 + size])
            at = end + 1 + size + 1
        return found

    def store(self, raws):
        """Stores the bytes as trees, whatever they are, and gives the ids."""
        paths = []
        for i, raw in enumerate(raws):
            path = self.folder / f"raw{i}"
            path.write_bytes(raw)
            paths.append(path.name + "\n")
        given = "".join(paths).encode()
        ids = self.run("hash-object", "-t", "tree", "--literally", "-w", "--stdin-paths", given=given).decode().split()
        for path in paths:
            (self.folder / path.strip()).unlink()
        return ids

    def said(self, ids):
        """What fsck says of each of the trees: its message ids. Missing objects are no matter here."""
        done = subprocess.run(
            ["git", "fsck", "--strict", "--verbose", "--no-dangling", "--no-progress"],
            cwd=self.folder, env=self.env, capture_output=True)
        if done.returncode >= 128 or done.returncode < 0:
            raise SystemExit(f"git fsck: {done.stderr.decode(errors='replace')[-400:]}")
        text = (done.stdout + done.stderr).decode(errors="replace")
        looked = set(re.findall(r"^Checking tree ([0-9a-f]{40})$", text, re.M))
        unseen = set(ids) - looked
        if unseen:
            raise SystemExit(f"git fsck did not look at {len(unseen)} trees, as {min(unseen)}")
        messages = {i: set() for i in ids}
        for tree, message in re.findall(r"^(?:error|warning|info) in tree ([0-9a-f]{40}): (\w+): ", text, re.M):
            if message not in DAMAGE | ADMITTED:
                raise SystemExit(f"git fsck says {message}, which this script does not know")
            messages.get(tree, set()).add(message)
        return messages

    def listing(self, tree):
        return self.run("ls-tree", "-z", tree)


def listed(entries):
    """Entries as `ls-tree -z` lists them."""
    return b"".join(
        b"%s %s %s\t%s\0" % (mode.rjust(6, b"0"), TYPES[mode], oid.hex().encode(), name) for mode, name, oid in entries)


# ---- two names ----

NEAR = [b"\x01", b" ", b"-", b".", b"0", b"\x7f", b"\x80", b"\xbf", b"\xff"]
WORDS = ["é", "è", "ß", "Ω", "日本", "人", "𝄞", "naïve", "z", "a", "Z", "_"]
CURATED = [
    b"a", b"a-", b"a.", b"a0", b"a.c", b"a-b", b"a0b", b"aa", b"a\x01", b"a\x7f", b"a\x80", b"a\xff", b"b", b"z",
    "é".encode(), "é".encode()[:1], b"\x7f", b"\x80", b"\xff", b"-",
]


def cut_word(draw):
    word = draw.among(WORDS).encode()
    return word[:1 + draw.below(len(word))]


def plain_name(draw, most):
    while True:
        length = 1 + draw.below(most)
        name = bytes(1 + draw.below(255) for _ in range(length)).replace(b"/", b"0")
        if not name.startswith(b"."):
            return name


def pair_names(draw):
    way = draw.below(7)
    if way == 0:
        return plain_name(draw, 12), plain_name(draw, 12)
    if way == 1:  # a shared front
        front = plain_name(draw, 8)
        return front + plain_name(draw, 3), front + plain_name(draw, 3)
    if way == 2:  # the slash after a tree's name meets its neighbours
        front = plain_name(draw, 4)
        return front, front + draw.among(NEAR) + draw.among([b"", b"x"])
    if way == 3:  # letters cut inside
        front = draw.among([b"", b"x", "é".encode()])
        return front + cut_word(draw), front + cut_word(draw)
    if way == 4:  # bytes from 0x80 up
        high = lambda: bytes(128 + draw.below(128) for _ in range(1 + draw.below(3)))
        low = plain_name(draw, 2)
        return draw.among([(high(), high()), (high(), low), (low, high())])
    if way == 5:  # the same bytes
        name = plain_name(draw, 9)
        return name, name
    front = plain_name(draw, 1) * (253 + draw.below(3))
    return (front + plain_name(draw, 2))[:256], (front + draw.among(NEAR))[:256]


def all_pairs(draw):
    kinds = [(a, b) for a in "ft" for b in "ft"]
    pairs = [(a, x, b, y) for x in CURATED for y in CURATED for a, b in kinds]
    for i in range(1000):
        x, y = pair_names(draw)
        a, b = kinds[draw.below(4)]
        pairs.append((b, y, a, x) if i % 2 else (a, x, b, y))
    return pairs


def judge_pairs(git, draw, pairs):
    """Git's order of each pair: by its sort, given them either way round, and again by fsck."""
    modes = lambda kind: b"40000" if kind == "t" else draw.among(FILES)
    sides = [((modes(a), x, b"\x11" * 20), (modes(b), y, b"\x22" * 20)) for a, x, b, y in pairs]
    made = git.contents(git.make_trees([listed(two) for p, q in sides for two in ([p, q], [q, p])]))
    raws = [raw for p, q in sides for raw in (entry(*p) + entry(*q), entry(*q) + entry(*p))]
    ids = git.store(raws)
    answers = []
    for i in range(len(pairs)):
        forth, back = raws[2 * i], raws[2 * i + 1]
        got = (made[2 * i], made[2 * i + 1])
        if got == (forth, forth):
            answers.append("less")
        elif got == (back, back):
            answers.append("greater")
        elif got == (forth, back):
            answers.append("equal")  # Git's sort left both as they were given
        else:
            raise SystemExit(f"git mktree made other bytes of the pair {pairs[i]}")
    return answers, ids


def confirm_pairs(pairs, answers, ids, said):
    """The same order by fsck, where the names differ; the same name twice is its duplicate."""
    for i, (a, x, b, y) in enumerate(pairs):
        forth, back = said[ids[2 * i]], said[ids[2 * i + 1]]
        if x == y:
            right = "duplicateEntries" in forth and "duplicateEntries" in back
            right = right and (answers[i] == "equal") == (a == b)
        else:
            right = answers[i] == {(False, True): "less", (True, False): "greater"}.get(
                ("treeNotSorted" in forth, "treeNotSorted" in back))
        if not right:
            raise SystemExit(f"git fsck and git mktree differ on the pair {pairs[i]}")


# ---- raw trees ----

def some_entries(draw, count, most=10):
    names = set()
    while len(names) < count:
        way = draw.below(4)
        if way == 0:
            names.add(plain_name(draw, most))
        elif way == 1:
            names.add(draw.among(CURATED))
        elif way == 2:
            names.add(cut_word(draw) + draw.among([b"", b"x"]))
        elif names:
            names.add((draw.among(sorted(names)) + draw.among(NEAR))[:255])
    return [entry_of(draw, name) for name in draw.mixed(sorted(names))]


def entry_of(draw, name):
    mode = draw.among([b"40000"] + FILES)
    return mode, name, draw.id()


def good_listings(draw):
    """Entries that make good trees, in any order: Git sorts them."""
    out = [("good", some_entries(draw, 1 + draw.below(7))) for _ in range(130)]
    for near in NEAR:  # a tree between the names that its slash stands between
        out.append(("good", [(b"40000", b"a", draw.id())] + [entry_of(draw, b"a" + n) for n in NEAR if n <= near]))
    for length in (1, 254, 255, 256, 257, 300):
        for mode in (b"100644", b"40000"):
            out.append((f"name of {length}", [(mode, b"n" * length, draw.id()), entry_of(draw, b"n")]))
            out.append((f"name of {length}", some_entries(draw, 3) + [(mode, b"\xc3" * length, draw.id())]))
    for mode in TYPES:
        out.append(("null id", [(mode, b"a", bytes(20))]))
        out.append(("null id", some_entries(draw, 3) + [(mode, b"null", bytes(20))]))
    for name in (b".", b"..", b".git", b".GIT", b"git~1", b".gitmodules", b".gitattributes"):
        out.append(("name of Git's own", [(b"40000", name, draw.id())]))
        out.append(("name of Git's own", some_entries(draw, 2) + [(b"120000", name, draw.id())]))
    for count in (300, 400, 500):
        out.append(("several hundred entries", some_entries(draw, count, 6)))
    out.append(("several hundred entries", wide_twin(draw, 250)[1:]))
    return out


def wide_twin(draw, count):
    """A file and a tree of one name with many names between them."""
    between = [entry_of(draw, b"a" + draw.among([b"-", b"."]) + b"%03d" % i) for i in range(count)]
    return [(b"100644", b"a", draw.id()), (b"40000", b"a", draw.id())] + between


def twins(draw):
    """Trees that have a name twice, as a file and a tree, with and without names between. Git sorts them."""
    out = [("same name apart", wide_twin(draw, count)) for count in (1, 2, 3, 10, 300)]
    for _ in range(25):
        name = plain_name(draw, 5)
        pair = [(draw.among(FILES), name, draw.id()), (b"40000", name, draw.id())]
        more = {name + near + draw.among([b"", b"x"]) for near in NEAR[:4] if draw.below(2)}
        out.append(("same name apart", pair + [entry_of(draw, n) for n in sorted(more)]))
    for _ in range(15):
        name = plain_name(draw, 5)
        mode = draw.among([b"40000"] + FILES)
        out.append(("same name twice", [(mode, name, draw.id()), (mode, name, draw.id()), entry_of(draw, name + b"x")]))
    return out


BAD_MODES = [
    b"100664", b"040000", b"0100644", b"00100755", b"100600", b"140000", b"57777777", b"", b"10064a", b"100648", b"0",
    b"1", b"4000", b"400000", b"100645", b"100777", b"120001", b"160001", b"160644", b"40755", b"-100644", b"+40000",
    b"100644\t", b"0x81a4", b"1006440", b"7" * 30, b"040000\0",
    # the numbers of the five again, were a digit allowed to be 8 or more
    b"37778", b"117778", b"157778", b"78644", b"78755", b"10063<", b"1005<4",
    # and were a number cut to 16 or to 32 bits
    b"300644", b"300755", b"240000", b"320000", b"360000", b"40000040000", b"40000100644", b"100000000000100644",
]


def bad_modes(draw):
    out = []
    for mode in BAD_MODES:
        at = [entry_of(draw, b"a"), entry_of(draw, b"c")]
        out.append(("wrong mode", entry(mode, b"b", draw.id())))
        out.append(("wrong mode", entry(*at[0]) + entry(mode, b"b", draw.id()) + entry(*at[1])))
    return out


def bad_names(draw):
    out = []
    for name in (b"", b"/", b"a/", b"/a", b"a/b", b"b//", b"\xff/", "é/".encode()):
        for mode in (b"100644", b"40000"):
            out.append(("empty name or slash", entry(mode, name, draw.id())))
            out.append(("empty name or slash", entry(*entry_of(draw, b" ")) + entry(mode, name, draw.id())))
    return out


def parts_of(raw):
    """The entries of a good tree."""
    out, at = [], 0
    while at < len(raw):
        end = raw.index(b"\0", at) + 21
        out.append(raw[at:end])
        at = end
    return out


def damaged(draw, good):
    """Trees made of good ones by a change of their bytes. Some are still good: Git says which."""
    small = [raw for raw in good if raw and len(raw) < 400]
    large = [raw for raw in good if len(raw) > 5000]
    many = [raw for raw in small if len(parts_of(raw)) > 2]
    out = []
    for _ in range(60):
        raw = draw.among(small)
        out.append(("cut", raw[:-1 - draw.below(min(len(raw) - 1, 30))]))
    for _ in range(30):
        parts = parts_of(draw.among(small))
        i = draw.below(len(parts))
        parts[i] = parts[i][:-1 - draw.below(20)]
        out.append(("id cut", b"".join(parts)))
    for byte, label in ((b"\0", "missing NUL"), (b" ", "missing space")):
        for _ in range(25):
            parts = parts_of(draw.among(small))
            i = draw.below(len(parts))
            parts[i] = parts[i].replace(byte, b"", 1)
            out.append((label, b"".join(parts)))
    for _ in range(50):
        parts = parts_of(draw.among(many))
        i = draw.below(len(parts) - 1)
        parts[i], parts[i + 1] = parts[i + 1], parts[i]
        out.append(("unsorted", b"".join(parts)))
    for _ in range(20):
        parts = parts_of(draw.among(many))
        out.append(("unsorted", b"".join(draw.mixed(parts))))
        out.append(("same name twice", b"".join(parts + [draw.among(parts)])))
    for _ in range(150):
        raw = draw.among(small)
        at, byte = draw.below(len(raw)), bytes([draw.below(256)])
        out.append(draw.among([
            ("byte changed", raw[:at] + byte + raw[at + 1:]),
            ("byte more", raw[:at] + byte + raw[at:]),
            ("byte less", raw[:at] + raw[at + 1:]),
        ]))
    for raw in large[:2]:
        parts = parts_of(raw)
        i = len(parts) - 3
        out.append(("unsorted", b"".join(parts[:i] + [parts[i + 1], parts[i]] + parts[i + 2:])))
        out.append(("byte less", raw[:-1]))
    for raw in (b"\0", b" ", b"1", b"100644", b"100644 ", b"100644 a", b"100644 a\0", b"\0" * 21, b" \0" + b"\1" * 20):
        out.append(("too short", raw))
    return out


def all_trees(git, draw):
    """Each raw tree with the label of how it was made, in a fixed order and without repeats."""
    sorted_by_git = good_listings(draw) + twins(draw)
    raws = git.contents(git.make_trees([listed(entries) for _, entries in sorted_by_git]))
    trees = [("empty tree", b"")] + [(label, raw) for (label, _), raw in zip(sorted_by_git, raws)]
    good = [raw for label, raw in trees if label in ("good", "several hundred entries")]
    trees += bad_modes(draw) + bad_names(draw) + damaged(draw, good)
    first = {}
    for label, raw in trees:
        first.setdefault(raw, label)
    return [(label, raw) for raw, label in first.items()]


def entries_listed(listing):
    """Mode, name and id of each entry that Git lists."""
    out = []
    for line in listing.split(b"\0")[:-1]:
        fields, name = line.split(b"\t", 1)
        mode, _, oid = fields.split(b" ")
        out.append((mode.lstrip(b"0"), name, bytes.fromhex(oid.decode())))
    return out


def stricter(raw, entries):
    """The own rules of docs/RULES.md, for a tree that Git does not find damaged: the one that it breaks, or None."""
    if any(len(name) > 255 for _, name, _ in entries):
        return "a name over 255 bytes"
    if b"".join(entry(*e) for e in entries) != raw:
        return "a mode's text that is not one of the five"
    if len({name for _, name, _ in entries}) < len(entries):
        return "a name twice"
    return None


def judge_trees(git, trees, ids, said):
    """The answer to each tree, and how it came about."""
    answers, ways, well = [], [], []
    for (_, raw), tree in zip(trees, ids):
        harm = said[tree] & DAMAGE
        if harm:
            answers.append("broken")
            ways.append(("git-broken", "+".join(sorted(harm))))
            continue
        listing = git.listing(tree)
        entries = entries_listed(listing)
        rule = stricter(raw, entries)
        if rule:
            answers.append("broken")
            ways.append(("by-rules-broken", rule))
            continue
        name_bytes = sum(len(name) for _, name, _ in entries)
        answers.append(f"well {len(entries)} {name_bytes} same")
        ways.append(("by-rules-well", "+".join(sorted(said[tree]))) if said[tree] else ("git-well", ""))
        well.append((tree, listing))
    again = git.make_trees([listing for _, listing in well])
    if again != [tree for tree, _ in well]:
        raise SystemExit("git mktree makes another tree of what git ls-tree lists")
    return answers, ways


# ---- the files ----

def table(version, pair_answers, trees, tree_answers, ways):
    by_way = Counter(way for way, _ in ways)
    pairs = Counter(pair_answers)
    lines = [
        f"Made with Git {version}, seed {SEED}.",
        "",
        "| Cases | Number |",
        "|---|---|",
        f"| pairs of names | {len(pair_answers)} |",
        *(f"| – {answer} | {pairs[answer]} |" for answer in ("less", "equal", "greater")),
        f"| raw trees | {len(trees)} |",
        f"| – well formed, Git's own verdict | {by_way['git-well']} |",
        f"| – well formed by docs/RULES.md, where Git only speaks against names or null ids | {by_way['by-rules-well']} |",
        f"| – broken, Git's own verdict | {by_way['git-broken']} |",
        f"| – broken by docs/RULES.md alone | {by_way['by-rules-broken']} |",
        "",
        "| Whose verdict | Why | Trees |",
        "|---|---|---|",
    ]
    owner = {"git-broken": "Git: broken", "by-rules-broken": "docs/RULES.md: broken", "by-rules-well": "docs/RULES.md: well formed"}
    for (way, why), n in sorted(Counter(w for w in ways if w[0] in owner).items()):
        lines.append(f"| {owner[way]} | {why.replace('+', ', ')} | {n} |")
    lines += ["", "| How the tree was made | Well formed | Broken |", "|---|---|---|"]
    tally = Counter((label, answer.split()[0]) for (label, _), answer in zip(trees, tree_answers))
    for label in sorted({label for label, _ in trees}):
        lines.append(f"| {label} | {tally[label, 'well']} | {tally[label, 'broken']} |")
    return "".join(line + "\n" for line in lines)


def make():
    with tempfile.TemporaryDirectory() as folder:
        git = Git(folder)
        pairs = all_pairs(Draw(SEED))
        pair_answers, pair_ids = judge_pairs(git, Draw(SEED + 1), pairs)
        trees = all_trees(git, Draw(SEED + 2))
        tree_ids = git.store([raw for _, raw in trees])
        said = git.said(pair_ids + tree_ids)
        confirm_pairs(pairs, pair_answers, pair_ids, said)
        tree_answers, ways = judge_trees(git, trees, tree_ids, said)
        version = git.version()
    cases = [f"{a}{x.hex()} {b}{y.hex()}" for a, x, b, y in pairs] + ["r" + raw.hex() for _, raw in trees]
    if max(map(len, cases)) >= LONGEST_LINE:
        raise SystemExit("a case is longer than the program's buffer")
    # The last lines show that a line that breaks the form stops the program.
    given = "".join(case + "\n" for case in cases + ["x", "f61 f62"])
    wanted = "".join(answer + "\n" for answer in pair_answers + tree_answers + ["bad line"])
    return given, wanted, table(version, pair_answers, trees, tree_answers, ways), version


def main():
    given, wanted, counts, version = make()
    doc = DOC.read_text()
    before, rest = doc.split(BEGIN)
    old_counts, after = rest.split(END)
    if sys.argv[1:] == ["--check"]:
        wrong = [str(path.relative_to(ROOT)) for path, text in ((STDIN, given), (STDOUT, wanted)) if path.read_text() != text]
        # Another Git may find itself what only docs/RULES.md refuses here: then the counts differ and the answers do not.
        if f"Git {version}," in old_counts and old_counts != counts:
            wrong.append(str(DOC.relative_to(ROOT)))
        if wrong:
            raise SystemExit("what Git " + version + " says differs from " + ", ".join(wrong))
        print(f"git vectors: {wanted.count(chr(10)) - 1} cases are as Git {version} judges them")
    elif sys.argv[1:] == []:
        STDIN.write_text(given)
        STDOUT.write_text(wanted)
        DOC.write_text(before + BEGIN + counts + END + after)
        print(counts, end="")
    else:
        raise SystemExit(__doc__)


if __name__ == "__main__":
    main()

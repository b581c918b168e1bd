"""A damaged tree mended, told from the request's words alone, and damaged trees to try it on.

    judge.py COUNT SEED COMMAND...   runs the command on COUNT damaged trees (raw bytes on its standard input) and compares what it writes

The command is the program `mend`; ids of 32 bytes are asked for by one more argument, 32.
"""
import random
import subprocess
import sys

MODES = (b"40000", b"100644", b"100755", b"120000", b"160000")
ENTRIES, NAME_BYTES = 1024, 16384


def key(entry):
    mode, name, _ = entry
    return name + b"/" if mode == b"40000" else name


def good(name):
    return 0 < len(name) <= 255 and b"/" not in name and b"\0" not in name


def entries(raw, width):
    """The entries that can be read, and how many bytes are left behind them."""
    found, at = [], 0
    while True:
        space = raw.find(b" ", at)
        if space < 0:
            break
        nul = raw.find(b"\0", space + 1)
        if nul < 0 or len(raw) - nul - 1 < width:
            break
        found.append((raw[at:space], raw[space + 1:nul], raw[nul + 1:nul + 1 + width]))
        at = nul + 1 + width
    return found, len(raw) - at


def mended(raw, width, room=None):
    """The number, and for 0 the five lines' numbers and the tree; for 11 the length needed."""
    found, cut = entries(raw, width)
    kept, badname, badmode, double = [], 0, 0, 0
    names = set()
    for entry in found:
        mode, name, _ = entry
        if not good(name):
            badname += 1
        elif mode not in MODES:
            badmode += 1
        elif name in names:
            double += 1
        else:
            names.add(name)
            kept.append(entry)
    if len(kept) > ENTRIES or sum(map(len, names)) > NAME_BYTES:
        return (5,)
    tree = sorted(kept, key=key)
    out = b"".join(m + b" " + n + b"\0" + i for m, n, i in tree)
    if room is not None and room < len(out):
        return (11, len(out))
    return (0, cut, badname, badmode, double, int(tree != kept), out)


def report(raw, width):
    """What the program writes."""
    answer = mended(raw, width)
    if answer[0]:
        return b"code=%d\n" % answer[0]
    lines = zip((b"cut", b"badname", b"badmode", b"double", b"moved"), answer[1:6])
    return b"".join(b"%s=%d\n" % line for line in lines) + b"raw=" + answer[6].hex().encode() + b"\n"


def name(rng):
    kind = rng.randrange(20)
    if kind < 9:
        return bytes(rng.choice(b"ab-./0") for _ in range(rng.randrange(1, 4))).replace(b"/", b"0")
    if kind < 14:
        return b"exercise-%02d.c" % rng.randrange(40)
    if kind == 14:
        return b""
    if kind == 15:
        return b"a/b"
    if kind == 16:
        return b"n" * rng.choice((254, 255, 256, 300))
    return bytes(rng.randrange(1, 256) for _ in range(rng.randrange(1, 9)))


def mode(rng):
    return rng.choice(MODES) if rng.randrange(12) else rng.choice((b"", b"040000", b"100664", b"100666", b"40001", b"1", b"10064x", b"4000000000000", b"\0"))


def damaged(rng, width):
    """A tree, often a well-formed one at first, with some damage."""
    size = rng.choice((0, 1, 2, 3, 5, 8, 13, 40)) if rng.randrange(200) else rng.choice((1023, 1024, 1025, 1100))
    long = rng.randrange(40) == 0 and size == 40
    parts = []
    for i in range(size):
        if size > 1000:
            n = b"%05d" % rng.randrange(100000) + b"x" * (rng.choice((11, 12)))
        else:
            n = name(rng) if not long else b"%03d" % i + b"y" * rng.choice((250, 252))
        parts.append((mode(rng), n, rng.randbytes(width)))
    if rng.randrange(2):
        seen, clean = set(), []
        for m, n, i in parts:
            if good(n) and m in MODES and n not in seen:
                seen.add(n)
                clean.append((m, n, i))
        parts = sorted(clean, key=key)
        if parts and rng.randrange(3):
            for _ in range(rng.randrange(1, 3)):
                i, j = rng.randrange(len(parts)), rng.randrange(len(parts))
                what = rng.randrange(4)
                if what == 0:
                    parts[i], parts[j] = parts[j], parts[i]
                elif what == 1:
                    parts.insert(j, (mode(rng), parts[i][1], parts[i][2]))
                elif what == 2:
                    parts[i] = (mode(rng), parts[i][1], parts[i][2])
                else:
                    parts[i] = (parts[i][0], name(rng), parts[i][2])
    raw = bytearray(b"".join(m + b" " + n + b"\0" + i for m, n, i in parts))
    what = rng.randrange(6)
    if what == 0 and raw:
        raw = raw[:rng.randrange(len(raw))]
    elif what == 1 and raw:
        raw[rng.randrange(len(raw))] = rng.choice((0, 32, 47, 48, rng.randrange(256)))
    elif what == 2:
        raw += rng.choice((b"1", b"100644", b"100644 a", b"100644 a\0", b"garbage", rng.randbytes(30)))
    return bytes(raw)


def main():
    count, seed, command = int(sys.argv[1]), int(sys.argv[2]), sys.argv[3:]
    rng = random.Random(seed)
    tally = {}
    for turn in range(count):
        width = rng.choice((20, 32))
        raw = damaged(rng, width)
        got = subprocess.run(command + ["32"] * (width == 32), input=raw, capture_output=True, check=True).stdout
        want = report(raw, width)
        if got != want:
            print(f"tree {turn}, ids of {width} bytes: {raw.hex()}\nwant {want!r}\ngot  {got!r}")
            sys.exit(1)
        answer = mended(raw, width)
        for word, n in zip(("cut", "badname", "badmode", "double", "moved"), answer[1:6] if not answer[0] else ()):
            tally[word] = tally.get(word, 0) + (n > 0)
        tally[f"code {answer[0]}"] = tally.get(f"code {answer[0]}", 0) + 1
        tally["unchanged"] = tally.get("unchanged", 0) + (answer[0] == 0 and answer[-1] == raw)
    print(f"{count} damaged trees, all the same:", ", ".join(f"{k} {v}" for k, v in sorted(tally.items())))


if __name__ == "__main__":
    main()

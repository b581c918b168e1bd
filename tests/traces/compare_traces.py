#!/usr/bin/env python3
"""Runs programs that speak the trace protocol over the same traces and reports the first difference.

    compare_traces.py [options] TRACES... -- COMMAND... -- COMMAND...
    compare_traces.py [options] --replay ANSWERS -- COMMAND...

TRACES are files of tests/oracle/PROTOCOL.md, `-` for standard input. ANSWERS is a file made by --record from one program's
answers: silent lines of input stand behind `> `, and the other calls are read off the answers themselves.
Options: --batch N (calls given to a program at once, 20000), --no-shrink, --record FILE (write the first program's
answers), --need N,M,.. (these numbers must occur), --counts FILE (add the counts to FILE's, a JSON file, and print their
sum), --digests FILE (SHA-256 of the first program's answers, batch by batch: written, or where FILE stands used, so that the
first program runs only to show a difference), --quiet.
Exit status 1 on a difference, a crash, or a number that was needed and did not occur.
"""
import argparse
import collections
import hashlib
import json
import os
import re
import subprocess
import sys

SILENT = ("object", "table", "dump")


def traces(files):
    """Each trace as a list of its lines."""
    now = []
    for name in files:
        with (sys.stdin if name == "-" else open(name)) as f:
            for line in f:
                line = line.rstrip("\n")
                if not line.strip() or line.startswith("#"):
                    continue
                if line.split()[0] == "trace" and now:
                    yield now
                    now = []
                now.append(line)
    if now:
        yield now


def replayed(name):
    """The calls of an answer file with the answers that belong to each trace."""
    calls, answers = [], []
    with open(name) as f:
        for line in f:
            line = line.rstrip("\n")
            if line.startswith("#") or not line:
                continue
            if line.startswith("trace ") and calls:
                yield calls, answers
                calls, answers = [], []
            if line.startswith("> "):
                calls.append(line[2:])
                continue
            answers.append(line)
            if not line.startswith(" "):
                calls.append(line.split(" => ")[0])
    if calls:
        yield calls, answers


def run(command, calls):
    """What a program prints for these calls; where it ends badly, that is a line of its own."""
    done = subprocess.run(command, input="".join(c + "\n" for c in calls).encode(), stdout=subprocess.PIPE,
                          stderr=subprocess.PIPE)
    out = done.stdout
    if done.returncode:
        last = done.stderr.decode("utf-8", "replace").strip().splitlines()[-3:]
        out += ("!! ended with status %d: %s\n" % (done.returncode, " | ".join(last))).encode()
    return out


def lines_of(out):
    return out.decode("ascii", "replace").splitlines()


def first_difference(a, b):
    for k in range(max(len(a), len(b))):
        x = a[k] if k < len(a) else "(no line)"
        y = b[k] if k < len(b) else "(no line)"
        if x != y:
            return k, x, y
    return None


def calls_until(trace, answers, k):
    """The trace's calls up to the one whose answer holds line k."""
    heads = sum(1 for line in answers[:k + 1] if not line.startswith(" "))
    if k < len(answers) and answers[k].startswith(" wrote"):
        heads += 1
    out, seen = [], 0
    for call in trace:
        out.append(call)
        if call.split()[0] not in SILENT:
            seen += 1
            if seen == heads:
                break
    return out


def shrunk(trace, differs):
    """A smaller trace that still differs: calls are left out as long as it does."""
    size = max(1, len(trace) // 2)
    while size:
        at = 1  # the `trace` line stays
        while at < len(trace):
            less = trace[:at] + trace[at + size:]
            if differs(less):
                trace = less
            else:
                at += size
        size //= 2
    return trace


class Counts:
    """How often each call gave each number; for failed writes, at which request; writes begun, by where they start."""

    ANSWER = re.compile(rb" => (\w+)( done)?")

    def __init__(self):
        self.by_kind = collections.Counter()
        self.by_number = collections.Counter()
        self.failed_at = collections.Counter()
        self.begun = collections.Counter()
        self.traces = 0
        self.request = 0

    def add(self, out):
        """The answers in a program's output; calls stand at the beginning of a line."""
        for found in self.ANSWER.finditer(out):
            start = out.rfind(b"\n", 0, found.start()) + 1
            call = out[start:out.find(b" ", start)].decode()
            number = found[1].decode()
            self.by_kind[call, number] += 1
            self.by_number[number] += 1
            if number == "0" and call in ("begin", "answer", "fail", "finish"):
                self.add_write(call, found[2], out[start:start + 64].split())

    def add_write(self, call, done, words):
        if call in ("begin", "finish"):
            self.begun["root" if words[1] == b"." else "cursor at the root" if words[1] == b"-" else "cursor"] += 1
        if call == "fail":
            self.failed_at[str(self.request)] += 1
        self.request = 1 if call == "begin" else self.request + 1

    def merge(self, name):
        """Adds what the file holds, and writes the sum back."""
        if os.path.exists(name):
            with open(name) as f:
                old = json.load(f)
            self.traces += old["traces"]
            self.by_number.update(old["by_number"])
            self.failed_at.update(old["failed_at"])
            self.begun.update(old["begun"])
            self.by_kind.update({tuple(k.split()): n for k, n in old["by_kind"].items()})
        with open(name, "w") as f:
            json.dump({"traces": self.traces, "by_number": self.by_number, "failed_at": self.failed_at, "begun": self.begun,
                       "by_kind": {" ".join(k): n for k, n in self.by_kind.items()}}, f)

    def text(self):
        order = [str(n) for n in range(14)] + ["none"]
        kinds = sorted({k for k, _ in self.by_kind})
        shown = [n for n in order if self.by_number[n]]
        rows = [["call"] + shown + ["all"]]
        for kind in kinds:
            row = [self.by_kind[kind, n] for n in shown]
            rows.append([kind] + [c or "." for c in row] + [sum(row)])
        rows.append(["all"] + [self.by_number[n] for n in shown] + [sum(self.by_number.values())])
        widths = [max(len(str(r[k])) for r in rows) for k in range(len(rows[0]))]
        lines = ["  ".join(str(c).rjust(w) for c, w in zip(r, widths)) for r in rows]
        if self.begun:
            lines.append("writes begun: " + ", ".join("%s %d" % pair for pair in sorted(self.begun.items())))
        if self.failed_at:
            lines.append("failed at request: " + ", ".join("%s: %d" % (k, self.failed_at[k]) for k in sorted(self.failed_at, key=int)))
        return "\n".join(["%d traces, %d calls; answers by number:" % (self.traces, sum(self.by_number.values()))]
                         + lines)


class Digests:
    """Those of one program's answers to each batch; without a name, none are known and none are kept."""

    def __init__(self, name):
        self.name, self.known, self.made = name, [], []
        if name and os.path.exists(name):
            with open(name) as f:
                self.known = f.read().split()

    def has(self, number, out):
        return number < len(self.known) and self.known[number] == hashlib.sha256(out).hexdigest()

    def add(self, out):
        if self.name:
            self.made.append(hashlib.sha256(out).hexdigest())

    def close(self):
        if self.name and not self.known:
            with open(self.name, "w") as f:
                f.write("".join(d + "\n" for d in self.made))


def report(names, trace, answers, other, found):
    k, x, y = found
    print("DIFFERENCE after the last call of this trace:")
    for call in calls_until(trace, answers if k < len(answers) else other, k):
        print("  " + call)
    for name, line in zip(names, (x, y)):
        print("%s: %s" % (name, line))


def batches(items, size):
    now, calls = [], 0
    for trace, known in items:
        now.append((trace, known))
        calls += len(trace)
        if calls >= size:
            yield now
            now, calls = [], 0
    if now:
        yield now


def locate(batch, runs):
    """The first trace of a batch whose answers differ, run alone."""
    for trace, known in batch:
        a, b = runs(trace, known)
        found = first_difference(a, b)
        if found:
            return trace, known, a, b, found
    return None


def main():
    argv = sys.argv[1:]
    commands = []
    while "--" in argv:
        cut = len(argv) - 1 - argv[::-1].index("--")
        commands.insert(0, argv[cut + 1:])
        argv = argv[:cut]
    p = argparse.ArgumentParser(usage=__doc__)
    p.add_argument("traces", nargs="*")
    p.add_argument("--replay")
    p.add_argument("--record")
    p.add_argument("--header", default="")
    p.add_argument("--batch", type=int, default=20000)
    p.add_argument("--no-shrink", action="store_true")
    p.add_argument("--need", default="")
    p.add_argument("--counts")
    p.add_argument("--digests")
    p.add_argument("--quiet", action="store_true")
    o = p.parse_args(argv)
    if len(commands) != (1 if o.replay or o.record else 2):
        p.error("one command with --replay or --record, else two")

    items = replayed(o.replay) if o.replay else ((t, None) for t in traces(o.traces))
    names = [o.replay or " ".join(commands[0]), " ".join(commands[-1])]
    record = open(o.record, "w") if o.record else None
    if record and o.header:
        record.write("".join("# %s\n" % line for line in o.header.split("|")))

    def both(trace, known):
        return known if known is not None else lines_of(run(commands[0], trace)), lines_of(run(commands[-1], trace))

    counts, digests = Counts(), Digests(o.digests)
    for number, batch in enumerate(batches(items, o.batch)):
        calls = [c for t, _ in batch for c in t]
        b = b"" if record else run(commands[-1], calls)
        if digests.has(number, b):
            a = b
        else:
            a = "".join(x + "\n" for _, k in batch for x in k).encode() if o.replay else run(commands[0], calls)
            digests.add(a)
        counts.add(a)
        counts.traces += len(batch)
        if record:
            write_record(record, calls, lines_of(a))
            continue
        if a == b:
            continue
        found = first_difference(lines_of(a), lines_of(b))
        one = locate(batch, both)
        if one is None:
            print("DIFFERENCE in a batch, none in its traces alone: state left over from one trace to the next")
            print("\n".join("%s: %s" % pair for pair in zip(names, found[1:])))
            sys.exit(1)
        trace, known, a, b, found = one
        report(names, trace, a, b, found)
        if not o.replay and not o.no_shrink:
            less = shrunk(calls_until(trace, a if found[0] < len(a) else b, found[0]),
                          lambda t: first_difference(*both(t, None)) is not None)
            a, b = both(less, None)
            print("\nShrunk:")
            report(names, less, a, b, first_difference(a, b))
        sys.exit(1)
    digests.close()
    if not record:
        print("no difference: %d traces, %d calls" % (counts.traces, sum(counts.by_number.values())))
    if o.counts:
        counts.merge(o.counts)
    missing = [n for n in o.need.split(",") if n and not counts.by_number[n]]
    if not o.quiet:
        print(counts.text())
    if missing:
        print("these numbers did not occur: " + ", ".join(missing))
        sys.exit(1)


def write_record(record, calls, answers):
    """Calls that print nothing stand behind `> `, where they were made."""
    at = 0
    for call in calls:
        if call.split()[0] in SILENT:
            record.write("> %s\n" % call)
            continue
        seen = False
        while at < len(answers) and not (seen and not is_dump(answers[at])):
            seen = seen or not answers[at].startswith(" ")
            record.write(answers[at] + "\n")
            at += 1


def is_dump(line):
    return line.startswith(" ") and not line.startswith(" wrote")


if __name__ == "__main__":
    main()

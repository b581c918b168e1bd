#!/usr/bin/env python3
"""Runs two small programs over the inputs of tests/small/small_inputs.py and reports the first difference.

    compare_small.py [--seed N] [--count N] [--step N] -- COMMAND... -- COMMAND...
    compare_small.py --record FILE -- COMMAND...     (or --replay FILE, which may take --step and --transfer)

The command `model` means tests/traces/model01.py without a new process. --step N takes every Nth input. --transfer N feeds the last
program through a pipe that hands over N bytes a read, however many are asked for. A recorded FILE has one
line an input: its number, the front of its SHA-256, and the output with `|` for newlines, or the output's SHA-256 where it
is long. Exit status 1 on a difference.
"""
import argparse
import collections
import hashlib
import os
import subprocess
import sys
from pathlib import Path

import small_inputs

sys.path.insert(0, str(Path(__file__).resolve().parents[1] / "traces"))
import model01  # noqa: E402


def feed(command, data, transfer):
    """Run a program over a pipe of packets: a read gets what one write wrote, at most."""
    out, into = os.pipe2(os.O_DIRECT)
    with subprocess.Popen(command, stdin=out, stdout=subprocess.PIPE) as p:
        os.close(out)
        try:
            for at in range(0, len(data), transfer):
                os.write(into, data[at:at + transfer])
        except BrokenPipeError:  # the program has read as much as it wants
            pass
        os.close(into)
        text = p.stdout.read()
        return subprocess.CompletedProcess(command, p.wait(), text)


def run(command, data, transfer=None):
    if command == ["model"]:
        return model01.small(data[:65537])
    if transfer:
        done = feed(command, data, transfer)
    else:
        done = subprocess.run(command, input=data, stdout=subprocess.PIPE)
    return done.stdout if done.returncode == 0 else done.stdout + b"!! status %d" % done.returncode


def line_of(k, data, out):
    shown = out.decode("ascii", "replace").replace("\n", "|")
    if len(shown) > 400:
        shown = "sha256:" + hashlib.sha256(out).hexdigest()
    return "%d %s %s" % (k, hashlib.sha256(data).hexdigest()[:12], shown)


def against_file(o, command, data):
    """Record the program's outputs, or compare them with those recorded."""
    lines = [line_of(k, d, run(command, d, o.transfer)) for k, d in enumerate(data) if k % o.step == 0]
    if o.record:
        with open(o.record, "w") as f:
            f.write("# Outputs of oracle-small to the inputs of tests/small/small_inputs.py --seed %d --count %d.\n"
                    "# Made by tests/traces/record_answers.sh; the form stands in tests/small/compare_small.py.\n" % (o.seed, o.count))
            f.write("".join(line + "\n" for line in lines))
        return
    with open(o.replay) as f:
        known = [line.rstrip("\n") for line in f if not line.startswith("#")][::o.step]
    for want, got in zip(known, lines):
        if want != got:
            sys.exit("DIFFERENCE: %s\n%s: %s" % (want, " ".join(command), got))
    if len(known) != len(lines):
        sys.exit("DIFFERENCE: %d inputs, %d answers" % (len(lines), len(known)))
    print("no difference: %d inputs of the small program" % len(lines))


def main():
    argv, commands = sys.argv[1:], []
    while "--" in argv:
        cut = len(argv) - 1 - argv[::-1].index("--")
        commands.insert(0, argv[cut + 1:])
        argv = argv[:cut]
    p = argparse.ArgumentParser(usage=__doc__)
    p.add_argument("--seed", type=int, default=1)
    p.add_argument("--count", type=int, default=200)
    p.add_argument("--step", type=int, default=1)
    p.add_argument("--transfer", type=int)
    p.add_argument("--record")
    p.add_argument("--replay")
    o = p.parse_args(argv)
    if o.record or o.replay:
        return against_file(o, commands[0], small_inputs.inputs(o.seed, o.count))
    if len(commands) != 2:
        p.error("two commands, each behind --")
    seen = collections.Counter()
    for k, data in enumerate(small_inputs.inputs(o.seed, o.count)):
        if k % o.step:
            continue
        a, b = run(commands[0], data), run(commands[1], data, o.transfer)
        if a != b:
            print("DIFFERENCE at input %d (%d bytes): %r" % (k, len(data), data[:2000]))
            for c, out in zip(commands, (a, b)):
                print("%s: %r" % (" ".join(c), out[:2000]))
            sys.exit(1)
        seen["inputs"] += 1
        seen["bad=0" if a == b"bad=0\n" else "bad=N" if a.startswith(b"bad=") else "written"] += 1
        seen["with a refused edit"] += b"code=" in a
    print("no difference: " + ", ".join("%d %s" % (n, what) for what, n in seen.items()))


if __name__ == "__main__":
    main()

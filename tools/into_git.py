#!/usr/bin/env python3
"""Puts the trees that the small program wrote into a new Git repository, and lets Git check them.

    small < samples/lesson.records | into_git.py DIRECTORY

The program counts its trees, 1, 2, and so on, and that count stands for a tree's id: here each tree gets Git's own id, from
the bottom up, and the trees above it name that. A blob's content is made up from the id that the records gave it. Git then
checks every object (fsck), lists the root (ls-tree), and writes the same tree once more from a list of its files: the root's
id must be the same. Lines of refused edits are passed on. Exit status 1 where Git does not agree.
"""
import os
import subprocess
import sys


def git(where, *words, data=None):
    env = dict(os.environ, GIT_AUTHOR_NAME="a", GIT_AUTHOR_EMAIL="a@b", GIT_COMMITTER_NAME="a", GIT_COMMITTER_EMAIL="a@b")
    return subprocess.run(["git", "-C", where, *words], input=data, check=True, stdout=subprocess.PIPE, env=env).stdout


def entries(raw):
    """The entries of a raw tree: mode, name, id."""
    while raw:
        head, rest = raw.split(b"\0", 1)
        mode, name = head.split(b" ", 1)
        yield mode, name, rest[:20]
        raw = rest[20:]


def real_id(where, mode, number, trees):
    """Git's id for what an entry names: a tree that was written before, a made-up blob, or another repository's commit."""
    if mode == b"40000":
        if number not in trees:
            sys.exit("a tree that was not written: " + number.hex())
        return trees[number]
    if mode == b"160000":
        return number
    made_up = b"Made up for " + number.hex().encode() + b"\n"
    return bytes.fromhex(git(where, "hash-object", "-w", "--stdin", data=made_up).decode().strip())


def store(where, lines):
    """Writes the trees as objects; gives the root's id."""
    trees, root = {}, None
    for line in lines:
        key, value = line.rstrip("\n").split("=", 1)
        if key == "raw":
            raw = b"".join(m + b" " + n + b"\0" + real_id(where, m, i, trees) for m, n, i in entries(bytes.fromhex(value)))
            count = (len(trees) + 1).to_bytes(20, "big")
            trees[count] = bytes.fromhex(git(where, "hash-object", "-t", "tree", "-w", "--stdin", data=raw).decode().strip())
        elif key == "root":
            root = trees[bytes.fromhex(value)].hex()
        elif key != "tree":
            print(line, end="")
    return root


def main():
    if len(sys.argv) != 2:
        sys.exit(__doc__)
    where = sys.argv[1]
    subprocess.run(["git", "init", "-q", where], check=True)
    root = store(where, sys.stdin)
    if root is None:
        sys.exit("no tree was written")
    commit = git(where, "commit-tree", root, "-m", "Written by the small program").decode().strip()
    git(where, "update-ref", "HEAD", commit)
    git(where, "fsck", "--strict", "--no-progress")
    listing = git(where, "ls-tree", "-r", "-z", root)
    git(where, "update-index", "-z", "--index-info", data=listing)
    again = git(where, "write-tree").decode().strip()
    if again != root:
        sys.exit("Git writes another tree: %s, not %s" % (again, root))
    sys.stdout.flush()
    sys.stdout.buffer.write(git(where, "-c", "core.quotePath=false", "ls-tree", "-r", "-t", root))
    print("root %s: Git finds nothing wrong, and writes the same tree" % root)


if __name__ == "__main__":
    main()

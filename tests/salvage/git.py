"""What comes out of the salvage, told by Git, in both formats of ids.

    git.py COUNT SEED COMMAND...   mends COUNT damaged trees by the command; Git's `hash-object` takes each of them as a tree, `mktree` makes
                                   the same id of its entries, and `fsck` finds no error in any
"""
import os
import random
import subprocess
import sys
import tempfile

import judge

KINDS = {b"40000": b"tree", b"160000": b"commit"}
# names that Git itself does not want in a tree, though they may stand in one
ODD = {b".", b".."}


def git(where, *words, data=None):
    return subprocess.run(("git", "-C", where) + words, input=data, capture_output=True, check=True).stdout


def listed(entries):
    """The entries in the form that `mktree` reads."""
    return b"".join(m.rjust(6, b"0") + b" " + KINDS.get(m, b"blob") + b" " + i.hex().encode() + b"\t" + n + b"\0" for m, n, i in entries)


def strange(name):
    return name in ODD or name.lower().startswith((b".git", b"git~"))


def main():
    count, seed, command = int(sys.argv[1]), int(sys.argv[2]), sys.argv[3:]
    rng = random.Random(seed)
    with tempfile.TemporaryDirectory() as top:
        homes = {}
        for width, form in ((20, "sha1"), (32, "sha256")):
            homes[width] = os.path.join(top, form)
            subprocess.run(("git", "init", "-q", "--object-format=" + form, homes[width]), check=True)
        done = skipped = 0
        while done < count:
            width = rng.choice((20, 32))
            raw = judge.damaged(rng, width)
            out = subprocess.run(command + ["32"] * (width == 32), input=raw, capture_output=True, check=True).stdout
            if not out.startswith(b"cut="):
                continue
            tree = bytes.fromhex(out.split(b"raw=")[1].decode())
            entries, left = judge.entries(tree, width)
            assert left == 0
            if any(strange(n) for _, n, _ in entries) or any(not any(i) for _, _, i in entries):
                skipped += 1
                continue
            one = git(homes[width], "hash-object", "-t", "tree", "-w", "--stdin", data=tree)
            two = git(homes[width], "mktree", "--missing", "-z", data=listed(entries))
            if one != two:
                print(f"ids of {width} bytes, {raw.hex()}: {one} and {two}")
                sys.exit(1)
            done += 1
        for width, home in homes.items():
            said = subprocess.run(("git", "-C", home, "fsck", "--no-dangling"), capture_output=True)
            bad = [line for line in (said.stdout + said.stderr).split(b"\n") if line.startswith((b"error in tree", b"warning in tree"))]
            if bad:
                print(b"\n".join(bad).decode())
                sys.exit(1)
    print(f"{done} mended trees are trees to Git, with the same ids; {skipped} with names or ids that Git does not want were left out")


if __name__ == "__main__":
    main()

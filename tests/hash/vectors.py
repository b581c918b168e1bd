"""Writes the cases of the program test_hash, crates/test_hash/stdin, and what it must write, crates/test_hash/stdout.

The standard's examples (FIPS 180-4: its one, two and many blocks) with the values that it publishes; messages of the lengths in NIST's
validation lists, short and long, from a fixed seed, with the values of Python's hashlib; and objects with the ids that Git gives them.
A line is a letter, a message in hex and the value in hex: 1 and 2 for SHA-1 and SHA-256, m and n for the message a thousand times,
t and u for the id of a tree with 20 and 32 bytes, b and c for that of a blob.
"""
import hashlib
import os
import random
import subprocess
import tempfile

ABC = b"abc"
TWO = b"abcdbcdecdefdefgefghfghighijhijkijkljklmklmnlmnomnopnopq"
LONG = b"abcdefghbcdefghicdefghijdefghijkefghijklfghijklmghijklmnhijklmnoijklmnopjklmnopqklmnopqrlmnopqrsmnopqrstnopqrstu"
PUBLISHED = [
    ("1", ABC, "a9993e364706816aba3e25717850c26c9cd0d89d"),
    ("1", TWO, "84983e441c3bd26ebaae4aa1f95129e5e54670f1"),
    ("1", LONG, "a49b2446a02c645bf419f995b67091253a04a259"),
    ("m", b"a" * 1000, "34aa973cd4c4daa4f61eeb2bdbad27316534016f"),
    ("2", ABC, "ba7816bf8f01cfea414140de5dae2223b00361a396177a9cb410ff61f20015ad"),
    ("2", TWO, "248d6a61d20638b8e5c026930c3e6039a33ce45964ff2167f6ecedd419db06c1"),
    ("2", LONG, "cf5b16a778af8380036ce59e7b0492370b249b11e8f07a51afac45037afee9d1"),
    ("n", b"a" * 1000, "cdc76e5c9914fb9281a1c7e284d73e67f1809a48a497200e046d39ccc7112cd0"),
    ("t", b"", "4b825dc642cb6eb9a060e54bf8d69288fbee4904"),
    ("u", b"", "6ef19b41225c5369f1c104d45d8d85efa9b057b53b14b4b9b939dd74decc5321"),
]
GIT = {"t": ("tree", "sha1"), "u": ("tree", "sha256"), "b": ("blob", "sha1"), "c": ("blob", "sha256")}


def by_git(homes, letter, body):
    kind, form = GIT[letter]
    return subprocess.run(("git", "-C", homes[form], "hash-object", "-t", kind, "--stdin"), input=body, capture_output=True, check=True).stdout.decode().strip()


def cases():
    yield from PUBLISHED
    rng = random.Random(180)
    for letter, hashed in (("1", hashlib.sha1), ("2", hashlib.sha256)):
        for size in list(range(65)) + [163 + 99 * k for k in (0, 1, 7, 21, 42, 63)]:
            message = rng.randbytes(size)
            yield letter, message, hashed(message).hexdigest()
    with tempfile.TemporaryDirectory() as top:
        homes = {form: os.path.join(top, form) for form in ("sha1", "sha256")}
        for form, home in homes.items():
            subprocess.run(("git", "init", "-q", "--object-format=" + form, home), check=True)
        for size in (0, 1, 9, 10, 55, 56, 63, 64, 99, 100, 119, 1000):
            body = rng.randbytes(size)
            for letter in "bc":
                yield letter, body, by_git(homes, letter, body)
        for count in (1, 2, 3, 10, 25, 100):
            for letter, width in (("t", 20), ("u", 32)):
                raw = b"".join(b"100644 file-%04d\0" % i + rng.randbytes(width) for i in range(count))
                yield letter, raw, by_git(homes, letter, raw)


def main():
    with open("crates/test_hash/stdin", "w") as lines, open("crates/test_hash/stdout", "w") as wanted:
        for letter, message, value in cases():
            lines.write(f"{letter}{message.hex()} {value}\n")
            wanted.write(f"id={value}\n")


if __name__ == "__main__":
    main()

#!/usr/bin/env python3
"""Packs cases for the program `cases`, and takes them apart again.

  tools/cases.py pack FOLDER..     writes crates/cases/stdin and stdout from all NAME.in and NAME.out of the folders
  tools/cases.py unpack FOLDER     writes NAME.in and NAME.out of all cases that are packed

A packed case is a line with its name and the length of its input, the bytes of the input, and a line end. What the
program prints of it is a line with its name and the lines of its run."""
import glob
import os
import sys

STDIN = "crates/cases/stdin"
STDOUT = "crates/cases/stdout"


def read(path):
    with open(path, "rb") as f:
        return f.read()


def pack(folders):
    inputs, outputs = b"", b""
    for folder in folders:
        for path in sorted(glob.glob(os.path.join(folder, "*.in"))):
            name = os.path.basename(path)[:-3].encode()
            given = read(path)
            inputs += b"%s %d\n%s\n" % (name, len(given), given)
            outputs += name + b"\n" + read(path[:-3] + ".out")
    for path, content in ((STDIN, inputs), (STDOUT, outputs)):
        with open(path, "wb") as f:
            f.write(content)


def unpack(folder):
    rest, printed = read(STDIN), read(STDOUT)
    cases = []
    while rest:
        head, rest = rest.split(b"\n", 1)
        name, length = head.rsplit(b" ", 1)
        cases.append((name, rest[: int(length)]))
        rest = rest[int(length) + 1 :]
    for i, (name, given) in enumerate(cases):
        printed = printed[len(name) + 1 :]
        end = len(printed) if i + 1 == len(cases) else printed.index(b"\n" + cases[i + 1][0] + b"\n") + 1
        for ending, content in ((".in", given), (".out", printed[:end])):
            with open(os.path.join(folder, name.decode() + ending), "wb") as f:
                f.write(content)
        printed = printed[end:]


if __name__ == "__main__":
    if len(sys.argv) >= 3 and sys.argv[1] == "pack":
        pack(sys.argv[2:])
    elif len(sys.argv) == 3 and sys.argv[1] == "unpack":
        unpack(sys.argv[2])
    else:
        sys.exit(__doc__)

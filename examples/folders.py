#!/usr/bin/env python3
"""Counts the damaged files of a tree by folder, by `legacy check` as a function, the folder with the most first.

    examples/folders.py LABEL TREE          all files of the tree are in this encoding

`gate` and the index files are those that the command `legacy` finds: README.md, "Install"."""
import collections
import os
import pathlib
import sys

sys.path.insert(0, str(pathlib.Path(__file__).resolve().parent.parent / "clients"))
from legacy.check import check
from legacy.finding import find
from legacy.work import Settings


def main(label, tree):
    damaged = collections.Counter()
    for row in check([tree], Settings(find(), default=label)):
        damaged[os.path.dirname(row.path)] += bool(row.damage)
    for folder, count in damaged.most_common():
        print(f"{count:6} {folder}")


if len(sys.argv) != 3:
    sys.exit(__doc__)
main(*sys.argv[1:])

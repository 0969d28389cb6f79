#!/usr/bin/env python3
"""Repairs a letter: replaces a damaged byte, and shows that no other byte changed.

    examples/repair.py INDEXES LABEL FILE AT BYTE

INDEXES is the folder of the Standard's files, AT the number of the byte, BYTE its two new hexadecimal digits. The file
is unchanged; the last line printed has the bytes that a save would write, as hexadecimal digits."""
import os
import pathlib
import sys

TOP = pathlib.Path(__file__).resolve().parent.parent
PROGRAM = os.environ.get("GATE", str(TOP / "gate"))
sys.path.insert(0, str(TOP / "clients"))
from gate import Gate


def main(indexes, label, path, at, byte):
    before = pathlib.Path(path).read_bytes()
    with Gate.start(PROGRAM, "stdio", "--indexes", indexes) as gate:
        letter = gate.open("letter", label, before)
        print(letter.text(), "errors:", letter.errors())
        letter.splice(int(at), 1, bytes.fromhex(byte))
        print(letter.text(), "errors:", letter.errors())
        after = letter.source()
    changed = [it for it in range(len(before)) if before[it] != after[it]]
    print("changed bytes:", changed, "of", len(after))
    print(after.hex(" "))


if len(sys.argv) != 6:
    sys.exit(__doc__)
main(*sys.argv[1:])

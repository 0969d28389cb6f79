#!/usr/bin/env python3
"""Random edits of the files of editors/damage, saved, and compared with the bytes that are known for each character.

usage: draws.py [COUNT [SEED]]

makes COUNT edits of each file, over the program that GATE names, and prints what became of them."""
import collections
import random
import sys
import time
from typing import Counter, Dict, Iterator, List, NamedTuple, Optional, Tuple

from checkout import TOP
from gate import Gate
from legacy.saving import Refused, read, save

sys.path.insert(0, str(TOP / "editors" / "damage"))
from files import FILES, File  # noqa: E402

# A character and its bytes, which are None where it is typed.
Cell = Tuple[str, Optional[bytes]]


class Drawn(NamedTuple):
    """An edited text, its bytes where they are known, and how it was edited."""

    text: str
    raw: bytes
    how: List[str]


class Source:
    """A file, with the bytes of each of its characters."""

    def __init__(self, gate: Gate, file: File):
        self.gate, self.file = gate, file
        self.known = read(gate, file.label, file.before)
        self.typed: Dict[str, bytes] = {}
        self.cells: List[Cell] = []
        document = gate.open("cells", file.label, file.before)
        at = self.known.bom
        for number, letter in enumerate(self.known.text):
            end = document.place(number, "utf-32")["place"][1]
            self.cells.append((letter, file.before[at:end]))
            at = end
        document.close()

    def bytes_of(self, cells: List[Cell]) -> bytes:
        return self.file.before[: self.known.bom] + b"".join(
            self.encode_letter(letter) if raw is None else raw for letter, raw in cells)

    def encode_letter(self, letter: str) -> bytes:
        """What the encoder gives."""
        if letter not in self.typed:
            document = self.gate.open("typed", "utf-8", letter.encode())
            self.typed[letter] = document.encode(self.file.label)
            document.close()
        return self.typed[letter]

    def drawn(self, rng: random.Random) -> Drawn:
        """One to four edits at random places: letters, or whole lines."""
        cells, how = list(self.cells), []
        for _ in range(rng.choice([1, 1, 2, 3, 4])):
            edit = rng.choice([self.letters, self.letters, self.letters, self.move_line, self.copy_line, self.drop_line, self.add_line,
                               self.moved_and_edited])
            cells = edit(rng, cells)
            how.append(edit.__name__)
        return Drawn("".join(letter for letter, _ in cells), self.bytes_of(cells), how)

    def letters(self, rng: random.Random, cells: List[Cell]) -> List[Cell]:
        start = rng.randrange(len(cells) + 1)
        end = min(len(cells), start + rng.choice([0, 0, 1, 2, 8]))
        return cells[:start] + self.word(rng, 0 if end > start else 1) + cells[end:]

    def word(self, rng: random.Random, least: int) -> List[Cell]:
        alphabet = self.file.word + "abc xyz"
        return [(rng.choice(alphabet), None) for _ in range(rng.randrange(least, 5))]

    def move_line(self, rng: random.Random, cells: List[Cell]) -> List[Cell]:
        lines = split(cells)
        line = lines.pop(rng.randrange(len(lines)))
        lines.insert(rng.randrange(len(lines) + 1), line)
        return join(lines)

    def moved_and_edited(self, rng: random.Random, cells: List[Cell]) -> List[Cell]:
        lines = split(cells)
        line = lines.pop(rng.randrange(len(lines)))
        at = rng.randrange(len(line) + 1)
        line = line[:at] + self.word(rng, 1) + line[at + rng.randrange(2) :]
        lines.insert(rng.randrange(len(lines) + 1), line)
        return join(lines)

    def copy_line(self, rng: random.Random, cells: List[Cell]) -> List[Cell]:
        lines = split(cells)
        lines.insert(rng.randrange(len(lines) + 1), rng.choice(lines))
        return join(lines)

    def drop_line(self, rng: random.Random, cells: List[Cell]) -> List[Cell]:
        lines = split(cells)
        if len(lines) > 1:
            lines.pop(rng.randrange(len(lines)))
        return join(lines)

    def add_line(self, rng: random.Random, cells: List[Cell]) -> List[Cell]:
        lines = split(cells)
        lines.insert(rng.randrange(len(lines) + 1), self.word(rng, 1))
        return join(lines)


def split(cells: List[Cell]) -> List[List[Cell]]:
    lines: List[List[Cell]] = [[]]
    for it in cells:
        if it[0] == "\n":
            lines.append([])
        else:
            lines[-1].append(it)
    return lines


def join(lines: List[List[Cell]]) -> List[Cell]:
    return [it for n, line in enumerate(lines) for it in ([("\n", None)] if n else []) + line]


def outcome(source: Source, it: Drawn) -> str:
    """What became of an edit that was saved: `exact`, its bytes are those that are known; `other`, others of the same text;
    `impossible`, refused, where the known bytes are another text; `refused`, though they were this one; `WRONG`, saved as
    another text."""
    label = source.file.label
    try:
        saved = save(source.gate, label, source.known, it.text)
    except Refused:
        return "refused" if read(source.gate, label, it.raw).text == it.text else "impossible"
    if saved.raw == it.raw:
        return "exact"
    return "other" if read(source.gate, label, saved.raw).text == it.text else "WRONG"


def outcomes(gate: Gate, count: int, seed: int) -> Iterator[Tuple[str, Drawn, str]]:
    """`count` edits of each file."""
    for file in FILES:
        source = Source(gate, file)
        rng = random.Random(f"{file.name} {seed}")
        for _ in range(count):
            drawn = source.drawn(rng)
            yield file.name, drawn, outcome(source, drawn)


def main(count: int = 100, seed: int = 1) -> None:
    from legacy.finding import Found, index_files, label_file, program
    folder = index_files()
    totals: Dict[str, Counter[str]] = {}
    began = time.monotonic()
    with Found(program(), folder, label_file(None, folder)).start() as gate:
        for name, _, what in outcomes(gate, count, seed):
            totals.setdefault(name, collections.Counter())[what] += 1
    for name, found in totals.items():
        print(f"{name:24}", *(f"{what} {number}" for what, number in sorted(found.items())))
    print(f"{time.monotonic() - began:.0f} s")


if __name__ == "__main__":
    main(*map(int, sys.argv[1:]))

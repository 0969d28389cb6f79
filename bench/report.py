#!/usr/bin/env python3
"""Puts run.py's figures and the rates of both programs for codecs into RESULTS.md, and draws docs/speed.svg."""

import argparse
import csv
import datetime
import os
import pathlib
import re
import statistics
import subprocess
from typing import Callable, Dict, List, Tuple

HERE = pathlib.Path(__file__).resolve().parent
DOCS = HERE.parent / "docs"
BEGIN, END = "<!-- figures -->", "<!-- end of figures -->"
CODECS = "## Decoding and encoding alone"
UNITS = {"instructions": "thousands of instructions", "us": "microseconds", "faults": "page faults", "KiB": "KiB of memory"}
# The units that have a table together.
TABLES = (("instructions",), ("us",), ("faults", "KiB"))
# The kinds, in the order of their rows: what the page calls them, and what a round of theirs is.
KINDS = {
    "edits": ("Edits", "a splice, a text of 100 code points, and the splice that takes it back"),
    "changes": ("Changes", "a range change by line and character, and the one that takes it back"),
    "positions": ("Positions", "an offset of a position and a position of an offset"),
    "pages": ("Pages", "1,000 lines, and 1,000 code points encoded in UTF-8"),
    "error-pages": ("Errors", "a page of 1,000, in a document with an error on each line"),
    "texts": ("Texts", "a 32nd as many code points as the document has bytes, as text and encoded in UTF-8"),
    "opening": ("Opening", "a document opened, ten code points of it, and closed"),
    "bulk": ("Bulk", "a document opened, an eighth of its bytes in code points as text and as UTF-8, its errors"),
    "many": ("Many", "64 documents that stay open, each with a short text of it; of each"),
    "lists-of-1": ("Lists of one", "one change by line and character, and the list that takes it back"),
    "lists-of-10": ("Lists of ten", "ten changes by line and character, and the list that takes them back"),
    "line-starts": ("First line", "that of a page of lines that starts anywhere"),
    "error-starts": ("First error", "that of a page of errors that starts anywhere, with an error on each line"),
    "last-bytes": ("Last bytes", "the last 1,000 bytes"),
    "last-text": ("Last text", "the last 1,000 code points"),
    "front": ("Front", "a splice of a letter at the front, and the one that takes it back"),
    "one-byte": ("One byte", "a splice of one byte at the front of UTF-16, and the one that takes it back"),
    "mark": ("Mark", "a byte order mark put in front, and taken away"),
}


# What was measured of a kind, an encoding and a size, by the names of run.py's columns; what the page has of it, its name there,
# and the size that it is of; and such a row of the page, by encodings.
Row = Dict[str, str]
Figure = Callable[[Row], str]
Shown = Tuple[str, Figure, int]
Figures = Tuple[str, Dict[str, str]]
# The rates at which the texts of an encoding are decoded and encoded.
Rates = Dict[str, Dict[str, Tuple[int, int]]]

# Of what is measured by time, memory is shown for these alone: what the others hold is the document of the edits.
WITH_MEMORY = ("edits", "bulk")
# And for these no floor: it takes less than one run differs from the next.
WITHOUT_FLOOR = ("pages", "error-pages", "texts")


def main() -> None:
    words = argparse.ArgumentParser(description=__doc__)
    words.add_argument("figures", nargs="+", help="what run.py printed, by time, by instructions, by page faults or by memory")
    words.add_argument("--codecs", nargs=2, metavar=("OURS", "THEIRS"), help="what 'speed codecs' and codecs printed; else those stay that are there")
    given = words.parse_args()
    files = [rows_of(name) for name in given.figures]
    page = HERE / "RESULTS.md"
    text = page.read_text()
    front, back = text[: text.index(BEGIN)], text[text.index(END) :]
    parts = [kinds_of(files)]
    for units in TABLES:
        measured = {unit: [row for rows in files if unit_of(rows) == unit for row in rows] for unit in units}
        parts += [section({unit: rows for unit, rows in measured.items() if rows})] if any(measured.values()) else []
    parts += [CODECS, codecs(*map(rates_in, given.codecs))] if given.codecs else kept_rates(text)
    page.write_text(front + "\n\n".join([BEGIN, machine(), *parts]) + "\n\n" + back)
    for rows in files:
        edits = [row for row in rows if row["kind"] == "edits" and row["ratio"]]
        # (a curve has more than one size)
        if unit_of(rows) == "us" and len({row["bytes"] for row in edits}) > 1:
            draw(edits)


def kept_rates(text: str) -> List[str]:
    """The rates of codecs that the page has, where none were measured."""
    figures = text[text.index(BEGIN) : text.index(END)]
    return [figures[figures.index(CODECS) :].rstrip()] if CODECS in figures else []


def rows_of(name: str) -> List[Row]:
    with open(name, newline="") as lines:
        return list(csv.DictReader(lines, delimiter="\t"))


def unit_of(rows: List[Row]) -> str:
    return next(unit for unit in UNITS if f"gate_{unit}" in rows[0])


def kinds_of(files: List[List[Row]]) -> str:
    """What the kinds are that were measured."""
    measured = {row["kind"] for rows in files for row in rows}
    return "\n".join(f"- **{name}**: {text}" for kind, (name, text) in KINDS.items() if kind in measured)


def section(measured: Dict[str, List[Row]]) -> str:
    """A heading and the one table of some units; of several each kind's name says in which."""
    kinds = {}
    for unit, rows in measured.items():
        for kind, (name, _) in KINDS.items():
            own = [row for row in rows if row["kind"] == kind]
            if own:
                kinds[name if len(measured) == 1 else f"{name}, in {UNITS[unit]}"] = figures(kind, own, unit)
    encodings = list(dict.fromkeys(row["encoding"] for rows in measured.values() for row in rows))
    return f"## In {' and '.join(UNITS[unit] for unit in measured)}\n\n{table(encodings, kinds)}"


def table(encodings: List[str], kinds: Dict[str, List[Figures]]) -> str:
    """A column an encoding; of each kind a row that names it, and below it those of its figures."""
    lines = [line(["", *encodings]), line(["---"] + ["---:"] * len(encodings))]
    for name, rows in kinds.items():
        lines.append(line([f"**{name}**"] + [""] * len(encodings)))
        lines += [line([head, *(of.get(encoding, "") for encoding in encodings)]) for head, of in rows]
    return "\n".join(lines)


def machine() -> str:
    model = re.findall(r"model name\s*: (.*)", pathlib.Path("/proc/cpuinfo").read_text())[0]
    return f"Measured on {datetime.date.today()}: {model}, {os.cpu_count()} processors."


def figures(kind: str, rows: List[Row], unit: str) -> List[Figures]:
    """What gate takes at the least and the greatest size, and its memory; at the greatest size that both were measured
    with, the faster peer, and how many times gate's cost its is; at the greatest size the floor, and how many times its
    cost gate's is, and what a byte costs."""
    sizes = sorted({int(row["bytes"]) for row in rows})
    met = max((int(row["bytes"]) for row in rows if row["ratio"]), default=None)
    shown: List[Shown] = [(f"{size // 1024} KiB", lambda row: row[f"gate_{unit}"], size) for size in dict.fromkeys((sizes[0], sizes[-1]))]
    if met:
        faster: Figure = lambda row: min(row[f"peer_{unit}"], row[f"typed_{unit}"], key=float)
        shown += [("faster peer", faster, met), ("over gate", lambda row: row["ratio"], met)]
    # A floor that keeps its memory has no page faults, and holds no document.
    is_lost = unit in ("faults", "KiB") or (unit == "us" and kind in WITHOUT_FLOOR)
    if not is_lost and all(row[f"floor_{unit}"] for row in rows):
        floor = lambda row: float(row[f"floor_{unit}"])
        shown += [("floor", lambda row: f"{floor(row):.2f}", sizes[-1])]
        shown += [("over floor", lambda row: f"{float(row[f'gate_{unit}']) / floor(row):.1f}", sizes[-1])]
    if unit == "instructions" and kind == "opening":
        shown += [("instructions a byte", lambda row: f"{float(row['gate_instructions']) * 1000 / int(row['bytes']):.1f}", sizes[-1])]
    if unit == "KiB":
        shown += [("bytes a byte", lambda row: f"{float(row['gate_KiB']) * 1024 / int(row['bytes']):.2f}", sizes[-1])]
    if unit == "us" and kind in WITH_MEMORY:
        shown += [("MB", lambda row: row["gate_MB"], sizes[-1])]
        shown += [("peer's MB", lambda row: row["peer_MB"], met)] if met else []
    return [(head, {row["encoding"]: figure(row) for row in rows if int(row["bytes"]) == size}) for head, figure, size in shown]


def line(cells: List[str]) -> str:
    return "| " + " | ".join(cells) + " |"


def rates_in(name: str) -> Rates:
    """The best rates of each encoding and text, decoded and encoded, of all runs in a file."""
    best: Rates = {}
    for found in re.finditer(r"(\S+) +(\w+) +(\d+) +(\d+) MB/s", pathlib.Path(name).read_text()):
        encoding, text, decoded, encoded = found.groups()
        known = best.setdefault(encoding, {}).get(text, (0, 0))
        best[encoding][text] = (max(known[0], int(decoded)), max(known[1], int(encoded)))
    return best


def codecs(ours: Rates, theirs: Rates) -> str:
    """MB/s decoded, and how many times encoding_rs's rate it is; for encoding the latter alone."""
    texts = list(next(iter(ours.values())))
    heads = ["encoding", *(f"{text} decoded" for text in texts), *(f"{text} encoded" for text in texts)]
    lines = [line(heads), line(["---"] + ["---:"] * (len(heads) - 1))]
    for encoding, own in ours.items():
        ratio = lambda text, which: f"{own[text][which] / theirs[encoding][text][which]:.2f}"
        decoded = (f"{own[text][0]} ({ratio(text, 0)})" for text in texts)
        encoded = ("" if encoding.startswith("UTF-16") else ratio(text, 1) for text in texts)
        lines.append(line([encoding, *decoded, *encoded]))
    return "\n".join(lines)


def draw(rows: List[Row]) -> None:
    """One curve a program: the geometric mean over the encodings at each size."""
    points = []
    for size in sorted({int(row["bytes"]) for row in rows}):
        means = (
            statistics.geometric_mean(float(row[name]) for row in rows if int(row["bytes"]) == size)
            for name in ("gate_us", "peer_us")
        )
        points.append(" ".join([str(size), *map(str, means)]))
    script = f"""
set terminal svg size 720,420 font "sans-serif,13" background "white"
set output "{DOCS / 'speed.svg'}"
set title "An edit with a short text, by the document's size (mean of {len({row['encoding'] for row in rows})} encodings)"
set xlabel "KiB"
set ylabel "microseconds"
set logscale xy
set xtics (64, 256, 1024, 2048)
set grid
set key left top
set xrange [50:2600]
set yrange [10:*]
$points << END
{chr(10).join(points)}
END
plot $points using ($1/1024):3 with linespoints linewidth 2 title "whole decoding by encoding\\\\_rs", \\
     $points using ($1/1024):2 with linespoints linewidth 2 title "gate"
"""
    subprocess.run(["gnuplot"], input=script, text=True, check=True)


if __name__ == "__main__":
    main()

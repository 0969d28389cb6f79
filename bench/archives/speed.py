#!/usr/bin/env python3
"""Measures the processor time of `legacy`, iconv, ripgrep, Python's codecs and git, in one run, and prints a table.

    bench/archives/speed.py [--megabytes N] [--small N] [--names N] [--files N] [--rounds N] [--only NAME ..] TOP

makes three trees in TOP, if they are missing. One has files of 64 KiB to 1 MiB in four encodings, one has files of 200 to 2,000
bytes. One has empty files with rules by their exact names. `gate` and the index files are those that the command `legacy` finds. A program that
isn't installed is left out. A figure is of the processor time of all processes; of several rounds, of the fastest. All files are
read once before, so that the system has them in memory."""
import argparse
import os
import pathlib
import random
import resource
import shlex
import shutil
import subprocess
import sys
import tempfile
from typing import Iterator, List, NamedTuple

sys.path.insert(0, str(pathlib.Path(__file__).resolve().parent))
import tree  # noqa: E402

CLIENTS = pathlib.Path(__file__).resolve().parent.parent.parent / "clients"
LABELS = ("shift_jis", "euc-jp", "gb18030", "windows-1252")
ICONV = {"shift_jis": "cp932", "windows-1252": "cp1252"}
# What no file has, so that a search is measured and not what it prints.
RARE = "\u56f3\u66f8\u9928\u306e\u9593"
PYTHON = "import sys\nfor path in sys.argv[2:]:\n    with open(path, 'rb') as file: file.read().decode(sys.argv[1], 'replace').encode()"


class Measure(NamedTuple):
    """A measure: the tree, its name, what is counted, the program that it needs, and its command line for a shell."""

    tree: str
    name: str
    program: str
    line: str


def make_text(rng: random.Random, encoding: tree.Encoding, size: int) -> bytes:
    """Lines of words, of which about a third is ASCII."""
    parts: List[bytes] = []
    made = 0
    while made < size:
        words = [rng.choice(encoding.words) if rng.random() < 0.7 else rng.choice(("gate", "1998", "a", "letter,")) for _ in range(rng.randrange(2, 14))]
        parts.append((" ".join(words) + "\n").encode(encoding.codec))
        made += len(parts[-1])
    return b"".join(parts)


def make_trees(top: pathlib.Path, words: argparse.Namespace) -> None:
    """Makes the trees that are missing."""
    rng = random.Random(1)
    known = {it.label: it for it in tree.ENCODINGS}
    for name, count, least, most in ("large", words.megabytes * 2, 1 << 16, 1 << 20), ("small", words.small, 200, 2000):
        if not (top / name).exists():
            for number in range(count):
                label = LABELS[number % len(LABELS)]
                path = top / name / label / f"{number // 1000}" / f"{number}.{label}"
                path.parent.mkdir(parents=True, exist_ok=True)
                path.write_bytes(make_text(rng, known[label], rng.randrange(least, most)))
    if not (top / "names").exists():
        for number in range(words.files):
            path = top / "names" / f"{number // 100}" / f"{number}.txt"
            path.parent.mkdir(parents=True, exist_ok=True)
            path.touch()
        rules = (f"/{it // 100}/{it}.txt working-tree-encoding=shift_jis\n" for it in range(0, words.files, max(1, words.files // words.names)))
        (top / "names" / ".gitattributes").write_text("".join(rules))
        subprocess.run(["git", "init", "-q", str(top / "names")], check=False)


def measures(top: pathlib.Path, out: str) -> Iterator[Measure]:
    """All measures."""
    python, quoted = shlex.quote(sys.executable), {it: shlex.quote(str(top / it)) for it in ("large", "small", "names")}
    legacy, rules = f"{python} -m legacy", " ".join(f"-e '*.{it}={it}'" for it in LABELS) + " --no-attributes --jobs 1"
    large = {it: f"find {quoted['large']}/{it} -type f -print0 | xargs -0" for it in LABELS}
    yield Measure("large", "legacy check", python, f"{legacy} check {rules} {quoted['large']}")
    yield Measure("large", "legacy search", python, f"{legacy} search {RARE} {rules} {quoted['large']}")
    yield Measure("large", "legacy convert", python, f"{legacy} convert --to utf-8 {rules} {quoted['large']} {shlex.quote(out)}")
    yield Measure("large", "iconv", "iconv", "; ".join(f"{large[it]} iconv -f {ICONV.get(it, it)} -t utf-8" for it in LABELS))
    yield Measure("large", "Python's codecs", python, "; ".join(f"{large[it]} {python} -c {shlex.quote(PYTHON)} {ICONV.get(it, it)}" for it in LABELS))
    yield Measure("large", "rg -j 1 --encoding", "rg", "; ".join(f"rg -j 1 --encoding {it} {RARE} {quoted['large']}/{it}" for it in LABELS))
    yield Measure("small", "legacy check", python, f"{legacy} check {rules} {quoted['small']}")
    yield Measure("small", "legacy search", python, f"{legacy} search {RARE} {rules} {quoted['small']}")
    yield Measure("small", "rg -j 1 --encoding", "rg", "; ".join(f"rg -j 1 --encoding {it} {RARE} {quoted['small']}/{it}" for it in LABELS))
    yield Measure("small", "iconv, one process", "iconv", "; ".join(
        f"find {quoted['small']}/{it} -type f -print0 | xargs -0 iconv -f {ICONV.get(it, it)} -t utf-8" for it in LABELS))
    yield Measure("names", "legacy rules", python, f"{legacy} rules {quoted['names']}")
    yield Measure("names", "git check-attr", "git", f"cd {quoted['names']} && find . -type f | git check-attr --stdin working-tree-encoding")


def processor_time(line: str, out: str) -> float:
    """The processor seconds of a command line; what an earlier one wrote is removed first."""
    shutil.rmtree(out, ignore_errors=True)
    before = resource.getrusage(resource.RUSAGE_CHILDREN)
    ran = subprocess.run(["sh", "-c", line], env={**os.environ, "PYTHONPATH": str(CLIENTS)}, stdout=subprocess.DEVNULL, stderr=subprocess.PIPE)
    if "-m legacy" in line and ran.returncode > 1:
        raise SystemExit(f"status {ran.returncode}: {line[:200]}\n{ran.stderr.decode(errors='replace')[-500:]}")
    after = resource.getrusage(resource.RUSAGE_CHILDREN)
    return after.ru_utime + after.ru_stime - before.ru_utime - before.ru_stime


def main() -> int:
    """Prints the table."""
    parser = argparse.ArgumentParser(description="Measure the processor time of legacy and of other programs.")
    parser.add_argument("top", metavar="TOP", type=pathlib.Path)
    for name, most in ("megabytes", 100), ("small", 20_000), ("names", 2_547), ("files", 68_000), ("rounds", 2):
        parser.add_argument(f"--{name}", metavar="N", type=int, default=most)
    parser.add_argument("--only", metavar="NAME", nargs="+", default=[])
    words = parser.parse_args()
    words.top.mkdir(parents=True, exist_ok=True)
    make_trees(words.top, words)
    sizes = {name: [len(it.read_bytes()) for it in sorted((words.top / name).rglob("*.*")) if it.is_file()] for name in ("large", "small", "names")}
    about = {name: f"{len(found):,} files, {sum(found) / 1e6:.0f} MB" for name, found in sizes.items()}
    print("| trees | program | processor seconds | MB a second | files a second |\n| --- | --- | ---: | ---: | ---: |")
    with tempfile.TemporaryDirectory(dir=words.top) as beside:
        out = os.path.join(beside, "out")
        for it in measures(words.top, out):
            if shutil.which(it.program) and (not words.only or any(name in it.name for name in words.only)):
                used = min(processor_time(it.line, out) for _ in range(words.rounds))
                speed = f"{sum(sizes[it.tree]) / 1e6 / used:,.0f}" if sum(sizes[it.tree]) > 1e6 else ""
                print(f"| {about[it.tree]} | `{it.name}` | {used:.2f} | {speed} | {len(sizes[it.tree]) / used:,.0f} |", flush=True)
    return 0


if __name__ == "__main__":
    sys.exit(main())

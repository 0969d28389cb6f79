"""Why `gate` ends, by its source: the status, the text on standard error and the cause; and what an operator does then."""
import re
from typing import Dict, Iterator, List, NamedTuple

from crates import TOP

SOURCE = TOP / "crates" / "gate" / "src" / "failure.rt"
INDEX_FAULT = TOP / "crates" / "index_files" / "src" / "fault.rt"
# What a text has for values; others are named in capitals.
VALUES = {"number": "N", "port": "N", "line": "N", "from": "N", "to": "N", "error": "error: .."}
# A line that ends nothing, and why it is written.
GOES_ON = "gate: NAME is not compacted"
# What an operator does, by the text.
REMEDIES = {
    "error: ..": "See `gate --help`.",
    "error: a word of the command line isn't UTF-8": "Rename the file or folder.",
    "gate: index file NAME, line N: CAUSE": "Fetch the files again with `gate-standard`. Line 0 means the whole file.",
    "gate: label file: CAUSE": "Fetch it again with `gate-standard`.",
    "gate: cannot read NAME": "Check the path and its mode. For `compact`, DIR must be a folder.",
    "gate: trace line N": "Correct that line.",
    "gate: record line N": "Use the index files with which the record was written, or restore a backup.",
    "gate: cannot record in NAME":
        "Check its mode and its folder. It must be a regular file, for `compact` without another hard link. A file NAME.compacting must be a record.",
    "gate: another gate records in NAME": "Stop that server, or use another file.",
    "gate: NAME has a record; --resume goes on with it": "Use `--resume`, or another file.",
    "gate: NAME is not a record": "Check the path. The file is unchanged.",
    "gate: NAME was recorded with other FILES; --other-files takes it":
        "Give the same `--indexes` and `--labels` as the server, also to `compact`. Otherwise see docs/OPERATING.md, \"Which files are taken\".",
    "gate: NAME has no first line of a record; --old-record takes one of gate 0.4.0 or earlier": "Use `--old-record` if it is a record.",
    "gate: NAME is a record of another version of gate": "Use the version that wrote it.",
    "gate: read fault": "Check what standard input is connected to.",
    "gate: write fault": "Free space on the disk, or check who reads standard output. Then start with `--resume`.",
    "gate: too many reads": "Start again with `--resume`.",
    "gate: cannot listen on port N": "Stop the program that uses the port, or use another one.",
    "gate: cannot listen on PATH":
        "Stop the server that listens there, or use another path of at most 96 bytes. Its folder must exist, and a file there must be a socket.",
    "gate: accept fault": "Raise the limit of open files (`ulimit -n`).",
    "gate: poll fault": "Start again. If it recurs, look in the system's log.",
    "gate: NAME is not a token file: 64 hexadecimal digits, with mode 600": "Check the path, or remove the file: the next start makes a new one.",
    "gate: cannot create NAME": "Check its folder.",
    "gate: no encoding has the label LABEL": "Check the spelling. Without `--labels` only the 40 names are labels.",
    "gate: an index file of NAME is missing": "Fetch it with `gate-standard`, or check the path of DIR.",
    "gate: NAME has no encoder": "Choose another target.",
    "gate: line N, bytes N to N: not NAME": "Check `--from`, or use `--mode replacement` or `--mode html`.",
    "gate: line N, bytes N to N: U+N isn't in NAME": "Choose another target, or use `--mode html`.",
    "gate: out of memory": "Raise the limit by some MiB, then start with `--resume`.",
}


class Failure(NamedTuple):
    """Why the program ends: its status, the text and the cause."""

    status: str
    text: str
    cause: str


def fill(text: str) -> str:
    """A text with names for its values."""
    text = text.replace("{fault}", texts(INDEX_FAULT.read_text(encoding="utf-8"))[-1])
    return re.sub(r"\{(\w+)(?::\w+)?\}", lambda found: VALUES.get(found[1], found[1].upper()), text.replace("\\n", ""))


def texts(source: str) -> List[str]:
    """The texts that a source formats."""
    return re.findall(r'(?:write(?:ln)?!\(\s*f,\s*|write_str\(\s*)"(.*?)"', source)


def statuses(source: str) -> Dict[str, str]:
    """The status of each cause."""
    body = source.partition("fn status(")[2].partition("\n    }\n")[0]
    found: Dict[str, str] = {}
    waiting: List[str] = []
    for name, status in re.findall(r"Failure::(\w+)|=> (\d)", body):
        if name:
            waiting.append(name)
        else:
            found.update(dict.fromkeys(waiting, status))
            waiting = []
    return found


def failures() -> Iterator[Failure]:
    """Each text, with its status and the causes that have it, lowest status first."""
    source = SOURCE.read_text(encoding="utf-8")
    causes = {name: " ".join(re.findall(r"/// (.*)", above)) for above, name in re.findall(r"((?:^    ///.*\n)+)    (\w+)", source, re.MULTILINE)}
    status, rows = statuses(source), {}
    spot = texts(source.partition("fn write_spot")[2])[0]
    shown = source.partition("impl fmt::Display for Failure")[2].partition("\n}\n")[0]
    for arm in re.split(r"\n +(?=Failure::)", shown)[1:]:
        names = re.findall(r"Failure::(\w+)", arm.partition("=>")[0])
        if not texts(arm):
            continue
        text = fill((spot if "write_spot(" in arm else "") + texts(arm)[0])
        rows[text] = Failure(status[names[0]], text, " ".join(causes[it] for it in names))
    yield from sorted(rows.values(), key=lambda it: it.status)

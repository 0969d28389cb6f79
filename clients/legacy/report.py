"""A report of `legacy check`: one page of HTML by itself, without a script. It has counts by folder, encoding and kind
of damage, the bytes that are wrong, and each damaged place with the line around it, the worst files first."""
import collections
import datetime
import html
import os
import stat
import tempfile
from typing import IO, Counter, Dict, Iterable, Iterator, List, NamedTuple, Sequence, Tuple

from legacy import __version__
from legacy.check import ERRORS, KINDS, Checked
from legacy.finding import Missing
from legacy.pages import HEAD, Share, Wrong, escape_html, file, readable, table, wrong_bytes
from legacy.terminals import quantity, quote_path
from legacy.work import DONE, FOUND, PASSED, REFUSED
from legacy.work.drafts import draft, ordinary_mode
from legacy.work.outputs import look_at_output

# The most places that are listed, and files that couldn't be looked at; beyond them there are counts alone.
LISTED = 20_000
# The most bytes that are wrong in the table.
BYTES = 200

NAMES = {
    "errors": "bytes that are no text", "line-ends": "line ends of several kinds", "mark": "a byte order mark against the rule",
    "controls": "control characters"}


class Damaged(NamedTuple):
    """A damaged file: its number, its folder, its errors, and where its part of the page is."""

    number: int
    folder: str
    errors: int
    begin: int
    end: int


class Shares:
    """The counts of files by some name, and the worst file of each."""

    def __init__(self) -> None:
        self._of: Dict[str, Share] = {}
        self._worst: Dict[str, int] = {}

    def add(self, name: str, row: Checked, number: int) -> None:
        """Counts a file, which has this number if it is damaged."""
        old = self._of.get(name, Share(name, 0, 0, 0))
        anchor = old.anchor
        if row.damage and row.errors > self._worst.get(name, -1):
            self._worst[name], anchor = row.errors, f"f{number}"
        self._of[name] = Share(name, old.files + 1, old.damaged + bool(row.damage), old.errors + row.errors, anchor)

    def ranking(self) -> List[Share]:
        """All, that with the most damaged files first."""
        return sorted(self._of.values(), key=lambda it: (-it.damaged, -it.errors, it.name))


class Report:
    """A report that grows by rows, and is a file once it is closed. It replaces another report, and any other file only if
    that is forced. `about` is what is said of the run, as pairs. Raises `Missing` if it can't be written."""

    def __init__(self, path: str, trees: Iterable[str], force: bool = False, about: Sequence[Tuple[str, str]] = ()):
        self._path, self._trees, self._force, self._about = path, list(trees), force, about
        self._outcomes: Counter[str] = collections.Counter()
        self._bytes: Counter[str] = collections.Counter()
        self._kinds: Counter[str] = collections.Counter()
        self._wrong: Counter[Tuple[str, str]] = collections.Counter()
        self._encodings, self._folders = Shares(), Shares()
        self._errors = self._listed = self._unlisted = 0
        self._damaged: List[Damaged] = []
        self._refused: List[Checked] = []
        self._look_at_path()
        try:
            # (in the folder of the page, so that a full disk is found out early)
            self._parts: IO[bytes] = tempfile.TemporaryFile("w+b", dir=os.path.dirname(path) or ".")
        except OSError as fault:
            raise self._missing(fault) from fault

    def _look_at_path(self) -> None:
        look_at_output("the report", self._path, self._trees, is_report, self._force)

    def _missing(self, fault: OSError) -> Missing:
        return Missing(f"the report {quote_path(self._path)}: {fault.strerror}")

    def add(self, row: Checked) -> None:
        """Adds a file."""
        self._outcomes[row.outcome] += 1
        self._bytes[row.outcome] += row.size
        self._errors += row.errors
        self._kinds.update(row.damage)
        self._wrong.update((it.bytes, row.encoding) for it in row.places if it.bytes)
        if row.outcome == REFUSED and len(self._refused) < LISTED:
            self._refused.append(row)
        if row.encoding:
            for name, shares in (row.encoding, self._encodings), (os.path.dirname(row.path) or ".", self._folders):
                shares.add(name, row, len(self._damaged) + 1)
        if row.damage:
            self._add_damaged(row)

    def _add_damaged(self, row: Checked) -> None:
        places = row.places[: max(0, LISTED - self._listed)]
        self._listed += len(places)
        controls = row.control_places[: max(0, LISTED - self._listed)] if "controls" in row.damage else []
        self._listed += len(controls)
        self._unlisted += row.errors - len(places)
        begin = self._parts.tell()
        self._parts.writelines(it.encode() for it in file(len(self._damaged) + 1, row, places, controls))
        self._damaged.append(Damaged(len(self._damaged) + 1, os.path.dirname(row.path) or ".", row.errors, begin, self._parts.tell()))

    def close(self) -> None:
        """Writes the page."""
        with self._parts:
            # (what has come there meanwhile isn't replaced either)
            self._look_at_path()
            try:
                # (the page takes the place of a file, and not that of a link to one)
                self._write(os.path.realpath(self._path))
            except OSError as fault:
                raise self._missing(fault) from fault

    def _write(self, path: str) -> None:
        with draft(path) as made, open(made.number, "w", encoding="utf-8", closefd=False) as page:
            page.writelines(self._head())
            self._write_files(page)
            page.writelines(self._tail())
            page.flush()
            os.fchmod(made.number, _mode_of(path))
            made.replace(path)

    def _write_files(self, page: IO[str]) -> None:
        """Writes the damaged files by folder, the worst first."""
        folders = [it.name for it in self._folders.ranking()]
        order = {name: at for at, name in enumerate(folders)}
        last = None
        for it in sorted(self._damaged, key=lambda it: (order[it.folder] if it.folder in order else len(order), -it.errors, it.number)):
            if it.folder != last:
                page.write(f"<h3>{escape_html(readable(it.folder))}</h3>\n")
                last = it.folder
            self._parts.seek(it.begin)
            page.write(self._parts.read(it.end - it.begin).decode())

    def _head(self) -> Iterator[str]:
        title = f"legacy check: {', '.join(map(readable, self._trees))}"
        yield HEAD.format(title=html.escape(title))
        yield f"<main>\n<h1>{html.escape(title)}</h1>\n"
        files, errors = quantity(sum(self._outcomes.values()), "files", ","), quantity(self._errors, "errors", ",")
        sizes = {it: f"{self._bytes[it] / 1e6:,.1f} MB" for it in (REFUSED, PASSED)}
        looked = (self._bytes[DONE] + self._bytes[FOUND]) / 1e6
        yield (f'<p class="sum">{files}, of which {self._outcomes[DONE] + self._outcomes[FOUND]:,} with {looked:,.1f} MB were looked at:'
               f' <b class="bad">{self._outcomes[FOUND]:,} damaged</b>, with {errors}; {self._outcomes[REFUSED]:,} ({sizes[REFUSED]}) couldn\'t be'
               f" looked at; {self._outcomes[PASSED]:,} ({sizes[PASSED]}) have no rule, or are links.</p>\n")
        about = [("date", datetime.datetime.now().astimezone().isoformat(" ", "seconds")), *self._about]
        yield f"<dl>{''.join(f'<dt>{html.escape(name)}<dd>{escape_html(text)}' for name, text in about)}</dl>\n"
        yield from self._tables()
        yield '<h2 id="files">Damaged files</h2>\n'

    def _tables(self) -> Iterator[str]:
        looked = self._outcomes[DONE] + self._outcomes[FOUND]
        kinds = [Share(NAMES[it], looked, self._kinds[it], self._errors if it == ERRORS else 0) for it in KINDS if self._kinds[it]]
        yield from table("kinds", "Kinds of damage", kinds)
        yield from table("encodings", "Encodings", self._encodings.ranking())
        yield from wrong_bytes([Wrong(*key, count) for key, count in self._wrong.most_common(BYTES)])
        yield from table("folders", "Folders", self._folders.ranking())

    def _tail(self) -> Iterator[str]:
        if self._unlisted:
            yield f"<p>Not listed here: {quantity(self._unlisted, 'further errors', ',')}.</p>\n"
        if self._refused:
            files = quantity(self._outcomes[REFUSED], "files", ",")
            yield f'<h2 id="refused">Not looked at</h2>\n<details><summary>{files}</summary><ol>\n'
            yield from (f"<li>{escape_html(readable(it.path))}: {escape_html(it.reason)}</li>\n" for it in self._refused)
            yield "</ol></details>\n"
        yield f"<p><small>legacy {__version__}</small></p>\n</main>\n"


def is_report(first: bytes) -> bool:
    """Whether a file that begins with these bytes is such a page."""
    return first.startswith(b"<!doctype html>\n<html") and b"<title>legacy check: " in first


def _mode_of(path: str) -> int:
    """The mode of the page: that of the one before it, or as this user makes files."""
    try:
        return stat.S_IMODE(os.stat(path).st_mode)
    except FileNotFoundError:
        return ordinary_mode()

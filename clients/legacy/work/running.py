"""A run: a job over trees, with what is known in addition."""
import argparse
import collections
import contextlib
import dataclasses
import functools
import os
import sys
import time
from typing import TYPE_CHECKING, Any, Callable, Deque, Iterable, Iterator, List, NamedTuple, Optional, Sequence, Tuple

from legacy import finding, rules
from legacy.finding import Found, Missing
from legacy.rules.names import encoding_of
from legacy.terminals import quote_path
from legacy.work import members, parts, reading
from legacy.work.reading import Item
from legacy.work.rows import Job, PartRow, Row, Task
from legacy.work.walk import STDIN, Entry, entry_of, walk

if TYPE_CHECKING:
    from legacy.work.pools import Pool
    from legacy.work.state import State

# The most files of a list that goes to a process, and the most bytes, except the last file's.
FILES, BYTES = 16, 1 << 20
# Of so many trees the rules are kept, each with the folders that it is in.
TREES = 16


@dataclasses.dataclass
class Settings:
    """The way in which trees are walked. It has the program, the rules, as `legacy.rules.Rules` has them, and the number of
    processes, 0 for one a processor. It has the file that a run is resumed from, and the address of a Dask scheduler. It says
    whether links are followed, whether a line shows how far it is, and whether an output may lie in a tree or replace a file
    of another kind. It says whether files name their encoding themselves, and whether members of archives are looked at. It
    has files to look at besides the trees, and says whether what files .gitignore leave out is left out."""

    found: Found
    encoding: Sequence[Tuple[str, str]] = ()
    attributes: bool = True
    editorconfig: bool = False
    default: Optional[str] = None
    jobs: int = 0
    state: Optional[str] = None
    dask: Optional[str] = None
    follow: bool = False
    progress: bool = False
    force: bool = False
    declared: bool = False
    members: bool = False
    files: Sequence[str] = ()
    ignores: bool = False

    def rules(self, tree: str) -> rules.Rules:
        """The rules of a tree."""
        return rules.Rules(
            tree or ".", self.encoding, self.attributes, self.editorconfig, self.default, self.found.labels, patience=60,
            declared=self.declared)

    def look_at(self, paths: Sequence[str]) -> None:
        """Raises `Missing` if workers of a cluster would look for one of these paths, or for the program and its files, in
        the folder that they run in."""
        files = [str(it) for it in (self.found.indexes, self.found.labels) if it]
        programs = [self.found.gate] if os.sep in self.found.gate else []
        relative = next((it for it in [*paths, *programs, *files] if not os.path.isabs(it)), None)
        if self.dask and relative is not None:
            raise Missing(f"--dask: {relative} is relative, and workers may run in another folder")

    def pool(self) -> "Pool":
        """The workers."""
        from legacy.work import pools  # (its libraries are many, and what looks at one file needs none)

        return pools.dask(self.dask) if self.dask else pools.processes(self.jobs or pools.processors())


def add_words(parser: argparse.ArgumentParser) -> None:
    """Adds the words that `settings_from` takes."""
    group = parser.add_argument_group("how the work is done")
    group.add_argument("--jobs", metavar="N", type=_count, default=0, help="processes, each with a gate of its own (default: one a processor)")
    group.add_argument(
        "--resume", metavar="STATE", help="a SQLite file of what is done, made where there is none: a run that ended goes on, and files"
        " of the same size and time aren't read again")
    group.add_argument(
        "--dask", metavar="SCHEDULER", help="let the workers of a Dask cluster do the work, as tcp://HOST:8786; they see the files by"
        " the same absolute paths, and have this package and gate")
    group.add_argument(
        "--gitignore", action="store_true", help="leave out what files .gitignore and .ignore in trees leave out")
    group.add_argument("--follow", action="store_true", help="follow symlinks in trees, but for those that circle")
    group.add_argument("--no-progress", dest="progress", action="store_false", help="show no line of progress on a terminal")
    group.add_argument(
        "--force", action="store_true", help="let a file that is written, other than a plan, replace one that isn't of its kind, and let it lie"
        " in a TREE; without it both are refused")
    rules.add_words(parser)
    finding.add_words(parser)


class FilesFrom(argparse.Action):
    """An option that names what is looked at, with which no TREE is needed. (If a TREE could always be missing, one after
    another option would be taken as missing.)"""

    def __call__(
        self, parser: argparse.ArgumentParser, namespace: argparse.Namespace, values: Any, option_string: Optional[str] = None
    ) -> None:
        setattr(namespace, self.dest, values)
        for it in parser._actions:
            it.required = it.required and it.dest != "trees"


def add_input_words(parser: argparse.ArgumentParser) -> None:
    """Adds the words that say what is looked at, for what changes nothing."""
    parser.add_argument("trees", metavar="TREE", nargs="+", default=[], help="a folder, one file, or - for standard input")
    group = parser.add_argument_group("what is looked at")
    group.add_argument("--files-from", metavar="FILE", action=FilesFrom, help="look at the files, and folders, that FILE names too, a line each; - is standard input")
    group.add_argument("-0", "--null", action="store_true", help="names in the FILE of --files-from end with NUL instead of LF")
    # (nor is a number like -1 an option where -0 is one)
    parser._has_negative_number_optionals.clear()
    group.add_argument(
        "--members", action="store_true", help="look at the members of files that are named .tar, .tgz, .zip, .gz, .xz, .bz2, .eml and .mbox, and not at"
        " these files; a part of a mail has the encoding that it names")


def files_from(words: argparse.Namespace) -> List[str]:
    """The files that a file names. Raises `Missing` if it can't be read."""
    if not words.files_from:
        return []
    try:
        with contextlib.ExitStack() as opened:
            file = sys.stdin.buffer if words.files_from == STDIN else opened.enter_context(open(words.files_from, "rb"))
            names = file.read().split(b"\0" if words.null else b"\n")
    except OSError as fault:
        raise Missing(f"{quote_path(words.files_from)}: {fault.strerror}") from fault
    return [os.fsdecode(it) for it in names if it]


def add_fewer_words(parser: argparse.ArgumentParser) -> None:
    """Adds those of them that say rules and name the program, for what looks at few files."""
    rules.add_words(parser)
    finding.add_words(parser)
    parser.set_defaults(jobs=1, resume=None, dask=None, follow=False, progress=False, force=False, gitignore=False)


def settings_from(words: argparse.Namespace) -> Settings:
    """The settings by parsed arguments."""
    return Settings(
        finding.find(words), words.encoding, words.attributes, words.editorconfig, words.default, words.jobs, words.resume,
        words.dask, words.follow, words.progress, words.force, words.declared, getattr(words, "members", False),
        files_from(words) if "files_from" in words else (), words.gitignore)


def run(job: Job, trees: Sequence[str], settings: Settings) -> Iterator[Row]:
    """The rows of all entries of these trees, in the order in which they are walked. Raises `Missing` if something that
    all of it needs is missing."""
    from legacy.work import progress
    from legacy.work.state import State

    settings.look_at([*trees, *settings.files])
    task = Task(job, settings.found)
    with contextlib.ExitStack() as kept:
        state = kept.enter_context(State(settings.state, task, trees, settings.force)) if settings.state else None
        done = kept.enter_context(progress.show_progress([*trees, *settings.files], settings.follow, settings.ignores)) if settings.progress else lambda _: None
        under_way = UnderWay(task, state)
        lists = under_way.lists(_items(_entries(trees, settings), settings))
        for made in kept.enter_context(contextlib.closing(settings.pool()(task, lists))):
            for row in under_way.rows(made):
                done(row.size)
                yield row


class Sent(NamedTuple):
    """A list of files, with the rows that a state has of some of them; or a part of a long file, and that file."""

    items: List[Item]
    known: List[Optional[Row]]
    of: Optional[Item] = None


class UnderWay:
    """The lists of a run, in order, whose rows come back in the same order."""

    def __init__(self, task: Task, state: "Optional[State]"):
        self._task, self._state = task, state
        self._sent: Deque[Sent] = collections.deque()
        self._whole: Optional[parts.Whole] = None

    def lists(self, items: Iterable[Item]) -> Iterator[List[Item]]:
        """The lists, and each part of a long file in a list of its own."""
        beside = self._task.job.beside
        for listed in _lists(items):
            known = [self._state.unchanged_row(it) if self._state else None for it in listed]
            long = listed.pop() if beside is not None and not known[-1] and parts.is_long(listed[-1]) else None
            if listed:
                self._sent.append(Sent(listed, known[: len(listed)]))
                yield [it for it, row in zip(listed, known) if row is None]
            for part in parts.items_of(long, self._task.found, beside or 0) if long else ():
                self._sent.append(Sent([part], [None], long))
                yield [part]

    def rows(self, made: List[Row]) -> Iterator[Row]:
        """The rows of files of which the first list, whose rows are given, is the last."""
        sent = self._sent.popleft()
        if sent.of:
            yield from self._part(sent.of, sent.items[0], made[0])
            return
        missing = iter(made)
        rows = [row or next(missing) for row in sent.known]
        if self._state:
            self._state.keep([it for it, row in zip(sent.items, sent.known) if row is None], made)
        yield from rows

    def _part(self, of: Item, part: Item, made: Row) -> Iterator[Row]:
        assert isinstance(made, PartRow) and part.part
        self._whole = self._whole or parts.Whole(self._task.job, of)
        self._whole.add(made, part.part.end)
        if part.part.is_last:
            row, self._whole = self._whole.row(), None
            if self._state:
                self._state.keep([of], [row])
            yield row


def _entries(trees: Sequence[str], settings: Settings) -> Iterator[Entry]:
    """All entries of trees and of files that are named; these are of one tree, where their paths lead down from this folder."""
    yield from walk(trees, settings.follow, settings.ignores)
    for path in settings.files:
        entry = entry_of(path)
        if os.path.isdir(path):
            yield from walk([path], settings.follow, settings.ignores)
        else:
            is_below = not os.path.isabs(path) and ".." not in path.split(os.sep)
            yield entry._replace(tree="", inside=os.path.normpath(path)) if is_below and not entry.fault else entry


def _items(entries: Iterable[Entry], settings: Settings) -> Iterator[Item]:
    """Each entry with the label that the rules of its tree name, and each member of an archive on request."""
    rules_of = functools.lru_cache(maxsize=TREES)(settings.rules)

    def label_of(entry: Entry, inside: str) -> str:
        rule = rules_of(entry.tree).rule_of(os.fsencode(inside))
        return rule.label if rule else ""

    for it in entries:
        if it.fault:
            yield Item(it.path, it.size, it.time, "", it.fault)
        elif (it.tree, it.inside) == ("", STDIN):
            yield _standard_input(label_of(it, it.inside))
        elif settings.members and members.is_archive(it.inside):
            yield from _members(it, settings, label_of)
        else:
            yield Item(it.path, it.size, it.time, label_of(it, it.inside))


def _standard_input(label: str) -> Item:
    """Standard input, which no later run has again."""
    content = sys.stdin.buffer.read(reading.WHOLE + 1)
    rest = sys.stdin.buffer if len(content) > reading.WHOLE else None
    return _drop_unruled(Item(STDIN, len(content), time.time_ns(), label, "", content, rest=rest))


def _drop_unruled(item: Item) -> Item:
    """An item that has its bytes, without them if no rule names its encoding."""
    return item if item.label else item._replace(content=b"", rest=None)


def _members(entry: Entry, settings: Settings, label_of: Callable[[Entry, str], str]) -> Iterator[Item]:
    """The members of an archive. A part of a mail has the encoding that it names, any other the rule of its path."""
    for it in members.members(entry.path):
        inside = os.path.join(entry.inside, it.name) if it.name else entry.inside
        path = os.path.join(entry.tree, inside)
        if it.fault:
            yield Item(path, len(it.content), entry.time, "", it.fault)
            continue
        said = encoding_of(it.charset) if it.charset else None
        yield _drop_unruled(Item(path, len(it.content), entry.time, said.label if said else label_of(entry, inside), "", it.content, rest=it.rest))


def _lists(items: Iterable[Item]) -> Iterator[List[Item]]:
    begun: List[Item] = []
    size = 0
    for it in items:
        begun.append(it)
        size += it.size
        # (a long file is the last of its list; what follows in an archive isn't read before it)
        if len(begun) == FILES or size >= BYTES or parts.is_long(it):
            yield begun
            begun, size = [], 0
    if begun:
        yield begun


def _count(text: str) -> int:
    if not text.isdecimal() or not 1 <= int(text) <= 1000:
        raise argparse.ArgumentTypeError(f"{text} is no number of processes from 1 to 1000")
    return int(text)

"""What a run has done, in a SQLite file, so that another resumes there."""
import contextlib
import dataclasses
import json
import os
import sqlite3
import time
from typing import Optional, Sequence, Tuple

from legacy import __version__
from legacy.finding import Missing
from legacy.terminals import quote_path
from legacy.work.drafts import beside, give_name
from legacy.work.outputs import look_at_output
from legacy.work.reading import Item
from legacy.work.rows import DONE, FOUND, Row, Task

TABLES = """
CREATE TABLE job(description TEXT NOT NULL);
CREATE TABLE done(
    path BLOB PRIMARY KEY, size INTEGER NOT NULL, time INTEGER NOT NULL, label TEXT NOT NULL, row TEXT NOT NULL) WITHOUT ROWID;
"""
# How each SQLite file begins, and the names of the tables by which one is a state.
SQLITE, NAMES = b"SQLite format 3\0", [("done",), ("job",)]
# The most seconds whose rows are lost with the process.
LOST = 0.5


def make_state(path: str, trees: Sequence[str], force: bool) -> None:
    """Makes an empty state if there is none. An existing file is unchanged: an empty one may be a letter, and is taken only if
    that is forced. Raises `Missing` if there is no state then."""
    look_at_output("the state", path, trees, lambda first: first.startswith(SQLITE), force)
    if os.path.exists(path) and (os.path.getsize(path) or not force):
        return
    # (it gets its name once it has its tables, so that none of ours is ever empty)
    made = beside(os.path.realpath(path))
    try:
        with contextlib.closing(sqlite3.connect(made, isolation_level=None)) as base:
            base.executescript(TABLES)
        if os.path.exists(path):
            os.replace(made, os.path.realpath(path))
        else:
            give_name(made, path)
    except FileExistsError:
        pass
    except (OSError, sqlite3.Error) as fault:
        raise Missing(f"the state {quote_path(path)}: {fault.strerror if isinstance(fault, OSError) else fault}") from fault
    finally:
        with contextlib.suppress(FileNotFoundError):
            os.unlink(made)


class State:
    """The rows of a job by some index files and labels, by each file's absolute path, size, time and label. Raises `Missing`
    if the file isn't a state of these, or of another run that is under way."""

    def __init__(self, path: str, task: Task, trees: Sequence[str] = (), force: bool = False):
        make_state(path, trees, force)
        # (from another folder a path may lead to another file)
        self._path, self._job, self._folder = path, task.job, os.getcwd()
        words = f"{type(task.job).__name__} {json.dumps(dataclasses.asdict(task.job))} {__version__}"
        description = f"{words}, index files and labels {task.found.digest()}"
        # (one that is refused is closed, so that another may take it)
        with contextlib.ExitStack() as refused:
            try:
                self._base = refused.enter_context(contextlib.closing(sqlite3.connect(path, timeout=1, isolation_level=None)))
                if self._base.execute("SELECT name FROM sqlite_master WHERE type = 'table' ORDER BY name").fetchall() != NAMES:
                    raise Missing(f"the state {quote_path(path)} is a database of another program")
                self._base.executescript("PRAGMA locking_mode=EXCLUSIVE; PRAGMA journal_mode=WAL; PRAGMA synchronous=NORMAL;")
                self._base.execute("BEGIN IMMEDIATE")
                self._is_of(description)
            except sqlite3.Error as fault:
                raise Missing(f"the state {quote_path(path)}: {fault}") from fault
            refused.pop_all()
        self._since = time.monotonic()

    def _is_of(self, description: str) -> None:
        known = self._base.execute("SELECT description FROM job").fetchone()
        if known and known[0] != description:
            raise Missing(f"the state {quote_path(self._path)} is that of another job: {known[0]}; this is {description}")
        if not known:
            self._base.execute("INSERT INTO job VALUES (?)", (description,))

    def unchanged_row(self, item: Item) -> Optional[Row]:
        """The row of a file that is unchanged."""
        found = self._base.execute(
            "SELECT row FROM done WHERE path = ? AND size = ? AND time = ? AND label = ?", self._key(item)).fetchone()
        row = dataclasses.replace(self._job.rows.from_json(found[0]), path=item.path) if found else None
        return row if row and self._job.holds(row) else None

    def _key(self, item: Item) -> Tuple[bytes, int, int, str]:
        return os.fsencode(os.path.join(self._folder, item.path)), item.size, item.time, item.label

    def keep(self, items: Sequence[Item], rows: Sequence[Row]) -> None:
        """Keeps rows; not refusals, so that these are tried again."""
        done = [(*self._key(it), row.json()) for it, row in zip(items, rows) if row.outcome in (DONE, FOUND)]
        try:
            self._base.executemany("INSERT OR REPLACE INTO done VALUES (?, ?, ?, ?, ?)", done)
            if time.monotonic() - self._since > LOST:
                self._base.execute("COMMIT")
                self._base.execute("BEGIN IMMEDIATE")
                self._since = time.monotonic()
        except sqlite3.Error as fault:
            raise Missing(f"the state {quote_path(self._path)}: {fault}") from fault

    def __enter__(self) -> "State":
        return self

    def __exit__(self, *_: object) -> None:
        try:
            if self._base.in_transaction:
                self._base.execute("COMMIT")
        except sqlite3.Error as fault:
            raise Missing(f"the state {quote_path(self._path)}: {fault}") from fault
        finally:
            self._base.close()

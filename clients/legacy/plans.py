"""Plans of repairs, each line of which is an edit (docs/ARCHIVES.md): how one is written and read, applied, taken back, and looked
at for how far it is."""
import dataclasses
import functools
import hashlib
import io
import json
import os
from typing import Callable, Dict, Iterator, List, NamedTuple, Optional, Sequence

from legacy import splices, work
from legacy.finding import Found, Missing
from legacy.repairs import Edit, Mended, Repairs, apart, apply_edits, look_at
from legacy.terminals import quote_path
from legacy.work import DONE, FOUND, PASSED, REFUSED, Item, Program, Refusal, Settings, refusals
from legacy.splices import reverse
from legacy.work import reading
from legacy.work.drafts import Draft, draft, ordinary_mode
from legacy.work.outputs import look_at_output
from legacy.work.reading import open_file
from legacy.work.walk import STDIN, look_apart
from legacy.work.writing import replace, rewrite, sync_names

# Why a file is neither as a plan has it nor as it would be.
CHANGED = "it has changed since"


def plan(path: str, trees: Sequence[str], repairs: Repairs, settings: Settings) -> Iterator[Mended]:
    """The rows of all files of these trees; once there are all, there is a plan too. Raises `Missing` if there is a file of its
    name, which may be needed to undo what was done by it. Raises it too if a rule's label isn't one, or if a tree lies in
    another."""
    if os.path.lexists(path):
        raise _name_in_use(path)
    look_at_output("the plan", path, trees, lambda _: False, settings.force)
    look_apart(trees)
    if STDIN in trees:
        raise Missing("a plan mends files, and - is standard input; ./- is a file of that name")
    if repairs.twice:
        settings.found.look_for_encoder("--twice", repairs.twice)
    folder = os.getcwd()
    try:
        with draft(path) as made, open(made.number, "w", encoding="utf-8", closefd=False) as file:
            for row in work.run(repairs, trees, settings):
                assert isinstance(row, Mended)
                for it in row.edits:
                    # (a path that is relative would lead to another file from another folder)
                    members = {"path": _absolute(folder, row.path), "label": row.label, "sha256": row.sha256, **dataclasses.asdict(it)}
                    file.write(json.dumps(members) + "\n")
                yield row
            file.flush()
            os.fchmod(made.number, ordinary_mode())
            made.sync()
            try:
                made.give_name(path)
            except FileExistsError as fault:
                raise _name_in_use(path) from fault
        sync_names([path], os.path.dirname(path))
    except OSError as fault:
        raise Missing(f"{quote_path(path)}: {fault.strerror}") from fault


def _absolute(folder: str, path: str) -> str:
    """A path from the top of all. If it goes up, what it goes up from may be a link, and stays in it."""
    return os.path.join(folder, path if ".." in path.split(os.sep) else os.path.normpath(path))


def _name_in_use(path: str) -> Missing:
    return Missing(f"{quote_path(path)} is there already, and may be what takes repairs back")


class Line(NamedTuple):
    """A line of a plan, and the file with the one edit that it has."""

    text: str
    row: Mended


def lines_of(path: str, force: bool = False) -> List[Line]:
    """The lines of a plan. Raises `Missing` if one of them isn't an edit, or, unless that is forced, has a relative path."""
    try:
        with open(path, encoding="utf-8") as file:
            return [Line(line, _row(path, number, line, force)) for number, line in enumerate(file, 1) if line.strip()]
    except (OSError, UnicodeDecodeError) as fault:
        raise Missing(f"{quote_path(path)}: {fault.strerror if isinstance(fault, OSError) else 'it is no UTF-8'}") from fault


def read_plan(path: str, force: bool = False) -> Iterator[Mended]:
    """The files of a plan, each with its edits in order. Raises `Missing` as `lines_of` does, and if edits overlap."""
    files: Dict[str, Mended] = {}
    for _, row in lines_of(path, force):
        known = files.setdefault(row.path, row)
        if (known.sha256, known.label) != (row.sha256, row.label):
            raise Missing(f"{quote_path(path)}: {quote_path(row.path)} is there with two SHA-256 or labels")
        if known is not row:
            known.edits += row.edits
    for row in files.values():
        row.edits.sort(key=lambda it: it.at)
        if len(apart(row.edits)) != len(row.edits):
            raise Missing(f"{quote_path(path)}: edits of {quote_path(row.path)} overlap")
        yield row


def _row(path: str, number: int, line: str, force: bool) -> Mended:
    try:
        members = json.loads(line)
        row = Mended(members.pop("path"), 0, members.pop("label"), sha256=members.pop("sha256"))
        row.edits = [Edit(**members)]
        texts = (row.path, row.label, row.sha256)
        if not all(isinstance(it, str) for it in texts) or not isinstance(row.edits[0].at, int) or row.edits[0].at < 0:
            raise ValueError("a member is of another kind")
        if b"\0" in os.fsencode(row.path):
            raise ValueError("its path is that of no file")
        if not (force or os.path.isabs(row.path)):
            raise ValueError("its path is relative, and leads to another file from another folder; --force takes it from this one")
        bytes.fromhex(row.edits[0].new)
        bytes.fromhex(row.edits[0].old)
    except (ValueError, KeyError, TypeError, AttributeError, RecursionError) as fault:
        raise Missing(f"{quote_path(path)}, line {number} is no edit: {fault}") from fault
    return row


def apply(path: str, found: Found, force: bool = False) -> Iterator[Mended]:
    """The rows of a plan's files, each once it is mended. One that was mended by this plan before stays."""
    def edits(row: Mended, of: Content) -> Optional[Sequence[Edit]]:
        if of.sha256() != row.sha256:
            if of.sha256(reverse(row.edits)) != row.sha256:
                raise Refusal(CHANGED)
            return None
        if not of.has_old_bytes(row.edits):
            raise Refusal("the plan's old bytes aren't there")
        return row.edits

    return _each(list(read_plan(path, force)), found, Step(edits, True, "it is mended already"))


def undo(path: str, found: Found, force: bool = False) -> Iterator[Mended]:
    """The rows of a plan's files, each once it has its old bytes again. One that has them stays."""
    def edits(row: Mended, of: Content) -> Optional[Sequence[Edit]]:
        if of.sha256() == row.sha256:
            return None
        back = reverse(row.edits)
        if of.sha256(back) != row.sha256:
            raise Refusal(CHANGED)
        return back

    return _each(list(read_plan(path, force)), found, Step(edits, False, "it is as it was"))


class Step(NamedTuple):
    """A step of a plan: the edits to make in a file, if there are any, and whether what they leave is looked at. It has what is said
    of a file without any."""

    edits: "Callable[[Mended, Content], Optional[Sequence[Edit]]]"
    is_looked_at: bool
    stays: str


class Content:
    """The bytes of a file, which isn't read as a whole if it is long. Edits that it hasn't the old bytes of make nothing of it."""

    def __init__(self, row: Mended, known: os.stat_result):
        self._row, self.known = row, known
        row.size = known.st_size
        self.file = io.FileIO(open_file(row.path), "rb") if known.st_size > reading.WHOLE else None
        self.bytes = b"" if self.file else work.read(Item(row.path, known.st_size, known.st_mtime_ns, row.label))

    def sha256(self, edits: Sequence[Edit] = ()) -> str:
        """The SHA-256 of what edits make of it."""
        if not self.has_old_bytes(edits):
            return ""
        return splices.sha256(self.file, edits) if self.file else hashlib.sha256(apply_edits(self.bytes, edits)).hexdigest()

    def has_old_bytes(self, edits: Sequence[Edit]) -> bool:
        """Whether it has the old bytes of all edits."""
        if self.file:
            return splices.are_there(self.file, edits)
        return all(self.bytes[it.at : it.end] == bytes.fromhex(it.old) for it in edits)

    def make(self, edits: Sequence[Edit], program: Program, is_looked_at: bool) -> None:
        """Makes these edits in the file."""
        if self.file:
            rewrite(self._row.path, functools.partial(self._write, self.file, edits, program.found if is_looked_at else None), self.known)
            return
        made = apply_edits(self.bytes, edits)
        if is_looked_at:
            program.ask(lambda gate: look_at(gate, self._row.label, self.bytes, made))
        replace(self._row.path, made, self.known)

    def _write(self, file: io.FileIO, edits: Sequence[Edit], found: Optional[Found], made: Draft) -> None:
        for block in splices.blocks(file, edits):
            made.write(block)
        if found:
            splices.look_at(found, self._row.label, file.fileno(), made.number)

    def __enter__(self) -> "Content":
        return self

    def __exit__(self, *_: object) -> None:
        if self.file:
            self.file.close()


def _each(rows: Sequence[Mended], found: Found, step: Step) -> Iterator[Mended]:
    with Program(found) as program:
        for row in rows:
            try:
                with refusals(row.label), Content(row, os.stat(row.path)) as content:
                    edits = step.edits(row, content)
                    if edits is not None:
                        content.make(edits, program, step.is_looked_at)
                row.outcome, row.reason = (DONE, "") if edits is not None else (PASSED, step.stays)
            except Refusal as fault:
                row.outcome, row.reason = REFUSED, str(fault)
            yield row


def status(path: str, force: bool = False) -> Iterator[Mended]:
    """The rows of a plan's files by how far it is: `FOUND` if its edits can be made, and `DONE` if they are made. It is `REFUSED`
    if the file has neither the old nor the new bytes."""
    for row in list(read_plan(path, force)):
        try:
            with refusals(row.label), Content(row, os.stat(row.path)) as content:
                is_old = content.sha256() == row.sha256
                if not is_old and content.sha256(reverse(row.edits)) != row.sha256:
                    raise Refusal(CHANGED)
            row.outcome = FOUND if is_old else DONE
        except Refusal as fault:
            row.outcome, row.reason = REFUSED, str(fault)
        yield row

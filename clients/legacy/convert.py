"""`legacy convert`: files in another encoding, in a tree next to theirs.

    for row in convert("utf-8", ["letters"], "letters-utf-8", Settings(found, encoding=[("*.txt", "shift_jis")])):
        print(row.path, row.out, row.reason)"""
import argparse
import contextlib
import dataclasses
import hashlib
import io
import os
import re
import sys
import unicodedata
from typing import Any, Callable, ClassVar, Dict, Iterator, List, Optional, Sequence, Tuple, Type

from gate import Document, Fault, Gate

from legacy import streams, work
from legacy.finding import Found, Missing
from legacy.rules.names import encoding_of
from legacy.terminals import quantity, quote_path, visible_text
from legacy.verify import line_of
from legacy.work import DONE, PASSED, REFUSED, Item, Program, Refusal, Row, Settings, refusals
from legacy.work.drafts import draft, ordinary_mode
from legacy.work.outputs import look_at_output
from legacy.work.rows import WORKER, is_utf8
from legacy.work.walk import STDIN, UNFOLLOWED, look_apart, reason
from legacy.work.writing import copy, copy_link, create, derive_draft, make_folder, make_like, sha256_of, sync_names

# How a manifest begins.
MANIFEST = re.compile(rb"\\?[0-9a-f]{64}  ")

# Why a file wouldn't come back with the same bytes.
MARKED = "its byte order mark would be left out; --keep-mark converts it"
OTHER_BYTES = "converted back it would have other bytes, from byte {at} on"

ABOUT = ("Write each file of these trees in another encoding into the tree OUT, with its mode and times. A file with an error, or with a"
         " character that the other encoding lacks, is refused with the place, and so is one whose name OUT has already with other bytes."
         " The content of a single folder goes into OUT, several folders and files into it by their names. The status is 0 where all files"
         " were converted, 1 where some were refused, 2 where nothing could be done.")


@dataclasses.dataclass
class Converted(Row):
    """The effective encoding of a file, or none if it was copied. It has the file that was written, its bytes, its time in
    nanoseconds, and the SHA-256 of both files."""

    encoding: str = ""
    out: str = ""
    out_size: int = 0
    out_time: int = 0
    sha256: str = ""
    out_sha256: str = ""


@dataclasses.dataclass
class Convert(work.Job):
    """The job of a conversion. It has the label of the other encoding, pairs of a path's start and what replaces it, and the
    folder of all of these. It has `encode`'s mode, and says whether a byte order mark is text. It says whether a file is refused
    that wouldn't come back with the same bytes, and whether files without a rule, and links, are copied. It has the encoding of
    names that aren't UTF-8, which they get."""

    to: str
    places: Sequence[Tuple[str, str]]
    top: str
    mode: str = "fatal"
    keep_mark: bool = False
    exact: bool = False
    copies: bool = False
    names: Optional[str] = None

    rows: ClassVar[Type[Row]] = Converted

    def row(self, gate: Gate, item: Item, content: bytes) -> Converted:
        """Converts a file."""
        made = Converted(item.path, len(content), item.label, out=self._out(item.path, gate))
        made.encoding, new = self.convert_bytes(gate, item.label, content)
        self._make_folders(item.path, made.out)
        create(made.out, new, item.path)
        made.out_size, made.out_time = _size_and_time(made.out)
        made.sha256, made.out_sha256 = (hashlib.sha256(it).hexdigest() for it in (content, new))
        return made

    def stream_row(self, found: Found, item: Item) -> Row:
        """Converts a long file, by `gate convert`."""
        made = Converted(item.path, item.size, item.label)
        made.out, made.encoding, mark = WORKER.program(found).ask(lambda gate: (self._out(item.path, gate), *self._in_force(gate, item)))
        self._make_folders(item.path, made.out)
        with derive_draft(item.path, made.out) as (file, new):
            self._stream(found, item.label, file, new.number)
            if self.exact:
                self._stream_back(found, made.encoding, mark, file, new.number)
        made.out_size, made.out_time = _size_and_time(made.out)
        made.sha256, made.out_sha256 = sha256_of(item.path), sha256_of(made.out)
        return made

    def _in_force(self, gate: Gate, item: Item) -> Tuple[str, int]:
        """The effective encoding of a file, and the length of its byte order mark, by its first bytes."""
        with open(item.path, "rb") as file, gate.open("head", item.label, file.read(3), "keep" if self.keep_mark else "sniff") as head:
            return head.encoding, head.bom

    def _stream(self, found: Found, label: str, file: io.FileIO, new: int) -> None:
        if self.mode != "fatal":
            streams.look_for_errors(found, label, self.keep_mark, file.fileno())
            file.seek(0)
        streams.convert(found, streams.Conversion(label, self.to, self.mode, self.keep_mark), file.fileno(), new)

    def _stream_back(self, found: Found, encoding: str, mark: int, file: io.FileIO, new: int) -> None:
        """Converts the new file back. Raises `Refusal` if its bytes aren't those of the old one."""
        if mark:
            raise Refusal(MARKED)
        os.lseek(new, 0, os.SEEK_SET)
        at = streams.first_difference(found, streams.Conversion(self.to, encoding, keep_mark=True), new, file.fileno())
        if at >= 0:
            raise Refusal(OTHER_BYTES.format(at=at))

    def row_without_rule(self, found: Found, item: Item) -> Optional[Row]:
        """The row of a file that has no rule, or of a link, which are copied on request."""
        if not self.copies or item.fault not in ("", UNFOLLOWED):
            return None
        out = WORKER.program(found).ask(lambda gate: self._out(item.path, gate)) if self.names else self._out(item.path)
        made = Converted(item.path, item.size, "", out=out)
        self._make_folders(item.path, out)
        if item.fault:
            copy_link(item.path, out)
        else:
            made.sha256 = made.out_sha256 = copy(item.path, out)
        made.out_size, made.out_time = _size_and_time(out)
        return made

    def convert_bytes(self, gate: Gate, label: str, content: bytes) -> Tuple[str, bytes]:
        """The effective encoding of some bytes, and the bytes in the other one. Raises `Refusal` if they can't be
        converted."""
        with gate.open("converted", label, content, "keep" if self.keep_mark else "sniff") as document:
            new = self._encode(document)
            if self.exact:
                self._come_back(gate, document, new)
            return document.encoding, new

    def sync(self, rows: Sequence[Row]) -> None:
        """Returns once the names of the files that were written would outlast a loss of power, as their bytes do."""
        sync_names((it.out for it in rows if isinstance(it, Converted) and it.outcome == DONE), self.top)

    def holds(self, row: Row) -> bool:
        """Whether the file that was written exists unchanged."""
        assert isinstance(row, Converted)
        try:
            return _size_and_time(row.out) == (row.out_size, row.out_time)
        except OSError:
            return False

    def _out(self, path: str, gate: Optional[Gate] = None) -> str:
        """The file that is made of one, with its name in UTF-8 on request."""
        begin, to = next(it for it in self.places if path.startswith(it[0]))
        inside = path[len(begin) :]
        if self.names and gate and not is_utf8(os.fsencode(inside)):
            return to + os.sep.join(self._name_of(gate, os.fsencode(it)) for it in inside.split(os.sep))
        return to + inside

    def _name_of(self, gate: Gate, name: bytes) -> str:
        if is_utf8(name):
            return os.fsdecode(name)
        assert self.names
        with gate.open("name", self.names, name, "keep") as document:
            text = document.text()
            if document.stat()["errors"] or "/" in text or "\0" in text:
                raise Refusal(f"its name isn't text in {self.names}")
        return text

    def _make_folders(self, path: str, out: str) -> None:
        """Makes the folders that a file goes into, each of which lets in whom that of the old file does."""
        begin, to = next(it for it in self.places if path.startswith(it[0]))
        inside, new, missing = os.path.dirname(path[len(begin) :]), os.path.dirname(out), []
        while inside and not os.path.isdir(new):
            missing.append((new, inside))
            inside, new = os.path.dirname(inside), os.path.dirname(new)
        if not os.path.isdir(os.path.dirname(to)):
            make_folder(os.path.dirname(to), begin if os.path.isdir(begin) else None)
        for new, inside in reversed(missing):
            make_like(new, os.path.join(begin, inside))

    def _encode(self, document: Document) -> bytes:
        stat = document.stat()
        if stat["errors"]:
            (begin, end), (line, character), _ = document.diagnostics(unit="utf-32", most=1)[0]
            raise Refusal(f"{quantity(stat['errors'], 'errors')}, the first in line {line + 1}, character {character + 1}, bytes {begin} to {end}")
        try:
            return document.encode(self.to, end=stat["utf32"], mode=self.mode)
        except Fault as fault:
            if fault.name != "Unencodable":
                raise
            line, character = document.position(fault.members["index"], unit="utf-32")
            raise Refusal(f"line {line + 1}, character {character + 1}: {_name_of_code_point(fault.members['code_point'])} has no bytes in {self.to}")

    def _come_back(self, gate: Gate, document: Document, new: bytes) -> None:
        """Converts the new bytes back. Raises `Refusal` if they aren't the old ones."""
        if document.bom:
            raise Refusal(MARKED)
        old = document.bytes
        with gate.open("back", self.to, new, "keep") as back:
            try:
                again = back.encode(document.encoding)
            except Fault:
                again = b""
        if again != old:
            at = next((at for at, (one, other) in enumerate(zip(old, again)) if one != other), min(len(old), len(again)))
            raise Refusal(OTHER_BYTES.format(at=at))


def _size_and_time(path: str) -> Tuple[int, int]:
    status = os.lstat(path)
    return status.st_size, status.st_mtime_ns


def _name_of_code_point(code_point: int) -> str:
    return f"U+{code_point:04X} {unicodedata.name(chr(code_point), '')}".strip()


def places(trees: Sequence[str], out: str) -> List[Tuple[str, str]]:
    """The starts of trees' paths, and what replaces them. Raises `Missing` if OUT lies in a tree, one tree lies in another,
    or two have one name."""
    found: Dict[str, str] = {}
    look_apart(trees)
    for tree in trees:
        if os.path.isdir(tree):
            inside = os.path.join(os.path.realpath(tree), "")
            if os.path.join(os.path.realpath(out), "").startswith(inside):
                raise Missing(f"{quote_path(out)} lies in {quote_path(tree)}, which would grow while it is walked")
            begin, to = os.path.join(tree, ""), os.path.join(out, "")
        else:
            begin = os.path.join(*os.path.split(tree))
            to = os.path.join(out, os.path.basename(tree))
        if len(trees) > 1 and begin.endswith("/"):
            to = os.path.join(out, os.path.basename(os.path.abspath(tree)), "")
        if to in found.values():
            raise Missing(f"two of the trees would be {quote_path(to)}")
        found[begin] = to
    return sorted(found.items(), reverse=True)


def convert(to: str, trees: Sequence[str], out: str, settings: Settings, manifest: Optional[str] = None, **how: Any) -> Iterator[Converted]:
    """The rows of all files of these trees, each once the disk has the file. It makes folders and a manifest once it has all
    rows. `how` is what `Convert` has besides the places. Raises `Missing` if nothing can be encoded, or there can be no folder
    OUT."""
    settings.look_at([out])
    if STDIN in (out, *trees):
        raise Missing("- is standard input and output, which go together alone; ./- is a folder or a file of that name")
    top = os.path.dirname(os.path.join(out, ""))
    job = Convert(to, places(trees, out), top, **how)
    settings.found.look_for_encoder("--to", to)
    if job.names and encoding_of(job.names) is None:
        raise Missing(f"--names: {job.names} is no encoding of the Encoding Standard")
    try:
        make_folder(top, trees[0] if len(trees) == 1 and os.path.isdir(trees[0]) else None)
    except OSError as fault:
        raise Missing(f"{quote_path(out)}: {reason(fault)}") from fault
    with contextlib.ExitStack() as kept:
        note = kept.enter_context(_manifest(manifest, trees, settings.force)) if manifest else None
        folders: Dict[str, str] = {}
        for row in work.run(job, trees, settings):
            assert isinstance(row, Converted)
            if row.outcome == DONE:
                folders[os.path.dirname(row.out)] = os.path.dirname(row.path)
                if note and row.sha256:
                    note(row)
            yield row
        _keep_times(folders, top)


def _keep_times(folders: Dict[str, str], top: str) -> None:
    """Gives folders that files went into the times of the old ones, and those above them up to OUT."""
    for folder, old in list(folders.items()):
        while folder.startswith(os.path.join(top, "")):
            folder, old = os.path.dirname(folder), os.path.dirname(old)
            if folder.startswith(top) and os.path.basename(folder) == os.path.basename(old):
                folders.setdefault(folder, old)
    for folder, old in folders.items():
        with contextlib.suppress(OSError):
            status = os.stat(old or ".")
            os.utime(folder, ns=(status.st_atime_ns, status.st_mtime_ns))


@contextlib.contextmanager
def _manifest(path: str, trees: Sequence[str], force: bool) -> Iterator[Callable[[Converted], None]]:
    """Gives what notes a row in a manifest, which is a file once all is done."""
    look_at_output("the manifest", path, trees, lambda first: MANIFEST.match(first) is not None, force)
    try:
        with draft(path) as made, open(made.number, "w", encoding="utf-8", errors="surrogateescape", closefd=False) as file:
            def note(row: Converted) -> None:
                for sha256, name in (row.sha256, row.path), (row.out_sha256, row.out):
                    file.write(line_of(sha256, os.path.abspath(name)))

            yield note
            file.flush()
            os.fchmod(made.number, ordinary_mode())
            made.sync()
            made.replace(os.path.realpath(path))
    except OSError as fault:
        raise Missing(f"the manifest {quote_path(path)}: {fault.strerror}") from fault


def add_to(commands: "argparse._SubParsersAction[Any]") -> None:
    """Adds the parser of this subcommand."""
    parser = commands.add_parser("convert", help="write trees of files in another encoding", description=ABOUT)
    parser.add_argument("--to", metavar="LABEL", required=True, help="the other encoding")
    parser.add_argument(
        "--mode", choices=("fatal", "html"), default="fatal", help="what becomes of a character that the other encoding lacks: the file is"
        " refused (fatal, the default), or it is &#N; with its number (html)")
    parser.add_argument(
        "--keep-mark", action="store_true", help="each file is in the encoding that its rule names, whatever it begins with, and a byte"
        " order mark is converted like the text behind it; else the mark says which encoding it is, and is left out")
    parser.add_argument("--exact", action="store_true", help="refuse a file that wouldn't have the same bytes once it is converted"
        " back, and so, without --keep-mark, one with a byte order mark")
    parser.add_argument("--copy", action="store_true", help="copy files without a rule, and symlinks, so that OUT has all of the trees' files")
    parser.add_argument(
        "--names", metavar="LABEL", help="names that aren't UTF-8 are in this encoding, and are in UTF-8 in OUT; else they keep their bytes")
    parser.add_argument(
        "--manifest", metavar="FILE", help="write the SHA-256 of each old and each new file, for `legacy verify`, sha256sum -c and BagIt")
    parser.add_argument("--json", action="store_true", help="print an object of JSON for each file")
    parser.add_argument("trees", metavar="TREE", nargs="+", help="a folder, or one file")
    parser.add_argument("out", metavar="OUT", help="the folder that the new files go into; it is made where there is none. Where"
        " TREE and OUT are -, they are standard input and output")
    work.add_words(parser)
    parser.set_defaults(run=run)


def _filter(words: argparse.Namespace) -> int:
    """Converts standard input to standard output, and returns the status."""
    settings = work.settings_from(words)
    rule = settings.rules("").rule_of(STDIN)
    if not rule:
        raise Missing("no rule names the encoding of -, as --default does")
    label = rule.label
    settings.found.look_for_encoder("--to", words.to)
    job = Convert(words.to, (), "", words.mode, words.keep_mark, words.exact)
    content = sys.stdin.buffer.read()
    try:
        with Program(settings.found) as program, refusals(label):
            new = program.ask(lambda gate: job.convert_bytes(gate, label, content)[1])
    except Refusal as fault:
        print(f"-: not converted: {visible_text(str(fault))}", file=sys.stderr)
        return 1
    sys.stdout.buffer.write(new)
    return 0


def run(words: argparse.Namespace) -> int:
    """Prints what was refused, and returns the status."""
    if (words.trees, words.out) == ([STDIN], STDIN):
        return _filter(words)
    counts = {REFUSED: 0, PASSED: 0}
    written = 0
    how = {"mode": words.mode, "keep_mark": words.keep_mark, "exact": words.exact, "copies": words.copy, "names": words.names}
    for row in convert(words.to, words.trees, words.out, work.settings_from(words), words.manifest, **how):
        counts[row.outcome] = counts.get(row.outcome, 0) + 1
        written += bool(row.out and row.outcome not in (REFUSED, PASSED))
        if words.json:
            print(row.json())
        elif row.outcome == REFUSED:
            print(f"{quote_path(row.path)}: not converted: {visible_text(row.reason)}")
    sys.stdout.flush()
    rest = [(counts[REFUSED], "refused"), (counts[PASSED], "without a rule, or links")]
    print("; ".join([f"{quantity(written, 'files')} converted", *(f"{count} {what}" for count, what in rest if count)]), file=sys.stderr)
    return 1 if counts[REFUSED] else 0 if written or not counts[PASSED] else 2

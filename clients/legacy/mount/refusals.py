"""What is not saved: the text beside its file, a line in the log with the reason, and a note on the desktop."""
import contextlib
import hashlib
import logging
import os
import shutil
import subprocess
import tempfile
import time
from typing import Dict, Iterator, List, NamedTuple, Optional, Tuple

from legacy.lists import ACCESS_LIST, inherit_nothing
from legacy.mount.below import Place, Source, free, write

log = logging.getLogger("legacy.mount")

SUFFIX = b".rejected"
REASON = "user.gate.refused"
# The program of texts that no later one takes the place of.
NOBODY = 0
# The least seconds between two notes.
BETWEEN = 2.0


def printable(path: Optional[bytes]) -> str:
    """A path as it is printed, in one line."""
    if path is None:
        return "a file that was deleted"
    return "".join(it if it.isprintable() else it.encode("unicode_escape").decode() for it in path.decode(errors="backslashreplace"))


class Rejected(NamedTuple):
    """A refused text: where it is, what it is known again by, its reason, and the program that wrote it."""

    place: bytes
    digest: bytes
    reason: str
    program: int


class Refusals:
    """The refused texts of this run. They lie beside their files, or with the same paths in a folder of their own."""

    def __init__(self, source: Source, folder: Optional[bytes], read_only: bool = False):
        self._source, self._folder = source, folder
        # (what is found before anything is mounted isn't in a mount, which would wait for itself)
        self._elsewhere = os.fsencode(tempfile.gettempdir())
        self._roots = {it: hold_folder(it) for it in (folder, self._elsewhere) if it}
        self._notes = shutil.which("notify-send")
        self._of: Dict[bytes, Rejected] = {}
        self._unsaid: Dict[bytes, Tuple[str, str]] = {}
        self._noted = 0.0

    def reject(self, path: bytes, text: bytes, reason: str, program: int, aloud: bool = True) -> None:
        """Keeps a refused text, and says why it was refused; or, if its program may continue with it, once `say` is called."""
        before, digest = self._of.get(path), hashlib.sha256(text).digest()
        if not (before and (before.digest, before.reason) == (digest, reason) and self._is_as_written(before)):
            self._unsaid[path] = self._keep(path, text, reason, program, digest)
        if aloud:
            self.say(path)

    def _keep(self, path: bytes, text: bytes, reason: str, program: int, digest: bytes) -> Tuple[str, str]:
        """Keeps a refused text, and returns its reason, and where the text is."""
        before = self._of.get(path)
        mine = before.place if before and before.program == program != NOBODY and self._is_as_written(before) else None
        place = self._write_somewhere(path, text, reason, mine)
        where = f"the text is in {printable(place)}" if place else "the text is lost, since nothing could be written"
        if place:
            self._of[path] = Rejected(place, digest, reason, program)
        return reason, where

    def say(self, path: bytes) -> None:
        """Says what was refused and isn't said yet."""
        unsaid = self._unsaid.pop(path, None)
        if unsaid:
            reason, where = unsaid
            log.error("%s: NOT SAVED: %s; %s", printable(path), reason, where)
            self._note(f"{os.fsdecode(path)} was not saved", f"{reason}; {where}")

    def accept(self, path: bytes, program: int) -> None:
        """Removes a refused text, where the program that wrote it has now saved another."""
        self._unsaid.pop(path, None)
        before = self._of.get(path)
        if before and before.program == program != NOBODY:
            del self._of[path]
            if self._is_as_written(before):
                with contextlib.suppress(OSError), self._at(before.place) as place:
                    place.unlink()

    def texts(self) -> List[Dict[str, str]]:
        """The texts that were refused, the last ones first: each file's path, the reason, and where its text is."""
        return [{"path": os.fsdecode(path), "reason": it.reason, "text": os.fsdecode(it.place)} for path, it in reversed(self._of.items())]

    def _is_as_written(self, refused: Rejected) -> bool:
        """Whether nobody has edited a refused text."""
        with contextlib.suppress(OSError), self._at(refused.place) as place:
            return hashlib.sha256(place.content() or b"").digest() == refused.digest
        return False

    @contextlib.contextmanager
    def _at(self, path: bytes) -> Iterator[Place]:
        """Where a text lies: in the source, or by an absolute path in a folder for such texts."""
        there = self._folder_of(path)
        if there is None:
            with self._source.place(path) as place:
                yield place
            return
        folder = os.open(there, os.O_PATH | os.O_DIRECTORY | os.O_CLOEXEC)
        try:
            yield Place(folder, os.path.basename(path))
        finally:
            os.close(folder)

    def _write_somewhere(self, path: bytes, text: bytes, reason: str, mine: Optional[bytes]) -> Optional[bytes]:
        """Writes a text to a folder that allows it and has room, and returns the path."""
        places = [os.path.join(self._folder, path)] if self._folder else [path]
        for place in [*places, os.path.join(self._elsewhere, os.path.basename(path))]:
            with contextlib.suppress(OSError):
                own_folders(self._folder_of(place))
                with self._at(mine or place) as at:
                    new = at._replace(name=free(lambda it: at._replace(name=it).is_taken(), os.path.basename(place), SUFFIX))
                    self._write(new, text, reason, path, beside=not os.path.isabs(place))
                    if mine:
                        new.rename(at.name)
                    return mine or os.path.join(os.path.dirname(place), new.name)
            mine = None
        return None

    def _folder_of(self, path: bytes) -> Optional[bytes]:
        """What leads to the folder of a text that isn't to lie in the source."""
        for folder, root in self._roots.items():
            if path.startswith(os.path.join(folder, b"")):
                return os.path.dirname(os.path.join(root, path[len(os.path.join(folder, b"")):]))
        return None

    def _write(self, at: Place, text: bytes, reason: str, path: bytes, beside: bool) -> None:
        file = at.open(os.O_WRONLY | os.O_CREAT | os.O_EXCL)
        try:
            write(file, text)
            with contextlib.suppress(OSError):
                os.setxattr(file, REASON, reason.encode(errors="backslashreplace"))
            self._own(file, path, beside)
        except OSError:
            at.unlink()
            raise
        finally:
            os.close(file)

    def _own(self, file: int, path: bytes, beside: bool) -> None:
        """A user who may read and write a file may do so with its refused text. Anywhere except next to it only its owner may, since no
        folder there keeps out whom the file's keeps out."""
        inherit_nothing(file)
        with contextlib.suppress(OSError), self._at(path) as of, of.hold() as like:
            found = os.stat(like)
            if beside:
                with contextlib.suppress(OSError):  # (it has none)
                    os.setxattr(file, ACCESS_LIST, os.getxattr(like, ACCESS_LIST))
                os.fchmod(file, found.st_mode & 0o666)
            os.fchown(file, found.st_uid, found.st_gid)

    def _note(self, title: str, text: str) -> None:
        """A note on the desktop, if there is one."""
        program, now = self._notes, time.monotonic()
        if program and now - self._noted > BETWEEN and {"DISPLAY", "WAYLAND_DISPLAY"} & set(os.environ):
            self._noted = now
            with contextlib.suppress(OSError):
                subprocess.Popen(
                    [program, "--app-name=legacy mount", "--icon=dialog-warning", "--", title, text],
                    stdin=subprocess.DEVNULL, stdout=subprocess.DEVNULL, stderr=subprocess.DEVNULL, start_new_session=True)


def own_folders(folder: Optional[bytes]) -> None:
    """Makes a folder, and those above it that don't exist, each for its user alone whatever the process's mask is."""
    if folder is not None and not os.path.isdir(folder):
        own_folders(os.path.dirname(folder))
        with contextlib.suppress(FileExistsError):
            os.mkdir(folder, 0o700)


def hold_folder(folder: bytes) -> bytes:
    """What leads to a folder, by a descriptor of it, or of the one above that is there."""
    there, below = folder, b""
    while not os.path.isdir(there):
        there, name = os.path.split(there)
        below = os.path.join(name, below)
    return os.path.join(b"/proc/self/fd/%d" % os.open(there, os.O_PATH | os.O_DIRECTORY | os.O_CLOEXEC), below)


def program_of(thread: int) -> int:
    """The process that a thread is of."""
    with contextlib.suppress(OSError, ValueError, IndexError):
        with open(f"/proc/{thread}/status", encoding="utf-8", errors="replace") as file:
            return next(int(line.split()[1]) for line in file if line.startswith("Tgid:"))
    return thread

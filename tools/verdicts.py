"""The line that the prover printed of each crate that it proved, with a sum of the sources that it was proved from. Other sources have
no line."""
import hashlib
import pathlib
from typing import Optional

from crates import TOP
from mutants import PARTS


def sources(folder: pathlib.Path) -> str:
    """The sum of a crate's files: that of a list of their sums, in the order of their paths."""
    paths = sorted(path for part in PARTS for path in (folder / part).rglob("*") if path.is_file())
    named = {path.relative_to(folder).as_posix(): hashlib.sha256(path.read_bytes()).hexdigest() for path in paths}
    listed = "".join(f"{named[path]}  {path}\n" for path in sorted(named))
    return hashlib.sha256(listed.encode()).hexdigest()


def place(crate: str) -> pathlib.Path:
    return TOP / "crates" / crate / "out" / f"{crate}.verdict"


def keep(crate: str, folder: pathlib.Path, said: str) -> None:
    """Keeps the last line that the prover printed of a crate whose sources are in the folder."""
    place(crate).parent.mkdir(exist_ok=True)
    last = said.rstrip("\n").rpartition("\n")[2]
    place(crate).write_text(f"{sources(folder)}\n{last}\n", encoding="utf-8")


def line_of(crate: str) -> Optional[str]:
    """The line that was kept of the crate as it is now."""
    try:
        made_from, said = place(crate).read_text(encoding="utf-8").splitlines()
    except (OSError, ValueError):
        return None
    return said if made_from == sources(TOP / "crates" / crate) else None

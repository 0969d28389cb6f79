"""SOURCE and MOUNTPOINT of `legacy mount`: whether one can be mounted at the other, and what the kernel is told of them."""
import argparse
import os
import shlex
from typing import Optional, Set

from legacy.__main__ import fault_of
from legacy.mount import points


class Word(str):
    """An option of a mount. (pyfuse3 takes options that are ASCII alone, and a path may have any bytes.)"""

    def encode(self, encoding: str = "", errors: str = "") -> bytes:
        """The bytes that it stands for."""
        return os.fsencode(str(self))


def fault_of_places(source: str, point: str) -> Optional[str]:
    """Why a source can't be mounted at a point, or nothing."""
    real = points.real_path(os.fsencode(point))
    there = points.mount_at(real)
    if there and points.is_dead(real):
        return f"{point} has a mount whose process is gone; `fusermount3 -u {shlex.quote(point)}` clears it"
    if there and there.kind == points.KIND:
        return f"{point} is mounted already; `legacy umount {shlex.quote(point)}` unmounts it"
    fault = fault_of_folder(source) or fault_of_folder(point)
    if not fault and is_inside(real, source):
        fault = f"{point} is inside {source}, and would show itself again and again; choose a folder outside of it, or {source} itself"
    return fault


def fault_of_folder(path: str) -> Optional[str]:
    """Why a path isn't a folder that can be used, or nothing."""
    try:
        os.stat(os.path.join(path, ""))
    except (FileNotFoundError, NotADirectoryError):
        return f"{path} is no folder"
    except OSError as fault:
        return fault_of(fault)
    return None


def is_inside(point: bytes, source: str) -> bool:
    """Whether a real path lies in a folder and isn't that folder, by whichever path it is reached."""
    top = os.stat(source)
    while point != b"/":
        point = os.path.dirname(point)
        if os.path.samestat(os.stat(point), top):
            return True
    return False


def fuse_options(words: argparse.Namespace) -> Set[str]:
    """How it is mounted."""
    import pyfuse3

    chosen = {Word("fsname=" + words.source.replace("\\", "\\\\").replace(",", "\\,")), "subtype=gate", *words.kernel}
    if words.read_only:
        chosen.add("ro")
    if words.allow_other:
        chosen.add("allow_other")
    return set(pyfuse3.default_options) | chosen

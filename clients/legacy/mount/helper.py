"""`mount.fuse.legacy`: what mount(8) runs for a file system of the type fuse.legacy, such as a line of fstab says."""
import argparse
import os
import pwd
import re
import sys
from typing import List, Optional

from legacy.__main__ import main as run
from legacy.mount.options import line, parts

# The option that names the user whose mount it is, where root mounts it.
SETUID = "setuid"


def parser() -> argparse.ArgumentParser:
    """The words that mount(8) gives its helpers."""
    made = argparse.ArgumentParser(prog="mount.fuse.legacy", description="Mount a tree of legacy files, as `legacy mount` does; for mount(8).")
    made.add_argument("source", metavar="SOURCE")
    made.add_argument("mountpoint", metavar="MOUNTPOINT")
    made.add_argument("-o", dest="options", metavar="OPTIONS", action="append", default=[], help="those of `legacy mount`, and setuid=USER")
    made.add_argument("-f", dest="fake", action="store_true", help="do nothing")
    for flag in "snv":
        made.add_argument(f"-{flag}", action="store_true", help=argparse.SUPPRESS)
    for flag in "tN":
        made.add_argument(f"-{flag}", metavar="WORD", help=argparse.SUPPRESS)
    return made


def become(user: str) -> None:
    """Continues as another user, with nothing of root's."""
    entry = pwd.getpwuid(int(user)) if user.isdecimal() else pwd.getpwnam(user)
    # (if a user mounts a line of fstab that allows it, mount(8) has become that user already)
    if os.geteuid() == 0 or entry.pw_uid != os.getuid():
        os.initgroups(entry.pw_name, entry.pw_gid)
        os.setgid(entry.pw_gid)
        os.setuid(entry.pw_uid)
    os.environ.update(HOME=entry.pw_dir, USER=entry.pw_name, LOGNAME=entry.pw_name)


def main(words: Optional[List[str]] = None) -> int:
    """Mounts what the words say."""
    # (mount(8) of a system that starts has no PATH, or a short one)
    os.environ.setdefault("PATH", "/usr/local/sbin:/usr/local/bin:/usr/sbin:/usr/bin:/sbin:/bin")
    made = parser()
    found = made.parse_intermixed_args(words)
    if found.fake:
        return 0
    kept = []
    for text in found.options:
        for part in re.findall(r"(?:[^,\\]|\\.)+", text):
            name, value = next(parts(part))
            if name == SETUID:
                try:
                    become(value)
                except (KeyError, OSError) as fault:
                    made.error(f"-o {part}: {fault}")
            else:
                kept.append(part)
    return run(line(found.source, found.mountpoint, kept))


if __name__ == "__main__":
    sys.exit(main())

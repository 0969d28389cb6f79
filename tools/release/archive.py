"""The archive: an installation below one folder, for systems without Debian's packages. It may be unpacked anywhere."""
import io
import lzma
import tarfile
from typing import Iterator, List

import contents
from contents import File
from crates import TOP
from release import Release

MODULES = "share/gate/python"
# Where a command finds the folder that the archive was unpacked to.
OWN_FOLDER = '"$(dirname "$(dirname "$(readlink -f "$0")")")"'
FIND_MODULES = ["import os", f"sys.path.insert(0, os.path.join(os.path.dirname(os.path.dirname(os.path.realpath(__file__))), {MODULES!r}))"]


def stem(release: Release) -> str:
    return f"gate-{release.version}-linux-amd64"


def name(release: Release) -> str:
    return f"{stem(release)}.tar.xz"


def files(release: Release, proof: bytes) -> Iterator[File]:
    """All files of the archive, below its folder."""
    yield from release.common_files()
    yield File("bin/gate", contents.launcher(f"{OWN_FOLDER}/{contents.PROGRAM}"), True)
    yield from contents.modules(MODULES)
    for command, call in contents.commands().items():
        yield File(f"bin/{command}", contents.script("/usr/bin/env python3", call, FIND_MODULES), True)
    # (a user puts the unit into ~/.config/systemd/user, with the folder in place of ~/.local)
    yield contents.unit("%h/.local")
    yield File("share/doc/gate/PROOF.txt", proof)
    for path in release.pages():
        yield File(f"share/doc/gate/{path.relative_to(TOP).as_posix()}", path.read_bytes())


def package_bytes(release: Release, proof: bytes) -> bytes:
    """The archive's bytes."""
    made = io.BytesIO()
    listed: List[File] = sorted(files(release, proof))
    with lzma.open(made, "w", preset=9) as packed, tarfile.open(fileobj=packed, mode="w", format=tarfile.PAX_FORMAT) as archive:
        for it in listed:
            entry = tarfile.TarInfo(f"{stem(release)}/{it.path}")
            entry.size, entry.mtime, entry.mode = len(it.content), release.date, 0o755 if it.executable else 0o644
            archive.addfile(entry, io.BytesIO(it.content))
    return made.getvalue()

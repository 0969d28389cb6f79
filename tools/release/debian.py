"""The package for Debian 12 and later, and systems that take its packages."""
import email.utils
import gzip
import hashlib
import os
import pathlib
import subprocess
from typing import Dict, Iterator, List

import contents
from contents import File
from crates import TOP
from release import Release

MAINTAINER = "Senqytap maintainers <maintainers@users.noreply.senqytap.example>"
MODULES = "lib/python3/dist-packages"
PYTHON = "/usr/bin/python3"
OWN = TOP / "tools" / "release" / "debian_files"
DOCUMENTS = "share/doc/gate"
# The places that Debian wants for files that the archive has elsewhere, and for the helper that mount(8) looks for.
MOVED = {
    contents.COMPLETIONS["zsh"]: "share/zsh/vendor-completions/_legacy",
    "share/systemd/user/legacy-mount@.service": "lib/systemd/user/legacy-mount@.service",
    "bin/mount.fuse.legacy": "sbin/mount.fuse.legacy",
}


def name(release: Release) -> str:
    return f"gate_{release.version}_amd64.deb"


def gzip_bytes(content: bytes) -> bytes:
    return gzip.compress(content, 9, mtime=0)


def files(release: Release, proof: bytes) -> Iterator[File]:
    """All files of the package, below /usr."""
    for it in release.common_files():
        yield File(f"{it.path}.gz", gzip_bytes(it.content)) if it.path.startswith("share/man/") else it
    yield File("bin/gate", contents.launcher(f"/usr/{contents.PROGRAM}"), True)
    yield from contents.modules(MODULES)
    for command, call in contents.commands().items():
        yield File(f"bin/{command}", contents.script(PYTHON, call, []), True)
    yield contents.unit("/usr")
    for path in sorted(OWN.glob("*.[18]")):
        yield File(f"share/man/man{path.suffix[1:]}/{path.name}.gz", gzip_bytes(path.read_bytes()))
    yield from documents(release, proof)


def documents(release: Release, proof: bytes) -> Iterator[File]:
    yield File(f"{DOCUMENTS}/PROOF.txt", proof)
    yield File(f"{DOCUMENTS}/copyright", (OWN / "copyright").read_bytes())
    yield File(f"{DOCUMENTS}/changelog.gz", gzip_bytes(changelog(release)))
    for path in release.pages():
        yield File(f"{DOCUMENTS}/{path.relative_to(TOP).as_posix()}", path.read_bytes())
    yield File("share/lintian/overrides/gate", (OWN / "lintian-overrides").read_bytes())


def changelog(release: Release) -> bytes:
    """The version in the form that Debian's tools read; the changes themselves are in CHANGELOG.md."""
    date = email.utils.formatdate(release.date)
    return f"gate ({release.version}) unstable; urgency=medium\n\n  * CHANGELOG.md has the changes.\n\n -- {MAINTAINER}  {date}\n".encode()


def control(release: Release, size: int) -> bytes:
    """The file that describes the package; `size` is what it takes when installed, in KiB."""
    text = (OWN / "control").read_text(encoding="utf-8")
    return text.replace("VERSION", release.version).replace("MAINTAINER", MAINTAINER).replace("SIZE", str(size)).encode()


def put(root: pathlib.Path, path: str, content: bytes, executable: bool) -> None:
    file = root / path
    file.parent.mkdir(parents=True, exist_ok=True)
    file.write_bytes(content)
    file.chmod(0o755 if executable else 0o644)


def lay_out(release: Release, proof: bytes, root: pathlib.Path) -> None:
    """Puts the tree of the package into a folder, as dpkg-deb takes it."""
    placed: Dict[str, File] = {f"usr/{MOVED.get(it.path, it.path)}": it for it in files(release, proof)}
    for path, it in placed.items():
        put(root, path, it.content, it.executable)
    sums: List[str] = [f"{hashlib.md5(it.content).hexdigest()}  {path}\n" for path, it in sorted(placed.items())]
    size = sum(-(-len(it.content) // 1024) for it in placed.values())
    put(root, "DEBIAN/control", control(release, size), False)
    put(root, "DEBIAN/md5sums", "".join(sums).encode(), False)
    for script in "postinst", "prerm":
        put(root, f"DEBIAN/{script}", (OWN / script).read_bytes(), True)
    # (whatever the mask of modes was)
    for folder in [root, *(path for path in root.rglob("*") if path.is_dir())]:
        folder.chmod(0o755)


def package_bytes(release: Release, proof: bytes, room: pathlib.Path) -> bytes:
    """The package's bytes; it is laid out in the folder `room`."""
    lay_out(release, proof, room / "tree")
    # One thread, since how the work is divided shows in what is written.
    environment = {**os.environ, "SOURCE_DATE_EPOCH": str(release.date), "DPKG_DEB_THREADS_MAX": "1"}
    words = ["dpkg-deb", "-Zxz", "--root-owner-group", "--build", str(room / "tree"), str(room / "made.deb")]
    subprocess.run(words, env=environment, stdout=subprocess.DEVNULL, check=True)
    return (room / "made.deb").read_bytes()

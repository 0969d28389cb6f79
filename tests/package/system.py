"""A small system of Debian in a folder, in which nobody built anything, and what is run there: without a network, and as root or as
an ordinary user."""
import os
import pathlib
import shutil
import subprocess
from typing import Dict, List, Optional

PACKAGES = ("python3", "fuse3", "python3-pyfuse3", "python3-tqdm", "neovim", "curl")
USER = 1000
# Runs a command with mounts, processes and a network of its own, and ends all that it leaves running.
ALONE = ["unshare", "--mount", "--net", "--pid", "--fork", "--kill-child"]
# What a started system has: processes, and the devices that every user may open, FUSE's among them.
PREPARE = """set -e
mount -t proc proc "$0/proc"
for it in dev run tmp; do mount -t tmpfs -o mode=1777 tmpfs "$0/$it"; done
mkdir "$0/dev/shm"
mknod -m 666 "$0/dev/null" c 1 3
mknod -m 666 "$0/dev/zero" c 1 5
mknod -m 666 "$0/dev/random" c 1 8
mknod -m 666 "$0/dev/urandom" c 1 9
mknod -m 666 "$0/dev/fuse" c 10 229
ln -s /proc/self/fd "$0/dev/fd"
"""
# The seconds that the system may take to be made, and a command in it.
MAKING, RUNNING = 900, 600


def why_not() -> str:
    """Why no such system can be made here, or nothing."""
    missing = [it for it in ("mmdebstrap", "dpkg-deb", "unshare", "setpriv") if not shutil.which(it)]
    if missing:
        return f"{' and '.join(missing)} is missing"
    if os.geteuid():
        return "only root can make a system of Debian here"
    ran = subprocess.run([*ALONE, "true"], stdout=subprocess.PIPE, stderr=subprocess.STDOUT, timeout=60, check=False)
    return ran.stdout.decode(errors="replace").strip()


class System:
    """A system below a folder. It has what the package depends on and recommends."""

    def __init__(self, root: pathlib.Path, suite: str) -> None:
        self.root = root
        words = ["mmdebstrap", "--quiet", "--variant=apt", f"--include={','.join(PACKAGES)}", suite, str(root)]
        ran = subprocess.run(words, stdin=subprocess.DEVNULL, stdout=subprocess.PIPE, stderr=subprocess.STDOUT, timeout=MAKING, check=False)
        if ran.returncode:
            raise OSError(f"no system of {suite} can be made: {ran.stdout.decode(errors='replace')[-400:]}")
        # (which a system makes when it starts; fusermount3 reads it)
        if not os.path.lexists(root / "etc" / "mtab"):
            (root / "etc" / "mtab").symlink_to("../proc/self/mounts")
        self.run(["useradd", "--uid", str(USER), "--create-home", "somebody"])

    def run(self, words: List[str], user: int = 0, env: Optional[Dict[str, str]] = None) -> "subprocess.CompletedProcess[bytes]":
        """Runs a command in the system, without a network, with its own processes and mounts, which end with it."""
        root = str(self.root)
        prepare = PREPARE + f'exec chroot --userspec={user}:{user} "$0" "$@"'
        alone = [*ALONE, "sh", "-c", prepare, root, *words]
        environment = {"PATH": "/usr/sbin:/usr/bin:/sbin:/bin", "LANG": "C.UTF-8", "DEBIAN_FRONTEND": "noninteractive", **(env or {})}
        return subprocess.run(alone, env=environment, stdin=subprocess.DEVNULL, stdout=subprocess.PIPE, stderr=subprocess.STDOUT, timeout=RUNNING, check=False)

    def files(self) -> Dict[str, int]:
        """Each file and folder of the system, with its mode, except those that the package manager writes."""
        own = ("var/lib/dpkg", "var/log", "var/cache", "run", "proc", "dev", "sys", "tmp", "home")
        found = {}
        for folder, folders, names in os.walk(self.root):
            path = pathlib.Path(folder).relative_to(self.root)
            folders[:] = [it for it in folders if (path / it).as_posix() not in own]
            found.update({(path / it).as_posix(): (pathlib.Path(folder) / it).lstat().st_mode for it in [*folders, *names]})
        return found

"""`legacy umount MOUNTPOINT ..`: ends mounts of `legacy mount`."""
import argparse
import contextlib
import json
import os
import subprocess
import sys
import time
from typing import Any, Optional

from legacy.mount import points
from legacy.mounts import status

ABOUT = """Unmount what `legacy mount` has mounted, and wait until all that programs have saved is on the disk. A mount whose process
is gone is cleared away."""
# The seconds for which the process of a mount may continue to save.
PATIENCE = 60.0


def add_to(commands: "argparse._SubParsersAction[Any]") -> None:
    """Adds the parser of this subcommand."""
    parser = commands.add_parser("umount", help="unmount what is mounted", description=ABOUT)
    parser.add_argument("mountpoints", metavar="MOUNTPOINT", nargs="+", help="where it is mounted")
    parser.set_defaults(run=run)


def run(words: argparse.Namespace) -> int:
    """Unmounts all, and returns 1 if one of them couldn't be."""
    faults = [(it, fault_of_unmounting(it)) for it in words.mountpoints]
    for point, fault in faults:
        if fault:
            print(f"legacy umount: {point}: {fault}", file=sys.stderr)
    return 1 if any(fault for _, fault in faults) else 0


def fault_of_unmounting(point: str) -> Optional[str]:
    """Unmounts one, and returns why it couldn't be, or nothing."""
    real = points.real_path(os.fsencode(point))
    there = points.mount_at(real)
    if not there or there.kind != points.KIND:
        return "nothing is mounted there by `legacy mount`"
    text = None
    with contextlib.suppress(PermissionError):  # (another user's says nothing)
        text = status(real)
    process = json.loads(text)["process"] if text else None
    ran = subprocess.run(["fusermount3", "-u", "--", real], stdin=subprocess.DEVNULL, stdout=subprocess.DEVNULL, stderr=subprocess.PIPE)
    if ran.returncode and os.geteuid() == 0:
        ran = subprocess.run(["umount", "--", real], stdin=subprocess.DEVNULL, stdout=subprocess.DEVNULL, stderr=subprocess.PIPE)
    if ran.returncode:
        return ran.stderr.decode(errors="replace").strip().rpartition(": ")[2] or "it couldn't be unmounted"
    end = time.monotonic() + PATIENCE
    while process and is_there(process):
        if time.monotonic() > end:
            return f"it is unmounted, and its process {process} still saves"
        time.sleep(0.02)
    return None


def is_there(process: int) -> bool:
    """Whether a process hasn't ended."""
    try:
        with open(f"/proc/{process}/stat", "rb") as file:
            return file.read().rpartition(b")")[2].split()[0] not in (b"Z", b"X")
    except OSError:
        return False

"""`legacy mount`: its words, and the process that serves the mount."""
import argparse
import contextlib
import importlib
import logging
import os
import pathlib
import sys
import traceback
from typing import Callable, Optional

from legacy.__main__ import fault_of
from legacy.finding import Found, Missing, add_words, find
from legacy.mount.asker import PATIENCE, open_folder
from legacy.mount.options import Mounting
from legacy.mount.places import fault_of_places
from legacy.rules import add_words as add_rules

log = logging.getLogger("legacy.mount")

DONE, FAILED, USAGE = 0, 1, 2
DESCRIPTION = "Show the legacy files of SOURCE as UTF-8 at MOUNTPOINT. What a program saves there becomes an edit of the bytes."
EPILOG = """What has no rule is shown as the bytes that it is; `legacy rules SOURCE` prints the rules. `legacy mounts` prints what is
mounted, and `legacy umount MOUNTPOINT` unmounts it. Status: 0 unmounted, 1 it can't be mounted, 2 wrong words."""


def add_to(commands: "argparse._SubParsersAction[argparse.ArgumentParser]") -> None:
    """Adds the words of `legacy mount`."""
    parser = commands.add_parser("mount", help="show a tree's legacy files as UTF-8 to every program", description=DESCRIPTION, epilog=EPILOG)
    parser.set_defaults(run=run)
    parser.add_argument("source", metavar="SOURCE", help="the folder whose files are in legacy encodings")
    parser.add_argument("mountpoint", metavar="MOUNTPOINT", help="the folder where they are shown, which may be SOURCE itself")
    add_rules(parser)
    parser.add_argument("--read-only", action="store_true", help="let no program change anything")
    parser.add_argument("--large", choices=("refuse", "bytes"), default="refuse",
                        help="files of more than 16 MiB can't be opened, or are shown as the bytes that they are (default: refuse)")
    parser.add_argument("--rejected", metavar="DIR", help="where texts go that can't be saved (default: beside their files, as NAME.rejected)")
    parser.add_argument("--show-git", action="store_true", help="show .git, .hg and .svn, in which programs would store UTF-8")
    parser.add_argument("--no-sync", action="store_true", help="don't wait for the disk at each save")
    parser.add_argument("--allow-other", action="store_true", help="let other users in too")
    parser.add_argument("--others-may-write", action="store_true",
                        help="mount with --allow-other as root also if other users can write in SOURCE")
    parser.add_argument("--foreground", action="store_true", help="stay until it is unmounted or ended by a signal")
    parser.add_argument("--log", metavar="FILE", help="where what happens is written, opened again at SIGHUP (default: the system's log, or in the foreground standard error)")
    parser.add_argument("--idle", metavar="SECONDS", type=seconds, help="unmount once nobody has used it for so long")
    parser.add_argument("-o", dest="options", metavar="OPTIONS", action=Mounting, default=argparse.SUPPRESS,
                        help="options as mount(8) has them: names of those above, with commas between them, and of the kernel's")
    parser.set_defaults(kernel=[])
    add_words(parser)


def seconds(word: str) -> float:
    """A time that somebody may wait for."""
    try:
        found = float(word)
    except ValueError:
        found = 0.0
    if not 0 < found < float("inf"):
        raise argparse.ArgumentTypeError(f"{word} is no number of seconds")
    return found


def run(words: argparse.Namespace) -> int:
    """Mounts, and serves the mount."""
    importlib.import_module("pyfuse3")  # (or it is missing, which is said by who called)
    from legacy.mount.serving import serve
    found = found_for_good(words)
    fault = fault_of_places(words.source, words.mountpoint)
    if fault:
        print(f"legacy mount: {fault}", file=sys.stderr)
        return FAILED
    for name in "rejected", "log":
        if getattr(words, name):
            setattr(words, name, os.path.abspath(getattr(words, name)))
    words.source, words.mountpoint = os.path.abspath(words.source), os.path.abspath(words.mountpoint)
    why = fault_of_others(words.source) if words.allow_other and not words.others_may_write and os.geteuid() == 0 else None
    if why:
        print(f"legacy mount: --allow-other: {why}; --others-may-write mounts it all the same", file=sys.stderr)
        return FAILED
    if not words.foreground:
        return in_the_background(lambda mounted: serve(words, found, mounted))
    try:
        return serve(words, found, lambda: None)
    except OSError as fault:
        return fail(fault)


def fault_of_others(source: str) -> Optional[str]:
    """Why root's mount of a tree isn't for others, if it isn't."""
    try:
        folder = open_folder(source)
    except TimeoutError:
        return f"within {PATIENCE:g} seconds it isn't known whether users other than root can write in a folder of {source}"
    return folder and f"users other than root can write in {folder}"


def fail(fault: OSError) -> int:
    """Says why it can't be mounted, or couldn't continue."""
    print(f"legacy mount: {fault_of(fault)}", file=sys.stderr)
    return FAILED


def found_for_good(words: argparse.Namespace) -> Found:
    """What is found without options, by paths that hold from everywhere; `gate` takes it."""
    found = find(words)
    gate = os.path.abspath(found.gate) if os.sep in found.gate else found.gate
    labels = pathlib.Path(os.path.abspath(found.labels)) if found.labels else None
    found = found._replace(gate=gate, indexes=pathlib.Path(os.path.abspath(found.indexes)), labels=labels)
    found.start().close()
    return found


def in_the_background(job: Callable[[Callable[[], None]], int]) -> int:
    """Does a job in a process of its own, which it leaves alone once that is mounted. What goes wrong before is printed; what
    ends it later is in the log."""
    come, to = os.pipe()
    child = os.fork()
    if child:
        os.close(to)
        if os.read(come, 1):
            return DONE
        status = os.waitpid(child, 0)[1]
        if os.WIFEXITED(status):
            return os.WEXITSTATUS(status)
        print(f"legacy mount: its process was ended by signal {os.WTERMSIG(status)}", file=sys.stderr)
        return FAILED
    os.close(come)
    os.setsid()
    os.chdir("/")
    # (without any handler of a log, what goes there would be printed too)
    logging.getLogger().addHandler(logging.NullHandler())

    def on_mount() -> None:
        nothing = os.open(os.devnull, os.O_RDWR)
        for stream in 0, 1, 2:
            os.dup2(nothing, stream)
        os.write(to, b"m")
        os.close(to)

    status = FAILED
    try:
        status = job(on_mount)
    except Missing as fault:
        print(f"legacy mount: {fault}", file=sys.stderr)
        status = USAGE
    except OSError as fault:
        log.error("the mount ended: %s", fault_of(fault), exc_info=True)
        fail(fault)
    except BaseException:
        log.error("the mount ended; this is a fault of the mount", exc_info=True)
        traceback.print_exc()
    finally:
        # (whatever becomes of that, this process goes no further)
        with contextlib.suppress(Exception):
            sys.stderr.flush()
        os._exit(status)

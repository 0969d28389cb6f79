"""`legacy mounts`: what is mounted by `legacy mount`."""
import argparse
import json
import os
import threading
import time
from typing import Any, Dict, List, Optional

from legacy.mount import points
from legacy.mount.status import WHOLE

ABOUT = "Print what `legacy mount` has mounted: since when, by which rules, which texts were refused, and where the log is."
# The seconds for which a mount is asked.
PATIENCE = 5.0


def add_to(commands: "argparse._SubParsersAction[Any]") -> None:
    """Adds the parser of this subcommand."""
    parser = commands.add_parser("mounts", help="print what is mounted", description=ABOUT)
    parser.add_argument("--json", action="store_true", help="print an object a mount, a line each")
    parser.set_defaults(run=run)


def run(words: argparse.Namespace) -> int:
    """Prints each mount, and returns 1 if one of them doesn't answer."""
    there = [it for it in points.mounts() if it.kind == points.KIND]
    found = [description(it) for it in there]
    for it in found:
        print(json.dumps(it) if words.json else in_words(it))
    return 1 if any("fault" in it for it in found) else 0


def description(mount: points.Mounted) -> Dict[str, Any]:
    """What a mount says of itself, or why it says nothing."""
    said: Dict[str, Any] = {"mountpoint": os.fsdecode(mount.point), "source": os.fsdecode(mount.source)}
    try:
        text = status(mount.point)
    except PermissionError:
        return {**said, "closed": "it is another user's"}
    if text is not None:
        return {**said, **json.loads(text)}
    gone = points.is_dead(mount.point)
    return {**said, "fault": "its process is gone" if gone else "it doesn't answer"}


def status(point: bytes) -> Optional[bytes]:
    """What the process of a mount says, if it answers in time. Raises `PermissionError` if it lets in nobody but its own user."""
    found: List[bytes] = []
    refused: List[PermissionError] = []

    def ask() -> None:
        try:
            found.append(os.getxattr(point, WHOLE))
        except PermissionError as fault:
            refused.append(fault)
        except OSError:
            pass

    asks = threading.Thread(target=ask, daemon=True)
    asks.start()
    asks.join(PATIENCE)
    if refused:
        raise refused[0]
    return found[0] if found else None


def in_words(said: Dict[str, Any]) -> str:
    """What a person reads of a mount."""
    rows = [("source", said["source"])]
    why = next((it for it in ("fault", "closed") if it in said), "")
    if why:
        rows.append((why, said[why]))
    else:
        since = time.strftime("%Y-%m-%d %H:%M:%S", time.localtime(said["since"]))
        rows += [("since", f"{since}, process {said['process']}{', read-only' if said['read_only'] else ''}")]
        rows += [("rules", " ".join(said["rules"]) or "none"), ("log", said["log"]), ("refused", str(said["refused_in_all"]))]
        rows += [("", f"{it['path']}: {it['reason']}; the text is in {it['text']}") for it in said["refused"]]
    return "\n".join([said["mountpoint"], *(f"  {name:<8} {value}" for name, value in rows)])

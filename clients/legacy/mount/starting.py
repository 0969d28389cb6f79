"""What a mount says as it begins: what to do if no file has a rule, and what mounts
that were killed have left."""
import contextlib
import logging
import os
import time
from typing import TYPE_CHECKING, Optional

from legacy.mount.below import OURS, Source
from legacy.mount.copies import leftovers
from legacy.mount.refusals import printable
from legacy.rules import Rules

if TYPE_CHECKING:
    from legacy.mount.parts import Parts
    from legacy.mount.view import View

log = logging.getLogger("legacy.mount")

# The most entries that are looked at before a mount, and the seconds for which they are.
MOST, SECONDS = 20_000, 0.5
HINT = ("so they are shown as their bytes; -e '*.txt=shift_jis' says in which encoding files are, `legacy rules SOURCE` prints which "
        "have a rule")


def hint(source: Source, rules: Rules, parts: "Parts", is_said: bool) -> Optional[str]:
    """What to say if no file has a rule, as far as that is found out at once. `is_said`: a command line says rules, of which
    some may be for files that aren't looked at."""
    todo, seen, files, until = [b""], 0, 0, time.monotonic() + SECONDS
    while todo:
        folder = todo.pop()
        if parts.of(folder) is not None:
            continue  # (it may not answer)
        with contextlib.suppress(OSError), source.entries(folder) as entries:
            for entry in entries:
                seen += 1
                if seen > MOST or time.monotonic() > until:
                    return None if is_said else f"none of the first {files} files has a rule, {HINT}"
                path = os.path.join(folder, entry.name)
                if entry.is_dir(follow_symlinks=False):
                    todo += [path] if entry.name not in (b".git", b".hg", b".svn") else []
                elif entry.is_file(follow_symlinks=False):
                    files += 1
                    if rules.rule_of(path):
                        return None
    return f"none of the {files} files has a rule, {HINT}" if files else None


def clear(view: "View") -> None:
    """Says what mounts that were killed have left, which is cleared away where this one may change anything."""
    if view.options.read_only:
        return
    for path, now in leftovers(view.source, view.source.state):
        found = OURS.fullmatch(os.path.basename(path))
        back = now == path or found and found["whole"] == os.path.basename(now)
        what = f"{printable(now)} has its old bytes again" if back else f"its old bytes are in {printable(now)}" if now else "it is removed"
        log.warning("%s: a mount was killed while it wrote it; %s", printable(path), what)

"""A line that shows how far a run is, on a terminal, by tqdm if that is installed."""
import contextlib
import importlib
import sys
import threading
from typing import Any, Callable, Iterator, Sequence

from legacy.work.walk import walk


@contextlib.contextmanager
def show_progress(trees: Sequence[str], follow: bool, ignores: bool = False) -> Iterator[Callable[[int], None]]:
    """Gives what is called with the bytes of each file that is done."""
    bar = _bar() if sys.stderr.isatty() else None
    if bar is None:
        yield lambda _: None
        return
    files = 0

    def count_file(size: int) -> None:
        nonlocal files
        files += 1
        bar.set_postfix_str(f"{files} files", refresh=False)
        bar.update(size)

    # The time that is left is known once all is counted, which takes far less time than the work.
    ends = threading.Event()
    counts = threading.Thread(target=_count, args=(bar, trees, follow, ignores, ends), daemon=True)
    counts.start()
    try:
        with bar:
            yield count_file
    finally:
        ends.set()
        counts.join()


def _bar() -> Any:
    try:
        tqdm: Any = importlib.import_module("tqdm").tqdm
    except ModuleNotFoundError:
        print(f"legacy: there is no line of progress: Debian's python3-tqdm isn't installed for {sys.executable}", file=sys.stderr)
        return None
    tqdm.monitor_interval = 0
    return tqdm(unit="B", unit_scale=True, dynamic_ncols=True, leave=False, file=sys.stderr)


def _count(bar: Any, trees: Sequence[str], follow: bool, ignores: bool, ends: threading.Event) -> None:
    total = 0
    for entry in walk(trees, follow, ignores):
        if ends.is_set():
            return
        total += entry.size
    bar.total = total

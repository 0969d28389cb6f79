"""Runs that are disturbed, for verify.py and tests/clients: killed, and over a cluster of which a worker is killed."""
import contextlib
import json
import os
import pathlib
import subprocess
import sys
import time
from typing import Any, Iterator, List, Optional, Sequence, Tuple

# Debian's interpreter, for which its packages are.
SYSTEM = "/usr/bin/python3"
# How long something that is about to come or to end is waited for, in seconds.
PATIENCE = 60


def python_with(module: str) -> Optional[str]:
    """An interpreter that has a module, or None."""
    for it in sys.executable, SYSTEM:
        with contextlib.suppress(OSError):
            if not subprocess.run([it, "-c", f"import {module}"], stderr=subprocess.DEVNULL).returncode:
                return it
    return None


def run_and_kill(words: Sequence[str], seconds: float, **how: Any) -> bool:
    """Starts a program, kills it `seconds` later, and returns, once its processes are gone, whether it still ran."""
    with subprocess.Popen(words, start_new_session=True, **how) as run:
        time.sleep(seconds)
        still = run.poll() is None
        run.kill()
    end_of(run.pid)
    return still


def end_of(group: int) -> None:
    """Waits until no process of a group is left. Raises `TimeoutError` where some stay."""
    until = time.monotonic() + PATIENCE
    with contextlib.suppress(ProcessLookupError):
        while time.monotonic() < until:
            os.killpg(group, 0)
            time.sleep(0.02)
        raise TimeoutError("processes are left")


@contextlib.contextmanager
def cluster(python: str, folder: pathlib.Path, workers: int = 3, **how: Any) -> "Iterator[Tuple[str, List[subprocess.Popen[bytes]]]]":
    """A Dask scheduler on loopback, by its address, and the processes of its workers, whose files are in a folder."""
    where = folder / "scheduler.json"
    how = {"stdout": subprocess.DEVNULL, "stderr": subprocess.DEVNULL, "cwd": folder, **how}
    with contextlib.ExitStack() as ends:
        def start(*words: str) -> "subprocess.Popen[bytes]":
            process = subprocess.Popen([python, "-m", *words, "--scheduler-file", str(where)], **how)
            ends.callback(process.wait)
            ends.callback(process.kill)
            return process

        start("distributed.cli.dask_scheduler", "--host", "127.0.0.1", "--port", "0", "--no-dashboard")
        until = time.monotonic() + PATIENCE
        while not where.exists() and time.monotonic() < until:
            time.sleep(0.05)
        worker = ["distributed.cli.dask_worker", "--nthreads", "1", "--no-nanny", "--no-dashboard", "--host", "127.0.0.1"]
        started = [start(*worker, "--local-directory", str(folder / "workers")) for _ in range(workers)]
        address = json.loads(where.read_text())["address"]
        waits = f"from distributed import Client; c = Client({address!r}); c.wait_for_workers({workers}, timeout={PATIENCE}); c.close()"
        if workers:
            subprocess.run([python, "-c", waits], check=True, **how)
        yield address, started

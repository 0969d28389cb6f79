"""A process for each thread that can't bound what it does. Only a process's first thread can be interrupted by a signal, and
the workers of a Dask cluster are threads."""
import os
import pickle
import struct
import subprocess
import sys
import threading
from typing import TYPE_CHECKING, Any, BinaryIO, List, Optional

if TYPE_CHECKING:
    from legacy.work.reading import Item
    from legacy.work.rows import Row, Task

SERVE = "from legacy.work.children import serve; serve()"
LENGTH = struct.Struct(">Q")


def _send(file: BinaryIO, value: object) -> None:
    content = pickle.dumps(value)
    file.write(LENGTH.pack(len(content)) + content)
    file.flush()


def _receive(file: BinaryIO) -> Any:
    """A value. Raises `EOFError` if none comes any more."""
    head = file.read(LENGTH.size)
    if len(head) < LENGTH.size:
        raise EOFError
    return pickle.loads(file.read(*LENGTH.unpack(head)))


def serve() -> None:
    """Makes the rows of each list that standard input has, until it ends."""
    given, sent = sys.stdin.buffer, os.fdopen(os.dup(1), "wb")
    # (nothing else that prints may come in between)
    os.dup2(2, 1)
    while True:
        try:
            task, items = _receive(given)
        except EOFError:
            return
        _send(sent, task.rows(items))


class Child(threading.local):
    """This thread's process."""

    _process: "Optional[subprocess.Popen[bytes]]" = None

    def rows(self, task: "Task", items: "List[Item]") -> "List[Row]":
        """The rows of these files; a file at which the process ends has one that says so."""
        try:
            return self._ask(task, items)
        except (EOFError, OSError):
            self.end()
        return [task.row_of_crash(items[0])] if len(items) == 1 else [row for it in items for row in self.rows(task, [it])]

    def _ask(self, task: "Task", items: "List[Item]") -> "List[Row]":
        if self._process is None:
            environment = {**os.environ, "PYTHONPATH": os.pathsep.join(filter(None, sys.path))}
            self._process = subprocess.Popen([sys.executable, "-c", SERVE], stdin=subprocess.PIPE, stdout=subprocess.PIPE, env=environment)
        assert self._process.stdin and self._process.stdout
        _send(self._process.stdin, (task, items))  # type: ignore[arg-type]
        made: "List[Row]" = _receive(self._process.stdout)  # type: ignore[arg-type]
        return made

    def end(self) -> None:
        """Ends the process; the next list starts one."""
        if self._process is not None:
            self._process.kill()
            self._process.communicate()
        self._process = None


CHILD = Child()

"""Where the log of a mount goes."""
import contextlib
import io
import logging
import logging.handlers
import os
from typing import List, Optional

HOURS, DAYS = "%H:%M:%S", "%Y-%m-%d %H:%M:%S"


class Reopened(logging.StreamHandler):  # type: ignore[type-arg]
    """A file that is opened again when somebody has moved it away. Its folder is held by a descriptor, since a mount may lie over
    it, in which its process would wait for itself."""

    def __init__(self, path: str):
        folder, self._file = os.path.split(path)
        try:
            self._folder = os.open(folder, os.O_PATH | os.O_DIRECTORY | os.O_CLOEXEC)
            super().__init__(self._open_file())
        except OSError as fault:
            raise OSError(fault.errno, fault.strerror, path) from None

    def _open_file(self) -> io.TextIOWrapper:
        flags = os.O_WRONLY | os.O_CREAT | os.O_APPEND | os.O_CLOEXEC | os.O_NONBLOCK
        return open(os.open(self._file, flags, 0o666, dir_fd=self._folder), "w", encoding="utf-8", errors="backslashreplace")

    def reopen(self) -> None:
        """Opens it again, and keeps what is open where that fails."""
        with contextlib.suppress(OSError):
            before = self.setStream(self._open_file())
            if before:
                before.close()


def logs_to(file: Optional[str], foreground: bool) -> Optional[Reopened]:
    """Has the log go where it is to go, and returns the file, if it is one."""
    logger = logging.getLogger()
    logger.setLevel(logging.INFO)
    handlers: List[logging.Handler] = [logging.StreamHandler()] if foreground else []
    kept = Reopened(file) if file else None
    if kept:
        handlers.append(kept)
    if not handlers:
        logging.raiseExceptions = False  # (there may be no such log)
        with contextlib.suppress(OSError):
            handlers.append(logging.handlers.SysLogHandler("/dev/log"))
    for it in handlers:
        it.setFormatter(logging.Formatter("%(asctime)s %(message)s", DAYS if it is kept else HOURS))
        logger.addHandler(it)
    return kept

"""An editor that speaks to `legacy lsp`, for tests."""
import contextlib
import json
import os
import pathlib
import queue
import subprocess
import sys
import tempfile
import threading
import unittest
from typing import Any, BinaryIO, Dict, Iterator, List, Optional, Tuple, cast

from checkout import CLIENTS, INDEXES, PROGRAM
from legacy.lsp.framing import read_message, write_message

# The seconds that one answer may take, on a machine that has much else to do.
LIMIT = 100


class Editor:
    """An editor with a server of its own."""

    def __init__(self, folder: pathlib.Path, words: List[str], unit: Optional[str] = "utf-16"):
        command = [sys.executable, "-m", "legacy", "lsp", "--gate", PROGRAM, "--indexes", str(INDEXES), *words]
        self.process = subprocess.Popen(
            command, stdin=subprocess.PIPE, stdout=subprocess.PIPE, stderr=subprocess.PIPE, env={**os.environ, "PYTHONPATH": str(CLIENTS)})
        assert self.process.stdin and self.process.stdout
        self.folder = folder
        self.stdin, self._stdout = cast(BinaryIO, self.process.stdin), cast(BinaryIO, self.process.stdout)
        self.diagnostics: Dict[str, Any] = {}
        self.status: Dict[str, Any] = {}
        self._messages: "queue.Queue[Any]" = queue.Queue()
        self._numbers = iter(range(1, 10**9))
        threading.Thread(target=self._read, daemon=True).start()
        general = {"positionEncodings": ["utf-7", unit]} if unit else {}
        params = {"capabilities": {"general": general}, "workspaceFolders": [{"uri": folder.as_uri(), "name": "w"}], "rootUri": None, "processId": None}
        self.initialized = self.request("initialize", params) if unit is not None else {}

    def _read(self) -> None:
        with contextlib.suppress(ValueError, OSError):
            for body in iter(lambda: read_message(self._stdout), None):
                self._messages.put(json.loads(body or b""))
        self._messages.put(None)

    def send(self, message: Dict[str, Any]) -> None:
        write_message(self.stdin, {"jsonrpc": "2.0", **message})

    def notify(self, method: str, **params: Any) -> None:
        self.send({"method": method, "params": params})

    def request(self, method: str, params: Any = None) -> Any:
        """The result of a request, or its error."""
        number = next(self._numbers)
        self.send({"id": number, "method": method, "params": params})
        while True:
            message = self.next()
            if message.get("id") == number:
                return message["error"] if "error" in message else message["result"]

    def next(self) -> Any:
        """The next message; diagnostics and status are kept."""
        message = self._messages.get(timeout=LIMIT)
        if message is None:
            raise EOFError()
        if message.get("method") == "textDocument/publishDiagnostics":
            self.diagnostics[message["params"]["uri"]] = message["params"]
        elif message.get("method") == "legacy/status":
            self.status[message["params"]["uri"]] = message["params"]
        return message

    def uri(self, name: str) -> str:
        return (self.folder / name).as_uri()

    def open(self, name: str, text: str) -> List[Tuple[Any, ...]]:
        """Opens a text, and returns its diagnostics."""
        self.notify("textDocument/didOpen", textDocument={"uri": self.uri(name), "languageId": "text", "version": 0, "text": text})
        return self.wait(name, 0)

    def change(self, name: str, version: int, *changes: Tuple[Any, ...]) -> List[Tuple[Any, ...]]:
        """Makes changes, each a text alone or with two positions, and returns the diagnostics then."""
        listed = [{"text": text, **({"range": in_range(*where)} if where else {})} for text, *where in changes]
        self.notify("textDocument/didChange", textDocument={"uri": self.uri(name), "version": version}, contentChanges=listed)
        return self.wait(name, version)

    def wait(self, name: str, version: int) -> List[Tuple[Any, ...]]:
        """The diagnostics of a version, once they have come, with their status."""
        uri = self.uri(name)
        self.diagnostics.pop(uri, None)
        while self.next().get("method") != "legacy/status" or self.diagnostics.get(uri, {}).get("version") != version:
            pass
        return self.rows(name)

    def rows(self, name: str) -> List[Tuple[Any, ...]]:
        """Diagnostics, each its code, the positions where it begins and ends, and its text."""
        found = self.diagnostics[self.uri(name)]["diagnostics"]
        return [(it["code"], *(tuple(it["range"][at].values()) for at in ("start", "end")), it["message"]) for it in found]

    def hover(self, name: str, line: int, character: int) -> Optional[str]:
        """What is shown of a character."""
        position = {"line": line, "character": character}
        found = self.request("textDocument/hover", {"textDocument": {"uri": self.uri(name)}, "position": position})
        return found["contents"]["value"] if found and "contents" in found else found

    def actions(self, name: str, start: Tuple[int, int], end: Tuple[int, int]) -> Dict[str, Any]:
        """The titles of code actions, with the edits of each."""
        context = {"diagnostics": self.diagnostics[self.uri(name)]["diagnostics"]}
        params = {"textDocument": {"uri": self.uri(name)}, "range": in_range(start, end), "context": context}
        found = self.request("textDocument/codeAction", params)
        return {it["title"]: [(tuple(edit["range"]["start"].values()), tuple(edit["range"]["end"].values()), edit["newText"])
                              for edit in it["edit"]["changes"][self.uri(name)]] for it in found}

    def read(self, name: str) -> Any:
        """A file as the server reads it, or why it can't."""
        return self.request("legacy/read", {"uri": self.uri(name)})

    def write(self, name: str, **members: Any) -> str:
        """Has the server write a file, and returns why it wasn't written, or nothing."""
        message: str = self.request("legacy/write", {"uri": self.uri(name), **members}).get("message", "")
        return message

    def end(self) -> int:
        """Shuts the server down, and returns its status."""
        self.request("shutdown")
        self.notify("exit")
        return self.process.wait(LIMIT)


def in_range(start: Tuple[int, int], end: Optional[Tuple[int, int]] = None) -> Dict[str, Any]:
    names = "line", "character"
    return {"start": dict(zip(names, start)), "end": dict(zip(names, end or start))}


@contextlib.contextmanager
def editing(folder: pathlib.Path, *words: str, unit: Optional[str] = "utf-16") -> Iterator[Editor]:
    """An editor, whose server is killed in the end."""
    editor = Editor(folder, list(words), unit)
    try:
        yield editor
    finally:
        editor.process.kill()
        editor.process.wait()
        for stream in filter(None, (editor.process.stdin, editor.process.stdout, editor.process.stderr)):
            with contextlib.suppress(OSError):
                stream.close()


class Folder(unittest.TestCase):
    """Tests with a folder of files that have rules."""

    def setUp(self) -> None:
        folder = tempfile.TemporaryDirectory()
        self.addCleanup(folder.cleanup)
        self.folder = pathlib.Path(folder.name)
        (self.folder / ".gitattributes").write_text("*.sjis working-tree-encoding=shift_jis\n*.jis working-tree-encoding=iso-2022-jp\n", encoding="ascii")

    def file(self, name: str, raw: bytes) -> str:
        (self.folder / name).write_bytes(raw)
        return name

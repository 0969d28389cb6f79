"""A language server that says what the bytes of legacy files are, and what a save would do to them."""
import argparse
import contextlib
import sys
import time
from typing import Any, BinaryIO, Dict, List, Optional

from gate import Fault, Gone
from legacy import __version__
from legacy.finding import Found, Missing
from legacy.lsp.actions import QUICK_FIX, actions_in
from legacy.lsp.diagnostics import diagnostics_of
from legacy.lsp.endpoint import CONTENT_MODIFIED, INVALID_REQUEST, NOT_INITIALIZED, REQUEST_FAILED, Endpoint, Failed, Handler
from legacy.lsp.files import Unreadable
from legacy.lsp.hover import hover_at
from legacy.lsp.letters import Letters
from legacy.lsp.opened import Opened, Tools
from legacy.lsp.programs import Programs
from legacy.lsp.protocol import UNITS, changes_in, member, number_member, path_of, position_in, range_in, text_member
from legacy.lsp.saves import read_text, write_opened, write_text
from legacy.lsp.sources import Source, Sources
from legacy.lsp.status import status_of

# The seconds after a change in which an editor is told of it, if the user still types; what was refused is told at once.
DEBOUNCE = 0.2
# The seconds without a change after which it is tried whether a save would be refused.
REST = 1.0
# Incremental changes (LSP 3.17, "TextDocumentSyncKind").
INCREMENTAL = 2
# The states of a server.
NEW, RUNNING, SHUT_DOWN = "new", "running", "shut down"


class Server:
    """The server, with all texts that the editor has open."""

    def __init__(self, words: argparse.Namespace, found: Found, reading: BinaryIO, writing: BinaryIO):
        self._words, self._found = words, found
        self._state = NEW
        self._opened: Dict[str, Opened] = {}
        self._versions: Dict[str, Optional[int]] = {}
        # When the editor is to be told of a text, and when it is tried whether a save would be refused.
        self._due: Dict[str, float] = {}
        self._rest: Dict[str, float] = {}
        self._tools = Tools(Programs(found), Letters(), "utf-16")
        self._sources = Sources(words, found.labels, [])
        handlers: Dict[str, Handler] = {
            "textDocument/didOpen": self._open, "textDocument/didChange": self._change, "textDocument/didSave": self._save,
            "textDocument/didClose": self._close, "textDocument/hover": self._hover, "textDocument/codeAction": self._list_actions,
            "legacy/read": self._read, "legacy/write": self._write, "shutdown": self._shut_down,
        }
        guarded = {name: self._when_running(handler) for name, handler in handlers.items()}
        guarded.update({"initialize": self._initialize, "exit": self._exit})
        self._endpoint = Endpoint(reading, writing, guarded)

    def serve(self) -> int:
        """Serves until the editor ends the server, and returns the status: 0 if it asked for that first."""
        try:
            reason = self._endpoint.serve(self._seconds_left, self._tell_due)
        finally:
            self._tools.programs.end()
        if reason:
            print(f"legacy lsp: {reason}", file=sys.stderr)
        return 0 if self._state == SHUT_DOWN and not reason else 1

    def _when_running(self, handler: Handler) -> Handler:
        def call(params: Any) -> Any:
            if self._state != RUNNING:
                raise Failed(NOT_INITIALIZED if self._state == NEW else INVALID_REQUEST, f"the server is {self._state}")
            try:
                return handler(params)
            except (Fault, Gone, Missing) as fault:
                raise Failed(REQUEST_FAILED, f"gate gave no answer: {fault}") from fault
            except Unreadable as fault:
                raise Failed(REQUEST_FAILED, str(fault)) from fault

        return call

    def _initialize(self, params: Any) -> Any:
        if self._state != NEW:
            raise Failed(INVALID_REQUEST, f"the server is {self._state}")
        self._state = RUNNING
        self._tools = self._tools._replace(unit=_unit_of(params))
        self._sources = Sources(self._words, self._found.labels, _folders_of(params))
        return {
            "capabilities": {
                "positionEncoding": self._tools.unit,
                "textDocumentSync": {"openClose": True, "change": INCREMENTAL, "save": {"includeText": False}},
                "hoverProvider": True,
                "codeActionProvider": {"codeActionKinds": [QUICK_FIX]},
            },
            "serverInfo": {"name": "legacy lsp", "version": __version__},
        }

    def _shut_down(self, _: Any) -> None:
        for opened in self._opened.values():
            opened.close()
        self._opened.clear()
        self._due.clear()
        self._rest.clear()
        self._state = SHUT_DOWN

    def _exit(self, _: Any) -> None:
        self._endpoint.is_over = True

    def _open(self, params: Any) -> None:
        uri, text = text_member(params, "textDocument", "uri"), text_member(params, "textDocument", "text")
        self._forget(uri)
        path = path_of(uri)
        try:
            source = self._sources.find(path) if path else None
        except Unreadable as fault:
            print(f"legacy lsp: {path}: {fault}", file=sys.stderr, flush=True)
            return
        if source:
            self._opened[uri] = Opened(self._tools, source, text)
            self._versions[uri] = number_member(params, "textDocument", "version")
            self._tell(uri)

    def _change(self, params: Any) -> None:
        uri = text_member(params, "textDocument", "uri")
        opened = self._opened.get(uri)
        if not opened:
            return
        version = member(params, "textDocument").get("version")
        before = opened.faults()
        opened.change(changes_in(params))
        self._versions[uri] = version if isinstance(version, int) else None
        self._rest[uri] = time.monotonic() + REST
        if opened.faults() != before:
            self._tell(uri)
        else:
            self._due.setdefault(uri, time.monotonic() + self._words.debounce)

    def _save(self, params: Any) -> None:
        uri = text_member(params, "textDocument", "uri")
        if uri in self._opened:
            self._opened[uri].save()
            self._tell(uri)

    def _close(self, params: Any) -> None:
        uri = text_member(params, "textDocument", "uri")
        if self._forget(uri):
            self._endpoint.notify("textDocument/publishDiagnostics", {"uri": uri, "diagnostics": []})

    def _hover(self, params: Any) -> Any:
        opened = self._opened.get(text_member(params, "textDocument", "uri"))
        return hover_at(opened, position_in(params, "position")) if opened else None

    def _list_actions(self, params: Any) -> Any:
        uri = text_member(params, "textDocument", "uri")
        opened, (start, end) = self._opened.get(uri), range_in(params, "range")
        context = params.get("context")
        listed = context.get("diagnostics") if isinstance(context, dict) else None
        return actions_in(opened, uri, start, end, listed if isinstance(listed, list) else []) if opened else []

    def _source(self, uri: str) -> Source:
        """What is known of a file. Raises that it has no rule."""
        path = path_of(uri)
        source = self._sources.find(path) if path else None
        if not source:
            raise Failed(REQUEST_FAILED, f"{uri} has no rule that names its encoding")
        return source

    def _read(self, params: Any) -> Any:
        return read_text(self._tools, self._source(text_member(params, "uri")))

    def _write(self, params: Any) -> Any:
        uri = text_member(params, "uri")
        if "text" in params:
            base = text_member(params, "base") if params.get("base") is not None else None
            return write_text(self._tools, self._source(uri), text_member(params, "text"), base)
        opened, version = self._opened.get(uri), number_member(params, "version")
        if not opened:
            raise Failed(REQUEST_FAILED, f"{uri} isn't open, or has no rule that names its encoding")
        if version != self._versions.get(uri):
            raise Failed(CONTENT_MODIFIED, f"the text is at version {self._versions.get(uri)}; send its changes first")
        result = write_opened(opened)
        self._tell(uri)
        return result

    def _forget(self, uri: str) -> bool:
        """Closes a text, and returns whether it was open."""
        opened = self._opened.pop(uri, None)
        self._versions.pop(uri, None)
        self._due.pop(uri, None)
        self._rest.pop(uri, None)
        if opened:
            opened.close()
        return opened is not None

    def _seconds_left(self) -> Optional[float]:
        """The seconds until something is to be done about a text."""
        times = [*self._due.values(), *self._rest.values()]
        return min(times) - time.monotonic() if times else None

    def _tell_due(self) -> None:
        """Does what is due: tells the editor of a text, or tries whether a save would be refused."""
        now = time.monotonic()
        for uri in [it for it, at in self._due.items() if at <= now]:
            self._tell(uri)
        for uri in [it for it, at in self._rest.items() if at <= now]:
            del self._rest[uri]
            with contextlib.suppress(Fault, Gone, Missing):
                if self._opened[uri].try_to_save():
                    self._tell(uri)

    def _tell(self, uri: str) -> None:
        """Tells the editor of a text."""
        self._due.pop(uri, None)
        opened, version = self._opened[uri], self._versions.get(uri)
        try:
            diagnostics, status = diagnostics_of(opened), status_of(opened)
        except (Fault, Gone, Missing) as fault:
            opened.give_up(f"gate gave no answer: {fault}")
            diagnostics, status = diagnostics_of(opened), status_of(opened)
        params: Dict[str, Any] = {"uri": uri, "diagnostics": diagnostics}
        if version is not None:
            params["version"] = version
        self._endpoint.notify("textDocument/publishDiagnostics", params)
        self._endpoint.notify("legacy/status", {"uri": uri, **status})


def _unit_of(params: Any) -> str:
    """The first unit of positions that the editor names and this server knows."""
    general = params.get("capabilities", {}).get("general", {}) if isinstance(params, dict) else {}
    listed = general.get("positionEncodings") or [] if isinstance(general, dict) else []
    return next((it for it in listed if it in UNITS), "utf-16")


def _folders_of(params: Any) -> List[str]:
    """The folders of the workspace."""
    if not isinstance(params, dict):
        return []
    uris = [it.get("uri") for it in params.get("workspaceFolders") or [] if isinstance(it, dict)] or [params.get("rootUri")]
    paths = [path_of(it) for it in uris if isinstance(it, str)]
    root = params.get("rootPath")
    return [it for it in paths if it] or ([root] if isinstance(root, str) else [])

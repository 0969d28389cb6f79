"""JSON-RPC 2.0 over a stream: requests, notifications, cancelled requests, and faults as replies.

A thread reads, so that a request can be cancelled before its turn. All else is done by the thread that calls `serve`, one
message after the other."""
import json
import queue
import sys
import threading
import traceback
from typing import Any, BinaryIO, Callable, Dict, NamedTuple, Optional, Set, Union

from legacy.lsp.framing import Broken, read_message, write_message

# Codes of JSON-RPC and of LSP 3.17, "Response Message".
PARSE_ERROR, INVALID_REQUEST, METHOD_NOT_FOUND, INVALID_PARAMS, INTERNAL_ERROR = -32700, -32600, -32601, -32602, -32603
NOT_INITIALIZED, REQUEST_FAILED, CONTENT_MODIFIED, CANCELLED = -32002, -32803, -32801, -32800

Handler = Callable[[Any], Any]
Identifier = Union[int, str, None]


class Failed(Exception):
    """Why a request isn't answered: a code of the protocol, and a text for a person."""

    def __init__(self, code: int, text: str):
        super().__init__(text)
        self.code, self.text = code, text


class Message(NamedTuple):
    """A request, or a notification, which has no identifier."""

    method: str
    params: Any
    identifier: Identifier
    is_request: bool


class End(NamedTuple):
    """The end of the input, and why it can't be read further, if so."""

    reason: Optional[str]


class Endpoint:
    """One side of a connection, which answers what comes by its `handlers`."""

    def __init__(self, reading: BinaryIO, writing: BinaryIO, handlers: Dict[str, Handler]):
        self._reading, self._writing, self._handlers = reading, writing, handlers
        self._queue: "queue.SimpleQueue[Union[Message, End]]" = queue.SimpleQueue()
        self._lock = threading.Lock()
        # The requests that wait for their turn, and those of them that were cancelled.
        self._pending: Set[Identifier] = set()
        self._cancelled: Set[Identifier] = set()
        self._sending = threading.Lock()
        # Whether the last message was read, and whether it was answered.
        self._is_ending = self.is_over = False

    def serve(self, due: Callable[[], Optional[float]], work: Callable[[], None]) -> Optional[str]:
        """Answers messages until the input ends or `is_over` is set, and returns why the input can't be read further, if so.
        In between it does the work that is `due` in so many seconds."""
        threading.Thread(target=self._read, daemon=True).start()
        while not self.is_over:
            seconds = due()
            if seconds is not None and seconds <= 0:
                work()
                continue
            try:
                message = self._queue.get(timeout=seconds)
            except queue.Empty:
                continue
            if isinstance(message, End):
                return message.reason
            self._take(message)
            # (else the last text would stay in memory)
            del message
        return None

    def notify(self, method: str, params: Any) -> None:
        """Sends a notification."""
        self._send({"method": method, "params": params})

    def _send(self, members: Dict[str, Any]) -> None:
        with self._sending:
            write_message(self._writing, {"jsonrpc": "2.0", **members})

    def _read(self) -> None:
        """Reads until the input ends."""
        try:
            while not self._is_ending and self._read_one():
                pass
        except (Broken, OSError, ValueError) as fault:
            self._queue.put(End(str(fault)))

    def _read_one(self) -> bool:
        """Reads a message, and returns whether there was one."""
        body = read_message(self._reading)
        if body is None:
            self._queue.put(End(None))
            return False
        self._parse(body)
        return True

    def _parse(self, body: bytes) -> None:
        """Takes a message into the queue, or answers what isn't one."""
        try:
            found = json.loads(body)
        except (ValueError, RecursionError):
            self._refuse(None, PARSE_ERROR, "the message isn't JSON")
            return
        identifier = found.get("id") if isinstance(found, dict) else None
        if not isinstance(found, dict) or found.get("jsonrpc") != "2.0" or not isinstance(identifier, (int, str, type(None))):
            self._refuse(None, INVALID_REQUEST, "the message isn't one of JSON-RPC 2.0")
            return
        method = found.get("method")
        if not isinstance(method, str):
            # (a reply, to a request that this side hasn't made)
            return
        if method == "$/cancelRequest":
            self._cancel(found.get("params"))
            return
        with self._lock:
            self._pending.add(identifier)
        self._queue.put(Message(method, found.get("params"), identifier, "id" in found))
        self._is_ending = method == "exit"

    def _cancel(self, params: Any) -> None:
        """Cancels a request that still waits for its turn."""
        identifier = params.get("id") if isinstance(params, dict) else None
        with self._lock:
            if isinstance(identifier, (int, str)) and identifier in self._pending:
                self._cancelled.add(identifier)

    def _take(self, message: Message) -> None:
        """Answers one message."""
        with self._lock:
            self._pending.discard(message.identifier)
            is_cancelled = message.identifier in self._cancelled
            self._cancelled.discard(message.identifier)
        try:
            if is_cancelled and message.is_request:
                raise Failed(CANCELLED, "cancelled")
            result = self._answer(message)
        except Failed as fault:
            self._fail(message, fault.code, fault.text)
        except Exception as fault:
            # (a server that ended would leave the editor without any other document's diagnostics too)
            traceback.print_exc(file=sys.stderr)
            self._fail(message, INTERNAL_ERROR, f"{type(fault).__name__}: {fault}")
        else:
            if message.is_request:
                self._send({"id": message.identifier, "result": result})

    def _answer(self, message: Message) -> Any:
        handler = self._handlers.get(message.method)
        if handler:
            return handler(message.params)
        if message.is_request:
            raise Failed(METHOD_NOT_FOUND, f"no method {message.method}")
        return None

    def _fail(self, message: Message, code: int, text: str) -> None:
        """Answers a request with a fault. A notification has no answer, so it is logged."""
        if message.is_request:
            self._refuse(message.identifier, code, text)
        else:
            print(f"legacy lsp: {message.method}: {text}", file=sys.stderr, flush=True)

    def _refuse(self, identifier: Identifier, code: int, text: str) -> None:
        self._send({"id": identifier, "error": {"code": code, "message": text}})

"""Messages of the language server on a stream: their frames, and requests, notifications and faults."""
import io
import json
import os
import threading
import time
import unittest
from typing import Any, Dict, List, Optional, Tuple
from unittest import mock

from checkout import CLIENTS
from legacy.lsp.endpoint import Endpoint, Failed
from legacy.lsp.framing import LONGEST_BODY, LONGEST_LINE, MOST_LINES, Broken, read_message, write_message
from legacy.lsp.protocol import path_of

LENGTH = b"Content-Length: "


class Frames(unittest.TestCase):
    def read(self, stream: bytes) -> List[Optional[bytes]]:
        """All messages of a stream, and None for its end."""
        file = io.BytesIO(stream)
        found: List[Optional[bytes]] = []
        while not found or found[-1] is not None:
            found.append(read_message(file))
        return found

    def test_frames_that_are_read(self) -> None:
        rows: List[Tuple[str, bytes, List[bytes]]] = [
            ("one", b"Content-Length: 2\r\n\r\n{}", [b"{}"]), ("none", b"", []), ("two", b"Content-Length: 1\r\n\r\n1Content-Length: 1\r\n\r\n2", [b"1", b"2"]),
            ("type first", b"Content-Type: application/vscode-jsonrpc; charset=utf-8\r\nContent-Length: 2\r\n\r\n{}", [b"{}"]),
            ("type behind", b"Content-Length: 2\r\nContent-Type: application/vscode-jsonrpc; charset=utf8\r\n\r\n{}", [b"{}"]),
            ("no space", b"Content-Length:2\r\n\r\n{}", [b"{}"]), ("lower case", b"content-length:  2 \r\n\r\n{}", [b"{}"]),
            ("quoted", b'Content-Type: x; charset="UTF-8"\r\nContent-Length: 2\r\n\r\n{}', [b"{}"]), ("empty", b"Content-Length: 0\r\n\r\n", [b""]),
            ("another field", b"X-Field: 7\r\nContent-Length: 2\r\n\r\n{}", [b"{}"]), ("zeros", b"Content-Length: 0002\r\n\r\n{}", [b"{}"]),
            ("not ASCII", LENGTH + b"8\r\n\r\n" + '"é😀"'.encode(), ['"é😀"'.encode()]),
        ]
        for name, stream, messages in rows:
            with self.subTest(name):
                self.assertEqual(self.read(stream), [*messages, None])

    def test_frames_that_end_the_connection(self) -> None:
        rows = [
            ("no length", b"\r\n{}", "no Content-Length"), ("type alone", b"Content-Type: x\r\n\r\n{}", "no Content-Length"),
            ("cut body", b"Content-Length: 3\r\n\r\n{}", "ended within a message"), ("cut header", b"Content-Length: 3\r\n", "ended within a header"),
            ("cut line", b"Content-Le", "ended within a header"), ("LF alone", b"Content-Length: 2\n\n{}", "doesn't end in CR LF"),
            ("negative", LENGTH + b"-1\r\n\r\n", "can't be"),
            ("hexadecimal", LENGTH + b"0x2\r\n\r\n{}", "can't be"), ("a word", LENGTH + b"two\r\n\r\n{}", "can't be"),
            ("two lengths", LENGTH + b"2\r\n" + LENGTH + b"2\r\n\r\n{}", "can't be"), ("no number", LENGTH + b"\r\n\r\n", "can't be"),
            ("too long", LENGTH + b"%d\r\n\r\n" % (LONGEST_BODY + 1), "can't be"), ("far too long", LENGTH + b"9" * 30 + b"\r\n\r\n", "can't be"),
            ("no colon", b"Content-Length 2\r\n\r\n{}", "isn't `Name: value`"), ("no name", b": 2\r\n\r\n{}", "isn't `Name: value`"),
            ("a continued line", LENGTH + b"2\r\n more: 1\r\n\r\n{}", "isn't `Name: value`"), ("JSON at once", b"{}\r\n\r\n", "isn't `Name: value`"),
            ("another encoding", b"Content-Type: x; charset=utf-16\r\n" + LENGTH + b"2\r\n\r\n{}", "another encoding"),
            ("a body that isn't UTF-8", LENGTH + b"3\r\n\r\n\"\xff\"", "byte 1 of a message isn't UTF-8"),
            ("half a character", LENGTH + b"2\r\n\r\n\"\xc3", "isn't UTF-8"), ("a surrogate", LENGTH + b"5\r\n\r\n\"\xed\xa0\x80\"", "isn't UTF-8"),
            ("a long line", b"X: " + b"y" * LONGEST_LINE + b"\r\n\r\n", "doesn't end in CR LF"),
            ("many lines", b"X: y\r\n" * (MOST_LINES + 1) + b"\r\n", f"more than {MOST_LINES} lines"),
        ]
        for name, stream, reason in rows:
            with self.subTest(name), self.assertRaises(Broken) as broken:
                self.read(stream)
            self.assertIn(reason, str(broken.exception))

    def test_what_is_written_can_be_read(self) -> None:
        for value in {"a": "é😀"}, "\ud800", [], "x" * 100_000:
            file = io.BytesIO()
            write_message(file, value)
            file.seek(0)
            self.assertEqual(json.loads(read_message(file) or b""), value)
            self.assertIsNone(read_message(file))


class Calls(unittest.TestCase):
    def serve(self, *messages: Any) -> Tuple[List[Dict[str, Any]], Optional[str]]:
        """What is answered to messages, each a JSON value or the bytes of a body, and why the input can't be read, if so."""
        reading, writing = io.BytesIO(), io.BytesIO()
        for it in messages:
            body = it if isinstance(it, bytes) else json.dumps({"jsonrpc": "2.0", **it} if isinstance(it, dict) else it).encode()
            reading.write(LENGTH + b"%d\r\n\r\n%b" % (len(body), body))
        reading.seek(0)

        def fail(_: Any) -> Any:
            raise Failed(-7, "why")

        endpoint = Endpoint(reading, writing, {"echo": lambda it: it, "fail": fail, "break": lambda it: it.no_such_name})
        with open(os.devnull, "w", encoding="utf-8") as log, mock.patch("sys.stderr", log):
            reason = endpoint.serve(lambda: None, lambda: None)
        writing.seek(0)
        bodies = iter(lambda: read_message(writing), None)
        return [json.loads(it or b"") for it in bodies], reason

    def test_replies(self) -> None:
        # (a message, and the result or the code of its reply, or None)
        rows: List[Tuple[Any, Any]] = [
            ({"id": 1, "method": "echo", "params": [2]}, [2]), ({"id": "x", "method": "echo"}, None), ({"method": "echo", "params": 1}, ()),
            ({"id": 1, "method": "no"}, -32601), ({"method": "no"}, ()), ({"id": 1, "method": "$/no"}, -32601), ({"id": 1, "method": "fail"}, -7),
            ({"method": "fail"}, ()), ({"id": 1, "method": "break"}, -32603), ({"id": 1, "result": 5}, ()), (b"{", -32700), (b"[" * 100_000, -32700),
            ([], -32600), (7, -32600), (b'{"id":1,"method":"echo"}', -32600), ({"id": [], "method": "echo"}, -32600), ({"id": 1, "method": 7}, ()),
        ]
        for message, wanted in rows:
            with self.subTest(message=str(message)[:60]):
                replies, reason = self.serve(message, {"id": 99, "method": "echo", "params": "then"})
                self.assertIsNone(reason)
                self.assertEqual(replies.pop(), {"jsonrpc": "2.0", "id": 99, "result": "then"})
                found = [it["error"]["code"] if "error" in it else it["result"] for it in replies]
                self.assertEqual(found, [] if wanted == () else [wanted])

    def test_a_request_that_is_cancelled_in_time(self) -> None:
        gate, answered = threading.Event(), []
        reading, to = os.pipe()
        with os.fdopen(reading, "rb") as stream, os.fdopen(to, "wb") as client:
            writing = io.BytesIO()

            def wait(_: Any) -> str:
                answered.append(gate.wait(100))
                return "waited"

            endpoint = Endpoint(stream, writing, {"wait": wait})
            messages: List[Dict[str, Any]] = [
                {"id": 1, "method": "wait"}, {"id": 2, "method": "wait"}, {"id": "3", "method": "wait"},
                {"method": "$/cancelRequest", "params": {"id": 2}}, {"method": "$/cancelRequest", "params": {"id": 77}},
                {"method": "$/cancelRequest", "params": None}, {"method": "$/cancelRequest", "params": {"id": []}},
            ]
            for message in messages:
                write_message(client, {"jsonrpc": "2.0", **message})
            client.close()
            thread = threading.Thread(target=endpoint.serve, args=(lambda: None, lambda: None), daemon=True)
            thread.start()
            while endpoint._queue.qsize() < 3:
                pass
            gate.set()
            thread.join(100)
        writing.seek(0)
        replies = [json.loads(it or b"") for it in iter(lambda: read_message(writing), None)]
        self.assertEqual([(it["id"], it.get("result"), it.get("error", {}).get("code")) for it in replies],
                         [(1, "waited", None), (2, None, -32800), ("3", "waited", None)])

    def test_the_reason_for_which_no_more_is_read(self) -> None:
        endpoint = Endpoint(io.BytesIO(b"x\r\n\r\n"), io.BytesIO(), {})
        self.assertIn("isn't `Name: value`", endpoint.serve(lambda: None, lambda: None) or "")

    def test_work_is_done_in_between(self) -> None:
        reading, to = os.pipe()
        times = [time.monotonic() + it for it in (0.05, 0, -1)]
        with os.fdopen(reading, "rb") as stream, os.fdopen(to, "wb") as client:

            def work() -> None:
                self.assertGreaterEqual(time.monotonic(), times.pop())
                if not times:
                    client.close()

            endpoint = Endpoint(stream, io.BytesIO(), {})
            self.assertIsNone(endpoint.serve(lambda: times[-1] - time.monotonic() if times else None, work))
        self.assertEqual(times, [])


class Paths(unittest.TestCase):
    def test_the_paths_of_uris(self) -> None:
        rows: List[Tuple[str, Optional[str]]] = [
            ("file:///a/b.txt", "/a/b.txt"), ("file:///a%20b/%e3%81%82", "/a b/あ"), ("file://localhost/a", "/a"), ("file:/a", "/a"), ("FILE:///a", "/a"),
            ("file:///a#b?c", "/a#b?c"), ("file:///%ff", "/\udcff"), ("file:///a%00b", None), ("file://other/a", None), ("untitled:1", None), ("", None),
            ("legacy:/a", None), ("file:a", None), ("file:///あ", "/あ"),
        ]
        rows.append((CLIENTS.as_uri(), str(CLIENTS)))
        for uri, path in rows:
            with self.subTest(uri):
                self.assertEqual(path_of(uri), path)


if __name__ == "__main__":
    unittest.main()

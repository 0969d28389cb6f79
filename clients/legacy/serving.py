"""The page of `legacy review`, served on loopback to whoever knows its address, which has a token that nobody guesses."""
import http.server
import json
import secrets
import threading
from typing import TYPE_CHECKING, Any, Dict, List

from legacy import review_page
from legacy.finding import Missing

if TYPE_CHECKING:
    from legacy.review import Review

LOOPBACK = "127.0.0.1"
# The seconds after which a connection ends that sends nothing.
SILENT = 30
# The most bytes of a request's content.
LONGEST = 1 << 26
# The most edits of an answer.
PAGE = 1000
# What a browser lets no other page, script or address have.
HEADERS = {
    "Cache-Control": "no-store", "Referrer-Policy": "no-referrer", "X-Content-Type-Options": "nosniff", "Cross-Origin-Resource-Policy": "same-origin"}
POLICY = "default-src 'none'; script-src 'nonce-{0}'; style-src 'nonce-{0}'; connect-src 'self'; base-uri 'none'; form-action 'none'; frame-ancestors 'none'"


class Server:
    """The server of a review's page, which listens at once."""

    def __init__(self, review: "Review"):
        self.review, self.token, self.said = review, secrets.token_urlsafe(24), ""
        handler = type("Bound", (Handler,), {"owner": self})
        self._server = http.server.ThreadingHTTPServer((LOOPBACK, 0), handler)
        self._server.daemon_threads = True
        self.host = f"{LOOPBACK}:{self._server.server_address[1]}"
        self.address = f"http://{self.host}/{self.token}/"

    def serve(self) -> str:
        """Serves until the plan is written, and returns what is said of it."""
        self._server.serve_forever(0.2)
        return self.said

    def end(self, said: str) -> None:
        """Ends, once the answer is sent."""
        self.said = said
        threading.Thread(target=self._server.shutdown, daemon=True).start()

    def close(self) -> None:
        """Closes what it listens at."""
        self._server.server_close()


class Handler(http.server.BaseHTTPRequestHandler):
    """A request."""

    owner: Server
    timeout = SILENT
    server_version, sys_version = "legacy", ""

    def do_GET(self) -> None:
        """Answers with the page."""
        if self._rest() == "":
            nonce = secrets.token_urlsafe(16)
            self._send(200, review_page.page(self.owner.review.about(), nonce).encode(), "text/html; charset=utf-8", POLICY.format(nonce))
        else:
            self._send(404, b"")

    def do_POST(self) -> None:
        """Answers a question of the page, or writes the plan."""
        answers = {"edits": self._edits, "plan": self._plan}
        rest = self._rest()
        if rest not in answers or self.headers.get_content_type() != "application/json":
            self._send(404, b"")
            return
        try:
            numbers = self._numbers()
        except ValueError:
            self._send(400, b"")
            return
        try:
            answer = answers[rest](numbers)
        except Missing as fault:
            answer = {"fault": str(fault)}
        self._send(200, json.dumps(answer).encode(), "application/json")
        if "said" in answer:
            self.owner.end(answer["said"])

    def _edits(self, numbers: List[int]) -> Dict[str, Any]:
        return {"edits": [it._asdict() for it in self.owner.review.page(numbers[:PAGE])]}

    def _plan(self, numbers: List[int]) -> Dict[str, Any]:
        return {"said": self.owner.review.write(numbers)}

    def _rest(self) -> str:
        """What follows the token in the path, or "/" if it isn't the token, or the host isn't this one."""
        parts = self.path.split("/")
        is_known = len(parts) == 3 and secrets.compare_digest(parts[1].encode(), self.owner.token.encode())
        return parts[2] if is_known and self.headers.get("Host") == self.owner.host else "/"

    def _numbers(self) -> List[int]:
        """The numbers of edits that a request has. Raises `ValueError` if it has anything else."""
        size = int(self.headers.get("Content-Length") or 0)
        if not 0 <= size <= LONGEST:
            raise ValueError
        try:
            found = json.loads(self.rfile.read(size))
        except RecursionError as fault:
            raise ValueError from fault
        count = self.owner.review.count
        if not isinstance(found, list) or not all(type(it) is int and 0 <= it < count for it in found):
            raise ValueError
        return found

    def _send(self, status: int, content: bytes, kind: str = "text/plain", policy: str = "default-src 'none'") -> None:
        self.send_response(status)
        for name, value in {**HEADERS, "Content-Type": kind, "Content-Length": str(len(content)), "Content-Security-Policy": policy}.items():
            self.send_header(name, value)
        self.end_headers()
        self.wfile.write(content)

    def log_message(self, format: str, *args: Any) -> None:
        """Says nothing of requests."""

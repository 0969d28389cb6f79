"""Ports: what a client has to send first, which no web page can, and the file of its token."""
import errno
import http.server
import json
import os
import shutil
import socket
import stat
import subprocess
import threading
import time
import unittest
from typing import List

from program import PROGRAM, SMALL, built
from base import LIMIT, connect, free_port
from serving import PLACES, Client, Serving, line

BROWSER = next(filter(None, map(shutil.which, ("chromium", "chromium-browser", "google-chrome"))), None)

# How many bytes the first line has at most.
FIRST_LINE = 256

# How many connections are refused one after another.
REFUSED = 1_000

OPEN = line("open", doc="d", label="utf-8", bytes="a2VwdA==")
SPLICE = line("splice", doc="d", rev=0, at=0, **{"del": 4}, bytes="cHduZWQ=")

# What browsers and other programs send first that speak another protocol, with a command in the body.
REQUESTS = [
    *(b"%s / HTTP/1.1\r\nHost: localhost\r\nContent-Length: 99\r\n\r\n\n" % it + SPLICE for it in (b"POST", b"GET", b"OPTIONS", b"HEAD", b"PUT")),
    b"PRI * HTTP/2.0\r\n\r\nSM\r\n\r\n\n" + SPLICE,
    b"\x16\x03\x01\x02\x00\x01\x00\x01\xfc\n" + SPLICE,
    b"\x00\x03\x00\x08\x21\x12\xa4\x42\n" + SPLICE,
]

# First lines that are no JSON object.
OTHERS = [b"\n" + SPLICE, b"[1]\n" + SPLICE, b'"x"\n' + SPLICE, b"17\n" + SPLICE, b" \n" + SPLICE, b"hello\n" + SPLICE, b"\xff\n" + SPLICE]


def received(place, *parts, pause=0.0):
    """What is received by a client that sends these parts, and then no more. (A connection may be reset where it was refused.)"""
    with connect(place) as peer:
        try:
            for part in parts:
                peer.sendall(part)
                time.sleep(pause)
            peer.shutdown(socket.SHUT_WR)
            came = peer.recv(1 << 16)
            while came and (more := peer.recv(1 << 16)):
                came += more
            return came
        except OSError as fault:
            if fault.errno not in (errno.ECONNRESET, errno.EPIPE, errno.ENOTCONN):
                raise
            return b""


def with_token(token, more=b""):
    return b'{"token":"%s"}\n' % token + more


class Ports(Serving):
    def setUp(self):
        super().setUp()
        self.port = free_port()
        self.file = self.folder / "token"

    def token(self):
        return self.file.read_bytes().strip()

    def guarded(self, *words):
        """A server that wants a token, with a document that is open at its revision 0, and the client that opened it."""
        server = self.serve(self.port, "--token-file", str(self.file), *words)
        client = self.enter(Client(self.port))
        client.send(with_token(self.token(), OPEN))
        self.assertEqual(client.reply(), {"bom": 0, "encoding": "UTF-8", "id": 0, "rev": 0})
        return server, client

    def enter(self, client):
        self.addCleanup(client.close)
        return client

    def is_kept(self, client):
        """Nothing of what was refused was executed."""
        self.assertEqual(client.ask("text", doc="d", **{"from": 0, "to": 4}), {"rev": 0, "text": "kept"})


@built
class FirstBytes(Ports):
    def test_requests_of_other_protocols(self):
        self.serve(self.port, "--no-token")
        client = self.enter(Client(self.port))
        client.ask("open", doc="d", label="utf-8", bytes="a2VwdA==")
        for sent in REQUESTS + OTHERS:
            with self.subTest(sent):
                self.assertEqual(received(self.port, sent), b"")
                self.is_kept(client)

    def test_a_request_whose_first_byte_comes_alone(self):
        self.serve(self.port, "--no-token")
        client = self.enter(Client(self.port))
        client.ask("open", doc="d", label="utf-8", bytes="a2VwdA==")
        self.assertEqual(received(self.port, REQUESTS[0][:1], REQUESTS[0][1:], pause=0.05), b"")
        self.is_kept(client)

    def test_an_object_byte_by_byte(self):
        self.serve(self.port, "--no-token")
        self.assertEqual(received(self.port, *(bytes([it]) for it in line("stat", doc="d"))), b'{"fault":"NoDocument","id":0}\n')

    def test_faults_behind_the_first_line_are_answered(self):
        self.serve(self.port, "--no-token")
        self.assertEqual(received(self.port, b"{}\nPOST / HTTP/1.1\n"), b'{"fault":"BadRequest","field":"id"}\n{"fault":"BadJson"}\n')

    def test_one_after_another(self):
        for sent in REQUESTS:
            with self.subTest(sent):
                program = subprocess.Popen([PROGRAM, "tcp", *SMALL[1:], "--port", str(self.port), "--serve", "3"])
                self.addCleanup(program.wait)
                self.addCleanup(program.kill)
                received(self.port, OPEN)
                self.assertEqual(received(self.port, sent), b"")
                asked = line("text", doc="d", **{"from": 0, "to": 4})
                self.assertEqual(received(self.port, b"hello\n" + asked), b'{"fault":"BadJson"}\n{"id":0,"rev":0,"text":"kept"}\n')
                self.assertEqual(program.wait(LIMIT), 0)

    def test_a_socket_of_unix_takes_any_line(self):
        self.serve(self.path)
        self.assertEqual(received(self.path, b"POST / HTTP/1.1\n"), b'{"fault":"BadJson"}\n')


@built
class Tokens(Ports):
    def test_the_token_lets_in(self):
        _, client = self.guarded()
        self.is_kept(client)
        asked, reply = line("stat", doc="none"), b'{"fault":"NoDocument","id":0}\n'
        for first in with_token(self.token()), b' {\t"token" : "%s" }\r\n' % self.token(), json.dumps({"token": self.token().decode()}).encode() + b"\n":
            with self.subTest(first):
                self.assertEqual(received(self.port, first + asked), reply)
        self.assertEqual(received(self.port, with_token(self.token())), b"")

    def test_a_slow_sender(self):
        self.guarded()
        sent = with_token(self.token(), line("stat", doc="none"))
        for cut in range(0, len(sent), 7):
            self.assertEqual(received(self.port, sent[:cut], sent[cut:], pause=0.002), b'{"fault":"NoDocument","id":0}\n')
        self.assertEqual(received(self.port, *(bytes([it]) for it in sent), pause=0.001), b'{"fault":"NoDocument","id":0}\n')

    def test_others_are_refused(self):
        _, client = self.guarded()
        token = self.token()
        other = b"%x" % (int(token, 16) ^ 1)
        lines = {
            "none": b"", "an empty line": b"\n", "an empty object": b"{}\n", "an empty token": with_token(b""), "a front": with_token(token[:-1]),
            "a front of the line": with_token(token)[:-2] + b"\n", "more": with_token(token + b"0"), "more behind": with_token(token)[:-1] + b"}\n",
            "another": with_token(other.rjust(64, b"0")), "another first digit": with_token(b"%x" % (int(token[:1], 16) ^ 1) + token[1:]),
            "capital letters": with_token(token.upper()), "another key": b'{"Token":"%s"}\n' % token, "the token alone": token + b"\n",
            "a command first": line("stat", doc="d") + with_token(token), "a line before": b"\n" + with_token(token),
            "an id": b'{"id":0,"token":"%s"}\n' % token, "zero bytes": with_token(b"\0" * 64),
        }
        for name, sent in lines.items():
            with self.subTest(name):
                if name != "capital letters" or token != token.upper():
                    self.assertEqual(received(self.port, sent + SPLICE), b"")
                self.is_kept(client)
        for sent in REQUESTS:
            self.assertEqual(received(self.port, sent + with_token(token, SPLICE)), b"")
        self.is_kept(client)

    def test_a_first_line_that_is_too_long(self):
        _, client = self.guarded()
        asked, right = line("stat", doc="none"), with_token(self.token())
        self.assertEqual(received(self.port, right.rjust(FIRST_LINE + 1) + asked), b'{"fault":"NoDocument","id":0}\n')
        self.assertEqual(received(self.port, right.rjust(FIRST_LINE + 2) + asked), b"")
        # one that never ends is refused before its end
        with Client(self.port) as endless:
            endless.send(b" " * (FIRST_LINE + 1))
            self.assertEqual(endless.replies.read(), b"")
        self.is_kept(client)

    def test_a_thousand_that_are_refused_leave_no_place_taken(self):
        server, client = self.guarded()
        before = server.descriptors()
        for number in range(REFUSED):
            sent = [REQUESTS[0], with_token(b"0" * 64, SPLICE), b'{"tok', b""][number % 4]
            self.assertEqual(received(self.port, sent), b"")
        self.is_kept(client)
        several = [self.enter(Client(self.port)) for _ in range(PLACES - 1)]
        for it in several:
            it.send(with_token(self.token()))
            self.is_kept(it)
        self.assertEqual(server.descriptors(), before + PLACES - 1)

    def test_a_silent_one_holds_up_nobody(self):
        _, client = self.guarded()
        silent = [self.enter(Client(self.port)) for _ in range(PLACES - 1)]
        silent[0].send(with_token(self.token())[:20])
        self.is_kept(client)
        silent[0].send(with_token(self.token())[20:])
        self.is_kept(silent[0])

    def test_a_record_has_no_token(self):
        record = self.folder / "record"
        self.guarded("--record", str(record))
        text = record.read_bytes()
        self.assertNotIn(b"token", text)
        self.assertNotIn(self.token(), text)


@built
class TokenFiles(Ports):
    def refused(self, text):
        """The program ends with status 2 and this text."""
        words = ["serve", *SMALL[1:], "--port", str(self.port), "--token-file", str(self.file)]
        ran = subprocess.run([PROGRAM, *words], stdout=subprocess.PIPE, stderr=subprocess.PIPE, timeout=LIMIT)
        self.assertEqual((ran.returncode, ran.stdout, ran.stderr.decode()), (2, b"", f"gate: {text}\n"))

    def test_a_new_file(self):
        mask = os.umask(0)
        self.addCleanup(os.umask, mask)
        self.guarded()
        self.assertEqual(stat.S_IMODE(self.file.lstat().st_mode), 0o600)
        self.assertRegex(self.file.read_text(encoding="ascii"), r"^[0-9a-f]{64}\n$")

    def test_a_file_that_is_there(self):
        server, _ = self.guarded()
        text = self.file.read_bytes()
        server.kill()
        self.guarded()
        self.assertEqual(self.file.read_bytes(), text)

    def test_a_file_without_a_line_feed(self):
        self.file.write_bytes(b"0123456789abcdef" * 4)
        self.file.chmod(0o600)
        self.guarded()
        self.assertEqual(self.file.read_bytes(), b"0123456789abcdef" * 4)

    def test_each_file_has_another_token(self):
        tokens = set()
        for number in range(5):
            self.port, self.file = free_port(), self.folder / f"token{number}"
            self.guarded()
            tokens.add(self.token())
        self.assertEqual(len(tokens), 5)

    def test_files_that_are_no_token_files(self):
        wanted = f"{self.file} is not a token file: 64 hexadecimal digits, with mode 600"
        right = b"0123456789abcdef" * 4
        for content in b"", b"\n", right[:-1], right[:-1] + b"\n", right + b"0", right + b"\n\n", right.upper(), right[:-1] + b"g", b'"' * 64:
            with self.subTest(content):
                self.file.write_bytes(content)
                self.file.chmod(0o600)
                self.refused(wanted)
                self.assertEqual(self.file.read_bytes(), content)
        self.file.write_bytes(right)
        for mode in 0o644, 0o640, 0o620, 0o604, 0o601:
            with self.subTest(oct(mode)):
                self.file.chmod(mode)
                self.refused(wanted)

    def test_names_that_are_no_files(self):
        wanted = f"{self.file} is not a token file: 64 hexadecimal digits, with mode 600"
        elsewhere = self.folder / "elsewhere"
        self.file.symlink_to(elsewhere)
        self.refused(wanted)
        self.assertFalse(elsewhere.exists())
        elsewhere.write_bytes(b"0123456789abcdef" * 4)
        elsewhere.chmod(0o600)
        self.refused(wanted)
        self.file.unlink()
        os.mkfifo(self.file, 0o600)
        self.refused(wanted)
        self.file.unlink()
        self.file.mkdir(0o700)
        self.refused(wanted)
        self.file = self.folder / "none" / "token"
        self.refused(f"cannot create {self.file}")
        self.file = elsewhere / "token"
        self.refused(f"cannot read {self.file}")


class Pages(http.server.BaseHTTPRequestHandler):
    """Serves a page whose loading ends once it has posted to all ports, and keeps the bodies that are posted here."""

    page = b""
    bodies: List[bytes] = []
    done = threading.Event()

    def do_GET(self):
        if self.path == "/wait":
            self.done.wait(LIMIT)
        self.send_response(200)
        self.send_header("Content-Type", "text/html; charset=utf-8")
        self.end_headers()
        self.wfile.write(self.page if self.path == "/" else b"")

    def do_POST(self):
        self.bodies.append(self.rfile.read(int(self.headers["Content-Length"])))
        if self.path == "/done":
            self.done.set()
        self.do_GET()

    def log_message(self, *_):
        pass


# A page that posts a body to each of its ports, and then says so.
PAGE = """<!DOCTYPE html><meta charset="utf-8"><title>p</title><img src="/wait"><script>
const post = address => fetch(address, {method: "POST", mode: "no-cors", body: BODY}).catch(() => 0);
Promise.all(PORTS.map(port => post("http://127.0.0.1:" + port + "/"))).then(() => post("/done"));
</script>"""


@built
@unittest.skipUnless(BROWSER, "there is no Chromium")
class Browsers(Ports):
    def test_a_page_changes_nothing(self):
        ports = [self.port, free_port(), free_port()]
        self.guarded()
        self.serve(ports[1], "--no-token")
        tcp = subprocess.Popen([PROGRAM, "tcp", *SMALL[1:], "--port", str(ports[2]), "--serve", "1000"])
        self.addCleanup(tcp.wait)
        self.addCleanup(tcp.kill)
        for port in ports[1:]:
            received(port, OPEN)
        with http.server.ThreadingHTTPServer(("127.0.0.1", 0), Pages) as server:
            threading.Thread(target=server.serve_forever, daemon=True).start()
            own = server.server_address[1]
            body = "\n" + SPLICE.decode()
            Pages.page = PAGE.replace("BODY", json.dumps(body)).replace("PORTS", json.dumps([*ports, own])).encode()
            words = ["--headless", "--no-sandbox", "--disable-gpu", f"--user-data-dir={self.folder}/browser", "--dump-dom"]
            subprocess.run([BROWSER, *words, f"http://127.0.0.1:{own}/"], stdout=subprocess.PIPE, stderr=subprocess.PIPE, timeout=300)
            server.shutdown()
        # (the browser does send such bodies: the page's own port has received one, and then that all were sent)
        self.assertEqual(Pages.bodies, [body.encode()] * 2)
        self.assertTrue(Pages.done.is_set())
        asked = line("text", doc="d", **{"from": 0, "to": 4})
        for port, first in zip(ports, (with_token(self.token()), b"", b"")):
            with self.subTest(port):
                self.assertEqual(json.loads(received(port, first + asked)), {"id": 0, "rev": 0, "text": "kept"})


if __name__ == "__main__":
    unittest.main()

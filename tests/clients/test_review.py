"""`legacy review`: a plan in a browser."""
import contextlib
import hashlib
import http.client
import json
import os
import pathlib
import subprocess
import sys
import threading
import unittest
import urllib.parse

from archives import Folder, run
from browser import BROWSER, Browser
from checkout import BUILT, CLIENTS, INDEXES, PROGRAM, UNPROVED
from legacy import finding
from legacy.finding import Missing
from legacy.review import Review
from legacy.serving import Server

FOUND = finding.Found(PROGRAM, INDEXES, None)
# The edits that a browser shows. (The program with checks in it takes long.)
EDITS = 400 if UNPROVED else 10_000
CONTENT = b"A\xffB\n\x82\xa0\xfe\xff\r\n"


class Plans(Folder):
    def plan(self, *edits, content=CONTENT, name="a.txt", label="shift_jis"):
        """A plan of splices, each its place, its old and its new bytes."""
        path = self.file(name, content)
        lines = []
        for at, old, new in edits:
            before = content[:at]
            members = {
                "path": path, "label": label, "sha256": hashlib.sha256(content).hexdigest(), "at": at, "old": old.hex(), "new": new.hex(), "rule": "damage",
                "line": before.count(b"\n") + 1, "character": at - before.rfind(b"\n"), "was": "\ufffd", "becomes": new.decode("cp932")}
            lines.append(json.dumps(members) + "\n")
        return self.file("plan", "".join(lines).encode())


@BUILT
class Reviews(Plans):
    def test_lines_before_and_after(self):
        with Review(self.plan((1, b"\xff", b"?"), (6, b"\xfe", b""), (7, b"\xff", b"\x82\xa0")), FOUND) as review:
            shown = review.page([2, 0, 1])
        self.assertEqual([it.number for it in shown], [2, 0, 1])
        self.assertEqual([(it.line, it.old, it.new, it.before, it.was, it.after, it.becomes, it.then, it.fault) for it in shown], [
            (2, "ff", "82 a0", "\u3042\ufffd", "\ufffd", "", "\u3042", "", ""),
            (1, "ff", "3f", "A", "\ufffd", "B", "?", "B", ""),
            (2, "fe", "", "\u3042", "\ufffd", "\ufffd", "", "\ufffd", "")])

    def test_kinds(self):
        with Review(self.plan((1, b"\xff", b"?"), (6, b"\xfe", b""), (7, b"\xff", b"?")), FOUND) as review:
            self.assertEqual(review.about(), {
                "plan": str(self.folder / "plan"), "files": 1, "edits": [0, 1, 0], "kinds": [
                    {"rule": "damage", "old": "ff", "new": "3f", "count": 2}, {"rule": "damage", "old": "fe", "new": "", "count": 1}]})

    def test_what_is_left_is_not_in_the_plan(self):
        path = pathlib.Path(self.plan((1, b"\xff", b"?"), (6, b"\xfe", b""), (7, b"\xff", b"?")))
        lines = path.read_bytes().splitlines(keepends=True)
        os.chmod(path, 0o640)
        with Review(str(path), FOUND) as review:
            self.assertEqual(review.write([1]), f"{path}: 2 edits taken, 1 left")
        self.assertEqual((path.read_bytes(), path.stat().st_mode & 0o777), (lines[0] + lines[2], 0o640))
        self.assertEqual(run("mend", "--apply", str(path))[2], 0)
        self.assertEqual((self.folder / "a.txt").read_bytes(), b"A?B\n\x82\xa0\xfe?\r\n")
        # (by then it is the only thing that takes them back)
        with self.assertRaisesRegex(Missing, "is mended, and this plan takes that back; --to FILE writes another one$"):
            Review(str(path), FOUND)
        with Review(str(path), FOUND, to=str(self.folder / "other")) as review:
            self.assertEqual([it.fault for it in review.page([0])], ["it is mended already"])
            review.write([0])
        self.assertEqual((self.folder / "other").read_bytes(), lines[2])
        self.assertEqual(path.read_bytes(), lines[0] + lines[2])

    def test_what_has_changed(self):
        path = self.plan((1, b"\xff", b"?"))
        with Review(path, FOUND) as review:
            self.file("plan", b"")
            with self.assertRaisesRegex(Missing, "plan has changed since it was read$"):
                review.write([])
        path = self.plan((1, b"\xff", b"?"))
        self.file("a.txt", b"other")
        with Review(path, FOUND) as review:
            self.assertEqual([(it.was, it.becomes, it.fault) for it in review.page([0])], [("\ufffd", "?", "it has changed since")])
        self.file("b", b"")
        with self.assertRaisesRegex(Missing, "b is there already$"):
            Review(path, FOUND, to=str(self.folder / "b"))


@BUILT
class Served(Plans):
    @contextlib.contextmanager
    def server(self, path):
        with Review(path, FOUND) as review, contextlib.closing(Server(review)) as server:
            thread = threading.Thread(target=server.serve)
            thread.start()
            try:
                yield server
            finally:
                server.end(server.said)
                thread.join()

    def ask(self, address, method="GET", path=None, content=None, **headers):
        where = urllib.parse.urlsplit(address)
        peer = http.client.HTTPConnection(where.netloc, timeout=60)
        peer.request(method, where.path if path is None else path, content, headers)
        reply = peer.getresponse()
        with contextlib.closing(peer):
            return reply.status, reply.read(), dict(reply.getheaders())

    def test_only_who_knows_the_token_gets_anything(self):
        with self.server(self.plan((1, b"\xff", b"?"))) as server:
            self.assertRegex(server.address, r"^http://127\.0\.0\.1:\d+/[\w-]{32}/$")
            status, page, headers = self.ask(server.address)
            self.assertEqual((status, b"<title>legacy review: " in page, headers["Referrer-Policy"]), (200, True, "no-referrer"))
            self.assertIn("default-src 'none'; script-src 'nonce-", headers["Content-Security-Policy"])
            top = urllib.parse.urlsplit(server.address).path
            for path in "/", "/edits", "/x/", "/" + "x" * 32 + "/", top + "../", top + "plan":
                self.assertEqual(self.ask(server.address, path=path)[0], 404, path)
            # (another page's script would come with the name of its own host, or with another type)
            self.assertEqual(self.ask(server.address, Host="example.org")[0], 404)
            plan, kind = top + "plan", {"Content-Type": "application/json"}
            self.assertEqual(self.ask(server.address, "POST", plan, b"[]")[0], 404)
            for content in b"", b"{}", b"[1]", b"[-1]", b"[true]", b"[" * 100_000, b"x":
                self.assertEqual(self.ask(server.address, "POST", plan, content, **kind)[0], 400, content[:5])
            self.assertEqual(server.said, "")
            self.assertEqual(json.loads(self.ask(server.address, "POST", plan, b"[0]", **kind)[1]), {"said": f"{self.folder}/plan: 0 edits taken, 1 left"})

    @unittest.skipUnless(BROWSER, "there is no Chromium")
    def test_a_browser_with_ten_thousand_edits(self):
        lines = [b"<%d>\xffB\n" % it if it % 4 else b"<%d>\xfe\n" % it for it in range(EDITS)]
        starts = [0]
        for it in lines:
            starts.append(starts[-1] + len(it))
        edits = [(start + line.index(b">") + 1, b"\xff" if it % 4 else b"\xfe", b"?") for it, (start, line) in enumerate(zip(starts, lines))]
        path = pathlib.Path(self.plan(*edits, content=b"".join(lines)))
        known = path.read_bytes().splitlines(keepends=True)
        with self.server(str(path)) as server, contextlib.closing(Browser(self.folder / "browser")) as browser:
            browser.open(server.address)
            browser.wait("document.querySelectorAll('#edits li').length === 100")
            self.assertEqual(browser.evaluate("document.querySelector('#count').textContent"), f"{EDITS:,} of {EDITS:,} taken")
            counts = browser.evaluate("[...document.querySelectorAll('#kinds tr')].map(it => it.cells[2].textContent)")
            self.assertEqual(counts, [f"{EDITS * 3 // 4:,}", f"{EDITS // 4:,}"])
            texts = "[...document.querySelectorAll('#edits li')[1].querySelectorAll('bdi, code')].map(it => it.textContent)"
            self.assertEqual(browser.evaluate(texts), ["ff", "<1>\ufffdB", "3f", "<1>?B"])
            # One is left; then all of the rare kind, of which one is taken again.
            browser.evaluate("document.querySelectorAll('#edits input')[1].click()")
            browser.evaluate("document.querySelectorAll('#kinds tr')[1].querySelectorAll('button')[1].click()")
            browser.evaluate("document.querySelectorAll('#edits input')[4].click()")
            self.assertEqual(browser.evaluate("document.querySelector('#count').textContent"), f"{EDITS * 3 // 4:,} of {EDITS:,} taken")
            browser.draw(pathlib.Path(os.environ.get("REVIEW_IMAGE", self.folder / "page.png")))
            # The last page of one kind.
            browser.evaluate("document.querySelector('#only').value = '0'; document.querySelector('#only').onchange()")
            for page in range(EDITS * 3 // 400 - 1):
                browser.wait(f"document.querySelector('#where').textContent.startsWith('{page * 100 + 1:,} to')")
                browser.evaluate("document.querySelector('#next').click()")
            browser.wait(f"document.querySelector('#where').textContent === '{EDITS * 3 // 4 - 99:,} to {EDITS * 3 // 4:,} of {EDITS * 3 // 4:,}'")
            browser.evaluate("document.querySelectorAll('#edits input')[99].click()")
            browser.evaluate("document.querySelector('#write').click()")
            said = browser.wait("document.querySelector('#said').textContent")
            self.assertEqual((said, browser.said), (f"Written: {path}: {EDITS * 3 // 4 - 1} edits taken, {EDITS // 4 + 1} left. This page can be closed.", []))
        self.assertEqual(path.read_bytes().splitlines(keepends=True), [it for at, it in enumerate(known) if at == 4 or at % 4 and at not in (1, EDITS - 1)])

    def test_the_command(self):
        path = self.plan((1, b"\xff", b"?"), (6, b"\xfe", b""))
        words = [sys.executable, "-m", "legacy", "review", path, "--gate", PROGRAM, "--indexes", str(INDEXES)]
        with subprocess.Popen(words, stdout=subprocess.PIPE, stderr=subprocess.PIPE, env={**os.environ, "PYTHONPATH": str(CLIENTS)}) as command:
            address = command.stdout.readline().decode().strip()
            self.ask(address, "POST", urllib.parse.urlsplit(address).path + "plan", b"[1]", **{"Content-Type": "application/json"})
            self.assertEqual((command.stdout.read().decode(), command.stderr.read(), command.wait()), (f"{path}: 1 edit taken, 1 left\n", b"", 0))
        self.assertEqual(run("review", "/none"), ("", "legacy review: /none: No such file or directory\n", 2))


if __name__ == "__main__":
    unittest.main()

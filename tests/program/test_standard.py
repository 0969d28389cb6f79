"""tools/standard: fetching the Standard's files, from a server of these tests on loopback that does what they want."""
import contextlib
import http.server
import os
import pathlib
import re
import resource
import shutil
import signal
import subprocess
import tempfile
import threading
import time
import unittest

from program import PROGRAM, TOP, built
from base import LIMIT

TOOL = str(TOP / "tools" / "standard")
FETCHERS = [name for name in ("curl", "wget") if shutil.which(name)]
NAMES = re.findall(r'"(index-[\w-]+\.txt)"', (TOP / "crates" / "index_loader" / "src" / "kind.rt").read_text(encoding="utf-8"))
LABELS = "encodings.json"
RANGES = "index-gb18030-ranges.txt"

# What the server has: files of a row or two, in the form of the Standard's.
SERVED = {name: b"# a comment\n\n0\t0x2600\t(BLACK SUN WITH RAYS)\n" for name in NAMES}
SERVED[RANGES] = b"0\t0x0080\n189000\t0x10000\n"
SERVED[LABELS] = b'[{"encodings":[{"name":"UTF-8","labels":["utf8"]},{"name":"Big5","labels":["big5-hkscs"]}]}]'

# One file of them that is missing, cut off, or something else, in the middle or at the end: what is said of it.
FAULTS = [
    ("a file that isn't there", "index-koi8-r.txt", None, "/index-koi8-r.txt can't be fetched"),
    ("a transfer that breaks off", "index-jis0208.txt", b"0\t0x26", "/index-jis0208.txt can't be fetched"),
    ("an empty file", "index-big5.txt", b"", "/index-big5.txt is empty"),
    ("a page in the place of a file", "index-jis0212.txt", b"<html>Sign in</html>\n", "gate: index file index-jis0212.txt, line 1: BadPointer"),
    ("ranges without their first row", RANGES, b"189000\t0x10000\n", f"gate: index file {RANGES}, line 0: BadRanges"),
    ("labels that are no JSON", LABELS, b"<html>", "gate: label file: NotJson"),
]


class Handler(http.server.BaseHTTPRequestHandler):
    """Serves the files of its server's table; what is None there isn't found, and what is shorter than its length is cut off."""

    def do_GET(self):
        name = self.path.rpartition("/")[2]
        content, length = self.server.files.get(name, (None, 0))
        if self.server.holds == name:
            self.server.held.set()
            time.sleep(LIMIT)
        self.send_response(200 if content is not None else 404)
        self.send_header("Content-Length", str(length))
        self.end_headers()
        self.wfile.write(content or b"")

    def log_message(self, *words):
        pass


@contextlib.contextmanager
def server(holds=None, **others):
    """A server of the files, some of them others; where it holds one back, `held` says that it was asked for."""
    with http.server.ThreadingHTTPServer(("127.0.0.1", 0), Handler) as it:
        it.daemon_threads = True
        it.handle_error = lambda request, address: None  # the peer is gone, as it is to be
        it.files = {name: (content, len(content)) for name, content in SERVED.items()}
        it.holds, it.held = holds, threading.Event()
        it.url = f"http://127.0.0.1:{it.server_address[1]}/standard"
        thread = threading.Thread(target=it.serve_forever, args=(0.05,))
        thread.start()
        try:
            yield it
        finally:
            it.shutdown()
            thread.join()


def no_room():
    """What a process does so that no file that it writes, nor one of those that it starts, has more than 40 bytes."""
    signal.signal(signal.SIGXFSZ, signal.SIG_IGN)
    resource.setrlimit(resource.RLIMIT_FSIZE, (40, 40))


@built
@unittest.skipUnless(FETCHERS, "there is neither curl nor wget")
class Standard(unittest.TestCase):
    def setUp(self):
        kept = tempfile.TemporaryDirectory()
        self.addCleanup(kept.cleanup)
        self.folder = pathlib.Path(kept.name)

    def environment(self, **others):
        """An environment without a proxy, in which the tests' program is the one that loads the files."""
        kept = {name: value for name, value in os.environ.items() if not name.lower().endswith("_proxy")}
        return {**kept, "GATE": PROGRAM, "HOME": str(self.folder / "home"), **others}

    def fetch(self, *words, status=0, said="", **how):
        how.setdefault("env", self.environment())
        ran = subprocess.run([TOOL, *words], stdin=subprocess.DEVNULL, stdout=subprocess.PIPE, stderr=subprocess.PIPE, **how)
        self.assertEqual((ran.returncode, ran.stdout), (status, b""), ran.stderr)
        self.assertIn(said, ran.stderr.decode())

    def has(self, folder):
        """All that is in a folder, by name."""
        return {path.name: path.read_bytes() for path in folder.iterdir()}

    def only(self, name):
        """A PATH that has every command but the other ones that fetch."""
        folder = self.folder / f"only-{name}"
        folder.mkdir()
        for command in {name, "bash", "env", "readlink", "dirname", "sed", "mktemp", "mkdir", "rmdir", "rm", "mv"}:
            if shutil.which(command):
                (folder / command).symlink_to(shutil.which(command))
        return str(folder)

    def test_each_fetcher_brings_all_files(self):
        for name in FETCHERS:
            with self.subTest(name), server() as it:
                folder = self.folder / name
                path = self.only(name)
                self.fetch("--from", it.url, str(folder), said=f"from {it.url} by {name}", env=self.environment(PATH=path))
                self.assertEqual(self.has(folder), SERVED)

    def test_without_a_fetcher_it_says_so(self):
        self.fetch(status=1, said="by curl or wget, and neither is there", env=self.environment(PATH=self.only("none")))

    def test_the_folder_that_is_looked_in_without_words(self):
        with server() as it:
            self.fetch("--from", it.url)
            self.assertEqual(self.has(self.folder / "home" / ".local" / "share" / "gate" / "standard"), SERVED)
            self.fetch(f"--from={it.url}/", env=self.environment(XDG_DATA_HOME=str(self.folder / "data")))
            self.assertEqual(self.has(self.folder / "data" / "gate" / "standard"), SERVED)

    def test_a_failure_leaves_the_folder_as_it_was(self):
        folder = self.folder / "folder"
        folder.mkdir()
        before = {LABELS: b"older", "gb18030-exceptions.txt": b"0x4E04\tB0A1\n"}
        for name, content in before.items():
            (folder / name).write_bytes(content)
        for shows, name, content, said in FAULTS:
            with self.subTest(shows), server() as it:
                cut_off = "breaks off" in shows
                it.files[name] = (content, 100 if cut_off else len(content or b""))
                self.fetch("--from", it.url, str(folder), status=1, said=said)
                self.assertEqual(self.has(folder), before)
        with self.subTest("no room"), server() as it:
            it.files["index-big5.txt"] = (b"#" * 1000 + b"\n", 1001)
            how = {"preexec_fn": no_room, "restore_signals": False}
            self.fetch("--from", it.url, str(folder), status=1, said="can't be fetched", **how)
            self.assertEqual(self.has(folder), before)
        with self.subTest("then it works, and what else is there stays"), server() as it:
            self.fetch("--from", it.url, str(folder), said=f"{folder} has all of them")
            self.assertEqual(self.has(folder), {**before, **SERVED})

    def test_no_folder_is_left_that_was_made_for_nothing(self):
        with server() as it:
            del it.files[NAMES[-1]]
            self.fetch("--from", it.url, str(self.folder / "a" / "b" / "c"), status=1, said=f"{NAMES[-1]} can't be fetched")
        self.fetch("--from", "http://127.0.0.1:1", str(self.folder / "a" / "b"), status=1, said="can't be fetched")
        self.assertFalse((self.folder / "a").exists())

    def test_an_interrupt_leaves_nothing(self):
        folder = self.folder / "folder"
        with server(holds="index-jis0208.txt") as it:
            words = [TOOL, "--from", it.url, str(folder)]
            with subprocess.Popen(words, env=self.environment(), stderr=subprocess.DEVNULL, start_new_session=True) as tool:
                self.assertTrue(it.held.wait(LIMIT))
                os.killpg(tool.pid, signal.SIGTERM)
                self.assertEqual(tool.wait(LIMIT), 143)
        self.assertFalse(folder.exists())

    def test_a_place_that_is_no_folder(self):
        path = self.folder / "file"
        path.write_bytes(b"x")
        self.fetch(str(path), status=1, said=f"the folder {path} can't be made")
        self.assertEqual(path.read_bytes(), b"x")

    def test_a_folder_in_the_place_of_a_file(self):
        (self.folder / "folder" / NAMES[0]).mkdir(parents=True)
        with server() as it:
            self.fetch("--from", it.url, str(self.folder / "folder"), status=1, said=f"{NAMES[0]} can't be replaced")
        self.assertEqual([path.name for path in self.folder.rglob("*")], ["folder", NAMES[0]])

    def test_words(self):
        for words in ["--from"], ["--to", "x"], ["a", "b"]:
            with self.subTest(words):
                self.fetch(*words, status=2, said="tools/standard: ", cwd=str(self.folder))
        self.assertEqual(list(self.folder.iterdir()), [])


if __name__ == "__main__":
    unittest.main()

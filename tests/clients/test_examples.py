"""The programs of examples/, each on files of a few bytes, over the small index files of examples/indexes. In jis0208
these have 82 A0 as U+3042, which Shift_JIS writes so, EUC-JP A4 A2, and ISO-2022-JP 24 22 behind its escape."""
import os
import pathlib
import signal
import subprocess
import sys
import tempfile
import threading
import unittest

from checkout import BUILT, INDEXES, PROGRAM, TOP
from gate import Gate
from test_fleet import served

# The seconds that a program which follows a document may take, until it is killed.
LIMIT = 100


def how_to_start(name, *words):
    """How an example is started."""
    environment = {**os.environ, "GATE": PROGRAM, "GATE_INDEXES": INDEXES, "PYTHONIOENCODING": "utf-8"}
    words = [sys.executable, str(TOP / "examples" / name), *map(str, words)]
    return {"args": words, "env": environment, "stdout": subprocess.PIPE, "stderr": subprocess.PIPE}


@BUILT
class Examples(unittest.TestCase):
    def setUp(self):
        kept = tempfile.TemporaryDirectory()
        self.addCleanup(kept.cleanup)
        self.folder = pathlib.Path(kept.name)

    def file(self, name, content):
        path = self.folder / name
        path.write_bytes(content)
        return path

    def run_example(self, name, *words):
        return subprocess.run(**how_to_start(name, *words))

    def test_repair_changes_one_byte_and_writes_nothing(self):
        letter = self.file("letter", b"A\xff\x82\xa0")
        ran = self.run_example("repair.py", INDEXES, "shift_jis", letter, 1, "42")
        printed = ["A\ufffdあ errors: [(1, 2)]", "ABあ errors: []", "changed bytes: [1] of 4", "41 42 82 a0"]
        self.assertEqual(ran.stdout.decode().splitlines(), printed)
        self.assertEqual(letter.read_bytes(), b"A\xff\x82\xa0")

    def test_folders_are_counted_by_their_damaged_files(self):
        for name, content in ("a/1", b"A"), ("b/1", b"\xff"), ("b/2", b"\xff"), ("c/1", b"\xff"), ("c/2", b"\x82\xa0"):
            (self.folder / name).parent.mkdir(exist_ok=True)
            self.file(name, content)
        ran = self.run_example("folders.py", "shift_jis", self.folder)
        self.assertEqual(ran.stdout.decode(), f"     2 {self.folder}/b\n     1 {self.folder}/c\n     0 {self.folder}/a\n")


@BUILT
class Following(unittest.TestCase):
    def setUp(self):
        serves = served()
        self.path, self.server = serves.__enter__()
        self.addCleanup(serves.__exit__, None, None, None)
        self.gate = Gate.connect(path=self.path)
        self.addCleanup(self.gate.close)

    def follow(self, *words):
        """The example while it runs; none of its lines is waited for without end."""
        program = subprocess.Popen(**how_to_start("follow.py", *words))
        watch = threading.Timer(LIMIT, program.kill)
        watch.start()
        for it in program.stdout.close, program.stderr.close, program.wait, program.kill, watch.cancel:
            self.addCleanup(it)
        return program

    def says(self, program, wanted):
        self.assertEqual(program.stdout.readline().decode().rstrip("\n"), wanted)

    def ends(self, program, status, error=""):
        said = program.stdout.read().decode(), program.stderr.read().decode()
        self.assertEqual((said, program.wait()), (("", error), status))

    def test_each_edit_is_printed_until_the_document_is_closed(self):
        menu = self.gate.open("menu", "shift_jis", b"caf\xff noir\r\n\x82\xa0!\n")
        program = self.follow("menu", self.path)
        self.says(program, "menu: 15 bytes, Shift_JIS, revision 0")
        rows = [
            (lambda: menu.change("bleu", (0, 5), (0, 9)), "menu:1:6: 'noir' -> 'bleu'"),
            (lambda: menu.change("", (1, 0), (1, 1)), "menu:2:1: 'あ' -> ''"),
            (lambda: menu.splice(3, 1, b"\xfe"), "menu: byte 3: ff -> fe, the same text"),
            (lambda: menu.change("\x1b[2J", (2, 0)), "menu:3:1: '' -> '\\x1b[2J'"),
            (lambda: menu.splice(0, 3, b"\x82"), "menu:1:1: 'caf' -> ''"),
            (lambda: menu.change("x" * 50, (0, 0)), f"menu:1:1: '' -> '{'x' * 20}…{'x' * 19}'"),
        ]
        for edit, line in rows:
            edit()
            self.says(program, line)
        menu.close()
        self.ends(program, 1, "menu: not open\n")

    def test_a_document_that_is_opened_anew(self):
        menu = self.gate.open("menu", "utf-8", b"one two")
        menu.splice(0, 0, b"the ")
        program = self.follow("menu", self.path)
        self.says(program, "menu: 11 bytes, UTF-8, revision 1")
        program.send_signal(signal.SIGSTOP)
        os.waitid(os.P_PID, program.pid, os.WSTOPPED)
        # (a question that it asked just before is answered by then, and doesn't find the document closed)
        for _ in range(2):
            menu.stat()
        menu.close()
        self.gate.open("menu", "utf-8", b"the two")
        program.send_signal(signal.SIGCONT)
        self.says(program, "menu: read anew")
        self.says(program, "menu:1:5: 'one ' -> ''")

    def test_ctrl_c_ends_it_without_a_word(self):
        self.gate.open("menu", "utf-8", b"")
        program = self.follow("menu", self.path)
        self.says(program, "menu: 0 bytes, UTF-8, revision 0")
        program.send_signal(signal.SIGINT)
        self.ends(program, -signal.SIGINT)

    def test_a_server_that_is_killed(self):
        self.gate.open("menu", "utf-8", b"")
        program = self.follow("menu", self.path)
        self.says(program, "menu: 0 bytes, UTF-8, revision 0")
        self.server.kill()
        self.ends(program, 1, f"{self.path}: the server is gone\n")
        self.server.wait()
        self.ends(self.follow("menu", self.path), 1, f"{self.path}: Connection refused\n")

    def test_nobody_who_reads_what_it_prints(self):
        menu = self.gate.open("menu", "utf-8", b"")
        program = self.follow("menu", self.path)
        self.says(program, "menu: 0 bytes, UTF-8, revision 0")
        program.stdout.close()
        menu.splice(0, 0, b"x")
        self.assertEqual((program.stderr.read(), program.wait()), (b"", 0))

    def test_what_is_not_there(self):
        self.ends(self.follow("menu", self.path), 1, "menu: not open\n")
        self.ends(self.follow("menu", self.path + "s"), 1, f"{self.path}s: No such file or directory\n")


if __name__ == "__main__":
    unittest.main()

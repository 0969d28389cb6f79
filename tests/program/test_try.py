"""./try: it compiles the program once for the same sources, and then is that program.

All tests but the last two have a command of their own in the place of the toolchain's, which "compiles" a script, and runs it
as `rt try` runs what it compiled. These two take the toolchain, for a minute if no source has stayed the same."""
import os
import shutil
import signal
import subprocess
import sys
import tempfile
import time
import unittest

from program import TOP
from base import connect
from toolchain import Repository

EXAMPLES = TOP / "examples"
SESSIONS = [EXAMPLES / name for name in ("change.jsonl", "session.jsonl", "windows-1252.jsonl")]

# The program: it serves until it is ended, and else prints its words and its input.
PROGRAM = f"""#!{sys.executable}
import sys, time
if sys.argv[1:2] == ["serve"]:
    time.sleep(100)
print("words:" + " ".join(sys.argv[1:]), flush=True)
sys.stdout.write(sys.stdin.read())
sys.exit(2)
"""

# What compiles it, by the words of `rt try`; by the variable BAD it doesn't, and by SLOW it takes long.
COMPILES = f"""#!{sys.executable}
import os, pathlib, subprocess, sys, tempfile, time
if sys.argv[1] != "try":
    print({{"version": "kit", "doc": "kit/START-HERE.md"}}[sys.argv[1]])
    sys.exit()
assert sys.argv[2] == "--seconds" and sys.argv[4] == "--" and pathlib.Path("src/main.rt").exists(), sys.argv
with open(os.environ["WORDS"], "a") as it:
    it.write("compiled\\n")
time.sleep(float(os.environ.get("SLOW", 0)))
if "BAD" in os.environ:
    print("error: a wrong word", file=sys.stderr)
    sys.exit(1)
with tempfile.TemporaryDirectory() as folder:
    path = pathlib.Path(folder, "program")
    path.write_text({PROGRAM!r})
    path.chmod(0o755)
    child = subprocess.Popen([path, *sys.argv[5:]])
    try:
        child.wait()
    finally:
        child.kill()
"""


class Try(Repository):
    def setUp(self):
        super().setUp()
        shutil.copy(TOP / "try", self.top / "try")
        (self.top / "rt").write_text(COMPILES)

    def start(self, *words, **variables):
        pipes = {"stdin": subprocess.PIPE, "stdout": subprocess.PIPE, "stderr": subprocess.PIPE}
        ends = lambda: signal.signal(signal.SIGINT, signal.SIG_DFL)
        return subprocess.Popen([self.top / "try", *words], env=self.environment(**variables), preexec_fn=ends, **pipes)

    def tries(self, *words, data=b"", **variables):
        """Its status, what it prints, and what it says."""
        with self.start(*words, **variables) as run:
            printed, said = run.communicate(data)
        return run.returncode, printed.decode(), said.decode()

    def count_compiles(self):
        """How often the program was compiled."""
        return len(self.words.read_text().splitlines()) if self.words.exists() else 0

    def test_it_is_the_program_by_words_input_and_status(self):
        said = "try: compiling without a proof, for a minute or so; ./gate is the proved program\n"
        self.assertEqual(self.tries("stdio", "a b", "c=d", data=b"line\n"), (2, "words:stdio a b c=d\nline\n", said))
        self.assertEqual(self.tries(data=b"line\n"), (2, "words:\nline\n", ""))

    def test_it_is_compiled_again_if_a_source_has_changed(self):
        rows = [
            (lambda: None, 1),
            (lambda: self.source("low").write_text("other"), 2),
            (lambda: self.source("low").write_text("other"), 2),
            (lambda: self.source("other").write_text("other"), 2),
            (lambda: (self.top / "crates/low/specs").mkdir(), 2),
            (lambda: (self.top / "crates.txt").write_text((self.top / "crates.txt").read_text() + "\n"), 3),
            (lambda: (self.top / "crates/gate/out/unproved/program").unlink(), 4),
            (lambda: (self.top / "rt").write_text(COMPILES.replace('"kit"', '"another"')), 5),
        ]
        for change, count in rows:
            change()
            self.assertEqual(self.tries("a")[:2], (2, "words:a\n"))
            self.assertEqual(self.count_compiles(), count)

    def test_several_at_once_compile_once(self):
        runs = [self.start("a", SLOW="0.5") for _ in range(3)]
        for run in runs:
            self.assertEqual(run.communicate()[0], b"words:a\n")
        self.assertEqual(self.count_compiles(), 1)

    def test_it_serves(self):
        with self.start("serve", "--socket", "x") as run:
            end = time.monotonic() + 60
            while not (self.top / "crates/gate/out/unproved/sum").exists() and time.monotonic() < end:
                time.sleep(0.05)
            self.assertIsNone(run.poll())
            run.kill()

    def test_sources_that_cannot_be_compiled(self):
        status, printed, said = self.tries("a", BAD="1")
        self.assertEqual((status, printed), (3, ""))
        self.assertTrue(said.endswith("error: a wrong word\ntry: the program can't be compiled; above is what rt try says of it\n"), said)
        self.assertEqual(self.tries("a")[0], 2)

    def test_an_interrupt_ends_all(self):
        with self.start("a", SLOW="60") as run:
            end = time.monotonic() + 60
            while not self.count_compiles() and time.monotonic() < end:
                time.sleep(0.05)
            run.send_signal(signal.SIGINT)
            self.assertEqual(run.communicate(timeout=30)[0], b"")
        self.assertEqual(run.returncode, 130)

    def test_without_the_toolchain(self):
        (self.top / "alone").mkdir()
        (self.top / "alone" / "python3").symlink_to(sys.executable)
        status, printed, said = self.tries(PATH=str(self.top / "alone"))
        self.assertEqual((status, printed, said), (3, "", "try: the Rattle toolchain's command rt isn't on PATH (README.md, \"Begin\")\n"))

    def test_help(self):
        status, printed, _ = self.tries("--help")
        self.assertEqual((status, printed.splitlines()[0]), (0, "Runs the program before anything is proved, with the words of `gate`."))
        self.assertEqual(self.count_compiles(), 0)


@unittest.skipUnless(shutil.which("rt"), "there is no command rt, the Rattle toolchain's")
class Compiled(unittest.TestCase):
    """The sources as they are, compiled by the toolchain."""

    def test_stored_sessions(self):
        for path in SESSIONS:
            lines = path.read_bytes()
            ran = subprocess.run([TOP / "try", "stdio", "--indexes", "indexes"], input=lines, cwd=EXAMPLES, stdout=subprocess.PIPE)
            self.assertEqual((ran.returncode, len(ran.stdout.splitlines())), (0, len(lines.splitlines())))

    def test_a_live_client(self):
        with tempfile.TemporaryDirectory() as folder:
            path = os.path.join(folder, "socket")
            with subprocess.Popen([TOP / "try", "serve", "--indexes", str(EXAMPLES / "indexes"), "--socket", path], stderr=subprocess.DEVNULL) as server:
                try:
                    with connect(path, 600) as peer, peer.makefile("rb") as replies:
                        peer.sendall(b'{"id":1,"op":"open","doc":"a","label":"utf-8","bytes":"4oJB"}\n')
                        self.assertEqual(replies.readline(), b'{"bom":0,"encoding":"UTF-8","id":1,"rev":0}\n')
                finally:
                    server.kill()


if __name__ == "__main__":
    unittest.main()

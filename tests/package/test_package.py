"""tools/package: equal commits make equal packages, and in a system in which nobody built anything the package installs, works for an
ordinary user, and leaves nothing once it is purged.

The variable GATE_SUITES names the versions of Debian to try, such as 'bookworm trixie'; the first of them by default."""
import hashlib
import os
import pathlib
import re
import shutil
import subprocess
import sys
import tempfile
import unittest
from typing import Dict, List

HERE = pathlib.Path(__file__).resolve().parent
sys.path[:0] = [str(HERE.parent), str(HERE), str(HERE.parent / "clients"), str(HERE.parent.parent / "tools")]
import indexes
import system
import verdicts
from base import BUILT, LIMIT, PROGRAM, TOP, UNPROVED
from crates import below

TOOL = str(TOP / "tools" / "package")
STANDARD = pathlib.Path(os.environ.get("INDEXES", TOP / "standard"))
SUITES = os.environ.get("GATE_SUITES", "bookworm").split()
# The packages are those of the program that is built here, whatever isn't committed.
ENVIRONMENT = {**os.environ, "GATE_UNCOMMITTED": "1"}


def package(out: pathlib.Path, **others: str) -> "subprocess.CompletedProcess[str]":
    return subprocess.run(
        [TOOL, str(out)], env={**ENVIRONMENT, **others}, stdin=subprocess.DEVNULL, stdout=subprocess.PIPE, stderr=subprocess.PIPE,
        timeout=LIMIT, universal_newlines=True, check=False)


def sums(folder: pathlib.Path) -> Dict[str, str]:
    return {path.name: hashlib.sha256(path.read_bytes()).hexdigest() for path in folder.iterdir()}


@BUILT
@unittest.skipIf(UNPROVED, "a package has the proved program")
@unittest.skipUnless(shutil.which("dpkg-deb"), "dpkg-deb is missing")
class Package(unittest.TestCase):
    room: pathlib.Path
    out: pathlib.Path

    @classmethod
    def setUpClass(cls) -> None:
        made = tempfile.TemporaryDirectory(prefix="gate-package-test-")
        cls.addClassCleanup(made.cleanup)
        cls.room = pathlib.Path(made.name)
        cls.out = cls.room / "out"
        ran = package(cls.out)
        if ran.returncode:
            raise AssertionError(ran.stderr)

    def deb(self) -> pathlib.Path:
        found: List[pathlib.Path] = list(self.out.glob("*.deb"))
        self.assertEqual(len(found), 1)
        return found[0]

    def test_the_same_bytes_twice(self) -> None:
        """In another folder, under another mask of modes, at another time."""
        again = self.room / "another folder"
        before = os.umask(0o077)
        try:
            ran = package(again, TZ="Asia/Tokyo", LC_ALL="C")
        finally:
            os.umask(before)
        self.assertEqual((ran.returncode, ran.stderr), (0, ""))
        self.assertEqual(sums(again), sums(self.out))
        subprocess.run(["sha256sum", "--quiet", "--check", "SHA256SUMS"], cwd=self.out, check=True)

    def test_no_file_of_another_kind_is_replaced(self) -> None:
        for name in sorted(sums(self.out)):
            with self.subTest(name), tempfile.TemporaryDirectory() as folder:
                mine = pathlib.Path(folder, name)
                mine.write_text("mine\n")
                self.assertEqual(package(pathlib.Path(folder)).returncode, 1)
                self.assertEqual([(path.name, path.read_text()) for path in pathlib.Path(folder).iterdir()], [(name, "mine\n")])

    def test_the_proof_names_each_crate_of_the_program(self) -> None:
        """It has what the prover printed of each, if that was kept. In CI it isn't of a crate that an earlier run there proved."""
        text = (self.out / "PROOF.txt").read_text(encoding="utf-8")
        for crate in [*below("gate"), "gate"]:
            said = "logic=proved functions=" if verdicts.line_of(crate) else "an earlier run on this machine proved it"
            found = re.search(rf"^{crate}\n  sources (\w+)\n  {said}", text, re.MULTILINE)
            assert found, crate
            words = "find src specs proofs -type f | LC_ALL=C sort | xargs sha256sum | sha256sum"
            ran = subprocess.run(["sh", "-c", words], cwd=TOP / "crates" / crate, stdout=subprocess.PIPE, check=True)
            self.assertEqual(found[1], ran.stdout.decode().split()[0])

    def test_the_archive_works_wherever_it_is_unpacked(self) -> None:
        folder = self.room / "a b"
        folder.mkdir()
        subprocess.run(["tar", "-xJf", str(next(self.out.glob("*.tar.xz"))), "--strip-components=1"], cwd=folder, check=True)
        environment = {"PATH": f"{folder}/bin:/usr/bin:/bin", "HOME": str(self.room)}
        for command in "gate", "legacy":
            ran = subprocess.run([command, "--version"], env=environment, cwd="/", stdout=subprocess.PIPE, check=True)
            self.assertTrue(ran.stdout.decode().startswith(f"{command} "), ran.stdout)

    @unittest.skipUnless(shutil.which("lintian"), "lintian is missing")
    def test_lintian_finds_nothing(self) -> None:
        words = ["lintian", "--allow-root", "--fail-on", "error,warning", str(self.deb())]
        ran = subprocess.run(words, stdin=subprocess.DEVNULL, stdout=subprocess.PIPE, stderr=subprocess.STDOUT, check=False)
        self.assertEqual((ran.returncode, ran.stdout), (0, b""))

    @unittest.skipUnless(shutil.which("qemu-x86_64"), "qemu-x86_64 is missing")
    def test_a_processor_that_lacks_what_the_program_needs(self) -> None:
        """It gets a line that says so, and status 127; one of 2008, which has all of x86-64-v2, runs the program."""
        for processor, status, said in ("Conroe", 127, "lacks a feature of x86-64-v2"), ("Nehalem", 0, "gate "):
            with self.subTest(processor):
                words = ["qemu-x86_64", "-cpu", processor, PROGRAM, "--version"]
                ran = subprocess.run(words, stdin=subprocess.DEVNULL, stdout=subprocess.PIPE, stderr=subprocess.STDOUT, check=False)
                self.assertEqual(ran.returncode, status)
                self.assertIn(said, ran.stdout.decode())

    @unittest.skipIf(system.why_not(), system.why_not())
    def test_in_a_system_where_nobody_built_it(self) -> None:
        for suite in SUITES:
            with self.subTest(suite):
                self.install_in(suite)

    def install_in(self, suite: str) -> None:
        """The package is installed, used and purged in a new system."""
        made = system.System(self.room / suite, suite)
        self.addCleanup(shutil.rmtree, made.root, ignore_errors=True)
        shutil.copy(self.deb(), made.root / "srv" / "gate.deb")
        before = made.files()
        self.succeeds(made.run(["dpkg", "--install", "/srv/gate.deb"]))
        work = made.root / "home" / "somebody" / "try"
        self.prepare(work)
        self.succeeds(made.run(["bash", "/home/somebody/try/session.sh", "/home/somebody/try"], system.USER))
        self.succeeds(made.run(["dpkg", "--purge", "gate"]))
        self.assertEqual(made.files(), before)

    @staticmethod
    def prepare(work: pathlib.Path) -> None:
        """What the session needs, as the user's own files."""
        work.mkdir()
        lines = re.search(r"^```\n(\{\"id\":1.*?)^```$", (TOP / "README.md").read_text(encoding="utf-8"), re.MULTILINE | re.DOTALL)
        assert lines, "README has no session"
        commands = lines[1].splitlines(keepends=True)
        (work / "in.jsonl").write_text("".join(commands[::2]), encoding="utf-8")
        (work / "out.jsonl").write_text("".join(commands[1::2]), encoding="utf-8")
        shutil.copy(HERE / "session.sh", work)
        if (STANDARD / "index-jis0208.txt").exists():
            shutil.copytree(STANDARD, work / "standard")
        else:
            (work / "standard").mkdir()
            indexes.make_standard(work / "standard")
        for path in [work, *work.rglob("*")]:
            os.chown(path, system.USER, system.USER)

    def succeeds(self, ran: "subprocess.CompletedProcess[bytes]") -> None:
        self.assertEqual(ran.returncode, 0, ran.stdout.decode(errors="replace"))
        print(ran.stdout.decode(errors="replace"))


if __name__ == "__main__":
    unittest.main()

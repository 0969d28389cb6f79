"""The command `legacy` as a whole: its words, what it finds without words, and its installation."""
import contextlib
import io
import os
import pathlib
import shutil
import subprocess
import sys
import tempfile
import unittest
import zipfile
from unittest import mock

from checkout import BUILT, CLIENTS, EXACT, PROGRAM, TOP
import wheels
from gate import Fault
from legacy import __main__, __version__, finding

HAS_PIP = subprocess.run([sys.executable, "-m", "pip", "--version"], stdout=subprocess.DEVNULL, stderr=subprocess.DEVNULL).returncode == 0


def run(*words, **environment):
    """What `legacy` printed on both streams, and its status."""
    ran = subprocess.run(
        [sys.executable, "-m", "legacy", *words], env={**os.environ, "PYTHONPATH": str(CLIENTS), **environment},
        stdout=subprocess.PIPE, stderr=subprocess.PIPE)
    return ran.stdout.decode(), ran.stderr.decode(), ran.returncode


class Words(unittest.TestCase):
    def test_version(self):
        self.assertEqual(run("--version"), (f"legacy {__version__}\n", "", 0))

    def test_help_names_each_subcommand(self):
        printed, _, status = run("--help")
        self.assertEqual(status, 0)
        for name in __main__.SUBCOMMANDS:
            self.assertRegex(printed, rf"(?m)^ +{name}( |$)")

    def test_words_that_are_none(self):
        for words in (), ("klingon",), ("--klingon",):
            printed, said, status = run(*words)
            self.assertEqual((printed, status), ("", 2))
            self.assertIn("legacy: error: ", said)

    def test_a_fault_comes_with_the_usage_of_its_subcommand(self):
        for words in ("check", "--klingon", "."), ("search", "a", "--most", "3", "."), ("check", "--most", "x", "."), ("check",):
            said = run(*words)[1]
            self.assertRegex(said, f"\\Ausage: legacy {words[0]} ")
            self.assertIn(f"\nlegacy {words[0]} --help says what each word is\nlegacy {words[0]}: error: ", said)

    def test_numbers_that_are_none(self):
        for number in "-1", "x", "1.5":
            printed, said, status = run("check", "--most", number, "/none")
            self.assertEqual((printed, status), ("", 2))
            self.assertTrue(said.endswith(f"\nlegacy check: error: argument --most: {number} is no number of errors from 0 on\n"), said)

    def test_expressions_that_are_none(self):
        deep = "(" * 9999 + ")" * 9999
        for expression, said in [
            ("(", "missing ), unterminated subpattern at position 0"), ("a{99999999999}", "the repetition number is too large"),
            (deep, "it is nested too deeply"),
        ]:
            self.assertEqual(run("search", expression, "/none"), ("", f"legacy search: {expression} is no regular expression: {said}\n", 2))


class Completions(unittest.TestCase):
    """What shells complete, by their own lights where they are installed."""

    def script(self, shell):
        printed, said, status = run("complete", shell)
        self.assertEqual((said, status), ("", 0))
        return printed

    def test_each_shell_has_each_subcommand_and_option(self):
        for shell in "bash", "zsh", "fish":
            script = self.script(shell)
            for name in __main__.SUBCOMMANDS:
                self.assertIn(name, script)
            for option in "line-ends", "files-from", "report":
                self.assertIn(option, script)
            program = shutil.which(shell)
            if program:
                self.assertEqual(subprocess.run([program, "-n"], input=script.encode(), stderr=subprocess.PIPE).stderr, b"", shell)

    @unittest.skipUnless(shutil.which("bash"), "there is no bash")
    def test_bash_completes(self):
        for words, found in [
            (["ch"], ["check"]), (["check", "--mo"], ["--most"]), (["mend", "--line-ends", "c"], ["crlf", "cr"]),
            (["convert", "--to", "shift"], ["shift_jis"]), (["check", "--jobs", ""], []), (["search", "--max"], ["--max-count"]),
        ]:
            listed = " ".join(f"'{it}'" for it in ["legacy", *words])
            code = f"{self.script('bash')}\nCOMP_WORDS=({listed}); COMP_CWORD={len(words)}; _legacy; printf '%s\\n' \"${{COMPREPLY[@]}}\""
            ran = subprocess.run(["bash", "-c", code], stdout=subprocess.PIPE, check=True)
            with self.subTest(words):
                self.assertEqual(ran.stdout.decode().split(), found)


class Manual(unittest.TestCase):
    PAGE = TOP / "docs" / "legacy.1"

    def test_it_has_the_words_of_the_command(self):
        ran = subprocess.run([sys.executable, str(TOP / "tools" / "manual"), "--check"], stderr=subprocess.PIPE)
        self.assertEqual((ran.stderr.decode(), ran.returncode), ("", 0))
        page = self.PAGE.read_text(encoding="utf-8")
        for name in __main__.SUBCOMMANDS:
            self.assertIn(f".Ss legacy {name}\n", page)

    @unittest.skipUnless(shutil.which("mandoc"), "there is no mandoc, which sets manual pages")
    def test_it_has_no_fault_of_form(self):
        ran = subprocess.run(["mandoc", "-T", "lint", "-W", "style", str(self.PAGE)], stdout=subprocess.PIPE, stderr=subprocess.DEVNULL)
        faults = [line for line in ran.stdout.decode().splitlines() if "referenced manual not found" not in line]
        self.assertEqual(faults, [])


class Faults(unittest.TestCase):
    """What `main` makes of a subcommand that fails, over one that a test puts in."""

    def status_of(self, act):
        parser = __main__.argparse.ArgumentParser()
        parser.add_subparsers(dest="subcommand").add_parser("act").set_defaults(run=act)
        said = io.StringIO()
        with mock.patch.object(__main__, "parser", lambda _: parser), contextlib.redirect_stderr(said):
            return __main__.main(["act"]), said.getvalue()

    def test_each_fault_is_one_line_with_its_status(self):
        for fault, status, line in [
            (finding.Missing("no gate"), 2, "legacy act: no gate\n"),
            (ModuleNotFoundError(name="pyfuse3"), 2,
             f"legacy act: the library pyfuse3, Debian's python3-pyfuse3, isn't installed for {sys.executable}\n"),
            (ModuleNotFoundError(name="it.of"), 2, f"legacy act: the library it isn't installed for {sys.executable}\n"),
            (PermissionError(13, "Permission denied", b"/a"), 2, "legacy act: /a: Permission denied\n"),
            (OSError(28, "No space left on device"), 2, "legacy act: No space left on device\n"),
            (KeyboardInterrupt(), 130, "legacy act: interrupted\n"),
        ]:
            with self.subTest(line):
                self.assertEqual(self.status_of(mock.Mock(side_effect=fault)), (status, line))

    def test_a_reader_that_has_enough(self):
        code = "from unittest import mock; from legacy import __main__ as it; p = it.argparse.ArgumentParser()\n" \
               "p.add_subparsers(dest='subcommand').add_parser('act').set_defaults(run=lambda _: [print('x' * 99) for _ in range(9999)])\n" \
               "it.parser = lambda _: p; raise SystemExit(it.main(['act']))"
        program = subprocess.Popen(
            [sys.executable, "-c", code], env={**os.environ, "PYTHONPATH": str(CLIENTS)}, stdout=subprocess.PIPE, stderr=subprocess.PIPE)
        program.stdout.readline()
        program.stdout.close()
        with program.stderr:
            self.assertEqual((program.stderr.read(), program.wait()), (b"", 141))


    def test_an_output_that_is_full_or_closed(self):
        words = [sys.executable, "-m", "legacy", "rules", "--default", "utf-8", str(CLIENTS)]
        with open("/dev/full", "wb") as full:
            ran = subprocess.run(words, env={**os.environ, "PYTHONPATH": str(CLIENTS)}, stdout=full, stderr=subprocess.PIPE)
        self.assertEqual((ran.stderr.decode(), ran.returncode), ("legacy rules: No space left on device\n", 2))
        closed = subprocess.run(["sh", "-c", '"$@" >&-', "sh", *words], env={**os.environ, "PYTHONPATH": str(CLIENTS)}, stderr=subprocess.PIPE)
        self.assertEqual((closed.stderr, closed.returncode), (b"", 0))


class Finding(unittest.TestCase):
    def setUp(self):
        kept = tempfile.TemporaryDirectory()
        self.addCleanup(kept.cleanup)
        self.folder = pathlib.Path(kept.name)
        environment = mock.patch.dict(os.environ, {"XDG_DATA_HOME": str(self.folder), "PATH": str(self.folder / "bin")})
        environment.start()
        self.addCleanup(environment.stop)
        for name in "GATE", "GATE_INDEXES":
            os.environ.pop(name, None)

    def program(self, name):
        path = self.folder / name
        path.parent.mkdir(exist_ok=True)
        path.write_text("#!/bin/sh\n")
        path.chmod(0o755)
        return str(path)

    def test_a_word_then_a_variable_then_the_path_then_the_checkout(self):
        self.assertEqual(finding.program(), str(TOP / "gate"))
        on_path = self.program("bin/gate")
        self.assertEqual(finding.program(), on_path)
        os.environ["GATE"] = self.program("variable")
        self.assertEqual(finding.program(), os.environ["GATE"])
        self.assertEqual(finding.program(self.program("word")), str(self.folder / "word"))

    def test_no_program(self):
        with mock.patch.object(finding, "CHECKOUT", self.folder / "none"):
            with self.assertRaisesRegex(finding.Missing, "^the program gate isn't on PATH"):
                finding.program()
        with self.assertRaisesRegex(finding.Missing, "^the program /none isn't there"):
            finding.program("/none")

    def test_index_files_and_labels(self):
        with self.assertRaisesRegex(finding.Missing, "gate/standard has no index files.*tools/standard"):
            finding.index_files()
        for given in self.folder / "gate" / "standard", self.folder / "variable", self.folder / "word":
            given.mkdir(parents=True)
            (given / finding.AN_INDEX).touch()
        self.assertEqual(finding.index_files(), self.folder / "gate" / "standard")
        os.environ["GATE_INDEXES"] = str(self.folder / "variable")
        self.assertEqual(finding.index_files(), self.folder / "variable")
        self.assertEqual(finding.index_files(self.folder / "word"), self.folder / "word")
        with self.assertRaisesRegex(finding.Missing, "/none has no index files, as index-jis0208.txt$"):
            finding.index_files(self.folder / "none")

    def test_labels(self):
        self.assertIsNone(finding.label_file(None, self.folder))
        beside = self.folder / "encodings.json"
        beside.touch()
        self.assertEqual(finding.label_file(None, self.folder), beside)
        self.assertEqual(finding.label_file(beside, self.folder / "none"), beside)
        with self.assertRaisesRegex(finding.Missing, "none isn't there"):
            finding.label_file(self.folder / "none", self.folder)

    def test_a_program_that_ends(self):
        found = finding.Found("/bin/false", self.folder, None)
        with self.assertRaisesRegex(finding.Missing, "^/bin/false ended before it replied"):
            found.start()

    @BUILT
    def test_a_program_that_replies(self):
        with finding.Found(PROGRAM, TOP / "examples" / "indexes", None).start() as gate:
            self.assertEqual(gate.open("d", "shift_jis", b"\x82\xa0").text(), "あ")

    @EXACT
    @BUILT
    def test_a_program_whose_memory_is_bounded(self):
        with finding.Found(PROGRAM, TOP / "examples" / "indexes", None, memory=40).start() as gate:
            with self.assertRaisesRegex(Fault, "OutOfMemory"):
                gate.open("d", "shift_jis", b"\x82\xa0" * (8 << 20))
            gate.ask("close", doc="d")
            self.assertEqual(gate.open("d", "shift_jis", b"\x82\xa0").text(), "あ")

    def test_memory_is_a_number_of_mib(self):
        for wrong in "", "0", "-1", "1.5", "x", "1000000000":
            _, said, status = run("check", f"--memory={wrong}", ".")
            self.assertEqual(status, 2)
            self.assertIn(f"argument --memory: {wrong} is no number of MiB from 1 on", said)


class Installation(unittest.TestCase):
    def setUp(self):
        kept = tempfile.TemporaryDirectory()
        self.addCleanup(kept.cleanup)
        self.folder = pathlib.Path(kept.name)

    def test_tables_are_those_of_toml(self):
        try:
            import tomllib
        except ImportError:
            self.skipTest("Python has a reader of TOML from 3.11 on")
        tables = tomllib.loads((CLIENTS / "pyproject.toml").read_text(encoding="utf-8"))
        for name, table in wheels.project().items():
            found = tables
            for part in name.split("."):
                found = found[part]
            self.assertEqual(table, {key: value for key, value in found.items() if not isinstance(value, dict)}, name)

    def test_equal_sources_make_equal_wheels(self):
        path = self.folder / wheels.build_wheel(str(self.folder))
        first = path.read_bytes()
        wheels.build_wheel(str(self.folder))
        self.assertEqual(path.read_bytes(), first)
        with zipfile.ZipFile(path) as wheel:
            self.assertLessEqual({"legacy/__main__.py", "gate.py", "gate_documents/document.py"}, {*wheel.namelist()})
            self.assertIn(f"Version: {__version__}\n", wheel.read(f"senqytap-{__version__}.dist-info/METADATA").decode())

    def test_an_archive_of_sources_builds_the_same_wheel(self):
        wheel = (self.folder / wheels.build_wheel(str(self.folder))).read_bytes()
        shutil.unpack_archive(self.folder / wheels.build_sdist(str(self.folder)), self.folder)
        code = "import sys, wheels; wheels.build_wheel(sys.argv[1])"
        below = self.folder / wheels.stem()
        subprocess.run([sys.executable, "-c", code, str(self.folder)], cwd=below, check=True)
        self.assertEqual((self.folder / f"{wheels.stem()}-py3-none-any.whl").read_bytes(), wheel)

    @unittest.skipUnless(HAS_PIP, "there is no pip")
    def test_pip_installs_it_without_a_network(self):
        words = ["--quiet", "--no-index", "--no-cache-dir", "--disable-pip-version-check", "--target", str(self.folder)]
        subprocess.run([sys.executable, "-m", "pip", "install", *words, str(CLIENTS)], check=True, stderr=subprocess.PIPE)
        ran = subprocess.run(
            [str(self.folder / "bin" / "legacy"), "--version"], env={**os.environ, "PYTHONPATH": str(self.folder)}, stdout=subprocess.PIPE)
        self.assertEqual((ran.stdout.decode(), ran.returncode), (f"legacy {__version__}\n", 0))
        self.assertEqual((self.folder / "gate.py").read_bytes(), (CLIENTS / "gate.py").read_bytes())


if __name__ == "__main__":
    unittest.main()

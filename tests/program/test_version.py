"""The version stands in one place, a constant of the program's source. What else names it, or the toolchain, agrees."""
import re
import shutil
import subprocess
import unittest

from program import PROGRAM, TOP, built

SOURCE = TOP / "crates" / "command_line" / "src" / "form.rt"

# Other places of the version and of the toolchain's logic: a file, and what is around it there.
VERSION_PLACES = [
    ("clients/legacy/__init__.py", r'^__version__ = "([\d.]+)"'),
    ("CHANGELOG.md", r"^## ([\d.]+), "),
    ("crates/line_protocol/src/ops/hello.rt", r'^const PROGRAM: &str = "([\d.]+)";$'),
    ("docs/PROTOCOL.md", r'"program":"([\d.]+)"'),
    ("tests/program/sessions/looks.jsonl", r'"program":"([\d.]+)"'),
    ("docs/gate.1", r"^This page describes version ([\d.]+)\.$"),
]
LOGIC_PLACES = [("README.md", r"prints ends in `logic (\w+)`")]


def version():
    """The number of the version, and the logic that the toolchain has."""
    found = re.search(r'^const VERSION: &str = "([\d.]+) \(logic (\w+)\)";$', SOURCE.read_text(encoding="utf-8"), re.MULTILINE)
    assert found, f"{SOURCE} has no VERSION of the form that is read here"
    return found.groups()


class Version(unittest.TestCase):
    def assert_in(self, places, wanted):
        for name, form in places:
            with self.subTest(name):
                self.assertEqual(re.findall(form, (TOP / name).read_text(encoding="utf-8"), re.MULTILINE)[:1], [wanted])

    def test_all_places_name_one_version_and_one_toolchain(self):
        number, logic = version()
        self.assert_in(VERSION_PLACES, number)
        self.assert_in(LOGIC_PLACES, logic)

    @unittest.skipUnless(shutil.which("rt"), "there is no command rt, the Rattle toolchain's")
    def test_the_toolchain_is_the_one_that_is_named(self):
        said = subprocess.run(["rt", "version"], stdout=subprocess.PIPE, check=True).stdout.decode()
        self.assertTrue(said.endswith(f" logic {version()[1]}\n"), said)

    @built
    def test_the_program_prints_it(self):
        number, logic = version()
        for word in "--version", "-V":
            ran = subprocess.run([PROGRAM, word], stdin=subprocess.DEVNULL, stdout=subprocess.PIPE, stderr=subprocess.PIPE)
            self.assertEqual((ran.returncode, ran.stdout.decode(), ran.stderr), (0, f"gate {number} (logic {logic})\n", b""))


if __name__ == "__main__":
    unittest.main()

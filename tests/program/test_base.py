"""tests/base.py: which program the tests try, by the variables GATE and GATE_UNPROVED, and what they skip."""
import os
import pathlib
import subprocess
import sys
import tempfile
import unittest

from program import TOP

# Prints the program, who makes it, and whether tests of its memory, stack and time are skipped.
TELLS = """import base, unittest
@base.EXACT
class A(unittest.TestCase): pass
print(base.PROGRAM, base.MAKER, getattr(A, "__unittest_skip__", False), sep="\\n")
"""
OUT = TOP / "crates" / "gate" / "out"


class Base(unittest.TestCase):
    def tell(self, **variables):
        kept = {name: value for name, value in os.environ.items() if not name.startswith("GATE")}
        words = [sys.executable, "-c", TELLS]
        ran = subprocess.run(words, cwd=TOP / "tests", env={**kept, **variables}, stdout=subprocess.PIPE, check=True)
        return ran.stdout.decode().splitlines()

    def test_which_program_is_tried(self):
        rows = [
            ({}, [str(OUT / "gate"), "tools/build", "False"]),
            ({"GATE": "/a"}, ["/a", "tools/build", "False"]),
            ({"GATE_UNPROVED": "0"}, [str(OUT / "gate"), "tools/build", "False"]),
            ({"GATE_UNPROVED": "1"}, [str(OUT / "unproved" / "gate"), "./try", "True"]),
            ({"GATE_UNPROVED": "1", "GATE": "/a"}, ["/a", "./try", "True"]),
        ]
        for variables, wanted in rows:
            self.assertEqual(self.tell(**variables), wanted, variables)

    def test_tests_of_clients_take_the_same(self):
        with tempfile.TemporaryDirectory() as folder:
            program = pathlib.Path(folder, "gate")
            words = [sys.executable, "-c", "import checkout; print(checkout.PROGRAM, checkout.UNPROVED)"]
            environment = {**os.environ, "GATE": str(program), "GATE_UNPROVED": "1"}
            ran = subprocess.run(words, cwd=TOP / "tests" / "clients", env=environment, stdout=subprocess.PIPE, check=True)
            self.assertEqual(ran.stdout.decode(), f"{program} True\n")


if __name__ == "__main__":
    unittest.main()

"""What a person is shown: nothing that a name or a text has is obeyed by the terminal."""
import os
import subprocess
import sys
import unittest

from archives import Folder
from checkout import BUILT, CLIENTS, INDEXES, PROGRAM
from legacy.terminals import message, quote_path, visible_text

# Names, and how each is shown.
NAMES = [
    ("a\x1b[2J.txt", r"'a\x1b[2J.txt'"), ("a\n.txt", r"'a\n.txt'"), ("a\x9b2J.txt", r"'a\x9b2J.txt'"), ("a\u202etxt.exe", r"'a\u202etxt.exe'"),
    ("a\u2066b", r"'a\u2066b'"), ("\u200fa", r"'\u200fa'"), ("a\u2028b", r"'a\u2028b'"), ("a\x7f", r"'a\x7f'"), ("図書館 a.txt", "図書館 a.txt")]


class Shown(unittest.TestCase):
    def test_names(self):
        for name, quoted in NAMES:
            with self.subTest(quoted):
                self.assertEqual(quote_path(name), quoted)

    def test_texts_and_messages(self):
        self.assertEqual(visible_text("a\x1b\x9b\t\u202eb"), "a\u241b<9b>\t<U+202E>b")
        self.assertEqual(message("one\x1b\ntwo\u2066"), "one\u241b\ntwo<U+2066>")


def run(folder, *words):
    """What `legacy` printed in a folder on both streams, as bytes."""
    ran = subprocess.run(
        [sys.executable, "-m", "legacy", *words], cwd=folder, stdout=subprocess.PIPE, stderr=subprocess.PIPE,
        env={**os.environ, "PYTHONPATH": str(CLIENTS), "PYTHONIOENCODING": "utf-8", "GATE": PROGRAM, "GATE_INDEXES": str(INDEXES)})
    return ran.stdout + ran.stderr


class Commands(Folder):
    def is_harmless(self, *words):
        """Whether a command prints nothing that a terminal obeys but line feeds."""
        printed = run(self.folder, *words).decode(errors="surrogateescape")
        self.assertEqual([it for it in printed if it != "\n" and visible_text(it) != it], [], printed)
        self.assertNotEqual(printed, "")

    def setUp(self):
        super().setUp()
        for name, _ in NAMES:
            self.file(f"in/{name}", b"A\xff\n")
            self.file(f"out/{name}", b"another's")

    def test_words_that_are_none(self):
        for words in ["klingon\x1b"], ["check", "--ignore", "\x9b", "in"], ["check", "--gate", "/\u202e", "in"], ["mend", "--apply", "\x1b"]:
            with self.subTest(words):
                self.is_harmless(*words)

    def test_rules(self):
        self.is_harmless("rules", "--default", "utf-8", "in")
        self.file("in/.gitattributes", "* working-tree-encoding=\x9b2J\n".encode())
        self.is_harmless("rules", "in")

    @BUILT
    def test_names_and_reasons(self):
        for words in ["check", "in"], ["convert", "--to", "windows-1252", "in", "out"], ["search", "A", "in"], ["diff", "in", "out"], \
                ["mend", "--plan", "\x1b[2Jplan", "--damage", "ff=3f", "in"], ["mend", "--undo", "\x1b[2Jplan"], ["check", "-v", "in"]:
            with self.subTest(words):
                self.is_harmless(*words, *(["--default", "windows-1252"] if words[1] != "--undo" else []))


if __name__ == "__main__":
    unittest.main()

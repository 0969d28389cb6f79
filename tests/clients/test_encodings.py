"""`legacy encodings`: what a file would be in each encoding."""
import dataclasses
import os
import time
import unittest

import indexes
from archives import Folder, run
from checkout import BUILT, PROGRAM
from legacy import finding
from legacy.encodings import encodings, kind_of

# Index files of most encodings.
WHOLE = finding.Found(PROGRAM, indexes.folder(), None)


class Kinds(unittest.TestCase):
    def test_what_characters_are(self):
        for letter, kind in [
            ("a", "ASCII"), ("\n", "ASCII"), ("\x1b", "controls"), ("\x81", "controls"), ("\ufdd0", "controls"), ("é", "Latin"), ("ж", "Cyrillic"),
            ("あ", "Hiragana"), ("カ", "Katakana"), ("ｶ", "half-width katakana"), ("図", "Han"), ("한", "Hangul"), ("║", "box drawing"), ("▒", "box drawing"),
            ("\ue000", "private use"), ("\u0378", "unassigned"), ("。", "punctuation"), ("€", "symbols"), ("ก", "Thai"),
        ]:
            with self.subTest(letter):
                self.assertEqual(kind_of(letter), kind)


@BUILT
class Files(Folder):
    def look_at(self, content):
        found = encodings(self.file("a", content), WHOLE)
        return {it.encoding: dataclasses.asdict(it) for it in found}

    def test_errors_places_and_kinds(self):
        made = self.look_at(b"a\n\r\n\x82\xa0\xff\x81b")
        self.assertEqual((made["UTF-8"]["errors"], made["UTF-8"]["first"], made["UTF-8"]["characters"]), (4, [4, 3, 1], 9))
        self.assertEqual(made["Shift_JIS"]["kinds"], {"ASCII": 4, "Hiragana": 1, "symbols": 1})  # (8162 is U+FF5C)
        self.assertEqual(made["Shift_JIS"]["first"], [6, 3, 2])
        self.assertEqual([it for it in made.values() if it["errors"]], sorted((it for it in made.values() if it["errors"]), key=lambda it: it["errors"]))

    def test_single_bytes_are_as_the_program_has_them(self):
        # (windows-1253 has errors, of which the first is behind a CR LF)
        made = self.look_at(b"\xe1\r\n a\xaa\xff\xd2")
        one = made["windows-1253"]
        with WHOLE.start() as gate, gate.open("d", "windows-1253", b"\xe1\r\n a\xaa\xff\xd2") as document:
            (begin, _), (line, character), _ = document.diagnostics(unit="utf-32")[0]
            self.assertEqual((one["errors"], one["first"]), (document.stat()["errors"], [begin, line + 1, character + 1]))

    def test_what_is_printed_and_the_status(self):
        path = self.file("a", b"a\x81")
        printed, said, status = run("encodings", path, "/none")
        self.assertEqual((said, status), ("legacy encodings: /none: No such file or directory\n", 2))
        self.assertRegex(printed, f"\\A{path}: 2 bytes, consistent with [0-9]+ encodings\n  ")
        self.assertIn("\n  UTF-8: 1 error, the first at byte 1, line 1, character 2; 1 ASCII\n", printed)

    def test_a_file_of_a_megabyte(self):
        path = self.file("a", "図書館の本は、".encode("cp932") * 75_000)
        since = time.process_time(), os.times().children_user
        made = list(encodings(path, WHOLE))
        self.assertEqual(made[0].errors, 0)
        self.assertGreater(len(made), 15)
        # (a second where nothing else is at work)
        self.assertLess(time.process_time() - since[0] + os.times().children_user - since[1], 10)


if __name__ == "__main__":
    unittest.main()

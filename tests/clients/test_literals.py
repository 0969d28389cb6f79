"""Searches for texts, most of which need no decoding: what is found is what is found in the whole text."""
import random
import unittest
from unittest import mock

from archives import Folder, settings
from checkout import BUILT, INDEXES, PROGRAM
from legacy import finding, literals
from legacy.search import search
from test_parts import ENCODINGS, content_of

FOUND = finding.Found(PROGRAM, INDEXES, None)


@BUILT
class Literals(Folder):
    def test_what_is_found_is_the_same(self):
        for label, (_, letters) in ENCODINGS.items():
            rng = random.Random(label)
            for number in range(3):
                self.file(f"in/{number}.{label}", content_of(rng, label, 300, 30))
        words = ["a", "ab", "b0", " ,", *(it for _, letters in ENCODINGS.values() for it in (letters[0], letters[:2], letters[1] + "a"))]
        for it in words:
            with self.subTest(it):
                found = list(search(it, [str(self.folder / "in")], settings()))
                with mock.patch.object(literals, "is_literal", return_value=False):
                    self.assertEqual(found, list(search(it, [str(self.folder / "in")], settings())))

    def test_each_form_of_a_character(self):
        # (by the Standard's decoders: U+FFE2 is 81CA, EEF9 and FA54 in Shift_JIS; and Big5's 8862 is two characters)
        with FOUND.start() as gate:
            forms = literals.Forms(gate, "EUC-JP")
            self.assertEqual(forms.expression("a").search(b"xa").span(), (1, 2))
            self.assertIsNone(forms.expression("a").search(b"x\xa4\xa2"))
            self.assertEqual(forms.expression("\u3042").search(b"x\xa4\xa2").span(), (1, 3))
            fours = literals.Forms(gate, "gb18030")
            self.assertIsNotNone(fours.expression("\U00020087").search(b"\x95\x32\x90\x31"))
            self.assertIsNone(fours.expression("ab").search(b"a\nb"))

    def test_expressions_that_mean_more_than_themselves(self):
        for text, is_text, expected in [
                ("a b-c", False, True), ("a.b", False, False), ("a.b", True, True), ("", True, False), ("a\nb", True, False), ("\ufffd", True, False)]:
            self.assertEqual(literals.is_literal(text, is_text), expected, text)

    def test_a_file_without_the_text_is_not_decoded(self):
        self.file("a.shift_jis", b"\x82\xa0\n" * 100)
        path = str(self.folder / "a.shift_jis")
        list(search("\u3042", [path], settings()))
        with mock.patch("gate_documents.questions.Questions.text", side_effect=AssertionError):
            self.assertEqual([it.outcome for it in search("a", [path], settings())], ["done"])


if __name__ == "__main__":
    unittest.main()

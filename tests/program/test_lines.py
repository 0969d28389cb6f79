"""Lines that are computed, or are no lines of a file: how long they may be, and how long the names in them."""
import unittest

from program import Played, built

BAD_JSON = '{"fault":"BadJson"}'
TOO_LONG = '{"fault":"LineTooLong"}'
NO_OBJECT = '{"fault":"BadRequest","field":""}'
BAD_DOC = '{"fault":"BadRequest","field":"doc","id":1}'
BAD_LABEL = '{"fault":"BadRequest","field":"label","id":1}'

# The most bytes of a line.
MOST = 4194304

# An escape, and how often it has to stand for 64 bytes: U+0061 has one byte in UTF-8, U+00E9 two, and U+1F600, by its
# surrogates, four.
ESCAPES = [("\\u0061", 64), ("\\u00e9", 32), ("\\ud83d\\ude00", 16)]


def open_of_name(name):
    """An open of a document of this name, which is refused for its label at the latest."""
    return f'{{"id":1,"op":"open","doc":"{name}","label":0}}'


@built
class Lines(Played):
    def test_lines_of_no_object(self):
        self.plays([("", BAD_JSON), ("\r", BAD_JSON), ("[]\r", NO_OBJECT)])

    def test_lines_at_the_limit(self):
        self.plays([(" " * MOST, BAD_JSON), (" " * (MOST + 1), TOO_LONG), (" " * (2 * MOST + 2), TOO_LONG), ("[]", NO_OBJECT)])

    def test_names_of_64_and_65_bytes_by_escapes(self):
        for escape, count in ESCAPES:
            with self.subTest(escape):
                self.plays([(open_of_name(escape * count), BAD_LABEL), (open_of_name(escape * count + "a"), BAD_DOC)])


if __name__ == "__main__":
    unittest.main()

"""Texts in which a character with several forms is one: full and half width and the other forms that NFKC makes one. The six
punctuation marks that tables of Japanese have as two code points are one, too."""
import bisect
import functools
import re
import unicodedata
from typing import List, Pattern, Tuple

# Three of the six, and what the Standard decodes them to: the wave dash, the minus, the parallel lines. (NFKC makes the cent, the
# pound and the not sign one.)
PAIRS = {"\u301c": "\uff5e", "\u2212": "\uff0d", "\u2016": "\u2225"}
# What belongs to the character before it: combining marks, and the marks of half-width katakana.
MARKS = "\u0300-\u036f\u3099\u309a\uff9e\uff9f"


def fold(letters: str) -> str:
    """The one way in which a character, with its marks, is written."""
    return unicodedata.normalize("NFKC", "".join(PAIRS.get(it, it) for it in letters))


@functools.lru_cache(maxsize=1)
def foldable() -> Pattern[str]:
    """What isn't written in the one way."""
    found = [it for it in range(0x80, 0x20000) if not 0xD800 <= it < 0xE000 and fold(chr(it)) != chr(it)]
    ranges: List[List[int]] = []
    for it in found:
        if ranges and ranges[-1][1] == it - 1:
            ranges[-1][1] = it
        else:
            ranges.append([it, it])
    listed = "".join(f"{chr(first)}-{chr(last)}" for first, last in ranges)
    return re.compile(f".[{MARKS}]+|[{listed}]", re.DOTALL)


def folded_expression(expression: str) -> str:
    """An expression for folded texts. What one character is folded to means itself, whatever it means to `re`."""
    return foldable().sub(lambda it: re.escape(fold(it[0])), expression)


class Folded:
    """A folded text, and where what is in it was."""

    def __init__(self, text: str):
        parts: List[str] = []
        # The start of each folded place here, and its start and end in the text.
        self._starts, self._origins = [0], [(0, 0)]
        at = length = 0
        for it in foldable().finditer(text):
            begin, end = it.span()
            form = fold(it[0])
            parts += [text[at:begin], form]
            self._starts.append(length + begin - at)
            self._origins.append((begin, end))
            length += begin - at + len(form)
            self._starts.append(length)
            self._origins.append((end, end))
            at = end
        self.text = "".join([*parts, text[at:]])

    def origin(self, begin: int, end: int) -> Tuple[int, int]:
        """Where what is between two places was. A place in what one character was folded to is that character's."""
        return self._origin(begin, False), self._origin(end, True)

    def _origin(self, at: int, is_end: bool) -> int:
        number = (bisect.bisect_left if is_end else bisect.bisect_right)(self._starts, at) - 1
        if number < 0:
            return 0
        first, last = self._origins[number]
        if first == last:
            return first + at - self._starts[number]
        return last if is_end else first

"""What a person is shown on a terminal, which obeys control characters: names, texts and numbers, each on one line."""
import re
from typing import List

# What a terminal obeys, and what moves or hides the characters around it: C0, DEL and C1, and the marks and overrides of direction.
OBEYED = re.compile("[\\0-\x1f\x7f-\x9f\u061c\u200e\u200f\u2028-\u202e\u2066-\u2069\ufeff]")
# What is shown for the control characters of a text.
PICTURES = {
    **{it: chr(0x2400 + it) for it in range(32) if it != 9}, **{it: f"<{it:02x}>" for it in range(127, 160)},
    **{it: f"<U+{it:04X}>" for it in (0x61C, 0x200E, 0x200F, *range(0x2028, 0x202F), *range(0x2066, 0x206A), 0xFEFF)}}


def quote_path(path: str) -> str:
    """A path on one line: one with a character that a terminal obeys is quoted, with that character as an escape."""
    return repr(path) if OBEYED.search(path) else path


def visible_text(text: str) -> str:
    """A text in which each character that a terminal obeys is a picture or a number."""
    return text.translate(PICTURES) if OBEYED.search(text) else text


def message(text: str) -> str:
    """A message of several lines at most, in which nothing else is obeyed, whatever names it repeats."""
    lines: List[str] = text.split("\n")
    return "\n".join(map(visible_text, lines))


def quantity(number: int, things: str, form: str = "") -> str:
    """A number of things, which are named as several are."""
    return f"{number:{form}} {things[: -1 if number == 1 else None]}"

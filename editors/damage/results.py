"""What measuring scripts have in common: bytes that differ, and tables that are put into a page."""
import difflib
import pathlib
import re
from typing import Mapping, Tuple


def count_lost(wanted: bytes, got: bytes) -> Tuple[int, int]:
    """The bytes of `wanted` that `got` lacks, and those that it has in their place."""
    lost = new = 0
    for act, a, b, c, d in difflib.SequenceMatcher(None, wanted, got, autojunk=False).get_opcodes():
        if act != "equal":
            lost, new = lost + b - a, new + d - c
    return lost, new


def install(page: pathlib.Path, parts: Mapping[str, str]) -> None:
    """Puts each part between its two comments in the page."""
    text = page.read_text()
    for name, part in parts.items():
        between = f"(<!-- {name} -->\n).*?(<!-- end of {name} -->)"
        text, n = re.subn(between, lambda it: it[1] + part + "\n" + it[2], text, flags=re.S)
        assert n == 1, name
    page.write_text(text)

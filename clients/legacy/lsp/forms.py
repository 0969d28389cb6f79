"""Forms of characters that an encoding lacks, in characters that it has."""
import unicodedata
from typing import Callable, Iterator, List, Set

# What people write if they lack a character, beyond what Unicode's own forms are.
TABLE = {
    "‘": "'", "’": "'", "‚": ",", "‛": "'", "“": '"', "”": '"', "„": '"', "‟": '"', "‹": "<", "›": ">", "«": '"', "»": '"', "‐": "-", "‑": "-",
    "‒": "-", "–": "-", "—": "-", "―": "-", "−": "-", "•": "*", "·": "*", "…": "...", "€": "EUR", "£": "GBP", "¥": "JPY", "©": "(C)", "®": "(R)",
    "×": "x", "÷": "/", "ß": "ss", "æ": "ae", "Æ": "AE", "œ": "oe", "Œ": "OE", "ø": "o", "Ø": "O", "ł": "l", "Ł": "L", "đ": "d", "Đ": "D", "ı": "i",
}


def forms_of(letter: str, lacking: Callable[[str], Set[str]]) -> List[str]:
    """The forms of a character that an encoding has, the best first."""
    found: List[str] = []
    for form in _candidates(letter):
        if form and form != letter and form not in found and not form[0].isspace() and not lacking(form):
            found.append(form)
    return found


def _candidates(letter: str) -> Iterator[str]:
    yield unicodedata.normalize("NFC", letter)
    yield TABLE.get(letter, "")
    yield unicodedata.normalize("NFKC", letter)
    yield "".join(it for it in unicodedata.normalize("NFKD", letter) if not unicodedata.combining(it))

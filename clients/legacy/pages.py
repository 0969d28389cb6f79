"""The parts of the page that `legacy check --report` writes: tables, files and places, as HTML without a script."""
import html
import os
import re
from typing import Iterator, List, NamedTuple, Optional, Sequence

from legacy.check import Checked, Place
from legacy.terminals import quantity

# The rows of a table that are shown at once; the others are folded.
SHOWN = 20
# From which share of errors among its characters a file may be in another encoding.
MANY = 0.05

# The languages in whose shapes characters of Han are shown.
LANGUAGES = {
    **dict.fromkeys(("Shift_JIS", "EUC-JP", "ISO-2022-JP"), "ja"), **dict.fromkeys(("GBK", "gb18030"), "zh-Hans"), "Big5": "zh-Hant", "EUC-KR": "ko"}

HEAD = """<!doctype html>
<html lang="en">
<meta charset="utf-8">
<meta name="viewport" content="width=device-width, initial-scale=1">
<title>{title}</title>
<style>
:root {{ color-scheme: light dark; --bad: #b3261e; --bar: #4a7ebb; --line: #8884; --soft: #8882; }}
@media (prefers-color-scheme: dark) {{ :root {{ --bad: #ff8a80; --bar: #7aa7dd; }} }}
body {{ font: 15px/1.45 system-ui, sans-serif; margin: 2rem auto; max-width: 72rem; padding: 0 1rem; }}
h1 {{ font-size: 1.5rem; margin-bottom: .2rem; overflow-wrap: anywhere; }} h2 {{ font-size: 1.1rem; margin-top: 2rem; }}
h3 {{ font-size: 1rem; margin: 1.2rem 0 .2rem; overflow-wrap: anywhere; }}
p.sum {{ margin: 0; }} .bad {{ color: var(--bad); }} a {{ color: inherit; }}
dl {{ display: grid; grid-template-columns: max-content 1fr; gap: .1rem .8rem; margin: .6rem 0; font-size: .9rem; }} dt {{ opacity: .75; }}
dd {{ margin: 0; overflow-wrap: anywhere; }}
table {{ border-collapse: collapse; width: 100%; }}
caption {{ text-align: left; font-size: .85rem; opacity: .75; padding-bottom: .2rem; }}
th, td {{ text-align: left; padding: .15rem .6rem .15rem 0; border-bottom: 1px solid var(--line); font-weight: normal; }}
thead th {{ font-size: .85rem; opacity: .75; }} td.n, thead th.n {{ text-align: right; font-variant-numeric: tabular-nums; white-space: nowrap; }}
td.bars {{ width: 30%; }} td.bars div {{ background: var(--bar); height: .8rem; min-width: 1px; border-radius: 2px; }}
th.name {{ overflow-wrap: anywhere; }}
details.file {{ border-bottom: 1px solid var(--line); content-visibility: auto; contain-intrinsic-size: auto 1.8rem; }}
summary {{ cursor: pointer; padding: .2rem 0; overflow-wrap: anywhere; }} summary small {{ opacity: .75; }}
ol {{ list-style: none; margin: 0 0 .6rem; padding: 0; }} li {{ padding: .1rem .4rem; }} li:target {{ background: var(--soft); }}
li a {{ display: inline-block; min-width: 14rem; font-size: .85rem; font-variant-numeric: tabular-nums; }}
bdi, code {{ font-family: ui-monospace, monospace; white-space: pre-wrap; overflow-wrap: anywhere; }}
mark {{ background: var(--bad); color: Canvas; border-radius: 3px; padding: 0 .25em; font: .85em ui-monospace, monospace; unicode-bidi: isolate; }}
@media (max-width: 40rem) {{ li a {{ display: block; }} }}
@media print {{
  details::details-content {{ content-visibility: visible; block-size: auto; }} details.file {{ content-visibility: visible; }}
  mark {{ border: 1px solid; }} li {{ break-inside: avoid; }}
}}
</style>
"""


class Share(NamedTuple):
    """A row of a table: a name, how many files there are of it, how many are damaged, their errors, and the anchor that it leads
    to."""

    name: str
    files: int
    damaged: int
    errors: int
    anchor: str = ""


class Wrong(NamedTuple):
    """Bytes that are wrong, in hexadecimal, in which encoding, and how often."""

    bytes: str
    encoding: str
    errors: int


def readable(path: str) -> str:
    """A path as text: bytes that aren't UTF-8 as \\xff."""
    return os.fsencode(path).decode("utf-8", "backslashreplace")


def escape_html(text: str) -> str:
    """A text in HTML, in which no character moves or hides others."""
    return html.escape(draw_controls(text))


def draw_controls(text: str) -> str:
    """A text in which no character moves or hides others."""
    return re.sub("[\0-\x1f\x7f\u061c\u200e\u200f\u2028-\u202e\u2066-\u2069]", _picture, text)


def _picture(it: "re.Match[str]") -> str:
    number = ord(it[0])
    return chr(0x2400 + number) if number < 0x20 else "\u2421" if number == 0x7F else f"<U+{number:04X}>"


def table(name: str, title: str, shares: List[Share]) -> Iterator[str]:
    """A table of counts, with a bar for the share of each row's files that is damaged."""
    columns = "".join(f'<th scope="col" class="n">{it}' for it in ("files", "errors", "damaged files", "share"))
    head = f'<thead><tr><th scope="col">{title.lower()}{columns}<th scope="col">damaged</thead>\n'
    yield from _fold(name, title, "files, and how many of them are damaged", head, [_share(it) for it in shares])


def wrong_bytes(wrong: List[Wrong]) -> Iterator[str]:
    """A table of the bytes that are wrong, by which a wrong rule is seen, with the word of `legacy mend` by which each would become
    a question mark."""
    columns = '<th scope="col">encoding<th scope="col" class="n">errors<th scope="col">word of legacy mend'
    head = f'<thead><tr><th scope="col">bytes{columns}</thead>\n'
    rows = [
        f'<tr><th scope="row" class="name"><code>{it.bytes}</code><td>{html.escape(it.encoding)}<td class="n">{it.errors:,}'
        f'<td><code>--damage {it.bytes.replace(" ", "")}=3f</code></tr>\n' for it in wrong]
    caption = "the bytes of errors, most frequent first; 3f is a question mark, for which another character may stand"
    yield from _fold("bytes", "Wrong bytes", caption, head, rows)


def _fold(name: str, title: str, caption: str, head: str, rows: Sequence[str]) -> Iterator[str]:
    if not rows:
        return
    begin = f"<table><caption>{caption}</caption>{head}"
    yield f'<h2 id="{name}">{title}</h2>\n{begin}'
    yield from rows[:SHOWN]
    yield "</table>\n"
    if len(rows) > SHOWN:
        yield f"<details><summary>{len(rows) - SHOWN:,} more</summary>{begin}"
        yield from rows[SHOWN:]
        yield "</table></details>\n"


def _share(it: Share) -> str:
    percent = 100 * it.damaged / it.files if it.files else 0.0
    bar = f'<div style="width:{percent:.1f}%"></div>' if it.damaged else ""
    name = escape_html(readable(it.name))
    named = f'<a href="#{it.anchor}">{name}</a>' if it.anchor else name
    numbers = "".join(f'<td class="n">{number:,}' if number else '<td class="n">' for number in (it.files, it.errors, it.damaged))
    share = f"{percent:.3g} %" if it.damaged else ""
    return f'<tr><th scope="row" class="name">{named}{numbers}<td class="n">{share}<td class="bars">{bar}</tr>\n'


def file(number: int, row: Checked, places: List[Place], controls: List[Place]) -> Iterator[str]:
    """A damaged file, folded."""
    about = html.escape("; ".join([row.encoding, *_about(row)]))
    yield f'<details class="file" id="f{number}"><summary>{escape_html(readable(row.path))} <small>{about}</small></summary><ol>\n'
    language = LANGUAGES.get(row.encoding)
    for at, it in enumerate([*places, *controls], 1):
        yield _place(f"f{number}-{at}", it, language)
    for count, what in (row.errors - len(places), "further errors"), (sum(row.controls.values()) - len(controls), "further control characters"):
        if count > 0 and (what == "further errors" or "controls" in row.damage):
            yield f"<li>{quantity(count, what, ',')}</li>\n"
    yield "</ol></details>\n"


def _about(row: Checked) -> Iterator[str]:
    """What is wrong with a file, in a few words."""
    if row.errors:
        share = row.errors / max(row.characters, 1)
        yield f"{quantity(row.errors, 'errors', ',')}, {100 * share:.2g} % of its characters"
        if share >= MANY:
            yield "perhaps another encoding"
    if row.ends.kinds > 1:
        ends = (("LF", row.ends.lf), ("CR LF", row.ends.crlf), ("CR", row.ends.cr))
        yield ", ".join(f"{count:,} {name}" for name, count in ends if count)
    if "mark" in row.damage:
        yield f"its byte order mark is that of {row.encoding}, its rule names {row.label}"
    if "controls" in row.damage:
        yield quantity(sum(row.controls.values()), "control characters", ",")


def _place(anchor: str, it: Place, language: Optional[str]) -> str:
    where = f"{it.line:,}:{it.character:,}, byte {it.begin:,}"
    lang = f' lang="{language}"' if language else ""
    return (f'<li id="{anchor}"><a href="#{anchor}">{where}</a> <bdi{lang}>{escape_html(it.before)}<mark>{it.bytes or "no byte"}</mark>'
            f"{escape_html(it.after)}</bdi></li>\n")

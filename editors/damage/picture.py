"""Draws docs/damage.svg: for each file a bar for each editor, as long as the bytes that it lost."""
from html import escape

SERIES = (("Vim, Neovim", "vim"), ("Emacs", "emacs"), ("Neovim with gate", "gate"))
LEFT, BAR, GAP, ROW, TOP, WIDTH = 185, 10, 2, 44, 52, 700

# The colours differ on white and on black, and also for those who see no red or no green.
STYLE = """text { font: 12px sans-serif; fill: #1f2328 } .small { font-size: 10px }
.vim { fill: #d55e00; stroke: #d55e00 } .emacs { fill: #0a7abf; stroke: #0a7abf }
.gate { fill: #009e73; stroke: #009e73 }
.forced { fill-opacity: 0.25 } .line { stroke: #8c959f; stroke-opacity: 0.4 }
@media (prefers-color-scheme: dark) { text { fill: #e6edf3 } }"""


def _text(x, y, words, more=""):
    return f'<text x="{x:.0f}" y="{y}"{more}>{escape(words)}</text>'


def _bar(x, y, length, name, forced):
    name += " forced" if forced else ""
    return f'<rect class="{name}" x="{x}" y="{y}" width="{max(length, 1):.0f}" height="{BAR - 1}"/>'


def _legend():
    x = 8
    for words, name in SERIES:
        yield _bar(x, 26, BAR, name, False)
        yield _text(x + 15, 35, words)
        x += 40 + 7 * len(words)
    yield _bar(x, 26, BAR, "vim", True)
    yield _text(x + 15, 35, "by force: the editor refused, or asked")


def _row(y, name, count, results, scale):
    yield _text(LEFT - 10, y + 15, name, ' text-anchor="end"')
    yield _text(LEFT - 10, y + 28, f"{count} bytes", ' text-anchor="end" class="small"')
    for i, ((_, colour), result) in enumerate(zip(SERIES, results)):
        at = y + 4 + i * (BAR + GAP)
        lost, forced = result or (0, False)
        if result:
            yield _bar(LEFT, at, lost * scale, colour, forced)
        words = f"{lost}, by force" if forced else str(lost)
        if not result:
            words = "can't be edited: not all of the text is read"
        yield _text(LEFT + max(lost * scale, 1) + 6, at + BAR - 1, words, ' class="small"')


def draw_chart(rows):
    """Each row is a file's name, its bytes and, for each of SERIES, the bytes lost and whether by force, or None."""
    most = max(result[0] for _, _, results in rows for result in results if result)
    scale = (WIDTH - LEFT - 70) / most
    height = TOP + ROW * len(rows) + 6
    size = f'viewBox="0 0 {WIDTH} {height}" width="{WIDTH}" height="{height}"'
    parts = [f'<svg xmlns="http://www.w3.org/2000/svg" {size}>',
             "<title>Bytes lost that nobody touched, by editor and file</title>", f"<style>{STYLE}</style>",
             _text(8, 16, "Two characters edited, and saved: bytes lost that nobody touched"), *_legend()]
    for i, (name, count, results) in enumerate(rows):
        y = TOP + i * ROW
        parts.append(f'<line class="line" x1="8" x2="{WIDTH - 8}" y1="{y - 1}" y2="{y - 1}"/>')
        parts += _row(y, name, count, results, scale)
    return "\n".join([*parts, "</svg>", ""])

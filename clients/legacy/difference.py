"""The difference of two texts: the edits, by code points, that make the one of the other.

    for it in edits(old, new):
        print(old[it.start : it.end], "becomes", new[it.new_start : it.new_end])

A text is kept as legacy bytes so that what no edit names keeps its bytes. So the difference is found in steps, from whole
lines to letters. First comes what is common at both ends, then lines that both have once (patience). A shortest script follows
if that is affordable. Lines that differ are compared so by letters. Long ones are compared first by pieces that end where their own
letters say, so that an insertion moves no other end. Beyond what is usual,

- U+FFFD stands for bytes that don't decode, and nobody types it: if it is on both sides, it is the same one;
- a letter that isn't ASCII is worth more than an ASCII one, which mostly has only one form;
- what is known to have only the bytes that an encoder gives is replaced as it comes, since that loses nothing;
- nothing is quadratic: each comparison has a bound, and what lies beyond it is replaced as a whole."""
import bisect
import functools
import itertools
import re
from array import array
from typing import Iterable, Iterator, List, Optional, Sequence, Tuple

from legacy.lines import Lines
from legacy.sequences import Edit, between, common, common_end, differences, script, shortest, trim, weigh

# The character that stands for bytes that don't decode.
BAD = "\ufffd"
# The most work at shortest scripts of letters: a unit for each letter, and for `PAIRS_A_UNIT` pairs of letters.
WORK, PAIRS_A_UNIT = 2_000_000, 2048
# Edits with fewer ASCII characters than this between them can be joined.
NEAR = 16
# About how many lines say whether all are edited in their places.
SAMPLE = 64
# The most pairs of places that are looked at for those with the same letters beside them.
PLACES = 10_000

# Where something begins and ends, in code points.
Range = Tuple[int, int]


def edits(old: str, new: str, one_form: bool = True) -> List[Edit]:
    """The edits, in order, none of which touches the next."""
    return Difference(old, new).edits(one_form)


class Difference:
    """Two texts that are compared: at once by lines, and by letters on request."""

    def __init__(self, old: str, new: str):
        self.old, self.new = old, new
        # How many code points, in whole lines, both begin and end with, and the lines between.
        self.head, self.tail = common_lines(old, new)
        self.lines = Lines(old, self.head, len(old) - self.tail)
        self.new_lines = Lines(new, self.head, len(new) - self.tail)
        # The runs of these lines that differ.
        self.hunks = list(differences(self.lines.hashes, self.new_lines.hashes, in_place=True))

    def edits(self, one_form: bool = True, same: str = BAD, precious: Optional[Sequence[Range]] = None) -> List[Edit]:
        """The edits by letters. `one_form`: ASCII characters have only one form in bytes, so edits with few of them in
        between may become one. `same`: the characters that nobody types. `precious`: the only ranges of the old text, in
        order, that have bytes to lose, if that is known."""
        fine = _Letters(self, one_form, same, None if precious is None else _Ranges(precious))
        return join_edits(self.old, self._real(fine.edits()), one_form, fine.precious)

    def by_lines(self) -> List[Edit]:
        """The edits by whole lines."""
        return join_edits(self.old, self._real(map(self.range_of, self.hunks)), False)

    def range_of(self, hunk: Edit) -> Edit:
        """The code points of a hunk, its LFs included: that of a last line is after the text."""
        at, new_at = self.lines.starts, self.new_lines.starts
        return Edit(at[hunk.start], at[hunk.end], new_at[hunk.new_start], new_at[hunk.new_end])

    def _real(self, found: Iterable[Edit]) -> Iterator[Edit]:
        """The edits without an LF after the text."""
        for it in found:
            if it.end > len(self.old) or it.new_end > len(self.new):
                # Lines that were added or removed at the end take the LF before them; others end with one on both
                # sides.
                by = 1 if it.start == it.end or it.new_start == it.new_end else 0
                it = Edit(it.start - by, it.end - 1, it.new_start - by, it.new_end - 1)
            if it.start < it.end or it.new_start < it.new_end:
                yield it


def common_lines(old: str, new: str) -> Tuple[int, int]:
    """How many code points two texts have in common at their start and at their end, in whole lines."""
    head = common(old, new, 0, 0, min(len(old), len(new)))
    head = old.rfind("\n", 0, head) + 1
    tail = common_end(old, new, len(old), len(new), min(len(old), len(new)) - head)
    # (the line after the first LF of what is common begins again in both)
    start = old.find("\n", len(old) - tail) + 1 if tail else 0
    return head, len(old) - start if start else 0


def _starts(pieces: Sequence[str], first: int) -> "array[int]":
    """Where each begins, and where the next would."""
    return array("q", itertools.accumulate(map(len, pieces), initial=first))


def join_edits(old: str, found: Iterable[Edit], near: bool, precious: "Optional[_Ranges]" = None) -> List[Edit]:
    """Edits that touch become one, and so do those between which nothing is precious, or, where `near`, only a few ASCII
    characters are."""
    result: List[Edit] = []
    for it in found:
        if result:
            last = result[-1]
            gap = it.start - last.end
            if (not gap or near and gap < NEAR and old[last.end : it.start].isascii()
                    or precious is not None and precious.misses(last.end, it.start)):
                result[-1] = Edit(last.start, it.end, last.new_start, it.new_end)
                continue
        result.append(it)
    return result


class _Ranges:
    """Ranges in order, none of which touches the next."""

    def __init__(self, ranges: Sequence[Range]):
        self.starts, self.ends = [it[0] for it in ranges], [it[1] for it in ranges]

    def misses(self, start: int, end: int) -> bool:
        """Whether nothing of them lies in this range."""
        at = bisect.bisect_right(self.ends, start)
        return at == len(self.ends) or self.starts[at] >= end

    def items(self, starts: Sequence[int], first: int, last: int) -> Iterator[int]:
        """The numbers of those items, of which it is said where they begin, that have a part of them."""
        at = bisect.bisect_right(self.ends, starts[first])
        while first < last and at < len(self.starts):
            first = max(first, bisect.bisect_right(starts, self.starts[at]) - 1)
            behind = min(last, bisect.bisect_left(starts, self.ends[at]))
            yield from range(first, behind)
            first, at = max(first, behind), at + 1


# A run of letters that aren't ASCII.
_LETTERS = re.compile("[^\0-\x7f]+")


@functools.lru_cache(maxsize=None)
def _piece() -> "re.Pattern[str]":
    """A piece ends with a code point that is a multiple of 16, so that its end depends on nothing before it."""
    # (those of the first plane alone are a set that is looked up at once)
    cut = "".join(f"\\u{it:04x}" for it in range(0, 0x10000, 16) if not 0xD800 <= it < 0xE000)
    return re.compile(f"[^{cut}]{{0,62}}(?:[{cut}]|.)", re.DOTALL)


class _Letters:
    """Two texts that are compared within the lines that differ."""

    def __init__(self, of: Difference, one_form: bool, same: str, precious: Optional[_Ranges]):
        self.of, self.old, self.new, self.one_form, self.precious = of, of.old, of.new, one_form, precious
        self.same = re.compile(f"[{re.escape(same)}]")
        self.left = WORK

    def edits(self) -> Iterator[Edit]:
        for hunk in self.of.hunks:
            it = self.of.range_of(hunk)
            if self.precious is not None and self.precious.misses(it.start, it.end):
                yield it
            elif hunk.end - hunk.start < 2 or hunk.new_end - hunk.new_start < 2 or it.is_small():
                yield from self._within(it)
            else:
                yield from self._alike(hunk)

    def _is_plain(self, it: Edit) -> bool:
        """Whether nothing that could be kept has bytes to lose."""
        if self.precious is not None and self.precious.misses(it.start, it.end):
            return True
        return self.one_form and (self.old[it.start : it.end].isascii() or self.new[it.new_start : it.new_end].isascii())

    def _alike(self, hunk: Edit) -> Iterator[Edit]:
        """By lines whose letters are the same except ASCII ones and, if there are equally many, line by line."""
        if self._is_in_place(hunk):
            yield from self._by_line(hunk)
            return
        lines, new_lines = self.of.lines, self.of.new_lines
        letters, new_letters = lines.letters(hunk.start, hunk.end), new_lines.letters(hunk.new_start, hunk.new_end)
        unlike = differences(letters, new_letters, in_place=True)
        line, new_line = hunk.start, hunk.new_start
        end = Edit(hunk.end, hunk.end, hunk.new_end, hunk.new_end)
        for gap in itertools.chain((it.shift(hunk.start, hunk.new_start) for it in unlike), [end]):
            even = gap.end - gap.start == gap.new_end - gap.new_start
            count = (gap.end if even else gap.start) - line
            yield from self._by_line(Edit(line, line + count, new_line, new_line + count))
            if not even:
                yield from self._within(self.of.range_of(gap))
            line, new_line = gap.end, gap.new_end

    def _is_in_place(self, hunk: Edit) -> bool:
        """Whether lines are edited each in its place, for example by a word that is replaced in all of them. If there are as
        many on both sides, most begin and end as those in their places do. (Their letters may be equal elsewhere by
        accident.)"""
        count = hunk.end - hunk.start
        if count != hunk.new_end - hunk.new_start:
            return False
        looked = range(0, count, max(1, count // SAMPLE))
        return 2 * sum(self._begin_and_end_alike(hunk.start + at, hunk.new_start + at) for at in looked) > len(looked)

    def _begin_and_end_alike(self, line: int, new_line: int) -> bool:
        """Whether two lines have half of their code points in common at their start and at their end."""
        it = self.of.range_of(Edit(line, line + 1, new_line, new_line + 1))
        rest = trim(self.old, self.new, Edit(it.start, it.end - 1, it.new_start, it.new_end - 1))
        most = max(it.end - it.start, it.new_end - it.new_start) - 1
        return 2 * max(rest.end - rest.start, rest.new_end - rest.new_start) <= most

    def _by_line(self, it: Edit) -> Iterator[Edit]:
        """As many lines on both sides, each compared with its like; those with nothing to lose in between as a whole."""
        hashes, new_hashes = self.of.lines.hashes, self.of.new_lines.hashes
        line = it.start
        for one in itertools.chain(self._precious_lines(it.start, it.end), [it.end]):
            new_line, new_one = (it.new_start - it.start + at for at in (line, one))
            if hashes[line:one] != new_hashes[new_line:new_one]:
                yield self.of.range_of(Edit(line, one, new_line, new_one))
            if one < it.end and hashes[one] != new_hashes[new_one]:
                yield from self._within(self.of.range_of(Edit(one, one + 1, new_one, new_one + 1)))
            line = one + 1

    def _precious_lines(self, first: int, last: int) -> Iterable[int]:
        """The lines that have bytes to lose."""
        if self.precious is None:
            return range(first, last)
        return self.precious.items(self.of.lines.starts, first, last)

    def _within(self, lines: Edit) -> Iterator[Edit]:
        """By letters, in long texts by pieces first."""
        if lines.start == lines.end or lines.new_start == lines.new_end:
            yield lines
            return
        # (both end with an LF)
        it = trim(self.old, self.new, Edit(lines.start, lines.end - 1, lines.new_start, lines.new_end - 1))
        if it.is_small() or self._is_plain(it):
            yield from self._by_same_ones(it)
            return
        found = list(self._by_pieces(it))
        if self._types_same_ones(found) and self._has_same_ones(it):
            found = list(self._by_same_ones(it))
        yield from found

    def _by_pieces(self, it: Edit) -> Iterator[Edit]:
        a, b = (_piece().findall(text, start, end)
                for text, start, end in ((self.old, it.start, it.end), (self.new, it.new_start, it.new_end)))
        at, new_at = _starts(a, it.start), _starts(b, it.new_start)

        def letters(gap: Edit) -> Edit:
            return Edit(at[gap.start], at[gap.end], new_at[gap.new_start], new_at[gap.new_end])

        for gap in differences(a, b, least=4, is_fine=lambda gap: letters(gap).is_small()):
            yield from self._by_same_ones(letters(gap))

    def _types_same_ones(self, found: Iterable[Edit]) -> bool:
        """Whether edits put in what nobody types."""
        return any(self.same.search(self.new, it.new_start, it.new_end) for it in found)

    def _has_same_ones(self, it: Edit) -> bool:
        """Whether both sides have the same characters that nobody types."""
        return self.same.findall(self.old, it.start, it.end) == self.same.findall(self.new, it.new_start, it.new_end)

    def _by_same_ones(self, it: Edit) -> Iterator[Edit]:
        """What lies between characters that nobody types and that are the same on both sides."""
        ascii_alone = self._in_ascii_alone(it) if self.one_form else None
        if ascii_alone is not None:
            yield from ascii_alone
            return
        for gap in between(it, self._same_ones(it)):
            yield from self._by_letters(trim(self.old, self.new, gap))

    def _in_ascii_alone(self, it: Edit) -> Optional[List[Edit]]:
        """What differs where all other letters are the same, in the same runs."""
        runs = [*_LETTERS.finditer(self.old, it.start, it.end)]
        new_runs = [*_LETTERS.finditer(self.new, it.new_start, it.new_end)]
        if [run[0] for run in runs] != [run[0] for run in new_runs]:
            return None
        ends = [(it.start, it.new_start), *((run.end(), new.end()) for run, new in zip(runs, new_runs))]
        begins = [*((run.start(), new.start()) for run, new in zip(runs, new_runs)), (it.end, it.new_end)]
        return [Edit(i, j, k, l) for (i, k), (j, l) in zip(ends, begins) if self.old[i:j] != self.new[k:l]]

    def _by_letters(self, it: Edit) -> List[Edit]:
        i, j, k, l = it
        if i == j or k == l:
            return [it] if i < j or k < l else []
        if j - i == l - k == 1 or self._is_plain(it):
            return [it]
        a, b = self.old[i:j], self.new[k:l]
        self.left -= len(a) + len(b) + len(a) * len(b) // PAIRS_A_UNIT
        if self.left < 0:
            return [it]
        if Edit(0, 2 * len(a), 0, 2 * len(b)).is_small():
            return [gap.shift(i, k) for gap in weigh(a, b)]
        return script(self.old, self.new, it)

    def _same_ones(self, it: Edit) -> List[Tuple[int, int]]:
        """Places of characters that nobody types: in their order if both sides have the same, otherwise those that have
        the same letters next to them."""
        a = [found.start() for found in self.same.finditer(self.old, it.start, it.end)]
        b = [found.start() for found in self.same.finditer(self.new, it.new_start, it.new_end)] if a else []
        if not b:
            return []
        letters, new_letters = [self.old[at] for at in a], [self.new[at] for at in b]
        if letters == new_letters:
            return list(zip(a, b))
        if len(a) * len(b) > PLACES:
            return []
        if len({*letters, *new_letters}) == 1:
            return self._best_pairs(a, b)
        ends = [*shortest(letters, new_letters), Edit(len(a), len(a), len(b), len(b))]
        begins = [Edit(0, 0, 0, 0), *ends]
        return [pair for one, other in zip(begins, ends)
                for pair in zip(a[one.end : other.start], b[one.new_end : other.new_start])]

    def _best_pairs(self, a: List[int], b: List[int]) -> List[Tuple[int, int]]:
        """As many pairs as can be, in order, and of these the ones with most equal letters beside them."""
        few, many, swapped = (a, b, False) if len(a) < len(b) else (b, a, True)
        spare = len(many) - len(few)
        best = [0] * (spare + 1)
        choices: List[List[int]] = []
        for n, one in enumerate(few):
            choice: List[int] = []
            top, place = -1, 0
            for skipped in range(spare + 1):
                other = many[n + skipped]
                if best[skipped] > top:
                    top, place = best[skipped], skipped
                best[skipped] = top + (self._beside(other, one) if swapped else self._beside(one, other))
                choice.append(place)
            choices.append(choice)
        skipped = max(range(spare + 1), key=best.__getitem__)
        pairs: List[Tuple[int, int]] = []
        for n in range(len(few) - 1, -1, -1):
            pairs.append((few[n], many[n + skipped]))
            skipped = choices[n][skipped]
        return [(y, x) if swapped else (x, y) for x, y in reversed(pairs)]

    def _beside(self, at: int, new_at: int) -> int:
        """How many letters are equal on both sides of two places, of eight each."""
        before = common_end(self.old, self.new, at, new_at, min(8, at, new_at))
        most = min(8, len(self.old) - at - 1, len(self.new) - new_at - 1)
        return before + common(self.old, self.new, at + 1, new_at + 1, most)

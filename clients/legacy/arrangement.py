"""The known lines of which a new text is made: those that stay, and those that were moved, copied or restored, which are
known byte for byte. Others are like a line that is gone."""
import bisect
import collections
import itertools
from array import array
from typing import Container, Deque, Dict, Iterable, Iterator, List, NamedTuple, Optional, Sequence, Set, Tuple

from legacy.difference import BAD
from legacy.lines import Lines
from legacy.sequences import Edit

# How much alike two lines must be, of 1, that one is treated as the other edited: in its place, and elsewhere among
# those that are gone. The latter is little, since a line that has nothing of the other loses nothing by it.
ALIKE, ALIKE_ELSEWHERE = 0.5, 0.25
# The most lines that a pair of letters leads to: one that more lines have says little.
LEADS = 8
# The most code points of lines that are compared with each other.
LETTERS = 500_000

# The most lines that are looked for with a CR at their end or without.
FORMS = 10_000


class Content(NamedTuple):
    """The lines of a text, and which of them can be nowhere else."""

    lines: Lines
    fixed: Container[int]


class Run(NamedTuple):
    """Lines of a content, starting with `first` and ending before `last`."""

    content: int
    first: int
    last: int


def arrange(contents: Sequence[Content], new: Lines, hunks: Sequence[Edit], literal: bool, anywhere: bool = False,
             same: str = BAD) -> Optional[List[Run]]:
    """The lines that together are, or with further edits become, the new text; None if the unchanged lines of the old
    text are best. `contents`: the old one, then others, the newest last. `hunks`: the runs of lines that differ.
    `literal`: lines of the new text that are ASCII are taken from it, as content number `len(contents)`. `anywhere`: an
    edited line may be like any line, and not only like one that is gone. `same`: the characters that nobody types."""
    made = _Arrangement(contents, new, hunks, literal, anywhere, same)
    return made.runs() if made.is_needed() else None


class _Arrangement:
    def __init__(self, contents: Sequence[Content], new: Lines, hunks: Sequence[Edit], literal: bool, anywhere: bool, same: str):
        self.contents, self.old, self.new, self.hunks, self.literal = contents, contents[0].lines, new, hunks, literal
        self.same = set(same)
        self.sources: Dict[int, Run] = {}  # of lines of the new text
        self.starts, self.new_starts = [it.start for it in hunks], [it.new_start for it in hunks]
        self.used: Set[int] = set()  # of the lines that are gone
        self.typed = array("q", (n for it in hunks for n in range(it.new_start, it.new_end) if not new[n].isascii()))
        self._find_moved()
        self._find_known()
        self._find_alike(anywhere)

    def _gone_lines(self) -> Iterator[int]:
        """The old lines that differ and weren't moved."""
        return (line for it in self.hunks for line in self._left_lines(it))

    def _left_lines(self, hunk: Edit) -> Iterable[int]:
        return (line for line in range(hunk.start, hunk.end) if line not in self.used and line not in self.contents[0].fixed)

    def _take_sources(self, sources: Dict[int, Run]) -> None:
        self.sources.update(sources)
        if sources:
            self.typed = array("q", (n for n in self.typed if n not in sources))

    def _hunk_of(self, n: int) -> Edit:
        """The hunk that a line of the new text is in."""
        return self.hunks[bisect.bisect_right(self.new_starts, n) - 1]

    def _find_moved(self) -> None:
        """Lines that are gone elsewhere, each of which comes once."""
        wanted = {self.new.hashes[n] for n in self.typed}
        gone: Dict[int, Deque[int]] = {}
        for line in self._gone_lines():
            if self.old.hashes[line] in wanted:
                gone.setdefault(self.old.hashes[line], collections.deque()).append(line)
        found = {n: gone[self.new.hashes[n]].popleft() for n in self.typed if gone.get(self.new.hashes[n])}
        self.used.update(found.values())
        self._take_sources({n: Run(0, line, line + 1) for n, line in found.items()})

    def _find_known(self) -> None:
        """Lines that are copied or restored, with a CR at their end or without. A line that differs from the one in its place
        only in ASCII characters isn't among them."""
        known = self._known_lines(self.typed)
        here: Dict[Edit, Set[int]] = {}
        found: Dict[int, Run] = {}
        for n, place in known.items():
            hunk = self._hunk_of(n)
            if hunk not in here:
                letters = self.old.letters(hunk.start, hunk.end)
                here[hunk] = {letters[line - hunk.start] for line in self._left_lines(hunk)}
            if self.new.letters(n, n + 1)[0] not in here[hunk]:
                found[n] = place
        self._take_sources(found)

    def _known_lines(self, typed: Sequence[int]) -> Dict[int, Run]:
        """The place where lines are known: in the old text, otherwise in the newest content."""
        forms = {n: _forms(self.new[n]) for n in typed} if len(typed) <= FORMS else {n: (self.new.hashes[n],) for n in typed}
        wanted = {it for form in forms.values() for it in form}
        places: Dict[int, Run] = {}
        for number in [*range(1, len(self.contents)), 0] if wanted else []:
            lines, fixed = self.contents[number]
            places.update((it, Run(number, line, line + 1)) for line, it in enumerate(lines.hashes)
                          if it in wanted and line not in fixed)
        return {n: next(places[it] for it in form if it in places) for n, form in forms.items() if not places.keys().isdisjoint(form)}

    def _find_alike(self, anywhere: bool) -> None:
        """For each edited line one that is like it, where what was in its place is not."""
        places: Iterator[Run] = (Run(0, line, line + 1) for line in self._gone_lines())
        if anywhere:
            gone = {line for it in self.hunks for line in range(it.start, it.end)}
            places = itertools.chain(places, (
                Run(number, line, line + 1) for number in range(len(self.contents) - 1, -1, -1)
                for line in range(len(self.contents[number].lines))
                if line not in self.contents[number].fixed and (number or line not in gone)))
        left = LETTERS - sum(len(self.new[n]) for n in self.typed[:LETTERS])
        found: List[Run] = []
        for it in places if self.typed else ():
            text = self._text(it)
            if not text.isascii():
                found.append(it)
                left -= len(text)
            if left < 0:
                return
        self._choose(found)

    def _choose(self, places: List[Run]) -> None:
        hunks = set(map(self._hunk_of, self.typed))
        here = {hunk: set().union(*(self._pairs(self.old[line]) for line in self._left_lines(hunk))) for hunk in hunks}
        typed = [n for n in self.typed if not self._is_covered(self._pairs(self.new[n]), here[self._hunk_of(n)])]
        leads = _leads(map(self._pairs, map(self._text, places)), {pair for n in typed for pair in self._pairs(self.new[n])})
        found = {n: self._most_alike(self.new[n], leads, places) for n in typed}
        self._take_sources({n: it for n, it in found.items() if it})

    def _most_alike(self, text: str, leads: Dict[str, List[int]], places: List[Run]) -> Optional[Run]:
        pairs = self._pairs(text)
        votes = collections.Counter(itertools.chain.from_iterable(leads.get(it, ()) for it in pairs))
        if not votes:
            return None
        best = max(votes, key=lambda it: (votes[it], -it))
        found = self._with_neighbours(text, pairs, places[best])
        of = set().union(*(self._pairs(self.contents[found.content].lines[line]) for line in range(found.first, found.last)))
        # What nobody types has to come from somewhere.
        needed = self.same & pairs
        return found if 2 * len(pairs & of) >= ALIKE_ELSEWHERE * (len(pairs) + len(of)) or needed and needed <= of else None

    def _with_neighbours(self, text: str, pairs: Set[str], it: Run) -> Run:
        """A line that is gone, with lines beside it that were joined with it."""
        hunk = self.hunks[bisect.bisect_right(self.starts, it.first) - 1] if not it.content else None
        if not hunk or it.first >= hunk.end:
            return it
        first, last = it.first, it.last
        room = 2 * len(text) - len(self.old[first])
        for step, at in (1, last), (-1, first - 1):
            while hunk.start <= at < hunk.end and at not in self.used and at not in self.contents[0].fixed:
                room -= len(self.old[at])
                if room < 0 or not self._is_covered(self._pairs(self.old[at]), pairs):
                    break
                first, last, at = min(first, at), max(last, at + 1), at + step
        return Run(0, first, last)

    def _text(self, place: Run) -> str:
        return self.contents[place.content].lines[place.first]

    def _pairs(self, text: str) -> Set[str]:
        """The pairs of letters that follow each other, except a CR at the end, and the letters that nobody types."""
        text = text[:-1] if text.endswith("\r") else text
        return {*map("".join, zip(text, text[1:] + "\n")), *self.same.intersection(text)}

    def _is_covered(self, pairs: Set[str], by: Set[str]) -> bool:
        """Whether most of them are present, and all letters that nobody types."""
        both = pairs & by
        return len(both) >= ALIKE * len(pairs) and both >= self.same & pairs

    def _stays(self, it: Edit) -> bool:
        """Whether the old lines of this hunk, where they are, become the new ones: no line comes from elsewhere."""
        found = [self.sources[n] for n in range(it.new_start, it.new_end) if n in self.sources]
        inside = all(not run.content and it.start <= run.first < it.end for run in found)
        return inside and all(one.last <= other.first for one, other in zip(found, found[1:]))

    def is_needed(self) -> bool:
        """Whether any line comes from elsewhere."""
        return not all(map(self._stays, self.hunks))

    def runs(self) -> List[Run]:
        """All lines, in order."""
        found: List[Run] = []
        at = 0
        for it in self.hunks:
            found.append(Run(0, at, it.start))
            if it.new_start < it.new_end:
                found += [Run(0, it.start, it.end)] if self._stays(it) else self._hunk(it)
            at = it.end
        found.append(Run(0, at, len(self.old)))
        return _join(found)

    def _hunk(self, it: Edit) -> Iterator[Run]:
        """The lines of a hunk into which some come from elsewhere."""
        left = list(self._left_lines(it))
        typed = _rows([n for n in range(it.new_start, it.new_end) if self._source(n) is None])
        fit = sum(map(len, typed)) == len(left)
        takes = max(typed, key=len, default=None)
        rows = {row.start: row for row in typed}
        n = it.new_start
        while n < it.new_end:
            place = self._source(n)
            if place is not None:
                yield place
                n += 1
                continue
            row = rows[n]
            # Lines that nothing is known of are edited from those that are left, in their order where they are as many.
            count = len(row) if fit else len(left) if row == takes else 0
            for line in left[:count]:
                yield Run(0, line, line + 1)
            left, n = left[count:], row.stop

    def _source(self, n: int) -> Optional[Run]:
        if self.literal and self.new[n].isascii():
            return Run(len(self.contents), n, n + 1)
        return self.sources.get(n)


def _forms(line: str) -> Tuple[int, ...]:
    """The hashes of the line, and of the same line with a CR at its end or without."""
    return hash(line), hash(line[:-1] if line.endswith("\r") else line + "\r")


def _leads(having: Iterable[Set[str]], wanted: Set[str]) -> Dict[str, List[int]]:
    """The numbers of those that have each pair of letters, in order."""
    leads: Dict[str, List[int]] = {}
    for n, pairs in enumerate(having):
        for pair in pairs & wanted:
            found = leads.setdefault(pair, [])
            if len(found) < LEADS:
                found.append(n)
    return leads


def _rows(numbers: Sequence[int]) -> List[range]:
    """Runs of numbers that follow each other."""
    rows: List[range] = []
    for n in numbers:
        if rows and rows[-1].stop == n:
            rows[-1] = range(rows[-1].start, n + 1)
        else:
            rows.append(range(n, n + 1))
    return rows


def _join(runs: Sequence[Run]) -> List[Run]:
    found: List[Run] = []
    for it in runs:
        if found and found[-1].content == it.content and found[-1].last == it.first:
            found[-1] = Run(it.content, found[-1].first, it.last)
        elif it.first < it.last:
            found.append(it)
    return found

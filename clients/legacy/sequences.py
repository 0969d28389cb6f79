"""What differs between two sequences, as lists of lines or texts: by what both have once and, if there is nothing, by a
shortest script. Each look has a bound, and what lies beyond it differs as a whole, so that nothing is quadratic."""
import bisect
import itertools
from typing import Any, Callable, Dict, Hashable, Iterator, List, NamedTuple, Optional, Sequence, Set, Tuple

# A text, or a list of lines or of other texts.
Items = Sequence[Any]

# The most pairs of items that a shortest script is made of: bits of its table.
PAIRS = 1 << 24
# The most insertions and deletions that are looked for if there are more pairs.
STEPS = 48
# The most items that are compared with those that are in their place.
NEAR = 32
# From how many items on only some are looked at first.
MANY = 4096
# How often what lies between items that both sides have once is looked at in the same way.
DEPTH = 24


class Edit(NamedTuple):
    """What is from `start` to `end` becomes what is from `new_start` to `new_end` of the other."""

    start: int
    end: int
    new_start: int
    new_end: int

    def shift(self, by: int, new_by: int) -> "Edit":
        """The same edit where both begin that much later."""
        return Edit(self.start + by, self.end + by, self.new_start + new_by, self.new_end + new_by)

    def is_small(self) -> bool:
        """Whether a shortest script can be made of it."""
        return (self.end - self.start) * (self.new_end - self.new_start) <= PAIRS


def common(a: Items, b: Items, i: int, k: int, most: int) -> int:
    """How many items are equal from two places on. Slices are compared, twice as long each time."""
    if not most or a[i] != b[k]:
        return 0
    count, step = 1, 1
    while count + step <= most and a[i + count : i + count + step] == b[k + count : k + count + step]:
        count, step = count + step, min(2 * step, 1 << 16)
    while step:
        if count + step <= most and a[i + count : i + count + step] == b[k + count : k + count + step]:
            count += step
        step //= 2
    return count


def common_end(a: Items, b: Items, j: int, l: int, most: int) -> int:
    """The number of equal items before two places."""
    if not most or a[j - 1] != b[l - 1]:
        return 0
    count, step = 1, 1
    while count + step <= most and a[j - count - step : j - count] == b[l - count - step : l - count]:
        count, step = count + step, min(2 * step, 1 << 16)
    while step:
        if count + step <= most and a[j - count - step : j - count] == b[l - count - step : l - count]:
            count += step
        step //= 2
    return count


def trim(a: Items, b: Items, it: Edit) -> Edit:
    i, j, k, l = it
    same = common(a, b, i, k, min(j - i, l - k))
    i, k = i + same, k + same
    same = common_end(a, b, j, l, min(j - i, l - k))
    return Edit(i, j - same, k, l - same)


def differences(a: Items, b: Items, in_place: bool = False, least: int = 0,
                is_fine: Callable[[Edit], bool] = lambda _: False) -> Iterator[Edit]:
    """What differs between two sequences, by items that both have once and, if there are none, by a shortest script; if
    that is too much, as a whole. `in_place`: few items are compared in their places first. `least`: how long an item must
    be that both have once. `is_fine` says of what such items leave that it needs no script."""
    todo = [(Edit(0, len(a), 0, len(b)), DEPTH)]
    while todo:
        part, depth = todo.pop()
        it = trim(a, b, part)
        if it.start == it.end or it.new_start == it.new_end or it.end - it.start == it.new_end - it.new_start == 1:
            if it.start < it.end or it.new_start < it.new_end:
                yield it
            continue
        found = _in_place(a, b, it) if in_place else []
        if found:
            yield from found
            continue
        both = set(a[it.start : it.end]).intersection(b[it.new_start : it.new_end])
        if not both:
            yield it
            continue
        anchors = _anchors(a, b, it, both, least) if depth else []
        if anchors:
            todo += [(gap, depth - 1) for gap in reversed(between(it, anchors))]
        elif is_fine(it):
            yield it
        else:
            yield from script(a, b, it)


def _in_place(a: Items, b: Items, it: Edit) -> List[Edit]:
    """The items that differ in their places, among a few, if a third of them are equal there."""
    i, j, k, l = it
    if j - i != l - k or j - i > NEAR:
        return []
    differ = [at for at, (one, other) in enumerate(zip(a[i:j], b[k:l])) if one != other]
    return [Edit(i + at, i + at + 1, k + at, k + at + 1) for at in differ] if 3 * len(differ) <= 2 * (j - i) else []


def between(it: Edit, pairs: List[Tuple[int, int]]) -> List[Edit]:
    """What lies between pairs of items that are the same."""
    ends = itertools.chain([(it.start - 1, it.new_start - 1)], pairs)
    starts = itertools.chain(pairs, [(it.end, it.new_end)])
    return [Edit(i + 1, j, k + 1, l) for (i, k), (j, l) in zip(ends, starts) if j - i > 1 or l - k > 1]


def _anchors(a: Items, b: Items, it: Edit, both: Set[Hashable], least: int) -> List[Tuple[int, int]]:
    """The items that are once on each side between these places, in the longest row that is in both orders. Among many items
    first only every 16th is looked at, chosen by its hash: what lies between those comes next."""
    some = min(it.end - it.start, it.new_end - it.new_start) > MANY
    for chosen in (True, False) if some else (False,):
        once = _once(a, it.start, it.end, both, least, chosen)
        other = _once(b, it.new_start, it.new_end, both, least, chosen)
        pairs = [(at, other[item]) for item, at in once.items() if at >= 0 and other.get(item, -1) >= 0]
        if pairs:
            return _ascending(pairs)
    return []


def _once(items: Items, start: int, end: int, wanted: Set[Hashable], least: int, chosen: bool) -> Dict[Hashable, int]:
    """Where each item that is wanted is, and -1 for those that come again."""
    found: Dict[Hashable, int] = {}
    for at, item in enumerate(items[start:end], start):
        if item not in wanted or chosen and hash(item) & 15 or least and len(item) < least:
            continue
        found[item] = -1 if item in found else at
    return found


def _ascending(pairs: List[Tuple[int, int]]) -> List[Tuple[int, int]]:
    """The longest row of pairs, sorted by their first numbers, whose second numbers ascend."""
    seconds = [it[1] for it in pairs]
    if all(map(int.__lt__, seconds, itertools.islice(seconds, 1, None))):
        return pairs
    lows: List[int] = []
    ends: List[int] = []
    before = [-1] * len(pairs)
    for n, at in enumerate(seconds):
        place = bisect.bisect_left(lows, at)
        lows[place : place + 1] = [at]
        ends[place : place + 1] = [n]
        before[n] = ends[place - 1] if place else -1
    row, n = [], ends[-1]
    while n >= 0:
        row.append(pairs[n])
        n = before[n]
    return row[::-1]


def script(a: Items, b: Items, it: Edit) -> List[Edit]:
    """A shortest script, or the whole if that is too much."""
    i, j, k, l = it
    if set(a[i:j]).isdisjoint(b[k:l]):
        return [it]
    if it.is_small():
        return [gap.shift(i, k) for gap in shortest(a[i:j], b[k:l])]
    found = _few(a, b, it)
    return [it] if found is None else found


def shortest(a: Items, b: Items) -> List[Edit]:
    """What is left out of a longest common subsequence, all columns of whose table are computed at once, as the bits of a
    number. (Hyyrö 2004: in row y a bit is 0 if the item of its column makes the subsequence longer.)"""
    columns: Dict[Hashable, int] = {}
    for x, item in enumerate(a):
        columns[item] = columns.get(item, 0) | 1 << x
    row, full, rows = (1 << len(a)) - 1, (1 << len(a)) - 1, []
    for item in b:
        hits = row & columns.get(item, 0)
        if hits:
            row = ((row + hits) | (row - hits)) & full
        rows.append(row)
    found: List[Edit] = []
    x, y = end, new_end = len(a), len(b)
    while x and y:
        if a[x - 1] == b[y - 1]:
            if x < end or y < new_end:
                found.append(Edit(x, end, y, new_end))
            x, y = x - 1, y - 1
            end, new_end = x, y
        elif rows[y - 1] >> (x - 1) & 1:
            x -= 1
        else:
            y -= 1
    if end or new_end:
        found.append(Edit(0, end, 0, new_end))
    return found[::-1]


def weigh(a: str, b: str) -> List[Edit]:
    """A shortest script in which a letter that isn't ASCII counts twice, since only it has bytes to lose: it is compared as
    two items. The one that is matched first says with which letter the whole one is."""
    owners: List[List[int]] = []
    items: List[List[str]] = []
    for text in a, b:
        owners.append([at for at, letter in enumerate(text) for _ in range(1 if letter < "\x80" else 2)])
        items.append([it for letter in text for it in ((letter,) if letter < "\x80" else (letter, letter * 2))])
    pairs = [(-1, -1)]
    x = y = 0
    for gap in [*shortest(items[0], items[1]), Edit(len(items[0]), 0, len(items[1]), 0)]:
        for at, new_at in zip(range(x, gap.start), range(y, gap.new_start)):
            pair = owners[0][at], owners[1][new_at]
            if pair[0] > pairs[-1][0] and pair[1] > pairs[-1][1]:
                pairs.append(pair)
        x, y = gap.end, gap.new_end
    return between(Edit(0, len(a), 0, len(b)), pairs[1:])


def _few(a: Items, b: Items, it: Edit) -> Optional[List[Edit]]:
    """The shortest script (Myers 1986), or None if it has more than `STEPS` insertions and deletions."""
    i, j, k, l = it
    n, m = j - i, l - k
    ends: Dict[int, int] = {1: 0}
    trace: List[Dict[int, int]] = []
    for steps in range(STEPS + 1):
        trace.append(ends.copy())
        for diagonal in range(-steps, steps + 1, 2):
            down = diagonal == -steps or diagonal != steps and ends[diagonal - 1] < ends[diagonal + 1]
            x = ends[diagonal + 1] if down else ends[diagonal - 1] + 1
            y = x - diagonal
            if x < n and y < m:
                x += common(a, b, i + x, k + y, min(n - x, m - y))
            ends[diagonal] = x
            if x >= n and x - diagonal >= m:
                return [gap.shift(i, k) for gap in _walk(trace, n, m)]
    return None


def _walk(trace: List[Dict[int, int]], x: int, y: int) -> List[Edit]:
    """The script that led to x and y."""
    found: List[Edit] = []
    for steps in range(len(trace) - 1, 0, -1):
        ends, diagonal = trace[steps], x - y
        down = diagonal == -steps or diagonal != steps and ends[diagonal - 1] < ends[diagonal + 1]
        before = ends[diagonal + 1] if down else ends[diagonal - 1]
        new_before = before - (diagonal + 1 if down else diagonal - 1)
        step = Edit(before, before + (not down), new_before, new_before + down)
        if found and (step.end, step.new_end) == (found[-1].start, found[-1].new_start):
            step = Edit(step.start, found[-1].end, step.new_start, found.pop().new_end)
        found.append(step)
        x, y = before, new_before
    return found[::-1]

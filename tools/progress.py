"""What tools/build says while it proves: how long each crate took, and last time, and how long the rest may take."""
import json
import os
import sys
import time
from typing import Callable, Dict, List

from crates import TOP
from schedule import Schedule, Turn, seconds

# Where the seconds of last time are kept.
KEPT = TOP / "crates" / "gate" / "out" / "seconds.json"

# Seconds that each crate takes by one processor of 2.5 GHz.
WORK = {
    "sum_tree": 185, "enc_names": 80, "index_loader": 195, "lane_ascii": 46, "lane_utf": 60, "decoder_core": 250, "multibyte_decoders": 78,
    "iso2022jp": 64, "encoders": 68, "codec": 160, "state_memo": 230, "piece_rope": 335, "position_map": 235, "desk": 205, "devices": 40,
    "line_protocol": 255, "connections": 85, "sessions": 90, "serving": 130, "gateway": 115, "records": 120, "index_files": 58,
    "command_line": 110, "gate": 200}
# How much longer a check takes together with another, and after one.
BESIDE, BEHIND = 1.6, 3.0


def say(text: str) -> None:
    print(f"gate: {text}", file=sys.stderr, flush=True)


def clock(time_taken: float) -> str:
    """Minutes and seconds."""
    return f"{round(time_taken) // 60}:{round(time_taken) % 60:02}"


def last_times() -> Dict[str, float]:
    """The seconds that each crate took when it was last proved here."""
    try:
        found = json.loads(KEPT.read_text(encoding="utf-8"))
        return {str(name): float(taken) for name, taken in found.items()}
    except (OSError, ValueError, AttributeError, TypeError):
        return {}


class Progress:
    """How far the proofs of these crates have come, which begin now: of those that are left, the others being proved."""

    def __init__(self, crates: List[str], left: List[str], schedule: Callable[[Dict[str, float]], Schedule]) -> None:
        self.schedule = schedule({it: WORK.get(it, 120.0) for it in left})
        self.count, self.left = len(crates), list(left)
        self.running: Dict[str, Turn] = {}
        self.began: Dict[str, float] = {}
        self.last = last_times()
        self.taken: Dict[str, float] = {}
        # How long the crates of the longest row that are proved by now were expected to take, and took. (A crate that is proved
        # at the same time waits for the first of the row, however long that is, so it says nothing of the pace.)
        self.thought, self.spent = 0.0, 0.0
        how = f"{len(left)} of {self.count} crates, as the others were proved before" if len(left) < self.count else f"{self.count} crates"
        if left:
            say(f"proving {how}; about {self.minutes()}")

    def estimate(self, turn: Turn) -> float:
        """The seconds that a crate is thought to take, at the pace of last time."""
        first_time = seconds(self.schedule.work[turn.crate], turn.jobs) * (BEHIND if turn.nice else BESIDE if turn.beside else 1.0)
        return max(1.0, self.last.get(turn.crate, first_time))

    def minutes(self) -> str:
        """How long the rest may take, if it continues by the schedule, at the pace of the crates that were proved by now."""
        pace, now = self.spent / self.thought if self.thought else 1.0, 0.0
        ends = {it: max(1.0, pace * self.estimate(it) + self.began[it.crate] - time.monotonic()) for it in self.running.values()}
        left = list(self.left)
        while True:
            turn = self.schedule.next(left, ends)
            if turn:
                left.remove(turn.crate)
                ends[turn] = now + pace * self.estimate(turn)
            elif ends:
                first = min(ends, key=lambda it: ends[it])
                now = ends.pop(first)
            else:
                return f"{max(1, round(now / 60))} min"

    def begin(self, turn: Turn) -> None:
        self.left.remove(turn.crate)
        self.running[turn.crate], self.began[turn.crate] = turn, time.monotonic()

    def again(self, crate: str) -> None:
        """Says that a crate's check was ended from outside, and is to be made once more."""
        self.left.append(crate)
        del self.running[crate]
        say(f"the check of {crate} was ended, most likely for want of memory; it is made once more, with nothing beside it")

    def end(self, crate: str) -> None:
        """Says that a crate is proved, and keeps how long it took."""
        turn, took = self.running.pop(crate), time.monotonic() - self.began[crate]
        if not turn.beside:
            self.thought += self.estimate(turn)
            self.spent += took
        last = f", {clock(self.last[crate])} last time" if crate in self.last else ""
        self.taken[crate] = round(took, 1)
        self.keep()
        open_still = len(self.left) + len(self.running)
        rest = f"about {self.minutes()} for the rest" if open_still else "all are"
        say(f"{crate} is proved, in {clock(took)}{last}; {self.count - open_still} of {self.count}, {rest}")

    def keep(self) -> None:
        KEPT.parent.mkdir(exist_ok=True)
        new = KEPT.with_suffix(".new")
        new.write_text(json.dumps({**self.last, **self.taken}), encoding="utf-8")
        os.replace(new, KEPT)

"""Work over trees: a job makes a row of each file, on one processor, many or many machines. The rows come in the order
of the trees, whoever made them.

    settings = Settings(finding.find(), encoding=[("*.txt", "shift_jis")], jobs=4)
    for row in run(Check(), ["letters"], settings):
        print(row.json())"""
import importlib
from typing import TYPE_CHECKING

if TYPE_CHECKING:
    from legacy.work.reading import LARGEST, Item, Program, Refusal, read, refusals, time_limit
    from legacy.work.rows import DONE, FOUND, PASSED, REFUSED, Before, Job, PartRow, Row
    from legacy.work.running import Settings, add_fewer_words, add_input_words, add_words, run, settings_from

__all__ = [
    "DONE", "FOUND", "LARGEST", "PASSED", "REFUSED", "Before", "Item", "Job", "PartRow", "Program", "Refusal", "Row", "Settings", "add_fewer_words",
    "add_input_words", "add_words", "read", "refusals", "run", "settings_from", "time_limit"]


def __getattr__(name: str) -> object:
    """What is named, from its module, which is imported with it: what looks at one file needs few of them."""
    if name in __all__:
        for module in map(importlib.import_module, ("legacy.work.reading", "legacy.work.rows", "legacy.work.running")):
            if name in vars(module):
                globals()[name] = found = vars(module)[name]
                return found
    raise AttributeError(name)

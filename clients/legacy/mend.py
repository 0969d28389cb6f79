"""`legacy mend`: repairs by rule, in three steps: a plan that a person reads, the plan applied, and taken back.

    plan("repairs.jsonl", ["letters"], Repairs(line_ends="lf"), Settings(found, default="shift_jis"))
    for row in apply("repairs.jsonl", found):
        print(row.path, row.reason)

A plan has a line of JSON for each edit (docs/ARCHIVES.md). Lines may be taken out, and the bytes that come in changed."""
import argparse
import sys
from typing import Any, Tuple

from legacy import finding, work
from legacy.finding import Missing
from legacy.plans import apply, plan, status, undo
from legacy.repairs import ENDS, Edit, Mended, Repairs
from legacy.terminals import quantity, quote_path, visible_text
from legacy.work import DONE, FOUND, PASSED, REFUSED

__all__ = ["Edit", "Mended", "Repairs", "add_to", "apply", "plan", "run", "status", "undo"]

ABOUT = ("Plan repairs by rule, apply a plan, or take it back. --plan looks for what the rules mend in these trees and writes each edit as a"
         " line of JSON, with old and new bytes; no file is changed. --apply makes the edits of a plan, each file by a temporary file that is"
         " renamed, and refuses a file that has changed since; --undo takes them back to the byte; --status says"
         " how far a plan is, and changes nothing. The status is 0 where all was done, 1 where files were refused, 2 where nothing could be"
         " done.")

# The words that belong to all steps; those of the others would do nothing.
OF_ALL_STEPS = ("help", "plan", "apply", "undo", "status", "json", "force", "gate", "indexes", "labels", "memory")


def add_to(commands: "argparse._SubParsersAction[Any]") -> None:
    """Adds the parser of this subcommand."""
    parser = commands.add_parser("mend", help="plan repairs by rule, apply a plan, or take it back", description=ABOUT)
    steps = parser.add_mutually_exclusive_group(required=True)
    steps.add_argument("--plan", metavar="FILE", help="write the plan of the repairs of these trees; there must be no such file")
    steps.add_argument("--apply", metavar="FILE", help="make the edits of a plan")
    steps.add_argument("--undo", metavar="FILE", help="take the edits of a plan back")
    steps.add_argument("--status", metavar="FILE", help="say of each file of a plan whether its edits are made")
    rules = parser.add_argument_group("what a plan mends")
    rules.add_argument(
        "--damage", metavar="OLD=NEW", type=_pair, action="append", default=[], help="an error whose bytes are OLD, in hexadecimal, becomes NEW,"
        " as ff=3f; NEW may be empty")
    rules.add_argument("--high-bit", action="store_true", help="an error of one byte that is an ASCII letter but for its highest bit becomes the letter")
    rules.add_argument(
        "--twice", metavar="LABEL", help="characters that come of text that was decoded by this label, as windows-1252, and encoded again,"
        " become that text")
    rules.add_argument("--line-ends", choices=tuple(ENDS), help="line ends of the other kinds become this one")
    parser.add_argument("--json", action="store_true", help="print an object of JSON for each file")
    parser.add_argument("trees", metavar="TREE", nargs="*", help="a folder, or one file, with --plan")
    work.add_words(parser)
    parser.set_defaults(run=run, planning=[it for it in parser._actions if it.option_strings and it.dest not in OF_ALL_STEPS])


def _pair(text: str) -> Tuple[str, str]:
    old, equals, new = text.partition("=")
    try:
        if equals and bytes.fromhex(old):
            return bytes.fromhex(old).hex(), bytes.fromhex(new).hex()
    except ValueError:
        pass
    raise argparse.ArgumentTypeError(f"{text} isn't OLD=NEW in hexadecimal, as ff=3f")


def run(words: argparse.Namespace) -> int:
    """Prints what was refused, and returns the status."""
    if words.plan:
        return _run_plan(words)
    if words.trees:
        raise Missing("a TREE belongs to --plan; a plan names its files")
    useless = next((it for it in words.planning if getattr(words, it.dest) != it.default), None)
    if useless:
        raise Missing(f"{useless.option_strings[-1]} belongs to --plan")
    return _run_status(words) if words.status else _run_edits(words)


def _run_plan(words: argparse.Namespace) -> int:
    repairs = Repairs(words.damage, words.high_bit, words.twice, words.line_ends)
    if not words.trees:
        raise Missing("--plan needs a TREE")
    if repairs == Repairs([]):
        raise Missing("--plan needs a rule: --damage, --high-bit, --twice or --line-ends")
    counts = {FOUND: 0, REFUSED: 0}
    edits = stay = 0
    unmatched = dict(words.damage)
    for row in plan(words.plan, words.trees, repairs, work.settings_from(words)):
        counts[row.outcome] = counts.get(row.outcome, 0) + 1
        edits, stay = edits + len(row.edits), stay + row.stay
        for edit in row.edits:
            unmatched.pop(edit.old, None)
        _print(row, words.json)
    sys.stdout.flush()
    for old in unmatched:
        print(f"--damage {old}=: no error has exactly these bytes", file=sys.stderr)
    made = f"{quantity(edits, 'edits')} of {quantity(counts[FOUND], 'files')}"
    stays = f"; {quantity(stay, 'runs')} of characters that look encoded twice stay" if stay else ""
    print(f"{quote_path(words.plan)}: {made}; {quantity(counts[REFUSED], 'files')} refused{stays}", file=sys.stderr)
    return 1 if counts[REFUSED] else 0


def _run_status(words: argparse.Namespace) -> int:
    counts = {FOUND: 0, DONE: 0, REFUSED: 0}
    for row in status(words.status, words.force):
        counts[row.outcome] += 1
        if words.json:
            print(row.json())
        else:
            said = {FOUND: "to be mended", DONE: "mended"}.get(row.outcome, visible_text(row.reason))
            print(f"{quote_path(row.path)}: {said}, {quantity(len(row.edits), 'edits')}")
    sys.stdout.flush()
    print(f"{quantity(counts[DONE], 'files')} mended; {counts[FOUND]} to be mended; {counts[REFUSED]} neither", file=sys.stderr)
    return 1 if counts[REFUSED] else 0


def _run_edits(words: argparse.Namespace) -> int:
    counts = {DONE: 0, PASSED: 0, REFUSED: 0}
    step, path = (apply, words.apply) if words.apply else (undo, words.undo)
    for row in step(path, finding.find(words), words.force):
        counts[row.outcome] += 1
        _print(row, words.json)
    sys.stdout.flush()
    done = "mended" if words.apply else "with the old bytes again"
    print(f"{quantity(counts[DONE], 'files')} {done}; {counts[PASSED]} so before; {counts[REFUSED]} refused", file=sys.stderr)
    return 1 if counts[REFUSED] else 0


def _print(row: Mended, in_json: bool) -> None:
    if in_json:
        print(row.json())
    elif row.outcome == REFUSED:
        print(f"{quote_path(row.path)}: not mended: {visible_text(row.reason)}")

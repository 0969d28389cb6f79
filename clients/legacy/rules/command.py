"""`legacy rules TREE`: each file with a rule, its encoding, and where the rule is from."""
import argparse
import json
import os
import sys
from typing import Any

from legacy import finding
from legacy.rules.order import Rule, add_words, rules_from
from legacy.terminals import message, quote_path, visible_text

ABOUT = "Print each file that has a rule, its encoding, and where the rule is from. What isn't printed is bytes."


def add_to(commands: "argparse._SubParsersAction[Any]") -> None:
    """Adds the parser of this subcommand."""
    parser = commands.add_parser("rules", help="print which file is in which encoding, and why", description=ABOUT)
    add_words(parser)
    finding.add_labels(parser)
    parser.add_argument("--json", action="store_true", help="print an object a file, a line each: path, label, origin, mark")
    parser.add_argument("tree", metavar="TREE", help="a folder, or one file")
    parser.set_defaults(run=run)


def run(words: argparse.Namespace) -> int:
    """Prints the rules, and returns 2 if something couldn't be looked at."""
    from legacy.work.walk import KINDS, walk  # (work asks for rules itself)
    folder = words.tree if os.path.isdir(words.tree) else os.path.dirname(words.tree)
    rules = rules_from(words, folder or ".", finding.label_file(words.labels, finding.standard()))
    status = 0
    for entry in walk([words.tree]):
        rule = None if entry.fault else rules.rule_of(entry.inside)
        if rule:
            print(in_json(entry.inside, rule) if words.json else in_words(entry.inside, rule))
        elif entry.fault and entry.fault not in {kind for _, kind in KINDS}:
            print(message(f"legacy rules: {entry.path}: {entry.fault}"), file=sys.stderr)
            status = 2
    return status


def in_words(path: str, rule: Rule) -> str:
    """A line for a person. A name with control characters is quoted, so that it is one line."""
    mark = ", new ones with a byte order mark" if rule.mark else ""
    return f"{quote_path(path)}: {rule.label}{mark} ({visible_text(rule.origin)})"


def in_json(path: str, rule: Rule) -> str:
    """A line for a program. Bytes that aren't UTF-8 are the code points U+DC80 to U+DCFF, as Python has them."""
    return json.dumps({"path": path, "label": rule.label, "origin": rule.origin, "mark": bool(rule.mark)})

"""Which file of a tree is in which encoding, and `legacy rules`, which prints it.

Rules come from arguments, then from git's attribute `working-tree-encoding`, then, on request, from the property
`charset` of EditorConfig, then from a default. Nothing is guessed: a file without a rule is bytes."""
from legacy.rules.command import add_to, run
from legacy.rules.order import BYTES, Rule, Rules, add_words, rules_from

__all__ = ["BYTES", "Rule", "Rules", "add_to", "add_words", "rules_from", "run"]

"""`legacy lsp`: a language server for legacy files, by Python's library alone."""
from legacy.lsp.command import add_to, run

__all__ = ["add_to", "run"]

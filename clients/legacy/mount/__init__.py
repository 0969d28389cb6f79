"""A tree of legacy files shown as UTF-8, to every program: `legacy mount`."""
from legacy.mount.command import add_to

__all__ = ["add_to"]

"""Trees of legacy files, by the program `gate`: the command `legacy`, and its parts for scripts."""
# The version of the program too, which prints it by `gate --version`.
__version__ = "0.5.0"

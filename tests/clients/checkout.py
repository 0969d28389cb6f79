"""This checkout, which the tests here try: its clients, of which none is taken that is installed, and the program, of which
tests/base.py says which one it is."""
import pathlib
import sys

sys.path.insert(0, str(pathlib.Path(__file__).resolve().parent.parent))
from base import BUILT, EXACT, PROGRAM, TOP, UNPROVED  # (handed on to the tests)

__all__ = ["BUILT", "CLIENTS", "EXACT", "INDEXES", "PROGRAM", "TOP", "UNPROVED"]

CLIENTS = TOP / "clients"
sys.path.insert(0, str(CLIENTS))
INDEXES = TOP / "examples" / "indexes"

"""Documents of `gate` with a copy of their bytes, which several clients may edit at once, over the client in gate.py."""
from gate_documents.copies import MARKS, View
from gate_documents.document import Change, Document
from gate_documents.edits import Edit, difference
from gate_documents.fleet import Fleet, Place
from gate_documents.questions import FEWEST, PAGE, Pair
from gate_documents.refusals import Conflict, Lost, Unsure
from gate_documents.sharing import SharedFile
from gate_documents.states import ESCAPE, UNITS

__all__ = [
    "Change", "Conflict", "Document", "ESCAPE", "Edit", "FEWEST", "Fleet", "Lost", "MARKS", "PAGE", "Pair", "Place", "SharedFile",
    "UNITS", "Unsure", "View", "difference",
]

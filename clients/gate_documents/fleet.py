"""Documents that are spread over several servers."""
import hashlib
import os
from typing import Any, Collection, Dict, Sequence, Union

from gate import TIMEOUT, Gate
from gate_documents.document import Document

# Where a server listens: the path of a Unix socket, or a port of 127.0.0.1.
Place = Union[str, int]


class Fleet:
    """Several servers, over which documents are spread by their names, so that more of them fit and each server has its own
    processor. All clients that know the same places find a document at the same one. With an nth place, one document in n
    moves, always to the new place. With a place less, only the documents of that place move.

    Each connection is made by `patience`, `again`, `timeout` and `users` of `Gate.connect`, at a port by `token_file` too. A stopped server costs a call to it
    `timeout` seconds. Calls to the others don't wait for it."""

    def __init__(
        self, places: Sequence[Place], patience: float = 10.0, again: float = 0.0, timeout: float = TIMEOUT, users: Collection[int] = (),
        token_file: Union[None, str, "os.PathLike[str]"] = None,
    ):
        self.places = list(places)
        self._how: Dict[str, Any] = {"patience": patience, "again": again, "timeout": timeout, "users": users}
        self._token_file = token_file
        self._gates: Dict[Place, Gate] = {}

    def place_of(self, name: str) -> Place:
        """The place with the greatest weight for the name: the hash of both (rendezvous hashing)."""
        return max(self.places, key=lambda place: hashlib.sha256(f"{place}\0{name}".encode()).digest())

    def gate_of(self, name: str) -> Gate:
        """The connection to the server that has the documents of this name."""
        place = self.place_of(name)
        if place not in self._gates:
            where: Dict[str, Any] = {"port": place, "token_file": self._token_file} if isinstance(place, int) else {"path": place}
            self._gates[place] = Gate.connect(**where, **self._how)
        return self._gates[place]

    def open(self, name: str, label: str, content: bytes, bom: str = "sniff") -> Document:
        """Opens a document at its server."""
        return self.gate_of(name).open(name, label, content, bom)

    def join(self, name: str) -> Document:
        """A document that is open at its server."""
        return self.gate_of(name).join(name)

    def remove(self, place: Place) -> None:
        """Removes a place, for example one whose server has ended, with its documents. A client that opens these again finds
        another place."""
        self.places.remove(place)
        if place in self._gates:
            self._gates.pop(place).close()

    def close(self) -> None:
        """Ends all connections."""
        while self._gates:
            self._gates.popitem()[1].close()

    def __enter__(self) -> "Fleet":
        return self

    def __exit__(self, *_: Any) -> None:
        self.close()

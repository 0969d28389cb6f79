#!/usr/bin/env python3
"""Edits a document of a live server while editors type in it: puts marks into it, which nobody else does.

    script.py SOCKET NAME

Ends once its standard input does. Prints how many marks it put in, and the document's revision then."""
import contextlib
import pathlib
import random
import select
import sys
from typing import List

sys.path.insert(0, str(pathlib.Path(__file__).resolve().parent.parent.parent / "clients"))
from gate import Gate
from gate_documents import Conflict, Document, Unsure
from gate_documents.content import Content
from gate_documents.states import ASCII, state

MARK = "m"

# Seconds for which a server may be away, and up to which the script waits between two edits.
AWAY, PAUSE = 600.0, 0.1


def places(document: Document) -> List[int]:
    """The places where lines begin, as bytes, if ASCII is read there."""
    content, feed = document.bytes, "\n".encode(document.encoding) if document.encoding.startswith("UTF-16") else b"\n"
    at, found = document.bom, [document.bom]
    while (at := content.find(feed, at)) >= 0:
        at += len(feed)
        if at % len(feed) == 0 and state(document.encoding, Content(content), at)[0] in (b"", ASCII):
            found.append(at)
    return found


def put_in(document: Document) -> None:
    """Puts a mark at the beginning of a line. Waits until it is known whether it was put in if the reply was lost."""
    document.catch_up()
    mark = MARK.encode(document.encoding if document.encoding.startswith("UTF-16") else "ascii")
    try:
        document.splice(random.choice(places(document)), 0, mark)
    except Unsure:
        while True:
            try:
                document.find_out()
                return
            except Unsure:
                continue


def put_in_once(document: Document, count: int) -> None:
    """Puts in a mark where there are so many, whatever becomes of replies."""
    while True:
        with contextlib.suppress(Conflict):
            put_in(document)
        document.catch_up()
        now = document.text().count(MARK)
        if now > count:
            if now > count + 1:
                sys.exit(f"{now - count} marks were put in instead of one")
            return


def main(socket: str, name: str) -> None:
    random.seed(name)
    with Gate.connect(path=socket, patience=AWAY, again=AWAY, timeout=AWAY) as gate:
        document = gate.join(name)
        before = count = document.text().count(MARK)
        print("joined", flush=True)
        while not select.select([sys.stdin], [], [], random.random() * PAUSE)[0]:
            put_in_once(document, count)
            count += 1
    print(count - before, document.rev, flush=True)


if __name__ == "__main__":
    main(*sys.argv[1:])

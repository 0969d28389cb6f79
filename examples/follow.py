#!/usr/bin/env python3
"""Follows a document of a live server, and prints each edit as it comes: its line and character, both counted from 1, and
the text there before and since.

    examples/follow.py NAME [PLACE]

NAME is what clients call the document, PLACE the path of the server's socket, or its port; without it, the socket at which
the service in docs/OPERATING.md listens. It ends when the document is closed, by Ctrl-C, and when the server is gone."""
import os
import pathlib
import signal
import sys
import time

sys.path.insert(0, str(pathlib.Path(__file__).resolve().parent.parent / "clients"))
from gate import Fault, Gate, Gone, difference

# How often the server is asked, in seconds, and the most characters of a text that are printed.
PAUSE, SHOWN = 0.1, 40


def quote_text(text):
    """A text in quotes, with escapes for all that isn't to be printed, and cut if it is long."""
    return repr(text if len(text) <= SHOWN else f"{text[:SHOWN // 2]}…{text[-SHOWN // 2 + 1:]}")


def describe_change(old, new):
    """Where a text became another, and what was there before and since."""
    at, count, since = difference(old, new)
    lines = old[:at].replace("\r\n", "\n").replace("\r", "\n").split("\n")
    return f"{len(lines)}:{len(lines[-1]) + 1}: {quote_text(old[at : at + count])} -> {quote_text(since)}"


def text_of(document, edits):
    """The text of a document as the copy has it; what is done while it is asked for is added to the edits."""
    while True:
        text, more = document.text(), document.catch_up()
        if not more:
            return text
        edits += more


def lines(edits, old, new):
    """What is printed of edits that made a text another."""
    if any(it.anew for it in edits):
        yield " read anew"
    if old != new:
        yield describe_change(old, new)
        return
    for it in edits:
        if it.old != it.new:
            yield f" byte {it.at}: {it.old.hex(' ')} -> {it.new.hex(' ')}, the same text"


def follow(document):
    """Prints what is done to a document until it is closed."""
    text = text_of(document, [])
    print(f"{document.name}: {len(document.bytes)} bytes, {document.encoding}, revision {document.rev}", flush=True)
    while True:
        edits = document.catch_up()
        if edits:
            old, text = text, text_of(document, edits)
            for it in lines(edits, old, text):
                print(f"{document.name}:{it}", flush=True)
        time.sleep(PAUSE)


def main(name, place=None):
    place = place or os.path.join(os.environ.get("XDG_RUNTIME_DIR", ""), "gate", "socket")
    try:
        gate = Gate.connect(patience=0, **({"port": int(place)} if place.isdigit() else {"path": place}))
    except OSError as fault:
        sys.exit(f"{place}: {fault.strerror or fault}")
    try:
        with gate:
            follow(gate.join(name))
    except Gone:
        sys.exit(f"{place}: the server is gone")
    except Fault as fault:
        sys.exit(f"{name}: {'not open' if fault.name == 'NoDocument' else fault}")
    except BrokenPipeError:
        os.dup2(os.open(os.devnull, os.O_WRONLY), sys.stdout.fileno())


if len(sys.argv) not in (2, 3) or sys.argv[1] in ("-h", "--help"):
    sys.exit(__doc__)
# (Ctrl-C ends it without a word)
signal.signal(signal.SIGINT, signal.SIG_DFL)
sys.stdout.reconfigure(errors="backslashreplace")
main(*sys.argv[1:])

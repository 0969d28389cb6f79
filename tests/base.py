"""What the tests of all folders share: the program that they try, where it can be spoken to, and how bytes are written in a line.

The program is crates/gate/out/gate, or the one that the variable GATE names. If GATE_UNPROVED is 1, it is the one that
`./try` compiles without a proof; checks are compiled into it, so that it takes more stack, memory and time."""
import base64
import os
import pathlib
import signal
import socket
import time
import unittest

TOP = pathlib.Path(__file__).resolve().parent.parent
OUT = TOP / "crates" / "gate" / "out"
UNPROVED = os.environ.get("GATE_UNPROVED", "0") not in ("", "0")
PROGRAM = os.environ.get("GATE", str(OUT / "unproved" / "gate" if UNPROVED else OUT / "gate"))
MAKER = "./try" if UNPROVED else "tools/build"
BUILT = unittest.skipUnless(os.access(PROGRAM, os.X_OK), f"there is no program {PROGRAM}; {MAKER} makes it")
# What can't be tried on a program with checks in it: how much memory, stack or time it takes.
EXACT = unittest.skipIf(UNPROVED, "checks are compiled into the program, which take memory, stack and time")

# The seconds that one wait may take, on a machine that has much else to do.
LIMIT = 100

# A shell that has no terminal has what it runs in the background ignore Ctrl-C, and so would all that tests start.
if signal.getsignal(signal.SIGINT) == signal.SIG_IGN:
    signal.signal(signal.SIGINT, signal.default_int_handler)

# What holds ports until the process ends.
HELD = []


def free_port():
    """A port of 127.0.0.1 on which nobody listens. It stays that of this process, by a socket that is bound and doesn't listen:
    beside it another may listen that reuses the address, as the program does, and the system gives the port to nobody else."""
    holder = socket.socket()
    holder.setsockopt(socket.SOL_SOCKET, socket.SO_REUSEADDR, 1)
    holder.bind(("127.0.0.1", 0))
    HELD.append(holder)
    return holder.getsockname()[1]


def connect(place, patience=LIMIT):
    """A connection to a place, the path of a Unix socket or a port, as soon as somebody listens there."""
    end = time.monotonic() + patience
    while True:
        family, address = (socket.AF_INET, ("127.0.0.1", place)) if isinstance(place, int) else (socket.AF_UNIX, place)
        peer = socket.socket(family)
        peer.settimeout(LIMIT)
        try:
            peer.connect(address)
            return peer
        except (ConnectionRefusedError, FileNotFoundError):
            peer.close()
            if time.monotonic() > end:
                raise
            time.sleep(0.002)


def base64_of(content):
    """Bytes as a line has them."""
    return base64.b64encode(content).decode()

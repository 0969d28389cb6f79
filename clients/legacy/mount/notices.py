"""What the service manager is told, as sd_notify(3) does it: a datagram to the socket that the variable NOTIFY_SOCKET names."""
import contextlib
import os
import socket


def tell(*lines: str) -> None:
    """Tells it some assignments of variables, if there is one that wants to know."""
    place = os.environ.get("NOTIFY_SOCKET", "")
    if place[:1] not in ("/", "@"):
        return
    with contextlib.suppress(OSError), socket.socket(socket.AF_UNIX, socket.SOCK_DGRAM | socket.SOCK_CLOEXEC) as to:
        # (a name that begins with @ is none of a file)
        to.connect(f"\0{place[1:]}" if place[0] == "@" else place)
        to.send("\n".join(lines).encode(errors="surrogateescape"))

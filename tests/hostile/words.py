"""Hostile command lines."""
import socket

from program import Case, Ended, ending, replies_to

# Words that are no command line.
REFUSED = [
    ("no folder", ["stdio"]),
    ("no folder behind its option", ["stdio", "--indexes"]),
    ("a command that is none", ["replay", "--indexes", "x"]),
    ("an option of another command", ["trace", "--indexes", "x", "--port", "7117"]),
    ("an option without its command", ["--indexes", "x"]),
    ("a folder twice", ["stdio", "--indexes", "x", "--indexes", "x"]),
    ("a word too many", ["stdio", "--indexes", "x", "y"]),
    ("10,000 words too many", ["stdio", "--indexes", "x", *["y"] * 10000]),
    ("a word of 100,000 bytes", ["x" * 100000]),
    ("an empty word", [""]),
    ("a word that isn't UTF-8", [b"stdio", b"--indexes", b"\xff"]),
    *[(f"the port {it!r}", ["tcp", "--indexes", "x", "--port", it]) for it in ("0", "65536", "-1", "http", "", "9" * 400)],
    *[(f"{it!r} connections", ["tcp", "--indexes", "x", "--serve", it]) for it in ("0", "1000001", "-1", "", "9" * 400)],
]


def fixed_parts(gate, words):
    """What of it is fixed: the status, that nothing is printed, and how the text begins and ends."""
    status, output, error = gate.run(words, b"{}\n")
    return Ended(status, output, error[:7] + error[-1:])


def on_a_port_in_use(gate):
    with socket.socket() as it:
        it.bind(("127.0.0.1", 0))
        it.listen()
        port = it.getsockname()[1]
        ended = gate.run(["tcp", "--indexes", gate.empty, "--port", str(port)])
    return ended._replace(error=ended.error.replace(b"%d" % port, b"N"))


def small_port():
    """A port below 1,024 on which nobody listens, and whether this user may listen there."""
    for port in range(1023, 0, -1):
        with socket.socket() as it:
            try:
                it.bind(("127.0.0.1", port))
            except PermissionError:
                return port, False
            except OSError:
                continue
            return port, True
    raise OSError("every port below 1,024 is in use")


def on_a_small_port(gate, port, may_listen):
    with gate.started(["tcp", "--indexes", gate.empty, "--port", str(port)]) as program:
        output = replies_to(port, b"\n") if may_listen else b""
        return ending(program)._replace(output=output)


def cases(gate):
    for name, words in REFUSED:
        yield Case(f"words: {name}", lambda words=words: fixed_parts(gate, words), Ended(2, b"", b"error: \n"))
    yield Case("words: a port in use", lambda: on_a_port_in_use(gate), Ended(1, b"", b"gate: cannot listen on port N\n"))
    port, may_listen = small_port()
    served = Ended(0, b'{"fault":"BadJson"}\n', b"")
    not_served = Ended(1, b"", b"gate: cannot listen on port %d\n" % port)
    name = "listened on" if may_listen else "that this user may not listen on"
    yield Case(f"words: the port {port}, {name}", lambda: on_a_small_port(gate, port, may_listen), served if may_listen else not_served)

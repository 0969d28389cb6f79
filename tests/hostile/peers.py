"""Hostile peers over TCP. Behind each the next client is served, and the documents are as they were."""
import socket
import struct
import threading
import time

from lines import ASK, BAD_JSON, KEPT, LARGE, OPEN, OPENED
from program import Case, Ended, connect, ending, received, replies_to

# The connections behind which memory has its size, and the most KiB that the rest may add.
WARM = 1000
GROWTH = 64


def reset(peer):
    """Resets the connection: what is still under way is lost."""
    peer.setsockopt(socket.SOL_SOCKET, socket.SO_LINGER, struct.pack("ii", 1, 0))
    peer.close()


def read_to(peer, count):
    """The next `count` bytes that come."""
    parts = b""
    while len(parts) < count:
        part = peer.recv(count - len(parts))
        if not part:
            break
        parts += part
    return parts


def resets_in_mid_line(port):
    peer = connect(port)
    peer.sendall(b'{"id":1,"op":"close","doc":"kept"}'[:-1])
    time.sleep(0.05)
    reset(peer)


def resets_behind_a_line(port):
    """Its first line is answered, and stays done; the rest of what it sends is no line."""
    peer = connect(port)
    peer.sendall(b'{"id":1,"op":"splice","doc":"kept","rev":0,"at":3,"del":0,"bytes":"QQ=="}\n{"id":2')
    read_to(peer, len(b'{"bom":0,"encoding":"UTF-8","id":1,"rev":1}\n'))
    reset(peer)


def sends_nothing(port):
    connect(port).close()


def resets_at_once(port):
    reset(connect(port))


def leaves_in_mid_line(port):
    replies_to(port, b'{"id":1,"op":"close","doc":"kept"}')


def sends_no_line_end(port):
    replies_to(port, b" " + bytes(range(11, 256)) * 40000)


def never_reads(port):
    """Asks for more than the buffers between the two hold, and is reset when nothing goes on."""
    peer = connect(port)
    peer.sendall(OPEN.replace(b"kept", b"large").replace(b"4oJB", b"AAAA" * (LARGE // 3)) + b"\n")
    ask = b'{"id":1,"op":"text","doc":"large","from":0,"to":%d}\n' % (LARGE)
    peer.sendall(ask * 4)
    time.sleep(0.5)
    reset(peer)


def stops_reading_in_mid_reply(port):
    peer = connect(port)
    peer.sendall(b"\n" * 200000)
    read_to(peer, 10)
    reset(peer)


PEERS = [
    ("resets at once", resets_at_once),
    ("sends nothing", sends_nothing),
    ("leaves in mid-line", leaves_in_mid_line),
    ("resets in mid-line", resets_in_mid_line),
    ("sends 10 MB without a line end", sends_no_line_end),
    ("never reads", never_reads),
    ("stops reading in the middle of the replies", stops_reading_in_mid_reply),
]


def between_clients(gate, hostile):
    """What a client sees that opens a document, and one behind the hostile peer that asks for its bytes."""
    with gate.listening(3) as (program, port):
        before = replies_to(port, OPEN + b"\n")
        hostile(port)
        behind = replies_to(port, ASK + b"\n")
        return ending(program)._replace(output=before + behind)


def a_byte_a_second(gate):
    """What two clients receive, one that sends so and the next, and whether the next had to wait for it."""
    replies = []
    with gate.listening(3) as (program, port):
        before = replies_to(port, OPEN + b"\n")
        following = threading.Thread(target=lambda: replies.append(replies_to(port, ASK + b"\n")))
        with connect(port) as peer:
            following.start()
            for byte in b'{"id":1\n':
                peer.sendall(bytes([byte]))
                time.sleep(1)
            waited = not replies
            peer.shutdown(socket.SHUT_WR)
            slowly = received(peer)
        following.join()
        return ending(program)._replace(output=before + slowly + b"".join(replies)), waited


def resident(program):
    """The program's resident memory in KiB."""
    with open(f"/proc/{program.pid}/status", encoding="ascii") as it:
        return next(int(line.split()[1]) for line in it if line.startswith("VmRSS:"))


def one_of_many(port, number):
    """Every third leaves a line behind that is begun, every fourth resets."""
    with connect(port) as peer:
        peer.sendall(OPEN + b"\n" + ASK + b"\n" + b'{"id":3,"op":"close","doc":"kept"}\n' + b'{"id"' * (number % 3 == 0))
        wanted = OPENED + b"\n" + KEPT + b"\n" + b'{"id":3,"rev":0}\n'
        right = read_to(peer, len(wanted)) == wanted
        if number % 4 == 0:
            reset(peer)
    return right


def many(gate, count):
    """How many of `count` connections had the right replies, and whether memory stayed flat."""
    with gate.listening(count) as (program, port):
        right = sum(one_of_many(port, it) for it in range(WARM))
        warm = resident(program)
        right += sum(one_of_many(port, it) for it in range(WARM, count - 1))
        grown = resident(program) - warm
        right += one_of_many(port, count - 1)
        return ending(program), right, "flat" if grown <= GROWTH else f"{grown} KiB more"


def cases(gate, connections):
    both = Ended(0, OPENED + b"\n" + KEPT + b"\n", b"")
    for name, hostile in PEERS:
        yield Case(f"tcp: a peer that {name}", lambda hostile=hostile: between_clients(gate, hostile), both)
    edited = KEPT.replace(b'"rev":0', b'"rev":1')
    behind = both._replace(output=OPENED + b"\n" + edited + b"\n")
    yield Case("tcp: a peer that resets behind a line", lambda: between_clients(gate, resets_behind_a_line), behind)
    slowly = OPENED + b"\n" + BAD_JSON + b"\n" + KEPT + b"\n"
    yield Case("tcp: a peer that sends a byte a second", lambda: a_byte_a_second(gate), (both._replace(output=slowly), True))
    yield Case(f"tcp: {connections:,} connections, and memory", lambda: many(gate, connections), (Ended(0, b"", b""), connections, "flat"))

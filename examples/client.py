"""A small client of `gate serve`, for Python 3.8 and its library alone. docs/CLIENT.md explains it step by step."""
import base64
import json
import os
import socket
import stat
import struct
import time


class Refused(Exception):
    """A refused command: `fault` is the refusal's name, `reply` all of it."""

    def __init__(self, reply):
        super().__init__(json.dumps(reply))
        self.fault, self.reply = reply["fault"], reply


class Lost(Exception):
    """The connection ended, or no reply came in time."""


class Replaced(Exception):
    """Another document has this name now. The copy is still that of the earlier one."""


class Unknown(Exception):
    """The document doesn't tell whether an edit was made. The exception has the edit, and what happened to the document."""


class Client:
    """A connection to a server's socket. Each wait ends after so many seconds."""

    def __init__(self, path, seconds=30):
        self.path, self.seconds, self.number = path, seconds, 0
        self.connect()

    def connect(self):
        """Connects, and tries again until the server listens."""
        end = time.monotonic() + self.seconds
        while True:
            self.link = socket.socket(socket.AF_UNIX)
            self.link.settimeout(self.seconds)
            try:
                self.link.connect(self.path)
                break
            except (FileNotFoundError, ConnectionRefusedError):
                self.link.close()
                if time.monotonic() > end:
                    raise
                time.sleep(0.05)
        _, user, _ = struct.unpack("3i", self.link.getsockopt(socket.SOL_SOCKET, socket.SO_PEERCRED, 12))
        if user not in (0, os.getuid()):
            self.link.close()
            raise PermissionError(f"user {user} listens at {self.path}")
        self.replies = self.link.makefile("rb")

    def ask(self, op, **fields):
        """Sends a command and returns its reply."""
        self.number += 1
        try:
            self.link.sendall(json.dumps({"id": self.number, "op": op, **fields}).encode() + b"\n")
            line = self.replies.readline()
        except OSError:
            line = b""
        if not line.endswith(b"\n"):
            self.replies.close()
            self.link.close()
            raise Lost(op)
        reply = json.loads(line)
        if "fault" in reply:
            raise Refused(reply)
        return reply


class Document:
    """A document, with a copy of its bytes at the revision `rev`. `lost` is the edit whose reply was lost, or None."""

    def __init__(self, client, name, label, content):
        self.client, self.name, self.lost = client, name, None
        try:
            self.ask("open", label=label, bytes=base64.b64encode(content).decode())
        except Refused as refusal:
            if refusal.fault != "NameTaken":
                raise
        self.rev, self.bytes = self.read()

    def ask(self, op, **fields):
        return self.client.ask(op, doc=self.name, **fields)

    def ask_pair(self, op, fields, follow):
        """Asks a question and one that follows from its reply, until both replies are of one revision."""
        while True:
            first = self.ask(op, **fields)
            next_op, next_fields = follow(first)
            try:
                second = self.ask(next_op, **next_fields)
            except Refused as refusal:
                if refusal.fault != "OutOfRange":
                    raise
                continue
            if first["rev"] == second["rev"]:
                return first, second

    def read(self):
        """Returns the current revision and all its bytes."""
        status, source = self.ask_pair("stat", {}, lambda stat: ("source", {"at": 0, "len": stat["bytes"]}))
        self.encoding = status["encoding"]
        return source["rev"], base64.b64decode(source["bytes"])

    def text(self):
        """Returns the current text."""
        return self.ask_pair("stat", {}, lambda stat: ("text", {"from": 0, "to": stat["utf32"]}))[1]["text"]

    def splice_copy(self, at, old, new):
        """Returns the copy's bytes with an edit made in them."""
        return self.bytes[:at] + new + self.bytes[at + len(old) :]

    def apply(self, at, old, new, rev):
        """Makes an edit in the copy, and returns it: offset, old bytes, new bytes."""
        self.bytes, self.rev = self.splice_copy(at, old, new), rev
        return at, old, new

    def ask_first(self, op, **fields):
        """Asks what an edit needs to know. If the document isn't at the copy's revision, this is `Stale`, or `Replaced`."""
        if self.lost:
            raise Lost("find out first")
        try:
            reply = self.ask(op, **fields)
        except Refused as refusal:
            reply = refusal.reply
        now = self.ask("stat")
        if now["rev"] > self.rev:
            raise Refused({"fault": "Stale", "rev": now["rev"]})
        if now["bytes"] != len(self.bytes) or {now["rev"], reply.get("rev", self.rev)} != {self.rev}:
            raise Replaced(self.name)
        if "fault" in reply:
            raise Refused(reply)
        return reply

    def send_edit(self, op, fields, edit, found):
        """Sends an edit, and makes it in the copy once it is accepted. `found` is what the document has at its old bytes."""
        at, old, _ = edit
        if self.bytes[at : at + len(old)] != found:
            raise Replaced(self.name)
        try:
            reply = self.ask(op, rev=self.rev, **fields)
        except Lost:
            self.lost = edit
            raise
        return self.apply(*edit, reply["rev"])

    def change(self, start, end, text):
        """Replaces the text between two positions, each a line and a character, and returns the splice that did it."""
        points = [{"line": line, "character": character} for line, character in (start, end)]
        fields = {"unit": "utf-32", "range": {"start": points[0], "end": points[1]}, "text": text}
        plan = self.ask_first("plan", **fields)
        old, new = base64.b64decode(plan["old"]), base64.b64decode(plan["bytes"])
        return self.send_edit("change", fields, (plan["at"], old, new), old)

    def catch_up(self):
        """Makes in the copy what other clients did since, and returns it as one splice. Compares all bytes."""
        if self.lost:
            raise Lost("find out first")
        while True:
            rev, content = self.read()
            if rev < self.rev:
                raise Replaced(self.name)
            since = self.ask("since", rev=self.rev)
            if since["rev"] == rev:
                break
        at, end, new = since["at"], since["at"] + since["del"], content[since["at"] : since["at"] + since["ins"]]
        old = self.bytes[at:end]
        if self.splice_copy(at, old, new) != content:
            raise Replaced(self.name)
        return self.apply(at, old, new, rev)

    def splice(self, at, old, new):
        """Replaces the bytes `old` at `at`, and returns the splice. If others were first, it moves with their edits."""
        while self.bytes[at : at + len(old)] == old:
            try:
                source = self.ask_first("source", at=at, len=len(old))
                fields = {"at": at, "del": len(old), "bytes": base64.b64encode(new).decode()}
                return self.send_edit("splice", fields, (at, old, new), base64.b64decode(source["bytes"]))
            except Refused as refusal:
                if refusal.fault != "Stale":
                    raise
            their_at, their_old, their_new = self.catch_up()
            if their_at + len(their_old) <= at:
                at += len(their_new) - len(their_old)
            elif their_at < at + len(old):
                break
        raise ValueError("others edited these bytes")

    def undo(self, edit):
        """Takes an edit back by its bytes."""
        at, old, new = edit
        return self.splice(at, new, old)

    def save(self, path):
        """Catches up, writes the copy to a new file with the old one's owner and mode, and renames it over the old one.
        Returns what others did."""
        theirs = self.catch_up()
        path = os.path.realpath(path)
        new = f"{path}.{os.getpid()}"
        with open(new, "xb") as file:
            try:
                if os.path.exists(path):
                    before = os.stat(path)
                    os.fchown(file.fileno(), before.st_uid, before.st_gid)
                    os.fchmod(file.fileno(), stat.S_IMODE(before.st_mode))
                file.write(self.bytes)
                file.flush()
                os.fsync(file.fileno())
                os.replace(new, path)
            except BaseException:
                os.remove(new)
                raise
        return theirs

    def was_made(self, at, old, new):
        """Returns whether the next revision is this edit's, or None if the document doesn't tell."""
        mine = self.splice_copy(at, old, new)
        while True:
            rev, content = self.read()
            if rev <= self.rev:
                return False
            later = self.ask("since", rev=self.rev + 1)
            if later["rev"] == rev:
                break
        begin, end, inserted = later["at"], later["at"] + later["del"], later["ins"]
        if mine[:begin] + content[begin : begin + inserted] + mine[end:] != content:
            return False
        is_touched = (later["del"] or inserted) and begin <= at + len(new) and at <= end
        return None if is_touched else True

    def find_out(self):
        """Returns the edit whose reply was lost, if it was made, or None; and what others did since the copy, as one splice."""
        edit = self.lost
        made = self.was_made(*edit) if edit else False
        if made:
            self.apply(*edit, self.rev + 1)
        self.lost = None
        theirs = self.catch_up()
        if made is None:
            raise Unknown(edit, theirs)
        return edit if made else None, theirs

"""The client over the program as it was built: crates/gate/out/gate, or the one that the variable GATE names."""
import concurrent.futures
import errno
import os
import pickle
import re
import shutil
import subprocess
import sys
import tempfile
import unittest
from unittest import mock

from checkout import BUILT, CLIENTS, INDEXES, PROGRAM
from base import LIMIT, free_port
import gate
import gate_documents
from gate import Conflict, Document, Edit, Fault, Gate, Gone, Lost, Reply, WINDOW


class Refusals(unittest.TestCase):
    def test_what_one_process_raises_another_may_catch(self):
        conflict = Conflict(3, Edit(0, b"a", b"b"), Edit(0, b"a", b"c"), unsure=True)
        for fault in Fault({"fault": "Unencodable", "id": 1, "index": 2}), Lost(), conflict:
            found = pickle.loads(pickle.dumps(fault))
            self.assertEqual((type(found), str(found), found.name, found.members), (type(fault), str(fault), fault.name, fault.members))
        self.assertEqual((found.mine.new, found.theirs.new, found.unsure), (b"b", b"c", True))


class Alone(unittest.TestCase):
    def test_the_one_file_can_be_used_alone(self):
        code = "import gate; it = gate.Gate.start('cat'); print(it.ask('stat', doc='d')); it.close(); it.open('d', 'utf-8', b'')"
        with tempfile.TemporaryDirectory() as folder:
            shutil.copy(CLIENTS / "gate.py", folder)
            ran = subprocess.run([sys.executable, "-c", code], stdout=subprocess.PIPE, stderr=subprocess.PIPE, env={**os.environ, "PYTHONPATH": folder})
        self.assertEqual(ran.stdout, b"{'op': 'stat', 'doc': 'd', 'id': 0}\n")
        self.assertIn(b"ImportError: Document is in the folder gate_documents, which must be copied with", ran.stderr)

    def test_all_names_can_be_imported_from_it(self):
        self.assertLessEqual(set(gate_documents.__all__), set(gate.__all__))
        for name in gate.__all__:
            self.assertIsNotNone(getattr(gate, name))
        with self.assertRaisesRegex(AttributeError, "no attribute 'Documents'"):
            gate.Documents


@BUILT
class Documents(unittest.TestCase):
    def setUp(self):
        self.gate = Gate.start(PROGRAM, "stdio", "--indexes", INDEXES)
        self.addCleanup(self.gate.close)

    def test_a_truncated_sequence_is_an_error(self):
        document = self.gate.open("d", "utf-8", b"\xe2\x82A")
        self.assertEqual(document.text(), "\ufffdA")
        self.assertEqual(document.errors(), [(0, 2)])
        document.splice(2, 0, b"\xac")
        self.assertEqual((document.text(), document.errors(), document.rev), ("€A", [], 1))

    def test_an_error_has_a_place_and_positions(self):
        document = self.gate.open("d", "utf-8", b"\xff\nA\xe2\x82")
        behind = ((3, 5), (1, 1), (1, 2))
        self.assertEqual(document.diagnostics(), [((0, 1), (0, 0), (0, 1)), behind])
        self.assertEqual((document.diagnostics(1), document.diagnostics(2), document.diagnostics(0, most=0)), ([behind], [], []))

    def test_more_errors_than_a_page(self):
        document = self.gate.open("d", "utf-8", b"\xff\n" * 5)
        with mock.patch("gate_documents.questions.PAGE", 2):
            found = document.diagnostics()
        self.assertEqual(found, [((2 * line, 2 * line + 1), (line, 0), (line, 1)) for line in range(5)])

    def test_more_errors_than_a_page_from_a_line_on(self):
        document = self.gate.open("d", "utf-8", b"\xff\n" * 7)
        with mock.patch("gate_documents.questions.PAGE", 2):
            for line in 0, 1, 5, 6, 7:
                for most in 0, 1, 2, 3, 9, None:
                    found = [it[1] for it in document.diagnostics(line, most)]
                    self.assertEqual(found, [(it, 0) for it in range(line, 7)][:most], (line, most))

    def test_pages_are_those_of_one_revision(self):
        for count, new in (0, b"\xff"), (10, b""):
            with self.gate.open("d", "utf-8", b"\xff\n" * 5) as document, mock.patch("gate_documents.questions.PAGE", 2):
                other, ask, edits = self.gate.join("d"), self.gate.ask, [new]

                def ask_between(op, **fields):
                    if fields.get("from") and edits:
                        other.splice(0, count, edits.pop())
                    return ask(op, **fields)

                with mock.patch.object(self.gate, "ask", ask_between):
                    found = document.errors()
                self.assertEqual((found, edits), (other.errors(), []))

    def test_only_the_edited_bytes_differ(self):
        content = b"A\x1b$B$\"\x1b(B"
        document = self.gate.open("d", "iso-2022-jp", content)
        plan, kept = document.plan("亜", (0, 1))
        self.assertEqual((plan.at, plan.old, plan.new, kept, document.rev), (1, b"", b"\x1b$B0!", True, 0))
        edit = document.change("亜", (0, 1))
        self.assertEqual((edit.at, edit.old, edit.new), (1, b"", b"\x1b$B0!"))
        self.assertEqual(document.source(), b"A\x1b$B0!\x1b$B$\"\x1b(B")
        self.assertEqual(document.bytes, document.source())

    def test_without_memory_for_a_reply_bytes_are_read_by_parts(self):
        content, ask, send, edits = bytes(range(256)) * 8, self.gate.ask, self.gate.send_lines, [b"x"]
        document, other = self.gate.open("d", "utf-8", content), self.gate.join("d")

        def ask_between(op, **fields):
            if op == "source" and fields["len"] > 700:
                raise Fault({"fault": "OutOfMemory"})
            if op == "source" and fields["at"] and edits:
                other.splice(0, 1, edits.pop())
            return ask(op, **fields)

        def send_other(lines, **how):
            return send([[it[0].replace(b'"len": 2048', b'"len": 9999'), *it[1:]] for it in lines], **how)

        with mock.patch.object(self.gate, "ask", ask_between):
            self.assertEqual(document.source(), b"x" + content[1:])
            with mock.patch("gate_documents.questions.FEWEST", 2000):
                self.assertRaisesRegex(Fault, "OutOfMemory", document.source)
            with mock.patch.object(self.gate, "send_lines", send_other):
                document.refresh()
        self.assertEqual((document.bytes, document.rev), (b"x" + content[1:], 1))

    def test_bytes_that_are_read_by_parts_may_be_made_fewer_in_between(self):
        document, ask, send, edits = self.gate.open("d", "utf-8", b"abcdef"), self.gate.ask, self.gate.send_lines, [1, 2]
        other = self.gate.join("d")

        def ask_between(op, **fields):
            if op == "source" and edits:
                other.splice(0, edits.pop(), b"")
            return ask(op, **fields)

        def send_other(lines, **how):
            return send([[re.sub(rb'"len": \d+', b'"len": 9999', it[0]) if edits else it[0], *it[1:]] for it in lines], **how)

        with mock.patch.object(self.gate, "ask", ask_between), mock.patch.object(self.gate, "send_lines", send_other):
            document.refresh()
        self.assertEqual((document.bytes, document.rev, edits), (b"def", 2, []))

    def test_a_change_whose_plan_is_refused_is_made(self):
        document, send = self.gate.open("d", "utf-8", b"a\xffb"), self.gate.send_lines

        def send_other(lines, **how):
            return send([[it[0].replace(b'"plan", "doc": "d"', b'"plan", "doc": "n"'), *it[1:]] for it in lines], **how)

        with mock.patch.object(self.gate, "send_lines", send_other):
            edit = document.change("xy", (0, 1), (0, 2))
        self.assertEqual((edit.at, edit.old, edit.new, document.bytes, document.source()), (1, b"\xff", b"xy", b"axyb", b"axyb"))

    def test_undo_is_to_the_byte(self):
        # The text of the damaged byte is U+FFFD, whose bytes are others.
        document = self.gate.open("d", "utf-8", b"a\xffb")
        edit = document.change("", (0, 0), (0, 3))
        self.assertEqual(document.bytes, b"")
        document.undo(edit)
        self.assertEqual((document.bytes, document.source()), (b"a\xffb", b"a\xffb"))

    def test_undo_of_more_than_a_line_has_room_for(self):
        content = "日本語\n".encode() * 3
        document = self.gate.open("d", "utf-8", content)
        with mock.patch("gate_documents.document.ROOM", 7):
            edit = document.change("x", (0, 0), (2, 1))
            redo = document.undo(edit)
            self.assertEqual((document.bytes, document.source(), document.rev), (content, content, 5))
            self.assertEqual((redo.at, redo.old, redo.new), (0, b"x", content[:23]))
            document.undo(redo)
        self.assertEqual((document.text(), document.source()), ("x本語\n", document.bytes))

    def test_a_text_is_replaced_by_bytes_that_are_given(self):
        document = self.gate.open("d", "shift_jis", b"a\x81\x41b\xff")
        gone = document.change("", (0, 1), (0, 2))
        edit = document.replace("\ufffd", b"\xfe", (0, 2), (0, 3))
        self.assertEqual((document.bytes, document.source(), document.rev), (b"ab\xfe", b"ab\xfe", 2))
        self.assertEqual((edit.at, edit.old, edit.new), (2, b"\xff", b"\xfe"))
        with self.assertRaises(Fault) as refused:
            document.replace("x", b"y", (0, 1), (0, 2))
        self.assertEqual((refused.exception.name, document.bytes, document.rev), ("NotKept", b"ab\xfe", 2))
        self.assertEqual(document.replace("\u3001", gone.old, (0, 1)).new, b"\x81\x41")
        self.assertEqual(document.source(), b"a\x81\x41b\xfe")
        self.assertEqual(document.replace("", b"").old, document.undo(Edit(0, b"a\x81\x41b\xfe", b"")).new)

    def test_given_bytes_are_stale_if_others_were_first(self):
        document = self.gate.open("d", "utf-8", b"a")
        self.gate.ask("splice", doc="d", rev=0, at=0, **{"del": 0, "bytes": b"b"})
        with self.assertRaises(Fault) as refused:
            document.replace("c", b"c", (0, 0))
        self.assertEqual((refused.exception.name, document.bytes), ("Stale", b"a"))

    def test_a_list_of_changes_is_one_edit(self):
        content = "a😀\r\nb".encode()
        document = self.gate.open("d", "utf-8", content)
        edit = document.changes([("x", (0, 1), (0, 3)), ("yz", (1, 0), (1, 1))])
        self.assertEqual((document.text(), document.rev), ("ax\r\nyz", 1))
        self.assertEqual((edit.at, edit.old, edit.new), (1, content[1:], b"x\r\nyz"))
        self.assertEqual(document.bytes, document.source())
        document.undo(edit)
        self.assertEqual((document.bytes, document.source()), (content, content))
        edit = document.changes([("aa", (0, 0)), ("", (0, 1), (0, 2))])
        self.assertEqual((document.text(), edit.old, edit.new), ("aa😀\r\nb", b"", b"a"))
        self.assertEqual((document.changes([]).new, document.rev), (b"", 4))

    def test_a_list_of_changes_is_refused_as_a_whole(self):
        document = self.gate.open("d", "utf-8", b"a")
        with self.assertRaises(Fault) as refused:
            document.changes([("a😀",), ("x", (0, 2))])
        self.assertEqual((refused.exception.name, refused.exception.members), ("SplitsCharacter", {"change": 1}))
        self.assertEqual((document.rev, document.bytes, document.source()), (0, b"a", b"a"))

    def test_a_list_of_changes_of_a_document_that_is_replaced_just_then(self):
        document = self.gate.open("d", "utf-8", b"one")
        made = document._make

        def make_and_replace(*words):
            found = made(*words)
            self.gate.ask("close", doc="d")
            self.gate.open("d", "utf-8", b"another")
            return found

        with mock.patch.object(document, "_make", make_and_replace):
            edit = document.changes([("two", (0, 0), (0, 3))])
        self.assertEqual((edit.anew, document.bytes, document.rev), (True, b"another", 0))

    def test_a_refusal_is_an_exception_with_its_members(self):
        document = self.gate.open("d", "windows-1252", b"A")
        with self.assertRaises(Fault) as refused:
            document.change("あ", (0, 1))
        self.assertEqual((refused.exception.name, refused.exception.members), ("Unencodable", {"code_point": 12354, "index": 0}))
        self.assertEqual((document.rev, document.source()), (0, b"A"))

    def test_parts_of_a_large_document_may_cut_characters(self):
        content = "日本語".encode() * 50
        document = Document(self.gate, "d", "utf-8", content, room=7)
        self.assertEqual((document.text(), document.source(), document.errors()), (content.decode(), content, []))

    def test_a_mark_that_is_kept_is_text(self):
        content = b"\xef\xbb\xbfA"
        found = self.gate.open("found", "windows-1252", content)
        self.assertEqual((found.text(), found.encoding, found.bom), ("A", "UTF-8", 3))
        kept = self.gate.open("kept", "utf-8", content, bom="keep")
        self.assertEqual((kept.text(), kept.encoding, kept.bom), ("\ufeffA", "UTF-8", 0))
        kept.undo(kept.change("\ufeffx"))
        self.assertEqual((kept.bytes, kept.source(), kept.bom), (content, content, 0))
        with self.assertRaises(Fault) as refused:
            self.gate.open("neither", "utf-8", content, bom="drop")
        self.assertEqual((refused.exception.name, refused.exception.members), ("BadRequest", {"field": "bom"}))

    def test_parts_of_a_kept_mark(self):
        document = Document(self.gate, "d", "utf-8", b"\xef\xbb\xbfA", bom="keep", room=1)
        self.assertEqual((document.text(), document.bom, document.errors()), ("\ufeffA", 0, []))

    def test_more_commands_than_the_window(self):
        document = self.gate.open("d", "utf-8", b"a" * 1000)
        replies = [self.gate.send("text", doc="d", **{"from": at, "to": 1000}) for at in range(4 * WINDOW)]
        self.assertEqual([len(it.get()["text"]) for it in replies], [1000 - at for at in range(4 * WINDOW)])
        document.close()

    def test_replies_that_fill_the_pipe_block_nobody(self):
        # More than a megabyte of replies, and of commands, before the first reply is read: more than pipes hold.
        text = "あ" * 6_000
        self.gate.send_open("d", "utf-8", text.encode())
        replies = []
        for at in range(WINDOW):
            self.gate.send_open(f"d{at}", "utf-8", text.encode())
            replies.append(self.gate.send("text", doc="d", **{"from": at, "to": len(text)}))
            self.gate.send("close", doc=f"d{at}")
        self.assertEqual([len(it.get()["text"]) for it in replies], [len(text) - at for at in range(WINDOW)])

    def test_threads_share_a_connection(self):
        texts = [chr(0x3042 + it) * 500 for it in range(8)]

        def work(text):
            for _ in range(10):
                document = self.gate.open(text[0], "utf-8", text.encode())
                if document.text() != text:
                    return False
                document.close()
            return True

        with concurrent.futures.ThreadPoolExecutor(len(texts)) as pool:
            self.assertEqual(list(pool.map(work, texts)), [True] * len(texts))

    def test_behind_a_line_that_was_interrupted_nothing_is_sent(self):
        document, ends = self.gate.open("d", "utf-8", b"abc"), self.gate._ends

        def interrupt(data):
            ends.put(data[:10])
            raise KeyboardInterrupt()

        with mock.patch.object(self.gate, "_ends", ends._replace(put=interrupt)):
            self.assertRaises(KeyboardInterrupt, document.text)
        replies = [self.gate.send("text", doc="d", **{"from": 0, "to": to}) for to in (1, 2)]
        self.assertRaises(Gone, replies[0].get)

    def test_closing_needs_no_reply_read(self):
        with Gate.start(PROGRAM, "stdio", "--indexes", INDEXES) as gate:
            gate.send_open("d", "utf-8", b"a" * 300_000)
            unread = [gate.send("text", doc="d", **{"from": 0, "to": 300_000}) for _ in range(3)]
        self.assertEqual([len(it.get()["text"]) for it in unread], [300_000] * 3)

    def test_what_is_closed_is_not_closed_again(self):
        with self.gate.open("d", "utf-8", b"a") as document:
            document.close()
            self.gate.open("d", "utf-8", b"b")
        with self.gate.join("d") as document:
            self.assertEqual(document.bytes, b"b")
            document.close()
            document.reopen()
        with self.assertRaisesRegex(Fault, "NoDocument"):
            self.gate.join("d")

    def test_guessed_revisions_behind_a_refusal_are_stale(self):
        self.gate.open("d", "windows-1252", b"")
        sent = [self.gate.send("change", doc="d", rev=rev, text=text) for rev, text in enumerate(["a", "あ", "b"])]
        self.assertEqual(sent[0].get()["rev"], 1)
        for reply, name in (sent[1], "Unencodable"), (sent[2], "Stale"):
            with self.assertRaises(Fault) as refused:
                reply.get()
            self.assertEqual(refused.exception.name, name)

    def test_lines_positions_and_places(self):
        document = self.gate.open("d", "utf-8", "a😀\r\nb".encode())
        self.assertEqual(document.lines(), [(0, 2), (4, 5)])
        self.assertEqual((document.position(2), document.offset((0, 3))), ((0, 3), 2))
        self.assertEqual(document.place(1)["place"], [1, 5])

    def test_many_questions_at_once(self):
        document = self.gate.open("d", "utf-8", "aあ".encode() * 100)
        places = [(it["utf32"], it["place"]) for it in self.gate.ask_all("place", "value", range(200), doc="d", unit="utf-32")]
        self.assertEqual(places, [(it, [it // 2 * 4 + it % 2, it // 2 * 4 + (4 if it % 2 else 1)]) for it in range(200)])
        self.assertEqual(list(document.spans([(0, 2), (1, 4), (199, 200)])), [(0, 4), (1, 8), (397, 400)])
        self.assertEqual(list(self.gate.ask_all("place", "value", [], doc="d", unit="utf-32")), [])

    def test_no_bytes_are_behind_the_text(self):
        document = self.gate.open("d", "utf-8", b"abc")
        for begin, end in (0, 4), (3, 4), (0, 5):
            with self.assertRaisesRegex(Fault, "OutOfRange"):
                document.span(begin, end)

    def test_a_refusal_among_many_questions(self):
        self.gate.open("d", "utf-8", b"a")
        with self.assertRaises(Fault) as refused:
            list(self.gate.ask_all("place", "value", [0] * 40 + [9] + [1] * 200, doc="d", unit="utf-32"))
        self.assertEqual(refused.exception.name, "OutOfRange")
        self.assertEqual(self.gate.ask("stat", doc="d")["bytes"], 1)

    def test_the_text_in_another_encoding(self):
        document = self.gate.open("d", "shift_jis", b"\x82\xa0")
        self.assertEqual(document.encode("utf-8"), "あ".encode())


@BUILT
class Connections(unittest.TestCase):
    def test_two_clients_one_after_another(self):
        port = free_port()
        program = subprocess.Popen([PROGRAM, "tcp", "--indexes", INDEXES, "--port", str(port), "--serve", "2"])
        self.addCleanup(program.wait)
        self.addCleanup(program.kill)
        with Gate.connect(port, patience=LIMIT) as first:
            first.open("d", "utf-8", b"kept")
        with Gate.connect(port) as second:
            self.assertEqual(second.ask("text", doc="d", **{"from": 0, "to": 4})["text"], "kept")
        self.assertEqual(program.wait(LIMIT), 0)

    def test_whoever_sends_while_another_closes_is_told(self):
        gate = Gate.start("sleep", "0.1")
        read, replies = gate._read, []

        def meanwhile(patience):
            if not replies:
                replies.append(gate.send("stat", doc="d"))
            read(patience)

        with mock.patch.object(gate, "_read", meanwhile):
            gate.close()
        self.assertRaises(Gone, replies[0].get)
        # (as where it is sent just as the connection ends)
        late = Reply(gate)
        gate._waiting.append(late)
        self.assertRaises(Gone, late.get)

    def test_a_way_that_breaks_is_told(self):
        broken = OSError(errno.EHOSTUNREACH, "No route to host")
        for name, put in ("reading", None), ("writing", mock.Mock(side_effect=broken)):
            with self.subTest(name), Gate.start("cat") as gate:
                gate._ends = gate._ends._replace(put=put or gate._ends.put)
                with mock.patch("gate.os.read", side_effect=None if put else broken, return_value=b""):
                    self.assertRaises(Gone, gate.ask, "stat", doc="d")

    def test_a_program_that_says_what_nobody_asked_for_is_ended(self):
        Gate.start("echo", "hello").close()

    def test_a_program_that_ends_is_told(self):
        with Gate.start("false") as gate:
            for _ in range(3):
                with self.assertRaises(Gone):
                    gate.ask("stat", doc="d")


if __name__ == "__main__":
    unittest.main()

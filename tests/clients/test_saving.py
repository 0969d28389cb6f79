"""Edited texts saved into legacy bytes, over the program as it was built: crates/gate/out/gate, or the one that the
variable GATE names."""
import collections
import errno
import sys
import time
import unittest
from unittest import mock

from checkout import BUILT, PROGRAM, TOP
import indexes
from gate import Gate, Gone, Reply
from legacy import documents, saving
from legacy.documents import LARGE, Last
from legacy.saving import Known, Refused, read, save

sys.path.insert(0, str(TOP / "editors" / "damage"))


class OverGate(unittest.TestCase):
    @classmethod
    def setUpClass(cls):
        cls.gate = Gate.start(PROGRAM, "stdio", "--indexes", str(indexes.folder()))
        cls.addClassCleanup(cls.gate.close)

    def save_edit(self, label, old, edit, others=()):
        """The bytes that an edit of the text of some bytes leads to."""
        base = read(self.gate, label, old)
        after = save(self.gate, label, base, edit(base.text), [read(self.gate, label, it) for it in others])
        self.assertEqual(read(self.gate, label, after.raw), after)
        return after.raw

    def refusal_of(self, label, old, edit):
        with self.assertRaises(Refused) as refused:
            self.save_edit(label, old, edit)
        return refused.exception


@BUILT
class Edits(OverGate):
    def test_the_files_of_the_page_on_damage(self):
        from files import FILES
        for file in FILES:
            with self.subTest(file=file.name):
                after = read(self.gate, file.label, file.after)
                self.assertEqual(self.save_edit(file.label, file.before, lambda _: after.text), file.after)
                self.assertEqual(self.save_edit(file.label, file.after, lambda old: old), file.after)

    def test_random_edits(self):
        import draws
        found = collections.Counter()
        for name, drawn, what in draws.outcomes(self.gate, 6, 59):
            with self.subTest(name=name, how=drawn.how, text=drawn.text):
                self.assertNotIn(what, ("WRONG", "refused"))
            if not name.startswith("iso-2022-jp"):
                found[what] += 1
        self.assertGreater(found["exact"], 45, found)

    def test_lines_that_are_known_keep_their_bytes(self):
        # Bytes that are no text, and a character that an encoder gives other bytes.
        bad, twice = b"\x82\xa0\xff\x82\xa2", b"\x87\x90 \x81\xe0"
        lines = [b"first", bad, b"\x82\xa4", twice, b"last"]
        for label, order in [("moved", [3, 0, 2, 1, 4]), ("copied", [0, 1, 2, 3, 1, 4, 3]), ("turned", [4, 3, 2, 1, 0])]:
            with self.subTest(label):
                self.assertEqual(
                    self.save_edit("shift_jis", b"\r\n".join(lines), lambda old: "\r\n".join(old.split("\r\n")[n] for n in order)),
                    b"\r\n".join(lines[n] for n in order))

    def test_lines_restored_from_what_the_file_had_before(self):
        before = b"a\n\x82\xa0\xff\nb\n"
        after = self.save_edit("shift_jis", before, lambda _: "a\nb\n")
        restored = self.save_edit("shift_jis", after, lambda _: read(self.gate, "shift_jis", before).text, [before])
        self.assertEqual((after, restored), (b"a\nb\n", before))

    def test_what_is_appended_behind_a_torn_character(self):
        # It stays, or the text is refused; it never becomes another damage, or the character U+FFFD.
        others = [b"\x80zz\n", b"a\n\x80zz\n"]
        for label, torn in (("gb18030", b"\x83"), ("euc-kr", b"\x83"), ("shift_jis", b"\x83"), ("euc-jp", b"\xa4"), ("big5", b"\xa4"),
                            ("utf-8", b"\xe3\x81"), ("gbk", b"\x83")):
            for added in "zz\n", "\nzz\n", "\u20ac", " x":
                base = b"first\n" + torn
                with self.subTest(label=label, added=added):
                    try:
                        self.assertTrue(self.save_edit(label, base, lambda old: old + added, others).startswith(base))
                    except Refused as refused:
                        self.assertEqual(refused.errno, errno.EILSEQ)
        for label, feed in ("utf-16le", b"\n\0"), ("utf-16be", b"\0\n"):
            for added in "zz\n", "z", "\n":
                with self.subTest(label=label, added=added):
                    self.assertEqual(self.refusal_of(label, "first".encode(label) + feed + b"A", lambda old: old + added).errno, errno.EILSEQ)
                    # (in front of it there is room)
                    self.assertEqual(self.save_edit(label, feed + b"A", lambda old: added + old), added.encode(label) + feed + b"A")

    def test_damage_never_becomes_the_character(self):
        for label, old, edit in (("gb18030", b"a\x83", lambda old: old.replace("\ufffd", "\ufffdzz")), ("utf-16le", b"a\0A", lambda old: "b" + old + "c"),
                                 ("gb18030", b"x\x83\ny\n", lambda old: old.replace("\ufffd", "\ufffdzz"))):
            with self.subTest(label=label, old=old):
                self.assertEqual(self.refusal_of(label, old, edit).errno, errno.EILSEQ)
        # Who types it gets it, and who takes damage away may do so.
        self.assertEqual(self.save_edit("utf-8", b"a\xff\n", lambda old: old + "\ufffd"), b"a\xff\n\xef\xbf\xbd")
        self.assertEqual(self.save_edit("utf-8", b"a\xff\xff\n", lambda old: "b\ufffd\n"), b"b\xff\n")

    def test_lines_of_other_files(self):
        content = self.save_edit("shift_jis", b"", lambda _: "\u3042\ufffd\n\u3044\n", [b"x\n\x82\xa0\xff\n", b"\x82\xa2\n"])
        self.assertEqual(content, b"\x82\xa0\xff\n\x82\xa2\n")

    def test_a_line_that_is_moved_and_edited_at_once(self):
        bad = b"\x90\x7d\x8f\x91\xff\x8a\xd9 and \xfd here"
        self.assertEqual(
            self.save_edit("shift_jis", b"1\n" + bad + b"\n2\n3\n", lambda old: f"1\n2\n3\nnew {old.split(chr(10))[1][:-4]}\n"),
            b"1\n2\n3\nnew " + bad[:-4] + b"\n")
        # JIS X 0212, which EUC-JP has no bytes for.
        rare = b"\xbf\xde\x8f\xb0\xa1\x8f\xb0\xa2\xbd\xf1"
        self.assertEqual(
            self.save_edit("euc-jp", rare + b"\n1\n2\n", lambda old: f"1\n2\nx{old[:4]}\n"), b"1\n2\nx" + rare + b"\n")
        # Little of it is left; and two lines were joined.
        self.assertEqual(
            self.save_edit("euc-jp", b"1\n" + rare + b"\n", lambda old: f"{old[3]}yy\u3042zz\n1\n"), b"\x8f\xb0\xa1yy\xa4\xa2zz\n1\n")
        self.assertEqual(
            self.save_edit("euc-jp", rare + b"\nsecond line\n1\n", lambda old: f"1\n{old[:4]}nd line\n"), b"1\n" + rare + b"nd line\n")
        # The line that it is like stays.
        self.assertEqual(
            self.save_edit("euc-jp", rare + b"\n1\n", lambda old: f"{old}x{old[:3]}\n"), rare + b"\n1\nx" + rare[:-2] + b"\n")

    def test_many_equal_lines_that_are_all_edited(self):
        line, began = b"\x82\xa0\x82\xa2\x82\xa4 a line\n", time.process_time()
        self.assertEqual(self.save_edit("shift_jis", line * 2000, lambda old: old.replace("line", "row")), line.replace(b"line", b"row") * 2000)
        self.assertLess(time.process_time() - began, 4)

    def test_rewrapped_text_keeps_its_damage(self):
        words = [b"\x82\xa0\xff", b"\x87\x90", b"\x82\xa2\x82\xa4", b"\xfd"] * 12
        old = b"".join(it + (b"\n" if n % 3 == 2 else b" ") for n, it in enumerate(words))
        new = b"".join(it + (b"\n" if n % 5 == 4 else b" ") for n, it in enumerate(words))
        text = read(self.gate, "shift_jis", new).text
        self.assertEqual(self.save_edit("shift_jis", old, lambda _: text), new)

    def test_line_ends(self):
        for old, edit, new in [
            (b"\xff\r\n\xfd\n\r\rx\r\n", lambda old: old.replace("\r\n", "\n"), b"\xff\n\xfd\n\r\rx\n"),
            (b"\xff\n\xfd\r\n\n", lambda old: old.replace("\r\n", "\n").replace("\n", "\r\n"), b"\xff\r\n\xfd\r\n\r\n"),
            (b"\xff\r\n\xfd", lambda old: old.replace("\r", "\ra"), b"\xff\ra\n\xfd"),
            (b"\xff\r\xfd\r", lambda old: old.replace("\r", "\r\n"), b"\xff\r\n\xfd\r\n"),
            (b"\xff\r\n\xfd\n", lambda old: old.rstrip("\n"), b"\xff\r\n\xfd"),
            (b"\xff\r\n", lambda old: old.replace("\n", ""), b"\xff\r"),
            (b"\xff\r\n", lambda old: old.replace("\r", ""), b"\xff\n"),
        ]:
            with self.subTest(old=old, new=new):
                self.assertEqual(self.save_edit("shift_jis", old, edit), new)

    def test_between_two_characters_of_one_pair(self):
        # 88 62 is U+00CA U+0304, which no encoder writes; what is edited there is replaced with its neighbours.
        self.assertEqual(self.save_edit("big5", b"a\x88\x62b", lambda old: "x" + old[1:]), b"x\x88\x62b")
        self.assertEqual(self.save_edit("big5", b"a\x88\x62b", lambda _: "ab"), b"ab")
        self.assertEqual(self.refusal_of("big5", b"a\x88\x62b", lambda _: "a\u00cab").errno, errno.EILSEQ)

    def test_escapes(self):
        # Lines that begin and end in ASCII are moved as they are; others are encoded anew.
        one, other = b"\x1b$B$\"\x1b$B$$\x1b(B", b"\x1b(J\\"
        self.assertEqual(
            self.save_edit("iso-2022-jp", one + b"\nx\n" + other + b"\n", lambda old: "x\n" + old.split("\n")[0] + "\n\u00a5\n"),
            b"x\n" + one + b"\n" + other + b"\n")

    def test_marks(self):
        mark = b"\xff\xfe"
        self.assertEqual(self.save_edit("utf-16le", mark, lambda _: "é\r\n"), mark + "é\r\n".encode("utf-16-le"))
        self.assertEqual(self.save_edit("utf-16le", mark + b"\x3d\xd8a\0", lambda old: old + "é"), mark + b"\x3d\xd8a\0\xe9\0")
        self.assertEqual(self.save_edit("utf-8", b"\xef\xbb\xbfa\xff", lambda old: "b" + old), b"\xef\xbb\xbfba\xff")
        refused = self.refusal_of("utf-8", b"a", lambda old: "\ufeff" + old)
        self.assertEqual((refused.errno, refused.line, refused.character), (errno.EILSEQ, 1, 1))

    def test_texts_longer_than_a_change_and_a_page(self):
        with mock.patch.multiple(saving, PIECE=5, PAGE=7, CHANGES=3), mock.patch.multiple(documents, PAGE=7, ROOM=11):
            text = "図書館の計画\r\n" * 9
            self.assertEqual(self.save_edit("shift_jis", b"", lambda _: text), text.encode("cp932"))
            self.assertEqual(
                self.save_edit("shift_jis", text.encode("cp932") + b"\xff", lambda old: text.replace("計", "a") + "\ufffd"),
                text.replace("計", "a").encode("cp932") + b"\xff")


@BUILT
class Refusals(OverGate):
    def test_what_a_person_reads(self):
        for label, old, edit, said in [
            ("windows-1252", b"one\ntwo\n", lambda old: old + "x\u304b", "line 3, character 2: U+304B HIRAGANA LETTER KA has no "
             "bytes in windows-1252"),
            ("shift_jis", b"a\n", lambda old: old + "\ufffd", "line 2, character 1: U+FFFD stands for bytes that are no Shift_JIS; "
             "where it is typed or copied, those bytes can't be made from it"),
            ("iso-2022-jp", b"a", lambda old: old + "\x1b", "line 1, character 2: U+001B is a control that ISO-2022-JP keeps to "
             "itself"),
            ("shift_jis", b"a", lambda old: old + "\u00a5", "line 1, character 2: its bytes, beside those that are there, would be "
             "another text in Shift_JIS"),
            ("replacement", b"a", lambda old: old + "b", "line 1, character 2: replacement can only be read"),
        ]:
            with self.subTest(said):
                refused = self.refusal_of(label, old, edit)
                self.assertEqual((refused.errno, str(refused)), (errno.EILSEQ, said))

    def test_too_long(self):
        refused = self.refusal_of("utf-8", b"a", lambda old: "a" * (1 << 24) + old)
        self.assertEqual(refused.errno, errno.EFBIG)

    def test_a_label_that_is_none(self):
        with self.assertRaises(Refused) as refused:
            read(self.gate, "klingon", b"")
        self.assertEqual(refused.exception.errno, errno.EIO)

    def test_no_document_stays_open(self):
        for _ in range(70):
            self.refusal_of("windows-1252", b"", lambda _: "\u304b")
            self.save_edit("windows-1252", b"", lambda _: "é")


@BUILT
class Open(OverGate):
    """A large document that is left open."""

    def setUp(self):
        self.last, self.opened = Last(), []
        send_open = self.gate.send_open
        opening = mock.patch.object(self.gate, "send_open", lambda *words: (self.opened.append(words[0]), send_open(*words))[1])
        opening.start()
        self.addCleanup(opening.stop)
        self.addCleanup(self.close)

    def close(self):
        with self.last.open_document(self.gate, "shift_jis", b""):
            pass

    def test_it_is_opened_once_for_a_reading_and_for_saves_behind_it(self):
        raw = b"\xff\x82\xa0 line %s\n" % (b"." * 99) * (LARGE // 99)
        base = read(self.gate, "shift_jis", raw, self.last)
        for old, new in (b"line", b"lime"), (b"\x82\xa0", b"\x88\x9f"), (b" l", b"  l"):
            edited = base.text.replace(old.decode("cp932"), new.decode("cp932"), 3)
            after = save(self.gate, "shift_jis", base, edited, last=self.last)
            self.assertEqual(after.raw, base.raw.replace(old, new, 3))
            base = after
        many = save(self.gate, "shift_jis", base, base.text.replace("i", "I"), last=self.last)
        self.assertEqual(many.raw, base.raw.replace(b"i", b"I"))
        back = save(self.gate, "shift_jis", many, base.text, last=self.last)
        self.assertEqual((back.raw, len(self.opened)), (base.raw, 1))

    def test_other_bytes_and_another_label_have_one_of_their_own(self):
        for label, raw in ("shift_jis", b"a" * LARGE), ("shift_jis", b"b" * LARGE), ("euc-jp", b"b" * LARGE):
            for _ in range(2):
                self.assertEqual(read(self.gate, label, raw, self.last), Known(raw, raw.decode(), {"e": "EUC-JP"}.get(label[0], "Shift_JIS"), 0))
        self.assertEqual(len(self.opened), 3)

    def test_behind_a_refusal_and_for_a_small_one_it_is_closed(self):
        base = read(self.gate, "shift_jis", b"\xff%s\n" % (b"a" * 999) * (LARGE // 999), self.last)
        for number in range(70):
            with self.assertRaises(Refused):
                save(self.gate, "shift_jis", base, base.text + f"{number}é", last=self.last)
            read(self.gate, "shift_jis", b"%d" % number, self.last)
        self.assertEqual(save(self.gate, "shift_jis", base, base.text + "b", last=self.last).raw, base.raw + b"b")


class Falsified(Reply):
    """A reply whose text is another one than `gate` sent."""

    def __init__(self, gate, reply):
        super().__init__(gate)
        self.reply = reply

    def get(self):
        return {**self.reply.get(), "text": "x" * len(self.reply.get()["text"])}


@BUILT
class Trust(OverGate):
    def test_bytes_come_back_only_with_the_text_that_was_to_be_saved(self):
        base = read(self.gate, "shift_jis", b"a\xff")
        send = self.gate.send
        with mock.patch.object(
                self.gate, "send", lambda op, **fields: Falsified(self.gate, send(op, **fields)) if op == "text" else send(op, **fields)):
            with self.assertRaises(Refused) as refused:
                save(self.gate, "shift_jis", base, "b\ufffd")
        self.assertEqual(refused.exception.errno, errno.EILSEQ)

    def test_known_bytes_that_are_another_text(self):
        # Whoever calls was wrong about its bytes.
        with self.assertRaises(Refused):
            save(self.gate, "shift_jis", Known(b"xa\n", "ya\n", "Shift_JIS", 0), "ya\nb")

    def test_a_few_edits_are_one_round_trip(self):
        base = read(self.gate, "shift_jis", b"a\xff\nb\xff\n")
        order = []
        send, get = self.gate.send, Reply.get
        with mock.patch.object(self.gate, "send", lambda op, **fields: (order.append(op), send(op, **fields))[1]), \
                mock.patch.object(Reply, "get", lambda self: (order.append("wait"), get(self))[1]):
            self.assertEqual(save(self.gate, "shift_jis", base, "A\ufffd\nB\ufffd\n").raw, b"A\xff\nB\xff\n")
        self.assertEqual([it for it in order[order.index("wait") :] if it != "wait"], ["close"])

    def test_a_program_that_ends(self):
        with Gate.start("false") as gate:
            with self.assertRaises(Gone):
                save(gate, "shift_jis", Known(b"a", "a", "Shift_JIS", 0), "b")


if __name__ == "__main__":
    unittest.main()

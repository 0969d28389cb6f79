"""The language server, as an editor speaks to it."""
import os
import pathlib
import signal
import time
import unittest
from typing import Any, List, Tuple

from checkout import BUILT, PROGRAM
from language import LIMIT, Editor, Folder, editing
from legacy.lsp.forms import forms_of
from legacy.lsp.programs import MOST


def children_of(editor: Editor) -> List[int]:
    """The programs that an editor's server has started."""
    path = pathlib.Path(f"/proc/{editor.process.pid}/task/{editor.process.pid}/children")
    return [int(it) for it in path.read_text(encoding="ascii").split()]


@BUILT
class Serving(Folder):
    def test_it_begins_and_ends(self) -> None:
        for unit, chosen in ("utf-8", "utf-8"), ("utf-32", "utf-32"), ("utf-16", "utf-16"), ("x", "utf-16"):
            with editing(self.folder, unit=unit) as editor:
                capabilities = editor.initialized["capabilities"]
                self.assertEqual((capabilities["positionEncoding"], capabilities["textDocumentSync"]["change"]), (chosen, 2))
                self.assertEqual(editor.request("initialize")["code"], -32600)
                self.assertEqual(editor.end(), 0)
        with editing(self.folder, unit=None) as editor:
            self.assertEqual(editor.request("shutdown")["code"], -32002)
            editor.notify("exit")
            self.assertEqual(editor.process.wait(LIMIT), 1)
        with editing(self.folder) as editor:
            self.assertIsNone(editor.request("shutdown"))
            self.assertEqual(editor.request("shutdown")["code"], -32600)
            editor.stdin.close()
            self.assertEqual(editor.process.wait(LIMIT), 0)
        with editing(self.folder) as editor:
            editor.stdin.write(b"Content-Length: x\r\n\r\n")
            editor.stdin.close()
            self.assertEqual(editor.process.wait(LIMIT), 1)

    def test_damage_has_its_bytes_and_its_place(self) -> None:
        name = self.file("a.sjis", b"a\n\xff\x82\xa0\x81\n")
        with editing(self.folder) as editor:
            found = editor.open(name, "a\n\ufffdあ\ufffd\n")
            self.assertEqual(found, [
                ("damage", (1, 0), (1, 1), "FF: bytes 2 to 2 don't decode as Shift_JIS."), ("damage", (1, 2), (1, 3), "81: bytes 5 to 5 don't decode as Shift_JIS.")])
            status = editor.status[editor.uri(name)]
            self.assertEqual([status[it] for it in ("label", "encoding", "origin", "damaged", "lacking", "lineEnds", "reason")],
                             ["shift_jis", "Shift_JIS", ".gitattributes:1", 2, 0, "shown", None])
            self.assertEqual(editor.change(name, 1, ("", (1, 0), (1, 1)))[0][:3], ("damage", (1, 1), (1, 2)))
            editor.notify("textDocument/didClose", textDocument={"uri": editor.uri(name)})
            while editor.next().get("method") != "textDocument/publishDiagnostics":
                pass
            self.assertEqual(editor.rows(name), [])

    def test_a_character_without_bytes_is_told_while_it_is_typed(self) -> None:
        name = self.file("a.sjis", b"ab\n")
        with editing(self.folder, "--debounce", "50") as editor:
            self.assertEqual(editor.open(name, "ab\n"), [])
            start = time.monotonic()
            self.assertEqual([it[:3] for it in editor.change(name, 1, ("é😀\ufffd", (0, 1)))], [
                ("unencodable", (0, 1), (0, 2)), ("unencodable", (0, 2), (0, 4)), ("damage-typed", (0, 4), (0, 5))])
            self.assertIn("U+00E9 LATIN SMALL LETTER E WITH ACUTE has no bytes in Shift_JIS", editor.rows(name)[0][3])
            self.assertEqual([it[1] for it in editor.change(name, 2, ("あ", (0, 0)), ("", (0, 3), (0, 5)))], [(0, 2), (0, 3)])
            self.assertEqual(editor.status[editor.uri(name)]["lacking"], 2)
            self.assertEqual(editor.change(name, 3, ("", (0, 2), (0, 4))), [])
            self.assertLess(time.monotonic() - start, 50)

    def test_line_ends_that_an_editor_hides_or_shows(self) -> None:
        name = self.file("a.sjis", b"a\r\nb\n\xff\r\n")
        with editing(self.folder, "--debounce", "0") as editor:
            self.assertEqual([it[:2] for it in editor.open(name, "a\nb\n\ufffd\n")], [("damage", (2, 0)), ("line-ends", (0, 0))])
            self.assertEqual([it[:2] for it in editor.change(name, 1, ("x\ny", (0, 1)), ("é", (3, 1)))], [
                ("unencodable", (3, 1)), ("damage", (3, 0)), ("line-ends", (0, 0))])
        name = self.file("b.sjis", b"a\rb\r\n\xff")
        with editing(self.folder, "--debounce", "0") as editor:
            self.assertEqual([it[:3] for it in editor.open(name, "a\rb\r\n\ufffd")], [("damage", (1, 0), (1, 1))])
            self.assertEqual([it[:3] for it in editor.change(name, 1, ("é", (0, 3)), ("x", (0, 5)), ("", (0, 0), (0, 1)))], [
                ("unencodable", (0, 2), (0, 3)), ("damage", (1, 0), (1, 1))])

    def test_a_text_that_is_not_the_files(self) -> None:
        name = self.file("a.sjis", b"a\nb\x82\xa0\n")
        with editing(self.folder, "--debounce", "0") as editor:
            [(code, start, _, text)] = editor.open(name, "a\nbxy\n")
            self.assertEqual((code, start), ("not-followed", (1, 0)))
            self.assertIn("another text than the file's bytes in shift_jis", text)
            self.assertEqual(editor.change(name, 1, ("é", (0, 0)))[0][0], "not-followed")
            # (a whole text is compared again, and one that is as long, and one that was saved)
            self.assertEqual([it[0] for it in editor.change(name, 2, ("a\nbあ\n",))], [])
        for edit, raw, codes in (("", b"a\nb\x82\xa0\n", []), ("x", b"a\nb\x82\xa0\n", ["not-followed"]), ("x", b"a\nb\x82\xa0x\n", [])):
            with self.subTest(edit=edit, raw=raw), editing(self.folder, "--debounce", "0") as editor:
                name = self.file("a.sjis", b"a\nb\x82\xa0\n")
                editor.open(name, "a\nbあxy\n")
                self.assertEqual([it[0] for it in editor.change(name, 1, (edit, (1, 2), (1, 4)))], ["not-followed"] * len(edit))
                self.file(name, raw)
                editor.notify("textDocument/didSave", textDocument={"uri": editor.uri(name)})
                self.assertEqual([it[0] for it in editor.wait(name, 1)], codes)
                self.assertEqual([it[0] for it in editor.change(name, 2, ("é", (0, 0)))], codes or ["unencodable"])

    def test_whole_texts(self) -> None:
        name = self.file("a.sjis", b"ab\n\xff\ncd")
        with editing(self.folder, "--debounce", "0") as editor:
            self.assertEqual([it[:2] for it in editor.open(name, "ab\n\ufffd\ncd\n")], [("damage", (1, 0))])
            self.assertEqual([it[:2] for it in editor.change(name, 1, ("aéb\n\ufffd\ncあd\n",))], [("unencodable", (0, 1)), ("damage", (1, 0))])
            self.assertEqual([it[:2] for it in editor.change(name, 2, ("ab\nx\n\ufffd\ncあd\n",))], [("damage", (2, 0))])

    def test_after_a_save(self) -> None:
        # (the bytes after a save: those from before, as it was refused; those of the text; those of another text)
        rows: List[Tuple[bytes, List[str]]] = [
            (b"a\x82\xa0b\n", ["unencodable"]), (b"\x82\xa0a\x82\xa0b\n", []), (b"another\n", ["not-followed"]),
        ]
        for raw, codes in rows:
            name = self.file("a.sjis", b"a\x82\xa0b\n")
            with self.subTest(raw=raw), editing(self.folder, "--debounce", "0") as editor:
                editor.open(name, "aあb\n")
                editor.change(name, 1, ("é" if codes == ["unencodable"] else "あ", (0, 0)))
                self.file(name, raw)
                editor.notify("textDocument/didSave", textDocument={"uri": editor.uri(name)})
                self.assertEqual([it[0] for it in editor.wait(name, 1)], codes)
                self.assertEqual([it[0] for it in editor.change(name, 2, ("é", (0, 0)))], ["unencodable", *codes] if codes != ["not-followed"] else codes)

    def test_what_was_deleted_before_a_save_comes_back_after_it(self) -> None:
        name = self.file("a.sjis", b"a\xff\xfeb\n")
        with editing(self.folder, "--debounce", "0") as editor:
            before = editor.open(name, "a\ufffd\ufffdb\n")
            self.assertEqual(editor.change(name, 1, ("", (0, 1), (0, 3))), [])
            self.file(name, b"ab\n")
            editor.notify("textDocument/didSave", textDocument={"uri": editor.uri(name)})
            self.assertEqual(editor.wait(name, 1), [])
            self.assertEqual(editor.change(name, 2, ("\ufffd\ufffd", (0, 1))), before)

    def test_bytes_that_a_save_by_the_editors_own_codec_lost(self) -> None:
        for raw, codes in (b"A\x1b(Bbx\n", []), (b"Abx\n", ["bytes-lost"]):
            name = self.file("a.jis", b"A\x1b(Bb\n")
            with self.subTest(raw=raw), editing(self.folder, "--debounce", "0") as editor:
                editor.open(name, "Ab\n")
                editor.change(name, 1, ("x", (0, 2)))
                self.file(name, raw)
                editor.notify("textDocument/didSave", textDocument={"uri": editor.uri(name)})
                self.assertEqual([it[0] for it in editor.wait(name, 1)], codes)

    def test_what_a_character_is(self) -> None:
        name = self.file("a.sjis", b"a\x82\xa0\xff\n\x81")
        with editing(self.folder, "--debounce", "0") as editor:
            editor.open(name, "aあ\ufffd\n\ufffd")
            editor.change(name, 1, ("é", (1, 1)))
            rows = [
                ((0, 0), None), ((0, 1), "あ U+3042 HIRAGANA LETTER A\n82 A0 in Shift_JIS (bytes 1 to 2)"), ((0, 2), "FF: doesn't decode as Shift_JIS (byte 3)"),
                ((0, 3), None), ((1, 0), "81: doesn't decode as Shift_JIS (byte 5)"), ((1, 2), None), ((9, 9), None),
                ((1, 1), "U+00E9 LATIN SMALL LETTER E WITH ACUTE has no bytes in Shift_JIS. A save would be refused."),
            ]
            for place, wanted in rows:
                self.assertEqual(editor.hover(name, *place), wanted, place)
            self.assertIsNone(editor.hover("other.sjis", 0, 0))

    def test_bytes_that_an_encoder_would_not_write(self) -> None:
        name = self.file("a.gbk", b"\x80\n")
        with editing(self.folder, "-e", "*.gbk=gbk", "--debounce", "0") as editor:
            editor.open(name, "€\n")
            self.assertIn("80 in GBK (byte 0)", editor.hover(name, 0, 0) or "")

    def test_what_may_be_done(self) -> None:
        name = self.file("a.sjis", b"a\xe1\n\x81\n")
        with editing(self.folder, "--debounce", "0") as editor:
            editor.open(name, "a\ufffd\n\ufffd\n")
            editor.change(name, 1, ("é", (0, 0)), ("é–", (1, 1)))
            here, there, dash = ((0, 0), (0, 1)), ((1, 1), (1, 2)), ((1, 2), (1, 3))
            found = editor.actions(name, *here)
            self.assertEqual({it: found[it] for it in list(found)[:6]}, {
                "Replace é by e": [(*here, "e")], "Replace all 2 é by e": [(*here, "e"), (*there, "e")], "Replace é by &#233;": [(*here, "&#233;")],
                "Replace é by ?": [(*here, "?")], "Remove é": [(*here, "")], "Remove all 2 é": [(*here, ""), (*there, "")]})
            self.assertEqual(editor.actions(name, *dash)["Replace – by -"], [(*dash, "-")])
            self.assertEqual(editor.actions(name, (0, 2), (0, 3))["Replace E1 by a (its highest bit cleared)"], [((0, 2), (0, 3), "a")])
            self.assertEqual(editor.actions(name, (2, 0), (2, 0)), {})
            (start, end, text), = editor.actions(name, *here)["Replace é by e"]
            self.assertNotIn((0, 0), [it[1] for it in editor.change(name, 2, (text, start, end))])

    def test_forms_that_an_encoding_has(self) -> None:
        # (what the encoding has is ASCII here, and あ)
        rows = [
            ("é", ["e"]), ("“", ['"']), ("ﬁ", ["fi"]), ("‾", []), ("…", ["..."]),
            ("Ω", []), ("あ", []), ("が", ["か"][:0]), ("ｘ", ["x"]), ("\ufffd", []), ("ß", ["ss"]),
        ]
        for letter, forms in rows:
            self.assertEqual(forms_of(letter, lambda text: {it for it in text if it > "\x7f" and it != "あ"}), forms, letter)

    def test_more_damage_than_is_listed(self) -> None:
        name = self.file("a.sjis", b"\xff\n" * 1200)
        with editing(self.folder) as editor:
            found = editor.open(name, "\ufffd\n" * 1200)
            self.assertEqual((len(found), found[-1][1:]), (1001, ((999, 0), (1000, 0), "200 more places of damage aren't listed.")))

    def test_more_texts_than_a_program_holds(self) -> None:
        with editing(self.folder, "--debounce", "0") as editor:
            for number in range(MOST + 10):
                name = self.file(f"{number}.sjis", b"\xff")
                self.assertEqual(len(editor.open(name, "\ufffd")), 1)
            self.assertEqual(len(editor.change("0.sjis", 1, ("é", (0, 0)))), 2)
            self.assertEqual(editor.end(), 0)

    def test_programs_that_are_killed(self) -> None:
        name = self.file("a.sjis", b"a\xff\n")
        with editing(self.folder, "--debounce", "0") as editor:
            editor.open(name, "a\ufffd\n")
            editor.change(name, 1, ("é", (0, 0)))
            for it in children_of(editor):
                os.kill(it, signal.SIGKILL)
            self.assertEqual([it[:2] for it in editor.change(name, 2, ("あ", (0, 0)))], [("unencodable", (0, 1)), ("damage", (0, 3))])

    def test_a_program_that_can_not_be_started_again(self) -> None:
        name, program = self.file("a.sjis", b"a\xff\n"), self.folder / "program"
        program.symlink_to(PROGRAM)
        with editing(self.folder, "--gate", str(program), "--debounce", "0") as editor:
            editor.open(name, "a\ufffd\n")
            program.unlink()
            for it in children_of(editor):
                os.kill(it, signal.SIGKILL)
            [(code, _, _, text)] = editor.change(name, 1, ("é", (0, 0)))
            self.assertEqual((code, "can't be run" in text), ("not-followed", True))
            self.assertEqual(editor.hover(name, 0, 1), None)
            program.symlink_to(PROGRAM)
            self.assertEqual([it[0] for it in editor.change(name, 2, ("aé\ufffd\n",))], ["not-followed"])
            self.assertEqual([it[0] for it in editor.change(name, 3, ("a\ufffd\n",))], ["damage"])

    def test_texts_that_have_no_rule_or_no_file(self) -> None:
        with editing(self.folder, "--debounce", "0") as editor:
            for uri in "untitled:1", editor.uri("a.txt"), "file://other/a.sjis":
                editor.notify("textDocument/didOpen", textDocument={"uri": uri, "languageId": "", "version": 0, "text": "é"})
            self.assertEqual(editor.open("new.sjis", ""), [])
            self.assertEqual([it[0] for it in editor.change("new.sjis", 1, ("é", (0, 0)))], ["unencodable"])
            self.assertEqual([*editor.diagnostics], [editor.uri("new.sjis")])
            (self.folder / "d.sjis").mkdir()
            os.mkfifo(self.folder / "f.sjis")
            for name in "d.sjis", "f.sjis":
                self.assertEqual([it[0] for it in editor.open(name, "")], ["not-followed"])

    def test_parameters_that_are_wrong_end_nothing(self) -> None:
        name = self.file("a.sjis", b"a\xff\n")
        with editing(self.folder, "--debounce", "0") as editor:
            editor.open(name, "a\ufffd\n")
            uri: Any = editor.uri(name)
            rows: List[Any] = [
                None, 7, [], {}, {"textDocument": {}}, {"textDocument": {"uri": 7}}, {"textDocument": {"uri": uri}},
                {"textDocument": {"uri": uri}, "contentChanges": 7},
                {"textDocument": {"uri": uri}, "contentChanges": [{"text": 7}]}, {"textDocument": {"uri": uri}, "contentChanges": [{"range": 7, "text": ""}]},
                {"textDocument": {"uri": uri}, "contentChanges": [{"range": {"start": {"line": -1, "character": 0}, "end": {}}, "text": ""}]},
            ]
            for params in rows:
                editor.send({"method": "textDocument/didChange", "params": params})
            for params in rows[:6]:
                for method in "textDocument/didOpen", "textDocument/didClose", "textDocument/didSave":
                    editor.send({"method": method, "params": params})
            self.assertEqual(editor.request("no/such")["code"], -32601)
            self.assertEqual([it[:2] for it in editor.change(name, 1, ("\ud800", (0, 0)))], [("unencodable", (0, 0)), ("damage", (0, 2))])


if __name__ == "__main__":
    unittest.main()

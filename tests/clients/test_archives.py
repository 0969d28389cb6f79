"""`legacy check` and `legacy search`. What is to be found comes from how the tree was made
(bench/archives/tree.py), and from bytes that stand here."""
import json
import os
import pathlib
import tempfile
import unittest

import indexes
from archives import Folder, run, settings, tree
from checkout import BUILT, INDEXES, PROGRAM
from legacy import finding
from legacy.check import CONTROLS, ERRORS, LINE_ENDS, MARK, Ends, check
from legacy.search import search


@BUILT
class Trees(unittest.TestCase):
    """One tree of some hundreds of files, for what looks at it alone."""

    @classmethod
    def setUpClass(cls):
        kept = tempfile.TemporaryDirectory()
        cls.addClassCleanup(kept.cleanup)
        cls.top = pathlib.Path(kept.name)
        cls.made = tree.make(cls.top, 220, largest=20_000, indexes=INDEXES)
        cls.tree = str(cls.top / "tree")
        cls.rows = list(check([cls.tree], settings()))

    def test_each_file_has_a_row_in_the_order_of_paths(self):
        self.assertEqual([os.path.relpath(it.path, self.tree) for it in self.rows], [it["path"] for it in self.made])

    def test_each_damaged_place_is_found_with_its_bytes_and_none_other(self):
        self.assertGreater(sum(len(it.get("errors", [])) for it in self.made), 20)
        for row, made in zip(self.rows, self.made):
            if "errors" in made:
                with self.subTest(made["path"]):
                    content = pathlib.Path(row.path).read_bytes()
                    expected = [(begin, end, content[begin:end].hex(" ")) for begin, end in made["errors"]]
                    self.assertEqual([(it.begin, it.end, it.bytes) for it in row.places], expected)
                    self.assertEqual(row.errors, len(expected))

    def test_lines_and_characters(self):
        # Each damaged place stands in a line of its own behind these words.
        for row in self.rows:
            for it in row.places[:1]:
                self.assertEqual((it.before, it.character), ("damaged here:", 14))
                self.assertTrue(it.after.lstrip("\ufffd").startswith("!"), it.after)

    def test_line_ends_and_marks(self):
        for row, made in zip(self.rows, self.made):
            if "ends" in made and row.encoding:
                with self.subTest(made["path"]):
                    self.assertEqual((row.ends, row.bom), (Ends(**made["ends"]), made.get("mark", 0)))
                    self.assertEqual("line-ends" in row.damage, sum(it > 0 for it in made["ends"].values()) > 1)
                    self.assertEqual("mark" in row.damage, made["path"] == "others/marked.shift_jis")

    def test_what_is_no_file_has_its_reason(self):
        for row, made in zip(self.rows, self.made):
            if made.get("why"):
                with self.subTest(made["path"]):
                    self.assertIn(made["why"], row.reason)
                    self.assertEqual(row.outcome, "passed" if made["path"].endswith(("circle", "itself")) else "refused")

    def test_links_are_followed_where_that_is_asked_for_but_in_no_circle(self):
        found = {os.path.relpath(it.path, self.tree): it.reason for it in check([self.tree], settings(follow=True)) if it.reason}
        self.assertEqual(found["others/circle"], "a symlink that circles")
        self.assertEqual(found["others/itself"], "Too many levels of symbolic links")

    def test_processes_give_the_same_rows(self):
        self.assertEqual(list(check([self.tree], settings(jobs=3))), self.rows)


@BUILT
class Checks(Folder):
    def test_what_is_printed_and_the_status(self):
        damaged = self.file("damaged.txt", b"ab\nA\xffB\x82\xa0\r\n")
        self.file("clean.txt", b"x\n")
        words = ["check", str(self.folder), "-e", "*.txt=shift_jis"]
        self.assertEqual(run(*words), (
            f"{damaged}:2:2: bytes 4 to 5: ff: A\ufffdBあ\n{damaged}: line ends of several kinds: 1 LF, 1 CR LF\n",
            "1 file clean; 1 damaged, with 1 error\nShift_JIS: 1 error, 9.1 % of 11 characters; bytes ff 1\n", 1))
        self.assertEqual(run(*words, "--ignore", "errors", "--ignore", "line-ends")[2], 0)
        row = json.loads(run(*words, "--json")[0].splitlines()[1])
        self.assertEqual((row["encoding"], row["characters"], row["errors"], row["damage"]), ("Shift_JIS", 9, 1, ["errors", "line-ends"]))

    def test_a_terminal_gets_no_control_characters_of_files(self):
        path = self.file("a.txt", "A\x1b[2J\x9b\t".encode() + b"\xff\n")
        words = [path, "-e", "*.txt=utf-8"]
        self.assertEqual(run("check", *words, "--ignore", "controls")[0], f"{path}:1:8: bytes 8 to 9: ff: A\u241b[2J<9b>\t\ufffd\n")
        self.assertEqual(run("search", "A", *words)[0], f"{path}:1:1: bytes 0 to 1: A\u241b[2J<9b>\t\ufffd\n")

    def test_control_characters_are_noted_and_damage_by_a_word(self):
        found_by = finding.Found(PROGRAM, indexes.folder(), None)
        for label, content, found, first in [
            ("utf-8", "あ\n\x81b\x81\x1b\ufdd0".encode(), {"U+001B": 1, "U+0081": 2, "U+FDD0": 1}, (2, 1, 4, 6)),
            ("windows-1252", b"a\x81\x8d\t\f\r\n", {"U+0081": 1, "U+008D": 1}, (1, 2, 1, 2)),
            ("utf-8", b"a\0\x7f\r\n", {"U+0000": 1, "U+007F": 1}, (1, 2, 1, 2)),
            ("shift_jis", b"\x83\x80\x80\x83\x80", {"U+0080": 1}, (1, 2, 2, 3)), ("iso-2022-jp", b"\x1b$B$\"\x1b(Bz\n", {}, None),
            ("shift_jis", b"\x1b$B$\"\x1b(Bz\n", {"U+001B": 2}, (1, 1, 0, 1)), ("utf-16le", "\u0100a\u0001".encode("utf-16-le"), {"U+0001": 1}, (1, 3, 4, 6)),
            ("shift_jis", b"x" * 4000 + b"\n\x82\xa0\n" + b"y\x01\n" * 2000, {"U+0001": 2000}, (3, 2, 4005, 4006)),
        ]:
            for kinds, outcome in ((ERRORS, LINE_ENDS, MARK), "done"), ((CONTROLS,), "found"):
                with self.subTest(label=label, content=content[:20]):
                    row, = check([self.file("a", content)], settings(encoding=[("*", label)], found=found_by), kinds)
                    self.assertEqual((row.controls, row.outcome if found else "done"), (found, outcome if found else "done"))
                    places = [(it.line, it.character, it.begin, it.end) for it in row.control_places]
                    self.assertEqual((places[:1], len(places)), ([first] if found else [], sum(found.values())))

    def test_what_is_printed_of_control_characters(self):
        path = self.file("a.txt", b"a\n\xc2\x81b")
        words = [path, "-e", "*.txt=utf-8"]
        self.assertEqual(run("check", *words), (f"{path}: 1 control character (U+0081 1), the first in line 2, character 1\n", "1 file clean; 0 damaged, with 0 errors\n", 0))
        self.assertEqual(run("check", *words, "--ignore", "controls")[0], "")
        self.assertEqual(run("check", *words, "--damage", "controls")[::2], (f"{path}:2:1: bytes 2 to 4: c2 81: a control character: \ufffdb\n", 1))

    def test_nothing_has_a_rule(self):
        self.file("a.txt", b"x")
        self.assertEqual(run("check", str(self.folder))[1:], ("0 files clean; 0 damaged, with 0 errors; 1 without a rule, or links\n", 2))

    def test_a_tree_that_is_not_there(self):
        printed, _, status = run("check", str(self.folder / "none"))
        self.assertEqual((printed, status), (f"{self.folder}/none: not checked: No such file or directory\n", 2))

    def test_a_file_that_cannot_be_read(self):
        row, = check(["/proc/self/mem"], settings(default="utf-8"))
        self.assertEqual((row.outcome, row.reason), ("refused", "Input/output error"))

    def test_more_errors_than_are_listed(self):
        path = self.file("a.txt", b"\xff" * 30)
        row, = check([path], settings(encoding=[("*", "utf-8")]), most=7)
        self.assertEqual((row.errors, [it.begin for it in row.places]), (30, list(range(7))))

    def test_line_ends_where_bytes_do_not_say_them(self):
        # A line feed among the bytes of two-byte characters is an error in ISO-2022-JP; in UTF-16 U+0A0D has its bytes.
        row, = check([self.file("a", b"\x1b$B$\"\n\x1b(B\n")], settings(encoding=[("*", "iso-2022-jp")]))
        self.assertEqual((row.errors, row.ends), (1, Ends(lf=1)))
        row, = check([self.file("b", "\u0a0d\r\nx\u0d0a\n".encode("utf-16-le"))], settings(encoding=[("*", "utf-16le")]))
        self.assertEqual((row.errors, row.ends), (0, Ends(lf=1, crlf=1)))

    def test_an_encoding_without_its_index_file(self):
        row, = check([self.file("a", b"\xe1")], settings(encoding=[("*", "koi8-r")]))
        self.assertEqual((row.outcome, row.reason), ("refused", "gate has no index file of koi8-r"))


@BUILT
class Searches(Folder):
    def find_matches(self, expression, content, label="shift_jis", **more):
        row, = search(expression, [self.file("a", content)], settings(encoding=[("*", label)]), **more)
        return [(it.line, it.character, it.begin, it.end, it.text, it.across) for it in row.matches]

    def test_lines_characters_and_bytes(self):
        self.assertEqual(self.find_matches("あ+", b"x\ny\x82\xa0\x82\xa0z"), [(2, 2, 3, 7, "ああ", False)])
        self.assertEqual(self.find_matches("あz?", b"\x1b$B$\"\x1b(Bz", "iso-2022-jp"), [(1, 1, 0, 9, "あz", False)])
        self.assertEqual(self.find_matches("b", b"\xef\xbb\xbfab"), [(1, 2, 4, 5, "b", False)])

    def test_empty_matches_are_left_out_and_anchors_are_those_of_lines(self):
        self.assertEqual(self.find_matches("^a*", b"b\na\n"), [(2, 1, 2, 3, "a", False)])

    def test_line_ends_of_all_kinds_are_those_of_lines(self):
        for content, *begin in (b"xab\r\nab\r\n", 1, 5), (b"xab\rab\r", 1, 4), (b"xab\nab\n", 1, 4), (b"\x82\xa0ab\r\nab\r", 2, 6):
            with self.subTest(content):
                self.assertEqual([it[2] for it in self.find_matches("ab$", content)], begin)
                self.assertEqual([it[2] for it in self.find_matches("^ab", content)], begin[1:])
                self.assertEqual([it[4] for it in self.find_matches("a.+", content)], ["ab", "ab"])
        self.assertEqual(self.find_matches("b\n+a", b"ab\r\n\r\nab"), [(1, 2, 1, 7, "b\r\n\r\na", False)])
        self.assertEqual(self.find_matches("b\r$", b"ab\r\n"), [(1, 2, 1, 3, "b\r", False)])
        self.assertEqual(self.find_matches("^亜あ$", b"\r\n\x88\x9f\xff\x82\xa0\r\n", through_damage=True), [(2, 1, 2, 7, "亜\ufffdあ", True)])

    def test_case(self):
        self.assertEqual(self.find_matches("A", b"a"), [])
        self.assertEqual(self.find_matches("A", b"a", ignore_case=True), [(1, 1, 0, 1, "a", False)])

    def test_words_as_ripgrep_has_them(self):
        for expression, content, how, texts in [
            ("a.b", b"axb\na.b\n", {"is_text": True}, ["a.b"]), ("ab", b"ab cab ab", {"is_word": True}, ["ab", "ab"]),
            ("a|b", b"ab b\n", {"is_word": True}, ["b"]),
            ("(?i)A", b"a ab", {"is_word": True}, ["a"]), ("a", b"ab\n\nb\r\n", {"is_inverted": True}, ["", "b"]), ("a", b"a\na\n", {"is_inverted": True}, []),
            ("a", b"x", {"is_inverted": True}, ["x"]), ("a", b"aa\na\na", {"most": 2}, ["a", "a", "a"]), ("a", b"a", {"most": 0}, []),
        ]:
            with self.subTest(expression, content=content):
                self.assertEqual([it[4] for it in self.find_matches(expression, content, **how)], texts)
        self.assertEqual(self.find_matches("a", b"a\r\n\r\n\x82\xa0", is_inverted=True), [(2, 1, 3, 3, "", False), (3, 1, 5, 7, "あ", False)])

    def test_lines_around_a_match(self):
        row, = search("c", [self.file("a", b"a\r\nb\r\nc\r\n\x82\xa0\r\n")], settings(encoding=[("*", "shift_jis")]), above=3, below=1)
        self.assertEqual([(it.above, it.below) for it in row.matches], [(["a", "b"], ["あ"])])

    def test_characters_that_are_written_in_several_ways(self):
        for expression, text, found in [
            ("〜", "あ～い", "～"), ("−", "－", "－"), ("‖", "∥", "∥"), ("¢", "￠", "￠"), ("£", "￡", "￡"), ("¬", "￢", "￢"), ("ABC", "xＡＢｃ", "ＡＢｃ"),
            ("ガス", "xｶﾞｽ", "ｶﾞｽ"), ("ｶﾞｽ", "ガス", "ガス"), ("か\u3099", "が", "が"), ("平成", "㍻", "㍻"), ("成.", "㍻x", "㍻x"), ("図（", "図(館", "図("),
            ("（", "(", "("), ("？", "a?", "?"), ("x+", "ｘＸx", "ｘＸx"), ("é", "e\u0301", "e\u0301"),
        ]:
            with self.subTest(expression):
                for is_text in False, True:
                    files, is_literal = [self.file("a", f"z\r\n{text}".encode())], is_text and expression not in ("成.", "x+")
                    row, = search(expression, files, settings(encoding=[("*", "utf-8")]), folds=True, is_text=is_literal)
                    self.assertEqual([it.text for it in row.matches], [found])
                    start = 3 + len(text[: text.index(found)].encode())
                    self.assertEqual([(it.line, it.begin, it.end) for it in row.matches], [(2, start, start + len(found.encode()))])

    def test_across_damage(self):
        text = "亜あ亜"
        for label, codec, content, where in [
            # A byte came in between; the lead of the second character was overwritten; its trail was.
            ("shift_jis", "cp932", "亜<あ亜".encode("cp932").replace(b"<", b"\xff"), (0, 7)),
            ("shift_jis", "cp932", "x亜<".encode("cp932")[:-1] + b"\xff\xa0" + "亜".encode("cp932"), (1, 7)),
            ("shift_jis", "cp932", "亜".encode("cp932") + b"\x82\xff" + "亜".encode("cp932"), (0, 6)),
            ("euc-jp", "euc_jp", "亜".encode("euc_jp") + b"\xffA" + "亜".encode("euc_jp"), (0, 6)),
            ("utf-8", "utf-8", "亜".encode() + b"\xe3A\x82" + "亜".encode(), (0, 9)),
            ("utf-16le", "utf-16-le", "亜".encode("utf-16-le") + b"\x00\xd8" + "亜".encode("utf-16-le"), (0, 6)),
            # The last character was overwritten; it was cut off with the rest of the file.
            ("shift_jis", "cp932", "亜あ".encode("cp932") + b"\xff", (0, 5)),
            ("utf-8", "utf-8", "亜あ".encode() + b"\xe4\xba", (0, 8)),
            ("utf-16le", "utf-16-le", "亜あ".encode("utf-16-le") + b"\x9c", (0, 5)),
        ]:
            with self.subTest(label=label, content=content):
                self.assertEqual(self.find_matches(text, content, label), [])
                found = self.find_matches(text, content, label, through_damage=True)
                self.assertEqual([(it[2], it[3], it[5]) for it in found], [(*where, True)])

    def test_damage_alone_is_no_match(self):
        self.assertEqual(self.find_matches("亜|ああ", b"\xff x \xff\xff y", through_damage=True), [])

    def test_groups_of_lines(self):
        path = self.file("a.txt", b"1\n2\nx3\n4\n5\n6\nx7 x\nx8\n")
        printed = run("search", "-A1", "-B1", "x", "-e", "*.txt=utf-8", path)[0].replace(path, "p")
        self.assertEqual(printed, (
            "p-2- 2\np:3:1: bytes 4 to 5: x3\np-4- 4\n--\np-6- 6\np:7:1: bytes 13 to 14: x7 x\np:7:4: bytes 16 to 17: x7 x\np:8:1: bytes 18 to 19: x8\n"))

    def test_status_and_lines(self):
        path = self.file("a.txt", b"x\r\ny\x82\xa0z\r\n")
        words = [str(self.folder), "-e", "*.txt=shift_jis"]
        self.assertEqual(run("search", "あ", *words), (f"{path}:2:2: bytes 4 to 6: yあz\n", "", 0))
        self.assertEqual(run("search", "亜", *words), ("", "", 1))
        self.assertEqual(run("search", "-l", "あ", *words), (f"{path}\n", "", 0))
        self.assertEqual(run("search", "-c", ".", *words), (f"{path}:2\n", "", 0))
        self.assertEqual(run("search", "-o", "あz", *words), (f"{path}:2:2: bytes 4 to 7: あz\n", "", 0))
        self.assertEqual(run("search", "-C1", "あ", *words), (f"{path}-1- x\n{path}:2:2: bytes 4 to 6: yあz\n", "", 0))
        self.assertEqual(run("search", "--color", "always", "あ", *words)[0], f"\x1b[35m{path}\x1b[0m:\x1b[32m2\x1b[0m:2: bytes 4 to 6: y\x1b[1;31mあ\x1b[0mz\n")
        self.assertEqual(run("search", "--fold", "-v", "-m1", "あ", *words), (f"{path}:1:1: bytes 0 to 1: x\n", "", 0))
        self.assertEqual(run("search", "--fold", "--through-damage", "あ", *words)[1:], ("legacy search: --through-damage goes with neither --fold nor --invert-match\n", 2))
        self.assertEqual(run("search", "あ", "/none", *words)[1:], ("/none: not searched: No such file or directory\n", 2))
        self.assertEqual(run("search", "(", *words)[1:], ("legacy search: ( is no regular expression: missing ), unterminated subpattern at position 0\n", 2))


if __name__ == "__main__":
    unittest.main()

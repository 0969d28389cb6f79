"""`legacy mend`: plans, what is applied of them, and what is taken back."""
import hashlib
import json
import os
import pathlib
import unittest
from unittest import mock

import indexes
from archives import Folder, run, settings, tree
from checkout import BUILT, INDEXES, PROGRAM
from fakes import Fakes, fault
from gate import Gone
from legacy import finding, mend, plans
from legacy.finding import Missing
from legacy.mend import Repairs, apply, plan, status, undo
from legacy.repairs import ENDS

FOUND = finding.Found(PROGRAM, INDEXES, None)
# The same with all of the encodings of single bytes.
WHOLE = FOUND._replace(indexes=indexes.folder())


@BUILT
class Mending(Folder):
    def setUp(self):
        super().setUp()
        self.plan = str(self.folder / "plan")

    def plan_edits(self, content, repairs, label="shift_jis", **more):
        """The edits of a plan for one file."""
        self.path = self.file("a", content)
        list(plan(self.plan, [self.path], repairs, settings(encoding=[("*", label)], **more)))
        lines = [json.loads(it) for it in pathlib.Path(self.plan).read_text().splitlines()]
        return [(it["at"], it["old"], it["new"], it["rule"], it["line"], it["character"], it["was"], it["becomes"]) for it in lines]

    def outcome(self, step):
        """What became of the one file, and its bytes."""
        row, = step(self.plan, FOUND)
        return row.outcome, row.reason, pathlib.Path(self.path).read_bytes()

    def goes_and_comes_back(self, old, new):
        self.assertEqual(self.outcome(apply), ("done", "", new))
        self.assertEqual(self.outcome(apply), ("passed", "it is mended already", new))
        self.assertEqual(self.outcome(undo), ("done", "", old))
        self.assertEqual(self.outcome(undo), ("passed", "it is as it was", old))

    def test_damage(self):
        old = b"A\xff\n\x82\xa0\xfe\xfe\xff"
        edits = self.plan_edits(old, Repairs(damage=[("ff", "82a0"), ("fe", "")]))
        self.assertEqual(edits, [
            (1, "ff", "82a0", "damage", 1, 2, "\ufffd", "あ"), (5, "fe", "", "damage", 2, 2, "\ufffd", ""),
            (6, "fe", "", "damage", 2, 3, "\ufffd", ""), (7, "ff", "82a0", "damage", 2, 4, "\ufffd", "あ")])
        self.goes_and_comes_back(old, b"A\x82\xa0\n\x82\xa0\x82\xa0")

    def test_letters_whose_highest_bit_is_set(self):
        # C2 and B5 become 42 and 35, of which one is a letter; FF would become 7F, which is none.
        edits = self.plan_edits(b"A\xc2C\xff\xb5", Repairs(high_bit=True), "utf-8")
        self.assertEqual(edits, [(1, "c2", "42", "high-bit", 1, 2, "\ufffd", "B")])
        self.goes_and_comes_back(b"A\xc2C\xff\xb5", b"ABC\xff\xb5")

    def test_text_that_was_decoded_twice(self):
        # x-user-defined has U+F780 to U+F7FF for the bytes above ASCII, and needs no index file.
        twice = "é".encode().decode("latin-1").translate({it: 0xF700 + it for it in range(0x80, 0x100)})
        old = f"aé\n{twice}b あ{twice} {twice[:1]}".encode()
        edits = self.plan_edits(old, Repairs(twice="x-user-defined"), "utf-8")
        self.assertEqual(edits, [(4, twice.encode().hex(), "c3a9", "twice", 2, 1, twice, "é")])
        self.goes_and_comes_back(old, f"aé\néb あ{twice} {twice[:1]}".encode())

    def test_text_that_was_decoded_as_iso_8859_1(self):
        text = "Élève à l’école … Übung"
        twice = text.encode().decode("latin-1").encode()
        edits = self.plan_edits(twice, Repairs(twice="windows-1252"), "utf-8", found=WHOLE)
        self.assertEqual("".join(it[7] for it in edits), "Éèà’é…Ü")
        self.goes_and_comes_back(twice, text.encode())

    def test_a_long_run_that_was_decoded_twice(self):
        # (a question for each of its characters would take minutes)
        text = "図書館の本" * 4000
        self.plan_edits(text.encode().decode("latin-1").encode(), Repairs(twice="windows-1252"), "utf-8", found=WHOLE)
        self.assertEqual(self.outcome(apply)[::2], ("done", text.encode()))

    def test_runs_that_look_encoded_twice_and_stay(self):
        # A clean character right beside; a run that was cut; and clean ones, which don't look so.
        content = f"{'Ü'}{'É'.encode().decode('latin-1')} a {'…'.encode().decode('latin-1')[:2]} b Ü ßé »\n".encode()
        path = self.file("a", content)
        row, = plan(self.plan, [path], Repairs(twice="windows-1252"), settings(encoding=[("*", "utf-8")], found=WHOLE))
        self.assertEqual((row.edits, row.stay), ([], 2))

    def test_how_far_a_plan_is(self):
        old = b"A\xff"
        self.plan_edits(old, Repairs(damage=[("ff", "42")]))

        def far():
            row, = status(self.plan)
            return row.outcome, row.reason

        self.assertEqual(far(), ("found", ""))
        list(apply(self.plan, FOUND))
        self.assertEqual(far(), ("done", ""))
        self.file("a", b"C")
        self.assertEqual(far(), ("refused", "it has changed since"))
        os.unlink(self.path)
        self.assertEqual(far(), ("refused", "No such file or directory"))

    def test_many_errors_copy_no_file_for_each(self):
        content = (b"A\xff" + b"B" * 2000 + b"\n") * 300
        spliced = mock.Mock(side_effect=AssertionError)
        with mock.patch("gate.Document.splice", spliced):
            edits = self.plan_edits(content, Repairs(damage=[("ff", "42")]))
        self.assertEqual(len(edits), 300)
        self.goes_and_comes_back(content, content.replace(b"\xff", b"B"))

    def test_line_ends(self):
        for label, codec, text in [
            ("shift_jis", "cp932", "あ\r\nb\nc\rd\n\r\n"), ("utf-16le", "utf-16-le", "\u0a0d\u0d0aあ\r\nb\nc\rd\n\r\n\u0a00"),
            ("utf-16be", "utf-16-be", "\u0a0d\u0d0aあ\r\nb\nc\rd\n\r\n\u000d\u0a00"), ("iso-2022-jp", "iso2022_jp", "あ\r\nb\nあ\rd\n\r\n"),
        ]:
            for name, end in ENDS.items():
                with self.subTest(label=label, end=name):
                    old = text.encode(codec)
                    self.plan_edits(old, Repairs(line_ends=name), label)
                    unified = text.replace("\r\n", "\n").replace("\r", "\n").replace("\n", end)
                    self.goes_and_comes_back(old, unified.encode(codec))
                    os.unlink(self.plan)

    def test_a_file_that_has_changed_since(self):
        self.plan_edits(b"A\xff", Repairs(damage=[("ff", "42")]))
        self.file("a", b"A\xfe")
        self.assertEqual(self.outcome(apply), ("refused", "it has changed since", b"A\xfe"))
        self.assertEqual(self.outcome(undo), ("refused", "it has changed since", b"A\xfe"))

    def test_a_file_that_changes_while_it_is_mended(self):
        self.plan_edits(b"A\xff", Repairs(damage=[("ff", "42")]))
        apply_edits = plans.apply_edits

        def meanwhile(content, edits):
            self.file("a", b"others' bytes")
            return apply_edits(content, edits)

        with mock.patch.object(plans, "apply_edits", meanwhile):
            self.assertEqual(self.outcome(apply), ("refused", "it has changed since", b"others' bytes"))
        self.assertEqual(sorted(os.listdir(self.folder)), ["a", "plan"])

    def test_a_full_disk(self):
        self.plan_edits(b"A\xff", Repairs(damage=[("ff", "42")]))
        with mock.patch("os.fsync", side_effect=OSError(28, "No space left on device")):
            self.assertEqual(self.outcome(apply), ("refused", "No space left on device", b"A\xff"))
        self.assertEqual(sorted(os.listdir(self.folder)), ["a", "plan"])

    def test_mode_and_names(self):
        self.plan_edits(b"A\xff", Repairs(damage=[("ff", "42")]))
        os.chmod(self.path, 0o640)
        os.link(self.path, self.folder / "b")
        self.assertEqual(self.outcome(apply), ("refused", "it has 2 names, of which one alone would be mended", b"A\xff"))
        os.unlink(self.folder / "b")
        self.assertEqual(self.outcome(apply), ("done", "", b"AB"))
        self.assertEqual(os.stat(self.path).st_mode & 0o777, 0o640)

    def test_a_person_takes_lines_out_and_changes_bytes(self):
        self.plan_edits(b"\xff\xff\xff", Repairs(damage=[("ff", "42")]))
        lines = pathlib.Path(self.plan).read_text().splitlines(keepends=True)
        pathlib.Path(self.plan).write_text(lines[2].replace('"42"', '"434445"') + lines[0])
        self.goes_and_comes_back(b"\xff\xff\xff", b"B\xffCDE")

    def test_edits_that_would_damage(self):
        for old, new, said in (b"A\xff", "fdfe", "it would have 2 errors, and has 1"), (b"\xffA", "efbbbf", "its first bytes would say that it is UTF-8"):
            self.plan_edits(old, Repairs(damage=[("ff", "42")]))
            text = pathlib.Path(self.plan).read_text()
            pathlib.Path(self.plan).write_text(text.replace('"new": "42"', f'"new": "{new}"'))
            self.assertEqual(self.outcome(apply), ("refused", said, old))
            os.unlink(self.plan)

    def test_plans_that_are_none(self):
        self.plan_edits(b"\xff\xff", Repairs(damage=[("ff", "42")]))
        text = pathlib.Path(self.plan).read_text()
        for broken, said in [
            (text + "{}\n", "line 3 is no edit"), (text.replace('"at": 1', '"at": "1"'), "line 2 is no edit"),
            (text.replace('"old": "ff"', '"old": "f"', 1), "line 1 is no edit"), (text * 2, "overlap"), ("[]\n", "line 1 is no edit"),
            (text.replace("shift_jis", "euc-jp", 1), "two SHA-256 or labels"),
            (text.replace("/a\"", "/\\u0000\""), "line 1 is no edit: its path is"), (text.replace("/a\"", "/\\ud800\""), "line 1 is no edit"),
        ]:
            pathlib.Path(self.plan).write_text(broken)
            for step in apply, undo:
                with self.subTest(said), self.assertRaisesRegex(Missing, said):
                    list(step(self.plan, FOUND))
        self.assertEqual(pathlib.Path(self.path).read_bytes(), b"\xff\xff")

    def test_a_line_that_is_nested_too_deeply(self):
        self.plan_edits(b"\xff", Repairs(damage=[("ff", "42")]))
        pathlib.Path(self.plan).write_text("[" * 100_000)
        with self.assertRaisesRegex(Missing, f"^{self.plan}, line 1 is no edit: "):
            list(apply(self.plan, FOUND))

    def test_a_plan_names_its_files_from_everywhere(self):
        old = b"A\xff"
        for folder in "one", "other":
            self.file(f"{folder}/in/a", old)
        self.addCleanup(os.chdir, os.getcwd())
        os.chdir(self.folder / "one")
        list(plan(self.plan, ["in"], Repairs(damage=[("ff", "42")]), settings(encoding=[("*", "shift_jis")])))
        os.chdir(self.folder / "other")
        list(apply(self.plan, FOUND))
        self.assertEqual([(self.folder / it / "in" / "a").read_bytes() for it in ("one", "other")], [b"AB", old])
        # One that was written by hand, or by the command as it was before.
        text = pathlib.Path(self.plan).read_text()
        pathlib.Path(self.plan).write_text(text.replace(f"{self.folder}/one/", ""))
        with self.assertRaisesRegex(Missing, "line 1 is no edit: its path is relative, and leads to another file from another folder"):
            list(apply(self.plan, FOUND))
        row, = apply(self.plan, FOUND, force=True)
        self.assertEqual((row.outcome, (self.folder / "other" / "in" / "a").read_bytes()), ("done", b"AB"))

    def test_a_plan_is_not_overwritten(self):
        pathlib.Path(self.plan).write_text("kept")
        with self.assertRaisesRegex(Missing, "is there already"):
            self.plan_edits(b"\xff", Repairs(damage=[("ff", "42")]))
        self.assertEqual(sorted(os.listdir(self.folder)), ["a", "plan"])

    def test_a_plan_takes_the_place_of_no_other_file(self):
        other = self.file(f"plan.{os.getpid()}", b"a plan of before")
        self.plan_edits(b"\xff", Repairs(damage=[("ff", "42")]))
        self.assertEqual(pathlib.Path(other).read_bytes(), b"a plan of before")

    def test_a_tree_there_and_back(self):
        made = tree.make(self.folder / "top", 66, largest=6_000, indexes=INDEXES)
        top = self.folder / "top" / "tree"

        def sums():
            paths = [top / it["path"] for it in made if not it.get("why")]
            return [hashlib.sha256(it.read_bytes()).hexdigest() for it in paths]

        before = sums()
        repairs = Repairs(damage=[("ff", "3f"), ("80", "")], line_ends="lf")
        edits = sum(len(it.edits) for it in plan(self.plan, [str(top)], repairs, settings()))
        self.assertGreater(edits, 100)
        self.assertEqual({it.outcome for it in apply(self.plan, FOUND)}, {"done"})
        self.assertNotEqual(sums(), before)
        self.assertEqual({it.outcome for it in undo(self.plan, FOUND)}, {"done"})
        self.assertEqual(sums(), before)

    def test_words_and_statuses(self):
        path = self.file("in/a.txt", b"A\xff\n")
        words = ["mend", "-e", "*.txt=shift_jis"]
        for wrong, said in [
            ([], "one of the arguments --plan --apply --undo --status is required"), (["--plan", self.plan], "--plan needs a TREE"),
            (["--plan", self.plan, path], "--plan needs a rule"), (["--apply", self.plan, path], "a TREE belongs to --plan"),
            (["--plan", self.plan, "--twice", "klingon", path], "--twice: klingon is no encoding"),
            (["--apply", self.plan], "--encoding belongs to --plan"), (["--plan", self.plan, "--damage", "f=1", path], "isn't OLD=NEW"),
            (["--plan", self.plan, "--damage", "ff=42", path, os.path.dirname(path)], f"{path} lies in {os.path.dirname(path)}"),
        ]:
            printed, told, status = run(*words, *wrong)
            self.assertEqual((printed, status), ("", 2))
            self.assertIn(said, told)
        self.assertEqual(run(*words, "--plan", self.plan, "--damage", "ff=42", path), ("", f"{self.plan}: 1 edit of 1 file; 0 files refused\n", 0))
        for useless in ["--jobs", "4"], ["--resume", "s"], ["--default", "nonsense"], ["--high-bit"], ["--no-attributes"], ["--dask", "x"]:
            for step in "--apply", "--undo":
                self.assertEqual(run("mend", step, self.plan, *useless), ("", f"legacy mend: {useless[0]} belongs to --plan\n", 2))
        self.assertEqual(run("mend", "--apply", f"{self.plan}-"), ("", f"legacy mend: {self.plan}-: No such file or directory\n", 2))
        self.assertEqual(run("mend", "--apply", self.plan), ("", "1 file mended; 0 so before; 0 refused\n", 0))
        self.assertEqual(run("mend", "--status", self.plan), (f"{path}: mended, 1 edit\n", "1 file mended; 0 to be mended; 0 neither\n", 0))
        self.assertEqual(run("mend", "--undo", self.plan), ("", "1 file with the old bytes again; 0 so before; 0 refused\n", 0))
        self.file("in/a.txt", b"B")
        self.assertEqual(run("mend", "--apply", self.plan)[::2], (f"{path}: not mended: it has changed since\n", 1))


    def test_a_rule_that_no_error_has_is_named(self):
        path = self.file("a.txt", b"A\xff\n")
        words = ["mend", "-e", "*.txt=shift_jis", "--plan", self.plan, "--damage", "ff=42", "--damage", "FD FE=", path]
        self.assertEqual(run(*words), ("", f"--damage fdfe=: no error has exactly these bytes\n{self.plan}: 1 edit of 1 file; 0 files refused\n", 0))


class Refusing(Fakes, Folder):
    """A `gate` that refuses a file, or ends at it, and what becomes of the others."""

    def apply_plan(self, *contents):
        """The outcome and the reason of each file of a plan in which FF becomes B, and its bytes."""
        lines = []
        for number, content in enumerate(contents):
            path = self.file(f"{number}", content)
            edit = mend.Edit(content.index(b"\xff"), "ff", "42", "damage", 1, 1, "\ufffd", "B")
            members = {"path": path, "label": "utf-8", "sha256": hashlib.sha256(content).hexdigest(), **vars(edit)}
            lines.append(json.dumps(members) + "\n")
        plan = self.file("plan", "".join(lines).encode())
        return [(it.outcome, it.reason, pathlib.Path(it.path).read_bytes()) for it in apply(plan, FOUND)]

    def test_a_file_for_which_there_is_no_memory_is_no_matter_of_the_next_one(self):
        for document in "old", "new":
            def refuses(name, label, content):
                if name == document and b"large" in content:
                    raise fault("OutOfMemory")

            self.refuses = refuses
            with self.subTest(document):
                self.assertEqual(self.apply_plan(b"large\xff", b"A\xff"), [("refused", "gate is out of memory", b"large\xff"), ("done", "", b"AB")])

    def test_a_gate_that_ends_is_started_anew(self):
        def ends_at_first(*_):
            if len(self.started) == 1:
                raise Gone()

        self.refuses = ends_at_first
        self.assertEqual(self.apply_plan(b"A\xff"), [("done", "", b"AB")])

    def test_a_file_at_which_gate_ends_each_time(self):
        def refuses(name, label, content):
            if b"lethal" in content:
                raise Gone()

        self.refuses = refuses
        self.assertEqual(self.apply_plan(b"lethal\xff", b"A\xff"), [("refused", "gate ended at it", b"lethal\xff"), ("done", "", b"AB")])


if __name__ == "__main__":
    unittest.main()

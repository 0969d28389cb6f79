"""Which file is in which encoding: names beside iconv, patterns and files of attributes beside `git check-attr`, those of
EditorConfig beside its own library, the order in which rules count, and `legacy rules`."""
import contextlib
import errno
import io
import json
import os
import pathlib
import random
import re
import shutil
import subprocess
import sys
import tempfile
import time
import unittest
from unittest import mock

from checkout import CLIENTS
from legacy.__main__ import main
from legacy.finding import Missing
from legacy.rules import Rule, Rules, editorconfig, repositories
from legacy.rules.attributes import ENCODING, Pattern, parse_attributes
from legacy.rules.files import Tree
from legacy.rules.names import FOLDED, MARKED, NAMES, encoding_of, fold_name, labels_in
from legacy.rules.repositories import Repositories

GIT = unittest.skipUnless(shutil.which("git"), "there is no git")
# Python's codec of each encoding whose names other than its own are compared.
CODECS = {
    "ibm866": "cp866", "macintosh": "mac_roman", "x-mac-cyrillic": "mac_cyrillic", "shift_jis": "cp932", "euc-kr": "cp949", "big5": "big5hkscs",
    "windows-874": "cp874", "koi8-r": "koi8_r", "koi8-u": "koi8_u", "gbk": "gbk", "euc-jp": "euc_jp",
}


def python_with(module):
    """An interpreter that has a module, or None."""
    for program in sys.executable, "/usr/bin/python3":
        if os.access(program, os.X_OK) and subprocess.run([program, "-c", f"import {module}"], stderr=subprocess.DEVNULL).returncode == 0:
            return program


class Folder(unittest.TestCase):
    """Tests in a folder of their own, without a user's or a machine's configuration."""

    def setUp(self):
        kept = tempfile.TemporaryDirectory()
        self.addCleanup(kept.cleanup)
        self.home = pathlib.Path(kept.name).resolve()
        self.folder = self.home / "tree"
        self.folder.mkdir()
        before = dict(os.environ)
        self.addCleanup(lambda: (os.environ.clear(), os.environ.update(before)))
        os.environ.update(HOME=str(self.home), XDG_CONFIG_HOME=str(self.home / ".config"), XDG_DATA_HOME=str(self.home / "data"),
                          GIT_ATTR_NOSYSTEM="1", GIT_CONFIG_NOSYSTEM="1")
        os.environ.pop("GATE_INDEXES", None)

    def write(self, name, *lines):
        path = self.folder / name
        path.parent.mkdir(parents=True, exist_ok=True)
        path.write_text("".join(f"{line}\n" for line in lines))
        return path

    def rules(self, *words, **named):
        self.said = []
        return Rules(named.pop("source", self.folder), words, report=self.said.append, **named)

    def labels(self, rules, *paths):
        return [rule and rule.label for rule in map(rules.rule_of, paths)]

    def git(self, *words, at=None, **named):
        return subprocess.run(["git", "-C", str(at or self.folder), *words], check=True, stdout=subprocess.PIPE, **named).stdout


class Names(unittest.TestCase):
    def test_names_of_the_standard_of_git_and_of_editors(self):
        for name, label, mark in [
            ("Shift_JIS", "shift_jis", b""), ("SJIS", "shift_jis", b""), ("CP932", "shift_jis", b""), (" windows-31j\n", "shift_jis", b""),
            ("EUCJP", "euc-jp", b""), ("eucJP-ms", "euc-jp", b""), ("UHC", "euc-kr", b""), ("CP936", "gbk", b""), ("EUC-CN", "gbk", b""),
            ("ISO-8859-1", "windows-1252", b""), ("ISO_8859-9:1989", "windows-1254", b""), ("ISO-8859-11", "windows-874", b""),
            ("cp1251", "windows-1251", b""), ("IBM866", "ibm866", b""), ("UTF-16LE", "utf-16le", b""), ("UTF-16", "utf-16le", b"\xff\xfe"),
            ("UTF-16BE-BOM", "utf-16be", b"\xfe\xff"), ("utf-8-bom", "utf-8", b"\xef\xbb\xbf"), ("UTF8", "utf-8", b""),
        ]:
            with self.subTest(name):
                self.assertEqual(encoding_of(name), (label, mark))

    def test_names_of_none(self):
        for name in "UTF-32", "CP437", "IBM850", "JOHAB", "EUC-TW", "EUC-JISX0213", "ISO-2022-JP-2", "ISO-2022-KR", "replacement", "", "-":
            self.assertIsNone(encoding_of(name), name)

    @unittest.skipUnless(shutil.which("iconv"), "there is no iconv")
    def test_iconv_has_under_its_names_what_python_has_under_ours(self):
        listed = subprocess.run(["iconv", "-l"], stdout=subprocess.PIPE).stdout.decode().split()
        compared = 0
        for name in sorted({fold_name(it.rstrip("/,")): it.rstrip("/,") for it in listed}.values()):
            found = encoding_of(name)
            if found and not found.label.startswith(("utf-", "iso-2022")):
                same, all_of_them = self.count_shared(name, CODECS.get(found.label, found.label.replace("windows-", "cp")))
                # Neighbours among encodings of single bytes differ by 8 of 96; where pairs are left out, others are cut in two.
                self.assertGreaterEqual(same, (0.97 if all_of_them <= 96 else 0.85) * all_of_them, name)
                compared += all_of_them > 40
        self.assertGreater(compared, 100)

    def count_shared(self, name, codec):
        """Of the characters that both have, one byte above 9F or a pair of bytes each, how many are the same, and all."""
        characters = []
        for code in [*range(0xA0, 0x100), *range(0x8141, 0xFFFF, 7)]:
            content = bytes([code]) if code < 0x100 else code.to_bytes(2, "big")
            try:
                characters.append((content, content.decode(codec)))
            except UnicodeDecodeError:
                pass
        asked = b"".join(it for it, text in characters if len(text) == 1)
        ran = subprocess.run(["iconv", "-c", "-f", name, "-t", "UTF-8"], input=asked, stdout=subprocess.PIPE, stderr=subprocess.DEVNULL)
        theirs = ran.stdout.decode()
        wanted = asked.decode(codec)
        if len(theirs) == len(wanted):
            return sum(map(str.__eq__, theirs, wanted)), len(wanted)
        return len(set(theirs) & set(wanted)), len(set(theirs))

    def test_labels_of_a_label_file(self):
        with tempfile.TemporaryDirectory() as folder:
            path = pathlib.Path(folder, "labels.json")
            entries = [{"name": "Shift_JIS", "labels": ["x-sjis", "mine"]}, {"name": "replacement", "labels": ["hz"]}, {"name": "Klingon", "labels": ["kl"]}]
            path.write_text(json.dumps([{"encodings": entries}]))
            labels = labels_in(path)
            self.assertEqual(encoding_of("X-SJIS", labels), ("shift_jis", b""))
            self.assertEqual([encoding_of(it, labels) for it in ("hz", "kl", "none")], [None] * 3)
            for content in "", "[1]", '[{"encodings": [{"name": "a"}]}]', "\xff":
                path.write_bytes(content.encode("latin-1"))
                with self.assertRaisesRegex(Missing, "^the label file .* can't be read"):
                    labels_in(path)

    def test_no_two_encodings_have_a_name_in_common(self):
        names = [fold_name(name) for label, known in NAMES.items() for name in (label, *known.names.split())]
        self.assertEqual(len(names), len(set(names)))
        self.assertEqual(set(FOLDED), {*names, *MARKED})


class Draws:
    """Random names, patterns, and files of attributes."""

    NAMES = ["a", "b", "ab", "a.b", "b-", "-x", ".a", "a b", "a#", "é", "あ.a", "!b", "A", "b\\", "[a]", '"', "*"]
    ONES = ["a", "b", ".", "-", "x", "?", "*", "*", "**", "[ab]", "[!a]", "[^-a]", "[a-c.]", "[]a]", "[b-]", "[[:alpha:]]", "[[:punct:][:space:]]",
            "[\\]a]", "[c-a]", "[[:none:]]", "[[:a]", "[a", "\\a", "\\*", "é", "A"]
    VALUES = ["Shift_JIS", "UTF-16", "latin1", ""]

    def __init__(self, seed):
        self.random = random.Random(seed)

    def some(self, of, low, high):
        return [self.random.choice(of) for _ in range(self.random.randint(low, high))]

    def path(self):
        return "/".join(self.some(self.NAMES, 1, 4))

    def glob(self):
        parts = ["".join(self.some(self.ONES, 1, 3)) if self.random.random() < 0.6 else self.random.choice(["**", "*", *self.NAMES])
                 for _ in range(self.random.randint(1, 4))]
        glob = self.random.choice(["", "", "", "/"]) + "/".join(parts) + self.random.choice(["", "", "", "", "/"])
        # Behind text that is no pattern git takes ** for one that crosses slashes, against its own documentation.
        return glob if not re.match(r"/?[^*?\[\\]+\*\*+(/|$)", glob) or "/**" in glob else self.glob()

    def states(self):
        name = self.random.choice([ENCODING] * 4 + ["m", "n", "text", "binary", "-bad-", "-"])
        form = self.random.choice(["{}={}", "{}={}", "{}={}", "-{}", "!{}", "{}"] if name == ENCODING else ["{}", "{}", "-{}", "!{}", "{}={}"])
        return form.format(name, self.random.choice(self.VALUES))

    def line(self):
        kind = self.random.random()
        glob = "[attr]" + self.random.choice("mno") if kind < 0.15 else self.glob()
        if re.search(r'[ "\t]', glob) or kind > 0.9:
            glob = '"' + re.sub(r'(["\\])', r"\\\1", glob) + '"'
            glob = glob.replace("é", "\\303\\251") if kind > 0.95 else glob
        space = self.random.choice([" ", "\t", "  ", " \r"])
        return self.random.choice(["", "", "", " ", "#", "!"]) + glob + space + space.join(self.states() for _ in range(self.random.randint(0, 3)))

    def attributes(self):
        return self.random.choice(["", "", "\ufeff"]) + "".join(self.line() + "\n" for _ in range(self.random.randint(1, 9)))


@GIT
class Attributes(Folder):
    """Beside `git check-attr`."""

    def count_differences(self, paths, source=None):
        """How many values differ, each named."""
        source = source or self.folder
        asked = b"".join(os.fsencode(it) + b"\0" for it in paths)
        ran = subprocess.run(["git", "-C", str(source), "check-attr", "--stdin", "-z", ENCODING], input=asked, stdout=subprocess.PIPE,
                             stderr=subprocess.DEVNULL, check=True)
        fields = ran.stdout.split(b"\0")
        self.assertEqual(fields[:-1:3], [os.fsencode(it) for it in paths])
        repositories = Repositories(Tree(source), lambda _: None)
        differing = []
        for path, value in zip(paths, fields[2::3]):
            raw = os.fsencode(path)
            found = repositories.setting(raw, repositories.levels(os.path.dirname(raw), 1))
            mine = {None: "unspecified", True: "set", False: "unset"}.get(found and found.value, found and found.value)
            if mine.encode("latin-1") != value:
                differing.append((path, value, mine))
        return differing

    def test_random_files_of_attributes_and_paths(self):
        draws, count = Draws(11), 0
        user = self.home / "attributes"
        self.git("init", "-q")
        self.git("config", "core.attributesFile", str(user))
        for turn in range(25):
            paths = sorted({draws.path() for _ in range(120)})
            shutil.rmtree(self.folder / "deep", ignore_errors=True)
            places = [".gitattributes", ".git/info/attributes", str(user)]
            places += [os.path.join(os.path.dirname(it), ".gitattributes") for it in draws.some([it for it in paths if "/" in it], 3, 9)]
            for place in dict.fromkeys(places):
                path = self.folder / "deep" / place if place[0] not in "./" else self.folder / place
                path.parent.mkdir(parents=True, exist_ok=True)
                path.write_text(draws.attributes())
            asked = [*paths, *(f"deep/{it}" for it in paths)]
            self.assertEqual(self.count_differences(asked), [], turn)
            count += len(asked)
        self.assertGreater(count, 5000)

    def test_letters_that_are_alike_whatever_their_case(self):
        draws, count = Draws(12), 0
        self.git("init", "-q")
        self.git("config", "core.ignoreCase", "true")
        for turn in range(12):
            self.write(".gitattributes", *(draws.random.choice([str, str.upper, str.swapcase])(draws.glob()) + f" {ENCODING}={turn}" for _ in range(9)))
            asked = sorted({"".join(draws.random.choice([it, it.upper()]) for it in draws.path()) for _ in range(120)})
            self.assertEqual(self.count_differences(asked), [], turn)
            count += len(asked)
        self.assertGreater(count, 1000)
        self.write(".gitattributes", f"*.txt {ENCODING}=latin1", f"[A-C][[:upper:]].d?T {ENCODING}=GBK", f"/Sub/É.x {ENCODING}=Big5")
        names = ["A.TXT", "sub/a.Txt", "bb.DAT", "sUB/É.X", "Sub/é.x", "dd.dat"]
        self.assertEqual(self.count_differences(names), [])
        self.assertEqual(self.labels(self.rules(), *names), ["windows-1252", "windows-1252", "gbk", "big5", None, None])
        self.git("config", "core.ignoreCase", "false")
        self.assertEqual(self.labels(self.rules(), *names), [None] * 6)

    def test_git_documents_stars_behind_text_as_one(self):
        self.assertEqual([Pattern("a**/b").matches(it) for it in ("a/b", "ax/b", "a/x/b")], [True, True, False])
        self.assertEqual([Pattern("/a**").matches(it) for it in ("a", "ab", "a/b")], [True, True, False])

    def test_names_that_are_no_utf_8(self):
        self.git("init", "-q")
        (self.folder / ".gitattributes").write_bytes(b"\x82? %s=Shift_JIS\n\"\\202\\240\\n\" %s=latin1\n" % (2 * (ENCODING.encode(),)))
        names = [b"\x82\xa0", b"\x82\xa0\n", b"x/\x82\xa0", b"\x82"]
        self.assertEqual(self.count_differences(list(map(os.fsdecode, names))), [])
        self.assertEqual(self.labels(self.rules(), *names), ["shift_jis", "windows-1252", "shift_jis", None])

    def test_long_lines_links_and_large_macros(self):
        self.git("init", "-q")
        chain = "".join(f"[attr]m{at} m{at + 1}\n" for at in range(5000)) + f"[attr]m5000 {ENCODING}=latin1\n"
        self.write(".gitattributes", chain, f"a {' ' * 2048}{ENCODING}=latin1", f"b{' ' * 1500}{ENCODING}=latin1", "c m4000")
        self.write("real", f"* {ENCODING}=latin1")
        (self.folder / "sub").mkdir()
        (self.folder / "sub" / ".gitattributes").symlink_to(self.folder / "real")
        self.assertEqual(self.count_differences(["a", "b", "c", "sub/d"]), [])
        self.assertEqual(self.labels(self.rules(), "a", "b", "c", "sub/d"), [None, "windows-1252", "windows-1252", None])
        self.assertEqual(self.labels(self.rules(), "c"), ["windows-1252"])

    def test_a_folder_of_a_repository_a_work_tree_and_a_repository_within(self):
        self.git("init", "-q")
        self.write(".gitattributes", f"/sub/*.a {ENCODING}=latin1", f"*.b {ENCODING}=UTF-16", "[attr]m working-tree-encoding=KOI8-R")
        self.write("sub/deep/.gitattributes", "*.c m", f"[attr]m {ENCODING}=latin1")
        self.write(".git/info/attributes", f"*.d {ENCODING}=Big5")
        paths = ["x.a", "x.b", "deep/x.a", "deep/x.b", "deep/x.c", "x.d"]
        self.assertEqual(self.count_differences(paths, self.folder / "sub"), [])
        self.assertEqual(self.labels(self.rules(source=self.folder / "sub"), *paths), ["windows-1252", "utf-16le", None, "utf-16le", "koi8-r", "big5"])
        self.git("-c", "user.name=a", "-c", "user.email=a@a", "commit", "-q", "--allow-empty", "-m", "a")
        linked = self.home / "linked"
        self.git("worktree", "add", "-q", str(linked))
        (linked / ".gitattributes").write_text(f"*.a {ENCODING}=latin1\n")
        self.assertEqual(self.count_differences(["x.a", "x.b", "x.d"], linked), [])
        self.assertEqual(self.labels(self.rules(source=linked), "x.a", "x.b", "x.d"), ["windows-1252", None, "big5"])
        self.git("init", "-q", str(self.folder / "inner"))
        self.write("inner/.gitattributes", f"*.a {ENCODING}=GBK")
        self.assertEqual(self.count_differences(["x.a", "x.b"], self.folder / "inner"), [])
        self.assertEqual(self.labels(self.rules(), "inner/x.a", "inner/x.b", "inner/y/x.a"), ["gbk", None, "gbk"])

    def test_files_of_the_user(self):
        self.git("init", "-q")
        default = self.home / ".config" / "git" / "attributes"
        default.parent.mkdir(parents=True)
        default.write_text(f"* {ENCODING}=latin1\n")
        self.assertEqual(self.count_differences(["a"]), [])
        self.assertEqual(self.rules().rule_of("a"), Rule("windows-1252", f"{default}:1"))
        self.git("config", "--global", "core.attributesFile", "~/mine")
        (self.home / "mine").write_text(f"\n* {ENCODING}=GBK\n")
        self.assertEqual(self.count_differences(["a"]), [])
        self.assertEqual(self.rules().rule_of("a"), Rule("gbk", f"{self.home}/mine:2"))


class EditorConfig(Folder):
    ONES = ["a", "b", ".", "?", "*", "**", "[ab]", "[a-c]", "{a,b}", "{a,b{a,.}}", "{a}", "{1..3}", "x"]

    def glob(self, draws):
        """A random glob in which stars that cross slashes are in one with a slash, where the library lets them cross that of
        the folder too, and are no neighbours, for whose order it has rules of its own."""
        glob = "/".join("".join(draws.choice(self.ONES) for _ in range(draws.randint(1, 3))) for _ in range(draws.randint(1, 3)))
        glob = re.sub(r"(\*\*/)+", "**/", re.sub(r"\*{2,}", "**", glob))
        return "/" + glob if "**" in glob else glob

    def test_random_sections_beside_the_library_of_editorconfig(self):
        program = python_with("editorconfig")
        if not program:
            self.skipTest("there is no library editorconfig, Debian's python3-editorconfig")
        draws, asked, mine = random.Random(5), [], []
        for turn in range(40):
            below = f"t{turn}"
            for place in f"{below}/.editorconfig", f"{below}/a/.editorconfig":
                globs = [self.glob(draws) for _ in range(6)]
                lines = ["root = true" if place.count("/") == 1 or draws.random() < 0.2 else "# none"]
                self.write(place, *lines, *(f"[{glob}]\ncharset = {draws.choice(['latin1', 'utf-8', 'UTF-16LE', 'unset'])}" for glob in globs))
            rules = editorconfig.EditorConfigs(Tree(self.folder), lambda _: None)
            for path in {"/".join(draws.choice(["a", "b", "ab", "x.a", "2", "b2"]) for _ in range(draws.randint(1, 3))) for _ in range(30)}:
                found = rules.find_encoding(os.fsencode(f"{below}/{path}"), 1)
                mine.append(found.name if found else None)
                asked.append(str(self.folder / below / path))
        # (the library forgets the numbers of a pattern that it has kept)
        code = "import sys, json, editorconfig\nfrom editorconfig import fnmatch\n" \
               "print(json.dumps([(fnmatch._cache.clear(), editorconfig.get_properties(it).get('charset'))[1] for it in json.load(sys.stdin)]))"
        ran = subprocess.run([program, "-c", code], input=json.dumps(asked).encode(), stdout=subprocess.PIPE, check=True)
        theirs = [None if it == "unset" else it for it in json.loads(ran.stdout)]
        self.assertEqual([it for it in zip(asked, mine, theirs) if it[1] != it[2]], [])
        self.assertGreater(sum(it is not None for it in mine), 200)

    def test_globs_of_the_specification(self):
        for glob, yes, no in [
            ("*.txt", ["a.txt", "x/a.txt", ".txt"], ["a.txt.x"]), ("/*.txt", ["a.txt"], ["x/a.txt"]), ("x/*.txt", ["x/a.txt"], ["y/x/a.txt", "x/y/a.txt"]),
            ("**.txt", ["a.txt", "x/a.txt"], ["a"]), ("x/**/a", ["x/a", "x/y/a", "x/y/z/a"], ["a", "xa"]), ("x/**", ["x/a", "x/y/a"], ["x", "a"]),
            ("[!ab]", ["c", "あ", "x/c"], ["a", "cc"]), ("?", ["c", "あ"], ["cc", ""]), ("[a/b]", ["[a/b]"], ["a"]), ("[ab", ["[ab"], ["a"]),
            ("\\*", ["*"], ["a"]), ("a\\{b", ["a{b"], []), ("あ*", ["あい"], ["い"]),
        ]:
            expression = editorconfig.pattern(glob)
            self.assertEqual([it for it in [*yes, *no] if expression.fullmatch(it)], yes, glob)

    def test_which_lines_are_sections(self):
        for line, path in [
            ("[C#/*.c]", "C#/a.c"), ("[a;b]", "a;b"), ("[a\\#b]", "a#b"), ("[a]b]", "a]b"), ("[[a]b]", "ab"), (" [a] ", "a"), ("[a] # b]", "a"),
            ("[a];b", "a"), ("[a]#b]", "a]#b"),
        ]:
            config = editorconfig.parse_config(f"[*.txt]\n{line}\r\ncharset = latin1".encode(), self.fail)
            with self.subTest(line):
                self.assertEqual([[bool(it.fullmatch(name)) for name in (path, "a.txt")] for part in config.sections for it in part.patterns], [[True, False]])

    def test_braces(self):
        for glob, wanted in [
            ("a", ["a"]), ("{a,b}", ["a", "b"]), ("x{a,b{c,d}}y", ["xay", "xbcy", "xbdy"]), ("{a}", ["{a}"]), ("{a,b", ["{a,b"]),
            ("{1..3}", ["1", "2", "3"]), ("{-1..1}", ["-1", "0", "1"]), ("{,a}", ["", "a"]), ("\\{a,b}", ["\\{a,b}"]), ("{a\\,b,c}", ["a\\,b", "c"]),
        ]:
            with self.subTest(glob):
                self.assertEqual(editorconfig.braces(glob), wanted)

    def test_braces_that_stand_for_too_much(self):
        left_out = ".editorconfig:2: its section has more than 1024 characters, or the file more than 1000 patterns, and is left out"
        for glob, said in [
            ("{a,b}" * 200, [left_out]), ("{1..99999999}", [left_out]), ("a" * 1025, [left_out]), ("{" * 400, []), ("{a," * 250 + "}" * 250, []),
        ]:
            began = time.process_time()
            self.write(".editorconfig", f"[{glob}]", "charset = latin1", "[a]", "charset = latin1")
            rules = self.rules(editorconfig=True)
            self.assertEqual((self.labels(rules, "a"), self.said), (["windows-1252"], said))
            self.assertLess(time.process_time() - began, 5)


class Order(Folder):
    def test_words_then_attributes_then_editorconfig_then_a_default(self):
        self.write(".gitattributes", f"*.a {ENCODING}=EUC-JP", f"*.b {ENCODING}=EUC-JP", f"*.e -{ENCODING}", f"*.f {ENCODING}=x", f"*.f !{ENCODING}")
        self.write(".editorconfig", "[*.{b,c,f}]", "charset = utf-16be")
        rules = self.rules(("*.a", "sjis"), default="gbk", editorconfig=True)
        self.assertEqual(self.labels(rules, *(f"x.{it}" for it in "abcdef")), ["shift_jis", "euc-jp", "utf-16be", "gbk", None, "utf-16be"])
        self.assertEqual([rules.rule_of(f"x.{it}").origin for it in "abcd"],
                         ["-e *.a=sjis", ".gitattributes:2", ".editorconfig:2", "--default"])
        self.assertEqual(self.labels(self.rules(default="gbk", attributes=False), "x.a", "x.c", "x.e"), ["gbk"] * 3)

    def test_the_last_word_counts(self):
        rules = self.rules(("*", "gbk"), ("*.a", "big5"), ("/x/*", "bytes"), default="latin1")
        self.assertEqual(self.labels(rules, "b", "b.a", "x/b.a", "x/y/b.a"), ["gbk", "big5", None, "big5"])

    def test_names_of_other_programs_have_none_unless_a_pattern_is_one(self):
        names = [".a", "a~", "#a#", "4913", "a.rejected"]
        rules = self.rules(("*", "gbk"), default="gbk")
        self.assertEqual(self.labels(rules, *names, "x/.a", ".x/a", "#a", "a~b"), [None] * 6 + ["gbk"] * 3)
        for glob, name in (".*", ".a"), ("*~", "a~"), ("x/#*#", "x/#a#"), ("4913", "4913"), ("*.rejected", "a.rejected"):
            self.assertEqual(self.labels(self.rules((glob, "gbk"), ("*.none", "gbk")), name, "b.none", "b"), ["gbk", "gbk", None])

    def test_marks_of_new_files(self):
        rules = self.rules(("a", "UTF-16"), ("b", "utf-16be"))
        self.assertEqual([rules.rule_of(it).mark for it in "ab"], [b"\xff\xfe", b""])

    def test_a_word_without_a_label_is_refused(self):
        for words, named, said in [((("*", "klingon"),), {}, r"^-e \*=klingon: klingon is no encoding"), ((), {"default": "utf-32"}, "^--default: utf-32")]:
            with self.assertRaisesRegex(Missing, said):
                self.rules(*words, **named)
        with self.assertRaises(OSError):
            self.rules(source=self.folder / "none")

    def test_faults_of_files_are_reported_once(self):
        self.write(".gitattributes", f"*.a {ENCODING}=UTF-32", f"*.b {ENCODING}", f"!*.c {ENCODING}=GBK", f"*.d +x {ENCODING}=GBK", "!*.e other")
        self.write("sub/.gitattributes", f"[attr]m {ENCODING}=GBK", "*.a m")
        rules = self.rules()
        for _ in range(2):
            self.assertEqual(self.labels(rules, "x.a", "y.a", "x.b", "x.c", "x.d", "x.e", "sub/x.a"), [None] * 7)
        self.assertEqual([it.partition(": ")[::2] for it in self.said], [
            (".gitattributes:3", "git has no negated patterns of attributes; \\! begins a name with !"),
            (".gitattributes:4", "'+x' is no name of an attribute"),
            (".gitattributes:1", "UTF-32 is no encoding of the Encoding Standard; its files pass as bytes"),
            (".gitattributes:2", f"{ENCODING} has no value; its files pass as bytes"),
            ("sub/.gitattributes:1", "git takes macros from the file of the top folder alone"),
        ])

    def test_a_change_within_the_same_second_is_seen_where_times_are_whole_seconds(self):
        def coarse(*words, **named):
            found, step = look(*words, **named), 2_000_000_000
            times = {it: getattr(found, it) // step * step for it in ("st_mtime_ns", "st_ctime_ns")}
            return mock.Mock(**{it: getattr(found, it) for it in ("st_dev", "st_ino", "st_size", "st_mode")}, **times)

        look, rules = os.stat, self.rules(patience=3600)
        while time.time() % 2 > 0.5:
            time.sleep(0.02)
        with mock.patch.object(os, "stat", coarse):
            for label, encoding in ("big5", "big5"), ("koi8", "koi8-r"):
                self.write(".gitattributes", f"x {ENCODING}={label}")
                time.sleep(0.2)
                rules.refresh()
                self.assertEqual(self.labels(rules, "x"), [encoding])

    def test_a_change_is_seen_while_it_runs(self):
        rules = self.rules(patience=3600)
        self.assertEqual(self.labels(rules, "sub/x"), [None])
        for place, label in (".gitattributes", "gbk"), ("sub/.gitattributes", "big5"):
            self.write(place, f"x {ENCODING}={label}")
            self.assertNotEqual(self.labels(rules, "sub/x"), [label])
            rules.refresh()
            self.assertEqual(self.labels(rules, "sub/x"), [label])
        self.write("sub/.gitattributes", f"x {ENCODING}=koi8")
        rules.refresh()
        self.assertEqual(self.labels(rules, "sub/x"), ["koi8-r"])
        (self.folder / "sub" / ".gitattributes").unlink()
        rules.refresh()
        self.assertEqual(self.labels(rules, "sub/x"), ["gbk"])
        soon = self.rules(patience=0)
        self.assertEqual(self.labels(soon, "y"), [None])
        self.write(".gitattributes", f"y {ENCODING}=gbk")
        self.assertEqual(self.labels(soon, "y"), ["gbk"])

    def test_a_tree_that_is_held_stays_the_same_under_another_name(self):
        self.write(".gitattributes", f"x {ENCODING}=gbk")
        held = os.open(self.folder, os.O_PATH)
        self.addCleanup(os.close, held)
        rules = self.rules(source=held, patience=0)
        self.folder.rename(self.home / "moved")
        self.folder.mkdir()
        self.assertEqual(self.labels(rules, "x"), ["gbk"])
        (self.home / "moved" / ".gitattributes").write_text(f"x {ENCODING}=big5\n")
        self.assertEqual(self.labels(rules, "x"), ["big5"])

    def test_a_stranger_s_patterns_take_no_time(self):
        for glob in "*a" * 60 + "b", "/" + "**/*a*/" * 60 + "b", "**/" * 500 + "b", "[" * 1000, "*" * 1000 + "b":
            path = "/".join(["a" * 60] * 60)
            began = time.process_time()
            self.assertFalse(Pattern(glob).matches(path))
            self.assertLess(time.process_time() - began, 2)

    def test_files_of_rules_that_are_large(self):
        listed = "".join(f"/some/folder/file{at}.txt {ENCODING}=Big5\n" for at in range(20_000))
        self.write(".gitattributes", listed)
        rules = self.rules()
        began = time.process_time()
        self.assertEqual(self.labels(rules, "some/folder/file7.txt", "some/folder/file7", "file7.txt"), ["big5", None, None])
        self.assertLess(time.process_time() - began, 5)
        self.write(".gitattributes", listed * 5)
        self.write("sub/.editorconfig", "[*]\ncharset = latin1\n" * 2000)
        rules = self.rules(editorconfig=True)
        self.assertEqual(self.labels(rules, "some/folder/file7.txt", "sub/x"), [None, "windows-1252"])
        self.assertEqual(self.said[0], ".gitattributes: is larger than 4194304 bytes, and is left out")
        self.assertEqual(len(self.said), 1001)

    def test_many_folders(self):
        self.write(".gitattributes", f"*.a {ENCODING}=Big5")
        rules = self.rules()
        with mock.patch.object(repositories, "FOLDERS", 10):
            for at in range(100):
                self.assertEqual(self.labels(rules, f"folder{at}/x.a", f"folder{at}/x.b"), ["big5", None])

    def test_names_are_looked_up_and_not_tried_one_by_one(self):
        self.write(".gitattributes", *(f"{form} {ENCODING}=big5" for it in range(500) for form in (f"/sub{it}/a", f"b{it}.txt", f"*.{it}x")))
        with mock.patch.object(Pattern, "matches") as tried:
            rules = self.rules(*((f"w{it}", "shift_jis") for it in range(500)))
            self.assertEqual(
                self.labels(rules, "sub7/a", "sub/sub7/a", "x/b499.txt", "b500.txt", "c.3x", "w8", "sub/w9"),
                ["big5", None, "big5", None, "big5", "shift_jis", "shift_jis"])
        tried.assert_not_called()

    def test_files_that_can_t_be_read_have_no_rules(self):
        os.mkfifo(self.folder / ".gitattributes")
        self.assertEqual(self.labels(self.rules(), "a"), [None])
        (self.folder / ".gitattributes").unlink()
        (self.folder / ".gitattributes").mkdir()
        self.assertEqual(self.labels(self.rules(editorconfig=True), "a", "none/a"), [None, None])
        self.assertEqual(parse_attributes(b"", True).lines, ())


class Declaring(Folder):
    """What files name themselves."""

    def test_forms(self):
        for text, name in [
            ("# -*- coding: euc-jp -*-\n", "euc-jp"), ("#!/usr/bin/python\n# vim: set fileencoding=sjis :\n", "shift_jis"),
            ("# coding=cp1251\n", "windows-1251"),
            (";; -*- mode: lisp; coding: iso-2022-jp-unix -*-\n", "iso-2022-jp"), ("\n\n# coding: big5\n", None), ("x" * 5000 + "<meta charset=big5>", None),
            ("<?xml version='1.0' encoding='KOI8-R'?>\n", "koi8-r"), ("<html><META http-equiv=x content='text/html; charset=gb2312'>", "gbk"),
            ("<meta charset=\"shift_jis\">", "shift_jis"), ("@charset \"iso-8859-2\";\n", "iso-8859-2"),
            ("msgid \"\"\nmsgstr \"\"\n\"Content-Type: text/plain; charset=EUC-KR\\n\"\n", "euc-kr"),
            ("From: a\nContent-Type: text/plain;\n\tcharset=\"iso-2022-jp\"\n\nbody", "iso-2022-jp"), ("LANG x\nSET ISO8859-7\nTRY a\n", "iso-8859-7"),
            ("nothing of that\n", None), ("\0# coding: big5\n", None), ("# coding: klingon\n", None), ("SETTLE big5\n", None),
        ]:
            (self.folder / "a").write_text(text)
            with self.subTest(text):
                self.assertEqual(self.labels(self.rules(declared=True), "a"), [name])
                self.assertEqual(self.labels(self.rules(), "a"), [None])

    def test_files_of_rules_count_more_and_the_default_less(self):
        self.write("a", "# coding: euc-jp")
        self.write("b", "# coding: euc-jp")
        self.write(".gitattributes", f"a {ENCODING}=big5")
        self.write("c", "nothing")
        self.assertEqual(self.labels(self.rules(declared=True, default="utf-8"), "a", "b", "c"), ["big5", "euc-jp", "utf-8"])

    def test_what_is_no_file_blocks_nothing(self):
        os.mkfifo(self.folder / "fifo")
        self.assertEqual(self.labels(self.rules(declared=True), "fifo", "none", "."), [None, None, None])

    def test_the_command_says_how(self):
        self.write("a", "# coding: euc-jp")
        self.assertEqual(Command.run_command(self, "--declared", ".")[0], b"a: euc-jp (its coding: euc-jp)\n")


class Command(Folder):
    def run_command(self, *words):
        ran = subprocess.run([sys.executable, "-m", "legacy", "rules", *words], env={**os.environ, "PYTHONPATH": str(CLIENTS)},
                             cwd=self.folder, stdout=subprocess.PIPE, stderr=subprocess.PIPE)
        return ran.stdout, ran.stderr.decode(), ran.returncode

    def test_each_file_with_its_rule(self):
        self.write(".gitattributes", f"*.txt {ENCODING}=UTF-16", f"*.jp {ENCODING}=SJIS")
        for name in "b.txt", "sub/a.jp", "sub/b", "c\nd.jp", ".git/x.txt":
            self.write(name)
        (self.folder / os.fsdecode(b"\x82\xa0.jp")).touch()
        printed, said, status = self.run_command(".")
        lines = [b"b.txt: utf-16le, new ones with a byte order mark (.gitattributes:1)", b"'c\\nd.jp': shift_jis (.gitattributes:2)",
                 b"sub/a.jp: shift_jis (.gitattributes:2)", b"\x82\xa0.jp: shift_jis (.gitattributes:2)", b""]
        self.assertEqual((printed.split(b"\n"), said, status), (lines, "", 0))

    def test_json(self):
        self.write("x.jp")
        (self.folder / os.fsdecode(b"\x82.jp")).touch()
        printed, _, _ = self.run_command("--json", "-e", "*.jp=sjis", ".")
        rest = {"label": "shift_jis", "origin": "-e *.jp=sjis", "mark": False}
        self.assertEqual([json.loads(it) for it in printed.splitlines()], [{"path": "x.jp", **rest}, {"path": "\udc82.jp", **rest}])

    def test_links_in_a_circle(self):
        self.write("a/b/x")
        (self.folder / "a" / "b" / "up").symlink_to(self.folder)
        (self.folder / "self").symlink_to("self")
        (self.folder / "to_file").symlink_to("a/b/x")
        os.mkfifo(self.folder / "fifo")
        printed, said, status = self.run_command("--default", "gbk", ".")
        self.assertEqual((printed, said, status), (b"a/b/x: gbk (--default)\n", "", 0))
        (self.home / "link").symlink_to(self.folder)
        self.assertEqual(self.run_command("--default", "gbk", str(self.home / "link"))[0], b"a/b/x: gbk (--default)\n")

    def test_folders_nested_deeper_than_calls(self):
        inside = "/".join(["a"] * 1500)
        subprocess.run(["mkdir", "-p", str(self.folder / inside)], check=True)
        self.addCleanup(subprocess.run, ["rm", "-rf", str(self.folder / "a")])
        self.write(f"{inside}/x")
        line = f"{inside}/x: gbk (-e **/a/x=gbk)\n".encode()
        self.assertEqual(self.run_command("--no-attributes", "-e", "**/a/x=gbk", "."), (line, "", 0))

    def test_one_file(self):
        self.write("sub/.gitattributes", f"x {ENCODING}=gbk")
        self.write("sub/x")
        self.assertEqual(self.run_command("sub/x")[0], b"x: gbk (.gitattributes:1)\n")

    def test_trees_and_words_that_are_wrong(self):
        for words, line in [
            (["none"], "legacy rules: none: No such file or directory\n"), (["none/none"], "legacy rules: none: No such file or directory\n"),
            (["-e", "*=klingon", "."], "legacy rules: -e *=klingon: klingon is no encoding of the Encoding Standard\n"),
            (["-e", "klingon", "."], "legacy rules: error: argument -e/--encoding: klingon isn't GLOB=LABEL, as '*.txt=shift_jis'\n"),
            (["-e", "a/=gbk", "."], "a/ is the pattern of a folder; a/** is that of the files in it\n"),
            (["-e", "!a=gbk", "."], "!a isn't negated; a=bytes says that such files are no text\n"),
            (["--labels", "none", "."], "legacy rules: the label file none isn't there\n"),
        ]:
            with self.subTest(line):
                printed, said, status = self.run_command(*words)
                self.assertEqual((printed, said[-len(line):], status), (b"", line, 2))

    def test_a_folder_that_can_t_be_read(self):
        self.write("shut/x")
        self.write("x")
        listed = os.listdir

        def listdir(path):
            if str(path).endswith("shut"):  # (which root could read)
                raise PermissionError(errno.EACCES, "Permission denied", path)
            return listed(path)

        printed, said = io.StringIO(), io.StringIO()
        with mock.patch("os.listdir", listdir), contextlib.redirect_stdout(printed), contextlib.redirect_stderr(said):
            status = main(["rules", "--default", "gbk", str(self.folder)])
        line = f"legacy rules: {self.folder}/shut: Permission denied\n"
        self.assertEqual((printed.getvalue(), said.getvalue(), status), ("x: gbk (--default)\n", line, 2))


if __name__ == "__main__":
    unittest.main()

"""The pages. Each session of README.md, docs/PROTOCOL.md and docs/CLIENT.md has the replies that the page shows, byte for byte. Each
link between pages leads somewhere. Tables that are printed from sources are those of the sources.

A session is a fenced block whose lines are commands, each followed by its reply. A trace is a block that begins with an event or a
head, and the block after it is what the trace prints. Each is played by a program of its own, over the small index files of
examples/indexes. A session of live clients is played by a test in tests/program."""
import json
import pathlib
import re
import shutil
import subprocess
import sys
import tempfile
import unittest

from checkout import BUILT, PROGRAM, TOP

PAGES = ["README.md", "docs/PROTOCOL.md", "docs/CLIENT.md"]
# What a link leads to outside of the repository.
ELSEWHERE = ("http:", "https:", "mailto:")
# What tools/ops reads and writes.
READ_BY_OPS = ("tools", "docs", "crates/line_protocol/src", "crates/desk/src", "crates/piece_rope/src", "crates/connections/src",
               "crates/serving/src", "crates/gateway/src", "crates/index_files/src", "crates/devices/src")
# Errors that any command can have, and those for which a session would be too long for a file: tests/program has them computed.
COMMON = {"BadRequest", "NoDocument", "OutOfMemory"}
COMPUTED = {"TooLarge", "RevisionsSpent", "TooManyDocuments", "Forgotten"}


def sessions(page):
    """The sessions of a page, each with the number of its first line."""
    text = (TOP / page).read_text(encoding="utf-8")
    for block in re.finditer(r"^```\n(\{.*?)^```$", text, re.MULTILINE | re.DOTALL):
        lines = block[1].splitlines()
        if all("op" in json.loads(line) for line in lines[::2]):
            yield text.count("\n", 0, block.start(1)) + 1, lines


def traces(page):
    """The traces of a page, each with what it prints."""
    text = (TOP / page).read_text(encoding="utf-8")
    form = r"^```\n((?:open \d|part ).*?)^```\n+```\n(.*?)^```$"
    return [it.groups() for it in re.finditer(form, text, re.MULTILINE | re.DOTALL)]


def play(act, lines):
    """What the program prints."""
    words = [PROGRAM, act, "--indexes", str(TOP / "examples" / "indexes")]
    return subprocess.run(words, input=lines.encode(), stdout=subprocess.PIPE).stdout.decode()


@BUILT
class Pages(unittest.TestCase):
    def test_each_session(self):
        for page in PAGES:
            found = list(sessions(page))
            self.assertTrue(found, f"{page} has no session")
            for number, lines in found:
                with self.subTest(page=page, line=number):
                    printed = play("stdio", "".join(it + "\n" for it in lines[::2]))
                    self.assertEqual(printed.split("\n"), lines[1::2] + [""])

    def test_the_first_session_is_the_file_that_readme_names(self):
        _, lines = next(sessions("README.md"))
        self.assertEqual((TOP / "examples" / "change.jsonl").read_text().splitlines(), lines[::2])

    def test_the_sessions_of_two_clients_are_the_files_that_the_page_names(self):
        blocks = re.findall(r"^```\n(\d \{.*?)^```$", (TOP / "docs" / "CLIENT.md").read_text(encoding="utf-8"), re.MULTILINE | re.DOTALL)
        self.assertEqual([(TOP / "examples" / it).read_text(encoding="utf-8") for it in ("two-clients.txt", "what-came-since.txt")], blocks[:2])

    def test_each_trace(self):
        found = traces("docs/PROTOCOL.md")
        self.assertTrue(found, "docs/PROTOCOL.md has no trace")
        for trace, printed in found:
            self.assertEqual(play("trace", trace), printed)


def pages():
    """All pages of the repository."""
    listed = subprocess.run(["git", "ls-files", "-z", "*.md"], cwd=TOP, stdout=subprocess.PIPE, check=True).stdout.decode()
    return [TOP / it for it in listed.split("\0") if it and (TOP / it).is_file()]


def prose(path):
    """A page without its fenced code."""
    return re.sub(r"^(```+|~~~+).*?^\1$", "", path.read_text(encoding="utf-8"), flags=re.MULTILINE | re.DOTALL)


def anchors(path):
    """The names to which links into a page lead: those of its headings, as the hosts of repositories make them."""
    found = set()
    for heading in re.findall(r"^#+ +(.*?) *#*$", prose(path), re.MULTILINE):
        text = re.sub(r"\[([^\]]*)\]\([^)]*\)", r"\1", heading)
        name = re.sub(r"[^\w\- ]", "", text.lower()).replace(" ", "-")
        number = sum(it == name or re.fullmatch(rf"{re.escape(name)}-\d+", it) is not None for it in found)
        found.add(f"{name}-{number}" if number else name)
    return found


def broken_links(path):
    """The links of a page that lead nowhere."""
    # (code has no links)
    text = re.sub(r"`[^`\n]*`(?!\])", "", prose(path))
    for link in re.findall(r"(?<!\\)\]\(<?([^)\s>]+)>?(?: \"[^\"]*\")?\)|^\[[^\]]+\]: (\S+)", text, re.MULTILINE):
        target, _, anchor = (link[0] or link[1]).partition("#")
        if target.startswith(ELSEWHERE):
            continue
        leads_to = (path.parent / target).resolve() if target else path
        if not leads_to.exists():
            yield f"{path.name}: {target} doesn't exist"
        elif anchor and leads_to.suffix == ".md" and anchor not in anchors(leads_to):
            yield f"{path.name}: {target or path.name} has no heading #{anchor}"


class Links(unittest.TestCase):
    def test_each_link_leads_somewhere(self):
        self.assertGreater(len(pages()), 10)
        self.assertEqual([it for path in pages() for it in broken_links(path)], [])

    def test_a_broken_link_is_named(self):
        with tempfile.TemporaryDirectory() as folder:
            page = pathlib.Path(folder, "page.md")
            page.write_text("# A `b` [c](x)\n\n## Same\n\n## Same\n\n[1](page.md#a-b-c) [2](#same-1) [3](no.md) [4](page.md#no) `[5](no.md)` [6](https://no)\n")
            found = list(broken_links(page))
        self.assertEqual(found, ["page.md: x doesn't exist", "page.md: no.md doesn't exist", "page.md: page.md has no heading #no"])


def errors_by_op():
    """The errors that docs/PROTOCOL.md names for each op."""
    text = (TOP / "docs" / "PROTOCOL.md").read_text(encoding="utf-8").partition("## Commands")[2].partition("\n## ")[0]
    found = {}
    for op, entry in re.findall(r"^### `(\w+)`\n(.*?)(?=^### |\Z)", text, re.MULTILINE | re.DOTALL):
        line = re.search(r"^Errors: (.*)$", entry, re.MULTILINE)[1]
        named = set(re.findall(r"`([A-Z]\w+)`", line))
        found[op] = found["change"] ^ named if line.startswith("those of `change`, except") else named
        found[op] |= found["change"] if line.startswith("those of `change`.") else set()
    return found


def shown_errors():
    """Each op with an error that a stored session or a page shows it to have."""
    files = [path.read_text(encoding="utf-8").splitlines() for path in sorted((TOP / "tests" / "program" / "sessions").glob("*.jsonl"))]
    plain = [[line for line in lines if line.startswith("{")] for lines in files] + [lines for page in PAGES for _, lines in sessions(page)]
    for lines in plain:
        for command, reply in zip(lines[::2], lines[1::2]):
            if '"fault"' in reply and re.search(r'"op":"(\w+)"', command):
                yield re.search(r'"op":"(\w+)"', command)[1], json.loads(reply)["fault"]


class Ops(unittest.TestCase):
    """docs/PROTOCOL.md and the sources of the ops."""

    def check(self, top):
        ran = subprocess.run([sys.executable, top / "tools" / "ops", "--check"], stdout=subprocess.PIPE, stderr=subprocess.STDOUT)
        return ran.returncode, ran.stdout.decode()

    def test_the_tables_are_those_of_the_sources(self):
        self.assertEqual(self.check(TOP), (0, ""))

    def test_each_kind_of_table_follows_its_source(self):
        changes = (
            ("crates/desk/src/ops/splice.rt", "Number of bytes to remove", "Count"),
            ("crates/desk/src/ops/place.rt", "Unit of `value`", "What"),
            ("crates/line_protocol/src/ops/stat.rt", '("utf8"', '("utf_8"'),
            ("crates/line_protocol/src/ops/open.rt", "        bom: Bom = fields::bom(value),\n", ""),
            ("crates/desk/src/documents.rt", "MAX_DOCUMENTS: usize = 64", "MAX_DOCUMENTS: usize = 65"),
            ("crates/desk/src/fault.rt", "    NotKept,", "    Kept,"))
        with tempfile.TemporaryDirectory() as folder:
            top = pathlib.Path(folder)
            for name in READ_BY_OPS:
                shutil.copytree(TOP / name, top / name, ignore=shutil.ignore_patterns("__pycache__"))
            (top / "crates.txt").write_bytes((TOP / "crates.txt").read_bytes())
            self.assertEqual(self.check(top), (0, ""))
            for path, old, new in changes:
                with self.subTest(path):
                    written = (top / path).read_text(encoding="utf-8")
                    self.assertIn(old, written)
                    (top / path).write_text(written.replace(old, new), encoding="utf-8")
                    self.assertEqual(self.check(top)[0], 1)
                    (top / path).write_text(written, encoding="utf-8")

    def test_the_errors_of_each_op_are_those_that_sessions_show(self):
        named, shown = errors_by_op(), {}
        for op, fault in shown_errors():
            shown.setdefault(op, set()).add(fault)
        for op, errors in named.items():
            with self.subTest(op):
                self.assertLessEqual(shown.get(op, set()), errors | COMMON)
                self.assertLessEqual(errors - COMPUTED, shown.get(op, set()))


if __name__ == "__main__":
    unittest.main()

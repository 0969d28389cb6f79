"""The page that `legacy check --report` writes: what it has, and how a browser shows it."""
import html.parser
import os
import pathlib
import re
import shutil
import subprocess
import unittest
from unittest import mock

from archives import Folder, run
from checkout import BUILT
from legacy import report
from legacy.check import Checked, Ends, Place
from legacy.finding import Missing
from legacy.report import Report

BROWSER = next(filter(None, map(shutil.which, ("chromium", "chromium-browser", "google-chrome"))), None)
# Elements that have no end, or whose end may be left out.
OPEN = {"meta", "th", "td", "tr", "dt", "dd", "html"}


class Elements(html.parser.HTMLParser):
    """The elements of a page, whose ends must be there in order, the identities and the links."""

    def __init__(self, page):
        super().__init__()
        self.open, self.identities, self.links, self.sources = [], [], [], []
        self.feed(page)

    def handle_starttag(self, tag, attributes):
        found = dict(attributes)
        self.identities += [found["id"]] if "id" in found else []
        self.links += [found["href"]] if "href" in found else []
        self.sources += [found["src"]] if "src" in found else []
        self.open += [] if tag in OPEN else [tag]

    def handle_endtag(self, tag):
        if tag not in OPEN and self.open.pop() != tag:
            raise AssertionError(f"</{tag}> ends another element")


def make_damaged(path, count, **more):
    """A file with some errors."""
    places = [Place(it, it + 1, it + 1, 8, "ff", f"before{it}:", "<b>after&\u202e\x07") for it in range(count)]
    return Checked(path, 1000, "shift_jis", "found", encoding="Shift_JIS", errors=count, places=places, damage=["errors"], **more)


class Pages(Folder):
    def page(self, *rows):
        path = str(self.folder / "report.html")
        made = Report(path, ["tree<1>"])
        for row in rows:
            made.add(row)
        made.close()
        self.assertEqual(os.listdir(self.folder), ["report.html"])
        return pathlib.Path(path).read_text(encoding="utf-8")

    def test_counts_and_places(self):
        text = self.page(
            make_damaged("tree/a/1", 2), make_damaged("tree/b/<2>", 1), Checked("tree/b/3", 5, "utf-8", encoding="UTF-8"),
            Checked("tree/4", 0, "utf-8", "refused", "a FIFO"), Checked("tree/5", 7, "", "passed"))
        found = Elements(text)
        self.assertEqual((found.open, found.sources), ([], []))
        self.assertNotIn("<script", text)
        self.assertEqual({it[1:] for it in found.links}, {"f1-1", "f1-2", "f2-1", "f1", "f2"})
        self.assertLessEqual({it[1:] for it in found.links}, set(found.identities))
        self.assertIn('5 files, of which 3 with 0.0 MB were looked at: <b class="bad">2 damaged</b>, with 3 errors; 1 (0.0 MB) couldn\'t be looked at', text)
        self.assertIn('<th scope="row" class="name"><a href="#f1">Shift_JIS</a><td class="n">2<td class="n">3<td class="n">2<td class="n">100 %<td', text)
        self.assertIn('<th scope="row" class="name"><a href="#f2">tree/b</a><td class="n">2<td class="n">1<td class="n">1<td class="n">50 %<td', text)
        self.assertIn('<code>ff</code><td>Shift_JIS<td class="n">3<td><code>--damage ff=3f</code>', text)
        self.assertIn('<bdi lang="ja">before1:<mark>ff</mark>&lt;b&gt;after&amp;&lt;U+202E&gt;\u2407</bdi>', text)
        self.assertIn("<li>tree/4: a FIFO</li>", text)

    def test_the_worst_come_first_by_folder(self):
        text = self.page(make_damaged("b/1", 1), make_damaged("a/1", 2), make_damaged("a/2", 9), make_damaged("b/2", 1), make_damaged("b/3", 1))
        self.assertEqual(re.findall('<h3>(.*)</h3>|id="(f[0-9]+)"', text), [
            ("b", ""), ("", "f1"), ("", "f4"), ("", "f5"), ("a", ""), ("", "f3"), ("", "f2")])
        self.assertEqual(re.findall('<a href="#(f[0-9]+)">([ab])</a>', text), [("f1", "b"), ("f3", "a")])

    def test_what_is_said_of_the_run_and_of_a_file(self):
        path = str(self.folder / "report.html")
        made = Report(path, ["t"], about=[("command", "legacy check <t>")])
        made.add(make_damaged("t/a", 9, characters=90))
        made.add(make_damaged("t/b", 2, characters=1000))
        made.close()
        text = pathlib.Path(path).read_text(encoding="utf-8")
        self.assertIn("<dt>command<dd>legacy check &lt;t&gt;", text)
        self.assertRegex(text, "<dt>date<dd>[0-9]{4}-[0-9]{2}-[0-9]{2} ")
        self.assertIn("9 errors, 10 % of its characters; perhaps another encoding<", text)
        self.assertIn("2 errors, 0.2 % of its characters<", text)
        self.assertEqual((text.count("<main>"), text.count("</main>"), text.count("<th><"), text.count("<caption>")), (1, 1, 0, text.count("<table>")))

    @unittest.skipUnless(BROWSER, "there is no Chromium")
    def test_a_browser_prints_each_place(self):
        self.page(*[make_damaged(f"tree/{it}", 30) for it in range(10)])
        printed = self.folder / "printed.pdf"
        words = ["--headless", "--no-sandbox", "--disable-gpu", f"--user-data-dir={self.folder}/browser", f"--print-to-pdf={printed}"]
        subprocess.run([BROWSER, *words, f"file://{self.folder}/report.html"], stdout=subprocess.PIPE, stderr=subprocess.PIPE, timeout=120)
        # (a page has some 50 lines, and folded they are ten)
        self.assertGreater(len(re.findall(rb"/Type\s*/Page\b", printed.read_bytes())), 5)

    def test_names_that_are_not_utf_8(self):
        self.assertIn("<summary>\\xff.txt ", self.page(make_damaged(os.fsdecode(b"\xff.txt"), 1)))

    def test_more_than_is_listed(self):
        with mock.patch.object(report, "LISTED", 3):
            text = self.page(make_damaged("a", 2), make_damaged("b", 2), make_damaged("c", 1))
        self.assertEqual(sum(bool(re.fullmatch(r"f\d+-\d+", it)) for it in Elements(text).identities), 3)
        self.assertIn("<p>Not listed here: 2 further errors.</p>", text)

    def test_a_page_that_cannot_be_written(self):
        with self.assertRaisesRegex(Missing, "^the report /none/page: No such file or directory$"):
            Report("/none/page", [])
        with self.assertRaisesRegex(Missing, f"^the report {self.folder} is a folder$"):
            Report(str(self.folder), [])
        os.mkfifo(self.folder / "fifo")
        for path, kind in (str(self.folder / "fifo"), "a FIFO"), ("/dev/null", "a device"):
            with self.assertRaisesRegex(Missing, f"^the report {path} is {kind}$"):
                Report(path, [])

    def test_a_page_takes_the_place_of_no_other_file_and_of_no_link(self):
        page, other = str(self.folder / "page"), self.file(f"link.{os.getpid()}", b"other")
        Report(page, []).close()
        os.symlink("page", self.folder / "link")
        Report(str(self.folder / "link"), ["another tree"]).close()
        self.assertEqual(os.readlink(self.folder / "link"), "page")
        self.assertIn("<h1>legacy check: another tree", pathlib.Path(page).read_text(encoding="utf-8"))
        self.assertEqual(pathlib.Path(other).read_bytes(), b"other")

    def test_nothing_is_left_of_a_page_that_could_not_be_written(self):
        path = self.folder / "report.html"
        made = Report(str(path), [])
        path.mkdir()
        with self.assertRaisesRegex(Missing, f"^the report {path} is a folder$"):
            made.close()
        self.assertEqual(os.listdir(self.folder), ["report.html"])

    @unittest.skipUnless(BROWSER, "there is no Chromium")
    def test_a_browser_opens_the_file_of_an_anchor_among_ten_thousand_places(self):
        rows = [make_damaged(f"tree/{it}", 100, ends=Ends(lf=100)) for it in range(100)]
        self.page(*rows)
        words = ["--headless", "--no-sandbox", "--disable-gpu", f"--user-data-dir={self.folder}/browser", "--enable-logging=stderr"]
        ran = subprocess.run(
            [BROWSER, *words, "--dump-dom", f"file://{self.folder}/report.html#f57-80"], stdout=subprocess.PIPE, stderr=subprocess.PIPE,
            timeout=120)
        shown = ran.stdout.decode()
        self.assertNotIn("CONSOLE", ran.stderr.decode(errors="replace"))
        self.assertEqual(re.findall(r'<details class="file" id="(\w+)" open', shown), ["f57"])
        self.assertEqual(shown.count("<mark>ff</mark>"), 10_000)


@BUILT
class Words(Folder):
    def test_a_report_of_a_run(self):
        self.file("in/a.txt", b"A\xffB")
        path = self.folder / "report.html"
        self.assertEqual(run("check", "-e", "*.txt=shift_jis", str(self.folder / "in"), "--report", str(path))[2], 1)
        self.assertIn('<bdi lang="ja">A<mark>ff</mark>B</bdi>', path.read_text(encoding="utf-8"))
        self.assertEqual(run("check", "-e", "*.txt=shift_jis", str(self.folder / "in"), "--report", "/none/page")[::2], ("", 2))


if __name__ == "__main__":
    unittest.main()

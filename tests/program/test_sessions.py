"""Sessions with the program as it was built: the files of tests/program/sessions.

A file has lines in pairs, a command and its reply, which is compared to the byte. Lines that begin with # are the heading
of a session, and say what it shows: each session is played by itself, on the program started anew over examples/indexes.
Empty lines are skipped. A line that is one of these itself, or is computed, is in the tables of the tests beside this one."""
import itertools
import unittest

from program import TOP, Played, built

FILES = sorted((TOP / "tests" / "program" / "sessions").glob("*.jsonl"))


def sessions(path):
    """Each session's heading and rows, a row being a command and its reply."""
    lines = filter(None, path.read_text(encoding="utf-8").split("\n"))
    groups = [(heading, list(group)) for heading, group in itertools.groupby(lines, lambda line: line.startswith("#"))]
    for (is_heading, heading), (is_none, session) in zip(groups[::2], groups[1::2]):
        assert is_heading and not is_none and len(session) % 2 == 0, f"{path.name}: {heading}"
        yield " ".join(line.lstrip("# ") for line in heading), list(zip(session[::2], session[1::2]))
    assert len(groups) % 2 == 0, f"{path.name} ends in a heading"


@built
class Sessions(Played):
    def test_sessions(self):
        self.assertTrue(FILES)
        for path in FILES:
            for heading, rows in sessions(path):
                with self.subTest(f"{path.name}: {heading}"):
                    self.plays(rows)


if __name__ == "__main__":
    unittest.main()

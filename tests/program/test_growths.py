"""Commands to the program as it was built, of whose growths each is refused in turn. A command is refused then as
`OutOfMemory`, and the documents are as before. Once nothing is refused it has its reply, and asks for no growth for which it
wouldn't have asked if none had been refused: so nothing that was decoded is decoded again. Replies are those of stored sessions
(tests/program/sessions), and of a plain computation over documents that look random, in eleven encodings. Lines that come in
parts are tried so too, and what loads files and plays traces."""
import collections
import itertools
import json
import os
import pathlib
import random
import tempfile
import unittest
from unittest import mock

import growths
from drawing import OWN, UNITS, change, marked_content, splice
from encoding_rows import TARGETS
from growths import Growths, on_one_processor, played, stopped
from plain import IN_ASCII, WRITE, Document, Unencodable, encoded, planned, shifted
from program import SMALL, TOP, built, cut
from base import EXACT, base64_of
from test_changes import range_of, reply, utf16, written
from test_sessions import FILES, sessions
from test_traces import adopts, asks, brings

OUT_OF_MEMORY = '{"fault":"OutOfMemory"}'

# How many bytes the documents of each encoding have at most, and how many commands or pages of questions each of them has; in
# front of how many of a line's bytes it may be cut in two.
LENGTHS, COMMANDS, CUTS = [30, 3000, 6000], 34, [0, 0, 1, 40]
# How many changes a list has, if none is refused, and how many errors or lines a page has at most.
LISTED, PAGE = 3, 200

# How many growths have to be refused at least, in stored sessions, and in commands that are drawn, by their ops too; and at most
# one in `WITHOUT` may be such that the program does without it, as the three for the form in which short runs take less, which
# those of a few bytes are brought into too.
STORED, DRAWN, WITHOUT = 4_500, 33_000, 20
LEAST = {
    **{"open": 850, "splice": 4_900, "change": 5_700, "changes": 11_100, "plan": 6_300, "text": 670, "source": 760, "encode": 1_100},
    **{"errors": 600, "diagnostics": 650, "lines": 570},
}

# The most bytes of a line; and lines of fewer and of that many, and of more, by the parts that come one after the other.
MOST = 4_194_304
LINES = [[5000], [300, 5000], [4095, 1, 1], [1, 1, 4094, 4096], [100, MOST - 100]]
LONGER = [[MOST + 1], [5000, MOST]]

# A trace of two editors: what is sent, and the replies where nothing is refused, and where one command is.
OPEN = '{"id":1,"op":"open","doc":"d","label":"utf-8","bytes":"YQ=="}'
MINE = '{"id":2,"op":"splice","doc":"d","rev":0,"at":1,"del":0,"bytes":"Yw=="}'
YOURS = '{"id":3,"op":"splice","doc":"d","rev":0,"at":0,"del":0,"bytes":"Yg=="}'
TEXT = '{"id":4,"op":"text","doc":"d","from":0,"to":2}'
EDITORS = [
    *("open 1", "open 2", asks(1, OPEN), brings(1, MINE[:30]), brings(2, YOURS), brings(1, f"{MINE[30:]}\n"), brings(2, "\n")),
    asks(2, TEXT),
]
OPENED, EDITED = '{"bom":0,"encoding":"UTF-8","id":1,"rev":0}', '{"bom":0,"encoding":"UTF-8","id":%d,"rev":1}'
STALE, READ = '{"fault":"Stale","id":3,"rev":1}', '{"id":4,"rev":1,"text":"ac"}'
REPLIES = [
    [OPENED, EDITED % 2, STALE, READ],
    [OUT_OF_MEMORY, *(f'{{"fault":"NoDocument","id":{number}}}' for number in (2, 3, 4))],
    [OPENED, OUT_OF_MEMORY, EDITED % 3, '{"id":4,"rev":1,"text":"ba"}'],
    [OPENED, EDITED % 2, OUT_OF_MEMORY, READ],
    [OPENED, EDITED % 2, STALE, OUT_OF_MEMORY],
]

# A label file, and commands over it with their replies, where nothing is refused and where one command is.
LABELS = '[{"encodings":[{"name":"Shift_JIS","labels":["sjis","ms_kanji"]},{"name":"other","labels":["x"]}]}]'
COMMANDS_OF_FILES = ['{"id":1,"op":"open","doc":"d","label":"sjis","bytes":"gqA="}', '{"id":2,"op":"text","doc":"d","from":0,"to":1}']
OF_FILES = '{"bom":0,"encoding":"Shift_JIS","id":1,"rev":0}', '{"id":2,"rev":0,"text":"\u3042"}'
REPLIES_OF_FILES = [OF_FILES, [OUT_OF_MEMORY, '{"fault":"NoDocument","id":2}'], [OF_FILES[0], OUT_OF_MEMORY]]


def setUpModule():
    unittest.addModuleCleanup(on_one_processor())


class Tried:
    """The program, and commands to it, each of whose growths is refused before it is answered. Counts how many were, and how many
    the program did without."""

    def __init__(self, program):
        self.program, self.refused, self.without = program, 0, 0
        program.run()

    def compare(self, command, wanted, answered, where=""):
        if answered != f"{wanted}\n":
            raise AssertionError(f"{cut(command)}\nis answered by {cut(answered)}{where}\ninstead of     {cut(wanted)}")

    def has(self, rows):
        """The program answers these commands so, with memory."""
        for command, wanted in rows:
            self.compare(command, wanted, self.program.answer(f"{command}\n".encode())[0])

    def ask(self, command, wanted, before, parts=None, first=1, edits=False):
        """The program answers a command so, once each of its growths from the first one on was refused, and the other commands
        as before behind each time. Returns which growths it asked for then; or, where it made an edit without one that was
        refused, an open among them, the number of that one."""
        for number in itertools.count(first):
            answered, seen = self.program.answer(*(parts or [f"{command}\n".encode()]), refused=number)
            if len(seen) < number:
                self.compare(command, wanted, answered)
                return seen
            if answered == f"{wanted}\n":
                self.without += 1
                if edits:
                    return number
            else:
                self.compare(command, OUT_OF_MEMORY, answered, f", where growth {number} is refused,")
                self.refused += 1
            self.has(before)

    def answers(self, name):
        """What the program answers now, asked for all of a document."""
        doc = written(name)
        stat = f'{{"id":0,"op":"stat","doc":{doc}}}'
        known = json.loads(self.program.answer(f"{stat}\n".encode())[0])
        source = f'{{"id":0,"op":"source","doc":{doc},"at":0,"len":{known.get("bytes", 0)}}}'
        text = f'{{"id":0,"op":"text","doc":{doc},"from":0,"to":{known.get("utf32", 0)}}}'
        return [(it, self.program.answer(f"{it}\n".encode())[0][:-1]) for it in (stat, source, text)]


def named(command):
    """The name of the document in a command; None where there is none."""
    try:
        name = json.loads(command)["doc"]
        return name if 1 <= len(name.encode()) <= 64 else None
    except (ValueError, KeyError, TypeError, AttributeError):
        return None


class Mirror:
    """A document of the program, beside one that is computed plainly, and beside its twin, which has the same commands with no
    growth refused."""

    def __init__(self, tried, counts, rng, document):
        self.tried, self.counts, self.rng, self.document, self.rev = tried, counts, rng, document, 0
        marks = ',"bom":"keep"' if document.kept else ""
        members = f'"label":"{document.given}","bytes":"{base64_of(document.data)}"{marks}'
        none = [('{"id":1,"op":"stat","doc":"mine"}', reply({"fault": "NoDocument"}))]
        without = 1
        while without:
            without = self.refuse("open", members, self.edited(), none, first=without, edits=True)
            tried.has(self.rows())
            if without:
                self.close()
                without += 1

    def edited(self):
        """What the reply to an edit says that left the document as it is."""
        return {"bom": self.document.bom, "encoding": self.document.encoding, "rev": self.rev}

    def rows(self):
        """Commands with their replies, which say all of the document."""
        it, text, rev = self.document, self.document.text, {"rev": self.rev}
        lengths = {"utf8": len(text.encode()), "utf16": utf16(text), "utf32": len(text), "bytes": len(it.data)}
        stat = {**self.edited(), **lengths, "errors": len(it.errors), "given": it.given, "lines": it.line_count()}
        places = [it.place(number) for number in it.errors]
        return [
            ('{"id":1,"op":"stat","doc":"mine"}', reply(stat)),
            (f'{{"id":1,"op":"source","doc":"mine","at":0,"len":{len(it.data)}}}', reply({"bytes": base64_of(it.data), **rev})),
            (f'{{"id":1,"op":"text","doc":"mine","from":0,"to":{len(text)}}}', reply({"text": text, **rev})),
            ('{"id":1,"op":"errors","doc":"mine","from":0,"max":10000}', reply({"errors": places, "total": len(places), **rev})),
        ]

    def commands(self, op, members):
        """A command to the document, and the same to its twin."""
        return [f'{{"id":1,"op":"{op}","doc":"{name}",{members}}}' for name in ("mine", "twin")]

    def refuse(self, op, members, wanted, before, cuts=CUTS, **how):
        """The program answers a command to the document, as `Tried.ask` says, and in the end asks for no growth for which it
        didn't ask of the twin. The line comes at once, or in two parts."""
        at, (mine, twin), wanted = self.rng.choice(cuts), self.commands(op, members), reply(wanted)
        own, twins = ([line[:at], line[at:]] if at else [line] for line in (f"{it}\n".encode() for it in (mine, twin)))
        answered, growths = self.tried.program.answer(*twins, refused=0)
        self.tried.compare(twin, wanted, answered)
        found = self.tried.ask(mine, wanted, before, own, **how)
        if isinstance(found, int):
            return found
        more = collections.Counter(found) - collections.Counter(growths)
        if more:
            raise AssertionError(f"{cut(mine)} asks for more once growths were refused, {more}")
        self.counts[op] += len(found)
        return 0

    def ask(self, op, members, wanted, **how):
        """The program answers a question, or a command that is refused."""
        self.refuse(op, members, wanted, self.rows(), **how)

    def answer(self, op, members, **wanted):
        """The program answers a question by these members."""
        self.ask(op, members, {**wanted, "rev": self.rev})

    def edit(self, op, members, left, **wanted):
        """The program makes an edit, which leaves this document. Where it does so without a growth that was refused, all is put
        back, and the edit is made again."""
        before, without = self.document, 1
        while without:
            said = {**wanted, "bom": left.bom, "encoding": left.encoding, "rev": self.rev + 1}
            without = self.refuse(op, f'"rev":{self.rev},{members}', said, self.rows(), first=without, edits=True)
            self.document, self.rev = left, self.rev + 1
            self.tried.has(self.rows())
            if without:
                self.put_back(before)
                without += 1

    def put_back(self, before):
        """Puts all bytes back, and those of the twin."""
        members = f'"rev":{self.rev},"at":0,"del":{len(self.document.data)},"bytes":"{base64_of(before.data)}"'
        self.document, self.rev = before, self.rev + 1
        self.tried.has([(it, reply(self.edited())) for it in self.commands("splice", members)])

    def splice(self):
        """Has bytes replaced, and at times put back then, which need not be decoded again where it is remembered."""
        it = self.document
        at, gone, put = splice(self.rng, len(it.data))
        left = Document(it.given, it.kept, it.data[:at] + put + it.data[at + gone :])
        self.edit("splice", f'"at":{at},"del":{gone},"bytes":"{base64_of(put)}"', left)
        if self.rng.randrange(2):
            self.edit("splice", f'"at":{at},"del":{len(put)},"bytes":"{base64_of(it.data[at : at + gone])}"', it)

    def drawn(self, document, unit):
        """A change of a document in this unit, and its plan."""
        found = next(it for it in iter(lambda: change(self.rng, document), None) if it.unit == unit)
        plan = planned(document, found)
        fault = plan if isinstance(plan, dict) else None if plan.kept else {"fault": "NotKept"}
        return f'{range_of(found.range)}"text":{written(found.text)}', plan, fault

    def change(self):
        unit = self.rng.choice(UNITS)
        members, plan, fault = self.drawn(self.document, unit)
        members = f'"unit":"{unit}",{members}'
        if fault == plan:
            self.ask("plan", members, plan)
        else:
            foretold = {"at": plan.at, "bytes": base64_of(plan.new), "del": len(plan.old), "old": base64_of(plan.old), "kept": plan.kept}
            self.answer("plan", members, **foretold)
        if fault:
            self.ask("change", f'"rev":{self.rev},{members}', fault)
        else:
            self.edit("change", members, plan.left, at=plan.at, ins=len(plan.new), **{"del": len(plan.old)})

    def changes(self):
        unit, left, listed, fault = self.rng.choice(UNITS), self.document, [], None
        while len(listed) < LISTED and not fault:
            members, plan, fault = self.drawn(left, unit)
            left = left if fault else plan.left
            listed.append(f"{{{members}}}")
        members = f'"unit":"{unit}","changes":[{",".join(listed)}]'
        if fault:
            self.ask("changes", f'"rev":{self.rev},{members}', {"change": len(listed) - 1, **fault})
        else:
            self.edit("changes", members, left, applied=len(listed))

    def bounds(self, length):
        """From where to where a question is."""
        return sorted(self.rng.randint(0, length) for _ in range(2))

    def long(self):
        """Asks what is answered by a text or a list."""
        it, unit, most = self.document, self.rng.choice(UNITS), self.rng.randint(0, PAGE)
        at, end = self.bounds(len(it.data))
        self.answer("source", f'"at":{at},"len":{end - at}', bytes=base64_of(it.data[at:end]))
        i, j = self.bounds(len(it.text))
        self.answer("text", f'"from":{i},"to":{j}', text=it.text[i:j])
        self.encode(self.rng.choice(TARGETS), i, j)
        first = self.rng.randint(0, len(it.errors))
        page = it.errors[first : first + most]
        places = [[*it.place(n), *it.position(n, unit), *it.position(n + 1, unit)] for n in page]
        self.answer("errors", f'"from":{first},"max":{most}', errors=[it.place(n) for n in page], total=len(it.errors))
        self.answer("diagnostics", f'"from":{first},"max":{most},"unit":"{unit}"', diagnostics=places, total=len(it.errors))
        first = self.rng.randint(0, len(it.lines))
        page = [list(line) for line in it.lines[first : first + most]]
        self.answer("lines", f'"from":{first},"max":{most}', lines=page, count=len(it.lines))

    def encode(self, label, i, j):
        """Asks for a part of the text in another encoding."""
        text, members = self.document.text[i:j], f'"from":{i},"to":{j},"label":"{label}"'
        try:
            if label == "ISO-2022-JP":
                put, now = shifted(text, IN_ASCII)
                data = put if now == IN_ASCII else put + IN_ASCII
            else:
                data = encoded(label, text)
            self.answer("encode", members, bytes=base64_of(data))
        except Unencodable as fault:
            self.ask("encode", members, fault.reply)
            if label != "ISO-2022-JP":
                data = b"".join(WRITE[label][point] or b"&#%d;" % ord(point) for point in text)
                self.answer("encode", f'{members},"mode":"html"', bytes=base64_of(data))

    def short(self):
        """Asks what is answered without a text and a list, and so without memory."""
        it, unit, rev = self.document, self.rng.choice(UNITS), {"rev": self.rev}
        number = self.rng.randint(0, len(it.text))
        (line, character), front = it.position(number, unit), it.text[:number]
        lengths = {"utf8": len(front.encode()), "utf16": utf16(front), "utf32": number}
        for op, members, wanted in [
            ("position", f'"offset":{number},"unit":"{unit}"', {"line": line, "character": character}),
            ("offset", f'"line":{line},"character":{character},"unit":"{unit}"', {"offset": it.offset((line, character), unit)}),
            ("place", f'"unit":"utf-32","value":{number}', {"place": it.place(number), **lengths}),
            ("since", f'"rev":{self.rev}', {"at": 0, "del": 0, "ins": 0}),
        ]:
            self.ask(op, members, {**wanted, **rev}, cuts=[0])
            if self.counts[op]:
                raise AssertionError(f"{op} asks for memory")

    def close(self):
        """Closes both, for which no memory is asked."""
        for name in "mine", "twin":
            answered, growths = self.tried.program.answer(f'{{"id":1,"op":"close","doc":"{name}"}}\n'.encode(), refused=1)
            self.tried.compare("close", reply({"rev": self.rev}), answered)
            if growths:
                raise AssertionError("close asks for memory")


@EXACT
@built
@stopped
class Commands(unittest.TestCase):
    def is_telling(self, refused, least, without):
        """Enough growths were refused, and the program did without few of them."""
        self.assertGreaterEqual(refused, least)
        self.assertLess(without, refused / WITHOUT)

    def test_commands_of_stored_sessions(self):
        refused, without = 0, 0
        for path in FILES:
            for heading, rows in sessions(path):
                with self.subTest(f"{path.name}: {heading}"), Growths() as program:
                    tried = Tried(program)
                    for command, wanted in rows:
                        name = named(command)
                        tried.ask(command, wanted, tried.answers(name) if name else [], edits='"fault"' not in wanted)
                    refused, without = refused + tried.refused, without + tried.without
        self.is_telling(refused, STORED, without)

    def in_encoding(self, given, counts):
        """Commands on documents in one encoding."""
        rng = random.Random(given)
        with Growths() as program:
            tried = Tried(program)
            for number, length in enumerate(LENGTHS):
                data = marked_content(rng, given, rng.randint(1, length))
                mirror = Mirror(tried, counts, rng, Document(given, number == 1, data))
                for _ in range(COMMANDS):
                    rng.choice([mirror.splice, mirror.change, mirror.change, mirror.changes, mirror.long, mirror.short])()
                mirror.close()
        counts.update(refused=tried.refused, without=tried.without)

    def test_commands_drawn_in_eleven_encodings(self):
        counts = collections.Counter()
        for given in OWN:
            with self.subTest(encoding=given):
                self.in_encoding(given, counts)
        self.is_telling(counts["refused"], DRAWN, counts["without"])
        for op, least in LEAST.items():
            self.assertGreaterEqual(counts[op], least, op)


@EXACT
@built
@stopped
class Lines(unittest.TestCase):
    """Lines that are no JSON, and need memory as they come. Behind each the next line is answered."""

    NEXT = [('{"id":3,"op":"stat","doc":"d"}', '{"fault":"NoDocument","id":3}')]

    def test_lines_in_parts(self):
        with Growths() as program:
            tried = Tried(program)
            for lengths in LINES:
                refused = tried.refused
                tried.ask("the line", '{"fault":"BadJson"}', self.NEXT, [*(b"x" * it for it in lengths), b"\n"])
                self.assertGreater(tried.refused, refused)

    def test_lines_that_are_too_long(self):
        with Growths() as program:
            tried = Tried(program)
            for lengths in LONGER:
                for number in itertools.count(1):
                    answered, seen = program.answer(*(b"x" * it for it in lengths), b"\n", refused=number)
                    tried.compare("the line", '{"fault":"LineTooLong"}', answered)
                    tried.has(self.NEXT)
                    if len(seen) < number:
                        break
                self.assertGreater(number, 3)


@EXACT
@built
@stopped
class Played(unittest.TestCase):
    """What loads files and plays traces. Where memory runs out outside of a command it ends the program, by its text and
    status."""

    def plays(self, words, lines, wanted, ended):
        """The program prints one of these texts, the first where nothing is refused, and each at least once; or a front of one,
        where it ends, which it does for `ended` growths at least."""
        found = collections.Counter()
        for number in itertools.count(1):
            (status, text, error), seen = played(words, "".join(f"{it}\n" for it in lines).encode(), number)
            if len(seen) < number:
                self.assertEqual((status, text, error), (0, wanted[0], ""))
                break
            if status:
                self.assertEqual((status, error), (1, "gate: out of memory\n"), f"growth {number}")
                self.assertTrue(any(it.startswith(text) for it in wanted), f"growth {number}: {text}")
            else:
                self.assertIn(text, wanted, f"growth {number}")
            found[status or text] += 1
        for text in wanted[1:]:
            self.assertGreater(found[text], 0, text)
        self.assertGreaterEqual(found[1], ended)

    def test_a_trace_of_two_editors(self):
        printed = ["".join(f"{connection} {it}\n" for connection, it in zip((1, 1, 2, 2), replies)) for replies in REPLIES]
        self.plays(["trace", *SMALL[1:]], EDITORS, printed, 200)

    def test_a_document_that_is_adopted(self):
        it = Document("Shift_JIS", False, b"text \x82\xa0 \x82" * 300)
        question = f'{{"id":1,"op":"source","doc":"d","at":0,"len":{len(it.data)}}}'
        lines = [*adopts("d", it.data, 7, it.given, size=1000), "open 1", asks(1, question)]
        wanted = [reply({"bytes": base64_of(it.data), "rev": 7}), OUT_OF_MEMORY]
        self.plays(["trace", *SMALL[1:]], lines, [f"1 {reply}\n" for reply in wanted], 200)

    def test_files(self):
        with tempfile.TemporaryDirectory() as name:
            folder = pathlib.Path(name)
            for file in "index-jis0208.txt", "index-windows-1252.txt", "gb18030-exceptions.txt":
                (folder / file).write_bytes((TOP / "examples" / "indexes" / file).read_bytes())
            (folder / "labels.json").write_text(LABELS)
            words = ["stdio", "--indexes", name, "--labels", str(folder / "labels.json")]
            self.plays(words, COMMANDS_OF_FILES, ["".join(f"{it}\n" for it in replies) for replies in REPLIES_OF_FILES], 150)


    def test_a_stream(self):
        lines = ["a line of words \u3042\u4e9c"] * 400
        words = ["convert", *SMALL[1:], "--from", "utf-8", "--to", "utf-8"]
        self.plays(words, lines, ["".join(f"{it}\n" for it in lines)], 150)


SCARCE = str(TOP / "crates" / "scarce_memory" / "out" / "scarce_memory")


@unittest.skipUnless(os.access(SCARCE, os.X_OK), f"there is no program {SCARCE}; rt ci builds it")
@stopped
class Calls(unittest.TestCase):
    """Calls that the program doesn't make, which one of its own makes and names: each growth of each is refused in turn. The call is
    out of memory then, and those behind it answer."""

    # The fewest growths that are refused of each; a copy of a piece shares all that it has, and asks for none.
    LEAST = {"decode_whole": 1, "decode_fatal": 1, "Piece::copy": 0, "Doc::copy": 5}

    def printed(self, refused=""):
        return [f"{it}: {'out of memory' if it == refused else 'right'}" for it in self.LEAST]

    def test_each_growth_of_each_call(self):
        refused = collections.Counter()
        for number in itertools.count(1):
            (status, text, error), seen = played(["-"], b"", number, SCARCE)
            lines = text.splitlines()
            if len(seen) < number:
                self.assertEqual((status, lines, error), (0, self.printed(), ""))
                break
            if status:
                # (a growth of what the program makes for these calls)
                self.assertEqual((status, lines), (1, self.printed()[: len(lines)]), f"growth {number}")
            else:
                call = next((it for it in self.LEAST if f"{it}: out of memory" in lines), "")
                self.assertEqual(lines, self.printed(call), f"growth {number}")
                refused[call] += 1
        for call, least in self.LEAST.items():
            (self.assertGreaterEqual if least else self.assertEqual)(refused[call], least, call)


class Untraced(unittest.TestCase):
    """A machine on which the program can't be stopped."""

    def runs(self, why_not, untraced):
        """What comes of a test that stops the program: how many failed, and how many were skipped."""

        class Stopping(unittest.TestCase):
            def test(self):
                pass

        environment = {"GATE_UNTRACED": untraced}
        with mock.patch.object(growths, "WHY_NOT", why_not), mock.patch.dict("os.environ", environment):
            tests = unittest.defaultTestLoader.loadTestsFromTestCase(stopped(Stopping))
            result = unittest.TestResult()
            tests.run(result)
        return len(result.errors) + len(result.failures), len(result.skipped)

    def test_tests_fail_there_unless_they_are_to_be_skipped(self):
        self.assertEqual(self.runs("", ""), (0, 0))
        self.assertEqual(self.runs("Operation not permitted", ""), (1, 0))
        self.assertEqual(self.runs("Operation not permitted", "1"), (0, 1))


if __name__ == "__main__":
    unittest.main()

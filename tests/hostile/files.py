"""Hostile index files and label files, and the documents that can be opened with what was read."""
import os

from program import Case, Ended, Folder

MOST = 16777216  # bytes of a file

IBM866 = "index-ibm866.txt"
RANGES = "index-gb18030-ranges.txt"
EXCEPTIONS = "gb18030-exceptions.txt"
LABELS = "labels.json"

ASK = b'{"id":1,"op":"open","doc":"d","label":"ibm866","bytes":""}\n'
THERE = b'{"bom":0,"encoding":"IBM866","id":1,"rev":0}\n'
ABSENT = b'{"fault":"NoIndex","id":1}\n'


def faulty(cause, line=1, name=IBM866):
    return b"gate: index file %s, line %d: %s\n" % (name.encode(), line, cause)


def unread(name):
    return b"gate: cannot read %s\n" % name.encode()


def link_to(target):
    return lambda path: os.symlink(target, path)


def without_permissions(path):
    os.close(os.open(path, os.O_CREAT, 0))


def link_to_itself(path):
    os.symlink(path, path)


def comments(count):
    """`count` bytes of comments."""
    return (b"#" * 63 + b"\n") * (count // 64) + b"#" * (count % 64)


def all_exceptions():
    """Each scalar value from U+0080 to U+FFFF, by two bytes each."""
    pairs = [lead << 8 | trail for lead in range(0x81, 0xFF) for trail in range(0x40, 0xFF) if trail != 0x7F]
    code_points = [*range(0x80, 0xD800), *range(0xE000, 0x10000)]
    return b"".join(b"0x%X\t%X\n" % (code_point, pairs[number % len(pairs)]) for number, code_point in enumerate(code_points))


# An index file, or several by name; what the program says of it; or, where it says nothing, the reply to an open.
INDEX_FILES = [
    ("16 MiB of comments", comments(MOST), THERE),
    ("a byte more than 16 MiB of comments", comments(MOST + 1), unread(IBM866)),
    ("a comment of 16 MiB", b"#" * MOST, THERE),
    ("no byte", b"", THERE),
    ("a byte 00 behind a code point", b"0\t0x41\0\n", faulty(b"BadCodePoint")),
    ("a byte 00 in front of a pointer", b"\0000\t0x41\n", faulty(b"BadPointer")),
    ("nothing but bytes 00", b"\0" * 4096, faulty(b"BadPointer")),
    ("lines ended by CR alone", b"0\t0x41\r1\t0x42\r", faulty(b"BadCodePoint")),
    ("a CR and nothing else", b"\r", THERE),
    ("two CRs", b"0\t0x41\n\r\r\n", faulty(b"BadPointer", 2)),
    ("truncated behind a pointer", b"0\t0x410\n1", faulty(b"BadCodePoint", 2)),
    ("truncated behind a TAB", b"0\t0x410\n1\t", faulty(b"BadCodePoint", 2)),
    ("truncated behind 0x", b"0\t0x410\n1\t0x", faulty(b"BadCodePoint", 2)),
    ("truncated in a code point's digits", b"0\t0x410\n1\t0x4", THERE),
    ("a byte order mark", b"\xef\xbb\xbf0\t0x41\n", faulty(b"BadPointer")),
    ("a line of spaces", b"0\t0x41\n \n", faulty(b"BadPointer", 2)),
    ("a surrogate", b"0\t0xD800\n", faulty(b"BadCodePoint")),
    ("the last surrogate", b"0\t0xDFFF\n", faulty(b"BadCodePoint")),
    ("code points beside the surrogates, the first and the last", b"0\t0xD7FF\n1\t0xE000\n2\t0x0\n3\t0x10FFFF\n", THERE),
    ("a code point above 10FFFF", b"0\t0x110000\n", faulty(b"BadCodePoint")),
    ("a code point of 32 bits", b"0\t0xFFFFFFFF\n", faulty(b"BadCodePoint")),
    ("a code point of 400 digits", b"0\t0x" + b"1" * 400 + b"\n", faulty(b"BadCodePoint")),
    ("400 leading zeros", b"0" * 400 + b"\t0x" + b"0" * 400 + b"41\n", THERE),
    ("a pointer of 400 digits", b"1" * 400 + b"\t0x41\n", faulty(b"PointerTooLarge")),
    ("the pointer behind the greatest", b"127\t0x41\n128\t0x42\n", faulty(b"PointerTooLarge", 2)),
    ("a surrogate at a pointer that is too large", b"128\t0xD800\n", faulty(b"BadCodePoint")),
    ("a negative pointer", b"-1\t0x41\n", faulty(b"BadPointer")),
    ("a pointer of two words in front of no code point", b"1 2\tx\n", faulty(b"BadPointer")),
    ("a code point without 0x", b"0\t20AC\n", faulty(b"BadCodePoint")),
    ("a code point with 0X", b"0\t0X41\n", faulty(b"BadCodePoint")),
    ("a letter among a code point's digits", b"0\t0x4G\n", faulty(b"BadCodePoint")),
    ("the fifth line behind comments, empty lines and a third field", b"# a comment\r\n\r\n\n 5 \t 0x2a \tname\r\nx\n", faulty(b"BadPointer", 5)),
    ("an empty line and a comment", b"\n#\n", THERE),
    ("a pointer twice", b"0\t0x41\n0\t0x42\n", faulty(b"DuplicatePointer", 2)),
    ("a folder in its place", os.mkdir, unread(IBM866)),
    ("a link to itself in its place", link_to_itself, unread(IBM866)),
    ("a link to nothing in its place", link_to("nothing"), ABSENT),
    ("a file whose reads fail", link_to("/proc/self/mem"), unread(IBM866)),
    ("a file without permissions", without_permissions, THERE if os.geteuid() == 0 else unread(IBM866)),
    ("two faulty files, of which the first counts", {"index-big5.txt": b"x", "index-gb18030-ranges.txt": b"", "index-koi8-u.txt": b"y"},
     faulty(b"BadPointer", name="index-koi8-u.txt")),
    *((f"ranges of gb18030 {name}", {RANGES: content}, faulty(cause, line, RANGES)) for name, content, cause, line in (
        ("without their rows", b"", b"BadRanges", 0),
        ("without their first row", b"0\t0x81\n189000\t0x10000\n", b"BadRanges", 0),
        ("that begin in the gap", b"39420\t0x80\n", b"BadRanges", 1),
        ("at a pointer of 20 digits", b"9" * 20 + b"\t0x80\n", b"BadRanges", 1),
        ("with ASCII", b"1\t0x7F\n", b"BadRanges", 1),
        ("that reach the second plane", b"1\t0x10000\n", b"BadRanges", 1),
        ("with another last row", b"189000\t0x10001\n", b"BadRanges", 1),
        ("with a pointer twice", b"0\t0x80\n0\t0x81\n189000\t0x10000\n", b"DuplicatePointer", 2),
    )),
    *((f"exceptions of gb18030 {name}", {EXCEPTIONS: content}, faulty(cause, line, EXCEPTIONS)) for name, content, cause, line in (
        ("with a byte order mark", b"\xef\xbb\xbf0x80\t8140\n", b"BadCodePoint", 1),
        ("with the last surrogate", b"0xDFFF\t8140\n", b"BadCodePoint", 1),
        ("of a code point of 400 digits", b"0x" + b"1" * 400 + b"\t8140\n", b"BadCodePoint", 1),
        ("truncated behind a code point", b"0x80\t8140\n0x81", b"BadBytes", 2),
        ("truncated in the bytes", b"0x80\t8140\n0x81\t814", b"BadBytes", 2),
        ("of bytes of 400 digits", b"0x80\t" + b"0" * 396 + b"8140\n", b"BadBytes", 1),
        ("of a trail byte 7F", b"0x80\t817F\n", b"BadBytes", 1),
        ("of four bytes", b"0x80\t81308130\n", b"BadBytes", 1),
        ("with a code point twice", b"0x80\t8140\n0x0080\t8141\n", b"DuplicateCodePoint", 2),
    )),
    ("exceptions of all code points up to U+FFFF but ASCII", {IBM866: b"", EXCEPTIONS: all_exceptions()}, THERE),
    ("a folder in place of the exceptions", {EXCEPTIONS: os.mkdir}, unread(EXCEPTIONS)),
    ("faulty exceptions and a faulty file before them", {EXCEPTIONS: b"x", RANGES: b""}, faulty(b"BadRanges", 0, RANGES)),
]

NOT_JSON = b"gate: label file: NotJson\n"
BAD_SHAPE = b"gate: label file: BadShape\n"
UNREAD = None  # it can't be read, and is named as it was given
EMPTY = b'[{"encodings":[{"name":"UTF-8","labels":[%s]}]}]'

# A label file, and what the program says of it; or, where it says nothing, the reply to an open.
LABEL_FILES = [
    ("no byte", b"", NOT_JSON),
    ("127 levels", b"[" * 127 + b"]" * 127, BAD_SHAPE),
    ("128 levels", b"[" * 128 + b"]" * 128, NOT_JSON),
    ("200 levels", b"[" * 200 + b"]" * 200, NOT_JSON),
    ("4 MiB of nothing but [", b"[" * 4194304, NOT_JSON),
    ("an object", b"{}", BAD_SHAPE),
    ("truncated", EMPTY[:-1] % b"", NOT_JSON),
    ("a byte 00 behind it", EMPTY % b"" + b"\0", NOT_JSON),
    ("a byte order mark", b"\xef\xbb\xbf" + EMPTY % b"", NOT_JSON),
    ("bytes that aren't UTF-8", EMPTY % b'"\xff"', NOT_JSON),
    ("a lone surrogate", EMPTY % b'"\\ud800"', NOT_JSON),
    ("a number of 400 digits in another field", b'[{"encodings":[],"x":' + b"1" * 400 + b"}]", NOT_JSON),
    ("two arrays", b"[] []", NOT_JSON),
    ("a comma alone", b"[,]", NOT_JSON),
    ("a number above all", b"[1e999]", NOT_JSON),
    ("null", b"null", BAD_SHAPE),
    ("a number in place of a group", b"[1]", BAD_SHAPE),
    ("a group without encodings", b"[{}]", BAD_SHAPE),
    ("an object of encodings", b'[{"encodings":{}}]', BAD_SHAPE),
    ("a text in place of an encoding", b'[{"encodings":["UTF-8"]}]', BAD_SHAPE),
    ("an unknown name without labels", b'[{"encodings":[{"name":"none"}]}]', BAD_SHAPE),
    ("an unknown name with a text for labels", b'[{"encodings":[{"name":"none","labels":"x"}]}]', BAD_SHAPE),
    ("an unknown name with a number among its labels", b'[{"encodings":[{"name":"none","labels":["x",1]}]}]', BAD_SHAPE),
    ("a name that is null", b'[{"encodings":[{"name":null,"labels":[]}]}]', BAD_SHAPE),
    ("labels without a name", b'[{"encodings":[{"labels":["x"]}]}]', BAD_SHAPE),
    ("a second group without encodings", b'[{"encodings":[{"name":"UTF-8","labels":["x"]}]},{"encoding":[]}]', BAD_SHAPE),
    ("a label that is no text", EMPTY % b"1", BAD_SHAPE),
    ("an unknown name in another shape", b'[{"encodings":[{"name":"none","labels":1}]}]', BAD_SHAPE),
    ("10,000 labels", EMPTY % b",".join(b'"%d"' % it for it in range(10000)), b'{"fault":"UnknownLabel","id":1}\n'),
    ("labels with U+0000", b'[{"encodings":[{"name":"IBM866","labels":["\\u0000","ibm866"]}]}]', ABSENT),
    ("a byte more than 16 MiB", b" " * (MOST + 1), UNREAD),
    ("a folder in its place", os.mkdir, UNREAD),
    ("a link to nothing", link_to("nothing"), UNREAD),
    ("a file whose reads fail", link_to("/proc/self/mem"), UNREAD),
]


def expected_of(text):
    return Ended(2, b"", text) if text.startswith(b"gate: ") else Ended(0, text, b"")


def with_index_files(gate, command, files):
    with Folder() as folder:
        for name, content in files.items():
            folder.put(name, content)
        return gate.run([*command, "--indexes", folder.path], ASK)


def with_label_file(gate, content):
    """The file's path is shown by its name alone, since the folder has another name each time."""
    with Folder() as folder:
        path = folder.put(LABELS, content)
        ended = gate.run(["stdio", "--indexes", gate.empty, "--labels", path], ASK)
        return ended._replace(error=ended.error.replace(path.encode(), LABELS.encode()))


def cases(gate):
    for name, content, text in INDEX_FILES:
        files = content if isinstance(content, dict) else {IBM866: content}
        wanted = expected_of(text)
        faults = wanted.status != 0
        for command in [["stdio"], ["trace"], ["tcp"]] if faults else [["stdio"]]:
            yield Case(f"{command[0]}, index file: {name}", lambda files=files, command=command: with_index_files(gate, command, files), wanted)
    for name, content, text in LABEL_FILES:
        yield Case(f"stdio, label file: {name}", lambda content=content: with_label_file(gate, content), expected_of(text or unread(LABELS)))
    with_none = Ended(0, ABSENT, b"")
    for name, path in ("that isn't there", gate.empty + "/none"), ("that is a file", gate.path), ("without files", gate.empty):
        yield Case(f"stdio: a folder {name}", lambda path=path: gate.run(["stdio", "--indexes", path], ASK), with_none)

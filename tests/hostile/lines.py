"""Hostile lines, each between an open and a question about what it opened, over all three ways in."""
import base64
import json

from program import Case, Ended

MOST = 4194304  # bytes of a line
LARGEST = 16777216  # bytes of a document
PART = 3000000  # bytes of a document that a line carries
LARGE = 2097150  # bytes of one that a line has room for, in triples

OPEN = b'{"id":0,"op":"open","doc":"kept","label":"utf-8","bytes":"4oJB"}'
OPENED = b'{"bom":0,"encoding":"UTF-8","id":0,"rev":0}'
ASK = b'{"id":7,"op":"source","doc":"kept","at":0,"len":3}'
KEPT = b'{"bytes":"4oJB","id":7,"rev":0}'

BAD_JSON = b'{"fault":"BadJson"}'
TOO_LONG = b'{"fault":"LineTooLong"}'
STAT = b'"op":"stat","doc":"kept"'
NONE = b'{"fault":"NoDocument","id":1}'
OPENED_1 = b'{"bom":0,"encoding":"UTF-8","id":1,"rev":0}'
BASE64 = b'{"fault":"BadBase64","id":1}'


def stat(number=1):
    return b'{"bom":0,"bytes":3,"encoding":"UTF-8","errors":1,"given":"UTF-8","id":%d,"lines":1,"rev":0,"utf16":2,"utf32":2,"utf8":4}' % number


def bad(field, number=None):
    return json.dumps({"fault": "BadRequest", "field": field, **({} if number is None else {"id": number})}, separators=(",", ":")).encode()


def fault(name):
    return b'{"fault":"%s","id":1}' % name


def opens(content, name=b"new", label=b"utf-8", more=b""):
    return b'{"id":1,"op":"open","doc":"%s","label":"%s","bytes":"%s"%s}' % (name, label, content, more)


def levels(depth):
    """A question whose JSON has `depth` levels."""
    return b'{"id":1,%s,"x":' % STAT + b"[" * (depth - 1) + b"]" * (depth - 1) + b"}"


def keys(count):
    return b"{" + b"".join(b'"k%d":%d,' % (it, it) for it in range(count)) + b'"id":1,%s}' % STAT


def splice(at, cut, rev=0):
    return b'{"id":1,"op":"splice","doc":"kept","rev":%d,"at":%d,"del":%d,"bytes":""}' % (rev, at, cut)


# A change that is refused: its range ends in front of its start.
BACKWARDS = b'{"range":{"start":{"line":0,"character":1},"end":{"line":0,"character":0}},"text":""}'


def changes(one, count, *more):
    """A list that has this change `count` times, and then more."""
    return b'{"id":1,"op":"changes","doc":"kept","rev":0,"changes":[%s]}' % b",".join([one] * count + list(more))


def replaces(text, given, rev=0):
    """The whole text replaced by given bytes."""
    return b'{"id":1,"op":"replace","doc":"kept","rev":%d,"text":"%s","bytes":"%s"}' % (rev, text, given)


def by_parts(size, last):
    """Lines that open a document of `size` bytes 00, and their replies, of which the last is given."""
    part = b'{"id":1,"op":"splice","doc":"new","rev":%d,"at":%d,"del":0,"bytes":"%s"}'
    lines, replies = [opens(zeros(PART))], [OPENED_1]
    for rev, at in enumerate(range(PART, size, PART)):
        lines.append(part % (rev, at, zeros(min(PART, size - at))))
        replies.append(OPENED_1.replace(b'"rev":0', b'"rev":%d' % (rev + 1)))
    return b"\n".join(lines), b"\n".join(replies[:-1] + [last or replies[-1]])


def since(rev, more=b""):
    return b'{"id":1,"op":"since","doc":"kept","rev":%s%s}' % (rev, more)


def after_edits(count, rev, last):
    """Lines that open a document, edit it `count` times and ask what came since a revision, and their replies, of which the
    last is given."""
    splices = [b'{"id":1,"op":"splice","doc":"new","rev":%d,"at":0,"del":0,"bytes":""}' % it for it in range(count)]
    lines = [opens(b"4oJB"), *splices, since(b"%d" % rev).replace(b"kept", b"new")]
    replies = [OPENED_1.replace(b'"rev":0', b'"rev":%d' % it) for it in range(count + 1)]
    return b"\n".join(lines), b"\n".join([*replies, last])


def zeros(count):
    return base64.b64encode(b"\0" * count)


# What is sent, and the reply, or several with as many replies.
LINES = [
    ("an empty line", b"", BAD_JSON),
    ("a line of CR alone", b"\r", BAD_JSON),
    ("4 MiB of nothing but [", b"[" * MOST, BAD_JSON),
    ("a line of 4,194,304 bytes", b'{"id":1,%s}' % STAT + b" " * (MOST - 33), stat()),
    ("a line of 4,194,305 bytes", b'{"id":1,%s}' % STAT + b" " * (MOST - 32), TOO_LONG),
    ("4,194,304 bytes and a CR", b'{"id":1,%s}' % STAT + b" " * (MOST - 33) + b"\r", TOO_LONG),
    ("127 levels", levels(127), stat()),
    ("128 levels", levels(128), BAD_JSON),
    ("an array", b"[]", bad("")),
    ("a byte 00", b"\0", BAD_JSON),
    ("a byte 00 in a text", b'{"id":1,"op":"stat","doc":"\0"}', BAD_JSON),
    ("bytes that aren't UTF-8", b'{"id":1,"op":"stat","doc":"\xff"}', BAD_JSON),
    ("a surrogate in UTF-8's form", b'{"id":1,"op":"stat","doc":"\xed\xa0\x80"}', BAD_JSON),
    ("a byte order mark", b"\xef\xbb\xbf{}", BAD_JSON),
    (r"\u0000 as a name", b'{"id":1,"op":"stat","doc":"\\u0000"}', NONE),
    (r"\u0000 as a key", b'{"\\u0000":0,"id":1,%s}' % STAT, stat()),
    ("a lone lead surrogate", b'{"id":1,"op":"stat","doc":"\\ud800"}', BAD_JSON),
    ("a lone trail surrogate", b'{"id":1,"op":"stat","doc":"\\udc00"}', BAD_JSON),
    ("surrogates in the wrong order", b'{"id":1,"op":"stat","doc":"\\ude00\\ud83d"}', BAD_JSON),
    ("a lone surrogate in a field that is ignored", b'{"id":1,%s,"x":"\\ud800"}' % STAT, BAD_JSON),
    ("a surrogate pair", b'{"id":1,"op":"stat","doc":"\\ud83d\\ude00"}', NONE),
    ("10,000 keys", keys(10000), stat()),
    ("10,000 equal keys, of which the last counts", b"{" + b'"id":9,' * 9999 + b'"id":1,%s}' % STAT, stat()),
    ("two equal keys, the first of another type", b'{"id":"x","id":2,%s}' % STAT, stat(2)),
    ("two equal keys, the last of another type", b'{"id":2,"id":"x",%s}' % STAT, bad("id")),
    ("an id of 400 digits", b'{"id":%s,%s}' % (b"1" * 400, STAT), BAD_JSON),
    ("400 digits in a field that is ignored", b'{"id":1,%s,"x":%s}' % (STAT, b"1" * 400), BAD_JSON),
    ("400 digits behind the point", b'{"id":1,%s,"x":0.%s}' % (STAT, b"1" * 400), stat()),
    ("1e400", b'{"id":1,%s,"x":1e400}' % STAT, BAD_JSON),
    ("1e-400", b'{"id":1,%s,"x":1e-400}' % STAT, stat()),
    ("an id of 2^53 - 1", b'{"id":9007199254740991,%s}' % STAT, stat(9007199254740991)),
    ("an id of 2^53", b'{"id":9007199254740992,%s}' % STAT, bad("id")),
    ("an id of 1.5", b'{"id":1.5,%s}' % STAT, bad("id")),
    ("an id of 1.0", b'{"id":1.0,%s}' % STAT, bad("id")),
    ("an id of 1e0", b'{"id":1e0,%s}' % STAT, bad("id")),
    ("an id of -0", b'{"id":-0,%s}' % STAT, bad("id")),
    ("an id in quotes", b'{"id":"1",%s}' % STAT, bad("id")),
    ("an id of null", b'{"id":null,%s}' % STAT, bad("id")),
    ("a number with a leading zero", b'{"id":01,%s}' % STAT, BAD_JSON),
    ("an op that is none", b'{"id":1,"op":"stat\\u0000"}', fault(b"UnknownOp")),
    ("base64 with spare bits", opens(b"QR=="), BASE64),
    ("base64 with white space in it", opens(b"Q Q=="), BASE64),
    ("base64 with a line feed behind it", opens(b"QQ==\\n"), BASE64),
    ("base64 without padding", opens(b"QQ"), BASE64),
    ("base64 with too much padding", opens(b"QQ==="), BASE64),
    ("base64 of URLs", opens(b"-_-_"), BASE64),
    ("base64 with U+0000", opens(b"QQ==\\u0000"), BASE64),
    ("a name of no byte", opens(b"", b""), bad("doc", 1)),
    ("a name of 64 bytes", opens(b"", b"n" * 64), OPENED_1),
    ("a name of 65 bytes", opens(b"", b"n" * 65), bad("doc", 1)),
    ("a name of 16 code points in 64 bytes", opens(b"", "\U0001f600".encode() * 16), OPENED_1),
    ("a name of 22 code points in 66 bytes", opens(b"", b"\\u3042" * 22), bad("doc", 1)),
    ("a document of 16,777,216 bytes", *by_parts(LARGEST, None)),
    ("a document of 16,777,217 bytes", *by_parts(LARGEST + 1, fault(b"TooLarge"))),
    ("a label of a megabyte", opens(b"", label=b"x" * (1 << 20)), fault(b"UnknownLabel")),
    ("a mark that is neither looked for nor kept", opens(b"77u/", more=b',"bom":"drop"'), bad("bom", 1)),
    ("a mark kept with U+0000 behind it", opens(b"77u/", more=b',"bom":"keep\\u0000"'), bad("bom", 1)),
    ("a mark kept by a megabyte of text", opens(b"77u/", more=b',"bom":"%s"' % (b"keep" * (1 << 18))), bad("bom", 1)),
    ("a mark kept at 100 levels", opens(b"77u/", more=b',"bom":%s"keep"%s' % (b"[" * 100, b"]" * 100)), bad("bom", 1)),
    ("a mark of null, beside base64 that is none", opens(b"Q", more=b',"bom":null'), bad("bom", 1)),
    ("a mark kept, in an encoding that isn't the mark's", opens(b"77u/", label=b"utf-16be", more=b',"bom":"keep"'),
     b'{"bom":0,"encoding":"UTF-16BE","id":1,"rev":0}'),
    ("a revision that is to come", since(b"1"), fault(b"OutOfRange")),
    ("a revision of 2^53 - 1, in units of a megabyte", since(b"9007199254740991", b',"unit":"%s"' % (b"utf-8" * (1 << 18))), bad("unit", 1)),
    ("a revision of 2^53", since(b"9007199254740992"), bad("rev", 1)),
    ("a revision of -0", since(b"-0"), bad("rev", 1)),
    ("positions in bytes", since(b"0", b',"unit":"byte"'), bad("unit", 1)),
    ("positions at 100 levels", since(b"0", b',"unit":%s"utf-8"%s' % (b"[" * 100, b"]" * 100)), bad("unit", 1)),
    ("what came since 1,024 edits", *after_edits(1024, 0, b'{"at":0,"del":0,"id":1,"ins":0,"rev":1024}')),
    ("what came since 1,025 edits", *after_edits(1025, 0, b'{"fault":"Forgotten","id":1,"rev":1}')),
    ("a list of 1,001 changes", changes(b'{"text":"x"}', 1001), bad("changes", 1)),
    ("a list of a million numbers", changes(b"0", 1000000), bad("changes", 1)),
    ("a list of 1,000 changes, of which the last is none", changes(b'{"text":"x"}', 999, b"{}"), bad("changes", 1)),
    ("a list of 1,000 changes, of which the last is refused", changes(b'{"text":"x"}', 999, BACKWARDS), b'{"change":999,"fault":"OutOfRange","id":1}'),
    ("a list that nests", changes(b"[" * 120 + b"]" * 120, 1), bad("changes", 1)),
    ("given bytes for another text", replaces(b"x", b"eQ=="), fault(b"NotKept")),
    ("given bytes that aren't base64, of another revision", replaces(b"x", b"eQ", 1), BASE64),
    ("two megabytes of bytes for a letter", replaces(b"x", b"eHh4" * (3 << 18)), fault(b"NotKept")),
    ("three megabytes of text without bytes", replaces(b"x" * (3 << 20), b""), fault(b"NotKept")),
    ("a splice far past the end", splice(9007199254740991, 9007199254740991), fault(b"OutOfRange")),
    ("a splice a byte past the end", splice(0, 4), fault(b"OutOfRange")),
    ("a splice of another revision", splice(0, 3, 1), b'{"fault":"Stale","id":1,"rev":0}'),
]


def documents(count):
    """Opens this many documents beside the one that is kept."""
    return [opens(b"", b"n%d" % it) for it in range(count)]


def cases(gate):
    wanted = Ended(0, b"", b"")
    for way, call in ("stdio", gate.over_stdio), ("trace", gate.over_trace), ("tcp", gate.over_tcp):
        for name, line, reply in LINES:
            data, replies = (b"".join(it + b"\n" for it in all_of) for all_of in ((OPEN, line, ASK), (OPENED, reply, KEPT)))
            yield Case(f"{way}: {name}", lambda call=call, data=data: call(data), wanted._replace(output=replies))
        data = b"\n".join([OPEN, *documents(64), ASK, b'{"id":1'])
        replies = b"".join(it + b"\n" for it in [OPENED, *[OPENED_1] * 63, fault(b"TooManyDocuments"), KEPT])
        yield Case(f"{way}: a 65th document, and half a line at the end", lambda call=call, data=data: call(data), wanted._replace(output=replies))

"""A second, simple reader of the records of commits and imports, after docs/FORMATS.md alone: what they say, or the first fault with its place.
`tests/histories.py` compares the program with it.
"""

import re

from plain_store import Refused

MOST_BODY, MOST_FILES, MOST_TEXT, MOST_USER = 16_777_216, 20_000, 65_536, 1_024
MOST_SECONDS, MOST_OFFSET, MOST_RECORDS = 2**40, 50_400, 10_000
NUMBER = rb"0|[1-9][0-9]*"


def bad(place):
    return Refused(14, f"abort: bad input at {place}")


def is_text(text):
    try:
        text.decode()
    except UnicodeDecodeError:
        return False
    return True


def is_mark(name):
    is_plain = is_text(name) and 1 <= len(name) <= 255 and not re.search(rb"[:\0\n\r]", name) and name.strip(b" ") == name
    return is_plain and name not in (b"tip", b".", b"null") and not re.fullmatch(rb"[0-9]+", name)


def branch_of(name):
    """The branch that a line names; `default` is as if the line were not there. Nothing where the name is none."""
    return b"" if name == b"default" else name if is_mark(name) and b"\\" not in name else None


def is_tracked(path):
    parts = path.split(b"/")
    return 1 <= len(path) <= 1024 and not re.search(rb"[\0\r\n]", path) and not any(part in (b"", b".", b"..") or part.lower() == b".hg" for part in parts)


def date_of(text):
    found = re.fullmatch(rb"(-?)(%s) (-?)(%s)" % (NUMBER, NUMBER), text)
    if not found or found[1] and found[2] == b"0" or found[3] and found[4] == b"0":
        return None
    seconds, offset = int(found[1] + found[2]), int(found[3] + found[4])
    return (seconds, offset) if abs(seconds) <= MOST_SECONDS and abs(offset) <= MOST_OFFSET else None


class Reader:
    """The bytes, and how far they are read. A line or text that is cut has the place behind the last byte."""

    def __init__(self, data):
        self.data, self.at = data, 0

    def line(self):
        end = self.data.find(b"\n", self.at)
        if end < 0:
            raise bad(len(self.data))
        return self.data[self.at : end]

    def pass_line(self):
        self.at += len(self.line()) + 1

    def take(self, word):
        """The rest of a line that begins with this word, which is passed; nothing where it begins otherwise."""
        line = self.line()
        if not line.startswith(word + b" "):
            return None
        return line[len(word) + 1 :]

    def must(self, value):
        if value is None or value is False:
            raise bad(self.at)
        return value

    def text(self, length):
        """A counted text, and the LF behind it."""
        if self.at + length >= len(self.data):
            raise bad(len(self.data))
        text = self.data[self.at : self.at + length]
        self.must(self.data[self.at + length] == 10)
        return text


def read_file(reader, files, earlier):
    source = reader.take(b"copyfrom")
    if source is not None:
        reader.must(is_tracked(source) and not source.endswith(b"\1"))
        reader.pass_line()
    rest = reader.must(reader.take(b"file"))
    found = reader.must(re.fullmatch(rb"([-xl]) (%s) (.*)" % NUMBER, rest, re.DOTALL))
    flag, length, path = found[1].decode(), int(found[2]), found[3]
    reader.must(is_tracked(path) and (not earlier or path > earlier[-1]))
    parts = path.split(b"/")
    reader.must(not any(b"/".join(parts[:n]) in files for n in range(1, len(parts))))
    if length > MOST_BODY:
        raise Refused(20, "abort: limit 1")
    if len(files) == MOST_FILES:
        raise Refused(20, "abort: limit 2")
    reader.pass_line()
    files[path] = (flag, reader.text(length), source)
    earlier.append(path)
    reader.at += length + 1


def read_next(reader):
    """The arguments of a commit: parents, tree, user, date, phase, bookmark, branch and description."""
    reader.must(reader.line() == b"commit")
    reader.pass_line()
    parents = []
    while len(parents) < 2 and (name := reader.take(b"parent")) is not None:
        parents.append(name)
        reader.pass_line()
    user = reader.must(reader.take(b"user"))
    reader.must(is_text(user) and 1 <= len(user) <= MOST_USER and b"\0" not in user)
    reader.pass_line()
    date = reader.must(date_of(reader.must(reader.take(b"date"))))
    reader.pass_line()
    phase, mark = b"draft", None
    if (named := reader.take(b"phase")) is not None:
        phase = named
        reader.must(phase in (b"public", b"draft", b"secret"))
        reader.pass_line()
    if (mark := reader.take(b"bookmark")) is not None:
        reader.must(is_mark(mark))
        reader.pass_line()
    branch = b""
    if (named := reader.take(b"branch")) is not None:
        branch = branch_of(named)
        reader.must(branch is not None)
        reader.pass_line()
    length = reader.must(reader.take(b"desc"))
    reader.must(re.fullmatch(NUMBER, length) and int(length) <= MOST_TEXT)
    reader.pass_line()
    description = reader.text(int(length))
    reader.must(is_text(description))
    reader.at += len(description) + 1
    files, earlier = {}, []
    while reader.line() != b"end":
        read_file(reader, files, earlier)
    reader.pass_line()
    return parents, files, user, date, phase.decode(), mark and mark.decode(), branch, description


def read_one(data):
    """The one record of an input."""
    reader = Reader(data)
    change = read_next(reader)
    reader.must(reader.at == len(data))
    return change


def read_import(data):
    """The records of an input, 1 to 10,000, and its last line."""
    reader, changes = Reader(data), []
    while reader.line() != b"end import" or not changes:
        reader.must(len(changes) < MOST_RECORDS)
        changes.append(read_next(reader))
    reader.pass_line()
    reader.must(reader.at == len(data))
    return changes

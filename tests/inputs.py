#!/usr/bin/env python3
"""Inputs that are out of form, cut, or longer than may be: records of changesets, schedules and scripts. Of each the place of its first
fault, which was worked out by hand, or the number of the limit that it passes; and that the repository is as before.

The last line is 'N passed, M failed'.
"""

import subprocess
import sys
import tempfile

sys.dont_write_bytecode = True
from checks import Checks, built_program, bytes_of

# A text, and the place of its fault: records,
RECORDS = [
    (b"", 0),
    (b"commits\n", 0),
    # a byte behind the end, though no LF ends it; the third parent; an empty user, and one with a NUL
    (b"commit\nuser test\ndate 0 0\ndesc 1\na\nfile - 2 a\na\n\nend\nx", 53),
    (b"commit\nparent a\nparent b\nparent c\n", 25),
    (b"commit\nuser \n", 7),
    (b"commit\nuser a\0\n", 7),
    (b"commit\nuser \xff\n", 7),
    # dates: a needless zero, extras, past the bounds
    (b"commit\nuser test\ndate 01 0\n", 17),
    (b"commit\nuser test\ndate 0 0 x\n", 17),
    (b"commit\nuser test\ndate 1099511627777 0\n", 17),
    (b"commit\nuser test\ndate 0 -50401\n", 17),
    # lines out of order or with another word
    (b"commit\nuser u\ndate 0 0\nphase drafts\n", 23),
    (b"commit\nuser u\ndate 0 0\nbookmark b\nphase draft\n", 34),
    (b"commit\nuser u\ndate 0 0\nbookmark tip\n", 23),
    # descriptions: longer than may be, of any number of digits, a needless zero, no number; not followed by an LF, no UTF-8;
    # cut, though what is there is no UTF-8
    (b"commit\nuser u\ndate 0 0\ndesc 65537\n", 23),
    (b"commit\nuser u\ndate 0 0\ndesc 99999999999999999999999999\n", 23),
    (b"commit\nuser u\ndate 0 0\ndesc 01\na\n", 23),
    (b"commit\nuser u\ndate 0 0\ndesc \n", 23),
    (b"commit\nuser u\ndate 0 0\ndesc 1\nab\n", 30),
    (b"commit\nuser u\ndate 0 0\ndesc 1\n\xff\n", 30),
    (b"commit\nuser u\ndate 0 0\ndesc 2\n\xff\n", 32),
    # files: another flag, a path that is not tracked, no number, a body that no LF follows
    (b"commit\nuser u\ndate 0 0\ndesc 0\n\nfile y 0 a\n\n", 31),
    (b"commit\nuser u\ndate 0 0\ndesc 0\n\nfile - 0 a/.hg/b\n\n", 31),
    (b"commit\nuser u\ndate 0 0\ndesc 0\n\nfile - +1 a\nb\n", 31),
    (b"commit\nuser u\ndate 0 0\ndesc 0\n\nfile - 1 a\nbc\n", 42),
    # a path that is not tracked goes before a body that is too long; a cut line has no fault but that
    (b"commit\nuser u\ndate 0 0\ndesc 0\n\nfile - 16777217 a//b\n", 31),
    (b"commit\nuser u\ndate 0 0\ndesc 0\n\nfile - 16777217 a", 48),
    # paths: the same, one below the one before, a directory next to what is in it and further from it
    (b"commit\nuser u\ndate 0 0\ndesc 0\n\nfile - 0 a\n\nfile - 0 a\n\n", 43),
    (b"commit\nuser u\ndate 0 0\ndesc 0\n\nfile - 0 b\n\nfile - 0 a\n\n", 43),
    (b"commit\nuser u\ndate 0 0\ndesc 0\n\nfile - 0 a\n\nfile - 0 a/b\n\nend\n", 43),
    (b"commit\nuser u\ndate 0 0\ndesc 0\n\nfile - 0 a\n\nfile - 0 a-\n\nfile - 0 a-/b\n\nend\n", 56),
    (b"commit\nuser u\ndate 0 0\ndesc 0\n\nfile - 0 a\n\nfile - 0 a-\n\nfile - 0 a-b\n\nfile - 0 a/b\n\nend\n", 70),
    (b"commit\nuser u\ndate 0 0\ndesc 0\n\nend", 34),
]

# schedules, some with a record of nothing,
EMPTY = b"commit\nuser u\ndate 0 0\ndesc 0\n\nend\n"
SCHEDULES = [
    # the number of readers: none, too many, a needless zero, no number
    (b"play 0\nend\n", 0),
    (b"play 65\nend\n", 0),
    (b"play 01\nend\n", 0),
    (b"play \nend\n", 0),
    (b"plays 1\nend\n", 0),
    # readers that there are not
    (b"play 1\nload 1\nend\n", 7),
    (b"play 2\nopen 2\n", 7),
    (b"play 2\nread 01\n", 7),
    (b"play 2\nlog\n", 7),
    (b"play 2\nbookmarks 99999999999999999999999999\n", 7),
    (b"play 1\ncat 1 tip a\n", 7),
    (b"play 1\nphase 1 tip\n", 7),
    # numbers of bytes
    (b"play 1\nwrite 0\n", 7),
    (b"play 1\nwrite \n", 7),
    (b"play 1\nfail -1\n", 7),
    (b"play 1\nfail\n", 7),
    (b"play 1\nstop 00\n", 7),
    # names: one too few, one too many, one that no bookmark has
    (b"play 1\ncat 0 tip\n", 7),
    (b"play 1\nphase 0 a b\n", 7),
    (b"play 1\nphase 0\n", 7),
    (b"play 1\nbegin phase tip\n", 7),
    (b"play 1\nbegin phase tip drafts\n", 7),
    (b"play 1\nbegin phase tip draft forced\n", 7),
    (b"play 1\nbegin phase a b draft\n", 7),
    (b"play 1\nbegin bookmark tip tip\n", 7),
    (b"play 1\nbegin unbookmark 12\n", 7),
    # no event at all
    (b"play 1\n\nend\n", 7),
    (b"play 1\nbegin commit \n", 7),
    (b"play 1\nfinish\nuntil\n", 14),
    # a record that is out of form, and that has another line behind its end; a byte behind the end of the schedule
    (b"play 1\nbegin commit\nuser test\n", 20),
    (b"play 1\nbegin commit\ncommit\nuser test\ndate 01 0\n", 37),
    (b"play 1\nbegin commit\ncommit\nuser u\ndate 0 0\ndesc 0\n\nend\ncommit\n", 55),
    (b"play 1\nend\nx", 11),
    # an import without a record, with a line between two, and with one behind its last line
    (b"play 1\nbegin import\nend import\n", 20),
    (b"play 1\nbegin import \n", 7),
    (b"play 1\nbegin import\n" + EMPTY + b"end\n", 55),
    (b"play 1\nbegin import\n" + EMPTY + b"end import\n" + EMPTY, 66),
    # a cut line has no fault but that
    (b"play 1\nload 1", 13),
    (b"play 1\nend", 10),
]

# imports,
IMPORTS = [
    # no record at all
    (b"end import\n", 0),
    (b"begin import\n", 0),
    # another line behind a record, and one behind the last
    (EMPTY + b"end\n", 35),
    (EMPTY + b"\n" + EMPTY + b"end import\n", 35),
    (EMPTY + b"end import \n", 35),
    (EMPTY + EMPTY + b"end import\nx\n", 81),
    (EMPTY + b"end import\nend import\n", 46),
    # a second record that is out of form
    (EMPTY + b"commit\ndate 0 0\n", 42),
    # a cut line has no fault but that
    (EMPTY + b"end import", 45),
]

# and scripts.
SCRIPTS = [
    # the number of workers: none, too many, a needless zero, no number
    (b"session 0\nend session\n", 0),
    (b"session 65\nend session\n", 0),
    (b"session 01\nend session\n", 0),
    (b"session \nend session\n", 0),
    (b"play 1\nend\n", 0),
    # workers that there are not
    (b"session 1\n1 log\n", 10),
    (b"session 64\n64 log\n", 11),
    (b"session 2\n01 log\n", 10),
    (b"session 2\n log\n", 10),
    (b"session 2\nlog\n", 10),
    (b"session 2\n99999999999999999999 commit\ncommit\n", 10),
    # names: one too few, one too many, one that no bookmark has
    (b"session 1\n0 phase\n", 10),
    (b"session 1\n0 phase tip drafts\n", 10),
    (b"session 1\n0 phase tip draft forced\n", 10),
    (b"session 1\n0 files a b\n", 10),
    (b"session 1\n0 cat tip\n", 10),
    (b"session 1\n0 bookmark tip tip\n", 10),
    (b"session 1\n0 unbookmark 12\n", 10),
    # no job at all
    (b"session 1\n\nend session\n", 10),
    (b"session 1\n0 verify\n", 10),
    (b"session 1\n0 log \n", 10),
    (b"session 1\n0 log\nend\n", 16),
    # a record that is out of form, and that has another line behind its end; a byte behind the end of the script
    (b"session 1\n0 commit\nuser test\n", 19),
    (b"session 1\n0 commit\ncommit\nuser test\ndate 01 0\n", 36),
    (b"session 1\n0 commit\ncommit\nuser u\ndate 0 0\ndesc 0\n\nend\ncommit\n", 54),
    (b"session 1\nend session\nx", 22),
    # a cut line has no fault but that, and no last line is a cut
    (b"session 1\n1 log", 15),
    (b"session 1\n0 log\n", 16),
]

# Each of these cut anywhere has its length as the place.
FIRST = b"commit\nuser test\ndate 0 0\ndesc 1\na\nfile - 2 a\na\n\nend\n"
WITHIN_AN_ENTRY = (
    b"play 1\nbegin commit\ncommit\nuser test\ndate 0 0\ndesc 1\na\nfile - 2 a\na\n\nend\nfinish\nbegin commit\n"
    b"commit\nparent tip\nuser test\ndate 60 0\ndesc 1\nb\nfile - 0 b\n\nend\nuntil publish\nload 0\nwrite 63\n"
    b"load 0\nwrite 1\nload 0\nfinish\nend\n"
)
BOTH = FIRST + b"commit\nparent tip\nuser test\ndate 60 0\ndesc 1\nb\nfile - 0 b\n\nend\nend import\n"
IMPORTED = b"play 1\nbegin import\n" + BOTH + b"until publish\nload 0\nfinish\nend\n"
BETWEEN = (
    b"session 3\n2 phase 0\n0 commit\ncommit\nparent tip\nuser test\ndate 0 0\ndesc 1\na\nfile - 2 a\na\n\nend\n"
    b"2 bookmark 0 main\n0 cat tip a\n2 unbookmark x\n0 log\nend session\n"
)

# The head of a record without files, and one with two bodies that are too long and none that is.
HEAD = b"commit\nuser u\ndate 0 0\ndesc 0\n\n"
BODIES = [
    b"file - 16777217 a\n",
    b"file - 99999999999999999999999999999999 a\n\nfile - 0 a\n",
    b"file - 0 a\n\nfile l 16777217 a-/b\n",
]

BODY, TREE, INPUT = 1, 2, 7
MOST_FILES, MOST_INPUT, MOST_JOBS, MOST_RECORDS = 20_000, 268_435_456, 10_000, 10_000


def bad(place):
    return 14, b"abort: bad input at %d\n" % place


def limit(number):
    return 20, b"abort: limit %d\n" % number


def rows():
    """Words, the input, and the status and the text that come of it."""
    for word, texts, whole in (("commit", RECORDS, FIRST), ("import", IMPORTS, BOTH), ("play", SCHEDULES, WITHIN_AN_ENTRY), ("play", [], IMPORTED), ("session", SCRIPTS, BETWEEN)):
        for text, place in texts:
            yield word, text, bad(place)
        for length in range(len(whole)):
            yield word, whole[:length], bad(length)
    for body in BODIES:
        yield "commit", HEAD + body, limit(BODY)
    yield "play", b"play 1\nbegin commit\n" + HEAD + b"file - 16777219 a\n", limit(BODY)
    yield "session", b"session 1\n0 commit\n" + HEAD + b"file - 16777219 a\n", limit(BODY)
    # as many files as may be, of which only the parent is refused; one more, whose line alone decides
    files = b"commit\nparent none\n" + HEAD[len(b"commit\n") :] + b"".join(b"file - 0 %05d\n\n" % number for number in range(MOST_FILES))
    yield "commit", files + b"end\n", (12, b"abort: unknown revision\n")
    yield "commit", files + b"file - 5 x\n", limit(TREE)
    yield "commit", files + b"file - 16777217 x\n", limit(BODY)
    yield "commit", files + b"file - 5 1\n", bad(len(files))
    # as long as may be: cut there, cut behind it, and with a line that goes on behind it; and a line that breaks before it
    most = (b"commit\nuser     " + b"0123456789abcdef" * (MOST_INPUT // 16))[:MOST_INPUT]
    yield "commit", most, bad(MOST_INPUT)
    yield "commit", most + b"a", limit(INPUT)
    yield "commit", most + b"a\n", limit(INPUT)
    yield "commit", b"x" + most[1:] + b"a\na", bad(0)
    # as many records as may be, of which only a parent is refused; and one more
    yield "import", b"commit\nparent none\n" + EMPTY[len(b"commit\n") :] + EMPTY * (MOST_RECORDS - 1) + b"end import\n", (12, b"abort: unknown revision\n")
    yield "import", EMPTY * (MOST_RECORDS + 1), bad(len(EMPTY) * MOST_RECORDS)
    # as many jobs of one worker as may be, and one more
    jobs = b"session 2\n1 log\n" + b"0 log\n" * MOST_JOBS
    said = b"".join(b"worker 0 job %d status 0 length 0\n\n" % number for number in range(MOST_JOBS))
    said += b"".join(b"worker 1 job %d status 0 length 0\n\n" % number for number in range(2))
    yield "session", jobs + b"1 log\nend session\n", (0, said)
    yield "session", jobs + b"0 log\nend session\n", bad(len(jobs))


def shown(text):
    return text if len(text) < 200 else text[:50] + b".."


def main():
    program, checks = built_program(), Checks()
    with tempfile.TemporaryDirectory() as folder:
        subprocess.run([program, "init"], cwd=folder, check=True)
        before = bytes_of(folder)
        for word, given, wanted in rows():
            ended = subprocess.run([program, word], input=given, capture_output=True, cwd=folder, check=False)
            said = ended.returncode, ended.stdout
            checks.check(f"{word} of {shown(given)}: {said[0], shown(said[1])}, wanted {wanted[0], shown(wanted[1])}", said == wanted)
            checks.check(f"{word} of {shown(given)}: other files stand", bytes_of(folder) == before)
    print(checks)
    sys.exit(checks.failed > 0 or checks.passed == 0)


main()

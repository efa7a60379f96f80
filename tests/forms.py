#!/usr/bin/env python3
"""Texts that are out of form, each in one place: changesets, manifests, bookmarks, phase roots, working parents, lists of filelogs,
journals and lists of backups. The question or command that reads such a text says where its first fault is, and changes nothing.

The stores are made as those of `tests/stores.py`. The last line is 'N passed, M failed'.
"""

import subprocess
import sys
import tempfile

sys.dont_write_bytecode = True
from checks import Checks, built_program, bytes_of, lay
from stores import BACKUPS, JOURNAL, LIST, OPEN, ROOTS_PATH, TWO, changeset, damage, node, store

# A text, and what is said of it. Texts of a changeset:
CHANGESETS = [
    (b"", "change 1 0"),
    (b"a0c8bcbbb45c63b90b70ad007bf38961f64f2af0\ntest\n\n0 0", "change 1 0"),
    (b"A0c8bcbbb45c63b90b70ad007bf38961f64f2af0\ntest\n00 0\n\n", "change 2 0"),
    (b"a0c8bcbbb45c63b90b70ad007bf38961f64f2af0\n\xff\n00 0\n\n", "change 3 0"),
    (b"a0c8bcbbb45c63b90b70ad007bf38961f64f2af0\ntest\n-0 0\n\n", "change 3 0"),
    (b"a0c8bcbbb45c63b90b70ad007bf38961f64f2af0\ntest\n0 0 \n\n", "change 3 0"),
    (b"a0c8bcbbb45c63b90b70ad007bf38961f64f2af0\ntest\n1099511627777 0\n\n", "change 3 0"),
    (b"a0c8bcbbb45c63b90b70ad007bf38961f64f2af0\n\xff\n0 0\nb\na\n\n", "change 4 0"),
    (b"a0c8bcbbb45c63b90b70ad007bf38961f64f2af0\n\xff\n0 0\na\nb\n\n", "change 5 0"),
    (b"a0c8bcbbb45c63b90b70ad007bf38961f64f2af0\ntest\n-1099511627777 0\n\n", "change 3 0"),
    (b"a0c8bcbbb45c63b90b70ad007bf38961f64f2af0\ntest\n0 -50401\n\n", "change 3 0"),
    # what RFC 3629 rules out: a needlessly long form, half of a pair, a code above the greatest, a cut one
    (b"a0c8bcbbb45c63b90b70ad007bf38961f64f2af0\ntest\n0 0\n\n\xc0\x80", "change 5 0"),
    (b"a0c8bcbbb45c63b90b70ad007bf38961f64f2af0\ntest\n0 0\n\n\xed\xa0\x80", "change 5 0"),
    (b"a0c8bcbbb45c63b90b70ad007bf38961f64f2af0\ntest\n0 0\n\n\xf4\x90\x80\x80", "change 5 0"),
    (b"a0c8bcbbb45c63b90b70ad007bf38961f64f2af0\ntest\n0 0\n\n\xe2\x82", "change 5 0"),
]

# texts of a manifest,
MANIFESTS = [
    (b"a\0b789fdd96dc2f3bd229c1dd8eedf0fc60e2b68e3", "manifest 1 1"),
    (b"\0b789fdd96dc2f3bd229c1dd8eedf0fc60e2b68e3\n", "manifest 1 1"),
    (b"a\0b789fdd96dc2f3bd229c1dd8eedf0fc60e2b68e3X\n", "manifest 1 1"),
    (b"a\0b789fdd96dc2f3bd229c1dd8eedf0fc60e2b68e3\na\0b789fdd96dc2f3bd229c1dd8eedf0fc60e2b68e3l\n", "manifest 2 2"),
]

# bookmarks,
MARKS = [
    (b"AAAAAAAAAAAAAAAAAAAAAAAAAAAAAAAAAAAAAAAA b\n", "bookmarks 1 1"),
    (b"aaaaaaaaaaaaaaaaaaaaaaaaaaaaaaaaaaaaaaaa\n", "bookmarks 1 1"),
    (b"aaaaaaaaaaaaaaaaaaaaaaaaaaaaaaaaaaaaaaaa tip\n", "bookmarks 2 1"),
    (b"aaaaaaaaaaaaaaaaaaaaaaaaaaaaaaaaaaaaaaaa b\naaaaaaaaaaaaaaaaaaaaaaaaaaaaaaaaaaaaaaaa \n", "bookmarks 2 2"),
    (b"aaaaaaaaaaaaaaaaaaaaaaaaaaaaaaaaaaaaaaaa b\n\n", "bookmarks 1 2"),
    (b"aaaaaaaaaaaaaaaaaaaaaaaaaaaaaaaaaaaaaaaa 12", "bookmarks 2 1"),
    (b"aaaaaaaaaaaaaaaaaaaaaaaaaaaaaaaaaaaaaaaa a:b\n", "bookmarks 2 1"),
    (b"aaaaaaaaaaaaaaaaaaaaaaaaaaaaaaaaaaaaaaaa b \n", "bookmarks 2 1"),
]

# phase roots,
ROOTS = [
    (b"3 aaaaaaaaaaaaaaaaaaaaaaaaaaaaaaaaaaaaaaaa\n", "roots 1 1"),
    (b"1 aaaaaaaaaaaaaaaaaaaaaaaaaaaaaaaaaaaaaaaa\n\n", "roots 1 2"),
    (b"1 aaaaaaaaaaaaaaaaaaaaaaaaaaaaaaaaaaaaaaa\n", "roots 1 1"),
    (b"1 AAAAAAAAAAAAAAAAAAAAAAAAAAAAAAAAAAAAAAAA", "roots 1 1"),
]

# lists of filelogs,
LISTS = [
    (b"data/a.i", "fncache 1 1"),
    (b"data/a.i\n\n", "fncache 1 2"),
    (b"data/a.i\ndata/a.d\nmeta/a.i\n", "fncache 1 3"),
    (b"data/a.c\n", "fncache 1 1"),
]

# journals,
JOURNALS = [
    (b"a\x0000\n", "journal 1 1"),
    (b"a\0\n", "journal 1 1"),
    (b"a\0+1\n", "journal 1 1"),
    (b"a\x0018446744073709551616\n", "journal 1 1"),
    (b"a\x000\x000\n", "journal 1 1"),
    (b"a 0\n", "journal 1 1"),
    (b"a\x000\n\n", "journal 1 2"),
    (b"a\x000\nb/..\x000\nc\n", "journal 1 2"),
    (b"a\r\x000\n", "journal 1 1"),
]

# lists of backups,
BACKUP_LISTS = [
    (b"", "journal 2 0"),
    (b"2", "journal 2 0"),
    (b"3\n\0phaseroots\0\x000\n", "journal 2 0"),
    (b"2\n\0phaseroots\0\x000", "journal 1 2"),
    (b"2\n\0a\0b\x000\0\n", "journal 1 2"),
    (b"2\n\0a\0b\n", "journal 1 2"),
    (b"2\nstore\0a\0\x000\n", "journal 1 2"),
    (b"2\nplain\0/a\0\x000\n", "journal 1 2"),
    (b"2\nplain\0a\0..\x000\n", "journal 1 2"),
    (b"2\n\0a\0\0any\n\n", "journal 1 3"),
    (b"2\n\0a\0\x000\n\0a\0\0", "journal 1 3"),
    # Mercurial's files that are to be removed have no name here.
    (b"2\n\0\x0000changelog.i.a\x000\nplain\0\0bookmarks.pending\x000\n", "journal 1 3"),
]

# and working parents: the first changeset and one file, cut in the parents and in the file's name.
WORKING = bytes.fromhex("cb9a9f314b8b07ba71012fcdbc544b5a4d82ff5b") + bytes(20) + b"n\0\0\0\0" + b"\xff" * 8 + b"\0\0\0\1a"
PARENTS = [(WORKING[:length], "dirstate 3 0") for length in (39, 57)]


def rows():
    """A store, words that read the text, and the line."""
    for text, what in CHANGESETS:
        yield store(text), ["log"], damage(what)
    for text, what in MANIFESTS:
        yield store(changeset(node(text), 0, [b"a"], b"a"), manifest=[text]), ["files", "0"], damage(what, "store/00manifest.i")
    for path, texts, words in (
        ("bookmarks", MARKS, ["bookmarks"]),
        (ROOTS_PATH, ROOTS, ["phase", "0"]),
        (LIST, LISTS, ["bookmark", "new", "0"]),
        ("dirstate", PARENTS, ["bookmark", "new", "0"]),
    ):
        for text, what in texts:
            yield {**TWO, path: text}, words, damage(what, path)
    for path, texts in ((JOURNAL, JOURNALS), (BACKUPS, BACKUP_LISTS)):
        for text, what in texts:
            yield {**OPEN, path: text}, ["recover"], damage(what, path)


def main():
    program, checks = built_program(), Checks()
    for files, words, line in rows():
        with tempfile.TemporaryDirectory() as folder:
            lay(folder, files)
            before = bytes_of(folder)
            ended = subprocess.run([program, *words], capture_output=True, cwd=folder, check=False)
            said = (ended.returncode, ended.stdout) == (15, line.encode())
            checks.check(f"{words}: status {ended.returncode}, {ended.stdout}, wanted {line}", said)
            checks.check(f"{words}: other files stand", bytes_of(folder) == before)
    print(checks)
    sys.exit(checks.failed > 0 or checks.passed == 0)


main()

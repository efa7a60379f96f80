#!/usr/bin/env python3
"""Questions and commands over small stores that are laid out byte by byte, whole and damaged: what is written, the status, and the
files that stand afterwards. A question changes none. A commit also over lists of filelogs as long as they may be.

Entries and nodes are made here by `struct` and `hashlib`; texts, lines and refusals are written by hand, and hints stand in docs/ANSWERS.md. The last line is
'N passed, M failed'.
"""

import hashlib
import struct
import subprocess
import sys
import tempfile

sys.dont_write_bytecode = True
from checks import Checks, built_program, bytes_of, hint_of, lay

NULL = bytes(20)
REQUIRES = b"dotencode\nfncache\nrevlogv1\nstore\n"


def node(text, parent=NULL):
    return hashlib.sha1(min(parent, NULL) + max(parent, NULL) + text).digest()


def revlog(*texts):
    """Index and data of texts, each the child of the one before, stored whole behind a `u`."""
    index, data, parent = b"", b"", NULL
    for rev, text in enumerate(texts):
        own = node(text, parent)
        index += struct.pack(">QIIIIii20s12x", len(data) << 16, len(text) + 1, len(text), rev, rev, rev - 1, -1, own)
        data, parent = data + b"u" + text, own
    return (b"\0\0\0\x01" + index[4:] if index else b""), data


def inline(*texts):
    """The index of the same revlog with each chunk behind its entry."""
    index, _ = revlog(*texts)
    whole = b"".join(index[64 * rev : 64 * rev + 64] + b"u" + text for rev, text in enumerate(texts))
    return b"\0\1" + whole[2:]


def changeset(manifest, seconds, files, words):
    return b"%s\ntest\n%d 0\n%s\n%s" % (manifest.hex().encode(), seconds, b"".join(b"%s\n" % path for path in files), words)


BODY = b"a\n"
MANIFEST = b"a\0%s\n" % node(BODY).hex().encode()
TURNED = b"b\0%s\n" % node(BODY).hex().encode() + MANIFEST  # whose second line is below the first
FIRST = changeset(node(MANIFEST), 0, [b"a"], b"a")
SECOND = changeset(bytes.fromhex("a539ce0c1a22b0ecf34498f9f5ce8ea56df9ecb7"), 60, [b"b"], b"b")
ZERO = "cb9a9f314b8b07ba71012fcdbc544b5a4d82ff5b"  # their nodes, as Mercurial gives them
ONE = "37bdf19219c0e69b87d6371fabfaf5c3a63794d9"
GONE = "a" * 40
ZERO_LINE = f"0\t{ZERO}\t-1\t-1\t0\t0\ttest\ta\n"
ONE_LINE = f"1\t{ONE}\t0\t-1\t60\t0\ttest\tb\n"
FILES = "b789fdd96dc2f3bd229c1dd8eedf0fc60e2b68e3 - a\n"
ROOTS = f"1 {ONE}\n2 {GONE}\n"
MARKS = f"{ONE} new\n{GONE} gone\n{ZERO} main\n"
UNKNOWN = "abort: unknown revision\n"


def store(*changesets, **others):
    """Files of a store with these changesets; others as `manifest`, `filelog` (their texts), or a name of .hg and its bytes."""
    files = {"requires": REQUIRES}
    named = {"00changelog": changesets, "00manifest": others.pop("manifest", ()), "data/a": others.pop("filelog", ())}
    for name, texts in named.items():
        if texts:
            files[f"store/{name}.i"], files[f"store/{name}.d"] = revlog(*texts)
    return {**files, **others}


def changed(files, name, place, byte):
    old = files[name]
    return {**files, name: old[:place] + bytes([byte]) + old[place + 1 :]}


def behind(files, more):
    """With bytes that a writer may have appended behind the nodes."""
    return {**files, **{name: files[name] + more for name in ("store/00manifest.i", "store/data/a.i")}}


def with_file(name, text):
    return {**store(FIRST, SECOND), name: text if isinstance(text, bytes) else text.encode()}


TWO = store(FIRST, SECOND)
WHOLE = store(FIRST, manifest=[MANIFEST], filelog=[BODY])
INDEX, DATA, FILE = "store/00changelog.i", "store/00changelog.d", "store/data/a.i"
INLINE = {**WHOLE, "store/00manifest.i": inline(MANIFEST), "store/00manifest.d": b"u", FILE: inline(BODY), "store/data/a.d": b"ub\n"}
MOST_INLINE = 16_777_216
LONG = changeset(NULL, 0, [], b"a\n" + 70_000 * b"b")  # more than a piece of an index
LONG_LINE = f"0\t{node(LONG).hex()}\t-1\t-1\t0\t0\ttest\ta\n"


def history_inline(index, **others):
    """The store of one changeset with this inline changelog, and no data file beside it."""
    return {**{name: data for name, data in WHOLE.items() if name != DATA}, INDEX: index, **others}


# The store of one commit, as it stands behind it: a draft with an inline filelog, which is the working parent.
COMMITTED = {
    **{name: data for name, data in WHOLE.items() if name != "store/data/a.d"},
    FILE: inline(BODY),
    "store/fncache": b"data/a.i\n",
    "store/phaseroots": f"1 {ZERO}\n".encode(),
    "dirstate": bytes.fromhex(ZERO) + NULL + b"n" + struct.pack(">iiii", 0, -1, -1, 1) + b"a",
}


def cut(files, name, length):
    return {**files, name: files[name][:length]}


def without(files, name):
    return {path: data for path, data in files.items() if path != name}


def damage(what, path=INDEX):
    """The line of a damage; a path that is no text gives bytes."""
    return f"abort: damaged {path}: {what}\n" if isinstance(path, str) else b"abort: damaged %s: %s\n" % (path, what.encode())


# A store, the words, what is written, and the status.
ROWS = [
    ({"requires": REQUIRES}, "log", "", 0),
    (store(FIRST), "log --", ZERO_LINE, 0),
    (TWO, "log", ONE_LINE + ZERO_LINE, 0),
    ({**TWO, INDEX: TWO[INDEX] + TWO[INDEX][64:127]}, "log", ONE_LINE + ZERO_LINE, 0),  # an entry that is cut
    (store(FIRST), "heads", f"0 {ZERO}\n", 0),
    ({**TWO, DATA: b""}, "heads", f"1 {ONE}\n", 0),  # what the texts hold is not looked at
    # words that do not fit
    (TWO, "", "abort: bad word 0\n", 28),
    (TWO, "log x", "abort: bad word 1\n", 28),
    (TWO, "logs", "abort: bad word 0\n", 28),
    (TWO, "log -r", "abort: bad word 1\n", 28),
    (TWO, "log -- x", "abort: bad word 2\n", 28),
    (TWO, "heads x", "abort: bad word 1\n", 28),
    (TWO, "files", "abort: bad word 1\n", 28),
    (TWO, "files --", "abort: bad word 2\n", 28),
    (TWO, "files -1", "abort: bad word 1\n", 28),
    (TWO, "cat 0", "abort: bad word 2\n", 28),
    (TWO, "cat -- 0 -a b", "abort: bad word 4\n", 28),
    (TWO, "phase", "abort: bad word 1\n", 28),
    (TWO, "parents 0", "abort: bad word 1\n", 28),
    (TWO, "bookmarks -- 0", "abort: bad word 2\n", 28),
    # a chunk that is compressed, and a byte of a text
    (changed(TWO, DATA, 0, 0x78), "log", ONE_LINE + damage("revlog 2 0"), 15),
    (changed(TWO, DATA, 54, ord("b")), "log", ONE_LINE + damage("revlog 7 0"), 15),
    # a base that is another revision, flags, a parent that comes later, the version, a text that is too long
    (changed(TWO, INDEX, 64 + 19, 0), "log", damage("revlog 3 1"), 15),
    (changed(TWO, INDEX, 64 + 7, 1), "log", damage("revlog 4 1"), 15),
    (changed(TWO, INDEX, 64 + 27, 1), "log", damage("revlog 8 1"), 15),
    (changed(TWO, INDEX, 3, 2), "log", damage("revlog 1 0"), 15),
    (changed(TWO, INDEX, 12, 2), "log", "abort: limit 4\n", 20),
    # files and bodies
    *(
        row
        for files in (WHOLE, behind(WHOLE, b"\xff" * 100))
        for row in (
            (files, "files 0 --", FILES, 0),
            (files, "files tip", FILES, 0),
            (files, f"files {ZERO}", FILES, 0),
            (files, "cat tip a", "a\n", 0),
            (files, f"cat -- {ZERO} a", "a\n", 0),
            (files, "cat 0 b", "abort: unknown path\n", 23),
            (files, ["cat", "0", ""], "abort: unknown path\n", 23),
            (files, "cat 1 a", UNKNOWN, 12),
            (files, "cat null a", UNKNOWN, 12),
            (files, "files .", UNKNOWN, 12),
            (files, "files 00", UNKNOWN, 12),
            (files, f"files {ZERO.upper()}", UNKNOWN, 12),
            (files, f"files {ZERO[:39]}", UNKNOWN, 12),
            (files, ["files", ""], UNKNOWN, 12),
        )
    ),
    (store(changeset(node(TURNED), 0, [b"a", b"b"], b"a"), manifest=[TURNED]), "files 0", damage("manifest 2 2", "store/00manifest.i"), 15),
    (store(FIRST), "cat 0 a", damage("revlog 15 0", "store/00manifest.i"), 15),
    (store(changeset(NULL, 0, [], b"a")), "files 0", "", 0),
    # revlogs whose chunks stand in the index; what stands beside it is not looked at
    (INLINE, "files 0", FILES, 0),
    (INLINE, "cat tip a", "a\n", 0),
    (behind(INLINE, b"\xff" * 100), "cat tip a", "a\n", 0),
    ({**INLINE, FILE: inline(BODY, b"b\n")[:-1]}, "cat 0 a", "a\n", 0),  # a chunk that is cut, behind the node and at it
    ({**INLINE, FILE: inline(BODY)[:-1]}, "cat 0 a", damage("revlog 15 0", FILE), 15),
    (changed({**INLINE, FILE: inline(BODY)[:-1]}, FILE, 3, 2), "cat 0 a", damage("revlog 1 0", FILE), 15),
    (changed(INLINE, FILE, 8, 0x80), "cat 0 a", damage("revlog 1 0", FILE), 15),
    (changed(INLINE, FILE, 64, 0x78), "cat 0 a", damage("revlog 2 0", FILE), 15),
    (changed(INLINE, FILE, 65, ord("b")), "cat 0 a", damage("revlog 7 0", FILE), 15),
    # an inline changelog, read whole; what stands beside it is not looked at
    *(
        row
        for files in (history_inline(inline(FIRST)), history_inline(inline(FIRST), **{DATA: b"ub\n"}))
        for row in (
            (files, "log", ZERO_LINE, 0),
            (files, "heads", f"0 {ZERO}\n", 0),
            (files, "files tip", FILES, 0),
            (files, f"cat {ZERO} a", "a\n", 0),
            (files, "phase 0", "public\n", 0),
            (files, "parents", "", 0),
            (files, "cat 1 a", UNKNOWN, 12),
        )
    ),
    (history_inline(inline(FIRST, SECOND)), "log", ONE_LINE + ZERO_LINE, 0),
    (history_inline(inline(FIRST, SECOND), bookmarks=MARKS.encode()), "bookmarks", f"main\t0\t{ZERO}\nnew\t1\t{ONE}\n", 0),
    (history_inline(inline(LONG)), "log", LONG_LINE, 0),
    (history_inline(inline(LONG, b"no changeset")), "heads", f"1 {node(b'no changeset', node(LONG)).hex()}\n", 0),
    # a chunk that is cut, an entry that is cut, and no whole entry at all
    (history_inline(inline(FIRST, SECOND)[:-1]), "log", ZERO_LINE, 0),
    (history_inline(inline(FIRST, SECOND)[: len(inline(FIRST)) + 63]), "log", ZERO_LINE, 0),
    (history_inline(inline(FIRST)[:-1]), "log", "", 0),
    (changed(history_inline(inline(FIRST)[:-1]), INDEX, 3, 2), "log", damage("revlog 1 0"), 15),
    (changed(history_inline(inline(FIRST)), INDEX, 8, 0x80), "log", damage("revlog 1 0"), 15),
    (changed(history_inline(inline(FIRST)), INDEX, 64, 0x78), "log", damage("revlog 2 0"), 15),
    (changed(history_inline(inline(FIRST)), INDEX, len(inline(FIRST)) - 1, ord("b")), "log", damage("revlog 7 0"), 15),
    # as long as one may be, behind a changeset an entry whose chunk is cut; and longer
    (history_inline(inline(FIRST).ljust(MOST_INLINE, b"\x7f")), "log", ZERO_LINE, 0),
    (history_inline(inline(FIRST).ljust(MOST_INLINE + 1, b"\x7f")), "log", "abort: limit 9\n", 20),
    # the words of `requires`
    (with_file("requires", "dotencode\nfncache\ntreemanifest\n"), "log", "abort: requirement treemanifest\n", 27),
    (with_file("requires", "fncache\nrevlogv1\nstore\n"), "heads", "abort: requirement dotencode\n", 27),
    (with_file("requires", ""), "parents", "abort: requirement dotencode\n", 27),
    # phase roots, one of which is of no changeset
    (with_file("store/phaseroots", ROOTS), "phase 0", "public\n", 0),
    (with_file("store/phaseroots", ROOTS), "phase tip", "draft\n", 0),
    (with_file("store/phaseroots", ROOTS), "phase 2", UNKNOWN, 12),
    (with_file("store/phaseroots", f"3 {ONE}\n"), "log", damage("roots 1 1", "store/phaseroots"), 15),
    # bookmarks, one of which is of no changeset
    (with_file("bookmarks", MARKS), "bookmarks", f"main\t0\t{ZERO}\nnew\t1\t{ONE}\n", 0),
    (with_file("bookmarks", MARKS), "phase main", "public\n", 0),
    (with_file("bookmarks", MARKS), "phase gone", UNKNOWN, 12),
    (with_file("bookmarks", f"{ZERO} tip\n"), "bookmarks", damage("bookmarks 2 1", "bookmarks"), 15),
    # working parents
    (with_file("dirstate", bytes.fromhex(ZERO) + NULL), "parents", f"0 {ZERO}\n", 0),
    (with_file("dirstate", bytes.fromhex(ZERO) + NULL), "phase .", "public\n", 0),
    (with_file("dirstate", ""), "parents", "", 0),
    (with_file("dirstate", ""), "phase .", UNKNOWN, 12),
    (with_file("dirstate", b"\xaa" * 40), "parents", damage("dirstate 6 0", "dirstate"), 15),
    (with_file("dirstate", bytes(39)), "parents", damage("dirstate 3 0", "dirstate"), 15),
    (with_file("dirstate", ""), "phase null", UNKNOWN, 12),
    (with_file("dirstate", ""), "phase 01", UNKNOWN, 12),
    # one change to a store of one changeset, with a working parent: which file is named, and its first fault
    (COMMITTED, "log", ZERO_LINE, 0),
    (COMMITTED, "parents", f"0 {ZERO}\n", 0),
    (COMMITTED, "cat 0 a", "a\n", 0),
    (cut(COMMITTED, INDEX, 63), "log", damage("dirstate 6 0", "dirstate"), 15),
    (cut(COMMITTED, DATA, 54), "log", damage("revlog 5 0"), 15),
    (without(COMMITTED, "store/00manifest.i"), "files 0", damage("revlog 15 0", "store/00manifest.i"), 15),
    (cut(COMMITTED, "store/00manifest.i", 0), "files 0", damage("revlog 15 0", "store/00manifest.i"), 15),
    (cut(COMMITTED, FILE, 66), "cat 0 a", damage("revlog 15 0", FILE), 15),
    ({**COMMITTED, "bookmarks": b"zz\n"}, "heads", damage("bookmarks 1 1", "bookmarks"), 15),
    (changed(COMMITTED, "store/phaseroots", 0, ord("3")), "phase 0", damage("roots 1 1", "store/phaseroots"), 15),
    (cut(COMMITTED, "dirstate", 39), "parents", damage("dirstate 3 0", "dirstate"), 15),
    (changed(COMMITTED, "dirstate", 40, ord("z")), "parents", damage("dirstate 4 40", "dirstate"), 15),
    (changed(COMMITTED, INDEX, 3, 2), "log", damage("revlog 1 0"), 15),
    # where two files are broken, the one that is read first is named
    ({**cut(COMMITTED, "dirstate", 39), "bookmarks": b"zz\n"}, "log", damage("bookmarks 1 1", "bookmarks"), 15),
    (changed(cut(COMMITTED, "dirstate", 39), INDEX, 3, 2), "log", damage("dirstate 3 0", "dirstate"), 15),
    (changed(changed(COMMITTED, "store/phaseroots", 0, ord("3")), INDEX, 3, 2), "log", damage("revlog 1 0"), 15),
    (changed(cut(COMMITTED, INDEX, 63), "store/phaseroots", 0, ord("3")), "log", damage("roots 1 1", "store/phaseroots"), 15),
    # then the name is resolved; behind it come the changeset's text, the manifest's index, its text, the path, the file's index and its text
    (cut(COMMITTED, INDEX, 63), "files 9", damage("dirstate 6 0", "dirstate"), 15),
    (cut(COMMITTED, DATA, 54), "files 9", UNKNOWN, 12),
    (cut(without(COMMITTED, "store/00manifest.i"), DATA, 54), "files 0", damage("revlog 5 0"), 15),
    (changed(changed(COMMITTED, "store/00manifest.i", 3, 2), "store/00manifest.d", 1, ord("b")), "files 0", damage("revlog 1 0", "store/00manifest.i"), 15),
    (cut(changed(COMMITTED, "store/00manifest.d", 1, ord("b")), FILE, 63), "cat 0 b", damage("revlog 7 0", "store/00manifest.i"), 15),
    (cut(COMMITTED, FILE, 63), "cat 0 b", "abort: unknown path\n", 23),
    (changed(changed(COMMITTED, FILE, 65, ord("b")), FILE, 3, 2), "cat 0 a", damage("revlog 1 0", FILE), 15),
    # a file that is too long is not looked at, and one that is read before it is
    ({**COMMITTED, "bookmarks": b"\x7f" * (MOST_INLINE + 1)}, "heads", "abort: limit 9\n", 20),
    ({**cut(COMMITTED, "dirstate", 39), INDEX: inline(FIRST).ljust(MOST_INLINE + 1, b"\x7f")}, "heads", damage("dirstate 3 0", "dirstate"), 15),
    # no repository
    ({}, "log", "abort: not a repository\n", 24),
    ({}, "heads", "abort: not a repository\n", 24),
    ({}, "cat 0 a", "abort: not a repository\n", 24),
]

# Two drafts, the second of which is the working parent; a bookmark names the first.
DRAFTS = {
    **TWO,
    "store/phaseroots": f"1 {ZERO}\n".encode(),
    "bookmarks": f"{ZERO} main\n".encode(),
    "dirstate": bytes.fromhex(ONE) + NULL,
}
# The same with an inline changelog.
INLINE_DRAFTS = {**{name: data for name, data in DRAFTS.items() if name != DATA}, INDEX: inline(FIRST, SECOND)}
NO_INLINE = "abort: limit 8\n"
RECORD = b"commit\nparent tip\nuser test\ndate 60 0\ndesc 1\nb\nfile - 2 a\nb\n\nend\n"
ROOTS_PATH = "store/phaseroots"

# A transaction that was left open, and what it began from.
JOURNAL, BACKUPS, BACKUP = "store/journal", "store/journal.backupfiles", "journal.backup.dirstate"
OPEN = {
    **store(FIRST),
    "store/data/b.i": b"an index",
    "store/fncache": b"data/a.i\ndata/a.d\ndata/b.i\n",
    INDEX: store(FIRST)[INDEX] + b"and more",
    "dirstate": b"after",
    "bookmarks": b"after",
    "store/lock": b"me",
    "wlock": b"me",
    JOURNAL: b"data/b.i\x000\nfncache\x0018\n00changelog.i\x0064\n",
    BACKUPS: b"2\nplain\0dirstate\0journal.backup.dirstate\x000\nplain\0bookmarks\0\x000\n",
    BACKUP: b"before",
}
BEFORE = {**store(FIRST), "store/fncache": b"data/a.i\ndata/a.d\n", "dirstate": b"before"}


def other(files, **changes):
    """The files with others in their place, or without those that are none."""
    files = {**files, **{names[key]: data for key, data in changes.items()}}
    return {name: data for name, data in files.items() if data is not None}


names = {"roots": ROOTS_PATH, "marks": "bookmarks", "journal": JOURNAL, "backups": BACKUPS, "backup": BACKUP}
UNNAMEABLE = other(OPEN, backups=OPEN[BACKUPS].replace(b"\0dirstate", b"\0\xff"))
BACK = {"store/data/b.i": b"", **{path: BEFORE[path] for path in ("store/fncache", INDEX)}}

# A store, the words, what is written, the status, and the files that stand afterwards.
COMMANDS = [
    (DRAFTS, "phase 0 public", "0 public\n", 0, other(DRAFTS, roots=f"1 {ONE}\n".encode())),
    (DRAFTS, "phase . public", "1 public\n", 0, other(DRAFTS, roots=b"")),
    (DRAFTS, "phase --force tip secret", "1 secret\n", 0, other(DRAFTS, roots=f"1 {ZERO}\n2 {ONE}\n".encode())),
    (DRAFTS, "phase tip secret", "abort: phase of 1 needs --force\n", 26, DRAFTS),
    (DRAFTS, "phase main draft", "abort: nothing changed (0)\n", 13, DRAFTS),
    (DRAFTS, "phase 12 public", UNKNOWN, 12, DRAFTS),
    (DRAFTS, "bookmark here .", "here 1\n", 0, other(DRAFTS, marks=f"{ONE} here\n{ZERO} main\n".encode())),
    (DRAFTS, "bookmark main 0", "abort: nothing changed (0)\n", 13, DRAFTS),
    (DRAFTS, "bookmark --delete main", "main removed\n", 0, other(DRAFTS, marks=b"")),
    (DRAFTS, "bookmark --delete here", UNKNOWN, 12, DRAFTS),
    # bytes behind the last, which a writer does not take
    *(
        (files, "bookmark new 0", damage(what, path), 15, files)
        for files, what, path in (
            ({**DRAFTS, INDEX: DRAFTS[INDEX] + b"\0"}, "revlog 14 2", INDEX),
            ({**DRAFTS, DATA: DRAFTS[DATA] + b"u"}, "revlog 14 2", INDEX),
            ({**DRAFTS, "store/fncache": b"data/b"}, "fncache 1 1", "store/fncache"),
            ({**DRAFTS, "dirstate": DRAFTS["dirstate"] + b"n"}, "dirstate 3 0", "dirstate"),
        )
    ),
    # an inline changelog or manifest, to which no writer appends: told behind the repository's own refusals
    *(
        (files, words, text, status, files)
        for files, words, text, status in (
            (INLINE_DRAFTS, "phase 0 public", NO_INLINE, 20),
            (INLINE_DRAFTS, "phase tip secret", "abort: phase of 1 needs --force\n", 26),
            (INLINE_DRAFTS, "phase 12 public", UNKNOWN, 12),
            (INLINE_DRAFTS, "bookmark here .", NO_INLINE, 20),
            (INLINE_DRAFTS, "bookmark main 0", "abort: nothing changed (0)\n", 13),
            (INLINE_DRAFTS, "bookmark --delete main", NO_INLINE, 20),
            (history_inline(inline(FIRST), **{"store/fncache": b"data/a.i\ndata/a.d\n"}), "commit", NO_INLINE, 20),
            ({**INLINE, "store/fncache": b"data/a.i\n"}, "commit", NO_INLINE, 20),
            (INLINE, "bookmark new 0", NO_INLINE, 20),
        )
    ),
    (DRAFTS, "recover", "no interrupted transaction available\n", 1, DRAFTS),
    (OPEN, "recover", "transaction undone\n", 0, BEFORE),
    # a last line of the journal that is cut by its LF: its file is not named, and keeps its bytes
    (other(OPEN, journal=OPEN[JOURNAL][:-1]), "recover", "transaction undone\n", 0, {**BEFORE, INDEX: OPEN[INDEX]}),
    # a name that no file of a store can have, since the names there are ASCII: nothing stands under it, so nothing is removed, it is shorter than
    # a journal says, and it is no backup
    (other(OPEN, journal=b"data/\xff.i\x000\n" + OPEN[JOURNAL]), "recover", "transaction undone\n", 0, BEFORE),
    (other(OPEN, backups=OPEN[BACKUPS] + b"\0\xff\0\x000\n"), "recover", "transaction undone\n", 0, BEFORE),
    *(
        (files, "recover", damage(what, path), 15, files)
        for files, what, path in (
            (other(OPEN, journal=b"data/\xff.i\x005\n" + OPEN[JOURNAL]), "journal 4 5", b"store/data/\xff.i"),
            (other(OPEN, backups=OPEN[BACKUPS].replace(b"backup", b"\xff")), "journal 5 0", b"journal.\xff.dirstate"),
        )
    ),
    # nor can it be given the bytes of a backup: what the journal names is taken back, and then recovering breaks off, until the list is mended
    (UNNAMEABLE, "recover", "abort: recovery unfinished\n", 17, {**UNNAMEABLE, **BACK}),
    ({**UNNAMEABLE, **BACK, BACKUPS: OPEN[BACKUPS]}, "recover", "transaction undone\n", 0, BEFORE),
    (OPEN, "phase 0 public", "abort: lock held by me\n", 10, OPEN),
    *(
        (files, "recover", damage(what, path), 15, files)
        for files, what, path in (
            (other(OPEN, journal=b"data/b.i\x000\nfncache\x00018\n"), "journal 1 2", JOURNAL),
            (other(OPEN, backups=b"3\n"), "journal 2 0", BACKUPS),
            # as Mercurial leaves it where it is killed at the beginning of a transaction
            (other(OPEN, journal=b"", backups=b""), "journal 2 0", BACKUPS),
            (other(OPEN, backups=None), "journal 5 0", BACKUPS),
            (other(OPEN, backup=None), "journal 5 0", BACKUP),
            (other(OPEN, journal=b"data/b.i\x000\n00changelog.i\x001000\n"), "journal 4 1000", INDEX),
        )
    ),
]

# A commit of one new path more, whose filelog is inline: what it adds to the list of filelogs, and its changeset.
ADDING = b"commit\nparent tip\nuser test\ndate 60 0\ndesc 1\nb\nfile - 2 a\na\n\nfile - 2 b\na\n\nend\n"
ADDED_LINE = b"data/b.i\n"
ADDED = changeset(node(MANIFEST + b"b\0%s\n" % node(BODY).hex().encode(), node(MANIFEST)), 60, [b"b"], b"b")
ADDED_ANSWER = f"1:{node(ADDED, bytes.fromhex(ZERO)).hex()}\n".encode()
LIST, MOST_LIST = "store/fncache", 268_435_456


def strange_line(length):
    """A line of this length, in the form of a name that no path has: a folder's `.hg` would have another behind it."""
    return b"data/d.hg/".ljust(length - 3, b"p") + b".i\n"


def long_list(length):
    """A list of this length: the files of the filelog that stands, and lines for each of which there is little to work out."""
    listed = b"data/a.i\ndata/a.d\n"
    lines, rest = divmod(length - len(listed), 1024)
    return listed + lines * strange_line(1024) + strange_line(rest)


def try_long_lists(program, checks):
    """The commit makes the list as long as it may be, or would make it longer by a byte and is refused."""
    for length, status, text in ((MOST_LIST, 0, ADDED_ANSWER), (MOST_LIST + 1, 20, b"abort: limit 9\n")):
        files = {**WHOLE, LIST: long_list(length - len(ADDED_LINE))}
        with tempfile.TemporaryDirectory() as folder:
            lay(folder, files)
            ended = subprocess.run([program, "commit"], input=ADDING, capture_output=True, cwd=folder, check=False)
            found = bytes_of(folder)
        said = (ended.returncode, ended.stdout) == (status, text)
        checks.check(f"a list of {length} bytes: status {ended.returncode} ({status}), {ended.stdout} ({text})", said)
        checks.check(f"a list of {length} bytes: other files stand", found[LIST] == files[LIST] + ADDED_LINE if status == 0 else found == files)


def main():
    program, checks = built_program(), Checks()
    hints = {status: hint_of(status) for status in range(256)}
    for files, words, text, status, after in [(*row, row[0]) for row in ROWS] + COMMANDS:
        with tempfile.TemporaryDirectory() as folder:
            lay(folder, files)
            words = words.split() if isinstance(words, str) else words
            given = RECORD if words == ["commit"] else b""
            text = text.encode() if isinstance(text, str) else text
            ended = subprocess.run([program, *words], input=given, capture_output=True, cwd=folder, check=False)
            said = (ended.returncode, ended.stdout) == (status, text)
            checks.check(f"{words}: status {ended.returncode} ({status}), {ended.stdout} ({text})", said)
            checks.check(f"{words}: tells {ended.stderr}", ended.stderr.endswith(hints[status]) and bool(ended.stderr) == bool(hints[status]))
            checks.check(f"{words}: other files stand", bytes_of(folder) == {name: data for name, data in after.items() if data})
    try_long_lists(program, checks)
    print(f"{checks.passed} passed, {checks.failed} failed")
    sys.exit(checks.failed > 0 or checks.passed == 0)


if __name__ == "__main__":
    main()

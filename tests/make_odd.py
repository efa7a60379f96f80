#!/usr/bin/python3
"""Makes tests/fixtures/odd anew: a store that real Mercurial writes, with what it says of it.

Run it with the Python that has Mercurial's modules: `/usr/bin/python3 tests/make_odd.py FOLDER`. Mercurial 6.3.2 wrote the
one that stands. Each text is stored whole and uncompressed, in separate files, for which three of Mercurial's functions are
put aside here; all else is its own.
"""

import os
import shutil
import sys
import tempfile

os.environ.update(HGRCPATH="/dev/null", HGPLAIN="1", TZ="UTC")
from mercurial import commands, hg, revlog, ui as uimod  # noqa: E402
from mercurial.revlogutils import deltas  # noqa: E402

import hg_answers  # noqa: E402

CONFIG = [
    (b"format", b"usegeneraldelta", b"no"),
    (b"format", b"sparse-revlog", b"no"),
    (b"format", b"revlog-compression", b"zlib"),
    (b"format", b"use-share-safe", b"no"),
    (b"format", b"use-persistent-nodemap", b"no"),
    (b"ui", b"allowemptycommit", b"yes"),
    (b"ui", b"merge", b":other"),
    (b"ui", b"quiet", b"yes"),
    (b"ui", b"interactive", b"no"),
]


def store_whole():
    def compress(self, data):
        return (b"u", data) if data and data[:1] != b"\0" else (b"", data)

    def full(self, revinfo, fh, excluded_bases=None, target_rev=None):
        rev = len(self.revlog) if target_rev is None else target_rev
        return self._fullsnapshotinfo(fh, revinfo, rev)

    revlog.revlog.compress = compress
    deltas.deltacomputer.finddeltainfo = full
    revlog._maxinline = 0


def write(name, data):
    if os.path.dirname(name):
        os.makedirs(os.path.dirname(name), exist_ok=True)
    with open(name, "wb") as out:
        out.write(data)


def make(ui, repo):
    def commit(message, date="0 0", user="test", **more):
        commands.commit(ui, repo, message=message.encode(), date=date.encode(), user=user.encode(), addremove=True, **more)

    def update(rev):
        hg.clean(repo, repo[rev].node(), show_stats=False)

    write("a", b"a\n")
    commit("a")  # 0
    # bodies: none, a first byte that is 0, one that is the mark of a plain chunk, one that is the marker of metadata
    write("e", b"")
    write("z", b"\0b")
    write("u", b"up")
    write("m", b"\x01\nq")
    commit("bodies", "10 0")  # 1
    commands.copy(ui, repo, b"a", b"c")
    commands.branch(ui, repo, b"x y")
    commit("\u00fcml\u00e4ut\n\nmore than a line", "1000000000 -3600", "Zo\u00eb <z@e>")  # 2
    update(0)
    os.remove("a")
    commit("gone", "1 0")  # 3: an empty manifest behind one that is not
    update(0)
    write("d.i/f", b"1")
    write("d.hg/f", b"2")
    write("d.d/f", b"3")
    write(".x/y", b"4")
    write("A_b/f", b"5")
    write("aux.c", b"6")
    write("a" * 114, b"7")
    write("sub/run", b"#!/bin/sh\n")
    os.chmod("sub/run", 0o755)
    os.symlink("a", "sub/link")
    commit("names", "-5 43200")  # 4
    write("f", b"1\n")
    commit("f1", "2000000000 -50400")  # 5
    write("f", b"2\n")
    commit("f2")  # 6
    update(5)
    write("f", b"3\n")
    commit("f3")  # 7
    # a merge of two files, neither of which is the other's ancestor, each way round
    commands.merge(ui, repo, rev=b"6")
    write("f", b"4\n")
    commit("f4")  # 8
    update(6)
    commands.merge(ui, repo, rev=b"7")
    write("f", b"5\n")
    commit("f5")  # 9
    update(2)

    def phase(rev, to):
        asked = {name: name == to for name in ("public", "draft", "secret")}
        commands.phase(ui, repo, rev=[b"%d" % rev], force=True, **asked)

    phase(1, "public")
    phase(7, "secret")
    phase(3, "secret")
    for name, rev in [(b"--", 0), (b"0x10", 1), (b"1e3", 2), (b"@", 4), (b"a\tb", 5), (b"a" * 40 + b"g", 6), (b"tip2", 9)]:
        commands.bookmark(ui, repo, name, rev=b"%d" % rev, force=True)
    # an open merge: normal, merged, added with a source, and removed
    update(8)
    commands.merge(ui, repo, rev=b"1", force=True)
    commands.remove(ui, repo, b"a", force=True)
    commands.copy(ui, repo, b"f", b"newname")


def new_repository():
    """An empty repository in a new folder, which is the current one then, with the settings for it."""
    work = tempfile.mkdtemp()
    os.chdir(work)
    store_whole()
    ui = uimod.ui.load()
    for section, name, value in CONFIG:
        ui.setconfig(section, name, value)
    return work, ui, hg.repository(ui, work.encode(), create=True)


def main():
    top = os.path.abspath(sys.argv[1])
    work, ui, repo = new_repository()
    make(ui, repo)
    repo = hg.repository(ui, work.encode())
    hg_answers.write_expected(repo, top + "/expected")
    for name in ["bookmarks", "dirstate", "requires"]:
        shutil.copy(work + "/.hg/" + name, top)
    for at, folders, names in os.walk(work + "/.hg/store"):
        folders[:] = [f for f in folders if f != "journal"]
        for name in names:
            if not name.startswith(("undo", "journal")):
                to = top + "/store" + at[len(work + "/.hg/store"):]
                os.makedirs(to, exist_ok=True)
                shutil.copy(at + "/" + name, to)
    shutil.rmtree(work)


if __name__ == "__main__":
    main()

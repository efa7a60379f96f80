#!/usr/bin/python3
"""Compares the sample files that proofs compute with, in specs/Samples.antt of hgs_stands and hgs_built, with what Mercurial
writes, byte for byte.

Run it with the Python that has Mercurial's modules: `/usr/bin/python3 tests/check_samples.py`. Mercurial 6.3.2 writes the same.
Each text is stored whole and uncompressed, in separate files, as in make_odd.py. The files of the third commit, which stops
40 bytes into its entry of the changelog's index, are not Mercurial's: they are made here from the formats. The time that a
dirstate has of a file is passed over.
"""

import hashlib
import os
import re
import shutil
import struct
import sys

sys.path.insert(0, os.path.dirname(os.path.abspath(__file__)))
from make_odd import commands, hg, new_repository, write  # noqa: E402

CRATES = os.path.join(os.path.dirname(os.path.abspath(__file__)), "../crates")
NULL = b"\0" * 20


def files_of(make):
    """The files in `.hg` of a new repository in which this was done."""
    work, ui, repo = new_repository()
    make(ui, repo)
    files = {}
    for at, _, names in os.walk(work + "/.hg"):
        for name in names:
            with open(at + "/" + name, "rb") as file:
                files[(at + "/" + name)[len(work + "/.hg/"):]] = file.read()
    shutil.rmtree(work)
    return files


def commit(ui, repo, message, date="0 0"):
    commands.commit(ui, repo, message=message.encode(), date=date.encode(), user=b"test", addremove=True)


def two_drafts(ui, repo):
    write("a", b"a\n")
    commit(ui, repo, "a")
    commands.bookmark(ui, repo, b"main", rev=b"0", inactive=True)
    write("b", b"b\n")
    commit(ui, repo, "b", "60 0")


def merged(ui, repo):
    """A file renamed and made executable, beside it one with a hashed name, and a merge of the two, in three phases."""
    write("a", b"a\n")
    commit(ui, repo, "0")
    commands.rename(ui, repo, b"a", b"c")
    os.chmod("c", 0o755)
    commit(ui, repo, "1")
    hg.clean(repo, repo[-1].node(), show_stats=False)
    write("A" * 58, b"")
    commit(ui, repo, "2", "60 -3600")
    hg.clean(repo, repo[1].node(), show_stats=False)
    commands.merge(ui, repo, rev=b"2", force=True)
    commit(ui, repo, "3")
    for rev, to in ((0, "public"), (3, "secret")):
        commands.phase(ui, repo, rev=[b"%d" % rev], force=True, **{name: name == to for name in ("public", "draft", "secret")})
    commands.bookmark(ui, repo, b"m", rev=b"1", force=True)


def node(parent, text):
    return hashlib.sha1(min(parent, NULL) + max(parent, NULL) + text).digest()


def chunk(text):
    return text if text[:1] in (b"", b"\0") else b"u" + text


def grown(files, name, text, link):
    """The revlog with one more revision on the last one, and its node."""
    index, data = files[name + ".i"], files[name + ".d"]
    rev = len(index) // 64
    new = node(index[-32:-12], text)
    numbers = struct.pack(">iiiiii", len(chunk(text)), len(text), rev, link, rev - 1, -1)
    entry = len(data).to_bytes(6, "big") + b"\0\0" + numbers + new + b"\0" * 12
    return index + entry, data + chunk(text), new


def third_begun(files):
    b_index, b_data, b_node = grown(files, "store/data/b", b"bb\n", 2)
    a_node = files["store/data/a.i"][32:52]
    rows = b"a\0" + a_node.hex().encode() + b"\nb\0" + b_node.hex().encode() + b"\n"
    m_index, m_data, m_node = grown(files, "store/00manifest", rows, 2)
    change = m_node.hex().encode() + b"\ntest\n120 0\nb\n\nc"
    c_index, c_data, c_node = grown(files, "store/00changelog", change, 2)
    entries = b"".join(b"n\0\0\0\0" + b"\xff" * 8 + struct.pack(">I", 1) + path for path in (b"a", b"b"))
    names = ["data/b.d", "data/b.i", "00manifest.d", "00manifest.i", "00changelog.d", "00changelog.i"]
    return {
        "store/journal": b"".join(b"%s\0%d\n" % (n.encode(), len(files["store/" + n])) for n in names),
        "store/journal.backupfiles": b"2\nplain\0dirstate\0journal.backup.dirstate\x000\n",
        "journal.backup.dirstate": files["dirstate"],
        "journal.new.dirstate": c_node + NULL + entries,
        "store/data/b.d": b_data,
        "store/data/b.i": b_index,
        "store/00manifest.d": m_data,
        "store/00manifest.i": m_index,
        "store/00changelog.d": c_data,
        "store/00changelog.i": c_index[:128 + 40],
        "wlock": b"writer",
        "store/lock": b"writer",
    }


def in_form(path, data):
    """The bytes of a file; the lines of `fncache` in order, since Mercurial writes them in any; a dirstate without times."""
    if data is None or path not in ("store/fncache", "dirstate"):
        return data
    if path == "store/fncache":
        return sorted(data.splitlines())
    parts, at = [data[:40]], 40
    while at < len(data):
        size = struct.unpack(">I", data[at + 13 : at + 17])[0]
        parts.append(data[at : at + 9] + data[at + 13 : at + 17 + size])
        at += 17 + size
    return sorted(parts)


def differences(text, made):
    shape = r'file \(codes "([^"]*)"\) \(codes "([0-9a-f]*)"\)'
    found = re.findall(shape, text)
    assert found and len(found) == text.count("file (codes"), "not all samples have the layout that is read here"
    return [path for path, digits in found if in_form(path, made.get(path)) != in_form(path, bytes.fromhex(digits))]


def samples(crate):
    with open(os.path.join(CRATES, crate, "specs/Samples.antt")) as file:
        return file.read()


def main():
    first, second = samples("hgs_stands").split("third_begun : List File")
    drafts = files_of(two_drafts)
    wrong = differences(first, drafts) + differences(second, third_begun(drafts)) + differences(samples("hgs_built"), files_of(merged))
    for path in wrong:
        print("differs: " + path)
    print("differences" if wrong else "the samples are what is written")
    sys.exit(wrong != [])


main()

#!/usr/bin/env python3
"""Times every question of `hg_store` beside `hg`, Mercurial's command server, and the bare SHA-1 of the same bytes, in one table.

One store has so many changesets, 10,000 bookmarks, 2,000 draft roots and a working parent; the other ten changesets whose manifests
name 20,000 files (`write_store` of bench/log.py and of bench/contents.py). Each time is the median of so many runs, the start of the
process included, of all but the command server, which runs already and has answered once. The bare hash is `sha1sum` over the files
that the question reads, in C, and checks nothing.

    bench/questions.py [--program FILE] [COUNT]
"""
import os
import shutil
import sys
import tempfile

import contents
import log
from commit import Server
from log import TEMPLATE, TOP, median, output_of

BOOKMARKS = 10_000
ROOTS = 2_000
LINE = "{rev} {node}\n"
LOAD = ["store/00changelog.i", "bookmarks", "store/phaseroots", "dirstate"]


def write_history(folder, count):
    """A history of so many changesets with bookmarks, roots and a working parent."""
    log.write_store(folder, count)
    store = os.path.join(folder, ".hg")
    with open(os.path.join(store, "store/00changelog.i"), "rb") as file:
        index = file.read()
    nodes = [index[at + 32:at + 52] for at in range(0, len(index), 64)]
    files = {
        "bookmarks": b"".join(b"%s mark%05d\n" % (nodes[k * count // BOOKMARKS].hex().encode(), k) for k in range(min(BOOKMARKS, count))),
        "store/phaseroots": b"".join(b"1 %s\n" % nodes[count - 1 - k].hex().encode() for k in range(min(ROOTS, count))),
        "dirstate": nodes[-1] + bytes(20),
    }
    for name, content in files.items():
        with open(os.path.join(store, name), "wb") as file:
            file.write(content)


def questions(path):
    """The name of each question, whether the store of many files answers it, our words, those of `hg`, and the files that are read."""
    history = LOAD + ["store/00changelog.d"]
    manifest = history[:1] + history[-1:] + ["store/00manifest.i", "store/00manifest.d"]
    filelog = ["store/data/" + path + end for end in (".i", ".d")]
    return [
        ("log", False, ["log"], ["log", "--template", TEMPLATE], history),
        ("heads", False, ["heads"], ["heads", "--template", LINE], LOAD),
        ("bookmarks", False, ["bookmarks"], ["bookmarks"], LOAD),
        ("parents", False, ["parents"], ["parents", "--template", LINE], LOAD),
        ("phase", False, ["phase", "tip"], ["phase", "-r", "tip"], LOAD),
        ("files", True, ["files", "tip"], ["manifest", "--debug", "-r", "tip"], manifest),
        ("cat", True, ["cat", "tip", path], ["cat", "-r", "tip", path], manifest + filelog),
    ]


def served(folder, words):
    """The time of one command through a command server that has answered it before."""
    server = Server(folder)
    server.run(*words)
    time = median(lambda: server.run(*words))
    server.end()
    return time


def bare_hash(folder, names):
    """The time of the SHA-1 of the files with these names, by coreutils."""
    there = [name for name in names if os.path.exists(os.path.join(folder, ".hg", name))]
    return median(lambda: output_of(["sha1sum", *there], os.path.join(folder, ".hg")))


def row(program, folder, question, has_hg):
    name, _, ours, theirs, files = question
    own = median(lambda: output_of([program, *ours], folder))
    least = bare_hash(folder, files)
    cells = ["not measured"] * 2
    if has_hg:
        output_of(["hg", *theirs], folder)
        alone = median(lambda: output_of(["hg", *theirs], folder))
        server = served(folder, theirs)
        cells = [f"{own / time:.3f} ({time:.3f} s)" for time in (alone, server)]
    return f"| `{name}` | {own:.4f} s | {cells[0]} | {cells[1]} | {own / least:.1f} ({least:.4f} s) |"


def main():
    words = sys.argv[1:]
    if words[:1] == ["--program"]:
        program, words = words[1], words[2:]
    else:
        program = output_of([os.path.join(TOP, "bin", "hg_store"), "--build"], TOP).decode().strip()
    count = int(words[0]) if words else 100_000
    has_hg = shutil.which("hg") is not None
    work = tempfile.mkdtemp(prefix="hg_store-bench-")
    try:
        history, many = os.path.join(work, "history"), os.path.join(work, "many")
        write_history(history, count)
        path = contents.write_store(many, 20_000)
        print(f"| question, of {count:,} changesets or 20,000 files | `hg_store` | to `hg` | to the command server | to `sha1sum` |")
        print("|---|---|---|---|---|")
        for question in questions(path):
            print(row(program, many if question[1] else history, question, has_hg), flush=True)
    finally:
        shutil.rmtree(work)


if __name__ == "__main__":
    main()

#!/usr/bin/env python3
"""`branches`: the branch that extras name, the heads of branches over histories that the program, Mercurial or this script made, and the
same bytes however many changesets are taken at a time.

    tests/branches.py [COUNT [SEED]]

The large history has 10,000 changesets where nothing is said, on a tenth as many branches that are merged to and fro. The last line is 'N passed, M failed' or
'N passed, M failed, K skipped'.
"""

import hashlib
import os
import random
import shutil
import struct
import subprocess
import sys
import tempfile

sys.dont_write_bytecode = True
from checks import Checks, built_program, lay

NULL = bytes(20)
REQUIRES = b"dotencode\nfncache\nrevlogv1\nstore\n"
PLAIN = ["format.use-share-safe=no", "format.sparse-revlog=no", "format.revlog-compression=zlib", "format.maxchainlen=-1", "storage.revlog.zlib.level=0"]
NODES = [
    "cb9a9f314b8b07ba71012fcdbc544b5a4d82ff5b",
    "89c35e91dd0767fdc86032f5e4df2e08b8549b05",
    "235dc8223311486be4f49e995acb4af721504c2c",
    "e17698a47a4966a44db1b89e6d15e4178f075d1a",
]
# the extras of a changeset and its branch
EXTRAS = [
    (b"", b"default"),
    (b"close:1\0branch:a\\\\b", b"a\\b"),
    (b"branch:a\0branch:b", b"b"),
    (b"branch:", b"default"),
    (b"branch:a\\q", b"default"),
    (b"branch:b\0branch:a\\q", b"b"),
    (b"branch", b"default"),
    (b"branch:x\0branch:", b"default"),
    (b"branch:x:y", b"x:y"),
    (b"branch:a\\0b", b"a\0b"),
    (b"branch:a\\rb\\nc", b"a\rb\nc"),
    (b"branch:a\\", b"default"),
    (b"\0branch:z", b"z"),
    (b"branch:z\0", b"z"),
    (b"xbranch:y\0Branch:w", b"default"),
    (b"br\\anch:y", b"default"),
    (b"branch:caf\xc3\xa9", b"caf\xc3\xa9"),
]


def run(program, folder, words, given=b""):
    ended = subprocess.run([program, *words], input=given, stdout=subprocess.PIPE, stderr=subprocess.DEVNULL, cwd=folder, check=False)
    return ended.stdout, ended.returncode


# ---- histories that are laid out


class Change:
    """A changeset: its parents, its extras and its branch."""

    def __init__(self, parents, extras, branch):
        self.parents, self.extras, self.branch = parents, extras, branch
        self.node = NULL


def lay_history(folder, changes):
    """Lays a store with these changesets, which have no files, gives each its node, and says where their chunks begin."""
    index, chunks, begun = b"", b"", []
    for rev, change in enumerate(changes):
        text = NULL.hex().encode() + b"\nu\n%d 0" % rev + (b" " + change.extras if change.extras else b"") + b"\n\nx"
        nodes = [changes[parent].node for parent in change.parents] + [NULL, NULL]
        change.node = hashlib.sha1(min(nodes[:2]) + max(nodes[:2]) + text).digest()
        chunk, (first, second) = b"u" + text, [*change.parents, -1, -1][:2]
        index += struct.pack(">QIIIIii20s12x", len(chunks) << 16, len(chunk), len(text), rev, rev, first, second, change.node)
        begun.append(len(chunks))
        chunks += chunk
    lay(folder, {"requires": REQUIRES, "store/00changelog.i": b"\0\0\0\x01" + index[4:], "store/00changelog.d": chunks})
    return begun


def heads_of(changes):
    """The lines of the heads: those that are no ancestor of another one of their branch, by a pass from the newest on for each branch."""
    found = []
    for name in {change.branch for change in changes}:
        below = bytearray(len(changes))
        for rev in range(len(changes) - 1, -1, -1):
            if changes[rev].branch == name and not below[rev]:
                found.append((name, rev))
            if changes[rev].branch == name or below[rev]:
                for parent in changes[rev].parents:
                    below[parent] = 1
    return b"".join(b"%s\t%d\t%s\n" % (name, rev, changes[rev].node.hex().encode()) for name, rev in sorted(found))


def some_history(draw, count, branches):
    """Random changesets, near ones merged to and fro, mostly on the branch of a parent."""
    changes = []
    for rev in range(count):
        near = range(max(0, rev - 3 * branches), rev)
        parents = sorted(draw.sample(near, min(len(near), draw.choice([1, 1, 1, 2])))) if draw.random() < 0.99 else []
        name = changes[parents[0]].branch if parents and draw.random() < 0.7 else b"b%d" % draw.randrange(branches)
        changes.append(Change(parents, b"branch:" + name, name))
    return changes


# ---- checks


def examples(program, checks, folder):
    """A, B on another branch, one more of the first on that, and another head of the other."""
    run(program, folder, ["init"])
    checks.check("branches of an empty repository", run(program, folder, ["branches"]) == (b"", 0))
    rows = [
        ({b"a": b"a\n"}, b"a", None, b""),
        ({b"a": b"a\n", b"b": b"b\n"}, b"b", 0, b"branch side\n"),
        ({b"a": b"c\n"}, b"c", 1, b"branch default\n"),
        ({b"a": b"d\n"}, b"d", 0, b"branch side\n"),
    ]
    wanted = [["default 0"], ["default 0", "side 1"], ["default 2", "side 1"], ["default 2", "side 1", "side 3"]]
    for rev, (tree, text, parent, branch) in enumerate(rows):
        record = b"commit\n" + (b"" if parent is None else b"parent %d\n" % parent) + b"user test\ndate %d 0\n" % (60 * rev) + branch + b"desc 1\n" + text + b"\n"
        record += b"".join(b"file - %d %s\n%s\n" % (len(body), path, body) for path, body in sorted(tree.items())) + b"end\n"
        said, status = run(program, folder, ["commit"], record)
        checks.check(f"commit {rev}: {said} {status}", said == f"{rev}:{NODES[rev]}\n".encode())
        lines = "".join(f"{head.split()[0]}\t{head.split()[1]}\t{NODES[int(head.split()[1])]}\n" for head in wanted[rev]).encode()
        for words in [[], ["--steps", "1"], ["--steps", "2"], ["--steps", "1000000"]]:
            said = run(program, folder, ["branches", *words])
            checks.check(f"branches {words} of {rev + 1} changesets: {said}", said == (lines, 0))
    for words, place in [(["--steps", "0"], 2), (["--steps", "1000001"], 2), (["--steps"], 2), (["--steps", "x"], 2), (["--steps", "01"], 2), (["--steps", "1", "x"], 3), (["x"], 1), (["--step", "1"], 1)]:
        said = run(program, folder, ["branches", *words])
        checks.check(f"branches {words}: {said}", said == (b"abort: bad word %d\n" % place, 28))


def extras(program, checks, folder):
    changes = []
    for text, branch in EXTRAS:
        changes.append(Change([], text, branch))
    lay_history(folder, changes)
    said, wanted = run(program, folder, ["branches"]), heads_of(changes)
    checks.check(f"branches of extras: {said}, wanted {wanted}", said == (wanted, 0))
    for rev, (text, branch) in enumerate(EXTRAS):
        line = b"%s\t%d\t%s\n" % (branch, rev, changes[rev].node.hex().encode())
        checks.check(f"the branch of {text}", line in said[0])


def damaged(program, checks, folder):
    """The first changeset that can't be read is told, and no line is written."""
    changes = [Change([rev - 1] if rev else [], b"", b"default") for rev in range(6)]
    begun = lay_history(folder, changes)
    path = os.path.join(folder, ".hg/store/00changelog.d")
    with open(path, "rb") as file:
        data = bytearray(file.read())
    data[begun[5] - 1] ^= 1
    data[begun[4] - 1] ^= 1
    with open(path, "wb") as file:
        file.write(data)
    for words in [[], ["--steps", "1"], ["--steps", "4"]]:
        said = run(program, folder, ["branches", *words])
        checks.check(f"branches {words} of a damaged changelog: {said}", said == (b"abort: damaged store/00changelog.i: revlog 7 3\n", 15))


def steps(program, checks, draw, folder, count):
    changes = some_history(draw, count, max(1, count // 10))
    lay_history(folder, changes)
    wanted = heads_of(changes)
    for words in [[], ["--steps", "1"], ["--steps", "7"], ["--steps", str(count - 1)], ["--steps", str(count)]]:
        said = run(program, folder, ["branches", *words])
        checks.check(f"branches {words} of {count} changesets", said == (wanted, 0))


def small(program, checks, draw):
    for number in range(40):
        with tempfile.TemporaryDirectory() as folder:
            changes = some_history(draw, draw.randrange(1, 40), draw.randrange(1, 5))
            lay_history(folder, changes)
            wanted = heads_of(changes)
            for words in [[], ["--steps", "1"], ["--steps", str(draw.randrange(1, 45))]]:
                said = run(program, folder, ["branches", *words])
                checks.check(f"branches {words} of history {number}: {said}, wanted {wanted}", said == (wanted, 0))


def hg(folder, *words):
    config = [part for each in PLAIN for part in ("--config", each)]
    return subprocess.run(["hg", *config, *words], cwd=folder, check=True, stdout=subprocess.PIPE).stdout


def some_dag(draw, count):
    """Random changesets in the language of Mercurial's `debugbuilddag`, near ones merged, on branches that come again."""
    words = ["@default", "."]
    for rev in range(1, count):
        near = range(max(0, rev - 8), rev)
        parents = draw.sample(near, min(len(near), draw.choice([1, 1, 2])))
        if draw.random() < 0.4:
            words.append('@"' + draw.choice(["default", "side", "stable", "x.y"]) + '"')
        words.append("*" + "/".join(str(rev - parent) for parent in parents))
    return " ".join(words)


def beside_mercurial(program, checks, draw, folder):
    """Branches that Mercurial made, merged and closed."""
    hg(folder, "init")
    hg(folder, "debugbuilddag", "-q", some_dag(draw, 120))
    for name in ["side", "a b", "tail\\", "caf\u00e9"]:
        hg(folder, "update", "-qC", str(draw.randrange(120)))
        hg(folder, "branch", "-qf", name)
        hg(folder, "commit", "-qm", "goes on", "-d", "0 0", "-u", "u")
        if draw.random() < 0.7:
            hg(folder, "commit", "-qm", "closed", "-d", "0 0", "-u", "u", "--close-branch")
    lines = hg(folder, "heads", "--closed", "-T", "{branch}\t{rev}\t{node}\n").splitlines(keepends=True)
    wanted = b"".join(sorted(lines, key=lambda line: (line.split(b"\t")[0], int(line.split(b"\t")[1]))))
    for words in [[], ["--steps", "1"], ["--steps", "7"]]:
        said = run(program, folder, ["branches", *words])
        checks.check(f"branches {words}: {said}, and Mercurial {wanted}", said == (wanted, 0))
    # each branch that Mercurial lists, closed or not, with one of its heads
    listed = hg(folder, "branches", "--closed", "-T", "{branch}\t{rev}\t{node}\n").splitlines(keepends=True)
    own = run(program, folder, ["branches"])[0].splitlines(keepends=True)
    checks.check(f"hg branches --closed: {listed}, {own}", set(listed) <= set(own) and {line.split(b"\t")[0] for line in listed} == {line.split(b"\t")[0] for line in own})
    # the branch of each changeset
    for line in hg(folder, "log", "-T", "{rev}\t{branch}\n").splitlines():
        rev, name = line.split(b"\t")
        if any(head.split(b"\t")[1] == rev for head in own):
            checks.check(f"the branch of {rev}", any(head.split(b"\t")[:2] == [name, rev] for head in own))


def main():
    count = int(sys.argv[1]) if len(sys.argv) > 1 else 10_000
    seed = int(sys.argv[2]) if len(sys.argv) > 2 else 11
    os.environ.update({"HGPLAIN": "1", "HGRCPATH": "/dev/null", "HGENCODING": "UTF-8"})
    checks, draw, program = Checks(), random.Random(seed), built_program()
    for rows in [examples, extras, damaged]:
        with tempfile.TemporaryDirectory() as folder:
            rows(program, checks, folder)
    small(program, checks, draw)
    with tempfile.TemporaryDirectory() as folder:
        steps(program, checks, draw, folder, count)
    if shutil.which("hg"):
        for _ in range(3):
            with tempfile.TemporaryDirectory() as folder:
                beside_mercurial(program, checks, draw, folder)
    else:
        checks.skipped += 3
    print(checks)
    return checks.failed != 0


sys.exit(main())

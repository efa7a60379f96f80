#!/usr/bin/env python3
"""Imports: what they write beside commits of the same records, and beside Mercurial; and what is refused.

Without `hg`, which is installed where that can be, what needs it is skipped. The last line is 'N passed, M failed' or
'N passed, M failed, K skipped'.
"""

import os
import re
import shutil
import subprocess
import sys
import tempfile

sys.dont_write_bytecode = True
from checks import HERE, Checks, built_program, bytes_of

# Two records, of a file each, and what an import of both says.
NEW = b"commit\nuser test\ndate 0 0\ndesc 1\na\nfile - 2 a\na\n\nend\n"
NEXT = b"commit\nparent tip\nuser test\ndate 60 0\ndesc 1\nb\nfile - 2 a\na\n\nfile - 2 b\nb\n\nend\n"
LAST = b"end import\n"
NODE = b"1:37bdf19219c0e69b87d6371fabfaf5c3a63794d9\n"
# the profile, and the extension by which Mercurial stores each text whole
FORMATS = "usegeneraldelta=no sparse-revlog=no revlog-compression=zlib use-share-safe=no use-persistent-nodemap=no use-dirstate-v2=no"
CONFIG = [f"format.{option}" for option in FORMATS.split()] + [f"extensions.hg_whole={os.path.join(HERE, 'hg_whole.py')}"]
LOOSE = {"wlock", "store/lock"}


def record(text, files, parents=(b".",), copies=None, branch=b"default", date=0):
    """The record of a changeset with these files, by their paths, some of which are copies."""
    copies = copies or {}
    lines = [b"commit", *(b"parent " + parent for parent in parents), b"user ada", b"date %d 0" % date, b"branch " + branch, b"desc %d" % len(text), text]
    for path, body in sorted(files.items()):
        if path in copies:
            lines.append(b"copyfrom " + copies[path])
        lines += [b"file - %d %s" % (len(body), path), body]
    return b"\n".join([*lines, b"end", b""])


# Changesets with copies, renames, a file that is large, one that is emptied, a branch, a node of an earlier one and one that comes again.
STEPS = [
    (b"one", {b"a": b"a\n", b"src/b": b"b\n", b"large": b"z" * 4097}, {}, b"default"),
    (b"two", {b"a": b"a\n", b"src/b": b"b\n", b"large": b"z" * 4097, b"copied": b"a\n"}, {b"copied": b"a"}, b"default"),
    (b"three", {b"a": b"a\n", b"src/c": b"b\n", b"moved": b"z" * 4097 + b"more\n", b"copied": b"a\n"}, {b"src/c": b"src/b", b"moved": b"large"}, b"side"),
    (b"four", {b"a": b"a\n", b"src/c": b"b\n", b"moved": b"z" * 4097 + b"more\n", b"copied": b"", b"k" * 130: b"hashed\n"}, {}, b"side"),
    (b"five", {b"a": b"a\n", b"src/b": b"\1\nno block\n", b"moved": b"z" * 4097 + b"more\n", b"k" * 130: b"hashed\n"}, {}, b"default"),
    (b"six", {b"a": b"a\n", b"src/b": b"b\n", b"moved": b"y" * 5000}, {}, b"default"),
]


def steps(first=0):
    return [record(text, files, (b".",), copies, branch, number) for number, (text, files, copies, branch) in enumerate(STEPS) if number >= first]


def state(folder):
    return {path: data for path, data in bytes_of(folder).items() if path not in LOOSE}


class Folder:
    """A folder with a repository of the program's."""

    def __init__(self, program, work, name):
        self.program, self.path = program, os.path.join(work, name)
        os.mkdir(self.path)
        self.run("init")

    def run(self, *words, given=b""):
        ended = subprocess.run([self.program, *words], input=given, stdout=subprocess.PIPE, stderr=subprocess.DEVNULL, cwd=self.path, check=False)
        return ended.returncode, ended.stdout

    def imports(self, *records):
        return self.run("import", given=b"".join(records) + LAST)

    def commits(self, *records):
        ended = (None, None)
        for one in records:
            ended = self.run("commit", given=one)
        return ended

    def state(self):
        return state(self.path)


def try_examples(checks, program, work):
    imported, committed = Folder(program, work, "imported"), Folder(program, work, "committed")
    checks.check("two records", imported.imports(NEW, NEXT) == (0, NODE))
    checks.check("the same by commits", committed.commits(NEW, NEXT) == (0, NODE))
    checks.check("leave the same files", imported.state() == committed.state())

    refused = Folder(program, work, "refused")
    before = refused.state()
    checks.check("a record twice", refused.imports(NEW, NEW) == (13, b"abort: nothing changed (0)\n"))
    checks.check("writes nothing", refused.run("log") == (0, b"") and refused.state() == before)
    unknown = record(b"c", {b"a": b"a\n", b"c": b"a\n"}, copies={b"c": b"z"})
    checks.check("a copy of no file in the second record", refused.imports(NEW, unknown) == (23, b"abort: unknown path\n"))
    over = record(b"c", {b"a": b"a\n"}, copies={b"a": b"a"})
    checks.check("a copy over a file in the second record", refused.imports(NEW, over) == (32, b"abort: copy over a\n"))
    checks.check("a parent that a later record makes", refused.imports(record(b"x", {b"a": b"a\n"}, (b"1",)), NEW) == (12, b"abort: unknown revision\n"))
    checks.check("nothing of them stands", refused.run("log") == (0, b"") and refused.state() == before)


def try_steps(checks, program, work):
    """The same changesets by imports and by commits, in one piece and behind others."""
    committed = Folder(program, work, "steps-committed")
    whole = committed.commits(*steps())
    for first in (0, 1, 3, 5):
        folder = Folder(program, work, f"steps-{first}")
        folder.commits(*steps()[:first])
        checks.check(f"steps from {first} on", folder.imports(*steps(first)) == whole)
        same, other = committed.state(), folder.state()
        lists = [sorted(files.pop("store/fncache", b"").splitlines()) for files in (same, other)]
        checks.check(f"steps from {first} on leave the same files", same == other and lists[0] == lists[1])
        checks.check(f"steps from {first} on have no finding", folder.run("verify")[1].endswith(b", 0 findings\n"))
    return committed


def with_hg():
    if not shutil.which("hg") and os.geteuid() == 0 and shutil.which("apt-get"):
        for words in (["update"], ["install", "-y", "mercurial"]):
            subprocess.run(["apt-get", "-qq", *words], stdout=subprocess.DEVNULL, stderr=subprocess.DEVNULL, check=False)
    return shutil.which("hg")


def hg(folder, *words):
    env = dict(os.environ, HGRCPATH="/dev/null", HGPLAIN="1", HGUSER="ada", TZ="UTC")
    config = [word for option in CONFIG for word in ("--config", option)]
    return subprocess.run(["hg", *words, *config], cwd=folder, env=env, stdout=subprocess.PIPE, stderr=subprocess.STDOUT, check=False).stdout


def step_by_hg(folder, number):
    """Commits the step by Mercurial."""
    text, files, copies, branch = STEPS[number]
    for path in hg(folder, "manifest").splitlines():
        if path not in files:
            os.remove(os.path.join(os.fsencode(folder), path))
    for path, body in files.items():
        full = os.path.join(os.fsencode(folder), path)
        os.makedirs(os.path.dirname(full), exist_ok=True)
        with open(full, "wb") as file:
            file.write(body)
    hg(folder, "branch", "--force", branch)
    for path, source in copies.items():
        hg(folder, "copy" if source in files else "rename", "--after", source, path)
    hg(folder, "commit", "--addremove", "-m", text, "-u", "ada", "-d", f"{number} 0")


def try_mercurial(checks, program, work):
    """The same changesets by one import and by Mercurial."""
    ours = Folder(program, work, "ours")
    theirs = os.path.join(work, "theirs")
    os.mkdir(theirs)
    hg(theirs, "init")
    for number in range(len(STEPS)):
        step_by_hg(theirs, number)
    status, said = ours.imports(*steps())
    checks.check("nodes are Mercurial's", status == 0 and said == hg(theirs, "log", "-r", "tip", "-T", "{rev}:{node}\n"))
    logs = [{path: data for path, data in files.items() if re.search(r"^store/.*\.[id]$", path)} for files in (ours.state(), state(theirs))]
    checks.check("revlogs are Mercurial's, byte by byte", logs[0] == logs[1])
    checks.check("nothing is wrong", hg(ours.path, "verify", "--quiet") == b"")
    template = "{rev} {branch}{file_copies % ' {source}>{name}'}\n"
    for words in (["log", "--copies", "-T", template], ["log", "--follow", "-T", "{rev}\n", "src/b"], ["branches", "--closed"], ["debugrename", "-r", "2", "src/c"], ["log", "-T", "{rev} {node} {manifest}\n"]):
        checks.check(f"{words} tells the same", hg(ours.path, *words) == hg(theirs, *words) != b"")


def main():
    program = built_program()
    checks = Checks()
    with tempfile.TemporaryDirectory() as work:
        try_examples(checks, program, work)
        try_steps(checks, program, work)
        if with_hg():
            try_mercurial(checks, program, work)
        else:
            checks.skipped += 1
    print(checks)
    sys.exit(checks.failed > 0)


main()

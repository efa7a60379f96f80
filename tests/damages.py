#!/usr/bin/env python3
"""A thousand random damages to the files of four small repositories: one whose filelogs are inline, one with a separate filelog and a
hashed name, one that Mercurial made with all revlogs inline, and one in which a transaction was left open.

    tests/damages.py [DAMAGES [SEED]]

The files take turns. A byte of the file is changed, some are cut off, added, made zero or turned round by whole entries, or the file is
gone. Then questions are asked and a command that writes is run, which take turns too. Each ends in time, by itself, with a status and a
last line that docs/ANSWERS.md has together; a question changes no file; a command that is refused leaves every file byte for byte; and
what was written last is a line of it. Where a damaged journal was undone, undoing again finds none. The last line is
'N passed, M failed'.
"""

import collections
import concurrent.futures
import copy
import itertools
import os
import random
import re
import shutil
import subprocess
import sys
import tempfile

sys.dont_write_bytecode = True
from checks import HERE, Checks, built_program, bytes_of, lay

sys.path.insert(0, os.path.join(HERE, "..", "tools"))
import usages  # noqa: E402

LONG = "d/" * 60 + "long"
MOST_SECONDS = 20
QUESTIONS = [
    ["log"], ["heads"], ["bookmarks"], ["parents"], ["verify"], ["verify", "--jobs", "3"],
    ["files", "tip"], ["files", "0"], ["files", "."], ["cat", "1", "d/b"], ["cat", "tip", "a"], ["cat", "tip", LONG], ["phase", "1"], ["phase", "main"],
]  # fmt: skip


def record(text, parents, **files):
    head = b"commit\n" + b"".join(b"parent %s\n" % name for name in parents) + b"user u\ndate 0 0\ndesc %d\n%s\n" % (len(text), text)
    named = {name.replace("d_b", "d/b").replace("hashed", LONG).encode(): body for name, body in files.items()}
    return head + b"".join(b"file - %d %s\n%s\n" % (len(body), name, body) for name, body in sorted(named.items())) + b"end\n"


COMMANDS = [
    (["commit"], record(b"new", [b"tip"], a=b"a new body\n", d_b=b"b\n", e=b"e\n")),
    (["phase", "0", "public"], b""),
    (["commit"], record(b"merge", [b"0", b"1"], a=b"both\n", big=b"z" * 5000, hashed=b"h\n")),
    (["phase", "--force", "tip", "secret"], b""),
    (["bookmark", "new", "0"], b""),
    (["commit"], record(b"first", [], a=b"alone\n")),
    (["bookmark", "--delete", "main"], b""),
    (["recover"], b""),
    (["init"], b""),
    (["gen", "3", "2"], b""),
]


def lines_of_answers():
    """For each status of docs/ANSWERS.md the form of its line, where it has one."""
    with open(os.path.join(HERE, "../docs/ANSWERS.md"), encoding="utf-8") as file:
        rows = re.findall(r"^\| (\d+) \| (.*?) \| ", file.read().split("## Hints")[0], re.MULTILINE)
    forms = {}
    for status, cell in rows:
        texts = re.findall(r"`([^`]*)`", cell)
        forms[int(status)] = [re.compile(re.sub(r"\b[A-Z]+\b", ".*", re.escape(text)).encode(), re.DOTALL) for text in texts]
    forms[10].append(re.compile(rb"abort: lock held"))
    forms[17].append(re.compile(rb"abort: recovery unfinished"))
    return forms


class World(Checks):
    def __init__(self, program, work):
        super().__init__()
        self.program, self.work, self.folder = program, work, os.path.join(work, "run")
        self.forms, self.met, self.files = lines_of_answers(), collections.Counter(), collections.Counter()
        self.bases = {name: os.path.join(work, name) for name in ("inline", "separate", "mercurials", "open")}
        os.mkdir(self.folder)
        first = record(b"one", [], a=b"a\n")
        self.build("inline", [(["commit"], first), (["commit"], record(b"two", [b"tip"], a=b"a\n", d_b=b"b\n"))])
        big = {"a": b"a\n", "d_b": b"b\n", "big": b"y" * 4097, "hashed": b"hashed\n"}
        self.build("separate", [(["commit"], record(b"one", [], **big)), (["commit"], record(b"two", [b"tip"], **{**big, "a": b"\1\nmarked", "big": b""}))])
        shutil.copytree(os.path.join(HERE, "fixtures/ordinary"), os.path.join(self.bases["mercurials"], ".hg"), ignore=shutil.ignore_patterns("expected"))
        shutil.copytree(self.bases["separate"], self.bases["open"])
        lay(self.bases["open"], open_transaction(bytes_of(self.bases["open"])))

    def apart(self, name):
        """The same repositories, with a folder to run in and counts of its own."""
        other = copy.copy(self)
        other.passed = other.failed = 0
        other.met, other.files = collections.Counter(), collections.Counter()
        other.folder = os.path.join(self.work, f"run-{name}")
        return other

    def add(self, other):
        self.passed, self.failed = self.passed + other.passed, self.failed + other.failed
        self.met, self.files = self.met + other.met, self.files + other.files

    def build(self, name, commands):
        shutil.rmtree(self.folder)
        os.mkdir(self.folder)
        for words, given in [(["init"], b""), *commands, (["bookmark", "main", "0"], b""), (["phase", "0", "public"], b"")]:
            self.check(f"{words} lays the store", self.run(words, given)[0] == 0)
        shutil.copytree(self.folder, self.bases[name])

    def run(self, words, given=b""):
        try:
            ended = subprocess.run([self.program, *words], input=given, stdout=subprocess.PIPE, stderr=subprocess.DEVNULL, cwd=self.folder, timeout=MOST_SECONDS, check=False)
        except subprocess.TimeoutExpired:
            return "no end", b""
        return ended.returncode, ended.stdout

    def lay(self, base):
        shutil.rmtree(self.folder, ignore_errors=True)
        shutil.copytree(base, self.folder)

    def judge(self, words, given, what):
        """One run: its status, and whether its last line is one of that status."""
        status, said = self.run(words, given)
        self.met[f"{words[0]} {status}"] += 1
        last = said.removesuffix(b"\n").rpartition(b"\n")[2]
        known = status == 0 or status in self.forms and any(form.fullmatch(last) for form in self.forms[status])
        self.check(f"{words}: status {status}, {last}, {what}", known)
        # nothing here fails in the system, but that a file cannot be opened whose name in a damaged journal or list is no text
        self.check(f"{words}: the system failed, {status}, {what}", status not in (16, 17, 18, 19, 30) or words == ["recover"] and status in (16, 17))
        return status


def open_transaction(files):
    """What a stopped commit may leave beside these files."""
    logs = ["data/a.i", "data/new.i", "fncache", "00manifest.i", "00changelog.d"]
    old = {name: files.get("store/" + name, b"") for name in logs}
    texts = ("bookmarks", "dirstate")
    listed = b"2\n" + b"".join(b"plain\0%s\0journal.backup.%s\x000\n" % (name.encode(), name.encode()) for name in texts)
    return {
        **{"store/" + name: data + b"behind it" for name, data in old.items()},
        **{f"journal.backup.{name}": files[name] for name in texts},
        **{name: b"another text" for name in texts},
        "store/journal": b"".join(b"%s\0%d\n" % (name.encode(), len(data)) for name, data in old.items()),
        "store/journal.backupfiles": listed,
        "store/lock": b"me",
    }


def damaged(data, choice):
    """The bytes with one damage; nothing where the file is to go."""
    kind, place = choice.randrange(8), choice.randrange(len(data) + 1)
    if kind == 0:
        return data[:place]
    if kind == 1:
        return data + bytes(choice.randrange(256) for _ in range(choice.choice([1, 10, 64])))
    if kind == 2:
        return data[:place] + bytes(choice.randrange(1, 64)) + data[place + 32 :]
    if kind == 3:
        entry = 64 * (place // 64)
        return data[:entry] + data[entry + 64 : entry + 128] + data[entry : entry + 64] + data[entry + 128 :]
    if kind == 4 and choice.random() < 0.3:
        return None
    if kind == 5 and place < len(data):
        return data[:place] + bytes([data[place] ^ 1 << choice.randrange(8)]) + data[place + 1 :]
    return data[:place] + bytes([choice.randrange(256)]) + data[place + 1 :]


def damage_one(world, base, name, questions, command, choice):
    world.lay(world.bases[base])
    path = os.path.join(world.folder, ".hg", name)
    with open(path, "rb") as file:
        found = data = file.read()
    while data == found:
        data = damaged(found, choice)
    if data is None:
        os.remove(path)
    else:
        with open(path, "wb") as file:
            file.write(data)
    before, what = bytes_of(world.folder), f"{base} {name}"
    for words in questions:
        world.judge(words, b"", what)
        world.check(f"{words} changes a file, {what}", bytes_of(world.folder) == before)
    words, given = command
    status = world.judge(words, given, what)
    # recovering takes locks and leftovers away where there is no journal, and keeps the journal where it broke off
    if words == ["recover"] and status == 17:
        world.check(f"recover broke off, and no journal stands, {what}", "store/journal" in bytes_of(world.folder))
    elif status != 0 and not (words == ["recover"] and status == 1):
        world.check(f"{words}: refused with {status}, and changes a file, {what}", bytes_of(world.folder) == before)
    if words == ["recover"] and status in (0, 1):
        world.check(f"recover again, {what}", world.run(["recover"]) == (1, b"no interrupted transaction available\n"))


def damage_some(world, base, count, seed):
    """So many damages to one repository, whose files take turns, in a folder of its own."""
    choice, asked = random.Random(f"{seed} {base}"), itertools.cycle(QUESTIONS)
    commands = itertools.cycle([(["recover"], b"")] * 4 + COMMANDS[:3] if base == "open" else COMMANDS)
    names = itertools.cycle(sorted(bytes_of(world.bases[base])))
    for name in itertools.islice(names, count):
        world.files[name] += 1
        damage_one(world, base, name, list(itertools.islice(asked, 2)), next(commands), choice)


def main():
    damages = int(sys.argv[1]) if len(sys.argv) > 1 else 1000
    seed = int(sys.argv[2]) if len(sys.argv) > 2 else 1
    program = built_program()
    with tempfile.TemporaryDirectory() as work:
        world = World(program, work)
        worlds = {base: world.apart(base) for base in world.bases}
        with concurrent.futures.ThreadPoolExecutor(len(worlds)) as pool:
            tried = [pool.submit(damage_some, one, base, damages // len(worlds), seed) for base, one in worlds.items()]
            for one in tried:
                one.result()
        for one in worlds.values():
            world.add(one)
        print("files:", ", ".join(f"{name} {count}" for name, count in sorted(world.files.items())))
        print("answers:", ", ".join(f"{what} {count}" for what, count in sorted(world.met.items())))
        for name, status in map(str.split, sorted(world.met)):
            said = set().union(*(command.statuses for command in usages.commands_of_manual() if command.name == name))
            world.check(f"{name}: the manual has no status {status}", int(status) in said)
        print(f"{world.passed} passed, {world.failed} failed")
        sys.exit(world.failed > 0)


main()

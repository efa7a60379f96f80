#!/usr/bin/env python3
"""Random histories, by the program and by a second, simple implementation (`tests/plain_store.py`, `tests/plain_record.py`): each
command's status and text are the same, and then all files byte for byte, and the answers of questions.

    tests/histories.py [COMMANDS [SEED]]

2,000 commands where nothing is said: half of them in one history, the others in histories of 200. Commits with one parent, none or two,
from any changeset, on some branch, with files that are changed, removed, moved, copied, flagged and brought back, folders that are renamed,
and files of the other side of a merge; imports of some of these at once; phases and bookmarks; commands that are refused, for what they ask or for what stands in their way; and records
that are changed or cut. `verify` finds nothing at each look, and Mercurial, where it is there, nothing now and then. The statuses that
came are counted, and each that a history can have must have come. The last line is 'N passed, M failed' or 'N passed, M failed, K skipped'.
"""

import collections
import copy
import os
import random
import shutil
import subprocess
import sys
import tempfile

sys.dont_write_bytecode = True
from checks import Checks, built_program, bytes_of, lay
from plain_record import read_import, read_one
from plain_store import PHASES, REQUIRES, Refused, Store, store_name

NAMES = [b"a", b"b", b"README", b"Makefile", b".hgignore", b"x_y", b"long.name.txt", b"aux.c", b"lpt1", b" sp ace ", b"t.", b"caf\xc3\xa9", b"n" * 110]
FOLDERS = [b"", b"src/", b"src/lib.d/", b"Docs/", b"data.i/", b".conf/", b"src/deep/er/", b"x.hg/", b"NUL.x/", b"Long Folder. /" * 8]
# what stands for each that a whole run must have met; 21 and 22 would take two texts with one SHA-1
MET = {0, 10, 11, 12, 13, 14, 15, 20, 23, 24, 25, 26, 27, 28, 32, 34}
MOST = 1000  # changesets of one history
# the last three are about the greatest length of the first text of an inline filelog
BODIES = [b"", b"a\n", b"b\n", b"\0zero", b"\x01\nmarked", b"\x01\n", b"u", b"x" * 300, b"line\n" * 5, b"y" * 4096, b"z" * 4097, b"\x01\n" + b"m" * 4092]
MARKS = ["main", "stable", "a b", "-dash", "feature/x", "\u00fcn\u00ef"]


class Histories(Checks):
    def __init__(self, program, folder, seed):
        super().__init__()
        self.program, self.folder, self.random = program, folder, random.Random(seed)
        self.store, self.bodies, self.met = Store(), [], collections.Counter()
        # the words that this repository requires
        self.base = REQUIRES + self.random.choice([b"", b"generaldelta\n"])

    def run(self, words, given=b""):
        ended = subprocess.run([self.program, *words], input=given, stdout=subprocess.PIPE, stderr=subprocess.DEVNULL, cwd=self.folder, check=False)
        return ended.returncode, ended.stdout

    # ---- commands

    def some_name(self):
        count = len(self.store.trees)
        kinds = ["tip", ".", str(self.random.randrange(count + 2)), self.random.choice(MARKS), "null", "f" * 40]
        if count:
            kinds.append(self.store.changelog.nodes[self.random.randrange(count)].hex())
        return self.random.choices(kinds, [6, 6, 6, 3, 1, 1, 3][: len(kinds)])[0]

    def some_tree(self, parent, other=None):
        """The tree of a parent with some changes, among them files of the other parent; no path is a folder of another."""
        tree = {} if parent is None else dict(self.bodies[parent])
        if other is not None:
            tree.update((path, file) for path, file in self.bodies[other].items() if self.random.random() < 0.5)
        for _ in range(self.random.choice([0, 1, 1, 2, 3, 8])):
            self.change(tree)
        if self.random.random() < 0.1:
            tree = self.with_folder_renamed(tree)
        return tree

    def change(self, tree):
        path = self.random.choice(FOLDERS) + self.random.choice(NAMES)
        change = self.random.choice(["body", "body", "body", "remove", "flag", "move"])
        if change in ("remove", "move") and tree:
            moved = tree.pop(self.random.choice(sorted(tree)))
            if change == "move":
                tree[path] = moved
        elif change == "flag" and path in tree:
            tree[path] = (self.random.choice("-xl"), tree[path][1])
        elif change == "body":
            tree[path] = (self.random.choice("--x"), self.random.choice(BODIES))

    def with_folder_renamed(self, tree):
        """Each file below one folder stands below another; what stood there in its place is gone."""
        old, new = self.random.sample(FOLDERS[1:], 2)
        if new.startswith(old):
            return tree
        moved = {new + path[len(old) :]: file for path, file in tree.items() if path.startswith(old)}
        kept = {path: file for path, file in tree.items() if not path.startswith(old)}
        return {path: file for path, file in {**kept, **moved}.items() if len(path) < 200}

    def some_record(self, more=()):
        names = [self.some_name() for _ in range(self.random.choice([0, 1, 1, 1, 1, 2, 2]))] if self.store.trees else []
        known = [rev for rev in map(self.store.named, names) if rev is not None]
        tree = self.some_tree(*known[:2]) if known else self.some_tree(None)
        if self.bodies and self.random.random() < 0.05:
            tree = dict(self.random.choice(self.bodies))
        tree.update(more)
        user, date = self.random.choice([b"ada", b"Zo\xc3\xab <z@e>"]), self.random.choice([b"0 0", b"1 -3600", b"-2 50400"])
        phase, mark = self.random.choice(PHASES), self.random.choice([None, None, None, *MARKS])
        text = self.random.choice([b"", b"one", b"two\nlines", b"end\n"])
        record = b"commit\n" + b"".join(b"parent %s\n" % name.encode() for name in names) + b"user %s\ndate %s\n" % (user, date)
        record += b"phase %s\n" % phase.encode() if phase != "draft" or self.random.random() < 0.5 else b""
        record += b"bookmark %s\n" % mark.encode() if mark is not None else b""
        record += self.random.choice([b"", b"", b"", b"branch default\n", b"branch side\n", b"branch a b\n", b"branch tip\n"])
        record += b"desc %d\n%s\n" % (len(text), text)
        return record + b"".join(self.file_lines(*file) for file in self.with_sources(tree, known)) + b"end\n"

    def with_sources(self, tree, known):
        """The files, of which some of those that are new are copies of files of the first parent, and a few are so that they are refused."""
        above = [self.bodies[rev] for rev in known[:2]]
        for path, file in sorted(tree.items()):
            is_new = not any(path in files for files in above)
            copied = above and self.random.random() < (0.5 if is_new else 0.01)
            sources = sorted(above[0]) if above and self.random.random() < 0.97 else FOLDERS[1:2]
            yield path, file, self.random.choice(sources) if copied and sources else None

    @staticmethod
    def file_lines(path, file, source):
        line = b"" if source is None else b"copyfrom %s\n" % source
        return line + b"file %s %d %s\n%s\n" % (file[0].encode(), len(file[1]), path, file[1])

    def some_import(self):
        """Some records, each made over what those before it leave in the second store."""
        store, bodies = self.store, self.bodies
        self.store, self.bodies = copy.deepcopy(store), list(bodies)
        records = []
        for _ in range(self.random.randint(1, 4)):
            records.append(self.some_record())
            try:
                self.by_the_second([read_one(records[-1])])
            except Refused:
                pass
        self.store, self.bodies = store, bodies
        return b"".join(records) + b"end import\n"

    def by_the_second(self, changes):
        """What the second store answers."""
        changes = [([name.decode("utf-8", "surrogateescape") for name in names], *rest) for names, *rest in changes]
        said = self.store.commit(*changes[0]) if len(changes) == 1 else self.store.commit_all(changes)
        self.bodies += [{path: (flag, body) for path, (flag, body, _) in tree.items()} for _, tree, *_ in changes]
        return said

    def commit(self, record):
        """Of a record that may be no record: what the second reader makes of it is asked of the second store."""
        self.answer(["commit"], record, lambda: self.by_the_second([read_one(record)]))

    def commit_all(self, records):
        self.answer(["import"], records, lambda: self.by_the_second(read_import(records)))

    def damaged(self, record):
        """A record that is cut, or has another byte, or one more or less, or a length that no body may have."""
        place, kind = self.random.randrange(len(record)), self.random.randrange(5)
        byte = bytes([self.random.choice(b"\n 0123456789-xabc/.\xff\0")])
        if kind == 0:
            return record[:place]
        if kind == 4:
            return record.replace(b"end\n", b"file - %d zz\n" % self.random.choice([16_777_216, 16_777_217, 10**30]))
        return record[:place] + (byte if kind < 3 else b"") + record[place + (kind != 2) :]

    def damaged_one(self):
        if self.random.random() < 0.7:
            self.commit(self.damaged(self.some_record()))
        else:
            self.commit_all(self.damaged(self.some_import()))

    def step(self):
        kinds = {"commit": 12, "import": 3, "damaged": 2, "move": 4, "mark": 4, "unmark": 2, "obstacle": 3, "stray": 1, "question": 1, "words": 1}
        kind = self.random.choices(list(kinds), kinds.values())[0]
        if kind == "commit" and len(self.store.trees) < MOST:
            self.commit(self.some_record())
        elif kind == "import" and len(self.store.trees) < MOST:
            self.commit_all(self.some_import())
        elif kind == "damaged":
            self.damaged_one()
        elif kind in ("obstacle", "stray", "question", "words"):
            getattr(self, kind)()
        else:
            self.small(kind)

    def small(self, kind):
        """A command that is no commit."""
        name, mark, phase = self.some_name(), self.random.choice(MARKS), self.random.choice(PHASES)
        if kind == "mark":
            self.answer(["bookmark", "--", mark, name], b"", lambda: self.store.mark(mark, name))
        elif kind == "unmark":
            self.answer(["bookmark", "--delete", "--", mark], b"", lambda: self.store.unmark(mark))
        else:
            force = self.random.random() < 0.6
            words = ["phase", *(["--force"] if force else []), "--", name, phase]
            self.answer(words, b"", lambda: self.store.move(name, phase, force))

    def obstacle(self):
        """Something stands in the way of all that writes, or two things: it is refused, changes nothing, and is done once that is gone."""
        store, choice = self.store, self.random.choice([0, 1, 2, 3, 4, 5] if self.store.trees else [0, 1, 2, 4, 5])
        if choice == 0 or self.random.random() < 0.3:
            store.locks = {lock: self.random.choice([b"me", b"box:77", b"a b"]) for lock in self.random.choice([["wlock"], ["store/lock"], ["wlock", "store/lock"]])}
        if choice == 1 or choice == 3 and self.random.random() < 0.2:
            words = self.base
            store.requires = self.random.choice([words + b"treemanifest\n", b"revlogv2\n" + words, words.replace(b"store\n", b""), b"exp\n" + words.replace(b"fncache\n", b"")])
        elif choice == 2:
            store.requires = None
        if choice == 3:
            store.tail = b"\xff" * self.random.randrange(1, 64)
        elif choice == 4:
            store.is_open = True
        before = bytes_of(self.folder)
        opened = open_transaction(before, self.random) if store.is_open else {}
        self.lay({**self.store.files(), **opened})
        stands = bytes_of(self.folder)
        if choice == 5:
            self.answer(["init"], b"", store.init)
        self.small_or_commit_refused(choice)
        self.check("what is refused changes a file", bytes_of(self.folder) == stands)
        if store.is_open:
            self.check("recover", self.run(["recover"]) == (0, b"transaction undone\n"))
            self.check("what is undone is as before", bytes_of(self.folder) == before)
        store.locks, store.requires, store.tail, store.is_open = {}, self.base, b"", False
        self.lay(self.store.files())

    def small_or_commit_refused(self, choice):
        if choice != 5:
            self.random.choice([lambda: self.small("mark"), lambda: self.small("unmark"), lambda: self.small("move"), lambda: self.commit(self.some_record()), lambda: self.commit_all(self.some_import()), self.damaged_one])()

    def stray(self):
        """Files stand at names of new paths."""
        paths = [self.random.choice([b"new_%d", b"src/New%d", b"aux/%d"]) % self.random.randrange(10**6) for _ in range(self.random.choice([1, 1, 2]))]
        self.store.strays = {store_name(path, ext): b"of another" for path in paths for ext in self.random.choice([[b".i"], [b".d"], [b".i", b".d"]])}
        self.lay(self.store.files())
        self.commit(self.some_record({path: ("-", b"y" * self.random.choice([1, 4096, 4097])) for path in paths}.items()))
        self.store.strays = {}
        self.lay(self.store.files())

    def words(self):
        """Words that do not fit, and the place of the first."""
        words, place = self.random.choice([(["phase", "--", "0", "none"], 3), (["bookmark", "tip", "0"], 1), (["bookmark", "7", "0"], 1), (["cat", "0"], 2), (["log", "-r"], 1), (["nothing"], 0), (["phase", "--force", "0"], 3)])
        self.met[28] += 1
        self.check(f"{words}", self.run(words) == (28, b"abort: bad word %d\n" % place))

    def question(self):
        """A question that names what is not there."""
        name, path = self.some_name(), self.random.choice(FOLDERS) + self.random.choice(NAMES)
        rev = self.store.named(name)
        for words in (["files", "--", name], ["cat", "--", name, path.decode()], ["phase", "--", name]):
            if rev is None:
                want = (12, b"abort: unknown revision\n")
            elif words[0] == "files":
                want = (0, self.store.listing(rev))
            elif words[0] == "phase":
                want = (0, PHASES[self.store.phases[rev]].encode() + b"\n")
            else:
                want = (0, self.bodies[rev][path][1]) if path in self.bodies[rev] else (23, b"abort: unknown path\n")
            self.met[want[0]] += 1
            self.check(f"{words}: not {want}", self.run(words) == want)

    def lay(self, files):
        """Lays these files, and takes away those that are none of them."""
        for name in bytes_of(self.folder).keys() - {name for name, data in files.items() if data}:
            os.remove(os.path.join(self.folder, ".hg", name))
        now = bytes_of(self.folder)
        lay(self.folder, {name: data for name, data in files.items() if data and now.get(name) != data})

    def answer(self, words, given, command):
        try:
            want = (0, command() + "\n")
        except Refused as refused:
            want = (refused.status, refused.line + "\n")
        self.met[want[0]] += 1
        status, text = self.run(words, given)
        self.check(f"{words}: {status} {text}, not {want}\n{given[:600].decode(errors='replace')}", (status, text) == (want[0], want[1].encode()))
        return want[0] == 0

    # ---- looks

    def look(self):
        found = bytes_of(self.folder)
        want = self.store.files()
        want = {name: data for name, data in want.items() if data}
        self.check(f"files: {sorted(name for name in found.keys() | want.keys() if found.get(name) != want.get(name))}", found == want)
        for word, text in self.store.answers().items():
            self.check(f"{word} is not {text}", self.run([word]) == (0, text.encode()))
        clean = b"checked %d changesets, %d filelogs, 0 findings\n" % (len(self.store.trees), len({path for tree in self.bodies for path in tree}))
        said = self.run(["verify"])
        self.check(f"verify: {said}, not {clean}", said == (0, clean))
        if self.store.trees:
            rev = self.random.randrange(len(self.store.trees))
            self.check(f"files of {rev}", self.run(["files", str(rev)]) == (0, self.store.listing(rev)))
            self.check(f"phase of {rev}", self.run(["phase", str(rev)]) == (0, PHASES[self.store.phases[rev]].encode() + b"\n"))
            for path, (_, body) in self.random.sample(sorted(self.bodies[rev].items()), min(3, len(self.bodies[rev]))):
                self.check(f"body of {path} at {rev}", self.run(["cat", str(rev), path.decode()]) == (0, body))

    def look_by_mercurial(self):
        """`hg verify`, over a copy, since it writes caches."""
        if not shutil.which("hg"):
            self.skipped += 1
            return
        with tempfile.TemporaryDirectory() as copy:
            shutil.copytree(os.path.join(self.folder, ".hg"), os.path.join(copy, ".hg"))
            env = dict(os.environ, HGRCPATH="/dev/null", HGPLAIN="1")
            ended = subprocess.run(["hg", "verify", "--quiet"], cwd=copy, env=env, stdout=subprocess.PIPE, stderr=subprocess.STDOUT, check=False)
            self.check(f"hg verify: {ended.stdout}", (ended.returncode, ended.stdout) == (0, b""))


def open_transaction(files, choice):
    """What a stopped command may leave beside these files: some are longer, some have another text, and two lists say which."""
    logs = [name for name in files if name.startswith("store/") and name.endswith((".i", ".d", "fncache"))]
    logs = choice.sample(sorted(logs), min(len(logs), choice.randrange(4)))
    texts = choice.sample(["bookmarks", "dirstate"], choice.randrange(3))
    opened = {name: files[name] + bytes(choice.randrange(256) for _ in range(70)) for name in logs}
    listed = b"2\n"
    for name in texts:
        backup = f"journal.backup.{name}" if name in files else ""
        listed += b"plain\0%s\0%s\0000\n".replace(b"000", b"0") % (name.encode(), backup.encode())
        opened[name] = b"another text"
        if backup:
            opened[backup] = files[name]
    journal = b"".join(b"%s\0%d\n" % (name[len("store/") :].encode(), len(files[name])) for name in logs)
    # a line that was cut by the stop does not count
    return {**opened, "store/journal": journal + b"00manifest.i", "store/journal.backupfiles": listed}


def try_history(histories, commands):
    histories.check("init", histories.run(["init"]) == (0, b""))
    histories.store.requires = histories.base
    histories.lay(histories.store.files())
    for count in range(commands):
        histories.step()
        if count % 20 == 19 and not histories.failed:
            histories.look()
        if count % 200 == 199:
            histories.look_by_mercurial()
        if histories.failed:
            break


def main():
    commands = int(sys.argv[1]) if len(sys.argv) > 1 else 2000
    seed = int(sys.argv[2]) if len(sys.argv) > 2 else 1
    program, sums, met = built_program(), Checks(), collections.Counter()
    lengths = [commands // 2] + [200] * (commands // 400) if commands >= 800 else [commands]
    for number, length in enumerate(lengths):
        with tempfile.TemporaryDirectory() as folder:
            histories = Histories(program, folder, seed * 1000 + number)
            try_history(histories, length)
            sums.passed, sums.failed, sums.skipped = sums.passed + histories.passed, sums.failed + histories.failed, sums.skipped + histories.skipped
            met += histories.met
            print(f"{length} commands, {len(histories.store.trees)} changesets, {len(histories.store.filelogs)} filelogs")
    print("statuses:", ", ".join(f"{status} {count} times" for status, count in sorted(met.items())))
    if commands >= 2000:
        sums.check(f"statuses that did not come: {sorted(MET - met.keys())}", MET <= met.keys())
    print(sums)
    sys.exit(sums.failed > 0)


main()

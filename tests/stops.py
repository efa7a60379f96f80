#!/usr/bin/env python3
"""Stops the program at each of its calls that can change a file, makes each of its calls on files fail, and some of them two at a time; then
recovers and looks: the repository is as before or as after, which of both is known from the call, and nothing else.

A library of C (`tests/failing_calls.c`) stands between the program and the system. A write stops and fails with none of its bytes done, with one,
half, all but one and all of them. Each command runs over a copy of one small repository; what stands behind it has the bytes of the store before or of the
store after, and Mercurial, where it is there, finds nothing wrong with either. Of one commit each call has its row in a table: the status and
what stands. Then each call of the questions fails: the answer is the whole one, or a front of it and the line of the failure. Without a C
compiler all is skipped. The last line is 'N passed, M failed' or 'N passed, M failed, K skipped'.
"""

import concurrent.futures
import errno
import os
import re
import shutil
import subprocess
import sys
import tempfile

sys.dont_write_bytecode = True
from checks import Checks, built_program, built_shim, bytes_of, hint_of, lay
from stores import BEFORE, OPEN

WORKERS = 4
CHANGES = {"make", "write", "rename", "remove", "absent", "cut", "mkdir", "chmod", "sync"}
FOLDERS = {"", "store", "store/data"}
LOOSE = {"wlock", "store/lock"}
REPLACED = {"bookmarks", "dirstate", "store/phaseroots"}
JOURNAL = "store/journal"
LEFT_OVER = b"leftover files remain\n"
KILLED, PAUSED = 0, -1


class Call:
    """A call of a run: its number, name, file below .hg, how many bytes it writes, and how many it is given."""

    def __init__(self, line, before):
        number, self.name, length, path = line.rstrip("\n").split(" ", 3)
        self.number, self.length, self.given = int(number), int(length), 0
        self.path = path.removeprefix(".hg").removeprefix("/")
        # a folder is looked at for the mode of a file that was just made in it, and else for the folders that are to last
        if self.name == "look" and self.path in FOLDERS:
            self.name, self.path = ("mode", before.path) if before and before.name == "make" else ("folder", self.path)

    def __str__(self):
        return f"{self.name} {self.path}"

    def parts(self):
        """How many bytes may be done where it stops or fails."""
        return sorted({0, min(1, self.length), self.length // 2, max(self.length - 1, 0), self.length})


def failing(call, error=errno.EIO, done=0):
    return f"{call.number} {error} {done}"


class World(Checks):
    """The program, and a folder in which it runs."""

    def __init__(self, program, shim, work, name="run"):
        super().__init__()
        self.program, self.shim, self.work = program, shim, work
        self.folder = os.path.join(work, name)
        self.noted, self.input = (os.path.join(work, f"{name}.{end}") for end in ("calls", "input"))
        self.undone = self.stops = self.failures = 0

    def lay(self, base):
        shutil.rmtree(self.folder, ignore_errors=True)
        shutil.copytree(base, self.folder)

    def run(self, words, given=b"", *fails):
        is_stop = any(fail.split()[1] == str(KILLED) for fail in fails)
        self.stops += is_stop
        self.failures += bool(fails) and not is_stop
        return self.run_in(words, given, dict(os.environ, LD_PRELOAD=self.shim, CALLS_FAILING=",".join(fails)) if fails else None)

    def run_in(self, words, given, env):
        # a file, since a pipe gives what is in it in as many reads as its writer's moments make
        with open(self.input, "wb+") as source:
            source.write(given)
            source.seek(0)
            return subprocess.run([self.program, *words], stdin=source, stdout=subprocess.PIPE, stderr=subprocess.PIPE, cwd=self.folder, env=env, check=False)

    def note(self, base, words, given=b"", *fails):
        """Runs over this folder. How it ended, and its calls."""
        self.lay(base)
        if os.path.exists(self.noted):
            os.remove(self.noted)
        ended = self.run_in(words, given, dict(os.environ, LD_PRELOAD=self.shim, CALLS_NOTED=self.noted, CALLS_FAILING=",".join(fails)))
        return ended, self.noted_calls()

    def noted_calls(self):
        calls = []
        with open(self.noted, encoding="utf-8") as noted:
            for line in noted:
                call = Call(line, calls[-1] if calls else None)
                if call.name == "given":
                    calls[-1].given = call.length
                else:
                    calls.append(call)
        return calls

    def state(self):
        """The files with a byte, but the locks: names and contents."""
        return {path: data for path, data in bytes_of(self.folder).items() if path not in LOOSE}

    def names_beside(self, files):
        """The files that stand beside these: locks and such without a byte too, but for those that may as well be empty."""
        root = os.path.join(self.folder, ".hg")
        found = {os.path.relpath(os.path.join(above, name), root) for above, _, names in os.walk(root) for name in names}
        return found - REPLACED - set(files)

    def has_locks(self):
        return any(os.path.lexists(os.path.join(self.folder, ".hg", lock)) for lock in LOOSE)

    def has_journal(self):
        return os.path.lexists(os.path.join(self.folder, ".hg", JOURNAL))

    def save(self, name):
        kept = os.path.join(self.work, name)
        shutil.rmtree(kept, ignore_errors=True)
        shutil.copytree(self.folder, kept)
        return kept

    def mercurial(self, *words):
        """The status and what is written of a command of Mercurial's, none where there is no Mercurial."""
        if not shutil.which("hg"):
            self.skipped += 1
            return None
        env = dict(os.environ, HGRCPATH="/dev/null", HGPLAIN="1")
        ended = subprocess.run(["hg", *words], cwd=self.folder, env=env, stdout=subprocess.PIPE, stderr=subprocess.STDOUT, check=False)
        return ended.returncode, ended.stdout

    def is_right(self):
        """Whether Mercurial, where it is there, finds nothing wrong."""
        return self.mercurial("verify", "--quiet") in (None, (0, b""))

    def recovers_to(self, what, wanted):
        """Recovers: a transaction is undone exactly where a journal stood, these files stand, no lock does, and nothing is found in them."""
        journal = self.has_journal()
        said = answers(self, ["recover"])
        self.undone += said[0] == 0
        undone = (0, b"transaction undone\n") if journal else (1, b"no interrupted transaction available\n")
        self.check(f"{what}: recover says {said}", said == undone)
        self.check(f"{what}: other files stand, {sorted(self.state())}", self.state() == wanted)
        self.check(f"{what}: a lock stays", not self.has_locks())
        verified, found = answers(self, ["verify"])
        # before `init` there is nothing to be verified
        self.check(f"{what}: verify says {found}", verified == 24 and not wanted or found.endswith(b", 0 findings\n"))


def answers(world, words, given=b""):
    ended = world.run(words, given)
    return ended.returncode, ended.stdout


def record(text, body, **more):
    files = {"a": body, "d/b": b"b\n", **more}
    head = b"commit\nuser u\ndate 0 0\ndesc %d\n%s\n" % (len(text), text)
    return head + b"".join(b"file - %d %s\n%s\n" % (len(b), p.encode(), b) for p, b in sorted(files.items())) + b"end\n"


# ---- each stop and each failure of a command


def ends_at(calls, words):
    """The number of the call behind which the command is done: its journal is removed, or `requires` has its name."""
    last = "rename requires" if words == ["init"] else f"remove {JOURNAL}"
    return next(call.number for call in calls if str(call) == last)


def try_stops(world, base, words, given):
    """Each stop of a command. The folder as the last stop with an open transaction left it."""
    world.lay(base)
    states, lines, opened = [world.state()], [answers(world, ["log"])], None
    whole, calls = world.note(base, words, given)
    world.check(f"{words}: is done", whole.returncode == 0)
    world.check(f"{words}: what it leaves is right", world.is_right() and not world.has_locks())
    states.append(world.state())
    lines.append(answers(world, ["log"]))
    end, seen = ends_at(calls, words), 0
    for call, done in ((call, done) for call in calls if call.name in CHANGES for done in call.parts()):
        what = f"{words}, stopped at {call.number} {call} behind {done}"
        world.lay(base)
        ended = world.run(words, given, failing(call, KILLED, done))
        world.check(f"{what}: status {ended.returncode}", ended.returncode == -9)
        # before anybody recovers a reader sees the lines before or those after, and once these, always these
        said = answers(world, ["log"])
        world.check(f"{what}: a reader sees {said}", said in lines[seen:])
        seen = max(seen, lines.index(said)) if said in lines else seen
        if world.has_journal():
            opened = world.save(f"{os.path.basename(world.folder)}.open")
        world.recovers_to(what, states[call.number > end])
        world.check(f"{what}: another log", answers(world, ["log"]) == lines[call.number > end])
    return opened


def try_failures(world, base, words, given):
    """Each failure of a command."""
    world.lay(base)
    before, lines = world.state(), [answers(world, ["log"])]
    whole, calls = world.note(base, words, given)
    after = world.state()
    lines.append(answers(world, ["log"]))
    for call in calls:
        tries = [(errno.EIO, done) for done in call.parts()] + [(error, 0) for error in (errno.ENOSPC, errno.EINTR) if call.name in CHANGES]
        for error, done in tries:
            world.lay(base)
            ended = world.run(words, given, failing(call, error, done))
            what = f"{words}, {errno.errorcode[error]} at {call.number} {call} behind {done}"
            said = answers(world, ["log"])
            world.check(f"{what}: a reader sees {said}", said in lines_behind(ended, lines))
            judge(world, what, ended, whole, before, after)


def lines_behind(ended, lines):
    """What a reader may see behind a run that ended so, of the lines before and those after."""
    if ended.returncode == 17:
        published = re.search(rb"published (\w+)", ended.stdout)
        return {b"yes": lines[1:], b"no": lines[:1]}.get(published and published[1], lines)
    return lines[1:] if ended.returncode in (0, 19) else lines[:1]


def judge(world, what, ended, whole, before, after):
    """The answer of a run in which a call failed: that of the whole run, or a refusal; and what stands."""
    status, said, state = ended.returncode, ended.stdout, world.state()
    swept, said = not said.endswith(LEFT_OVER), said.removesuffix(LEFT_OVER)
    wanted = {
        0: (whole.stdout, after),
        16: (b"abort: file operation failed\n", before),
        18: (b"abort: input failed\n", before),
        19: (b"", after),
    }
    if status == 17:
        world.check(f"{what}: says {said}", re.fullmatch(rb"abort: transaction unfinished \(published (yes|no|unknown)\)\n", said))
        world.recovers_to(what, before)
        return
    if status not in wanted:
        world.check(f"{what}: status {status}", False)
        return
    text, stands = wanted[status]
    world.check(f"{what}: says {said}", said == text or status == 19)
    if swept:
        # of `init` its new text may be left, as docs/ANSWERS.md says
        kept = {path: data for path, data in state.items() if stands or path != "journal.new.requires"}
        world.check(f"{what}: status {status}, and other files stand, {sorted(state)}", kept == stands and not world.has_locks())
        world.check(f"{what}: empty files stand, {world.names_beside(state)}", not world.names_beside(state))
    else:
        # what cannot be removed keeps no other
        world.check(f"{what}: left over are {world.names_beside(stands)}", len(world.names_beside(stands)) <= 1)
    if not swept or state != stands:
        world.recovers_to(what, stands)


def try_recovery(world, opened, before):
    """Each stop and each failure of a recovery, and the recovery behind it. First come the calls whose failure leaves all as it is, then those that undo,
    then those that sweep."""
    _, calls = world.note(opened, ["recover"])
    ends = []
    for call in calls:
        for done in call.parts():
            what = f"recover at {call.number} {call} behind {done}"
            if call.name in CHANGES:
                world.lay(opened)
                world.check(f"{what}: stopped", world.run(["recover"], b"", failing(call, KILLED, done)).returncode == -9)
                world.recovers_to(f"{what}, stopped", before)
            world.lay(opened)
            status, said = (ended := world.run(["recover"], b"", failing(call, errno.EIO, done))).returncode, ended.stdout
            lines = {0: b"transaction undone\n", 16: b"abort: file operation failed\n", 17: b"abort: recovery unfinished\n", 19: b""}
            world.check(f"{what} fails: {status}, {said}", status in lines and (status == 19 or said.removesuffix(LEFT_OVER) == lines[status]))
            world.check(f"{what} fails: {status}, and a journal", world.has_journal() == (status in (16, 17)))
            is_left = said.endswith(LEFT_OVER)
            world.check(f"{what} fails: left over are {world.names_beside(before)}", not is_left or len(world.names_beside(before)) <= 1)
            ends += [("l" if is_left else "f")] if status in (0, 16) and (status or is_left) else ["u"] if status == 17 else []
            world.recovers_to(f"{what} fails", before)
    world.check(f"the ends of recovering: {''.join(ends)}", re.fullmatch("f+u+l+", "".join(ends)))


def try_by_hand(world):
    """A transaction that was left open, laid by hand, with a backup that takes its file's place and a file that was not there: each call of its recovery stops and
    fails. Then a stray that cannot be removed where nothing is open."""
    shutil.rmtree(world.folder, ignore_errors=True)
    lay(world.folder, OPEN)
    opened = world.save("by_hand")
    _, calls = world.note(opened, ["recover"])
    world.check("the transaction by hand is undone", world.state() == BEFORE)
    for call in calls:
        for error in (KILLED, errno.EIO) if call.name in CHANGES else (errno.EIO,):
            for done in call.parts():
                world.lay(opened)
                world.run(["recover"], b"", failing(call, error, done))
                world.run(["recover"])
                what = f"by hand, {call.number} {call} behind {done} with {error}"
                world.check(f"{what}: other files stand, {sorted(world.state())}", world.state() == BEFORE and not world.has_locks())
    stray = "journal.backup.dirstate"
    shutil.rmtree(world.folder, ignore_errors=True)
    lay(world.folder, {**BEFORE, stray: b"x"})
    left = world.save("stray")
    _, calls = world.note(left, ["recover"])
    world.lay(left)
    ended = world.run(["recover"], b"", failing(next(call for call in calls if str(call) == f"remove {stray}")))
    world.check(f"a stray that stays: {ended.stdout}", (ended.returncode, ended.stdout) == (1, b"no interrupted transaction available\n" + LEFT_OVER))


def try_each_recovery(world, base, before):
    """Of the second commit each stop that leaves something, behind one byte of a write; then each stop of the recovery behind it."""
    _, calls = world.note(base, ["commit"], NEXT)
    for call in (call for call in calls if call.name in CHANGES and call.path != "output"):
        world.lay(base)
        world.run(["commit"], NEXT, failing(call, KILLED, min(1, call.length)))
        if not world.has_journal():
            continue
        left = world.save(f"{os.path.basename(world.folder)}.left")
        _, undoing = world.note(left, ["recover"])
        for second in (second for second in undoing if second.name in CHANGES and second.path != "output"):
            world.lay(left)
            what = f"stopped at {call.number} {call}, and its recovery at {second.number} {second}"
            world.check(f"{what}: is called", world.run(["recover"], b"", failing(second, KILLED)).returncode == -9)
            world.recovers_to(what, before)


# ---- each failure of one commit, by its kind

# Two commits, each of a file, and the files that the first one's transaction leaves to undo it.
NEW = b"commit\nuser test\ndate 0 0\ndesc 1\na\nfile - 2 a\na\n\nend\n"
NEXT = b"commit\nparent tip\nuser test\ndate 60 0\ndesc 1\nb\nfile - 2 a\na\n\nfile - 2 b\nb\n\nend\n"
NEW_JOURNAL = b"".join(name + b"\x000\n" for name in b"data/a.i fncache 00manifest.d 00manifest.i 00changelog.d 00changelog.i".split())
NEW_BACKUPS = b"2\n\0phaseroots\0\x000\nplain\0dirstate\0\x000\n"
NEW_LINE = b"0\tcb9a9f314b8b07ba71012fcdbc544b5a4d82ff5b\t-1\t-1\t0\t0\ttest\ta\n"
NEXT_ANSWER = b"1:37bdf19219c0e69b87d6371fabfaf5c3a63794d9\n"

UNDONE = 16, b"abort: file operation failed\n"
DONE = 0, NEXT_ANSWER
LEAVES = 0, NEXT_ANSWER + LEFT_OVER


def unfinished(published):
    return 17, b"abort: transaction unfinished (published %s)\n" % published


# What fails in the second commit: its calls, how the commit ends, and what stands: all as before, all as after, the same but that something is left
# over, or the journal, which keeps other writers away and which `recover` undoes.
FAILURES = [
    ("the input", r"read input", (18, b"abort: input failed\n"), "before"),
    ("the question whether a repository stands, or the read of `requires`", r"(look|open|read) requires", UNDONE, "before"),
    ("the creation of a lock", r"(make|mode|look|write) (wlock|store/lock)", UNDONE, "before"),
    ("the question for the length of the journal", r"(look|readlink) store/journal", UNDONE, "before"),
    ("a read of the loading", r"(look|readlink|open|read|seek) (bookmarks|dirstate|store/(phaseroots|fncache|00(changelog|manifest)\.[id]|data/[ab]\.i))", UNDONE, "before"),
    ("the put of a backup, of a new text, of the list of backups or of the journal's text", r"(look|readlink|make|mode|write) (journal\.(backup|new)\.dirstate|store/journal\.(backupfiles|new\.journal))", UNDONE, "before"),
    ("the rename that gives the journal its name", r"rename store/journal", UNDONE, "before"),
    ("an append to a filelog, the list of filelogs, the manifest or the data of the changelog", r"(look|readlink|make|mode|write) store/(data/b\.i|fncache|00manifest\.[di]|00changelog\.d)", UNDONE, "before"),
    ("the append to the changelog's index, the last byte not done", r"(make|write) store/00changelog\.i", UNDONE, "before"),
    ("the same, all bytes done", r"write store/00changelog\.i whole", DONE, "after"),
    ("the rename of dirstate", r"rename dirstate", unfinished(b"yes"), "journal"),
    ("the removal of the journal", r"remove store/journal", unfinished(b"yes"), "journal"),
    ("the removal of a stray that was written", r"(remove|absent) (store/journal\.(backupfiles|new\.journal)|journal\.(backup|new)\.dirstate)", LEAVES, "left"),
    ("the question for a stray that was not written", r"(look|readlink) (store/journal\.(backup|new)\.phaseroots|journal\.(backup|new)\.bookmarks|journal\.new\.requires|store/00changelog\.i\.a)", LEAVES, "left"),
    ("the removal of a lock", r"remove (store/lock|wlock)", LEAVES, "left"),
    ("the answer", r"write output", (19, None), "after"),
    # what the commit does without: whether it makes a repository, folders that would be made to last, and the copy of a file with two names that a stop left
    ("the look at `requires` ahead of each command", r"look ahead", DONE, "after"),
    ("a look at a folder", r"folder .*", DONE, "after"),
    ("the removal of a copy", r"absent .*\.hg_store-copy", DONE, "after"),
]


def kind_of(call, done):
    """Its row in the table."""
    label = "look ahead" if call.number == 1 else f"{call} whole" if call.length and done == call.length and call.path == "store/00changelog.i" else str(call)
    return next((row for row in FAILURES if re.fullmatch(row[1], label)), None)


def try_each_kind(world, base, before, after):
    """Each call of the second commit fails, a write behind none, some and all of its bytes: the table is whole, and each row of it is met."""
    met = set()
    _, calls = world.note(base, ["commit"], NEXT)
    for call in calls:
        for done in call.parts():
            row = kind_of(call, done)
            world.check(f"{call.number} {call}: has no row", row is not None)
            if row is None:
                continue
            met.add(row[0])
            world.lay(base)
            ended = world.run(["commit"], NEXT, failing(call, errno.EIO, done))
            what = f"{row[0]}: {call.number} {call} behind {done}"
            status, text = row[2]
            world.check(f"{what}: {ended.returncode}, {ended.stdout}", ended.returncode == status and (text is None or ended.stdout == text))
            world.check(f"{what}: tells {ended.stderr}", ended.stderr.endswith(hint_of(status)))
            try_standing(world, what, row[3], before, after)
    world.check(f"rows that no call has: {[row[0] for row in FAILURES if row[0] not in met]}", len(met) == len(FAILURES))


def try_standing(world, what, stands, before, after):
    """What stands behind a failure, by its row."""
    state = world.state()
    if stands == "journal":
        world.check(f"{what}: no journal", JOURNAL in state and not world.has_locks())
        world.check(f"{what}: the next is not turned away", answers(world, ["commit"], NEXT) == (11, b"abort: abandoned transaction found\n"))
        world.recovers_to(what, before)
    elif stands == "left":
        world.check(f"{what}: other files stand", all(state.get(path) == data for path, data in after.items()))
        world.recovers_to(what, after)
    else:
        world.check(f"{what}: other files stand, {sorted(state)}", state == {"before": before, "after": after}[stands] and not world.has_locks())


# Two calls that fail in one commit, the second the first call of its kind behind the first; and how the commit ends. The journal stands.
DOUBLES = [
    ("write store/00changelog.i", 64, "look store/00changelog.i", unfinished(b"unknown")),
    ("write store/00manifest.d", 0, "look store/00changelog.i", unfinished(b"no")),
    ("write store/00manifest.d", 0, "cut store/fncache", unfinished(b"no")),
    ("write store/00changelog.d", 55, "cut store/00manifest.d", unfinished(b"no")),
    ("write store/data/b.i", 1, "remove store/data/b.i", unfinished(b"no")),
    ("write store/00changelog.i", 63, "rename dirstate", unfinished(b"no")),
    ("write store/fncache", 9, "remove store/journal", unfinished(b"no")),
    ("write store/fncache", 0, "remove store/lock", (16, UNDONE[1] + LEFT_OVER)),
]


def second_calls(world, base, first):
    """The calls that the second commit makes behind this failure."""
    _, calls = world.note(base, ["commit"], NEXT, first)
    return calls[int(first.split()[0]) :]


def try_doubles(world, base, before):
    """The pairs of the table; then each write of the second commit with each call behind it that changes a file."""
    _, calls = world.note(base, ["commit"], NEXT)
    for first_kind, done, second_kind, wanted in DOUBLES:
        what = f"{first_kind} behind {done}, and {second_kind}"
        first = failing(next(call for call in calls if str(call) == first_kind), errno.EIO, done)
        second = next((call for call in second_calls(world, base, first) if str(call) == second_kind), None)
        world.check(f"{what}: is not called", second is not None)
        if second is None:
            continue
        world.lay(base)
        ended = world.run(["commit"], NEXT, first, failing(second))
        world.check(f"{what}: {ended.returncode}, {ended.stdout}", (ended.returncode, ended.stdout) == wanted and ended.stderr.endswith(hint_of(wanted[0])))
        world.check(f"{what}: a journal", world.has_journal() == (wanted[0] == 17))
        world.recovers_to(what, before)
    for call in calls:
        if call.name != "write" or call.path == "output":
            continue
        first = failing(call)
        for second in second_calls(world, base, first):
            if second.name in CHANGES and second.path != "output":
                world.lay(base)
                ended = world.run(["commit"], NEXT, first, failing(second))
                what = f"{call.number} {call}, and {second.number} {second}"
                is_fault = (ended.returncode, ended.stdout.removesuffix(LEFT_OVER)) == UNDONE
                world.check(f"{what}: {ended.returncode}, {ended.stdout}", is_fault or (ended.returncode, ended.stdout.removesuffix(LEFT_OVER)) == unfinished(b"no"))
                world.recovers_to(what, before)


# ---- what commands answer behind a stop


def stopped(world, base, words, given, kind):
    """Leaves the folder as the command does that is stopped before its first call of this kind; gives that call."""
    _, calls = world.note(base, words, given)
    call = next(call for call in calls if str(call) == kind)
    world.lay(base)
    world.run(words, given, failing(call, KILLED))
    return call


# The calls that change a file, of a first commit and of a bookmark that is set where bookmarks stand; and those of the recovery where the journal was not
# removed yet. Strays that are absent are not shown.
FIRST_CALLS = """make wlock, make store/lock, make store/journal.new.phaseroots, make journal.new.dirstate, make store/journal.backupfiles,
make store/journal.new.journal, rename store/journal, make store/data/a.i, mkdir store/data, make store/data/a.i, make store/fncache,
make store/00manifest.d, make store/00manifest.i, make store/00changelog.d, rename store/phaseroots, make store/00changelog.i,
rename dirstate, remove store/journal, remove store/journal.backupfiles, remove store/lock, remove wlock"""
FIRST_UNDONE = """remove store/00changelog.i, remove store/00changelog.d, remove store/00manifest.i, remove store/00manifest.d, remove store/fncache,
remove store/data/a.i, remove store/phaseroots, remove dirstate, remove store/journal, remove store/journal.backupfiles, remove store/lock, remove wlock"""
MARK_CALLS = """make wlock, make store/lock, make journal.backup.bookmarks, make journal.new.bookmarks, make store/journal.backupfiles,
make store/journal.new.journal, rename store/journal, rename bookmarks, remove store/journal, remove store/journal.backupfiles,
remove journal.backup.bookmarks, remove store/lock, remove wlock"""
MARK_UNDONE = """make journal.new.bookmarks, rename bookmarks, remove store/journal, remove store/journal.backupfiles, remove journal.backup.bookmarks,
remove store/lock, remove wlock"""


def changing(calls):
    return [str(call) for call in calls if call.name in ("make", "mkdir", "rename", "remove", "cut")]


def try_order(world, empty, one):
    """The two transactions, call by call."""
    world.lay(empty)
    world.run(["init"])
    new = world.save("fresh")
    world.lay(one)
    world.run(["bookmark", "old", "0"])
    marked = world.save("marked")
    for base, words, given, wanted, undone in ((new, ["commit"], NEW, FIRST_CALLS, FIRST_UNDONE), (marked, ["bookmark", "new", "0"], b"", MARK_CALLS, MARK_UNDONE)):
        _, calls = world.note(base, words, given)
        world.check(f"{words} calls {changing(calls)}", changing(calls) == re.split(r",\s", wanted))
        stopped(world, base, words, given, f"remove {JOURNAL}")
        _, calls = world.note(world.save("unfinished"), ["recover"])
        world.check(f"{words} is undone by {changing(calls)}", changing(calls) == re.split(r",\s", undone))


def hinted(ended):
    """The command that the hint of a refusal names first."""
    return re.search(rb"`hg_store ([^`]*)`", ended.stderr)[1].decode().split()


def try_hints(world, base, before):
    """Whatever is left behind, the command that the next refusal's hint names sets right, as it stands there."""
    first, second = (next(row for row in DOUBLES if row[3][0] == 17)[place] for place in (0, 2))
    for what, status in (("the locks and no journal", 10), ("the locks and the journal", 10), ("the journal alone", 11), ("an unfinished transaction", 17)):
        if status == 17:
            _, calls = world.note(base, ["commit"], NEXT)
            fail = failing(next(call for call in calls if str(call) == first), errno.EIO, 64)
            again = failing(next(call for call in second_calls(world, base, fail) if str(call) == second))
            world.lay(base)
            ended = world.run(["commit"], NEXT, fail, again)
        else:
            stopped(world, base, ["commit"], NEXT, "rename store/journal" if "no journal" in what else "rename dirstate")
            for lock in LOOSE if status == 11 else ():
                os.remove(os.path.join(world.folder, ".hg", lock))
            ended = world.run(["commit"], NEXT)
        world.check(f"{what}: {ended.returncode}, {ended.stderr}", ended.returncode == status and hinted(ended) == ["recover"])
        ended = world.run(hinted(ended))
        world.check(f"{what}: then {ended.stdout}", ended.returncode in (0, 1) and world.state() == before and not world.has_locks())
        world.check(f"{what}: and then the commit", answers(world, ["commit"], NEXT) == DONE)


def try_answers(world, empty):
    """What each command writes behind a stop; gives the store of one commit, and the files of both."""
    world.lay(empty)
    world.run(["init"])
    new = world.save("new")
    stopped(world, new, ["commit"], NEW, "rename dirstate")
    stand = world.state()
    world.check("the journal of a first commit", stand.get(JOURNAL) == NEW_JOURNAL)
    world.check("the list of its backups", stand.get("store/journal.backupfiles") == NEW_BACKUPS)
    # its last line cut by its LF: that file is not named, and so not removed
    lay(world.folder, {JOURNAL: NEW_JOURNAL[:-1]})
    world.check("a journal whose last line is cut is undone", answers(world, ["recover"]) == (0, b"transaction undone\n"))
    index = "store/00changelog.i"
    world.check("but for the file of that line", world.state() == {"requires": stand["requires"], index: stand[index]})
    world.lay(new)
    world.check("a first commit", answers(world, ["commit"], NEW)[0] == 0 and answers(world, ["log"]) == (0, NEW_LINE))
    one, before = world.save("one"), world.state()

    stopped(world, one, ["commit"], NEXT, "rename dirstate")
    two_lines = answers(world, ["log"])
    world.check("a published entry is read", two_lines[0] == 0 and two_lines[1].count(b"\n") == 2 and two_lines[1].endswith(NEW_LINE))
    world.check("the stopped writer's lock is held", answers(world, ["commit"], NEXT) == (10, b"abort: lock held by hg-store\n"))
    world.check("the transaction is undone", answers(world, ["recover"]) == (0, b"transaction undone\n"))
    world.check("its changeset is gone", answers(world, ["log"]) == (0, NEW_LINE) and world.state() == before)

    stopped(world, one, ["commit"], NEXT, f"remove {JOURNAL}")
    open_one = world.save("open")
    _, calls = world.note(open_one, ["recover"])
    cuts = [call for call in calls if call.name == "cut"]
    world.lay(open_one)
    world.run(["recover"], b"", failing(cuts[1], KILLED))
    world.check("a recovery that was stopped behind its first cut is begun again", answers(world, ["recover"]) == (0, b"transaction undone\n"))
    world.check("and then there is nothing to undo", answers(world, ["recover"]) == (1, b"no interrupted transaction available\n"))
    world.check("all is as before", world.state() == before)
    try_hints(world, one, before)
    world.lay(one)
    world.check("the second commit", answers(world, ["commit"], NEXT) == (0, NEXT_ANSWER))
    return one, before, world.state()


def try_taken_back(world, empty):
    """Behind a commit of one empty file, one that adds a file with data of its own, whose append to the manifest fails."""
    world.lay(empty)
    world.run(["init"])
    world.run(["commit"], b"commit\nuser test\ndate 0 0\ndesc 1\na\nfile - 0 e\n\nend\n")
    base, before = world.save("empty_file"), world.state()
    world.check("an empty file has an entry alone", before["store/data/e.i"][32:52].hex() == "b80de5d138758541c5f05265ad144ab9fa86d1db" and len(before["store/data/e.i"]) == 64)
    given = b"commit\nparent tip\nuser test\ndate 60 0\ndesc 1\nb\nfile - 0 e\n\nfile - 4097 f\n%s\nend\n" % (b"f" * 4097)
    _, calls = world.note(base, ["commit"], given)
    world.check("the data of a file that is added", len(world.state()["store/data/f.d"]) == 4098)
    world.lay(base)
    ended = world.run(["commit"], given, failing(next(call for call in calls if str(call) == "write store/00manifest.d")))
    world.check("the append to the manifest fails", (ended.returncode, ended.stdout) == UNDONE)
    stand = [name for name in ("f.i", "f.d") if os.path.lexists(os.path.join(world.folder, ".hg/store/data", name))]
    world.check(f"of the file that was added stand {stand}", not stand and world.state() == before)
    world.check("nothing is found behind it", answers(world, ["verify"]) == (0, b"checked 1 changesets, 1 filelogs, 0 findings\n"))


# ---- questions

QUESTIONS = [["log"], ["heads"], ["bookmarks"], ["parents"], ["files", "tip"], ["cat", "tip", "d/b"], ["phase", "tip"], ["revset", "all()"], ["branches"], ["verify"]]


def try_question(world, base, words):
    """Each call fails: the answer is the whole one, or the line of the failure behind a front of it. No file is changed."""
    whole, calls = world.note(base, words)
    before = world.state()
    world.check(f"{words}: is answered", whole.returncode == 0 and not any(call.name in CHANGES for call in calls if call.path != "output"))
    for call in calls:
        ended = world.run(words, b"", failing(call))
        status, said = ended.returncode, ended.stdout
        front = said.removesuffix(UNDONE[1])
        is_known = status == 0 and said == whole.stdout or status == 16 and said != front and whole.stdout.startswith(front) or status == 19 and whole.stdout.startswith(said)
        # a look at a folder, and what is asked ahead of each command, is done without
        is_known &= status == {"read": 16, "write": 19}.get(call.name, status)
        world.check(f"{words}, {call.number} {call} fails: {status}, {said}", is_known and ended.stderr.endswith(hint_of(status)))
    world.check(f"{words} changes a file", world.state() == before)


# ---- whether no call is missed

def try_strace(world, base):
    """Where `strace` is there, it sees the same calls as the library does."""
    if not shutil.which("strace"):
        world.skipped += 1
        return
    _, calls = world.note(base, ["commit"], NEXT)
    noted = [str(call) for call in calls if call.name in ("make", "rename", "remove", "absent")]
    world.lay(base)
    words = ["strace", "-f", "-qq", "-o", world.noted, "-e", "trace=open,openat,creat,rename,renameat,renameat2,unlink,unlinkat,mkdir,mkdirat,ftruncate,truncate,link,linkat,pwrite64", world.program, "commit"]
    subprocess.run(words, input=NEXT, stdout=subprocess.DEVNULL, cwd=world.folder, check=True)
    seen = []
    with open(world.noted, encoding="utf-8") as trace:
        for line in trace:
            if '".hg' in line and "O_RDONLY" not in line:
                name, path, to = re.match(r'(?:\d+ +)?(\w+)\((?:AT_FDCWD, )?"\.hg/([^"]*)"(?:, "\.hg/([^"]*)")?', line).groups()
                seen.append(f"{ {'openat': 'make', 'unlink': 'absent' if 'ENOENT' in line else 'remove'}.get(name, name)} {to or path}")
    world.check(f"strace sees {seen}, noted are {noted}", seen == noted)


def bases(world):
    """A folder without a repository, and one with a small repository."""
    empty = os.path.join(world.work, "empty")
    os.mkdir(empty)
    world.lay(empty)
    for words, given in ((["init"], b""), (["commit"], record(b"first", b"one\n")), (["bookmark", "main", "0"], b"")):
        world.run(words, given)
    return empty, world.save("base")


def try_command(world, base, words, given):
    """A command, and of one that has a long transaction the recovery too."""
    opened = try_stops(world, base, words, given)
    try_failures(world, base, words, given)
    if words[0] in ("commit", "import"):
        world.lay(base)
        try_recovery(world, opened, world.state())


def main():
    if not shutil.which("cc"):
        print("0 passed, 0 failed, 1 skipped")
        return False
    with tempfile.TemporaryDirectory() as work:
        program, shim = built_program(), built_shim(work, "failing_calls")
        first = World(program, shim, work)
        empty, base = bases(first)
        one, before, after = try_answers(first, empty)
        try_taken_back(first, empty)
        try_order(first, empty, one)
        # with a new inline filelog and a new separate one
        second = record(b"second", b"two\n", e=b"", f=b"f" * 4097)
        tries = [
            (try_command, base, ["import"], second + record(b"third", b"three\n", g=b"g") + b"end import\n"),
            (try_command, base, ["commit"], second),
            (try_doubles, one, before),
            (try_each_recovery, one, before),
            (try_by_hand,),
            (try_stops, one, ["commit"], NEXT),
            (try_each_kind, one, before, after),
            (try_strace, one),
            (try_command, empty, ["init"], b""),
            *((try_command, base, words, b"") for words in (["phase", "0", "public"], ["bookmark", "other", "0"], ["bookmark", "--delete", "main"])),
            *((try_question, base, words) for words in QUESTIONS),
        ]
        worlds = [World(program, shim, work, f"run{number}") for number in range(len(tries))]
        with concurrent.futures.ThreadPoolExecutor(WORKERS) as pool:
            for done in [pool.submit(what, world, *rest) for world, (what, *rest) in zip(worlds, tries)]:
                done.result()
        for world in worlds:
            first.passed, first.failed, first.skipped = first.passed + world.passed, first.failed + world.failed, first.skipped + world.skipped
        stops, failures, undone = (sum(getattr(world, name) for world in worlds) for name in ("stops", "failures", "undone"))
        print(f"{stops} stops, {failures} runs with a failure or two, {undone} transactions undone by recover")
    first.passed -= first.skipped
    print(first)
    return first.failed != 0


if __name__ == "__main__":
    sys.exit(main())

#!/usr/bin/env python3
"""Every command where the system gives little: address space, length of files, open files, a full disk, a disk without room for a
further name, standard streams that are closed, full, no stream, or whose other end has gone; and, with --growths, alone, every command with
one allocation refused: the first, the second and so on, until a run asks for fewer.

    tests/limits.py [--growths]

Each command runs over a copy of one small repository, or of the same with a transaction that was left open, or over nothing. It must
end with a status of docs/ANSWERS.md and the line of that status; a question changes no file; a refused command leaves what stood
before; what was answered stays; no lock is left but where the line says so; and behind `recover` stands the repository of before or
of after, in which `verify` finds nothing. Where the process itself could not be started, or the system killed it for the length of a
file, nothing is asked of the status; these are counted apart. The last line is 'N passed, M failed', behind the counts.
"""

import collections
import concurrent.futures
import itertools
import os
import re
import shutil
import subprocess
import sys
import tempfile
import threading

sys.dont_write_bytecode = True
from checks import Checks, built_program, built_shim, bytes_of, lay

WORKERS = 4
REFUSALS = {
    1: rb"no interrupted transaction available",
    10: rb"abort: lock held by hg-store",
    15: rb"abort: damaged .*",
    16: rb"abort: file operation failed",
    17: rb"abort: (transaction unfinished \(published (yes|no|unknown)\)|recovery unfinished)",
    18: rb"abort: input failed",
    29: rb"findings [0-9]+",
    30: rb"abort: out of memory",
}
LEFT_OVER = b"leftover files remain"
LOCKS = ("wlock", "store/lock")
GENERATED = 5  # the changesets of `gen`
KILLED_BY_LENGTH = -25  # by SIGXFSZ


def record(text, parent=None, **files):
    head = b"commit\n" + (b"parent %s\n" % parent if parent else b"")
    head += b"user u\ndate 0 0\nbookmark last\ndesc %d\n%s\n" % (len(text), text)
    return head + b"".join(b"file - %d %s\n%s\n" % (len(body), path.replace("_", "/").encode(), body) for path, body in sorted(files.items())) + b"end\n"


SECOND = record(b"two", b"tip", a=b"a\n", d_b=b"b\n" * 20)
# with a new inline filelog and a new separate one
GIVEN = record(b"three", b"tip", a=b"a new body\n", d_b=b"b\n", e=b"e\n", f=b"f" * 4097)
SCHEDULE = b"play 1\nbegin commit\n" + record(b"one", a=b"a\n") + b"finish\nload 0\nlog 0\ncat 0 tip a\nend\n"

# What changes files: a name, the words, the input, and what the command runs over.
COMMANDS = {
    "init": (["init"], b"", "empty"),
    "gen": (["gen", "7", str(GENERATED)], b"", "empty"),
    "commit": (["commit"], GIVEN, "whole"),
    "phase --force": (["phase", "--force", "0", "secret"], b"", "whole"),
    "bookmark": (["bookmark", "new", "0"], b"", "whole"),
    "bookmark --delete": (["bookmark", "--delete", "last"], b"", "whole"),
    "recover": (["recover"], b"", "open"),
    "recover nothing": (["recover"], b"", "whole"),
}
QUESTIONS = {
    "log": (["log"], b"", "whole"),
    "heads": (["heads"], b"", "whole"),
    "files": (["files", "tip"], b"", "whole"),
    "cat": (["cat", "tip", "d/b"], b"", "whole"),
    "bookmarks": (["bookmarks"], b"", "whole"),
    "parents": (["parents"], b"", "whole"),
    "phase": (["phase", "tip"], b"", "whole"),
    "verify": (["verify"], b"", "whole"),
    "verify --jobs 4": (["verify", "--jobs", "4"], b"", "whole"),
    "play": (["play"], SCHEDULE, "empty"),
}
ALL = {**COMMANDS, **QUESTIONS}


class Limit:
    """A way to run a command: what a shell says before it, and how its streams stand."""

    def __init__(self, name, shell="", closed="", given=None, killed=False):
        self.name, self.shell, self.closed, self.given, self.killed = name, shell, closed, given, killed

    def run(self, program, words, given, folder):
        """Status, standard output and standard error. A run that hangs is an error of its own."""
        line = f'{self.shell or "exec "}"$0" "$@" {self.closed}'
        if "gone" in self.closed:
            return self.run_into_gone(program, words, given, folder)
        source = {"input": given} if self.given is None else {"stdin": os.open(self.given, os.O_RDONLY)}
        try:
            ended = subprocess.run(["sh", "-c", line, program, *words], capture_output=True, cwd=folder, timeout=60, check=False, **source)
        finally:
            if "stdin" in source:
                os.close(source["stdin"])
        return ended.returncode, ended.stdout, ended.stderr

    def run_into_gone(self, program, words, given, folder):
        """Into a pipe that nobody reads any more."""
        reading, writing = os.pipe()
        os.close(reading)
        try:
            ended = subprocess.run([program, *words], input=given, stdout=writing, stderr=subprocess.PIPE, cwd=folder, timeout=60, check=False)
        finally:
            os.close(writing)
        return ended.returncode, b"", ended.stderr


def not_started(status, said):
    """Whether the shell or the loader gave up before the program began: no status of the program is one of these two."""
    return status in (126, 127) and said == b""


class World(Checks):
    """What the commands run over, what each does where nothing is short, and the counts."""

    def __init__(self, program, work):
        super().__init__()
        self.program, self.work, self.guard = program, work, threading.Lock()
        self.counts = collections.Counter()
        self.bases = {name: os.path.join(work, name) for name in ("empty", "whole", "open")}
        for folder in self.bases.values():
            os.mkdir(folder)
        self.lay_bases()
        self.wanted = {name: self.without_limit(*command) for name, command in ALL.items()}
        self.generated = [self.after_generating(count) for count in range(GENERATED + 1)]

    def plain(self, words, given, folder):
        ended = subprocess.run([self.program, *words], input=given, stdout=subprocess.PIPE, stderr=subprocess.DEVNULL, cwd=folder, timeout=60, check=False)
        return ended.returncode, ended.stdout

    def lay_bases(self):
        whole = self.bases["whole"]
        for words, given in [(["init"], b""), (["commit"], record(b"one", a=b"a\n")), (["commit"], SECOND), (["phase", "0", "public"], b"")]:
            self.check(f"{words} lays the store", self.plain(words, given, whole)[0] == 0)
        shutil.copytree(whole, self.bases["open"], dirs_exist_ok=True)
        lay(self.bases["open"], open_transaction(bytes_of(whole)))

    def without_limit(self, words, given, base):
        folder = tempfile.mkdtemp(dir=self.work)
        shutil.copytree(self.bases[base], folder, dirs_exist_ok=True)
        status, said = self.plain(words, given, folder)
        self.check(f"{words}: ends with {status}", status == (1 if words == ["recover"] and base == "whole" else 0))
        return status, said, bytes_of(folder)

    def after_generating(self, count):
        folder = tempfile.mkdtemp(dir=self.work)
        self.plain(["gen", "7", str(count)] if count else ["init"], b"", folder)
        return bytes_of(folder)

    def check(self, what, holds):
        with getattr(self, "guard", threading.Lock()):
            super().check(what, holds)

    def count(self, what):
        with self.guard:
            self.counts[what] += 1


def open_transaction(files):
    """What a stopped commit would leave behind beside these files: longer revlogs, a new one, and three texts that are replaced."""
    names = ["data/a.i", "data/g.i", "fncache", "00manifest.d", "00manifest.i", "00changelog.d"]
    old = {name: files.get("store/" + name, b"") for name in names}
    grown = {"store/" + name: data + b"behind it" for name, data in old.items()}
    texts = {"phaseroots": "store/", "dirstate": "", "bookmarks": ""}
    listed = b"2\n"
    for name, above in texts.items():
        listed += b"%s\0%s\0journal.backup.%s\0000\n".replace(b"000", b"0") % (b"" if above else b"plain", name.encode(), name.encode())
        grown[f"{above}journal.backup.{name}"] = files[above + name]
        grown[above + name] = b"another text"
    journal = b"".join(b"%s\0%d\n" % (name.encode(), len(data)) for name, data in old.items())
    return {**grown, "store/journal": journal, "store/journal.backupfiles": listed, "wlock": b"me", "store/lock": b"me"}


class Trial:
    """One command under one limit, in a folder of its own."""

    def __init__(self, world, name, limit, folder):
        self.world, self.name, self.limit, self.folder = world, name, limit, folder
        self.words, self.given, base = ALL[name]
        self.before = bytes_of(world.bases[base])
        self.status_wanted, self.said_wanted, self.after = world.wanted[name]
        if name == "gen":
            self.fronts = [self.before, *world.generated]
        elif name == "recover":
            # what undoing leaves: the repository in which the transaction began
            self.fronts = [self.after]
        else:
            self.fronts = [self.before, self.after]

    def check(self, what, holds):
        self.world.check(f"{self.name} under {self.limit.name}: {what}", holds)

    def run(self):
        status, said, told = self.limit.run(self.world.program, self.words, self.given, self.folder)
        left = bytes_of(self.folder)
        if not_started(status, said) or self.fails_to_start(status, said):
            self.world.count("not started")
            self.check(f"not started, {status} {told}, and changes a file", left == self.before)
            return
        if status == KILLED_BY_LENGTH and self.limit.killed:
            self.world.count("killed for the length of a file")
            self.check("killed, and a question", self.name in COMMANDS)
        else:
            self.world.count(f"status {status}")
            self.look_at_answer(status, said, told, left)
        if self.name in COMMANDS:
            self.look_behind(status)

    def fails_to_start(self, status, said):
        """A signal before the program wrote anything, under a limit of memory under which not even `--version` runs."""
        if status >= 0 or said or not self.limit.shell.startswith("ulimit -v"):
            return False
        return any(self.limit.run(self.world.program, ["--version"], b"", self.folder)[0] != 0 for _ in range(3))

    def look_at_answer(self, status, said, told, left):
        self.check(f"status {status} {said} {told}", status in (self.status_wanted, 0, 16, 17, 18, 19, 30) or self.is_held_by_itself(status, said))
        lines = said.splitlines()
        last = lines[-1] if lines else b""
        if status == self.status_wanted:
            self.check(f"another answer: {said}", said == self.said_wanted or last.startswith(LEFT_OVER) or LEFT_OVER in last)
            self.check(f"answers, and other files stand: {differing(left, self.after)}", left == self.after or LEFT_OVER in said)
        elif status == 19:
            self.check(f"19, and wrote what was not to be written: {said}", self.said_wanted.startswith(said))
        elif status == 30 and not said:
            pass  # where there was no memory to hand the line on
        else:
            refusal = REFUSALS[status]
            self.check(f"{status}, and its line is {said}", any(re.fullmatch(refusal, line) for line in lines[-2:]))
        if self.name in QUESTIONS or status in (16, 18) and LEFT_OVER not in said:
            self.check(f"{status}, and changes files: {differing(left, self.before)}", left == self.before or self.name == "gen")
        if status != 15 and LEFT_OVER not in said and not (self.name == "recover" and status != self.status_wanted):
            self.check(f"{status}, and leaves a lock", not any(lock in left for lock in LOCKS) and not self.has_lock())

    def is_held_by_itself(self, status, said):
        """A commit of `gen` left its lock over, which the next one met, or another file, which its report has."""
        return status in (10, 29) and self.name == "gen" and LEFT_OVER in said

    def has_lock(self):
        return any(os.path.lexists(os.path.join(self.folder, ".hg", lock)) for lock in LOCKS)

    def look_behind(self, status):
        """Recovers where nothing is short, and looks at what stands."""
        recovered, said = self.world.plain(["recover"], b"", self.folder)
        self.check(f"{status}, and recover ends with {recovered} {said}", recovered in (0, 1))
        left = bytes_of(self.folder)
        self.check(f"{status}, and behind recover other files stand: {differing(left, self.before)}", left in self.fronts)
        if status == self.status_wanted:
            self.check("answered, and does not stay", left == self.after)
        self.check("a lock stays behind recover", not self.has_lock())
        status, said = self.world.plain(["verify"], b"", self.folder)
        clean = status == 0 and said.endswith(b" 0 findings\n")
        self.check(f"verify behind recover: {status} {said}", clean or status == 24 and left == {})


def differing(one, other):
    return sorted(name for name in one.keys() | other.keys() if one.get(name) != other.get(name))


# ---- the limits


def memory_limits(world):
    """From too little to start, in small steps from the least with which the program says its version, up to ample."""

    def starts(kilobytes):
        return Limit("", f"ulimit -v {kilobytes}; exec ").run(world.program, ["--version"], b"", world.work)[0] == 0

    low, high = 0, 1 << 20
    while high - low > 16:
        middle = (low + high) // 2
        low, high = (low, middle) if starts(middle) else (middle, high)
    steps = [-1000, -100, 0, 16, 32, 64, 96, 128, 160, 192, 256, 320, 400, 520, 700, 1000, 2000, 10_000, 200_000]
    print(f"memory: the program starts from {high} KiB of address space on")
    return [Limit(f"{high + step} KiB of memory", f"ulimit -v {high + step}; exec ") for step in steps]


def length_limits():
    """In bytes, with the signal ignored; and, with fewer, not ignored."""
    for most in (0, 1, 20, 40, 64, 100, 150, 200, 300, 400, 600, 1000, 4096, 4097, 5000):
        yield Limit(f"files of {most} bytes", f"trap '' XFSZ; exec prlimit --fsize={most} ")
    for most in (0, 20, 64, 150, 300, 600, 4096):
        yield Limit(f"files of {most} bytes, by signal", f"exec prlimit --fsize={most} ", killed=True)


def stream_limits():
    yield Limit("full output", closed=">/dev/full")
    yield Limit("closed output", closed=">&-")
    yield Limit("an output whose reader has gone", closed="gone")
    yield Limit("closed errors", closed="2>&-")
    yield Limit("full errors", closed="2>/dev/full")
    yield Limit("closed input", closed="<&-")
    yield Limit("closed input and errors", closed="<&- 2>&-")
    yield Limit("all streams closed", closed="<&- >&- 2>&-")
    yield Limit("a folder as input", given="/")


def process_limits(world):
    yield from memory_limits(world)
    yield from length_limits()
    yield from (Limit(f"{files} open files", f"ulimit -n {files}; exec ") for files in (3, 4, 5, 8))
    yield from stream_limits()


def try_limits(world, name):
    """One command under each limit of a process."""
    for limit in world.limits:
        folder = tempfile.mkdtemp(dir=world.work)
        shutil.copytree(world.bases[ALL[name][2]], folder, dirs_exist_ok=True)
        Trial(world, name, limit, folder).run()
        shutil.rmtree(folder)


# ---- a disk of its own


class Disk:
    """A small disk in memory, on which all but so much is taken."""

    BLOCK = 4096

    def __init__(self, place):
        self.place, self.folder = place, os.path.join(place, "run")

    def mounts(self):
        words = ["mount", "-t", "tmpfs", "-o", "size=1m,nr_inodes=200", "tmpfs", self.place]
        return subprocess.run(words, stderr=subprocess.DEVNULL, check=False).returncode == 0

    def lay(self, base, room, names):
        """The files of a base, with room for so many blocks and so many names, or all where nothing is said."""
        self.free()
        shutil.rmtree(self.folder, ignore_errors=True)
        shutil.copytree(base, self.folder)
        if room is not None:
            found = os.statvfs(self.place)
            with open(os.path.join(self.place, "filler"), "wb") as file:
                file.write(bytes((found.f_bavail - room) * self.BLOCK))
        if names is not None:
            for number in range(os.statvfs(self.place).f_favail - names):
                with open(os.path.join(self.place, f"filler{number}"), "wb"):
                    pass

    def free(self):
        for name in os.listdir(self.place):
            if name.startswith("filler"):
                os.remove(os.path.join(self.place, name))


class FullTrial(Trial):
    def __init__(self, world, name, limit, disk):
        super().__init__(world, name, limit, disk.folder)
        self.disk = disk

    def look_behind(self, status):
        self.disk.free()
        super().look_behind(status)


def try_disks(world):
    """Each command with room for so many blocks, or for so many names."""
    disk = Disk(tempfile.mkdtemp(dir=world.work))
    limits = [(f"a disk with {room} blocks left", room, None) for room in (*range(10), 12, 16, 24)]
    limits += [(f"a disk with {names} names left", None, names) for names in range(10)]
    if not disk.mounts():
        world.counts["skipped, since no disk could be mounted"] += len(limits) * len(ALL)
        return
    try:
        for name in ALL:
            for what, room, names in limits:
                disk.lay(world.bases[ALL[name][2]], room, names)
                FullTrial(world, name, Limit(what), disk).run()
    finally:
        subprocess.run(["umount", disk.place], check=False)


# ---- one refused allocation


class Refusal(Limit):
    """So many allocations, of which the last is refused."""

    def __init__(self, shim, number):
        super().__init__(f"refusal {number}", f"exec env LD_PRELOAD={shim} FAIL_ALLOCATION={number} ")
        self.is_met = True

    def run(self, program, words, given, folder):
        status, said, told = super().run(program, words, given, folder)
        self.is_met = b"refused" in told
        return status, said, told


class RefusedTrial(Trial):
    def look_at_answer(self, status, said, told, left):
        super().look_at_answer(status, said, told, left)
        self.check(f"answers {status}", status in (self.status_wanted, 17, 30) or LEFT_OVER in said)
        if status == 30 and self.name not in ("gen", "recover"):
            # done, where there was no memory for its line; of `init` its new text may be left, which `recover` removes
            kept = {path: data for path, data in left.items() if self.name != "init" or path != "journal.new.requires"}
            self.check(f"30, and changes files: {differing(left, self.before)}", kept in (self.before, self.after))
            self.world.count("30, and as before" if kept == self.before else "30, and done, with no memory for the line")


def try_refusals(world, name, shim):
    """One command with each of its allocations refused in turn, and once with none."""
    for number in itertools.count(1):
        limit = Refusal(shim, number)
        folder = tempfile.mkdtemp(dir=world.work)
        shutil.copytree(world.bases[ALL[name][2]], folder, dirs_exist_ok=True)
        RefusedTrial(world, name, limit, folder).run()
        shutil.rmtree(folder)
        if not limit.is_met:
            return


def trials(world, pool, growths):
    if growths:
        shim = built_shim(world.work, "refused_allocation")
        return [pool.submit(try_refusals, world, name, shim) for name in ALL]
    world.limits = list(process_limits(world))
    return [*(pool.submit(try_limits, world, name) for name in ALL), pool.submit(try_disks, world)]


def main():
    program = built_program()
    with tempfile.TemporaryDirectory() as work:
        world = World(program, work)
        with concurrent.futures.ThreadPoolExecutor(WORKERS) as pool:
            tried = trials(world, pool, "--growths" in sys.argv[1:])
            for one in tried:
                one.result()
        for what, count in sorted(world.counts.items()):
            print(f"{count} {what}")
        print(f"{world.passed} passed, {world.failed} failed")
        return world.failed > 0 or world.passed == 0


sys.exit(main())

#!/usr/bin/env python3
"""Which files a question asks for, and a load beside which they change: a commit between any two of them, and a session
that is loaded again after other files were laid, by a writer, by hand or by damage. What it answers then, and how many bytes it is given.

A library of C (`tests/failing_calls.c`) stands between the program and the system, notes its calls, and stops it before one of them until the
files are changed. Without a C compiler all is skipped. The last line is 'N passed, M failed' or 'N passed, M failed, K skipped'.
"""

import os
import shutil
import signal
import subprocess
import sys
import tempfile

sys.dont_write_bytecode = True
from checks import built_program, built_shim, lay
from session import taken_apart
from stops import FOLDERS, NEW, NEXT, PAUSED, World, answers, failing
from stores import DATA, FILE, FIRST, INDEX, NULL, ONE, ONE_LINE, ROOTS_PATH, SECOND, TWO, ZERO, ZERO_LINE, changeset, damage, inline, store

MANIFEST, MANIFEST_DATA = "store/00manifest.i", "store/00manifest.d"

# What a question asks for: the files of a load; then the text of a changeset, the manifest's index and text, and the file.
LOAD = ["requires", "bookmarks", "dirstate", INDEX, ROOTS_PATH]
ASKED = [
    (["heads"], LOAD),
    (["bookmarks"], LOAD),
    (["phase", "0"], LOAD),
    (["log"], [*LOAD, DATA]),
    (["files", "0"], [*LOAD, DATA, MANIFEST, MANIFEST_DATA]),
    (["cat", "0", "a"], [*LOAD, DATA, MANIFEST, MANIFEST_DATA, FILE]),
    (["cat", "0", "b"], [*LOAD, DATA, MANIFEST, MANIFEST_DATA]),
    (["cat", "1", "a"], LOAD),
]


def asked(calls):
    """The first call for each file that a run asks for, the first look ahead aside; a file that is asked for again stands there again."""
    named = [call for call in calls[1:] if call.name in ("look", "open", "read", "readlink") and call.path not in FOLDERS | {"input"}]
    return [call for call, before in zip(named, [None, *named]) if before is None or call.path != before.path]


def try_asked(world, one):
    """No file is asked for that is not needed, and none twice."""
    for words, wanted in ASKED:
        _, calls = world.note(one, words)
        paths = [call.path for call in asked(calls)]
        world.check(f"{words} asks for {paths}", paths == wanted)


# ---- files that change beside a run


def run_beside(world, words, given, changes):
    """Runs, and at each of these calls does what is to be done before it. The text, and the calls."""
    pauses = ",".join(failing(call, PAUSED) for call, _ in changes)
    if os.path.exists(world.noted):
        os.remove(world.noted)
    env = dict(os.environ, LD_PRELOAD=world.shim, CALLS_NOTED=world.noted, CALLS_FAILING=pauses)
    with open(world.input, "wb+") as source:
        source.write(given)
        source.seek(0)
        process = subprocess.Popen([world.program, *words], stdin=source, stdout=subprocess.PIPE, stderr=subprocess.DEVNULL, cwd=world.folder, env=env)
    for call, change in changes:
        _, status = os.waitpid(process.pid, os.WUNTRACED)
        world.check(f"{words} stops at {call.number} {call}", os.WIFSTOPPED(status))
        change()
        process.send_signal(signal.SIGCONT)
    text, _ = process.communicate()
    return text, world.noted_calls()


def try_commit_beside(world, one):
    """A commit between any two of the files that a load asks for: the history is that of the moment at which it comes to its index."""
    commit = lambda: subprocess.run([world.program, "commit"], input=NEXT, stdout=subprocess.DEVNULL, cwd=world.folder, check=True)
    for words, before, after in ((["log"], ZERO_LINE.encode(), (ONE_LINE + ZERO_LINE).encode()), (["phase", "0"], b"draft\n", b"draft\n")):
        _, calls = world.note(one, words)
        for call in asked(calls):
            world.lay(one)
            text, _ = run_beside(world, words, b"", [(call, commit)])
            is_before = call.path in (ROOTS_PATH, DATA)
            world.check(f"{words}, a commit before {call}: {text}", text == (before if is_before else after))


def change(folder, files):
    """Lays these files; those that are none go."""
    lay(folder, {name: data for name, data in files.items() if data is not None})
    for name in (name for name, data in files.items() if data is None):
        os.remove(os.path.join(folder, ".hg", name))


def told(world, base, jobs, changes=()):
    """What a session of one worker tells where other files are laid before some of its questions: its answers, and the calls of each question.
    A question begins with the bookmarks."""
    given = b"session 1\n" + b"".join(b"0 %s\n" % job for job in jobs) + b"end session\n"
    pauses = []
    for place, files in [*changes, (None, None)]:
        world.lay(base)
        text, calls = run_beside(world, ["session"], given, pauses)
        begins = [number for number, call in enumerate(calls) if str(call) == "look bookmarks" and str(calls[number - 1]) != "open bookmarks"][-len(jobs) :]
        if place is not None:
            pauses.append((calls[begins[place]], lambda files=files: change(world.folder, files)))
    parts = [calls[begin:end] for begin, end in zip(begins, [*begins[1:], None])]
    return taken_apart(text)[2].get(0, []), parts


def base_of(world, files):
    shutil.rmtree(world.folder, ignore_errors=True)
    lay(world.folder, files)
    return world.save("laid")


# ---- a session that is loaded again

TURNED = store(changeset(NULL, 0, [], b"another"))
HEADS_OF_ONE, HEADS_OF_TWO = (0, f"0 {ZERO}\n".encode()), (0, f"1 {ONE}\n".encode())
LOG_OF_ONE, LOG_OF_TWO = (0, ZERO_LINE.encode()), (0, (ONE_LINE + ZERO_LINE).encode())
ONE_STORE = store(FIRST)
# what stands beside an inline changelog is no part of it
INLINE_ONE, INLINE_TWO = ({**ONE_STORE, INDEX: inline(*texts), DATA: b"no chunk"} for texts in ([FIRST], [FIRST, SECOND]))
DRAFT, MARK = f"1 {ZERO}\n".encode(), f"{ONE} new\n".encode()


def shrunk(place):
    return 15, damage(f"shrunk 1 {place}").encode()


# The files of the load, those that stand then, and how a question is answered before and behind.
TAKEN = [
    ("it has grown", ONE_STORE, TWO, LOG_OF_ONE, LOG_OF_TWO),
    ("an inline changelog has grown", INLINE_ONE, INLINE_TWO, LOG_OF_ONE, LOG_OF_TWO),
    ("an inline changelog was split", INLINE_ONE, TWO, LOG_OF_ONE, LOG_OF_TWO),
    ("an inline changelog stands in its place", ONE_STORE, INLINE_TWO, LOG_OF_ONE, LOG_OF_TWO),
]
# The files of the load, those that stand then, and the refusal.
REFUSED = [
    ("the second changeset is taken away", TWO, ONE_STORE, shrunk(1)),
    ("the first is another", TWO, TURNED, shrunk(0)),
    ("an inline changelog is shorter", INLINE_TWO, INLINE_ONE, shrunk(1)),
    ("a file of the load is out of form", TWO, {"bookmarks": b"no line\n"}, (15, damage("bookmarks 1 1", "bookmarks").encode())),
]


def try_loaded_again(world):
    for what, first, second, before, after in TAKEN:
        said, _ = told(world, base_of(world, first), [b"log"] * 2, [(1, second)])
        world.check(f"{what}: {said}", said == [before, after])
    for what, first, second, refusal in REFUSED:
        back = {**first, **{name: None for name in second if name not in first}}
        said, _ = told(world, base_of(world, first), [b"log"] * 3, [(1, second), (2, back)])
        world.check(f"{what}: {said}", said == [said[0], refusal, said[0]] and said[0] in (LOG_OF_ONE, LOG_OF_TWO))
    # what was published is seen, and `requires` is not read again
    published = {**TWO, ROOTS_PATH: DRAFT, "bookmarks": MARK, "requires": None}
    said, _ = told(world, base_of(world, ONE_STORE), [b"heads", b"bookmarks", b"phase 0"] * 2, [(3, published)])
    world.check(f"published: {said}", said == [HEADS_OF_ONE, (0, b""), (0, b"public\n"), HEADS_OF_TWO, (0, f"new\t1\t{ONE}\n".encode()), (0, b"draft\n")])


# ---- how many bytes it is given

def given(calls, *names):
    return sum(call.given for call in calls if call.path in names)


def try_given(world, empty):
    """Behind a commit a load is given two entries, the last old one and the new one, the one root and the dirstate."""
    world.lay(empty)
    world.run(["gen", "7", "1000"])
    base = world.save("thousand")
    said, parts = told(world, base, [b"heads", b"commit\n" + NEXT.removesuffix(b"\n"), b"heads"])
    world.check(f"of 1,001 changesets {said}", [status for status, _ in said] == [0, 0, 0] and said[2][1].startswith(b"1000 "))
    dirstate = os.path.getsize(os.path.join(world.folder, ".hg/dirstate"))
    counts = {name: given(parts[-1], name) for name in ("requires", "bookmarks", "dirstate", INDEX, DATA, ROOTS_PATH)}
    world.check(f"a load behind a commit is given {counts}", counts == {"requires": 0, "bookmarks": 0, "dirstate": dirstate, INDEX: 128, DATA: 0, ROOTS_PATH: 43})


def main():
    if not shutil.which("cc"):
        print("0 passed, 0 failed, 1 skipped")
        return False
    with tempfile.TemporaryDirectory() as work:
        world = World(built_program(), built_shim(work, "failing_calls"), work)
        empty = os.path.join(work, "empty")
        os.mkdir(empty)
        world.lay(empty)
        world.run(["init"])
        world.check("a first commit", answers(world, ["commit"], NEW)[0] == 0)
        one = world.save("one")
        try_asked(world, one)
        try_commit_beside(world, one)
        try_loaded_again(world)
        try_given(world, empty)
    print(world)
    return world.failed != 0


if __name__ == "__main__":
    sys.exit(main())

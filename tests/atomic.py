#!/usr/bin/env python3
"""Runs docs/ATOMIC.md: makes the commit of its table, with the program killed before each call, and compares with the table what stands in
the files, how many changesets a reader sees, and how many there are when recovered. Each call of the commit that changes a file has a row.
Before the journal has its name nothing is there to be undone, and Mercurial, where it is there, sees no journal; behind that it does.

Without a C compiler all is skipped. The last line is 'N passed, M failed' or 'N passed, M failed, K skipped'.
"""

import os
import re
import shutil
import sys
import tempfile

sys.dont_write_bytecode = True
from checks import HERE, built_program, built_shim
from stops import JOURNAL, LOOSE, World, answers, stopped

FIRST = b"commit\nuser Ada\ndate 0 0\ndesc 5\nfirst\nfile - 6 greeting\nhello\n\nend\n"
NEW_JOURNAL = "store/journal.new.journal"
ANSWER = 0, b"1:e36fc1b742f444a46e257070ad1243a703e72d85\n"
SECOND = b"commit\nparent tip\nuser Ada\ndate 60 0\ndesc 6\nsecond\nfile - 6 greeting\nhello\n\nfile - 4 note\nok.\n\nend\n"


class Row:
    """A call of the table: the file, its bytes before and behind it, and the changesets that are read then, and recovered."""

    def __init__(self, cells):
        self.call, self.path = cells[1], cells[2].strip("`")
        self.before, self.after = (int(cell) if cell else None for cell in cells[3:5])
        self.seen, self.recovered = int(cells[5]), int(cells[6])

    def kind(self):
        """The call as `tests/stops.py` names it."""
        return f"{'remove' if self.call == 'remove' else 'rename' if self.call.startswith('rename') else 'make'} {self.path}"


def read_document():
    """The rows of the calls, the files before them, and the lines of the journal."""
    with open(os.path.join(HERE, "../docs/ATOMIC.md"), encoding="utf-8") as document:
        text = document.read()
    rows = [Row([cell.strip() for cell in line[1:-1].split("|")]) for line in re.findall(r"^\| \d+ \|.*\|$", text, re.MULTILINE)]
    stands = {}
    for names, numbers in re.findall(r"^\| (`.*`) \| (\d+(?:, \d+)*) \|", text, re.MULTILINE):
        stands.update(zip(re.findall(r"`([^`]*)`", names), map(int, numbers.split(", "))))
    journal = re.findall(r"^    (\S+)\\0(\d+)$", text, re.MULTILINE)
    return rows, stands, "".join(f"{path}\0{length}\n" for path, length in journal).encode()


def length_of(world, path):
    path = os.path.join(world.folder, ".hg", path)
    return os.path.getsize(path) if os.path.lexists(path) else None


def count(world):
    status, lines = answers(world, ["log"])
    return lines.count(b"\n") if status == 0 else None


def try_row(world, what, row):
    """What stands behind the call of this row, where the program was killed then."""
    world.check(f"{what}: {row.path} has {length_of(world, row.path)} bytes", length_of(world, row.path) == row.after)
    world.check(f"{what}: a reader sees {row.seen}", count(world) == row.seen)
    world.check(f"{what}: recovers", answers(world, ["recover"])[0] in (0, 1))
    world.check(f"{what}: {row.recovered} are recovered", count(world) == row.recovered and not world.has_locks())


def stopped_without_locks(world, base, kind):
    """What the commit leaves that is stopped before this call, but for its locks."""
    stopped(world, base, ["commit"], SECOND, kind)
    world.check(f"before {kind}: its locks stand", world.has_locks() and answers(world, ["commit"], SECOND)[0] == 10)
    for lock in LOOSE:
        os.remove(os.path.join(world.folder, ".hg", lock))


def mercurial_recovers(world):
    """The status and the first line of `hg recover`, none where there is no Mercurial."""
    ended = world.mercurial("recover", "--no-verify")
    return ended and (ended[0], ended[1].split(b"\n")[0])


def try_name_of_journal(world, base, journal, after):
    """The commit is stopped right before its journal gets its name, and right behind that."""
    stopped_without_locks(world, base, "rename store/journal")
    world.check("the journal's text is written, and has not its name", world.state().get(NEW_JOURNAL) == journal and not world.has_journal())
    world.check("Mercurial finds nothing wrong there", world.is_right())
    world.check("nor anything to recover", mercurial_recovers(world) in (None, (1, b"no interrupted transaction available")))
    world.check("the next commit just works", answers(world, ["commit"], SECOND) == ANSWER and world.state() == after)
    stopped_without_locks(world, base, "make store/data/note.i")
    world.check("the journal has its name", world.state().get(JOURNAL) == journal and NEW_JOURNAL not in world.state())
    world.check("so the next commit is turned away", answers(world, ["commit"], SECOND)[0] == 11)


def main():
    if not shutil.which("cc"):
        print("0 passed, 0 failed, 1 skipped")
        return 0
    rows, stands, journal = read_document()
    with tempfile.TemporaryDirectory() as work:
        world = World(built_program(), built_shim(work, "failing_calls"), work)
        os.mkdir(world.folder)
        world.run(["init"])
        world.run(["commit"], FIRST)
        base = world.save("base")
        world.check("the files before", stands and all(length_of(world, path) == length for path, length in stands.items()))
        _, calls = world.note(base, ["commit"], SECOND)
        changed = [str(call) for call in calls if call.name in ("make", "rename", "remove")]
        world.check(f"each call has its row: {changed}", changed == [row.kind() for row in rows])
        for number, row in enumerate(rows):
            stopped(world, base, ["commit"], SECOND, row.kind())
            world.check(f"before {number + 1}: {row.path}", length_of(world, row.path) == row.before)
            if row.path == "store/data/note.i":
                world.check("the journal", world.state().get("store/journal") == journal)
            if number:
                try_row(world, f"behind {number}", rows[number - 1])
        world.lay(base)
        world.check("it is answered", answers(world, ["commit"], SECOND) == ANSWER)
        try_row(world, "at its end", rows[-1])
        try_name_of_journal(world, base, journal, world.state())
    world.passed -= world.skipped
    print(world)
    return world.failed != 0


if __name__ == "__main__":
    sys.exit(main())

#!/usr/bin/env python3
"""Refuses one allocation of a run, the first, the second and so on, until a run asks for fewer: of `init`, of a first commit, and of the questions
for its log, its files and a body.

Each run says that there was no memory, behind a front of its text, and leaves the files as before, over which the command is then done; or
that the transaction is unfinished, which `recover` undoes; or it does and writes all, but for the line of files that are left over. Without a C compiler all is skipped; `tests/limits.py --growths` does so with all commands. The last line is
'N passed, M failed' or 'N passed, M failed, K skipped'.
"""

import concurrent.futures
import itertools
import os
import re
import shutil
import subprocess
import sys
import tempfile

sys.dont_write_bytecode = True
from checks import Checks, built_program, built_shim, bytes_of, hint_of

NODE = "cb9a9f314b8b07ba71012fcdbc544b5a4d82ff5b"
RECORD = b"commit\nuser test\ndate 0 0\ndesc 1\na\nfile - 2 a\na\n\nend\n"

# The words, the input, over which repository, and what is written.
COMMANDS = [
    (["init"], b"", "none", b""),
    (["commit"], RECORD, "empty", f"0:{NODE}\n".encode()),
    (["log"], b"", "one", f"0\t{NODE}\t-1\t-1\t0\t0\ttest\ta\n".encode()),
    (["cat", "tip", "a"], b"", "one", b"a\n"),
    (["files", "0"], b"", "one", b"b789fdd96dc2f3bd229c1dd8eedf0fc60e2b68e3 - a\n"),
]
NO_MEMORY, LEFT_OVER = b"abort: out of memory\n", b"leftover files remain\n"
UNFINISHED = re.compile(rb"abort: transaction unfinished \(published (yes|no|unknown)\)\n")
LOCKS = {"wlock", "store/lock"}
STRAY = re.compile(r"(store/)?journal\..*|store/00changelog\.i\.a")


class Growths(Checks):
    def __init__(self, program, shim, work):
        super().__init__()
        self.program, self.shim, self.work = program, shim, work
        self.bases = {name: os.path.join(work, name) for name in ("none", "empty", "one")}
        os.mkdir(self.bases["none"])
        for name, behind, words, given in (("empty", "none", ["init"], b""), ("one", "empty", ["commit"], RECORD)):
            shutil.copytree(self.bases[behind], self.bases[name])
            self.run(words, given, self.bases[name])

    def run(self, words, given, folder, refused=None):
        env = dict(os.environ, LD_PRELOAD=self.shim, FAIL_ALLOCATION=str(refused)) if refused else None
        return subprocess.run([self.program, *words], input=given, capture_output=True, cwd=folder, env=env, check=False)


def stands(folder):
    """The files but locks and strays."""
    return {name: data for name, data in bytes_of(folder).items() if name not in LOCKS and not STRAY.fullmatch(name)}


def try_command(growths, words, given, base, text):
    """How many of its allocations were refused."""
    checks = Growths.__new__(Growths)
    checks.__dict__ = {**growths.__dict__, "passed": 0, "failed": 0}
    base = growths.bases[base]
    with tempfile.TemporaryDirectory(dir=growths.work) as above:
        whole = os.path.join(above, "whole")
        shutil.copytree(base, whole)
        checks.check(f"{words}: is done", checks.run(words, given, whole).stdout == text)
        for number in itertools.count(1):
            folder = os.path.join(above, str(number))
            shutil.copytree(base, folder)
            ended = checks.run(words, given, folder, number)
            judge(checks, f"{words}, refusal {number}", ended, folder, (stands(base), stands(whole)), text)
            if ended.returncode == 30 and LEFT_OVER not in ended.stdout:
                again = checks.run(words, given, folder)
                checks.check(f"{words}, refusal {number}: again {again.stdout}", again.stdout == text and stands(folder) == stands(whole))
            shutil.rmtree(folder)
            if b"refused\n" not in ended.stderr:
                return checks, number - 1


def judge(checks, what, ended, folder, fronts, text):
    before, after = fronts
    status, said, found = ended.returncode, ended.stdout, stands(folder)
    swept = LEFT_OVER not in said
    said = said.replace(LEFT_OVER, b"")
    checks.check(f"{what}: tells {ended.stderr}", ended.stderr.replace(b"refused\n", b"") in (hint_of(status), b"" if status == 30 else None))
    if status == 17:
        checks.check(f"{what}: says {said}, {sorted(found)}", UNFINISHED.fullmatch(said) and "store/journal" in found)
        checks.check(f"{what}: is not undone", checks.run(["recover"], b"", folder).returncode == 0 and stands(folder) == before)
    elif status == 30:
        front = said.removesuffix(NO_MEMORY)
        checks.check(f"{what}: says {said}", text.startswith(front))
        # not done: room for the line of a command was taken before, and what hands standard output on takes none
        checks.check(f"{what}: other files stand, {sorted(found)}", found == before)
    else:
        checks.check(f"{what}: status {status}, {said}", status == 0 and said == text and found == after)
    if swept and status != 17:
        left = bytes_of(folder).keys() & LOCKS
        checks.check(f"{what}: {left} are left", not left)


def main():
    if not shutil.which("cc"):
        print("0 passed, 0 failed, 1 skipped")
        return False
    with tempfile.TemporaryDirectory() as work:
        growths = Growths(built_program(), built_shim(work, "refused_allocation"), work)
        with concurrent.futures.ThreadPoolExecutor(len(COMMANDS)) as pool:
            tried = list(pool.map(lambda command: try_command(growths, *command), COMMANDS))
        for (words, *_), (checks, count) in zip(COMMANDS, tried):
            print(f"{words[0]}: {count} allocations, each refused once")
            growths.check(f"{words}: none was refused", count > 0)
            growths.passed, growths.failed = growths.passed + checks.passed, growths.failed + checks.failed
        print(growths)
    return growths.failed > 0


if __name__ == "__main__":
    sys.exit(main())

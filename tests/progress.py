#!/usr/bin/env python3
"""Long work says where it is on a terminal, and nothing in a pipe: `commit`, `import` and `gen`, each halted or given its input late, so that it
takes longer than a second. What is written is the same. The lines that README.md shows are drawn, but for their numbers.

    tests/progress.py

The last line is 'N passed, M failed'.
"""

import os
import pty
import re
import signal
import subprocess
import sys
import tempfile
import threading
import time

sys.dont_write_bytecode = True
from checks import HERE, Checks, built_program

FILES = 2_000
# a pause of the program that is told of
PAUSE = 1.2


class Ran:
    """What a run wrote and said, and how often each line was drawn."""

    def __init__(self, program, folder, words, given, is_terminal, late=0, halt=None):
        """The input is given with its last byte so many seconds late; the run is halted after so many seconds, for more than one."""
        near, far = pty.openpty() if is_terminal else os.pipe()
        running = subprocess.Popen([program, *words], stdin=subprocess.PIPE, stdout=subprocess.PIPE, stderr=far, cwd=folder)
        os.close(far)
        sent = []
        reader = threading.Thread(target=self.read_all, args=(near, sent))
        reader.start()
        giver = threading.Thread(target=self.give, args=(running.stdin, given, late))
        giver.start()
        if halt is not None:
            time.sleep(halt)
            running.send_signal(signal.SIGSTOP)
            time.sleep(PAUSE)
            running.send_signal(signal.SIGCONT)
        self.written, self.status = running.stdout.read(), running.wait()
        giver.join()
        reader.join()
        running.stdout.close()
        os.close(near)
        self.said = b"".join(sent)

    @staticmethod
    def give(stream, given, late):
        try:
            stream.write(given[:-1])
            stream.flush()
            time.sleep(late)
            stream.write(given[-1:])
            stream.close()
        except BrokenPipeError:
            pass

    @staticmethod
    def read_all(end, sent):
        while True:
            try:
                more = os.read(end, 65_536)
            except OSError:
                return
            if not more:
                return
            sent.append(more)


def record(body):
    lines = [b"file - %d f%04d\n%s\n" % (len(body), number, body) for number in range(FILES)]
    return b"user test\ndate 0 0\ndesc 1\na\n" + b"".join(lines) + b"end\n"


def is_told(said, line):
    """Whether this line was drawn once or more, was taken away, and nothing else was said."""
    return re.fullmatch(rb"(\r\x1b\[K[a-z]+: [^\r]*)*\r\x1b\[K%s(\r\x1b\[K[a-z]+: [^\r]*)*\r\x1b\[K" % line, said) is not None


def told(checks, what, run, line):
    """Halts runs after one pause and another, until one is told of: when it is at work is the system's affair. What that one said."""
    said = []
    for pause in [0.01 * 1.5**number for number in range(14)]:
        with tempfile.TemporaryDirectory() as folder:
            ran = run(folder, True, pause)
            checks.check(f"{what}, halted after {pause}: {ran.written[:80]} {ran.status}", ran.status == 0)
        said.append(ran.said)
        if is_told(ran.said, line):
            break
    checks.check(f"{what}: a terminal is told: {said}", is_told(said[-1], line))
    with tempfile.TemporaryDirectory() as folder:
        checks.check(f"{what}: a pipe is told nothing", run(folder, False, pause).said == b"")
    return said[-1]


def forms(lines):
    """Lines but for their numbers."""
    return {re.sub(rb"\d+", b"N", line) for line in lines}


def lines_of_readme():
    with open(os.path.join(HERE, "../README.md"), "rb") as document:
        return re.findall(rb"`((?:commit|import|gen): [^`]*)`", document.read())


def main():
    checks, program = Checks(), built_program()

    def begun(folder):
        subprocess.run([program, "init"], cwd=folder, check=True, stdout=subprocess.DEVNULL)

    def inputs(word, given):
        """The input comes late."""
        for is_terminal in [True, False]:
            with tempfile.TemporaryDirectory() as folder:
                begun(folder)
                ran = Ran(program, folder, [word], given, is_terminal, late=PAUSE)
                holds = is_told(ran.said, rb"%s: 0 MiB of input read" % word.encode()) if is_terminal else ran.said == b""
                checks.check(f"{word} of a late input, terminal {is_terminal}: {ran.said} {ran.written[:80]}", holds and ran.status == 0)

    def commit(folder, is_terminal, pause):
        begun(folder)
        return Ran(program, folder, ["commit"], b"commit\n" + record(b"a"), is_terminal, halt=pause)

    def commit_again(folder, is_terminal, pause):
        begun(folder)
        Ran(program, folder, ["commit"], b"commit\n" + record(b"a"), False)
        return Ran(program, folder, ["commit"], b"commit\nparent tip\n" + record(b"b"), is_terminal, halt=pause)

    def gen(folder, is_terminal, pause):
        return Ran(program, folder, ["gen", "7", "200"], b" ", is_terminal, halt=pause)

    inputs("commit", b"commit\n" + record(b"a"))
    inputs("import", b"commit\n" + record(b"a") + b"end import\n")
    said = told(checks, "commit", commit, rb"commit: \d+ files written")
    told(checks, "commit of files that stand", commit_again, rb"commit: \d+ files read")
    said += told(checks, "gen", gen, rb"gen: \d+ of 200 changesets")
    shown = lines_of_readme()
    checks.check(f"the lines that README.md shows: {shown}", shown and forms(shown) <= forms(said.split(b"\r\x1b[K")))
    with tempfile.TemporaryDirectory() as folder:
        begun(folder)
        short = b"commit\nuser test\ndate 0 0\ndesc 1\na\nfile - 1 a\na\nend\n"
        ran = Ran(program, folder, ["commit"], short, True)
        checks.check(f"short work is not told of: {ran.said}", ran.said == b"" and ran.status == 0)
    print(checks)
    return checks.failed != 0


if __name__ == "__main__":
    sys.exit(main())

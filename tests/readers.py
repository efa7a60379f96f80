#!/usr/bin/env python3
"""Eight readers ask without pause while a writer commits, imports, moves phases, sets bookmarks, is killed and recovers.

    tests/readers.py [SECONDS]

Each answer has to be that of the repository after some number of the writer's transactions, none before the one that the same
reader saw last, and none may be refused. At the end of each round the writer is killed at some moment; the readers end, the
program recovers, and the repository is as before that command or as after. What it had published may be taken back then. Mercurial,
where it is there, reads along, and finds nothing wrong in the end. The last line is 'N passed, M failed' or 'N passed, M failed, K skipped'.
"""

import os
import random
import shutil
import subprocess
import sys
import tempfile
import threading
import time

sys.dont_write_bytecode = True
from checks import Checks, built_program

READERS = 8
QUESTIONS = ["log", "bookmarks", "phase", "branches", "files", "cat"]
WORDS = {"phase": ["phase", "0"], "branches": ["branches", "--steps", "2"]}


def record(number):
    """The commit of this number, on one of three branches: a file that it changes, one that grows, one that stays, and one with a data file."""
    files = {b"changed": b"%d\n" % number, b"grows": b"line\n" * number, b"stays": b"s\n", b"large": b"%d\n" % number + b"l" * 4096}
    bodies = b"".join(b"file - %d %s\n%s\n" % (len(body), path, body) for path, body in sorted(files.items()))
    parent = b"parent tip\n" if number else b""
    return b"commit\n" + parent + b"user u\ndate %d 0\nbranch b%d\ndesc 1\nc\n" % (number, number % 3) + bodies + b"end\n"


class Yard:
    """The repository, the program, and what it answers after each transaction."""

    def __init__(self, program, folder):
        self.program, self.folder = program, folder
        self.states = []
        self.lock = threading.Lock()

    def run(self, words, given=b""):
        return subprocess.run([self.program, *words], input=given, stdout=subprocess.PIPE, stderr=subprocess.PIPE, cwd=self.folder, check=False)

    def look(self):
        """The answers of the repository at rest: the log, the bookmarks, the phase of the first changeset, and the heads of branches."""
        return {name: self.run(words).stdout for name, words in (("log", ["log"]), ("bookmarks", ["bookmarks"]), ("phase", ["phase", "0"]), ("branches", ["branches"]))}

    def note(self):
        state = self.look()
        with self.lock:
            self.states.append(state)


class Reader(threading.Thread):
    """Asks until it is told to end, and keeps what it was answered."""

    def __init__(self, yard, number):
        super().__init__()
        self.yard, self.random = yard, random.Random(number)
        self.asked, self.refused, self.whole = [], [], False
        self.ended = threading.Event()

    def run(self):
        self.ask_until_told()
        self.whole = True

    def ask_until_told(self):
        while not self.ended.is_set():
            name = self.random.choice(QUESTIONS)
            if name in ("files", "cat"):
                self.ask_of_tip(name)
            else:
                self.take(name, self.yard.run(WORDS.get(name, [name])))

    def take(self, name, ended):
        if ended.returncode != 0:
            self.refused.append((name, ended.returncode, ended.stdout, ended.stderr))
        else:
            self.asked.append((name, ended.stdout))
        return ended.returncode == 0

    def ask_of_tip(self, name):
        """The newest changeset of a log is there whole for whoever was shown it."""
        log = self.yard.run(["log"])
        if not self.take("log", log):
            return
        rev, node = log.stdout.split(b"\t")[:2]
        words = ["files", node.decode()] if name == "files" else ["cat", node.decode(), "changed"]
        ended = self.yard.run(words)
        if ended.returncode != 0:
            self.refused.append((name, ended.returncode, ended.stdout, ended.stderr))
        elif name == "cat":
            self.asked.append(("cat", (rev, ended.stdout)))
        else:
            self.asked.append(("files", ended.stdout))


class MercurialReader(threading.Thread):
    def __init__(self, folder):
        super().__init__()
        self.folder, self.logs, self.refused, self.whole = folder, [], [], False
        self.ended = threading.Event()

    def run(self):
        self.ask_until_told()
        self.whole = True

    def ask_until_told(self):
        env = dict(os.environ, HGRCPATH="/dev/null", HGPLAIN="1")
        while not self.ended.is_set():
            ended = subprocess.run(["hg", "log", "-T", "{rev} {node}\n"], cwd=self.folder, env=env, capture_output=True, check=False)
            (self.logs if ended.returncode == 0 else self.refused).append(ended.stdout or ended.stderr)


def writing(number):
    """The command that adds changesets from this number on, what it is given, and how many they are: an import of two, or a commit."""
    if number % 4 == 3:
        return ["import"], record(number) + record(number + 1) + b"end import\n", 2
    return ["commit"], record(number), 1


def commands(number, phase):
    """The commands of a writer, one after another: a commit or an import, and in turn a bookmark, a phase, a bookmark that comes and goes."""
    yield writing(number)[:2]
    if number % 3 == 1:
        yield ["bookmark", f"at{number % 4}", "tip"], b""
    if number % 5 == 2:
        yield ["phase", "--force", "0", "secret" if phase == b"draft\n" else "draft"], b""
    if number % 7 == 6:
        yield ["bookmark", "passing", "0"], b""
        yield ["bookmark", "--delete", "passing"], b""


def faults_of(reader, states, start):
    """What this reader was answered that is of no state from the one on that it saw before."""
    seen, faults = start, []
    bodies = {b"%d" % rev: b"%d\n" % rev for rev in range(states[-1]["log"].count(b"\n"))}
    for name, answer in reader.asked:
        if name == "cat":
            if bodies.get(answer[0]) != answer[1]:
                faults.append((name, answer))
        elif name == "files":
            if [line.split(b" ", 2)[2] for line in answer.splitlines()] != [b"changed", b"grows", b"large", b"stays"]:
                faults.append((name, answer))
        else:
            later = next((n for n in range(seen, len(states)) if states[n][name] == answer), None)
            if later is None:
                faults.append((name, answer[:200]))
            else:
                seen = later
    return faults


class Answers(Checks):
    answers = 0


def write_until(yard, end, number):
    """Commands until a moment, each of which ends well; gives what to begin with next."""
    done = True
    while done and time.monotonic() < end:
        for words, given in commands(number, yard.states[-1]["phase"]):
            done = yard.run(words, given).returncode == 0
            if not done:
                print(f"{words} of {number} was refused")
                break
            yard.note()
        number += writing(number)[2]
    return number, done


def kill_one(yard, number, generator):
    """A commit or an import that is killed at some moment."""
    words, given, _ = writing(number)
    process = subprocess.Popen([yard.program, *words], stdin=subprocess.PIPE, stdout=subprocess.PIPE, cwd=yard.folder)
    process.stdin.write(given)
    process.stdin.close()
    time.sleep(generator.uniform(0, 0.004))
    process.kill()
    answered = process.stdout.read()
    process.stdout.close()
    process.wait()
    return answered


def play_round(checks, yard, number, seconds, generator):
    start = len(yard.states) - 1
    readers = [Reader(yard, generator.random()) for _ in range(READERS)]
    others = [MercurialReader(yard.folder)] if shutil.which("hg") else []
    for reader in readers + others:
        reader.start()
    number, done = write_until(yard, time.monotonic() + seconds, number)
    checks.check("each command is done", done)
    answered = kill_one(yard, number, generator)
    for reader in readers + others:
        reader.ended.set()
    for reader in readers + others:
        reader.join()
    before = yard.states[-1]
    yard.note()  # what the command published that was killed, which recovering takes back where it was not answered
    seen = len(yard.states)
    checks.check("the program recovers", yard.run(["recover"]).returncode in (0, 1))
    yard.note()
    after = yard.states[-1]
    grown = after["log"].count(b"\n") - before["log"].count(b"\n")
    whole = writing(number)[2]
    checks.check("an answered command stays, and no part of one is there", grown == whole if answered else grown in (0, whole))
    checks.check("its marks are as before", after["bookmarks"] == before["bookmarks"])
    for reader in readers:
        faults = faults_of(reader, yard.states[:seen], start)
        checks.check("a reader asked until it was told to end", reader.whole and reader.asked)
        checks.check(f"no answer is refused: {reader.refused[:2]}", not reader.refused)
        checks.check(f"each answer is of some transaction, none goes back: {faults[:2]}", not faults)
        checks.answers += len(reader.asked)
    published = yard.states[seen - 1]["log"]
    nodes = [line.split(b"\t")[1] for line in reversed(published.splitlines())]
    for other in others:
        checks.check("Mercurial read until it was told to end", other.whole and other.logs)
        checks.check(f"Mercurial is not refused: {other.refused[:1]}", not other.refused)
        wrong = [log for log in other.logs if [line.split()[1] for line in reversed(log.splitlines())] != nodes[: log.count(b"\n")]]
        checks.check("Mercurial reads the same history", not wrong)
    return number + grown


def main():
    seconds = float(sys.argv[1]) if len(sys.argv) > 1 else 60
    program = built_program()
    checks, rounds = Answers(), 12
    generator = random.Random(20261128)
    with tempfile.TemporaryDirectory() as folder:
        yard = Yard(program, folder)
        checks.check("a repository is made", yard.run(["init"]).returncode == 0)
        yard.run(["commit"], record(0))
        yard.note()
        number = 1
        for _ in range(rounds):
            number = play_round(checks, yard, number, seconds / rounds, generator)
        skipped = 0
        if shutil.which("hg"):
            env = dict(os.environ, HGRCPATH="/dev/null", HGPLAIN="1")
            said = subprocess.run(["hg", "verify", "--quiet"], cwd=folder, env=env, stdout=subprocess.PIPE, stderr=subprocess.STDOUT, check=False)
            checks.check(f"Mercurial finds nothing wrong: {said.stdout[:300]}", said.returncode == 0 and not said.stdout)
        else:
            skipped = 1
        print(f"{checks.answers} answers over {len(yard.states)} states of {number} changesets")
    print(f"{checks.passed} passed, {checks.failed} failed" + (f", {skipped} skipped" if skipped else ""))
    sys.exit(checks.failed > 0)


main()

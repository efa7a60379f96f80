#!/usr/bin/env python3
"""Plays each transcript in tests/transcripts: commands one after another over one repository, with what is given to them and what
they tell. The nodes and the bytes of files there are Mercurial's, and what `gen` makes is worked out by hand.

A transcript has steps. The first line of each says what is done: `$` runs the program with these words, `put` gives a file of .hg its
bytes, `at` gives it them from a place on, and `has` and `lacks` say what stands. Below it stand the lines that are given, behind `<`,
those that are told or that the file has, behind `>`, and the status, behind `=`, where that is not 0. Behind `<x` and `>x` stand
bytes in hex. The last line is 'N passed, M failed'.
"""

import glob
import os
import subprocess
import sys
import tempfile

sys.dont_write_bytecode = True
from checks import HERE, Checks, built_program

BELOW = {"<", ">", "<x", ">x", "="}


class Step:
    def __init__(self, line):
        self.line, self.given, self.told, self.status = line, b"", b"", 0

    def add(self, word, rest):
        if word == "=":
            self.status = int(rest)
            return
        data = bytes.fromhex(rest) if word.endswith("x") else rest.encode() + b"\n"
        if word.startswith("<"):
            self.given += data
        else:
            self.told += data


def steps_of(text):
    steps = []
    for line in text.splitlines():
        word, _, rest = line.partition(" ")
        if word in BELOW:
            steps[-1].add(word, rest)
        else:
            steps.append(Step(line))
    return steps


def bytes_at(path):
    """The bytes of a file, none where it is absent."""
    try:
        with open(path, "rb") as file:
            return file.read()
    except FileNotFoundError:
        return None


def write(path, data):
    os.makedirs(os.path.dirname(path), exist_ok=True)
    with open(path, "wb") as file:
        file.write(data)


def faults_of(step, program, folder):
    """Does a step, and says what is not as it tells."""
    word, *rest = step.line.split(" ")
    if word == "$":
        ended = subprocess.run([program, *filter(None, rest)], input=step.given, capture_output=True, cwd=folder, check=False)
        if (ended.returncode, ended.stdout) != (step.status, step.told):
            return f"status {ended.returncode} ({step.status}), {ended.stdout} ({step.told})"
        return None
    path = os.path.join(folder, ".hg", rest[0])
    stands = bytes_at(path)
    if word == "put":
        write(path, step.given)
    elif word == "at":
        place = int(rest[1])
        write(path, stands[:place] + step.given + stands[place + len(step.given) :])
    elif word == "lacks":
        return None if stands is None else f"{stands} stands"
    elif word == "has":
        return None if stands == step.told else f"{stands} stands, not {step.told}"
    else:
        return "no such step"
    return None


def many_files():
    """A commit of 300 files below one folder, of which one is executable, and questions behind it."""
    files = "".join(f"< file {'x' if file == 107 else '-'} 9 src/f{file}\n< src/f{file}\n<\n" for file in range(100, 400))
    node = "41c512c2c06f9575e5430ef57164d0073c277155"
    head = "< commit\n< user Ada Lovelace <ada@example.org>\n< date 1700000000 -3600\n< bookmark main\n< desc 9\n< Two\n< lines\n"
    asked = f"$ heads\n> 0 {node}\n$ parents\n> 0 {node}\n$ bookmarks\n> main\t0\t{node}\n$ cat main src/f107\n> src/f107\n"
    return f"$ init\n$ commit\n{head}{files}< end\n> 0:{node}\n$ verify --jobs 4\n> checked 1 changesets, 300 filelogs, 0 findings\n{asked}"


def play(name, text, program, checks):
    with tempfile.TemporaryDirectory() as folder:
        for number, step in enumerate(steps_of(text)):
            fault = faults_of(step, program, folder)
            checks.check(f"{name}, step {number}, {step.line}: {fault}", fault is None)


def main():
    program, checks = built_program(), Checks()
    for path in sorted(glob.glob(os.path.join(HERE, "transcripts/*.txt"))):
        with open(path, encoding="utf-8") as file:
            play(os.path.basename(path), file.read(), program, checks)
    play("many files", many_files(), program, checks)
    print(checks)
    sys.exit(checks.failed > 0 or checks.passed == 0)


main()

#!/usr/bin/env python3
"""Runs the example of each command of the manual, over a repository of two changesets, and compares what is written. What `COMMAND --help` says
of it on standard error is the manual's, and a command that is misspelt is told the nearest one.

    tests/usages.py [--show]     (prints what each example writes, and compares nothing)

The last line is 'N passed, M failed'.
"""

import os
import re
import shutil
import subprocess
import sys
import tempfile

sys.dont_write_bytecode = True
from checks import HERE, Checks, built_program

sys.path.insert(0, os.path.join(HERE, "..", "tools"))
import usages  # noqa: E402

NEW = {"init", "gen"}  # these make a repository
NEAR = [("lgo", "log"), ("comit", "commit"), ("boomark", "bookmark"), ("branch", "branches"), ("inport", "import"), ("status", None), ("x", None)]


def lay(folder, text):
    os.mkdir(folder)
    with open(os.path.join(folder, "greeting"), "w", encoding="utf-8") as file:
        file.write(text)


def make_story(program, folder):
    """Two changesets, the second with a bookmark; and folders with the files of the next ones."""
    subprocess.run([program, "init"], cwd=folder, check=True)
    for text, message, date, mark in (("hello\n", "first", "0 0", []), ("hello\nworld\n", "second", "60 0", ["--bookmark", "main"])):
        tree = os.path.join(folder, "tree")
        shutil.rmtree(tree, ignore_errors=True)
        lay(tree, text)
        words = [os.path.join(HERE, "..", "bin", "record"), "-m", message, "-u", "Ada <ada@example.org>", "-d", date, *mark, tree]
        record = subprocess.run(words, stdout=subprocess.PIPE, check=True).stdout
        subprocess.run([program, "commit"], cwd=folder, input=record, stdout=subprocess.DEVNULL, check=True)
    shutil.rmtree(tree)
    lay(tree, "hello\nworld, again\n")
    lay(os.path.join(folder, "other"), "good bye\n")


def run_line(line, folder, program):
    """What a line of a shell writes, in which bin/hg_store is the program."""
    words = os.path.join(folder, "words")
    if not os.path.isdir(words):
        os.mkdir(words)
        os.symlink(program, os.path.join(words, "hg_store"))
        os.symlink(os.path.realpath(os.path.join(HERE, "..", "bin")), os.path.join(folder, "bin"))
    env = dict(os.environ, PATH=f"{words}:{os.environ['PATH']}")
    return subprocess.run(["bash", "-c", line], cwd=folder, env=env, stdout=subprocess.PIPE, stderr=subprocess.DEVNULL, check=False).stdout.decode()


def main():
    program = built_program()
    checks = Checks()
    commands = usages.commands_of_manual()
    with tempfile.TemporaryDirectory() as work:
        story = os.path.join(work, "story")
        os.mkdir(story)
        make_story(program, story)
        for number, command in enumerate(commands):
            folder = os.path.join(work, str(number))
            os.mkdir(folder) if command.name in NEW else shutil.copytree(story, folder)
            wanted = re.findall(r"^\$ (.*)\n((?:(?!\$ ).*\n)*)", command.example, re.MULTILINE)
            checks.check(f"{command.usage}: an example", wanted != [])
            for line, lines in wanted:
                written = run_line(line, folder, program)
                if "--show" in sys.argv:
                    print(f"$ {line}\n{written}", end="")
                else:
                    checks.check(f"{line}: {written}", written == lines)
    for name in {command.name for command in commands}:
        ended = subprocess.run([program, name, "--help"], capture_output=True, check=False)
        text = usages.text_of([command for command in commands if command.name == name])
        checks.check(f"{name} --help", (ended.returncode, ended.stdout.decode(), ended.stderr.decode()) == (28, "abort: bad word 1\n", text))
    for word, near in NEAR:
        said = subprocess.run([program, word], capture_output=True, check=False).stderr.decode()
        hint = f"hg_store: there is no command {word}" + (f"; did you mean {near}?" if near else "") + "\n"
        checks.check(f"{word}: {said}", said.startswith(hint))
    print(checks)
    sys.exit(checks.failed > 0)


main()

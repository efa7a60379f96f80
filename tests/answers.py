#!/usr/bin/env python3
"""Compares the hints of the program with those of docs/ANSWERS.md, the pages that it shows with what stands elsewhere, and the
example of README.md with what it writes; and looks whether each status has a row in tests/worlds.sh or tests/stores.py, which compare its line and hint.

The last line is 'N passed, M failed'.
"""

import os
import re
import shutil
import subprocess
import sys
import tempfile

sys.dont_write_bytecode = True
import stores  # noqa: E402

top = os.path.dirname(os.path.dirname(os.path.abspath(__file__)))


def read(name):
    with open(os.path.join(top, name), encoding="utf-8") as file:
        return file.read()


def hints_of_program():
    arms = re.findall(r'(\d+) => Some\(\s*"((?:[^"\\]|\\.)*)",?\s*\)', read("crates/hg_store/src/hints.rt"))
    return dict(arms)


def hints_of_document():
    part = read("docs/ANSWERS.md").split("## Hints")[1].split("## Limits")[0]
    return dict(re.findall(r"^\| (\d+) \| (.*) \|$", part, re.MULTILINE))


def statuses(name, pattern):
    return set(re.findall(pattern, read(name), re.MULTILINE)) - {"0"}


# They take two texts behind the same nodes of parents, or two paths, with one SHA-1: none are known.
WITHOUT_ROW = {"21", "22"}


def statuses_of_rows():
    """Those that a row of the two scripts has."""
    rows = statuses("tests/worlds.sh", r"^\w+\|\w+\|(\d+)\|")
    return rows | {str(row[3]) for row in stores.ROWS + stores.COMMANDS} - {"0"}


def page(program, word):
    ended = subprocess.run([program, word], capture_output=True, text=True, check=True)
    return ended.stdout


def main():
    program = subprocess.run([os.path.join(top, "bin/hg_store"), "--build"], capture_output=True, text=True, check=True).stdout.strip()
    help_page = page(program, "--help")
    answers = statuses("docs/ANSWERS.md", r"^\| (\d+) \| (?:`abort|`no interrupted|`checked| ?\| the system failed a write)")
    kit = subprocess.run(["rt", "version"], capture_output=True, text=True, check=True).stdout.strip()
    checks = [
        ("hints", hints_of_program() == hints_of_document() and len(hints_of_document()) == len(answers)),
        ("statuses of the manual", statuses("man/hg_store.1", r"^\.It (\d+)$") == answers),
        ("statuses with a row", statuses_of_rows() == answers - WITHOUT_ROW),
        ("statuses of the help", set(re.findall(r"^ +(\d+) ", help_page, re.MULTILINE)) - {"0"} == answers),
        ("commands of the manual", all(re.search(rf"^\.(It|Cm).*\b{word}\b", read("man/hg_store.1"), re.MULTILINE) for word in commands(help_page))),
        ("the kit", kit in page(program, "--version") and kit in read("README.md")),
        ("the example of README.md", shown_in_readme(program)),
    ]
    for what, holds in checks:
        if not holds:
            print(f"{what}: not the same everywhere")
    failed = sum(not holds for _, holds in checks)
    print(f"{len(checks) - failed} passed, {failed} failed")
    return failed != 0


def shown_in_readme(program):
    """Whether the lines behind each command of README.md stand in what it writes over a store that Mercurial made."""
    blocks = re.findall(r"^    \$ bin/hg_store (.*)\n((?:    [^$\n]+\n)+)", read("README.md"), re.MULTILINE)
    with tempfile.TemporaryDirectory() as folder:
        shutil.copytree(os.path.join(top, "tests/fixtures/separate"), os.path.join(folder, ".hg"))
        for words, lines in blocks:
            written = subprocess.run([program, *words.split()], capture_output=True, text=True, check=True, cwd=folder).stdout
            wanted = [line[4:] for line in lines.splitlines() if line[4:] != ".."]
            if not all(line in written.splitlines() for line in wanted):
                return False
    return blocks != []


def commands(help_page):
    return re.findall(r"^  ([a-z]+)\b", help_page, re.MULTILINE)


sys.exit(main())

"""What scripts of checks share: counting, the program, and the bytes of a repository's files."""

import os
import re
import subprocess

HERE = os.path.dirname(os.path.abspath(__file__))


class Checks:
    """Counts what holds, and shows what does not."""

    def __init__(self):
        self.passed = self.failed = self.skipped = 0

    def __str__(self):
        skipped = f", {self.skipped} skipped" if self.skipped else ""
        return f"{self.passed} passed, {self.failed} failed{skipped}"

    def check(self, what, holds):
        if holds:
            self.passed += 1
        else:
            self.failed += 1
            print(what)


def built_program():
    """The path of the program, which is built first where that is needed."""
    built = subprocess.run([os.path.join(HERE, "../bin/hg_store"), "--build"], stdout=subprocess.PIPE, text=True, check=True)
    return built.stdout.strip()


def hint_of(status):
    """What docs/ANSWERS.md has a person read at this status, as the program writes it on standard error."""
    with open(os.path.join(HERE, "../docs/ANSWERS.md"), encoding="utf-8") as document:
        hints = document.read().split("## Hints")[1].split("## Limits")[0]
    found = re.search(rf"^\| {status} \| (.*) \|$", hints, re.MULTILINE)
    return f"hg_store: {found[1]}\n".encode() if found else b""


def bytes_of(folder):
    """The files below the folder's .hg that have bytes: their names in it, and these."""
    found = {}
    root = os.path.join(folder, ".hg")
    for above, _, names in os.walk(root):
        for name in names:
            path = os.path.join(above, name)
            with open(path, "rb") as file:
                found[os.path.relpath(path, root)] = file.read()
    return {path: data for path, data in found.items() if data}


def lay(folder, files):
    """Lays these files, by their names in it, into the folder's .hg."""
    for name, data in files.items():
        path = os.path.join(folder, ".hg", name)
        os.makedirs(os.path.dirname(path), exist_ok=True)
        with open(path, "wb") as file:
            file.write(data)


def built_shim(folder, name):
    """The path of the library of this C file here, which stands between a program and the system; it is built in the folder."""
    shim = os.path.join(folder, f"{name}.so")
    subprocess.run(["cc", "-shared", "-fPIC", "-O1", "-o", shim, os.path.join(HERE, f"{name}.c"), "-ldl"], check=True)
    return shim

#!/usr/bin/env python3
"""Looks over the tree itself: what holds of every crate and is no matter of a proof.

Each line of crates.txt names only lines above it, or libraries that are no crates of the tree; a crate names nothing of another
crate's `proofs/` but what the checker itself makes there; no definition cites a theorem; the text that a must-fail edit replaces, also one that
stands aside, stands once; no module is called `out`; `HANDLES` has its one line. The last line is 'N passed, M failed'.
"""

import functools
import os
import re
import subprocess
import sys

# `rt` sums a crate's files once for each path of crates.txt that leads down to it
MOST_PATHS = 112_000
# one edit of a crate costs what its check from nothing does; of several each costs a check, and all of them one of the crate and another at the end
MOST_EDITS, MOST_OF_A_CRATE, MOST_WITH_EDITS = 73, 5, 37

top = os.path.dirname(os.path.dirname(os.path.abspath(__file__)))
os.chdir(top)
# (`TheSendSync` is no file of the crate: the checker makes it, and it says whether a type may go to another thread)
own_proofs = re.compile(r"\bRattle\.(\w+)\.proofs\.(?![\w.]*\.TheSendSync\b)")


def text_of(path):
    with open(path, encoding="utf-8") as file:
        return file.read()


def lists_of_crates():
    """Each crate with the crates of the tree that it names, in the order of crates.txt."""
    for line in text_of("crates.txt").splitlines():
        if not line.startswith("#"):
            name, libraries = line.split(":")
            yield name, [library for library in libraries.split() if os.path.isdir(f"crates/{library}")]


def faults_of_crates():
    above = set()
    for name, libraries in lists_of_crates():
        for library in libraries:
            if library not in above:
                yield f"crates.txt: {name} stands above {library}"
        above.add(name)
    for name in os.listdir("crates"):
        if name not in above:
            yield f"crates.txt lacks {name}"


def faults_of_cost(paths):
    named = dict(lists_of_crates())
    paths_down = functools.cache(lambda name: 1 + sum(map(paths_down, named[name])))
    libraries = [name for name in named if os.path.exists(f"crates/{name}/src/lib.rt")]
    if sum(map(paths_down, libraries)) > MOST_PATHS:
        yield f"crates.txt: {sum(map(paths_down, libraries))} paths from the libraries"
    edits = [path.split("/")[1] for path in paths if re.fullmatch(r"crates/\w+/must-fail/[^/]*\.edit", path)]
    if len(edits) > MOST_EDITS:
        yield f"{len(edits)} edits"
    if len(set(edits)) > MOST_WITH_EDITS:
        yield f"{len(set(edits))} crates with edits"
    yield from (f"{edits.count(name)} edits of {name}" for name in named if edits.count(name) > MOST_OF_A_CRATE)
    for path in paths:
        if path.startswith("crates/hg_store/src/") and "#[test]" in text_of(path):
            yield f"{path}: a test in the program's crate, which is proved twice and linked for each edit"


def faults_of_names(path):
    crate, folder = path.split("/")[1:3]
    text = text_of(path)
    for other in set(own_proofs.findall(text)) - {crate, "std", "core"}:
        if os.path.isdir(f"crates/{other}"):
            yield f"{path} names proofs of {other}"
    if folder == "specs" and "/Theorems" not in path and ".specs.Theorems" in text:
        yield f"{path} cites a theorem"


def faults_of_edit(path):
    crate = path.split("/must-fail/")[0]
    words = re.findall(r"^(file|old|new): (.*)$", text_of(path), re.M)
    if not words[0][1].startswith("src/"):
        yield f"{path} changes no code"
    text = text_of(os.path.join(crate, words[0][1]))
    # its pairs are made one after another
    for (_, old), (_, new) in zip(words[1::2], words[2::2]):
        if text.count(old) != 1:
            yield f"{path}: {old!r} does not stand once"
        text = text.replace(old, new)


def faults_of_crate(name, paths):
    for path in paths:
        if path.startswith(f"crates/{name}/"):
            if re.search(r"(^|/)out(/|\.rt$|\.antt$)", path):
                yield f"{path}: a module called `out`"
            if path.endswith((".antt", ".rt")):
                yield from faults_of_names(path)


def main():
    paths = subprocess.run(["git", "ls-files"], stdout=subprocess.PIPE, text=True, check=True).stdout.split()
    looks = [list(faults_of_crates()), list(faults_of_cost(paths))]
    looks.append([] if text_of("HANDLES") == "Handles allowed: Threads, Wait.\n" else ["HANDLES is another"])
    looks += [list(faults_of_crate(name, paths)) for name in sorted(os.listdir("crates"))]
    looks += [list(faults_of_edit(path)) for path in paths if path.endswith(".edit") or "/must-fail/retired/" in path]
    for faults in looks:
        for fault in faults:
            print(f"FAILED {fault}")
    failed = sum(1 for faults in looks if faults)
    print(f"{len(looks) - failed} passed, {failed} failed")
    return 1 if failed else 0


if __name__ == "__main__":
    sys.exit(main())

#!/usr/bin/env python3
"""Proves and builds the libraries that a crate stands on, several at a time, each once those below it are built.

    tools/build_below.py hg_store

`rt` builds one after another, and one that runs keeps others out of all folders that it reads. So each works on a copy of the
sources, beside links to the libraries that are built. There are as many as there are processors, with 4 GiB of memory for each.
The copies stand outside the repository, where what a killed build leaves is in nobody's way; the next build removes it.
A library that stands is left as it is: `rt` builds it anew where its sources have changed since.
"""

import concurrent.futures
import errno
import fcntl
import hashlib
import os
import pathlib
import shutil
import subprocess
import sys
import tempfile

TOP = pathlib.Path(__file__).resolve().parent.parent
MEMORY_OF_EACH = 4 << 30


def libraries_of_each():
    """The repository's own libraries that each crate names."""
    named = {}
    for line in (TOP / "crates.txt").read_text().splitlines():
        if line and not line.startswith("#"):
            crate, _, libraries = line.partition(":")
            named[crate] = libraries.split()
    return {crate: [it for it in libraries if it in named] for crate, libraries in named.items()}


def below(crate, named):
    """All that the crate stands on, lowest first."""
    found = {}

    def add(name):
        for library in named[name]:
            if library not in found:
                add(library)
                found[library] = True

    add(crate)
    return list(found)


def is_built(crate):
    return (TOP / "crates" / crate / "out" / "rlib" / "stamp").exists()


def link_or(otherwise):
    """How a file gets a second name, and what is done where that would stand on another disk."""

    def make(source, target):
        try:
            os.link(source, target)
        except OSError as error:
            if error.errno != errno.EXDEV:
                raise
            otherwise(source, target)

    return make


def put(source, target, make):
    """Makes a folder with the files of another, in place of what stands there."""
    new = target.with_name("new")
    shutil.rmtree(new, ignore_errors=True)
    shutil.copytree(source, new, copy_function=make)
    shutil.rmtree(target, ignore_errors=True)
    new.rename(target)


def new_room(above):
    """A copy of the sources, without what was built of them."""
    room = pathlib.Path(tempfile.mkdtemp(dir=above))
    shutil.copy2(TOP / "crates.txt", room)
    shutil.copytree(TOP / "crates", room / "crates", ignore=shutil.ignore_patterns("out", "must-fail"))
    return room


def build(crate, libraries, room, jobs):
    """Builds a crate in a room, and keeps what was built."""
    for name in libraries:
        put(TOP / "crates" / name / "out" / "rlib", room / "crates" / name / "out" / "rlib", link_or(os.symlink))
    words = [TOP / "tools" / "rt_once.py", "lib", "--jobs", str(jobs)]
    ended = subprocess.run(words, cwd=room / "crates" / crate, stdin=subprocess.DEVNULL, capture_output=True, text=True)
    if ended.returncode == 0:
        put(room / "crates" / crate / "out" / "rlib", TOP / "crates" / crate / "out" / "rlib", link_or(shutil.copy2))
    return ended


def build_all(crates, named, rooms):
    """Builds those that do not stand, first those on which most others stand."""
    stand_on = {it: sum(it in below(other, named) for other in crates) for it in crates}
    built, running = set(filter(is_built, crates)), {}
    left = sorted((it for it in crates if it not in built), key=stand_on.get, reverse=True)
    with concurrent.futures.ThreadPoolExecutor(len(rooms)) as pool:
        while left or running:
            ready = [it for it in left if built.issuperset(named[it])][: len(rooms)]
            jobs = max(2, (len(rooms) + len(running)) // max(1, len(ready) + len(running)))
            for crate in ready:
                left.remove(crate)
                room = rooms.pop()
                running[pool.submit(build, crate, below(crate, named), room, jobs)] = crate, room
            for done in concurrent.futures.wait(running, return_when=concurrent.futures.FIRST_COMPLETED).done:
                (crate, room), ended = running.pop(done), done.result()
                rooms.append(room)
                if ended.returncode:
                    pool.shutdown(cancel_futures=True)
                    sys.exit(f"{crate}: {ended.stdout}{ended.stderr}")
                built.add(crate)
                print(f"{len(built)} of {len(crates)} crates are proved: {crate}", file=sys.stderr)


def main():
    alone = os.open(TOP / "crates", os.O_RDONLY)
    fcntl.flock(alone, fcntl.LOCK_EX)
    named = libraries_of_each()
    crates = below(sys.argv[1], named)
    if all(map(is_built, crates)):
        return
    memory = os.sysconf("SC_PHYS_PAGES") * os.sysconf("SC_PAGE_SIZE")
    places = max(1, min(len(os.sched_getaffinity(0)), memory // MEMORY_OF_EACH))
    prefix = f"hg_store-building-{hashlib.sha256(os.fsencode(TOP)).hexdigest()[:12]}-"
    for left in pathlib.Path(tempfile.gettempdir()).glob(prefix + "*"):
        shutil.rmtree(left, ignore_errors=True)
    with tempfile.TemporaryDirectory(prefix=prefix) as above:
        build_all(crates, named, [new_room(above) for _ in range(places)])


main()

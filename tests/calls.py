#!/usr/bin/env python3
"""Watches what the edge to the system asks of it, with `strace`.

What makes bytes and names last stands in an order: the bytes of a file by its own `fsync`, and names by `fsync` of their folder
(manual page fsync(2)), the folders that were changed first, first; a new object settles all folders of the store before,
those below first, then the folder itself and the one above. A copy of a file that has several names lasts, and its name does, before
anything is written to it. A pipe in place of a file is not opened. Each allocation is refused in turn, and no folder
whose names changed is left out. It is seen in the tests of `hgs_os_examples`, whose program `rt ci` leaves behind. And each question of the program
opens files in the order of a load, and none for writing.

Where `strace` is missing and cannot be installed, all of this is skipped; without a C compiler, the refused allocations. The last line is 'N passed, M failed' or 'N passed, M failed, K skipped'.
"""

import itertools
import os
import re
import shutil
import subprocess
import sys
import tempfile

sys.dont_write_bytecode = True
from checks import built_shim

top = os.path.dirname(os.path.dirname(os.path.abspath(__file__)))
tests = os.path.join(top, "crates/hgs_os_examples/out/hgs_os_examples_tests")
watched = "openat,write,ftruncate,mkdir,rename,unlink,fsync,fdatasync"

# Of each test the calls that change or settle something, up to the removal of its folder; `-` is the folder itself.
lasting = {
    "files_are_written_and_read": [
        *["mkdir -/store", "mkdir -/store/data", "write -/store/data/a.i", "write -/store/data/a.i"],
        *["ftruncate -/store/data/a.i", "fsync -/store/data/a.i", "write -/b", "rename -/b -/store/data/a.i"],
        # all of the store, since the object is new; nothing else was changed
        *["fsync -/store/data", "fsync -/store", "fsync -"],
        *["write -/b", "unlink -/b"],
    ],
    "folders_that_were_made_settle": [
        *["mkdir -/one", "mkdir -/one/two", "mkdir -/one/two/own", "mkdir -/one/two/own/store", "write -/one/two/own/store/a"],
        *["fsync -/one/two/own/store", "fsync -/one/two/own", "fsync -/one/two", "fsync -/one", "fsync -"],
    ],
    "a_new_object_settles_what_another_left": [
        *["mkdir -/.hg", "mkdir -/.hg/store", "mkdir -/.hg/store/data", "mkdir -/.hg/store/data/sub"],
        *["write -/.hg/store/data/sub/a.i", "write -/.hg/b"],
        *["fsync -/.hg/store/data/sub", "fsync -/.hg/store/data", "fsync -/.hg/store", "fsync -/.hg", "fsync -"],
        # then what was changed, in the order of its last change; an append to a file that stands changes no name
        *["write -/.hg/c", "write -/.hg/store/d", "unlink -/.hg/c", "write -/.hg/store/d"],
        *["fsync -/.hg/store", "fsync -/.hg"],
    ],
    "copies_are_made_over_nothing": [
        *["write -/a", "write -/b", "unlink -/a.hg_store-copy"],
        *["write -/a.hg_store-copy", "fsync -/a.hg_store-copy", "rename -/a.hg_store-copy -/a", "fsync -"],
        *["write -/a", "fsync -/a", "fsync -"],
    ],
    # the folder above the pipe, which is taken for a folder
    "what_is_no_file_is_not_opened": ["fsync -"],
}

# Of each question the files that it opens, in the order of a load and then of nodes.
load = ["requires", "bookmarks", "dirstate", "store/00changelog.i", "store/phaseroots"]
change = ["store/00changelog.d"]
manifest = ["store/00manifest.i", "store/00manifest.d"]
opened = {
    "heads": load,
    "bookmarks": load,
    "parents": load,
    "log": load + change,
    "phase tip": load,
    "files tip": load + change + manifest,
    "cat tip src/d0/file0.txt": load + change + manifest + ["store/data/src/d0/file0.txt.i", "store/data/src/d0/file0.txt.d"],
}


def has_strace():
    if not shutil.which("strace") and os.geteuid() == 0 and shutil.which("apt-get"):
        for words in (["update", "-qq"], ["install", "-y", "-qq", "strace"]):
            env = dict(os.environ, DEBIAN_FRONTEND="noninteractive")
            subprocess.run(["apt-get", *words], env=env, stdout=subprocess.DEVNULL, stderr=subprocess.DEVNULL)
    return shutil.which("strace") is not None


def calls(words, where, *options):
    """The calls of a program: name, paths, flags of each that succeeded; and whether it ended well."""
    with tempfile.NamedTemporaryFile("r") as trace:
        strace = ["strace", "-f", "-y", "-qq", "-s0", "-o", trace.name, "-e", "trace=" + watched, *options]
        env = dict(os.environ, TMPDIR=where)
        ended = subprocess.run(strace + words, cwd=where, env=env, stdout=subprocess.PIPE, stderr=subprocess.STDOUT, timeout=60, check=False)
        said = []
        for line in trace:
            found = re.match(r"\d+ +(\w+)\((.*)\) += (\d+)", line)
            if found:
                name, words, _ = found.groups()
                paths = re.findall(r'"(/[^"]*|\.[^"]*)"', words) or re.findall(r"^\d+<([^>]*)>", words)
                said.append((name, paths, words))
    return said, ended


def in_folder(said):
    """The calls below the test's folder, from its making to the first look at what is to be removed."""
    folder = None
    for name, paths, words in said:
        if name == "mkdir" and folder is None:
            folder = paths[0]
        elif folder and all(path.startswith(folder) for path in paths):
            yield name, [path.replace(folder, "-", 1) for path in paths], words


def lasting_calls(test, where):
    said, ended = calls([tests, "calls::" + test], where)
    if ended.returncode:
        return ended.stdout
    return [" ".join([name] + paths) for name, paths, _ in in_folder(said) if name != "openat"]


def unsettled(said):
    """The folders in which a name changed, and which no fsync was asked of behind that."""
    stands, changed = set(), set()
    for name, paths, words in in_folder(said):
        if name == "fsync":
            changed -= set(paths)
        elif name in ("mkdir", "rename", "unlink") or (name == "openat" and "O_CREAT" in words and paths[0] not in stands):
            changed |= {os.path.dirname(path) for path in paths}
            stands |= {paths[-1]}
        if name in ("rename", "unlink"):
            stands -= {paths[0]}
    return changed


def refuse_each(where):
    """Each allocation of a test is refused. Of each run that ended well, which are most, the folders that it left out."""
    shim, left, ended_well = built_shim(where, "refused_allocation"), set(), 0
    for number in itertools.count(1):
        options = ["-E", f"LD_PRELOAD={shim}", "-E", f"FAIL_ALLOCATION={number}"]
        # in a folder of its own, since a run that fails leaves its files, and each next one asks for more
        with tempfile.TemporaryDirectory(dir=where) as own:
            said, ended = calls([tests, "calls::names_settle_though_memory_was_refused"], own, *options)
        if ended.returncode == 0:
            ended_well += 1
            left |= unsettled(said)
        if b"refused\n" not in ended.stdout:
            return left, ended_well, number - 1


def opened_calls(program, question, where):
    said, writing = [], 0
    seen, ended = calls([program, *question.split()], where)
    ended.check_returncode()
    for name, paths, words in seen:
        if name == "openat":
            inside = [path.split(".hg/", 1)[1] for path in paths if ".hg/" in path]
            said += [path for path in inside if path not in said]
            writing += bool(inside) and "O_RDONLY" not in words
        else:
            writing += any(".hg" in path for path in paths)
    return said, writing


def main():
    passed = failed = skipped = 0

    def judge(what, seen, wanted):
        nonlocal passed, failed
        if seen == wanted:
            passed += 1
        else:
            failed += 1
            print(f"{what}: seen {seen}, wanted {wanted}")

    if not has_strace():
        skipped = len(lasting) + len(opened) + 1
    else:
        with tempfile.TemporaryDirectory() as where:
            os.mkfifo(os.path.join(where, "hg_store-test-pipe"))
            for test, wanted in lasting.items():
                # `rt ci` and `rt test` build the tests' program
                judge(test, lasting_calls(test, where) if os.path.exists(tests) else f"no {tests}", wanted)
            if shutil.which("cc") and os.path.exists(tests):
                left, ended_well, refused = refuse_each(where)
                print(f"{refused} allocations, each refused once; {ended_well} runs ended well")
                judge("folders that were left out", (left, ended_well > refused // 2), (set(), True))
            else:
                skipped += 1
            made = subprocess.run([os.path.join(top, "bin/hg_store"), "--build"], capture_output=True, text=True, check=True)
            shutil.copytree(os.path.join(top, "tests/fixtures/separate"), os.path.join(where, ".hg"))
            for question, wanted in opened.items():
                judge(question, opened_calls(made.stdout.strip(), question, where), (wanted, 0))
    print(f"{passed} passed, {failed} failed" + (f", {skipped} skipped" if skipped else ""))
    sys.exit(failed > 0)


main()

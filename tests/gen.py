#!/usr/bin/env python3
"""`gen`: the repository that a number gives is made anew here, from the rule alone (the numbers of Knuth's generator MMIX, one file of
d0/f0 to d9/f19 written in each changeset), and its last node, its files and its bodies are compared with what the program made. Where
Mercurial is there, it reads and verifies the repository too. The last line is 'N passed, M failed' or 'N passed, M failed, K skipped'.
"""

import hashlib
import shutil
import subprocess
import sys
import tempfile

sys.dont_write_bytecode = True
from checks import Checks, built_program, bytes_of

NULL = bytes(20)


def node_of(parent, text):
    return hashlib.sha1(NULL + parent + text).digest()


def generated(seed, count):
    """The bodies by path, and the node of the last changeset."""
    number, bodies, nodes, manifest, changeset = seed, {}, {}, NULL, NULL
    for made in range(count):
        number = (number * 6364136223846793005 + 1442695040888963407) % 2**64
        path = b"d%d/f%d" % ((number >> 33) % 10, (number >> 40) % 20)
        bodies[path] = b"%d %d\n" % (made, number)
        nodes[path] = node_of(nodes.get(path, NULL), bodies[path])
        manifest = node_of(manifest, b"".join(b"%s\0%s\n" % (name, nodes[name].hex().encode()) for name in sorted(nodes)))
        changeset = node_of(changeset, b"%s\ngen\n%d 0\n%s\n\nc%d" % (manifest.hex().encode(), 60 * made, path, made))
    return bodies, changeset.hex()


def ask(program, folder, *words):
    ended = subprocess.run([program, *words], stdin=subprocess.DEVNULL, stdout=subprocess.PIPE, stderr=subprocess.DEVNULL, cwd=folder, check=False)
    return ended.stdout, ended.returncode


def hg(folder, *words):
    return subprocess.run(["hg", *words], stdout=subprocess.PIPE, stderr=subprocess.STDOUT, cwd=folder, check=False).stdout


def makes(program, checks, seed, count):
    bodies, tip = generated(seed, count)
    with tempfile.TemporaryDirectory() as folder:
        said = ask(program, folder, "gen", str(seed), str(count))
        wanted = b"changesets %d\nfiles %d\ntip %s\nfindings 0\n" % (count, len(bodies), tip.encode())
        checks.check(f"gen {seed} {count}: {said} ({wanted})", said == (wanted, 0))
        for words in (["verify"], ["verify", "--jobs", "1"], ["verify", "--jobs", "8"]):
            said = ask(program, folder, *words)
            checks.check(f"{words} of {seed} {count}: {said}", said == (b"checked %d changesets, %d filelogs, 0 findings\n" % (count, len(bodies)), 0))
        left = [name for name in bytes_of(folder) if "journal" in name or name in ("wlock", "store/lock")]
        checks.check(f"left over by {seed} {count}: {left}", not left)
        for path, body in list(bodies.items())[:5]:
            said = ask(program, folder, "cat", "tip", path.decode())
            checks.check(f"{path} of {seed} {count}: {said}", said == (body, 0))
        said = ask(program, folder, "gen", str(seed), str(count))
        checks.check(f"gen where a repository stands: {said}", said == (b"abort: repository exists\n", 25))
        if shutil.which("hg"):
            checks.check(f"hg verify of {seed} {count}", hg(folder, "verify", "--quiet") == b"")
            checks.check(f"hg log of {seed} {count}", hg(folder, "log", "-r", "tip", "-T", "{rev} {node}") == b"%d %s" % (count - 1, tip.encode()))
        else:
            checks.skipped += 2


LEFTOVER = b"leftover files remain\n"


def said_of(path, is_last, wanted):
    """What `gen` says where this file of a commit could not be removed: a journal that stands leaves its transaction unfinished, a
    lock bars the next commit and is found behind the last one, and of any other file it is said that it remains."""
    if path.endswith(b".hg_store-copy"):  # the name that a new file has while it is made, and which need not stand
        return wanted, 0
    if path == b"store/journal":
        return b"abort: transaction unfinished (published yes)\n", 17
    if path not in (b"store/lock", b"wlock"):
        return wanted + LEFTOVER, 0
    if is_last:
        return wanted.replace(b"findings 0", b"findings 1") + LEFTOVER, 29
    return b"abort: lock held by hg-store\n" + LEFTOVER, 10


def tells_what_is_left(program, checks, count):
    """Each removal of a file fails in turn."""
    bodies, tip = generated(7, count)
    wanted = b"changesets %d\nfiles %d\ntip %s\nfindings 0\n" % (count, len(bodies), tip.encode())
    seen = set()
    for number in range(1, 100):
        with tempfile.TemporaryDirectory() as folder:
            trace = f"{folder}/trace"
            inject = ["strace", "-f", "-qq", "-o", trace, "-e", "trace=unlink", "-e", f"inject=unlink:error=EIO:when={number}"]
            said = subprocess.run([*inject, program, "gen", "7", str(count)], stdin=subprocess.DEVNULL, stdout=subprocess.PIPE, stderr=subprocess.DEVNULL, cwd=folder, check=False)
            with open(trace, "rb") as file:
                calls = [line for line in file if b"unlink(" in line]
        if not any(b"INJECTED" in line for line in calls):
            break
        path = calls[number - 1].split(b'"')[1].split(b".hg/")[1]
        is_last = sum(b"store/journal\"" in line for line in calls[:number]) == count
        seen.add((path, is_last))
        checks.check(f"{path}, {is_last}, not removed: {said.stdout}, {said.returncode}", (said.stdout, said.returncode) == said_of(path, is_last, wanted))
    asked = {(path, last) for path in (b"store/journal", b"store/journal.backupfiles", b"store/lock", b"wlock") for last in ((True,) if count == 1 else (False, True))}
    checks.check(f"removals that failed: {seen}", asked <= seen)


# Words that do not fit, and the place of the first such.
REFUSED = [
    (["gen"], 1),
    (["gen", "1"], 2),
    (["gen", "01", "1"], 1),
    (["gen", str(2**64), "1"], 1),
    (["gen", "1", "0"], 2),
    (["gen", "1", "5001"], 2),
    (["gen", "1", "1", "1"], 3),
]


def main():
    program, checks = built_program(), Checks()
    for seed, count in [(1, 1), (2**64 - 1, 3), (7, 1000)]:
        makes(program, checks, seed, count)
    for count in (1, 2):
        if shutil.which("strace"):
            tells_what_is_left(program, checks, count)
        else:
            checks.skipped += 1
    for words, place in REFUSED:
        with tempfile.TemporaryDirectory() as folder:
            said = ask(program, folder, *words)
            checks.check(f"{words}: {said}", said == (b"abort: bad word %d\n" % place, 28))
    print(checks)
    sys.exit(checks.failed > 0 or checks.passed == 0)


main()

#!/usr/bin/env python3
"""`verify` over small stores that are laid out byte by byte, with each kind of finding that such stores can have, and over the stores of
real Mercurial: what is written, the status, and that no file is changed; that the same is written for each number of jobs, also where
no thread can be had; and that a terminal alone is told how far it is, once it takes longer than a second.

The findings of the small stores are written by hand from the table of kinds in docs/ANSWERS.md. Kind 11 needs two paths with one SHA-1,
so it has no row. The last line is 'N passed, M failed'.
"""

import hashlib
import os
import pty
import re
import resource
import shutil
import signal
import struct
import subprocess
import sys
import tempfile
import time

sys.dont_write_bytecode = True
from checks import HERE, Checks, built_program, bytes_of, lay

NULL = bytes(20)
GONE = b"\xaa" * 20
REQUIRES = b"dotencode\nfncache\nrevlogv1\nstore\n"


def nodes(texts):
    """The nodes of texts, each the child of the one before."""
    found, parent = [], NULL
    for text in texts:
        parent = hashlib.sha1(NULL + parent + text).digest()
        found.append(parent)
    return found


def revlog(*texts):
    """Index and data of the same texts, stored whole behind a `u`."""
    index, data = b"", b""
    for rev, (text, own) in enumerate(zip(texts, nodes(texts))):
        index += struct.pack(">QIIIIii20s12x", len(data) << 16, len(text) + 1, len(text), rev, rev, rev - 1, -1, own)
        data += b"u" + text
    return (b"\0\0\0\x01" + index[4:] if index else b""), data


def inline(*texts):
    """The index of the same revlog with each chunk behind its entry."""
    index, _ = revlog(*texts)
    whole = b"".join(index[64 * rev : 64 * rev + 64] + b"u" + text for rev, text in enumerate(texts))
    return b"\0\1" + whole[2:]


def manifest(node):
    return b"a\0%s\n" % node.hex().encode()


def changeset(node, *files):
    return b"%s\ntest\n0 0\n%s\n%s" % (node.hex().encode(), b"".join(b"%s\n" % path for path in files), b"words")


BODIES = [b"a\n", b"b\n"]
MANIFESTS = [manifest(node) for node in nodes(BODIES)]
CHANGESETS = [changeset(node, b"a") for node in nodes(MANIFESTS)]
ZERO, ONE = nodes(CHANGESETS)
CHANGELOG, CHANGELOG_DATA, MANIFEST, MANIFEST_DATA = (f"store/00{name}.{end}" for name in ("changelog", "manifest") for end in "id")
FILE, FILE_DATA, NAMES, ROOTS = "store/data/a.i", "store/data/a.d", "store/fncache", "store/phaseroots"


def store(changesets, manifests, bodies):
    files = {"requires": REQUIRES}
    files[CHANGELOG], files[CHANGELOG_DATA] = revlog(*changesets)
    files[MANIFEST], files[MANIFEST_DATA] = revlog(*manifests)
    files[FILE], files[FILE_DATA] = revlog(*bodies)
    return {**files, NAMES: b"data/a.i\ndata/a.d\n"}


# Two drafts of one file; the second is the working parent, and a bookmark names the first.
DRAFTS = {
    **store(CHANGESETS, MANIFESTS, BODIES),
    ROOTS: b"1 %s\n" % ZERO.hex().encode(),
    "bookmarks": b"%s main\n" % ZERO.hex().encode(),
    "dirstate": ONE + NULL + struct.pack(">ciiii", b"n", 0o100644, 2, 0, 1) + b"a",
}


# The same with an inline manifest and filelog, and without their data files.
INLINE = {name: data for name, data in DRAFTS.items() if name not in (MANIFEST_DATA, FILE_DATA)}
INLINE |= {MANIFEST: inline(*MANIFESTS), FILE: inline(*BODIES), NAMES: b"data/a.i\n"}

# And with an inline changelog too.
ALL_INLINE = {name: data for name, data in INLINE.items() if name != CHANGELOG_DATA} | {CHANGELOG: inline(*CHANGESETS)}
MOST_INLINE = 16_777_216


def at(name, place, data):
    """The drafts with these bytes at a place of a file."""
    old = DRAFTS[name]
    return {**DRAFTS, name: old[:place] + data + old[place + len(data) :]}


def behind(name, data):
    return {**DRAFTS, name: DRAFTS[name] + data}


def without(*names):
    return {name: data for name, data in DRAFTS.items() if name not in names}


# What is found besides where the second changeset of the inline drafts, or both, cannot be read.
SECOND_LOST = [f"{MANIFEST} 1 6", f"{FILE} 1 6", "dirstate - 15"]
BOTH_LOST = [f"{MANIFEST} 0 6", f"{MANIFEST} 1 6", f"{ROOTS} 1 13", "bookmarks 1 14", "dirstate - 15", f"{FILE} - 12"]

# A store, its findings, and how many changesets and filelogs are checked.
ROWS = [
    ({"requires": REQUIRES}, [], 0, 0),
    (DRAFTS, [], 2, 1),
    ({**DRAFTS, "store/undo": b"x"}, [], 2, 1),  # a file that nothing names
    # a journal, and locks
    ({**DRAFTS, "store/journal": b""}, ["store/journal - 1"], 2, 1),
    ({**DRAFTS, "wlock": b"w", "store/lock": b""}, ["store/lock - 2", "wlock - 2"], 2, 1),
    # a byte of a text, of a file and of the last changeset, and what hangs on them
    (at(FILE_DATA, 1, b"x"), [f"{FILE} 0 3", f"{FILE} 0 5", f"{FILE} 1 5"], 2, 1),
    (at(CHANGELOG_DATA, len(CHANGESETS[0]) + 2, b"x"), [f"{CHANGELOG} 1 3", f"{MANIFEST} 1 6", f"{FILE} 1 6", "dirstate - 15"], 1, 1),
    # texts that are out of form
    ({**DRAFTS, ROOTS: b"x"}, [f"{ROOTS} - 4"], 2, 1),
    ({**DRAFTS, "bookmarks": b"x"}, ["bookmarks - 4"], 2, 1),
    ({**DRAFTS, "dirstate": bytes(39)}, ["dirstate - 4"], 2, 1),
    ({**DRAFTS, NAMES: b"data/a"}, [f"{NAMES} - 4"], 2, 1),
    (store([b"x"], [], []), [f"{CHANGELOG} 0 4"], 1, 0),
    (store([changeset(nodes([b"x"])[0])], [b"x"], []), [f"{MANIFEST} 0 4"], 1, 0),
    # revisions that are not there, that nobody names, with another link, with parents the other way round
    (without(FILE, FILE_DATA), [f"{FILE} 0 5", f"{FILE} 1 5"], 2, 1),
    (store([CHANGESETS[0]], [], []), [f"{MANIFEST} 0 5"], 1, 0),
    ({**DRAFTS, **{name: data for name, data in store([], [], [*BODIES, b"c\n"]).items() if name in (FILE, FILE_DATA)}}, [f"{FILE} 2 6"], 2, 1),
    (at(FILE, 20, b"\0\0\0\1"), [f"{FILE} 0 7"], 2, 1),
    (at(CHANGELOG, 84, b"\0\0\0\0"), [f"{CHANGELOG} 1 7"], 2, 1),
    (at(FILE, 64 + 24, b"\xff\xff\xff\xff\0\0\0\0"), [f"{FILE} 1 8"], 2, 1),
    # a list of changed files that lacks one, and one that has one more
    (store([changeset(nodes(MANIFESTS)[0])], MANIFESTS[:1], BODIES[:1]), [f"{CHANGELOG} 0 9"], 1, 1),
    (store([changeset(nodes(MANIFESTS)[0], b"a"), changeset(nodes(MANIFESTS)[0], b"a")], MANIFESTS[:1], BODIES[:1]), [f"{CHANGELOG} 1 9", f"{MANIFEST} 0 8"], 2, 1),
    # names of files
    ({**DRAFTS, NAMES: b"data/a.i\n"}, [f"{FILE_DATA} - 10"], 2, 1),
    ({**behind(NAMES, b"data/z.i\n"), "store/data/z.i": b"?"}, ["store/data/z.i - 12"], 2, 1),
    # nodes of no changeset, and other tracked paths
    (behind(ROOTS, b"2 %s\n" % GONE.hex().encode()), [f"{ROOTS} 2 13"], 2, 1),
    (behind("bookmarks", b"%s gone\n" % GONE.hex().encode()), ["bookmarks 2 14"], 2, 1),
    ({**DRAFTS, "dirstate": GONE + NULL}, ["dirstate - 15"], 2, 1),
    ({**DRAFTS, "dirstate": ONE + NULL}, ["dirstate - 16"], 2, 1),
    # bytes behind the last revision
    (behind(CHANGELOG, bytes(63)), [f"{CHANGELOG} 2 17"], 2, 1),
    (behind(MANIFEST_DATA, b"x"), [f"{MANIFEST_DATA} 2 17"], 2, 1),
    (behind(FILE, b"x"), [f"{FILE} 2 17"], 2, 1),
    # inline revlogs: whole, with files beside that are no part of them, and with a listed name of one that is not there
    (INLINE, [], 2, 1),
    ({**INLINE, MANIFEST_DATA: b"?", FILE_DATA: b"?"}, [], 2, 1),
    ({**INLINE, NAMES: DRAFTS[NAMES]}, [], 2, 1),
    ({**INLINE, NAMES: b""}, [f"{FILE} - 10"], 2, 1),
    # the last chunk cut, a byte behind it, and a byte of the first text
    ({**INLINE, FILE: INLINE[FILE][:-1]}, [f"{FILE} 1 5", f"{FILE} 1 17"], 2, 1),
    ({**INLINE, MANIFEST: INLINE[MANIFEST] + b"x"}, [f"{MANIFEST} 2 17"], 2, 1),
    ({**INLINE, FILE: INLINE[FILE][:65] + b"x" + INLINE[FILE][66:]}, [f"{FILE} 0 3", f"{FILE} 0 5", f"{FILE} 1 5"], 2, 1),
    # the first chunk cut: no whole entry is left
    # cut in its first entry it is inline still, and with fewer bytes than the header has it is separate
    *(({**INLINE, FILE: INLINE[FILE][:size]}, [f"{FILE} 0 5", f"{FILE} 0 17", f"{FILE} 1 5"], 2, 1) for size in (66, *range(4, 64))),
    ({**INLINE, FILE: INLINE[FILE][:3]}, [f"{FILE} 0 5", f"{FILE} 0 17", f"{FILE} 1 5", f"{FILE_DATA} - 10"], 2, 1),
    # a stored length with its sign set, a flag of the header that none has, and another version
    ({**INLINE, FILE: INLINE[FILE][:8] + b"\x80" + INLINE[FILE][9:]}, [f"{FILE} 0 3", f"{FILE} 0 5", f"{FILE} 1 5"], 2, 1),
    ({**INLINE, FILE: b"\0\5" + INLINE[FILE][2:]}, [f"{FILE} 0 3", f"{FILE} 0 5", f"{FILE} 1 5", f"{FILE_DATA} - 10"], 2, 1),
    ({**INLINE, FILE: b"\0\1\0\2" + INLINE[FILE][4:]}, [f"{FILE} 0 3", f"{FILE} 0 5", f"{FILE} 1 5", f"{FILE_DATA} - 10"], 2, 1),
    # an inline changelog: whole, with a data file beside it, and with one byte behind it
    (ALL_INLINE, [], 2, 1),
    ({**ALL_INLINE, CHANGELOG_DATA: b"?"}, [], 2, 1),
    ({**DRAFTS, CHANGELOG: inline(*CHANGESETS)}, [], 2, 1),
    ({**ALL_INLINE, CHANGELOG: ALL_INLINE[CHANGELOG] + b"x"}, [f"{CHANGELOG} 2 17"], 2, 1),
    # its last byte changed, and cut; without its second changeset nothing names what is of it
    ({**ALL_INLINE, CHANGELOG: ALL_INLINE[CHANGELOG][:-1] + b"x"}, [f"{CHANGELOG} 1 3", *SECOND_LOST], 1, 1),
    ({**ALL_INLINE, CHANGELOG: ALL_INLINE[CHANGELOG][:-1]}, [f"{CHANGELOG} 1 17", *SECOND_LOST], 1, 1),
    # its first chunk cut, a stored length with its sign set, and another version: no changeset is left
    ({**ALL_INLINE, CHANGELOG: ALL_INLINE[CHANGELOG][:66]}, [f"{CHANGELOG} 0 17", *BOTH_LOST], 0, 0),
    # cut in its first entry: inline still, so that a data file beside it is not looked at
    *(({**ALL_INLINE, CHANGELOG: ALL_INLINE[CHANGELOG][:size], CHANGELOG_DATA: b"?"}, [f"{CHANGELOG} 0 17", *BOTH_LOST], 0, 0) for size in range(4, 64)),
    ({**ALL_INLINE, CHANGELOG: ALL_INLINE[CHANGELOG][:8] + b"\x80" + ALL_INLINE[CHANGELOG][9:]}, [f"{CHANGELOG} 0 3", *BOTH_LOST], 0, 0),
    ({**ALL_INLINE, CHANGELOG: b"\0\1\0\2" + ALL_INLINE[CHANGELOG][4:]}, [f"{CHANGELOG} 0 3", *BOTH_LOST], 0, 0),
    # the greatest length of an inline changelog and manifest
    *(({**ALL_INLINE, name: ALL_INLINE[name].ljust(MOST_INLINE, b"\x7f")}, [f"{name} 2 17"], 2, 1) for name in (CHANGELOG, MANIFEST)),
]

# The most bytes of each small file.
MOST_BYTES = (("bookmarks", 16_777_216), ("dirstate", 33_554_432), ("store/phaseroots", 67_108_864))

# A store, the words, what is written, and the status.
REFUSALS = [
    ({}, ["verify"], b"abort: not a repository\n", 24),
    ({**DRAFTS, "requires": b"dotencode\nfncache\ntreemanifest\n"}, ["verify"], b"abort: requirement treemanifest\n", 27),
    *(({**ALL_INLINE, name: ALL_INLINE[name].ljust(MOST_INLINE + 1, b"\x7f")}, ["verify"], b"abort: limit 9\n", 20) for name in (CHANGELOG, MANIFEST)),
    # small files of one byte more than may be read
    *(({**DRAFTS, name: b"\x7f" * (most + 1)}, ["verify"], b"abort: limit 9\n", 20) for name, most in MOST_BYTES),
    # a text that an entry says is longer than 16 MiB
    *((at(name, 12, b"\2"), ["verify"], b"abort: limit 4\n", 20) for name in (CHANGELOG, MANIFEST)),
    (DRAFTS, ["verify", "x"], b"abort: bad word 1\n", 28),
    (DRAFTS, ["verify", "--jobs=2"], b"abort: bad word 1\n", 28),
    (DRAFTS, ["verify", "x", "--jobs", "2"], b"abort: bad word 1\n", 28),
    (DRAFTS, ["verify", "--jobs"], b"abort: bad word 2\n", 28),
    *((DRAFTS, ["verify", "--jobs", number], b"abort: bad word 2\n", 28) for number in ("", "0", "65", "04", "+4", "-1", "4x", "--", str(2**64 + 4))),
    (DRAFTS, ["verify", "--", "--jobs", "2"], b"abort: bad word 2\n", 28),
    (DRAFTS, ["verify", "--jobs", "2", "2"], b"abort: bad word 3\n", 28),
    (DRAFTS, ["verify", "--jobs", "2", "--jobs", "2"], b"abort: bad word 3\n", 28),
    (DRAFTS, ["verify", "--jobs", "2", "--", "x"], b"abort: bad word 4\n", 28),
]

# The words by which a store is verified: each says the same.
WORDS = [["verify"], ["verify", "--"], ["verify", "--jobs", "1"], ["verify", "--jobs", "3"], ["verify", "--jobs", "64", "--"]]


def report(findings, changesets, filelogs):
    ordered = sorted(findings, key=order)
    last = f"checked {changesets} changesets, {filelogs} filelogs, {len(findings)} findings\n"
    return "".join(f"{line}\n" for line in ordered).encode() + last.encode(), 29 if findings else 0


def order(line):
    path, rev, kind = line.rsplit(" ", 2)
    return path.encode(), -1 if rev == "-" else int(rev), int(kind)


def ask(program, folder, *words):
    ended = subprocess.run([program, *words], stdin=subprocess.DEVNULL, stdout=subprocess.PIPE, stderr=subprocess.DEVNULL, cwd=folder, check=False)
    return ended.stdout, ended.returncode


def rows(program, checks):
    wanted = [(files, words, *report(*found)) for files, *found in ROWS for words in (WORDS[0], WORDS[3])]
    wanted += [(DRAFTS, words, *report([], 2, 1)) for words in WORDS]
    for files, words, text, status in wanted + REFUSALS:
        with tempfile.TemporaryDirectory() as folder:
            lay(folder, files)
            before = bytes_of(folder)
            said = ask(program, folder, *words)
            checks.check(f"{words}: {said} ({text}, {status})", said == (text, status))
            checks.check(f"{words}: other files stand", bytes_of(folder) == before)


def wide(count):
    """One changeset of so many files, every third of them inline; and what is found where some of them are damaged."""
    paths = [b"f%03d" % number for number in range(count)]
    bodies = [b"%s\n" % path for path in paths]
    rows_of = b"".join(b"%s\0%s\n" % (path, nodes([body])[0].hex().encode()) for path, body in zip(paths, bodies))
    files = {"requires": REQUIRES, NAMES: b""}
    files[MANIFEST], files[MANIFEST_DATA] = revlog(rows_of)
    files[CHANGELOG], files[CHANGELOG_DATA] = revlog(changeset(nodes([rows_of])[0], *paths))
    for number, (path, body) in enumerate(zip(paths, bodies)):
        name = f"store/data/{path.decode()}"
        if number % 3 == 0:
            files[name + ".i"] = inline(body)
        else:
            files[name + ".i"], files[name + ".d"] = revlog(body)
        files[NAMES] += b"data/%s.i\n" % path + (b"data/%s.d\n" % path if number % 3 else b"")
    findings = []
    # the first and the last file, some between them, and one that the list of names lacks
    for number in {0, 1, 64, 95, 96, 97, count - 1}:
        name = f"store/data/{paths[number].decode()}"
        if number % 3 == 0:
            files[name + ".i"] = files[name + ".i"][:66] + b"?" + files[name + ".i"][67:]
        else:
            files[name + ".d"] = b"u?" + files[name + ".d"][2:]
        findings += [f"{name}.i 0 3", f"{name}.i 0 5"]
    for number in (2, 80):
        name = f"store/data/{paths[number].decode()}"
        files[NAMES] = files[NAMES].replace(b"data/%s.i\ndata/%s.d\n" % (paths[number], paths[number]), b"")
        files[name + ".i"] += b"x"
        findings += [f"{name}.i - 10", f"{name}.d - 10", f"{name}.i 1 17"]
    return files, findings


def without_threads():
    """No thread can be had by the process that calls this."""
    if os.getuid() == 0:
        os.setgid(65534)
        os.setuid(65534)
    resource.setrlimit(resource.RLIMIT_NPROC, (0, 0))


def jobs(program, checks):
    count = 150
    files, findings = wide(count)
    wanted = report(findings, 1, count)
    with tempfile.TemporaryDirectory() as folder:
        lay(folder, files)
        for number in (1, 2, 3, 8, 63, 64):
            said = ask(program, folder, "verify", "--jobs", str(number))
            checks.check(f"{count} files, {number} jobs: {said} ({wanted})", said == wanted)
        for place, _, _ in os.walk(folder):
            os.chmod(place, 0o755)
        shutil.copy(program, os.path.join(folder, "program"))
        words = [os.path.join(folder, "program"), "verify", "--jobs", "8"]
        ended = subprocess.run(words, stdin=subprocess.DEVNULL, stdout=subprocess.PIPE, stderr=subprocess.DEVNULL, cwd=folder, preexec_fn=without_threads, check=False)
        checks.check(f"no threads: {ended}", (ended.stdout, ended.returncode) == wanted)


def all_of(terminal):
    """What a terminal was sent until nobody had it open any more."""
    sent = b""
    while True:
        try:
            more = os.read(terminal, 65_536)
        except OSError:
            return sent
        if not more:
            return sent
        sent += more


def halted(program, folder, pause, is_terminal):
    """What a run writes and says on standard error, where it is halted after this pause for more than a second."""
    near, far = pty.openpty() if is_terminal else os.pipe()
    running = subprocess.Popen([program, "verify"], stdin=subprocess.DEVNULL, stdout=subprocess.PIPE, stderr=far, cwd=folder)
    os.close(far)
    time.sleep(pause)
    running.send_signal(signal.SIGSTOP)
    time.sleep(1.2)
    running.send_signal(signal.SIGCONT)
    written, _ = running.communicate()
    said = all_of(near)
    os.close(near)
    return written, said


def progress(program, checks):
    count = 1_000
    files, findings = wide(count)
    line = re.compile(rb"((\rchecked \d+ of %d files)+)\r {60}\r" % count)
    wanted, _ = report(findings, 1, count)
    with tempfile.TemporaryDirectory() as folder:
        lay(folder, files)
        # when the run is halted on its way and when before or behind it is the system's affair
        pauses = [0.005 * 1.5**number for number in range(12)]
        told = []
        for pause in pauses:
            written, said = halted(program, folder, pause, True)
            checks.check(f"a terminal, {pause}: the same is written", written == wanted)
            if line.match(said):
                told.append(pause)
                break
        checks.check(f"a terminal is told how far it is: {said}", told != [])
        for pause in told:
            written, said = halted(program, folder, pause, False)
            checks.check(f"a pipe is told nothing of it: {said}", written == wanted and b"checked" not in said)
    with tempfile.TemporaryDirectory() as folder:
        lay(folder, DRAFTS)
        near, far = pty.openpty()
        subprocess.run([program, "verify"], stdin=subprocess.DEVNULL, stdout=subprocess.DEVNULL, stderr=far, cwd=folder, check=True)
        os.close(far)
        said = all_of(near)
        checks.check(f"a terminal is told nothing of short work: {said}", said == b"")
        os.close(near)


# What is found in stores that Mercurial made. One has a merge under way, which tracks other paths than its first working parent. Another, in
# which all filelogs are inline, has two merges that keep a file's node of their first parent though the second parent has another one that is no
# ancestor of it: the rules make a revision there, and list the file.
STORES = {
    "odd": lambda findings: findings == ["dirstate - 16"],
    "ordinary": lambda findings: findings == [f"{CHANGELOG} 5 9", f"{CHANGELOG} 10 9", "store/data/src/d1/file1.txt.i 0 8", "store/data/src/d2/file2.txt.i 3 8"],
    "separate": lambda findings: findings == [],
}


def stores_of_mercurial(program, checks):
    for name, is_right in STORES.items():
        with tempfile.TemporaryDirectory() as folder:
            shutil.copytree(os.path.join(HERE, "fixtures", name), os.path.join(folder, ".hg"))
            text, status = ask(program, folder, "verify")
            *findings, last = text.decode().splitlines()
            count = len(ask(program, folder, "log")[0].splitlines())
            checks.check(f"{name}: {last}", last.startswith(f"checked {count} changesets, ") and last.endswith(f" filelogs, {len(findings)} findings"))
            checks.check(f"{name}: status {status}", status == (29 if findings else 0))
            checks.check(f"{name}: {findings}", is_right(findings))


def main():
    program, checks = built_program(), Checks()
    rows(program, checks)
    jobs(program, checks)
    progress(program, checks)
    stores_of_mercurial(program, checks)
    print(f"{checks.passed} passed, {checks.failed} failed")
    sys.exit(checks.failed > 0 or checks.passed == 0)


main()

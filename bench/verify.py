#!/usr/bin/env python3
"""Times `hg_store verify` over stores of many changesets and of many files.

The stores are written here, as Mercurial lays out revlogs (its help topic `internals.revlogs`): each text whole and
uncompressed, all revlogs separate, one linear history. The first changeset has all files, and each later one changes one of
them, or all. Beside it stand `hg verify`, where `hg` is installed, and two measures of what a check of every text costs at least,
each in this one process: the reading of all files with the SHA-1 of their bytes, and with that of every text behind its parents. A
store that is right has no findings, and the time of another is not printed. Each time is the median of some runs.

    bench/verify.py [PROGRAM]
"""
import hashlib
import os
import shutil
import statistics
import struct
import subprocess
import sys
import tempfile
import time

TOP = os.path.dirname(os.path.dirname(os.path.abspath(__file__)))
NULL_NODE = bytes(20)
# Files, changesets, whether each changeset changes all files, and the bytes that a text has at least.
SHAPES = [
    (1, 10_000, False, 0),
    (200, 1_000, False, 0),
    (2_000, 500, False, 0),
    (2_000, 1_000, False, 0),
    (2_000, 20, True, 2_000),
    (1, 100_000, False, 0),
]
RUNS = 5


def revlog(texts, links):
    """Index, data and nodes of a separate revlog in which each text follows the one before it."""
    index, data, nodes = bytearray(), bytearray(), []
    for rev, text in enumerate(texts):
        parent = nodes[-1] if nodes else NULL_NODE
        chunk = b"u" + text
        node = hashlib.sha1(min(parent, NULL_NODE) + max(parent, NULL_NODE) + text).digest()
        entry = struct.pack(">Qiiiiii20s12x", len(data) << 16, len(chunk), len(text), rev, links[rev], rev - 1, -1, node)
        index += struct.pack(">I", 1) + entry[4:] if rev == 0 else entry
        data += chunk
        nodes.append(node)
    return bytes(index), bytes(data), nodes


def put(store, name, index, data):
    with open(os.path.join(store, name + ".i"), "wb") as file:
        file.write(index)
    with open(os.path.join(store, name + ".d"), "wb") as file:
        file.write(data)


def write_store(folder, files, count, all_change, size):
    """Lays a repository of so many files and changesets into the folder."""
    store = os.path.join(folder, ".hg", "store")
    os.makedirs(os.path.join(store, "data"))
    paths = [b"f%05d" % at for at in range(files)]
    changed = [list(range(files)) if rev == 0 or all_change else [rev % files] for rev in range(count)]
    revisions = [[] for _ in paths]
    for rev, these in enumerate(changed):
        for at in these:
            revisions[at].append(rev)
    nodes = []
    for at, path in enumerate(paths):
        index, data, own = revlog([(b"%d %d\n" % (rev, at)).ljust(size, b"x") for rev in revisions[at]], revisions[at])
        put(store, "data/" + path.decode(), index, data)
        nodes.append(iter(own))
    rows, manifests = [b""] * files, []
    for these in changed:
        for at in these:
            rows[at] = paths[at] + b"\0" + next(nodes[at]).hex().encode() + b"\n"
        manifests.append(b"".join(rows))
    index, data, manifest_nodes = revlog(manifests, range(count))
    put(store, "00manifest", index, data)
    texts = [
        node.hex().encode() + b"\ntest\n%d 0\n" % (60 * rev) + b"".join(paths[at] + b"\n" for at in these) + b"\nchange %d" % rev
        for rev, (node, these) in enumerate(zip(manifest_nodes, changed))
    ]
    put(store, "00changelog", *revlog(texts, range(count))[:2])
    with open(os.path.join(store, "fncache"), "wb") as file:
        file.write(b"".join(b"data/%s.%s\n" % (path, end) for path in paths for end in (b"i", b"d")))
    with open(os.path.join(folder, ".hg", "requires"), "w") as file:
        file.write("dotencode\nfncache\nrevlogv1\nstore\n")


def seconds(work):
    times = []
    for _ in range(RUNS):
        begin = time.monotonic()
        work()
        times.append(time.monotonic() - begin)
    return statistics.median(times)


def files_of(folder):
    for place, _, names in os.walk(folder):
        for name in names:
            with open(os.path.join(place, name), "rb") as file:
                yield os.path.join(place, name), file.read()


def hash_files(folder):
    for _, data in files_of(folder):
        hashlib.sha1(data).digest()


def hash_texts(folder):
    """The node of every text is compared. All revisions have one parent, the one before."""
    for name, index in files_of(folder):
        if not name.endswith(".i"):
            continue
        with open(name[:-1] + "d", "rb") as file:
            data = file.read()
        parent = NULL_NODE
        for place in range(0, len(index), 64):
            offset, stored, _, _, _, _, _, node = struct.unpack_from(">Qiiiiii20s", index, place)
            begin = offset >> 16 if place else 0
            if hashlib.sha1(NULL_NODE + parent + data[begin + 1 : begin + stored]).digest() != node:
                sys.exit(f"{name}: a text is not that of its node")
            parent = node


def verify(words, folder):
    done = subprocess.run(words, cwd=folder, capture_output=True)
    if done.returncode != 0:
        sys.exit(f"{words[0]}: status {done.returncode}: {done.stdout[-200:]!r}{done.stderr[-200:]!r}")


def main():
    own = os.path.abspath(sys.argv[1]) if len(sys.argv) > 1 else os.path.join(TOP, "bin", "hg_store")
    subprocess.run([own, "--version"], check=True, capture_output=True)
    print("files  changesets  one job  four jobs  hg verify  hashing of files  of texts, in seconds")
    for files, count, all_change, size in SHAPES:
        with tempfile.TemporaryDirectory() as folder:
            write_store(folder, files, count, all_change, size)
            bare, texts = seconds(lambda: hash_files(folder)), seconds(lambda: hash_texts(folder))
            one, four = (seconds(lambda: verify([own, "verify", "--jobs", jobs], folder)) for jobs in ("1", "4"))
            theirs = f"{seconds(lambda: verify(['hg', 'verify', '-q'], folder)):9.2f}" if shutil.which("hg") else "  (no hg)"
            print(f"{files:5}  {count:10}  {one:7.2f}  {four:9.2f}  {theirs}  {bare:16.2f}  {texts:8.2f}", flush=True)


if __name__ == "__main__":
    main()

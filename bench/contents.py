#!/usr/bin/env python3
"""Times `hg_store files` and `cat` over manifests of 1,000, 5,000 and 20,000 files.

The stores are written here, each text whole and uncompressed (Mercurial's help topic `internals.revlogs`): ten changesets, the
manifest of each of which names all files, and one filelog, that of the last path. Each time is the median of five runs, the
start of the process included. Beside it stands `hg` with the commands that say the same, where it is installed.

    bench/contents.py [COUNT..]
"""
import hashlib
import os
import shutil
import sys
import tempfile

from log import NULL_NODE, TOP, median, output_of, revlog

CHANGESETS = 10


def write_store(folder, count):
    """Lays a repository whose manifests name so many files into the folder, and returns the last path."""
    paths = [b"src/module%03d/file%05d.c" % (number // 100, number) for number in range(count)]
    bodies = [b"version %d\n" % rev for rev in range(CHANGESETS)]
    file_index, file_data = revlog(bodies)
    other = hashlib.sha1(NULL_NODE + NULL_NODE + b"other\n").hexdigest().encode()
    front = b"".join(b"%s\0%s\n" % (path, other) for path in paths[:-1])
    manifests = [
        front + b"%s\0%s\n" % (paths[-1], file_index[64 * rev + 32:64 * rev + 52].hex().encode())
        for rev in range(CHANGESETS)
    ]
    manifest_index, manifest_data = revlog(manifests)
    changes = [
        b"%s\nAda Lovelace <ada@example.org>\n%d 0\n%s\n\nversion %d" % (
            manifest_index[64 * rev + 32:64 * rev + 52].hex().encode(), 1_000_000_000 + 60 * rev, paths[-1], rev)
        for rev in range(CHANGESETS)
    ]
    changelog_index, changelog_data = revlog(changes)
    data = "store/data/" + paths[-1].decode()
    for name, content in {
            "requires": b"dotencode\nfncache\nrevlogv1\nstore\n",
            "store/00changelog.i": changelog_index,
            "store/00changelog.d": changelog_data,
            "store/00manifest.i": manifest_index,
            "store/00manifest.d": manifest_data,
            data + ".i": file_index,
            data + ".d": file_data,
            "store/fncache": b"data/%s.i\ndata/%s.d\n" % (paths[-1], paths[-1]),
    }.items():
        place = os.path.join(folder, ".hg", name)
        os.makedirs(os.path.dirname(place), exist_ok=True)
        with open(place, "wb") as file:
            file.write(content)
    return paths[-1].decode()


def beside(own, command, folder, has_hg):
    if not has_hg:
        return "not measured"
    usual = median(lambda: output_of(command, folder))
    return "{:.3f} ({:.3f} s)".format(own / usual, usual)


def measure(program, count, has_hg):
    folder = tempfile.mkdtemp(prefix="hg_store-bench-")
    try:
        path = write_store(folder, count)
        tip = str(CHANGESETS - 1)
        assert output_of([program, "files", tip], folder).count(b"\n") == count
        assert output_of([program, "cat", tip, path], folder) == b"version %d\n" % (CHANGESETS - 1)
        listing = median(lambda: output_of([program, "files", tip], folder))
        body = median(lambda: output_of([program, "cat", tip, path], folder))
        return "| {:,} | {:.4f} s | {} | {:.4f} s | {} |".format(
            count,
            listing, beside(listing, ["hg", "manifest", "--debug", "-r", tip], folder, has_hg),
            body, beside(body, ["hg", "cat", "-r", tip, path], folder, has_hg))
    finally:
        shutil.rmtree(folder)


def main():
    counts = [int(word) for word in sys.argv[1:]] or [1_000, 5_000, 20_000]
    program = output_of([os.path.join(TOP, "bin", "hg_store"), "--build"], TOP).decode().strip()
    has_hg = shutil.which("hg") is not None
    print("| files | `hg_store files` | to `hg manifest` | `hg_store cat` | to `hg cat` |")
    print("|---|---|---|---|---|")
    for count in counts:
        print(measure(program, count, has_hg), flush=True)
    if not has_hg:
        print("\n`hg` is not installed here, so the ratios to it were not measured.")


if __name__ == "__main__":
    main()
